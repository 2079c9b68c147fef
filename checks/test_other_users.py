"""Shows that each attack of another user of the machine fails, on ports, the FIFO and folders, with the rules of
`weighbridge-ports` and without.

The attacks include false offices and converters, and links.

The check has a network and mounts of its own, with the users that the packages make, and a stranger. The service, the
converter and the counter run as their units say, with the ports of the shipped setups, the capability to use these, and
the FIFO of packaging/weighbridge/tmpfiles.conf.

- Before the rules of packaging/weighbridge/ports are loaded, the stranger reaches the office, the terminal, the counter
  and a till's port. With the rules he is refused, even if his own kernel opens the connection for him. An address has a
  hundred connections to the web server.
- With the rules and without, he can't use a port while its owner is away. He can't write the FIFO, read it or replace
  it, and can't read a folder.
- With the rules and without, one of these programs that was taken over can't do more than its part, not even by a link
  while a package is installed.
- On a machine that kept its ports above 1023, the stranger occupies the converter's and the office's port. By the
  rules nobody hears him.

It changes nothing on the machine.
"""

import contextlib
import os
import re
import shutil
import subprocess
import tempfile
import time
from pathlib import Path
from typing import Any

from checks import TOP
from checks.lib import namespaces
from checks.lib.bridge import HOST, is_listening
from checks.lib.case import PROGRAM, Check, lacked, skip_without
from checks.lib.program import compiled, compiled_converter
from checks.lib.tried_twice import addresses
from checks.lib.waiting import wait_until

PACKAGING = TOP / "packaging"
PORTS = PACKAGING / "weighbridge/ports/ports"
# The package makes weighbridge-audit by hand, and this check makes no users.
USERS = {
    "weighbridge": 901,
    "weighbridge-counter": 902,
    "weighbridge-head-office": 903,
    "www-data": 33,
    "weighbridge-converter": 905,
    "stranger": 904,
    "weighbridge-night": 906,
    "weighbridge-alarm": 907,
    "weighbridge-audit": 908,
}
SETUPS = {
    "weighbridge.conf": "weighbridge/weighbridge.conf",
    "weighbridge-converter.conf": "weighbridge/weighbridge-converter.conf",
    "weighbridge-ports.conf": "weighbridge/ports/weighbridge-ports.conf",
    "weighbridge-counter.toml": "counter/weighbridge-counter.toml",
}
# The folders of the programs, by their owners.
FOLDERS = {
    "journal": "weighbridge",
    "converter": "weighbridge-converter",
    "state": "weighbridge-counter",
}
# The changes of the shipped setups on a machine that kept its ports.
PORTS_OF: dict[str, dict[str, str]] = {
    "shipped": {},
    "kept": {":881": ":4001", ":880": ":8080", "_LISTEN=": "_LISTEN=127.0.0.1:4000"},
}
PYTHON, FIFO = "/usr/bin/python3", "/run/weighbridge/converter"
OWN_ROOT = ("unshare", "--user", "--map-root-user")
LOW_PORTS = [
    *("--inh-caps", "+net_bind_service", "--ambient-caps", "+net_bind_service"),
    *("--bounding-set", "-all,+net_bind_service"),
]
# Prints a word for what a stranger's act came to: the answer, or why there is none.
TYPES = "import socket, sys; s = socket.create_connection(('127.0.0.1', int(sys.argv[1])), 3); s.settimeout(3); s.sendall(sys.argv[2].encode() + b'\\r\\n'); print(s.recv(64).decode().strip())"
ACTS = {
    "binds": "import socket, sys; socket.create_server(('127.0.0.1', int(sys.argv[1])))",
    "binds any": "import socket, sys; socket.create_server(('0.0.0.0', int(sys.argv[1])))",
    "writes": "import os, sys; os.write(os.open(sys.argv[1], os.O_WRONLY | os.O_NONBLOCK), b'9170\\n')",
    "reads": "import os, sys; os.read(os.open(sys.argv[1], os.O_RDONLY | os.O_NONBLOCK), 1)",
    "removes": "import os, sys; os.remove(sys.argv[1])",
    "renames": "import os, sys; os.rename(sys.argv[1], sys.argv[1] + '-old')",
    "lists": "import os, sys; os.listdir(sys.argv[1])",
}
# The lines of a converter, ten a second: the load is its word.
PLAYED_CONVERTER = """
import socket, sys, time
with socket.create_server(("127.0.0.1", int(sys.argv[1]))) as door:
    print("listens", flush=True)
    stream, _ = door.accept()
    while True:
        stream.sendall(sys.argv[2].encode() + b"\\n")
        time.sleep(0.1)
"""
# The counts of a reader, ten a second, until its standard output is gone.
PLAYED_READER = (
    "import sys, time\nwhile True:\n    print(sys.argv[1], flush=True)\n    time.sleep(0.1)"
)
# Answers whoever connects to the office's port as the office would.
FALSE_OFFICE = """
import socket, sys
with socket.create_server(("127.0.0.1", int(sys.argv[1]))) as door:
    print("listens", flush=True)
    while True:
        stream, _ = door.accept()
        stream.recv(1024)
        stream.sendall(b"HTTP/1.1 200 OK\\r\\nContent-Length: 8\\r\\nConnection: close\\r\\n\\r\\nFORGED 1")
        stream.close()
"""
WEB_SERVER = "import socket, time; door = socket.create_server(('::', 443), family=socket.AF_INET6, dualstack_ipv6=True, backlog=500); print('listens', flush=True); time.sleep(60)"
# Opens 130 connections from an address, and prints how many are accepted.
OPENS = """
import socket, sys
kept = []
for _ in range(130):
    try:
        kept.append(socket.create_connection(("::1" if ":" in sys.argv[1] else "127.0.0.1", 443), 3, (sys.argv[1], 0)))
    except OSError:
        pass
print(len(kept))
"""
# A client of MPTCP and its server, which names to it an address at the terminal's port. The client's kernel opens a connection there, as for other families of sockets.
TELLS = "import socket, time; door = socket.socket(2, 1, 262); door.bind(('127.0.0.1', 5000)); door.listen(); print('listens', flush=True); it = door.accept()[0]; time.sleep(2)"
IS_TOLD = """
import socket, time
it = socket.socket(2, 1, 262)
it.connect(("127.0.0.1", 5000))
for _ in range(6):
    it.sendall(b"x")
    time.sleep(0.2)
"""
# Setups of the counter, with the ports in the rules for it.
COUNTERS: tuple[tuple[str, list[str]], ...] = (
    (
        "\"listen\" = '127.0.0.1:1882'\nport = [{name = \"till\", listen = '127.0.0.1:1883'}]\n",
        ["1882", "1883"],
    ),
    (
        '[[ port ]]\n  listen="127.0.0.1:1883" # of "127.0.0.1:99"\n[[port]]\nlisten = "127.0.0.2:1884"\n',
        ["8090", "1883,1884"],
    ),
    (
        '[[port]]\nlisten = "127.0.0.1:1883"\n[[scoreboard]]\nlisten = "127.0.0.1:1885"\n[[scoreboard]]\ndevice = "/dev/ttyS0"\n',
        ["8090", "1883,1885"],
    ),
    ('[[scoreboard]]\nlisten = "127.0.0.1:1885"\n', ["8090", "1885"]),
    ('listen = "127.0.0.1:1882"\n', ["1882"]),
    ("listen\n", []),
)
Process = subprocess.Popen[str]


def words_of(user: str, *words: str, capability: list[str] = []) -> list[str]:
    number = str(USERS[user])
    own = ["--reuid", number, "--regid", number, "--clear-groups", "--no-new-privs", *capability]
    return ["setpriv", *own, *words]


def ran_as(user: str, *words: str) -> subprocess.CompletedProcess[str]:
    return subprocess.run(words_of(user, *words), capture_output=True, text=True, timeout=20)


def python_as(user: str, code: str, *words: object, by: tuple[str, ...] = ()) -> str:
    """Return what the code prints, or why it can't do its act."""
    it = ran_as(user, *by, PYTHON, "-c", code, *map(str, words))
    if it.returncode == 0:
        return it.stdout.strip() or "done"
    if re.search("Refused|Reset", it.stderr):
        return "refused"
    return "not permitted" if "PermissionError" in it.stderr else it.stderr.strip().split("\n")[-1]


def ask_as(
    user: str,
    port: int,
    route: str,
    body: str | None = None,
    host: str = HOST,
    by: tuple[str, ...] = (),
) -> str:
    """Return what a user's curl prints, or why it can't connect."""
    more = [] if body is None else ["-d", body]
    it = ran_as(user, *by, "curl", "-s", "-m", "3", f"http://{host}:{port}{route}", *more)
    why = {0: it.stdout.strip(), 7: "refused", 56: "refused", 28: "no answer"}
    return why.get(it.returncode, f"status {it.returncode}")


def first_word(said: str) -> str:
    """Return the first field of a table, line or sentence."""
    return re.split("[, \n]", said)[0]


def first_line(said: str) -> str:
    return said.partition("\n")[0]


def sets_zero_by_form(port: int) -> bool | str:
    """Return whether a form of a page sets zero, whatever the status: a terminal is no server."""
    form = ["curl", "-s", "-m", "2", "-d", "Z\r\n", f"http://{HOST}:{port}/", "--http0.9"]
    it = ran_as("stranger", *form)
    return "refused" if it.returncode == 7 else "Z A" in it.stdout.splitlines()


def begin(words: list[str], waits: bool = False, **more: Any) -> Process:
    """Start a program, and wait for its first line if it prints one once it listens."""
    quiet, pipe = subprocess.DEVNULL, subprocess.PIPE
    process = subprocess.Popen(words, stdin=quiet, stdout=pipe, stderr=quiet, text=True, **more)
    if waits and process.stdout:
        process.stdout.readline()
    return process


def end(*processes: Process) -> None:
    for it in processes:
        it.kill()
        it.communicate()


def values_in(setup: str, name: str) -> list[str]:
    text = (PACKAGING / SETUPS[setup]).read_text(encoding="utf-8")
    return re.findall(rf'^{name} *= *"?([^"\n]*)"?$', text, re.M)


def ports_in(setup: str, name: str) -> list[int]:
    return [int(it.rpartition(":")[2]) for it in values_in(setup, name)]


class Machine:
    """The programs on it, each as the user of its unit."""

    def __init__(self, folder: str) -> None:
        self.folder, self.setups = folder, f"{folder}/shipped/etc"
        self.terminal, self.office = (
            ports_in("weighbridge.conf", f"WEIGHBRIDGE_{it}")[0] for it in ("TERMINAL", "OFFICE")
        )
        self.counter, self.till = ports_in("weighbridge-counter.toml", "listen")[:2]
        self.has_counter = not (lacks := lacked(("aiohttp", "prometheus_client")))
        if lacks:
            print(f"left out: the counter, because {'; '.join(lacks)}")
        self.running: list[Process] = []

    def start(self) -> None:
        source = values_in("weighbridge.conf", "WEIGHBRIDGE_CONVERTER")[0]
        self.running = [self.feed(), self.serve(self.terminal, self.office, source)]
        if self.has_counter:
            self.running.append(self.start_counter())

    def feed(self) -> Process:
        """Start the converter as its unit runs it, with a reader that is played."""
        words = f"{PYTHON} -c '{PLAYED_READER}' 0 | {self.folder}/weighbridge-converter run --calibration {self.folder}/converter/calibration --fifo {FIFO}"
        own = words_of("weighbridge-converter", "sh", "-c", words)
        return begin(own, start_new_session=True)

    def serve(self, terminal: int, office: int, converter: str) -> Process:
        words = [
            f"{self.folder}/weighbridge",
            "serve",
            "--file",
            f"{self.folder}/journal/journal.db",
        ]
        words += [*addresses(terminal, office, converter), "--turns", "1000000000"]
        return self.begin_at(office, "weighbridge", *words)

    def start_counter(self) -> Process:
        script = f"{self.folder}/counter/weighbridge-counter"
        setup = f"{self.setups}/weighbridge-counter.toml"
        return self.begin_at(self.counter, "weighbridge-counter", PYTHON, "-B", script, setup)

    def begin_at(self, port: int, user: str, *words: str) -> Process:
        """Start a program that listens at a port below 1024, and let it settle for a second."""
        process = begin(words_of(user, *words, capability=LOW_PORTS))
        with contextlib.suppress(TimeoutError):  # the rules may refuse root, too
            wait_until(f"{words[0]} listens", lambda: is_listening(port), seconds=10, pause=0.1)
        time.sleep(1)
        return process

    def stop(self) -> None:
        if self.running:
            os.killpg(self.running[0].pid, 9)
            end(*self.running)
        self.running = []


def unmount(*paths: str) -> None:
    subprocess.run(["umount", *paths], check=False)


def put_users(folder: str) -> None:
    """Make the users and groups of the packages, only in this mount."""
    for name, form in (
        ("passwd", "{0}:x:{1}:{1}::/nonexistent:/usr/sbin/nologin\n"),
        ("group", "{0}:x:{1}:\n"),
    ):
        own = Path("/etc", name).read_text(encoding="utf-8").splitlines(keepends=True)
        lines = [line for line in own if line.split(":")[0] not in USERS]
        text = "".join([*lines, *(form.format(*it) for it in USERS.items())])
        Path(folder, name).write_text(text, encoding="utf-8")
        subprocess.run(["mount", "--bind", f"{folder}/{name}", f"/etc/{name}"], check=True)


def put_files(folder: str) -> None:
    """Make the programs, the setups and the folders, each with its owner."""
    programs = {"weighbridge": compiled(), "weighbridge-converter": compiled_converter()}
    for name, path in programs.items():
        subprocess.run(["install", "-m", "0755", path, f"{folder}/{name}"], check=True)
    unneeded = shutil.ignore_patterns("__pycache__", "tests")
    shutil.copytree(TOP / "counter", f"{folder}/counter", ignore=unneeded)
    # next to the program, as the package has it
    shutil.copy(TOP / "clients/refusals.txt", f"{folder}/counter")
    for name, owner in FOLDERS.items():
        os.mkdir(f"{folder}/{name}", 0o700)
        os.chown(f"{folder}/{name}", USERS[owner], USERS[owner])
    calibration = f"{folder}/converter/calibration"
    for words, counts in (
        ("point --load 0 --spread 0", "0\n" * 50),
        ("point --load 30000 --spread 0", "30000\n" * 50),
        ("finish", ""),
    ):
        by = [f"{folder}/weighbridge-converter", *words.split(), "--calibration", calibration]
        own = words_of("weighbridge-converter", *by)
        subprocess.run(own, input=counts, text=True, check=True, capture_output=True)
    for kind, ports in PORTS_OF.items():
        os.makedirs(f"{folder}/{kind}/etc")
        for name, source in SETUPS.items():
            text = (PACKAGING / source).read_text(encoding="utf-8")
            text = text.replace("/var/lib/weighbridge-counter", f"{folder}/state")
            for shipped, kept in ports.items():
                text = text.replace(shipped, kept)
            Path(folder, kind, "etc", name).write_text(text, encoding="utf-8")


class OtherUsers(Check):
    """The attacks of a stranger, and of programs that were taken over."""

    needs = (PROGRAM, "root", "curl", "nft", "unshare", "setpriv", "systemd-tmpfiles", "ip")
    seconds = 40
    machine: Machine

    @classmethod
    def setUpClass(cls) -> None:
        cls.enterClassContext(namespaces.own("net", "mnt"))
        subprocess.run(["ip", "link", "set", "lo", "up"], check=True)
        subprocess.run(["mount", "-t", "tmpfs", "-o", "mode=0755", "none", "/run"], check=True)
        folder = cls.enterClassContext(tempfile.TemporaryDirectory())
        os.chmod(folder, 0o755)
        put_users(folder)
        cls.addClassCleanup(unmount, "/etc/passwd", "/etc/group")
        put_files(folder)
        setup = str(PACKAGING / "weighbridge/tmpfiles.conf")
        subprocess.run(["systemd-tmpfiles", "--create", setup], check=True)
        cls.machine = Machine(folder)

    def tearDown(self) -> None:
        self.machine.stop()

    def ports(self, what: str, kind: str) -> subprocess.CompletedProcess[str]:
        """Run the script of the rules below a root of this kind."""
        root = {**os.environ, "ROOT": f"{self.machine.folder}/{kind}"}
        return subprocess.run([PORTS, what], env=root, capture_output=True, text=True)

    def rules(self, what: str, kind: str = "shipped") -> None:
        it = self.ports(what, kind)
        self.same(f"the rules: {what}", (0, ""), (it.returncode, it.stderr))

    def load_rules(self, kind: str = "shipped") -> None:
        self.rules("load", kind)
        self.addCleanup(self.rules, "unload")

    def test_ports_below_1024(self) -> None:
        first = Path("/proc/sys/net/ipv4/ip_unprivileged_port_start").read_text().strip()
        self.same("the ports below 1024 are root's", "1024", first)

    def test_ports_of_odd_setups(self) -> None:
        folder = f"{self.machine.folder}/odd"
        shutil.copytree(f"{self.machine.folder}/shipped", folder)
        with open(f"{folder}/etc/weighbridge-converter.conf", "a", encoding="utf-8") as file:
            file.write(" WEIGHBRIDGE_LISTEN='127.0.0.1:1880' \n")
        for text, wanted in COUNTERS:
            Path(folder, "etc/weighbridge-counter.toml").write_text(text, encoding="utf-8")
            made = self.ports("print", "odd")
            ports = re.findall(r"tcp dport { ([\d,]+) } meta skuid !=", made.stdout)
            found = (made.returncode, ports, "can't be read" in made.stderr)
            what = f"the rules for the counter of {text!r}"
            self.same(what, (0, ["1880", *wanted], not wanted), found)

    def test_without_the_rules(self) -> None:
        self.show_all(False)

    def test_with_the_rules(self) -> None:
        self.load_rules()
        self.show_all(True)

    def show_all(self, has_rules: bool) -> None:
        self.machine.start()
        self.ask_all(has_rules)
        self.machine.stop()
        self.take_ports()
        self.open_many(has_rules)
        self.open_by_the_kernel(has_rules)

    def ask_all(self, has_rules: bool) -> None:
        """Show what each program answers the stranger. With the rules each refuses him, and users who may connect still can."""
        it, stranger, has_counter = self.machine, "stranger", self.machine.has_counter
        empty, page = "STABLE G          0 kg N          0 kg", "<!DOCTYPE html>"

        def refused(name: str, without: object, found: object) -> None:
            self.same(name, "refused" if has_rules else without, found)

        for name, without, route, body in (
            ("the stranger asks for the indication", empty, "/indication", None),
            ("purges", "PURGED 0", "/purge", ""),
            ("weighs", "refused 8 below_min", "/weighings", "key=X1&kind=first&plate=AB-12"),
            ("voids", "refused 13 no_open", "/voids", "key=X2&plate=AB-12"),
        ):
            refused(name, without, ask_as(stranger, it.office, route, body))
        found = first_word(ask_as(stranger, it.office, "/journal.csv"))
        refused("gets the journal", "number", found)
        for host in ("0.0.0.0", "[::ffff:127.0.0.1]"):
            found = ask_as(stranger, it.office, "/purge", "", host)
            refused(f"asks by {host}", "PURGED 0", found)
        found = ask_as(stranger, it.office, "/purge", "", by=OWN_ROOT)
        refused("asks as the root of a user namespace of his own", "PURGED 0", found)
        port = it.till if has_counter else it.terminal
        refused("sets zero by a form of a page", True, sets_zero_by_form(port))
        if has_counter:
            found = first_line(ask_as(stranger, it.counter, "/"))
            refused("asks the counter's page", page, found)
            found = ask_as(stranger, it.counter, "/zero", "")
            refused("sets zero at the counter", '{"said": "Z A"}', found)
            for line, without in (("Z", "Z A"), ("TA 5000 kg", "TA A       5000 kg")):
                found = python_as(stranger, TYPES, it.till, line)
                refused(f"types {line} at a till's port", without, found)
            found = first_line(ask_as("www-data", it.counter, "/"))
            self.same("nginx asks the counter", page, found)
            end(it.running.pop())
            time.sleep(0.5)
        for line, without in (
            ("SI", "S S      -5000 kg" if has_counter else "S S          0 kg"),
            ("Z", "Z A"),
            ("TA 5000 kg", "TA A       5000 kg"),
        ):
            found = python_as(stranger, TYPES, it.terminal, line)
            refused(f"types {line} at the terminal", without, found)
        taken_over = "refused" if has_rules else "STABLE"
        for user, wanted, route in (
            ("weighbridge-counter", "STABLE", "/indication"),
            ("weighbridge-head-office", "number", "/journal.csv"),
            ("weighbridge-converter", taken_over, "/indication"),
        ):
            found = first_word(ask_as(user, it.office, route))
            self.same(f"{user} asks for {route}", wanted, found)

    def take_ports(self) -> None:
        """Show that only the owner can take a port while nothing runs."""
        it = self.machine
        for name, port in (
            ("office", it.office),
            ("terminal", it.terminal),
            ("counter", it.counter),
            ("till", it.till),
        ):
            for act in ("binds", "binds any"):
                found = python_as("stranger", ACTS[act], port)
                self.same(f"the stranger {act} the port of the {name}", "not permitted", found)
        found = python_as("stranger", ACTS["binds"], it.office, by=OWN_ROOT)
        self.same("nor as the root of a user namespace", "not permitted", found)

    def open_many(self, has_rules: bool) -> None:
        """Open connections to the web server from a client on the network, which sends nothing on them."""
        server, most = begin([PYTHON, "-c", WEB_SERVER], waits=True), "100" if has_rules else "130"
        for it in (HOST, "127.0.0.2", "::1"):
            ran = subprocess.run([PYTHON, "-c", OPENS, it], capture_output=True, text=True)
            what = f"of 130 connections of {it} to the web server are accepted"
            self.same(what, most, ran.stdout.strip())
        end(server)

    def open_by_the_kernel(self, has_rules: bool) -> None:
        """Show that what the kernel opens for the stranger has no user yet."""
        port = self.machine.terminal
        for words in (
            "limits set subflows 4 add_addr_accepted 4",
            f"endpoint add 127.0.0.3 port {port} signal",
        ):
            if subprocess.run(["ip", "mptcp", *words.split()], capture_output=True).returncode:
                print("left out: what the kernel opens for a stranger, because it has no MPTCP")
                return
        probe = f"table inet probe\ndelete table inet probe\ntable inet probe {{ chain input {{ type filter hook input priority 0; ip daddr 127.0.0.3 tcp dport {port} tcp flags syn counter; }}; }}"
        subprocess.run(["nft", "-f", "-"], input=probe, text=True, check=True)
        server = begin([PYTHON, "-c", TELLS], waits=True)
        python_as("stranger", IS_TOLD)
        end(server)
        listed = ["nft", "list", "table", "inet", "probe"]
        counted = subprocess.run(listed, capture_output=True, text=True).stdout
        what = "the terminal's port is reached by what the kernel opens for a stranger"
        self.same(what, not has_rules, "packets 0 " not in counted)
        subprocess.run(["ip", "mptcp", "endpoint", "flush"], check=True)
        subprocess.run(["nft", "delete", "table", "inet", "probe"], check=True)

    def test_fifo_and_folders(self) -> None:
        every = ("writes", "reads", "removes", "renames")
        own = {"weighbridge-converter": every[1:], "weighbridge": every[2:]}
        others = ("stranger", "weighbridge-counter", "weighbridge-head-office", "www-data")
        for user in (*others, "weighbridge-converter", "weighbridge"):
            acts = own.get(user, every)
            found = [python_as(user, ACTS[act], FIFO) for act in acts]
            self.same(f"{user} {', '.join(acts)} the FIFO", ["not permitted"] * len(acts), found)
            for name, owner in FOLDERS.items():
                if owner != user:
                    said = python_as(user, ACTS["lists"], f"{self.machine.folder}/{name}")
                    self.same(f"{user} lists the folder {name}", "not permitted", said)

    @skip_without("adduser")
    def test_installation(self) -> None:
        """Show what postinst does as root in the folder of a service that was taken over: it moves a calibration, and no link that the service continues to write."""
        subprocess.run(["mount", "-t", "tmpfs", "-o", "mode=0755", "none", "/var/lib"], check=True)
        self.addCleanup(unmount, "/var/lib")
        kept, now = "/var/lib/weighbridge/calibration", "/var/lib/weighbridge-converter/calibration"
        for name, words, is_moved in (
            ("file", ["touch", kept], True),
            ("link", ["ln", "-s", "/run/weighbridge/started", kept], False),
        ):
            os.makedirs(os.path.dirname(kept), exist_ok=True)
            os.chown(os.path.dirname(kept), USERS["weighbridge"], USERS["weighbridge"])
            subprocess.run(words_of("weighbridge", *words), check=True)
            script = PACKAGING / "weighbridge/debian/weighbridge.postinst"
            made = subprocess.run([script, "configure", ""], capture_output=True, text=True)
            found = (made.returncode, os.path.exists(now), os.path.islink(now))
            what = f"a calibration that is a {name} is moved at an installation, or left out"
            self.same(what, (0, is_moved, False), found)
            Path(now).unlink(missing_ok=True)

    def test_kept_ports_without_the_rules(self) -> None:
        self.show_kept_ports(False)

    def test_kept_ports_with_the_rules(self) -> None:
        self.load_rules("kept")
        self.show_kept_ports(True)
        empty = "STABLE G          0 kg N          0 kg"
        self.weighs("the converter itself is heard", "weighbridge-converter", 0, empty)

    def show_kept_ports(self, has_rules: bool) -> None:
        """On a machine with ports above 1023 the stranger takes one while its owner is away, and answers there."""
        false_office = begin(words_of("stranger", PYTHON, "-c", FALSE_OFFICE, "8080"), True)
        heard = ask_as("weighbridge-counter", 8080, "/tickets/1")
        answer = "no answer" if has_rules else "FORGED 1"
        self.same("what the counter hears of a false office at 8080", answer, heard)
        end(false_office)
        wanted = "refused" if has_rules else "STABLE G      18340 kg N      18340 kg"
        self.weighs("what a false converter at 4000 weighs", "stranger", 9170, wanted)

    def weighs(self, name: str, user: str, load: int, wanted: str) -> None:
        """Show what a service indicates that listens to this user's converter at port 4000, which sends the load."""
        words = words_of(user, PYTHON, "-c", PLAYED_CONVERTER, "4000", str(load))
        converter = begin(words, waits=True)
        service = self.machine.serve(4001, 8080, f"tcp:{HOST}:4000")
        time.sleep(2)
        self.same(name, wanted, ask_as("weighbridge-counter", 8080, "/indication"))
        end(service, converter)
        time.sleep(0.5)
