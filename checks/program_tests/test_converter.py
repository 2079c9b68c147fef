"""The program `weighbridge-converter` at files and lines at their limits, and what a service does with each kind of converter."""

import contextlib
import os
import pty
import resource
import signal
import subprocess
import sys
import time
from pathlib import Path
from typing import IO, Any

from checks.lib import bridge
from checks.lib.bridge import HOST
from checks.lib.case import skip_without
from checks.lib.program import compiled_converter
from checks.lib.tried_twice import BUILT, Ended, TriedTwice, addresses, contents, ended, limited
from checks.lib.waiting import wait_until

FAULT = (1, "", "converter fault\n")
# More than the lines of a writer that sends without end for some seconds.
MANY_TURNS = ("--turns", "1000000000")
# Brings up the loopback of a network of its own, where each stream has the port 40000 on this side, and runs a program there.
ALONE = """
import fcntl, os, socket, struct, sys
with socket.socket() as it:
    fcntl.ioctl(it, 0x8914, struct.pack("16sh", b"lo", 0x49))
with open("/proc/sys/net/ipv4/ip_local_port_range", "w") as it:
    it.write("40000 40001")
os.execv(sys.argv[1], sys.argv[1:])
"""


class Terminal:
    """The port of a service that isn't waited for."""

    def __init__(self, port: int) -> None:
        self.terminal = port


def run(*words: str, timeout: float = 60, **more: Any) -> Ended:
    """Return the status of a command, and what it printed and reported."""
    it = subprocess.run(words, capture_output=True, text=True, timeout=timeout, **more)
    return it.returncode, it.stdout, it.stderr


def shown(writer: IO[str], port: int, load: int) -> str:
    """Return what the service shows for a load, whose lines the writer sends twenty times a second."""

    def send() -> None:
        writer.write(f"{load}\n")
        writer.flush()

    def asked() -> str:
        for _ in range(8):
            send()
            time.sleep(0.05)
        with bridge.Terminal(Terminal(port)) as terminal:
            terminal.send(b"SI\r\n")
            send()
            return terminal.line()

    wanted = f"S S {load * 2:10} kg"
    with contextlib.suppress(TimeoutError):
        return wait_until(wanted, asked, lambda it: it == wanted)
    return asked()


def shown_after_flood(fifo: str, port: int) -> str:
    """Return what the service shows for a load of 500 tenths, after a writer sent lines for some seconds as fast as they were read."""
    try:
        with open(fifo, "w") as it:
            over = time.monotonic() + 4
            while time.monotonic() < over:
                it.write("2500\n" * 10_000)
            it.flush()
            return shown(it, port, 500)
    except (OSError, EOFError) as error:
        return str(error)


class Converter(TriedTwice):
    """The program that makes loads of counts."""

    def setUp(self) -> None:
        self.box = self.folder()
        self.file = f"{self.box}/calibration"
        if not os.path.exists(compiled_converter()):
            self.skipTest(f"{compiled_converter()} isn't built")

    def converter(self, *words: str, given: str = "", **more: Any) -> Ended:
        command = [compiled_converter(), *words, "--calibration", self.file]
        return run(*command, input=given, **more)

    def point(self, load: int, *counts: object, spread: int = 2) -> tuple[int, str]:
        given = "".join(f"{it}\n" for it in counts)
        words = ["--load", str(load), "--spread", str(spread), "--lines", "3"]
        status, _, err = self.converter("point", *words, given=given)
        return status, err

    def test_calibration(self) -> None:
        """Show the spread that is allowed, a line that is too long, and a full disk."""
        found = self.point(0, 100, 101, 102)
        self.same("a spread of what is allowed is accepted", (0, ""), found)
        refused = (1, "refused: a spread of 3 is above 2\n")
        self.same("one more is refused", refused, self.point(0, 100, 101, 103))
        found = self.point(0, "100" + "0" * 300, 100, 100)
        self.same("a line that is too long has no counts", (1, "line 1 has no counts\n"), found)
        self.same("a second point", (0, ""), self.point(10_000, 70_000, 70_000, 70_000))
        points = contents(self.box, "calibration.points")
        no_files = limited((resource.RLIMIT_FSIZE, 0))
        made = self.converter("finish", restore_signals=False, preexec_fn=no_files)
        fault = (1, "", "write fault\n")
        self.same("a calibration that has no space is a write fault", fault, made)
        self.same("its points are still there", points, contents(self.box, "calibration.points"))
        status, out, err = self.converter("finish")
        made = (status, out[:14], err)
        self.same("and it is made of them then", (0, "calibration 1\n", ""), made)
        self.same("when they are removed", {}, contents(self.box, "calibration.points"))

    @skip_without("unshare")
    def test_file_that_cannot_be_replaced(self) -> None:
        for load, counts in ((0, 100), (10_000, 80_000)):
            self.point(load, *[counts] * 3)
        self.converter("finish")
        before = contents(self.box, "calibration")["calibration"]
        for load, counts in ((0, 100), (10_000, 90_000)):
            self.point(load, *[counts] * 3)
        mount = ["unshare", "-m", "sh", "-c", 'mount --bind "$1" "$1"', "sh", self.file]
        if subprocess.run(mount, capture_output=True).returncode:
            self.skipTest("this user may not mount")
        mount[4] += ' && "$2" finish --calibration "$1"'
        fault = (1, "", "write fault\n")
        self.same("it is a write fault", fault, run(*mount, compiled_converter()))
        self.same("and is as it was", before, contents(self.box, "calibration")["calibration"])

    def test_fifo(self) -> None:
        """Show what `run --fifo` writes for a reader of the FIFO: no plain file is written over, and nothing that waited for a reader comes late."""
        for load in (0, 10_000):
            self.point(load, *[load] * 3, spread=0)
        self.converter("finish")
        fifo = f"{self.box}/fifo"
        words = ["run", "--fifo", fifo]
        fault = (1, "", "fifo fault: there is no FIFO at that path; mkfifo makes one\n")
        self.same("without a FIFO it doesn't run", fault, self.converter(*words))
        Path(fifo).write_text("a note\n", encoding="ascii")
        self.same("nor into a plain file", fault, self.converter(*words))
        self.same("which stays as it is", {"fifo": b"a note\n"}, contents(self.box, "fifo"))
        os.remove(fifo)
        os.mkfifo(fifo)
        command = [compiled_converter(), *words, "--calibration", self.file, "--verbose"]
        pipe = subprocess.PIPE
        process = subprocess.Popen(command, stdin=pipe, stdout=pipe, stderr=pipe, text=True)
        self.addCleanup(process.kill)
        assert process.stdin is not None  # it is a pipe
        given: IO[str] = process.stdin

        def send(counts: int, seconds: float) -> None:
            for _ in range(int(seconds * 10)):
                given.write(f"{counts}\n")
                given.flush()
                time.sleep(0.1)

        send(1111, 1.5)
        for counts in (2222, 3333):
            reader = os.open(fifo, os.O_RDWR | os.O_NONBLOCK)
            send(counts, 0.5)
            lines = set(os.read(reader, 65_536).split())
            self.same(f"a reader has what came since: {counts}", {b"%d" % counts}, lines)
            os.close(reader)
            send(4444, 1.5)
        reader = os.open(fifo, os.O_RDWR | os.O_NONBLOCK)
        given.close()
        process.stdin = None
        status, out, err = ended(process, 10)
        self.same("it ends with its input", (0, "lines "), (status, out[:6]))
        self.same("and reports that the reader left", 2, err.count("FIFO: gone\n"))
        os.close(reader)


class Sources(TriedTwice):
    """A service whose converter is a FIFO, a device or a port."""

    def test_fifo(self) -> None:
        fifo = f"{self.folder()}/fifo"
        os.mkfifo(fifo)
        process, terminal, _ = self.start(f"{fifo}.db", fifo, *MANY_TURNS)
        time.sleep(1)
        self.same("a FIFO without a writer is waited for", None, process.poll())
        for load in (9170, 4070):
            with open(fifo, "w") as it:
                found = shown(it, terminal, load)
            self.same(f"a FIFO's writer is read: {load}", f"S S {load * 2:10} kg", found)
            time.sleep(0.2)
            self.same(f"and waited for again when it is gone: {load}", None, process.poll())
        name = "one that sent without end for a while is read again"
        self.same(name, "S S       1000 kg", shown_after_flood(fifo, terminal))

    def test_old_lines(self) -> None:
        """Show that lines that a FIFO kept while the service stood still for more than a second are never shown."""
        fifo = f"{self.folder()}/kept"
        os.mkfifo(fifo)
        process, terminal, _ = self.start(f"{fifo}.db", fifo, *MANY_TURNS)
        with open(fifo, "w") as it:

            def send(lines: str, times: int = 1) -> None:
                for _ in range(times):
                    it.write(lines)
                    it.flush()
                    time.sleep(0.05)

            shown(it, terminal, 0)
            display = self.enterContext(bridge.Terminal(Terminal(terminal)))
            display.send(b"SIR\r\n")
            send("0\n", 10)
            process.send_signal(signal.SIGSTOP)
            send("9170\n" * 10)
            time.sleep(1.5)
            process.send_signal(signal.SIGCONT)
            time.sleep(0.3)
            send("0\n", 10)
            display.stream.settimeout(0.5)
            got = b""
            with contextlib.suppress(TimeoutError):
                while more := display.stream.recv(4096):
                    got += more
        self.holds("a line that waited for more than a second is old", b"18340" not in got, got)
        self.holds("and the others are shown", got.count(b" 0 kg") > 15, got)

    def test_device(self) -> None:
        ours, theirs = pty.openpty()
        process, _, _ = self.start(f"{self.folder()}/device.db", os.ttyname(theirs))
        os.write(ours, b"0\n")
        time.sleep(1)
        self.same("a device is waited for", None, process.poll())
        os.close(theirs)
        os.close(ours)
        self.same("a device that is unplugged is a fault", FAULT, ended(process))

    def test_port(self) -> None:
        source = f"tcp:{HOST}:{bridge.free_port()}"
        process, _, _ = self.start(f"{self.folder()}/nobody.db", source)
        self.same("a port on which nobody listens is no converter", FAULT, ended(process))

    @skip_without("unshare")
    def test_stream_to_itself(self) -> None:
        """Show that a stream to a port on which nobody listens connects to itself, if it comes from that port. That needs a network of its own."""
        if subprocess.run(["unshare", "-n", "true"], capture_output=True).returncode:
            self.skipTest("this user may not make a network")
        words = [BUILT, "serve", "--file", f"{self.folder()}/itself.db"]
        words += addresses(4001, 8080, "tcp:127.0.0.1:40000")
        found = run("unshare", "-n", sys.executable, "-c", ALONE, *words, timeout=10)
        self.same("a stream to itself is no converter", FAULT, found)
