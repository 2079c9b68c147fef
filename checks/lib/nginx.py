"""A real nginx before the counter, set up as the package and its page say."""

import os
import re
import shutil
import subprocess
import tempfile

from checks.lib.bridge import HOST, Closing, free_port, wait_until_listening

from checks import TOP

PAGE = "docs/counter.md"
# A clerk's name and password, as curl takes them, and a wrong one.
KNOWN = ["-u", "clerk:weigh-in"]
WRONG = ["-u", "clerk:guess"]


def replaced(name: str, text: str, *pairs: tuple[str, str]) -> str:
    """Replace texts that a file has to have."""
    for old, new in pairs:
        if old not in text:
            raise AssertionError(f"{name} doesn't have: {old}")
        text = text.replace(old, new)
    return text


def commands_of(folder: str) -> str:
    """Return the commands of the page that set nginx up, for files below a folder."""
    text = (TOP / PAGE).read_text(encoding="utf-8")
    section = text.split("## Put nginx in front")[1].split("\n## ")[0]
    blocks = re.findall(r"(?ms)^```sh root\n(.*?)^```", section)
    commands = replaced(
        PAGE,
        "set -e\n" + "".join(it for it in blocks if "systemctl" not in it),
        ("/etc/nginx", f"{folder}/etc/nginx"),
        ("/usr/share/doc/weighbridge-counter/examples", f"{TOP}/packaging/counter"),
        ("passwd -6", "passwd -6 weigh-in"),
    )
    if os.getuid() != 0:
        commands = commands.replace("chown ", "true ").replace("chmod 640", "chmod 644")
    return commands


class Nginx(Closing):
    """An nginx with files below a folder of its own, changed as the comments of its setup say."""

    def __init__(self, counter_port: int) -> None:
        self.folder = tempfile.mkdtemp(prefix="nginx-")
        self.port, self.plain = free_port(), free_port()
        os.chmod(self.folder, 0o755)
        os.makedirs(f"{self.folder}/etc/nginx/conf.d")
        subprocess.run(
            ["sh", "-c", commands_of(self.folder)], check=True, capture_output=True, cwd=TOP
        )
        path = f"{self.folder}/etc/nginx/conf.d/weighbridge-counter.conf"
        with open(path, encoding="utf-8") as file:
            setup = replaced(
                "nginx.conf",
                file.read(),
                ("listen 80", f"listen {HOST}:{self.plain}"),
                ("listen 443", f"listen {HOST}:{self.port}"),
                ("server 127.0.0.1:882;", f"server {HOST}:{counter_port};"),
                ("/etc/nginx/weighbridge/", f"{self.folder}/etc/nginx/weighbridge/"),
                ("weighbridge.example", HOST),
            )
        with open(path, "w", encoding="utf-8") as file:
            file.write(setup)
        kinds = ("client_body", "proxy", "fastcgi", "uwsgi", "scgi")
        paths = "".join(f"    {it}_temp_path {it};\n" for it in kinds)
        with open(f"{self.folder}/nginx.conf", "w", encoding="utf-8") as file:
            file.write(
                "user www-data;\ndaemon off;\nworker_processes 1;\npid nginx.pid;\nevents {}\n"
                f"http {{\n    access_log access.log;\n{paths}    include etc/nginx/conf.d/*.conf;\n}}\n"
            )
        words = ["nginx", "-p", self.folder, "-e", "error.log", "-c", "nginx.conf"]
        tried = subprocess.run([*words, "-t"], capture_output=True, text=True)
        if tried.returncode or "warn" in tried.stderr:
            raise AssertionError(f"nginx doesn't take its setup: {tried.stderr}")
        quiet = subprocess.DEVNULL
        self.process = subprocess.Popen(words, stdin=quiet, stdout=quiet, stderr=quiet)
        wait_until_listening(self.port, self.process)

    def ask(self, target: str, *words: str) -> str:
        """Return status and HTTP version of an answer by curl with these words."""
        return curl(f"https://{HOST}:{self.port}{target}", "%{http_code} %{http_version}", *words)

    def close(self) -> None:
        self.process.terminate()
        self.process.wait(20)
        shutil.rmtree(self.folder, ignore_errors=True)


def curl(address: str, shown: str, *words: str, within: float = 5) -> str:
    """Ask by curl without a look at the certificate, and return the fields of the answer that `shown` names."""
    command = ["curl", "-sk", "-m", str(within), "-o", "/dev/null", "-w", shown, *words, address]
    return subprocess.run(command, capture_output=True, text=True).stdout
