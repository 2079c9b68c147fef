"""Copies on another host, by sftp of the distribution's OpenSSH.

A batch of sftp ends at the first command that fails, unless a `-` is before it. sftp accepts only a known key of the host.
It asks nobody for a password.
"""

import os
import re
from collections.abc import Iterable

from .files import Fault
from .folder import NEW, OLD, is_leftover
from .keep import Copy, copies_of
from .programs import Programs
from .setup import Place

# Of what killed nights left on a host, how many one night removes.
MOST_LEFTOVERS = 20
SHORT, LONG = 180.0, 4 * 3600.0  # seconds
SIZE = re.compile(r"\S+\s+\S+\s+\S+\s+\S+\s+(\d+)\s.*\s(\S+)")
TODO = "see operating.md, If a night failed"


class Remote:
    """A place of copies on another host."""

    def __init__(self, place: Place, bridge: str, programs: Programs) -> None:
        self.place, self.programs = place, programs
        self.own = f"{place.folder}/{bridge}"

    def words(self) -> list[str]:
        it = self.place
        options = {
            "BatchMode": "yes",
            "ConnectTimeout": "30",
            "IdentitiesOnly": "yes",
            "ServerAliveCountMax": "4",
            "ServerAliveInterval": "15",
            "StrictHostKeyChecking": "yes",
            "UserKnownHostsFile": it.known_hosts,
            "GlobalKnownHostsFile": "/dev/null",
        }
        words = ["/usr/bin/sftp", "-F", "none", "-P", str(it.port), "-i", it.key]
        for name, value in options.items():
            words += ["-o", f"{name}={value}"]
        host = f"[{it.host}]" if ":" in it.host else it.host
        return [*words, "-b", "-", f"{it.user}@{host}"]

    def batch(self, lines: Iterable[str], seconds: float = SHORT) -> list[str]:
        """Run commands, and return the lines that came, without the commands themselves."""
        ran = self.programs.run(self.words(), seconds, "".join(f"{it}\n" for it in lines))
        if ran.status != 0:
            raise Fault(f"{self.place.title}: {ran.said()}; {TODO}")
        return [it.strip() for it in ran.out.splitlines() if not it.startswith("sftp>")]

    def names(self) -> list[str]:
        return [it.rpartition("/")[2] for it in self.batch([f"ls -1a {self.own}"])]

    def ready(self) -> None:
        """Raise a Fault if the host can't be reached."""
        self.batch(["pwd"])

    def removal(self, name: str) -> list[str]:
        """Return the commands that remove a folder of files."""
        return [f"-rm {self.own}/{name}/*", f"rmdir {self.own}/{name}"]

    def open(self) -> list[str]:
        """Make the place ready, and remove what a night that was killed left. Return what can't be removed."""
        self.batch([f"-mkdir {self.place.folder}", f"-mkdir {self.own}", f"ls -1a {self.own}"])
        left: list[str] = []
        found = [it for it in self.names() if is_leftover(it)]
        for name in found[:MOST_LEFTOVERS]:
            try:
                self.batch(self.removal(name))
            except Fault:
                left.append(f"{self.place.title}/{name}")
        return left + [f"{self.place.title}/{it}" for it in found[MOST_LEFTOVERS:]]

    def copies(self) -> list[Copy]:
        """Return the copies, the newest first."""
        return copies_of(self.names())

    def store(self, folder: str, copy: Copy) -> None:
        """Keep this folder as a copy. It has its name only once the host has all of it."""
        if copy.name in self.names():
            raise Fault(
                f"{self.place.title}/{copy.name}: the name exists, so nothing was overwritten; move it away"
            )
        new = f"{self.own}/{NEW}{copy.name}"
        names = sorted(os.listdir(folder))
        puts = [f'put -f "{os.path.join(folder, it)}" {new}/{it}' for it in names]
        try:
            self.batch([f"mkdir {new}", *puts], LONG)
        except Fault:
            self.drop(NEW + copy.name)
            raise
        found = {}
        for line in self.batch([f"ls -ln {new}"]):
            if it := SIZE.fullmatch(line):
                found[it[2].rpartition("/")[2]] = int(it[1])
        wanted = {it: os.path.getsize(os.path.join(folder, it)) for it in names}
        if found != wanted:
            raise Fault(
                f"{self.place.title}: the host has other sizes than were sent ({found}, not {wanted});"
                " see whether its disk is full"
            )
        self.batch([f"rename {new} {self.own}/{copy.name}"])

    def drop(self, name: str) -> None:
        """Remove a copy that isn't whole. If that fails too, the next night removes it."""
        try:
            self.batch(self.removal(name))
        except Fault:
            pass

    def remove(self, copy: Copy) -> None:
        """Remove a copy. It loses its name first, so that no part of it looks whole."""
        old = OLD + copy.name
        self.batch([f"rename {self.own}/{copy.name} {self.own}/{old}", *self.removal(old)])
