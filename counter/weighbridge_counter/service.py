"""Which process is the service: its words, its start and its program, as /proc shows them to every user of the machine.

A start is told from a connection that was only cut by the process and the moment of its start. The zero that was set before a start may be lost.
"""

import os
import stat
import subprocess
import time
import uuid
from dataclasses import dataclass
from pathlib import Path

PROC = Path("/proc")
BOOT = "WEIGHBRIDGE_BOOT"  # the start of the machine, said by the unit, which shows no file of /proc but those of processes
VERSION_WITHIN = 5.0  # seconds


@dataclass(frozen=True)
class Service:
    process: int
    started_ticks: int  # since the machine's start
    boot: str
    words: tuple[str, ...]

    @property
    def identity(self) -> str:
        return f"{self.boot} {self.process} {self.started_ticks}"

    def started_at(self) -> float:
        """Seconds since 1970."""
        booted = time.time() - time.clock_gettime(time.CLOCK_BOOTTIME)
        return booted + self.started_ticks / os.sysconf("SC_CLK_TCK")


def boot_of() -> str:
    return str(
        uuid.UUID(os.environ.get(BOOT) or (PROC / "sys/kernel/random/boot_id").read_text().strip())
    )


def listener_user(address: tuple[str, int]) -> int | None:
    """Return the user whose process listens on the address. Return None if there is none, or it can't be seen."""
    wanted = "%s:%04X" % (
        "".join(f"{int(it):02X}" for it in reversed(address[0].split("."))),
        address[1],
    )
    try:
        rows = [it.split() for it in (PROC / "self/net/tcp").read_text().splitlines()[1:]]
    except OSError:
        return None
    return next((int(it[7]) for it in rows if it[1] == wanted and it[3] == "0A"), None)


def find_service(terminal: tuple[str, int]) -> Service | None:
    """Return the process that serves this terminal by its arguments, of the user who listens on its address. Return None if none can be seen."""
    user, wanted = listener_user(terminal), f"{terminal[0]}:{terminal[1]}"
    if user is None:
        return None
    for folder in PROC.iterdir():
        if not folder.name.isdigit():
            continue
        try:
            words = (
                (folder / "cmdline")
                .read_bytes()
                .decode("utf-8", "replace")
                .rstrip("\0")
                .split("\0")
            )
            if "serve" not in words or wanted not in words or folder.stat().st_uid != user:
                continue
            ticks = int((folder / "stat").read_text().rpartition(")")[2].split()[19])
            return Service(int(folder.name), ticks, boot_of(), tuple(words))
        except (OSError, IndexError, ValueError):
            continue
    return None


def is_safe(path: Path) -> bool:
    """Return whether only root and this user can put another program there."""
    for it in (path, *path.parents):
        found = it.stat()
        shared = found.st_mode & (
            stat.S_IWOTH if found.st_gid in (0, os.getegid()) else stat.S_IWOTH | stat.S_IWGRP
        )
        if found.st_uid not in (0, os.geteuid()) or (
            shared and (it == path or not found.st_mode & stat.S_ISVTX)
        ):
            return False
    return True


def program_of(service: Service) -> dict[str, str | bool]:
    """Return what the program's file says of itself, and whether it changed since the service started, so that another one runs.

    A process names its program as it likes, and one that was taken over as its user can: one that isn't safe isn't run.
    """
    path = Path(service.words[0])
    try:
        program = path.resolve(strict=True)
        if not is_safe(program):
            raise PermissionError(program)
        said = subprocess.run(
            [program, "--version"],
            capture_output=True,
            text=True,
            timeout=VERSION_WITHIN,
            stdin=subprocess.DEVNULL,
        ).stdout
        changed = (
            path.stat().st_mtime > service.started_at()
            or path.stat().st_ctime > service.started_at()
        )
    except (OSError, RuntimeError, subprocess.SubprocessError):  # RuntimeError: links in a circle
        return {"path": str(path), "version": "", "changed_since": False}
    return {"path": str(path), "version": said.strip(), "changed_since": changed}
