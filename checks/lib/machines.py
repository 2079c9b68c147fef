"""A spare machine in a folder, to which weighbridge-move moves a bridge. It plays systemd and dpkg, and runs the built program."""

import contextlib
import io
import os
import tarfile
from collections.abc import Callable, Sequence
from datetime import datetime, timezone

from weighbridge_move.__main__ import run, words_of
from weighbridge_night.programs import Ran, RealPrograms

CONF = 'WEIGHBRIDGE_CONVERTER=tcp:127.0.0.1:885\nWEIGHBRIDGE_SETUP="--interval 20 --max 60000 --serial WB01 --pace 50"\n'
VERSIONS = "weighbridge\t2.1.1\n"


class Programs(RealPrograms):
    """Runs the built program, and plays systemd and dpkg. The check starts the service itself."""

    def run(
        self, words: Sequence[str], seconds: float, given: str = "", to: str | None = None
    ) -> Ran:
        name = os.path.basename(words[0])
        if name == "runuser":
            return super().run(words[4:], seconds)
        if name == "systemctl":
            is_started = words[1:] == ["is-active", "weighbridge"] and self.is_enabled
            self.is_enabled |= words[1] == "enable"
            state = "active" if is_started else "inactive"
            return Ran(0, "\n".join([state] * (len(words) - 2)), "")
        if name == "dpkg-query":
            return Ran(0, VERSIONS, "")
        return super().run(words, seconds, given, to)

    is_enabled = False


def utc() -> datetime:
    return datetime.now(timezone.utc)


class Machine:
    """A machine in a folder, with the real files and, unless another clock is given, the real clock."""

    def __init__(self, root: str, clock: Callable[[], datetime] = utc) -> None:
        self.root, self.clock = root, clock
        self.programs = Programs(root)
        self.journal = os.path.join(root, "var/lib/weighbridge/journal.db")
        os.makedirs(os.path.dirname(self.journal))
        os.mkdir(os.path.join(root, "run"))

    def now(self) -> datetime:
        return self.clock()

    def is_root(self) -> bool:
        return True

    def ids(self, user: str, group: str) -> tuple[int, int] | None:
        return os.getuid(), os.getgid()

    def say(self, line: str) -> None:
        print(f"  {line}".replace("\n", "\n  "), flush=True)


def moved(machine: Machine, *words: str) -> tuple[int, str]:
    """Run a command of weighbridge-move, and return its status and faults."""
    said = io.StringIO()
    with contextlib.redirect_stderr(said):
        status = run(words_of([*words]), machine)
    return status, said.getvalue()


def archive(path: str, files: dict[str, str] | None = None) -> None:
    """Write an archive of the settings with these files, or only with the service's setup."""
    given = {"etc/weighbridge.conf": CONF} if files is None else files
    with tarfile.open(path, "w") as tar:
        for name, text in {**given, "var/backups/weighbridge/version.txt": VERSIONS}.items():
            it = tarfile.TarInfo(name)
            it.size = len(text)
            tar.addfile(it, io.BytesIO(text.encode()))
