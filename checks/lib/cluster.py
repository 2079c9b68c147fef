"""A PostgreSQL cluster of its own in a new folder, reached by a socket there, and ended with all that it started.

Run by root, the server gets the user postgres. The default collation isn't C, so that a column which was left
without one shows. It needs PostgreSQL 15 and python3.

HEAD_OFFICE_LOCALE names a locale for server and clients, such as de_DE.UTF-8. Their messages are turned back into English for the cases, by PostgreSQL's own
catalogue.
"""

import gettext
import glob
import os
import re
import shutil
import subprocess
import tempfile
import time
from collections.abc import Iterable
from typing import Any

OWNER = "keeper"


def folder_of_programs() -> str:
    found = sorted(glob.glob("/usr/lib/postgresql/*/bin"))
    return found[-1] if found else os.path.dirname(shutil.which("initdb") or "")


BIN = folder_of_programs()
LOCALE = os.environ.get("HEAD_OFFICE_LOCALE", "")


def has_extension(name: str) -> bool:
    return bool(glob.glob(f"/usr/share/postgresql/*/extension/{name}.control"))


# Parts of the server's messages that the cases look for.
MESSAGES: tuple[str, ...] = (
    "permission denied",
    "too many connections",
    "must be owner of ",
    "must be superuser",
    "duplicate key value",
    "violates ",
    "invalid input syntax for type",
    "extra data after",
)
MESSAGES += (
    "missing data for column",
    "infinit",
    "out of range",
    "already exists",
    "does not exist",
    "cannot be",
    "could not",
    "canceling statement",
    "cannot ",
    "too long",
    "unterminated CSV",
    "header line",
    "no pg_hba.conf entry",
    "client certificate",
)


def in_english() -> list[tuple[re.Pattern[str], str, str]]:
    """Return patterns of the server's messages in another language, each with its English text and the longest part that it always has."""
    if not LOCALE:
        return []
    with open(f"/usr/share/locale/{LOCALE[:2]}/LC_MESSAGES/postgres-15.mo", "rb") as it:
        catalogue: dict[Any, str] = vars(gettext.GNUTranslations(it))["_catalog"]
    found: list[tuple[re.Pattern[str], str, str]] = []
    for english, other in catalogue.items():
        if (
            isinstance(english, str)
            and english != other
            and any(part in english for part in MESSAGES)
            and len(other) > 12
        ):
            pieces = re.split(r"(%(?:\d+\$)?[-\d.]*l*[sduxXcm])", other)
            if sum(piece.startswith("%") for piece in pieces) != len(
                re.findall(r"%[-\d.]*l*[sduxXcm]", english)
            ) or re.search(r"%\d+\$", other):
                continue
            pattern = "".join(
                "(.*?)" if piece.startswith("%") else re.escape(piece) for piece in pieces
            )
            # the head office keeps a question mark for each letter that isn't ASCII
            pattern = re.sub("[^\0-\x7f]", lambda it: f"(?:{it[0]}|[?])", pattern)
            found.append(
                (
                    re.compile(pattern + r"(?=\n|$)" if pieces[-1] == "" else pattern),
                    re.sub(r"%[-\d.]*l*[sduxXcm]", "\0", english),
                    max(re.split(r"%(?:\d+\$)?[-\d.]*l*[sduxXcm]|[^\0-\x7f]", other), key=len),
                )
            )
    return sorted(found, key=lambda it: -len(it[1]))


IN_ENGLISH = in_english()


def english(said: str) -> str:
    """Return a text in which the messages that the cases look for are English again."""
    possible = [it for it in IN_ENGLISH if it[2] in said]
    if not possible:
        return said
    lines = said.split("\n")
    for at, line in enumerate(lines):
        for pattern, message, part in possible:
            if part in line and (it := pattern.search(line)):
                values = iter(it.groups())
                lines[at] = (
                    line[: it.start()]
                    + re.sub("\0", lambda _: next(values), message)
                    + line[it.end() :]
                )
                break
    return "\n".join(lines)


def as_server(words: list[str], **options: Any) -> subprocess.CompletedProcess[bytes]:
    """Runs a program of the server as the user that it runs as."""
    words = ["runuser", "-u", "postgres", "--", *words] if os.getuid() == 0 else words
    return subprocess.run(
        words,
        check=True,
        stdout=subprocess.DEVNULL,
        stderr=subprocess.DEVNULL,
        stdin=subprocess.DEVNULL,
        **options,
    )


class Cluster:
    """A server over data in a folder. `settings` are lines of its configuration."""

    def __init__(
        self, folder: str | None = None, settings: Iterable[str] = (), make: bool = True
    ) -> None:
        self.folder = folder or tempfile.mkdtemp(prefix="head_office.")
        self.data, self.port = os.path.join(self.folder, "data"), 5432
        self.took = 0.0
        if os.getuid() == 0:
            shutil.chown(self.folder, "postgres")
        if make:
            words = [
                f"{BIN}/initdb",
                "-D",
                self.data,
                "-U",
                OWNER,
                "-A",
                "trust",
                "-E",
                "UTF8",
                "--locale=C.UTF-8",
            ]
            as_server([*words, "--locale-provider=icu", "--icu-locale=en-US"])
        language = [f"lc_messages = '{LOCALE}'"] if LOCALE else []
        self.set(
            [
                "listen_addresses = ''",
                f"unix_socket_directories = '{self.folder}'",
                *language,
                *settings,
            ]
        )

    def set(self, lines: Iterable[str]) -> None:
        with open(os.path.join(self.data, "postgresql.conf"), "a") as it:
            it.write("".join(f"{line}\n" for line in lines))

    def start(self) -> None:
        as_server(
            [f"{BIN}/pg_ctl", "-D", self.data, "-l", os.path.join(self.data, "log"), "-w", "start"],
            cwd=self.folder,
        )

    def stop(self, how: str = "fast") -> None:
        """Stops it: `fast`, or `immediate`, without a checkpoint, as if the machine had failed."""
        as_server([f"{BIN}/pg_ctl", "-D", self.data, "-m", how, "-w", "stop"], cwd=self.folder)

    def environment(self, user: str = OWNER, database: str = "head_office") -> dict[str, str]:
        language = {"LC_ALL": LOCALE} if LOCALE else {}
        return {
            **os.environ,
            **language,
            # Debian's psql is a script that looks for a cluster
            "PATH": f"{BIN}:{os.environ['PATH']}",
            "PGHOST": self.folder,
            "PGPORT": str(self.port),
            "PGDATABASE": database,
            "PGUSER": user,
            "PGOPTIONS": "",
        }

    def run(
        self,
        words: list[str],
        user: str = OWNER,
        database: str = "head_office",
        given: bytes | None = None,
        **more: str,
    ) -> tuple[int, str]:
        """Return the status of a program that connects to it, and all that it printed. `took` is then its time in seconds."""
        environment = {**self.environment(user, database), **more}
        began = time.monotonic()
        it = subprocess.run(words, input=given, capture_output=True, env=environment, timeout=300)
        self.took = time.monotonic() - began
        return it.returncode, english((it.stdout + it.stderr).decode(errors="replace"))

    def ask(
        self, *statements: str, user: str = OWNER, database: str = "head_office"
    ) -> tuple[int, str]:
        """Return the status of statements, and their rows or refusals."""
        words = ["psql", "-X", "-q", "-A", "-t", "-v", "ON_ERROR_STOP=1"]
        for it in statements:
            words += ["-c", it]
        status, said = self.run(words, user, database)
        return status, said.strip()

    def told(self, *statements: str, user: str = OWNER, database: str = "head_office") -> str:
        """Return the rows of statements that are answered."""
        status, said = self.ask(*statements, user=user, database=database)
        if status:
            raise RuntimeError(f"{statements}: {said}")
        return said

    def end(self) -> None:
        """Stops it, if it runs, and removes it."""
        try:
            self.stop("immediate")
        except subprocess.CalledProcessError:
            pass
        shutil.rmtree(self.folder, ignore_errors=True)
