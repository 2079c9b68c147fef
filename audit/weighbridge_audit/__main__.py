"""The command line of weighbridge-audit."""

import argparse
import io
import os
import re
import sys
import tempfile
from datetime import datetime

from weighbridge_night.files import fault_of

from .looking import FOLDER, NAME, locked, look
from .showing import body, compared, head, moment, noting, since
from .trail import Trail, read_trail, trail_of
from .world import RealWorld

DATE = re.compile(r"(\d{4}-\d\d-\d\d)(?:[ T](\d\d:\d\d)(:\d\d)?Z?)?")


def complain(words: str) -> None:
    print(f"weighbridge-audit: {words}", file=sys.stderr)


def collect(folder: str) -> int:
    """Look once, as the timer does."""
    os.umask(0o027)
    try:
        handle = locked(folder)
        if handle is None:
            complain(f"{folder}: another look runs; wait for its end")
            return 1
        with tempfile.TemporaryDirectory(prefix="weighbridge-audit-") as scratch:
            look(RealWorld(scratch=scratch), folder)
    except OSError as error:
        todo = "run it by systemctl start weighbridge-audit, or see whether the disk is full"
        complain(str(fault_of(str(error.filename or folder), error, todo)))
        return 1
    return 0


def moment_of(text: str) -> str:
    """Return a moment of the trail. It is the beginning of the day if the text has no time."""
    it = DATE.fullmatch(text)
    try:
        if it is None:
            raise ValueError
        found = datetime.fromisoformat(f"{it[1]}T{it[2] or '00:00'}{it[3] or ':00'}")
    except ValueError:
        raise argparse.ArgumentTypeError(
            f"{text!r} is no moment; write 2026-12-01 or '2026-12-01 07:30', in UTC"
        ) from None
    return found.strftime("%Y-%m-%dT%H:%M:%SZ")


def read(path: str) -> bytes | None:
    """Return a file's bytes. Say why if it can't be read."""
    try:
        if os.path.lexists(path):
            return read_trail(path)
        complain(f"{path}: it isn't there; the timer weighbridge-audit.timer makes it")
    except OSError as error:
        complain(f"{path}: {error.strerror}; run it as root")
    return None


def show(path: str, begin: str | None, is_json: bool) -> int:
    data = read(path)
    if data is None:
        return 1
    trail = trail_of(data)
    lines = trail.lines if begin is None else since(trail.lines, begin)
    if is_json:
        numbers = {it.digest for it in lines}
        for raw in data.splitlines():
            if raw[-66:-2].decode("ascii", "replace") in numbers:
                print(raw.decode("ascii", "replace"))
        for words in trail.faults:
            complain(words)
    else:
        for text in (*head(path, trail), *body(lines)):
            print(text)
    return status_of(trail)


def check(path: str, against: str | None) -> int:
    data = read(path)
    older = read(against) if against is not None else b""
    if data is None or older is None:
        return 1
    trail = trail_of(data)
    for text in head(path, trail):
        print(text)
    if against is not None:
        why = compared(data, older)
        if why is not None:
            print(f"{against}: {why}")
            return 1
        last = trail_of(older).lines[-1]
        print(f"{against}: the trail begins with each line of this copy, which ends with")
        print(
            f"line {last.number}, noted {moment(last.noted)}. Nothing shows a change of later lines."
        )
    return status_of(trail)


def status_of(trail: Trail) -> int:
    is_wrong = trail.faults or trail.torn or noting(trail.lines, "broken")
    return 1 if is_wrong or not trail.lines else 0


def options() -> argparse.ArgumentParser:
    it = argparse.ArgumentParser(
        prog="weighbridge-audit",
        description="Keeps and prints the audit trail of a bridge: starts, setups, zero, calibrations, purges, programs, versions, restores, jumps of the clock.",
        epilog="Status: 0 if the chain is whole, 1 if it isn't, if a line notes that it was changed, or if a file can't be read or written, 2 for wrong arguments.",
    )
    it.add_argument(
        "act",
        choices=["show", "check", "collect"],
        help="show: print the trail, the oldest first; check: say only whether its chain is whole; collect: look once, as the timer does",
    )
    it.add_argument(
        "--since",
        metavar="MOMENT",
        type=moment_of,
        help="show only what was noted from then on, in UTC, as 2026-12-01",
    )
    it.add_argument("--json", action="store_true", help="show the lines as they are in the file")
    it.add_argument(
        "--against",
        metavar="COPY",
        help="check that the trail begins with each line of this older copy",
    )
    it.add_argument(
        "--file", metavar="FILE", help=f"show or check this copy; {FOLDER}/{NAME} if it isn't given"
    )
    it.add_argument(
        "--state",
        metavar="FOLDER",
        help=f"the folder in which collect keeps the trail; {FOLDER} if it isn't given",
    )
    return it


def main() -> int:
    # a file that was changed may have any bytes
    for stream in (sys.stdout, sys.stderr):
        if isinstance(stream, io.TextIOWrapper):
            stream.reconfigure(errors="backslashreplace")
    parser = options()
    asked = parser.parse_args()
    if asked.act != "show" and (asked.since or asked.json):
        parser.error(f"{asked.act} takes neither --since nor --json")
    if asked.act != "check" and asked.against:
        parser.error(f"{asked.act} takes no --against")
    if asked.act == "collect":
        if asked.file:
            parser.error("collect takes no --file")
        return collect(asked.state or FOLDER)
    path = asked.file or os.path.join(asked.state or FOLDER, NAME)
    try:
        if asked.act == "show":
            return show(path, asked.since, asked.json)
        return check(path, asked.against)
    except BrokenPipeError:
        os.dup2(os.open(os.devnull, os.O_WRONLY), sys.stdout.fileno())
        return 0


if __name__ == "__main__":
    sys.exit(main())
