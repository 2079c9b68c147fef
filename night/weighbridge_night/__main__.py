"""The command line of weighbridge-night."""

import argparse
import io
import os
import sys
import time
from datetime import datetime, timedelta, timezone

from . import keep
from .files import Fault, read_json
from .last import FAILED, FORM, LEFT_OUT, SHOWN, Book, Step
from .night import Night, World, locked
from .office import RealOffice
from .programs import RealPrograms
from .setup import PATH, STATE, Refused, Setup, read_setup
from .trying import tried

# The system's journal shows a line that begins so as an error, or as a notice.
ERROR, NOTICE = "<3>", "<5>"


def utc() -> datetime:
    return datetime.now(timezone.utc)


def say(step: Step) -> None:
    """Print a line for a step. Under systemd it has its weight."""
    is_read = "INVOCATION_ID" in os.environ
    weight = {FAILED: ERROR, LEFT_OUT: NOTICE}.get(step.state, "") if is_read else ""
    since = f" (fails since {step.since})" if step.since and step.state == FAILED else ""
    shown = SHOWN.get(step.state, step.state)
    print(f"{weight}{step.step}: {shown}: {step.words}{since}", flush=True)


def world_of(setup: Setup, state: str) -> World:
    programs = RealPrograms(os.path.join(state, "work", "tmp"))
    return World(utc, time.sleep, programs, RealOffice(setup.office), say)


def fault(words: str) -> None:
    print(f"weighbridge-night: {words}", file=sys.stderr)


def run(setup: Setup, state: str) -> int:
    try:
        handle = locked(state)
    except OSError as error:
        fault(f"{state}: {error.strerror}; run it as weighbridge-night, by systemctl start")
        return 1
    if handle is None:
        fault(f"{state}/lock: another night runs; wait for its end")
        return 1
    try:
        return 0 if Night(setup, state, world_of(setup, state)).run() else 1
    except OSError as error:
        fault(f"{error.filename or state}: {error.strerror}; see whether the disk is full")
        return 1


def note_refused(state: str, why: str) -> None:
    """Note in the file that the morning reads that there was no night."""
    try:
        book = Book(os.path.join(state, "last.json"), utc())
        book.note("setup", FAILED, why)
        book.end(utc(), {*book.last.failing})
    except OSError as error:
        fault(f"{error.filename or state}: {error.strerror}; see whether the disk is full")


def check(setup: Setup, state: str) -> int:
    """Try what a night needs. The setup has no mistakes."""
    status = 0
    for it in tried(setup, state, world_of(setup, state)):
        if it.is_fault:
            fault(it.words)
            status = 1
        else:
            print(it.words)
    for place in setup.places:
        if place.kind == "folder" and is_same_disk(place.path, setup.journal):
            print(
                f"{place.title}: warning: it is on the disk of the journal, and is lost with it;"
                " add a USB disk or another host"
            )
    print("it can't work yet" if status else "no mistake was found")
    return status


def is_same_disk(path: str, journal: str) -> bool:
    try:
        return os.stat(path).st_dev == os.stat(os.path.dirname(journal)).st_dev
    except OSError:
        return False


def list_copies(setup: Setup, state: str) -> int:
    world, status = world_of(setup, state), 0
    for place in setup.places:
        try:
            found = world.keeper(place, setup.bridge).copies()
        except Fault as why:
            fault(str(why))
            status = 1
            continue
        print(f"{place.title}: {len(found)} copies, {sum(it.size for it in found)} bytes")
        for it in found:
            days = (utc() - it.moment).days
            print(
                f"  {it.name}  {it.verdict}, {it.newest_in_words}, {it.size} bytes, {days} days old"
            )
        if keep.newest_sound(found) is None:
            print("  none of them is sound")
    return status


def show_last(state: str) -> int:
    """Print what the last night did. The status is 0 if it ended within 36 hours, and nothing fails."""
    found = read_json(os.path.join(state, "last.json"))
    if not found:
        fault(f"{state}/last.json: no night was yet, or it can't be read; see --check")
        return 1
    print(f"began {found.get('began')}, ended {found.get('ended') or 'not'}")
    for it in found.get("steps", []):
        since = f" (fails since {it['since']})" if it.get("since") else ""
        print(f"{it['step']}: {SHOWN.get(it['state'], it['state'])}: {it['words']}{since}")
    if not is_recent(found.get("ended"), utc()):
        fault("no night ended within the last 36 hours; see systemctl status weighbridge-night")
        return 1
    return 0 if found.get("is_well") is True else 1


def is_recent(ended: object, now: datetime) -> bool:
    """Return True if a night ended at most 36 hours ago."""
    try:
        age = now - datetime.strptime(str(ended), FORM).replace(tzinfo=timezone.utc)
    except ValueError:
        return False
    return timedelta(minutes=-10) <= age <= timedelta(hours=36)


def main() -> int:
    # what a disk or a host names may have any bytes
    for it in (sys.stdout, sys.stderr):
        if isinstance(it, io.TextIOWrapper):
            it.reconfigure(errors="backslashreplace")
    options = argparse.ArgumentParser(
        prog="weighbridge-night",
        description="Looks after a bridge at night: copies the journal, checks the copy, exports, keeps copies, purges.",
        epilog="Status: 0 if nothing fails, 1 if a step fails, 2 if the setup or the words can't work.",
    )
    options.add_argument(
        "act",
        nargs="?",
        choices=["run", "list", "last"],
        help="run: the night now, as its timer does; list: the copies that are kept; last: what the last night did",
    )
    options.add_argument(
        "--check",
        action="store_true",
        help="list every mistake of the setup, and try what a night needs",
    )
    options.add_argument("--setup", default=PATH, metavar="FILE", help=f"{PATH} if it isn't given")
    options.add_argument(
        "--state", default=STATE, metavar="FOLDER", help=f"{STATE} if it isn't given"
    )
    asked = options.parse_args()
    if (asked.act is None) != asked.check:
        options.error("give one of run, list, last and --check")
    if asked.act == "last":
        return show_last(asked.state)
    try:
        setup = read_setup(asked.setup)
    except Refused as refused:
        for why in refused.faults:
            fault(f"{asked.setup}: {why}")
        if asked.act == "run":
            note_refused(asked.state, f"{asked.setup}: {refused.faults[0]}")
        return 2
    acts = {"run": run, "list": list_copies}
    return acts[asked.act](setup, asked.state) if asked.act else check(setup, asked.state)


if __name__ == "__main__":
    sys.exit(main())
