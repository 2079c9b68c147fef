"""The command line of weighbridge-alarm."""

import argparse
import io
import os
import sys
import uuid
from datetime import datetime, timedelta, timezone

from weighbridge_night.programs import RealPrograms
from weighbridge_night.setup import Refused

from .asking import NoAnswer, ask
from .catalogue import words_of
from .handing import Hands, Message, NotTaken
from .run import FILE, Alarm, locked, read_state
from .setup import PATH, SPARE, STATE, Setup, read_setup
from .state import Known, State, shown
from .words import short_of, tried, urgent_first, when
from .world import SECONDS, RealWorld

LATE = timedelta(minutes=10)
# The system's journal shows a line that begins so as a warning.
WARNING = "<4>"


def complain(words: str) -> None:
    print(f"weighbridge-alarm: {words}", file=sys.stderr)


def say(words: str) -> None:
    weight = WARNING if "INVOCATION_ID" in os.environ else ""
    print(f"{weight}{words}", flush=True)


def folders_of(state: str) -> list[str]:
    """Return where the state is kept: on the disk, and in memory if systemd made a folder there."""
    spare = os.environ.get("RUNTIME_DIRECTORY", SPARE)
    return [state, *([spare] if state == STATE or "RUNTIME_DIRECTORY" in os.environ else [])]


def hands_of(state: str) -> Hands:
    return Hands(RealPrograms(state), ask, lambda: uuid.uuid4().hex)


def run(setup: Setup, state: str) -> int:
    try:
        if os.stat(state).st_uid != os.geteuid():
            complain(f"{state}: it is another user's; run it by systemctl start weighbridge-alarm")
            return 1
        handle = locked(state)
    except OSError as error:
        complain(f"{state}: {error.strerror}; run it by systemctl start weighbridge-alarm")
        return 1
    if handle is None:
        complain(f"{state}/lock: another look runs; wait for its end")
        return 1
    world = RealWorld(RealPrograms(state))
    return 0 if Alarm(setup, folders_of(state), world, hands_of(state), say).run() else 1


def test(setup: Setup, state: str) -> int:
    """Send a test message to each receiver. Return 1 if one didn't take it."""
    now, hands, status = datetime.now(timezone.utc), hands_of(state), 0
    subject, text = tried(setup.bridge, now)
    body = {"version": 1, "bridge": setup.bridge, "at": shown(now), "text": text, "faults": []}
    for it in setup.receivers:
        try:
            hands.give(it, Message(subject, f"{text}\n", text, body), now)
            print(f"{it.name}: took the test message")
        except NotTaken as why:
            print(f"{it.name}: didn't take the test message: {why}")
            status = 1
    return status


def check(setup: Setup, state: str) -> int:
    """Try what can be tried without a message. The setup has no mistakes."""
    status = 0
    for it in setup.receivers:
        if it.kind == "mail" and not os.access(it.program, os.X_OK):
            complain(f"{it.program}: it isn't there; install msmtp-mta or another mail program")
            status = 1
    where = (
        f"http://{setup.counter}/health" if setup.counter else f"http://{setup.office}/indication"
    )
    try:
        print(f"{where}: answers with status {ask(where, SECONDS).status}")
    except NoAnswer as why:
        complain(
            f"{where}: {why}; see whether it runs, and whether weighbridge-alarm is in"
            " /etc/weighbridge-ports.conf"
        )
        status = 1
    print("to try the receivers: runuser -u weighbridge-alarm -- weighbridge-alarm test")
    return status


def lines_of(it: Known, state: State, now: datetime) -> list[str]:
    about = f" ({it.about})" if it.about and it.about != it.name else ""
    detail = f": {it.detail}" if it.detail else ""
    lines = [f"{short_of(it)}{about}, since {when(it.since, now)}{detail}"]
    lines.append(f"  {words_of(it.name).todo}")
    for name, mine in sorted(state.receivers.items()):
        at = mine.told.get(it.fault.key)
        why = f", because it takes none: {mine.why}" if mine.fails else ""
        lines.append(
            f"  {name}: "
            + (f"heard of it at {when(at, now)}" if at else f"hasn't heard of it yet{why}")
        )
    return lines


def show(state: str) -> int:
    """Print what is wrong. The status is 0 if nothing is, and the alarm looked within ten minutes."""
    folders = [state, *([SPARE] if state == STATE else [])]
    found, now = read_state(folders), datetime.now(timezone.utc)
    if found is None or found.looked is None:
        complain(f"{state}/{FILE}: the alarm hasn't looked yet; see --check")
        return 1
    begun = [it for it in found.known.values() if it.is_begun]
    for it in urgent_first(begun):
        print("\n".join(lines_of(it, found, now)))
    if not begun:
        print("nothing is wrong")
    for it in found.known.values():
        if not it.is_begun:
            print(f"seen only since {when(it.since, now)}, so not reported yet: {short_of(it)}")
    print(f"last look: {when(found.looked, now)}")
    for name, mine in sorted(found.receivers.items()):
        print(f"{name}: last message: {when(mine.last, now) if mine.last else 'none yet'}")
    if not timedelta(minutes=-1) <= now - found.looked <= LATE:
        complain("the alarm doesn't look any more; see systemctl status weighbridge-alarm.timer")
        return 1
    return 1 if begun else 0


def options() -> argparse.ArgumentParser:
    it = argparse.ArgumentParser(
        prog="weighbridge-alarm",
        description="Reports what is wrong at a bridge, since when, and what to do: by mail, webhook or SMS.",
        epilog="Status: 0 if all is well, 1 if something is wrong or a message failed, 2 if the setup or the arguments can't work.",
    )
    it.add_argument(
        "act",
        nargs="?",
        choices=["run", "list", "test"],
        help="run: one look, as the timer does it; list: what is wrong, since when, and when each receiver heard of it;"
        " test: send a test message to each receiver",
    )
    it.add_argument("--check", action="store_true", help="list every mistake of the setup")
    it.add_argument("--setup", default=PATH, metavar="FILE", help=f"{PATH} if it isn't given")
    it.add_argument("--state", default=STATE, metavar="FOLDER", help=f"{STATE} if it isn't given")
    return it


def main() -> int:
    # what a server or a file names may have any characters
    for stream in (sys.stdout, sys.stderr):
        if isinstance(stream, io.TextIOWrapper):
            stream.reconfigure(errors="backslashreplace")
    parser = options()
    asked = parser.parse_args()
    if (asked.act is None) != asked.check:
        parser.error("give one of run, list, test and --check")
    if asked.act == "list":
        return show(asked.state)
    try:
        setup = read_setup(asked.setup)
    except Refused as refused:
        for why in refused.faults:
            complain(f"{asked.setup}: {why}")
        return 2
    acts = {"run": run, "test": test}
    return (acts[asked.act] if asked.act else check)(setup, asked.state)


if __name__ == "__main__":
    sys.exit(main())
