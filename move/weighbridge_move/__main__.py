"""The command line of weighbridge-move."""

import argparse
import fcntl
import io
import os
import shlex
import sys

from weighbridge_night.files import Fault
from weighbridge_night.programs import printable

from . import deciding
from .deciding import BEGIN, CONTINUE, JOURNAL, START, Asked, Seen, faults_of, wrong_words
from .looking import look
from .moving import Move, choice_of, need_room, report_path, setups_of
from .report import looked
from .state import FILE, FORM, STATE, State, read_state
from .world import RealWorld, World, at

LOOK = "look"
# It is gone after a start of the machine, as the move is.
LOCK = "/run/weighbridge-move.lock"


def fault(words: str) -> None:
    print(f"weighbridge-move: {printable(words)}", file=sys.stderr)


def command_of(asked: Asked) -> str:
    """Return the command that the operator types again."""
    words = ["weighbridge-move", asked.command, os.path.realpath(asked.folder)]
    if asked.command == BEGIN:
        words += ["--serial", asked.serial]
    if asked.last is not None:
        words += ["--last", str(asked.last)]
    if asked.nothing_later:
        words.append("--nothing-later")
    if asked.settings is not None:
        words += ["--settings", os.path.realpath(asked.settings)]
    if asked.no_settings:
        words.append("--no-settings")
    for option, values in (("--accept", asked.accept), ("--without", asked.without)):
        for it in sorted(values):
            words += [option, it]
    return shlex.join([*words, "--keep", asked.keep])


def has_begun(state: State | None) -> bool:
    """Return True if the move began to put a journal in place, or to start the service."""
    return state is not None and bool({JOURNAL, START} & {*state.done, state.doing})


def decide(asked: Asked, world: World, state: State | None) -> tuple[Seen, list[str]]:
    """Return what was seen, and everything that stops the move."""
    _, seen = look(asked, world)
    faults = faults_of(asked, seen, has_begun(state))
    if seen.archive is not None:
        faults += setups_of(asked, seen)[1]
    if seen.copied.is_whole and not has_begun(state):
        faults += need_room(asked, seen, world)
    return seen, faults


def show(asked: Asked, world: World) -> int:
    """Say what is there, and change nothing. The status is 0 if a move can begin."""
    seen, faults = decide(asked, world, None)
    world.say(looked(asked, seen, faults).rstrip("\n"))
    return 1 if faults else 0


def move(asked: Asked, world: World) -> int:
    """Do what was asked, or finish it."""
    folder = at(world, STATE)
    former = read_state(folder)
    state = former if former is not None and former.ended is None else None
    if state is not None and state.choice.get("command") != asked.command:
        fault(other_move(folder, state))
        return 1
    seen, faults = decide(asked, world, state)
    if state is not None and not faults and state.choice != choice_of(asked, seen):
        faults = [other_move(folder, state)]
    if former is not None and former.ended is not None:
        if former.choice == choice_of(asked, seen) and seen.journal_there:
            world.say(f"this move was done on {former.ended}; see {report_path(asked, seen)}")
            return 0
        faults += again(asked, seen, former)
    if faults:
        for it in faults:
            fault(it)
        fault(f"mistakes: {len(faults)}; nothing was changed")
        return 1
    if state is None:
        state = State(world.now().strftime(FORM), command_of(asked), choice_of(asked, seen))
    try:
        world.say("\n" + Move(asked, seen, world, state).run())
    except Fault as why:
        fault(f"{state.doing}: {why}")
        return 1
    world.say(f"This is also in {report_path(asked, seen)}")
    return 0


def again(asked: Asked, seen: Seen, former: State) -> list[str]:
    """Return what a move that ended on this machine forbids, because weighings may have been stored since."""
    if asked.command == CONTINUE:
        return [
            f"this machine: a move ended here on {former.ended}, and numbers may have been given since; use"
            " `weighbridge-move begin`"
        ]
    if asked.serial in (former.choice.get("serial"), former.choice.get("old")):
        return [
            f"--serial {asked.serial}: a move used it on {former.ended}; give one that was never used"
        ]
    return []


def other_move(folder: str, state: State) -> str:
    return (
        f"{folder}/{FILE}: a move that differs from this one was begun and didn't end; finish it by"
        f" `{printable(state.words)}`. If nothing was started and /var/lib/weighbridge is empty, you may remove that"
        " file instead"
    )


def locked(world: World) -> int | None:
    """Return a handle that holds the lock of moves. Return None if another move runs."""
    handle = os.open(at(world, LOCK), os.O_RDWR | os.O_CREAT, 0o600)
    try:
        fcntl.flock(handle, fcntl.LOCK_EX | fcntl.LOCK_NB)
    except BlockingIOError:
        os.close(handle)
        return None
    return handle


def run(asked: Asked, world: World) -> int:
    """Run a command. The status is that of the program."""
    if wrong := wrong_words(asked):
        for it in wrong:
            fault(it)
        return 2
    try:
        if asked.command == LOOK:
            return show(asked, world)
        if not world.is_root():
            return move(asked, world)  # which names this and every other mistake
        if (handle := locked(world)) is None:
            fault(f"{LOCK}: another move runs; wait for its end")
            return 1
        try:
            return move(asked, world)
        finally:
            os.close(handle)
    except Fault as why:
        fault(str(why))
        return 1
    except OSError as error:
        fault(
            f"{error.filename or STATE}: {error.strerror}; see whether the disk is full or unplugged"
        )
        return 1


def words_of(given: list[str] | None) -> Asked:
    options = argparse.ArgumentParser(
        prog="weighbridge-move",
        # half an option isn't a choice that the operator made
        allow_abbrev=False,
        description="Moves a lost bridge to this machine, from the copies of the night and the archive of the settings.",
        epilog="Status: 0 if it was done, 1 if something stops it, 2 if the words can't work. operating.md, If the machine is lost, has the steps.",
    )
    options.add_argument(
        "command",
        choices=[LOOK, CONTINUE, BEGIN],
        help="look: say what is there, and change nothing; continue: the copy serves here; begin: a new journal begins under a new serial",
    )
    options.add_argument(
        "folder",
        metavar="FOLDER",
        help="the mounted disk, the folder of a bridge on it, or one copy",
    )
    options.add_argument(
        "--last",
        type=int,
        metavar="NUMBER",
        help="the greatest number on any slip, ticket, till or at the head office",
    )
    options.add_argument(
        "--nothing-later",
        action="store_true",
        help="for continue: it is certain that nothing was stored after the copy",
    )
    options.add_argument(
        "--serial", default="", metavar="SERIAL", help="for begin: a serial that was never used"
    )
    options.add_argument(
        "--settings",
        metavar="FILE",
        help="the archive of the settings; the newest next to the copies if it isn't given",
    )
    options.add_argument(
        "--no-settings",
        action="store_true",
        help="there is no archive; /etc of this machine was set up by hand",
    )
    options.add_argument(
        "--without",
        action="append",
        default=[],
        metavar="PATH",
        help="leave this path of the archive out",
    )
    options.add_argument(
        "--accept",
        action="append",
        default=[],
        choices=[deciding.VERSIONS, deciding.INSTRUMENT],
        help="continue although the versions, or serial, e and Max of setup and copy, differ",
    )
    options.add_argument(
        "--keep",
        default="/srv/kept",
        metavar="FOLDER",
        help="where the report and the second copy are kept; /srv/kept if it isn't given",
    )
    it = options.parse_args(given)
    if it.command != BEGIN and it.serial:
        options.error("--serial: only begin has a new serial")
    if it.command != CONTINUE and it.nothing_later:
        options.error("--nothing-later: only continue needs it")
    return Asked(
        it.command,
        it.folder,
        it.last,
        it.nothing_later,
        it.serial,
        it.settings,
        it.no_settings,
        frozenset(it.accept),
        frozenset(it.without),
        it.keep,
    )


def main() -> int:
    # what a disk names may have any bytes
    for it in (sys.stdout, sys.stderr):
        if isinstance(it, io.TextIOWrapper):
            it.reconfigure(errors="backslashreplace")
    try:
        return run(words_of(None), RealWorld())
    except KeyboardInterrupt:
        fault("it was stopped; run the same command again")
        return 1


if __name__ == "__main__":
    sys.exit(main())
