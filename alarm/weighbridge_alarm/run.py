"""One look: find the faults, note them, report them, and note that.

The alarm notes a message after the receiver took it. A kill in between makes it come twice, and never not at all.
"""

import fcntl
import os
import stat
from collections.abc import Callable
from dataclasses import dataclass
from datetime import datetime

from weighbridge_night.files import write_whole

from . import due as decide
from .due import Due
from .handing import Hands, Message, NotTaken
from .looking import look
from .setup import Receiver, Setup
from .state import MOST_BYTES, State, shown, state_of
from .watch import Tick, watch
from .words import hook, mail, sms, subject
from .world import World

FILE = "state.json"
# Without any memory, messages are sent only in these minutes of an hour.
FEW_MINUTES = 2


def read_state(folders: list[str]) -> State | None:
    """Return the newest state in these folders. None if there is none that is whole."""
    newest: State | None = None
    for folder in folders:
        written = read_text(os.path.join(folder, FILE))
        found = None if written is None else state_of(written)
        if found is not None and (newest is None or found.looks > newest.looks):
            newest = found
    return newest


def read_text(path: str) -> str | None:
    try:
        handle = os.open(path, os.O_RDONLY | os.O_NOFOLLOW | os.O_NONBLOCK | os.O_CLOEXEC)
        with open(handle, encoding="utf-8") as file:
            about = os.fstat(handle)
            if not stat.S_ISREG(about.st_mode) or about.st_size > MOST_BYTES:
                return None
            return file.read(MOST_BYTES)
    except (OSError, UnicodeDecodeError):
        return None


def locked(folder: str) -> int | None:
    """Return a handle that holds the alarm's lock. None if another look runs."""
    handle = os.open(os.path.join(folder, "lock"), os.O_RDWR | os.O_CREAT, 0o600)
    try:
        fcntl.flock(handle, fcntl.LOCK_EX | fcntl.LOCK_NB)
    except BlockingIOError:
        os.close(handle)
        return None
    return handle


@dataclass
class Alarm:
    """Makes a look. `folders` are the places of the state: the disk, and memory for when the disk is full."""

    setup: Setup
    folders: list[str]
    world: World
    hands: Hands
    say: Callable[[str], None]

    def run(self) -> bool:
        """Look, and report. Return True if each message was taken and noted."""
        tick = self.world.tick()
        state = read_state(self.folders) or State(tick.now)
        found = look(self.setup, self.world, state, tick)
        before = begun(state)
        names = [it.name for it in self.setup.receivers]
        watch(state, found.faults, tick, self.setup.after, names, found.unknown)
        self.log(before, state)
        is_well = self.keep(state)
        if not is_well:
            if tick.now.minute >= FEW_MINUTES:
                return False
            for one in state.known.values():
                one.is_begun = True
        for it in self.setup.receivers:
            is_well = self.tell(it, state, tick) and is_well
        return is_well

    def log(self, before: set[str], state: State) -> None:
        for key in sorted(begun(state) - before):
            it = state.known[key]
            self.say(
                f"{key}: wrong since {shown(it.since)}" + (f": {it.detail}" if it.detail else "")
            )
        for key in sorted(before - begun(state)):
            self.say(f"{key}: over")

    def keep(self, state: State) -> bool:
        """Write the state, into memory if the disk doesn't take it. Return True if one of them took it."""
        for folder in self.folders:
            try:
                write_whole(os.path.join(folder, FILE), state.text(), 0o644)
                return True
            except OSError as error:
                self.say(f"{folder}/{FILE}: {error.strerror}; see whether the disk is full")
        return False

    def tell(self, to: Receiver, state: State, tick: Tick) -> bool:
        """Report to a receiver what it must hear. Return False if it didn't take it, or if that can't be noted."""
        mine = state.receivers[to.name]
        found = decide.due(state, to.name, to.times, tick.now.astimezone())
        if found is None:
            return True
        message = message_of(self.setup.bridge, found, tick.now)
        try:
            self.hands.give(to, message, tick.now)
        except NotTaken as why:
            decide.failed(mine, str(why), tick.now)
            self.say(f"{to.name}: took no message: {why}; it is tried again")
        except Exception as error:  # the other receivers don't depend on it
            decide.failed(mine, f"a mistake of this program: {type(error).__name__}", tick.now)
            self.say(f"{to.name}: took no message: {mine.why}; report it")
        else:
            decide.took(mine, found, tick.now)
            self.say(f"{to.name}: took a message: {message.subject}")
        return self.keep(state) and not mine.fails


def begun(state: State) -> set[str]:
    return {key for key, it in state.known.items() if it.is_begun}


def message_of(bridge: str, it: Due, now: datetime) -> Message:
    return Message(
        subject(bridge, it), mail(bridge, it, now), sms(bridge, it, now), hook(bridge, it, now)
    )
