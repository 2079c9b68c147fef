"""The note of a move: what was asked, which steps are done, and which one began. It is on the disk before a step begins."""

import json
import os
from dataclasses import asdict, dataclass, field
from datetime import datetime
from typing import Any

from weighbridge_night.files import Fault, read_json, write_whole

VERSION = 1
FORM = "%Y-%m-%dT%H:%M:%SZ"
STATE = "/var/lib/weighbridge-move"
FILE = "state.json"


@dataclass
class State:
    """A move."""

    began: str
    words: str  # the command that continues it
    choice: dict[str, Any]
    done: list[str] = field(default_factory=list)
    doing: str | None = None
    notes: list[str] = field(default_factory=list)
    ended: str | None = None

    def write(self, folder: str) -> None:
        text = json.dumps({"version": VERSION, **asdict(self)}, indent=1) + "\n"
        write_whole(os.path.join(folder, FILE), text, 0o600)

    def begin(self, folder: str, step: str) -> None:
        self.doing = step
        self.write(folder)

    def end(self, folder: str, step: str) -> None:
        self.done.append(step)
        self.doing = None
        self.write(folder)

    def close(self, folder: str, now: datetime) -> None:
        self.ended = now.strftime(FORM)
        self.write(folder)


def is_texts(it: object) -> bool:
    return isinstance(it, list) and all(isinstance(one, str) for one in it)


def read_state(folder: str) -> State | None:
    """Return the note of a move. Return None if there is none.

    Raises a Fault if it can't be read, because nobody then knows what was done.
    """
    path = os.path.join(folder, FILE)
    if not os.path.lexists(path):
        return None
    found = read_json(path)
    found.pop("version", None)
    try:
        it = State(**found)
    except TypeError:
        it = State("", "", {})
    texts = [it.began, it.words, *(one for one in (it.doing, it.ended) if one is not None)]
    is_well = is_texts(texts) and is_texts(it.done) and is_texts(it.notes)
    if not (is_well and it.began and it.words and it.choice and isinstance(it.choice, dict)):
        raise Fault(
            f"{path}: it is no note of a move, so nobody knows what was done; call your service company"
        )
    return it
