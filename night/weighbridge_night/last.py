"""The file that the morning reads: what the last night did, what failed, and since when.

It is written again after each step, whole or not at all. So after a kill it says which step was the last, and that the night didn't end.
"""

import json
from dataclasses import asdict, dataclass, field
from datetime import datetime
from typing import Any

from .files import read_json, write_whole

DONE, FAILED, LEFT_OUT = "done", "failed", "left_out"
# The words that people read for these names of the file.
SHOWN = {LEFT_OUT: "left out"}
VERSION = 1
FORM = "%Y-%m-%dT%H:%M:%SZ"


def shown(moment: datetime) -> str:
    return moment.strftime(FORM)


@dataclass
class Step:
    """A step, and how it ended."""

    step: str
    state: str
    words: str
    since: str | None = None  # the night since which it fails


@dataclass
class Last:
    """The last night."""

    began: str
    ended: str | None = None
    is_well: bool = False
    copy: str | None = None
    steps: list[Step] = field(default_factory=list)
    failing: dict[str, str] = field(default_factory=dict)  # each step that fails, and since when
    places: dict[str, dict[str, Any]] = field(default_factory=dict)

    def text(self) -> str:
        return json.dumps({"version": VERSION, **asdict(self)}, indent=1) + "\n"


def failing_of(path: str) -> dict[str, str]:
    """Return what the file says of the steps that fail."""
    found = read_json(path).get("failing")
    if not isinstance(found, dict):
        return {}
    return {key: it for key, it in found.items() if isinstance(it, str)}


def cut_off(path: str) -> str | None:
    """Return when the last night began, if it didn't end."""
    found = read_json(path)
    began = found.get("began")
    return began if isinstance(began, str) and found.get("ended") is None else None


class Book:
    """Writes the file, step by step."""

    def __init__(self, path: str, began: datetime) -> None:
        self.path = path
        self.last = Last(shown(began), failing=failing_of(path))
        self.write()

    def write(self) -> None:
        write_whole(self.path, self.last.text(), 0o644)

    def note(self, step: str, state: str, words: str) -> Step:
        """Note a step. A failure keeps the night since which it fails."""
        if state == DONE:
            self.last.failing.pop(step, None)
        if state == FAILED:
            self.last.failing.setdefault(step, self.last.began)
        it = Step(step, state, words, self.last.failing.get(step))
        self.last.steps.append(it)
        self.write()
        return it

    def end(self, now: datetime, known: set[str]) -> bool:
        """Note the end. Return True if nothing fails. A step that the setup no longer has is forgotten."""
        for step in [it for it in self.last.failing if it not in known]:
            del self.last.failing[step]
        self.last.is_well = not self.last.failing
        self.last.ended = shown(now)
        self.write()
        return self.last.is_well
