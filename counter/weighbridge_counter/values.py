"""The values that the terminal repeats at each reading: a weight, and whether it stands still."""

import re
from dataclasses import dataclass

REPEATED = re.compile(r"S (?:([SD]) +(-?\d+) kg|([I+-]))$")


@dataclass(frozen=True)
class Value:
    """One reading. The state is S (stands still), D (moves), I (no weight), + (too heavy) or - (below zero). Only S and D have a net weight, in kg.

    `at` is the moment on the counter's own clock at which its line came.
    """

    state: str
    kg: int | None
    at: float


def value_of(line: str, at: float) -> Value | None:
    """Return the value that a line of the terminal repeats. Return None for any other line."""
    found = REPEATED.match(line)
    if found is None:
        return None
    return Value(found[1] or found[3], int(found[2]) if found[2] else None, at)


def reply_of(value: Value | None) -> str:
    """Return the terminal's reply to `SI` with this value. Without one there is no weight."""
    if value is None:
        return "S I"
    return f"S {value.state}" if value.kg is None else f"S {value.state} {value.kg:>10} kg"
