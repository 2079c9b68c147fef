"""Takes plates, keys and secrets out of what others may read.

Two rules are used. In a setup only known kinds of values stay, so a new option is hidden until it is listed here. In lines of a log, everything stays that
doesn't look like a plate, a key or an address of a person.
"""

import re
import tomllib
from collections.abc import Iterable
from typing import Any

HIDDEN = "[hidden]"
# In a line of the service a key follows this word. In an address it is a part of the path, or a field.
KEY = re.compile(r"(\bkey[ =:]+|/keys/|\brequest_key[ =:]+)[A-Za-z0-9%-]+", re.I)
PLATE = re.compile(r"(\bplate[ =:]+)[A-Za-z0-9%-]+", re.I)
# Capital letters and digits together, as on a plate, or a moment such as 2026-12-01T02:35:12Z. Serials look like plates too, so those that are known stay.
MOMENT = r"\d{4}-\d\d-\d\dT\d\d:?\d\d:?\d\d(?:Z|\b)"
LIKE_A_PLATE = re.compile(
    rf"({MOMENT})|(?<![A-Za-z0-9-])(?=[A-Z0-9-]*[A-Z])(?=[A-Z0-9-]*[0-9])[A-Z0-9][A-Z0-9-]{{1,11}}(?![A-Za-z0-9-])"
)
KNOWN = {"SHA-256", "UTF-8"}
LONG = re.compile(r"(?<![A-Za-z0-9-])[A-Za-z0-9-]*[0-9][A-Za-z0-9-]*(?![A-Za-z0-9-])")
MAIL = re.compile(r"[A-Za-z0-9._+-]+@[A-Za-z0-9.-]+")
SECRET = re.compile(
    r"(\b(?:pass(?:word|wd)?|token|secret|authorization|bearer|api[_-]?key)\b[\"']?\s*[=: ]\s*)\S+",
    re.I,
)
WITH_USER = re.compile(r"(\b[a-z]+://)[^\s/@]+@")
LEAST_OF_A_KEY = 20  # characters; a UUID without hyphens has 32, a digest 64
DIGEST = re.compile(r"[0-9a-f]{64}")
# Values of a setup that are for others to read.
PLAIN_TEXT = re.compile(
    r"127\.\d{1,3}\.\d{1,3}\.\d{1,3}:\d{1,5}|/(?:dev|etc|mnt|run|srv|usr|var)/[\w./@:-]*|\d\d:\d\d(?:-\d\d:\d\d)?"
)
PLAIN_KEYS = {
    "cut", "direction", "encoding", "form", "format", "kind", "label", "language", "languages",
    "method", "mode", "paper", "serial", "size", "when",
}  # fmt: skip


def line_without(line: str, stays: Iterable[str] = ()) -> str:
    """Return the line without plates, keys, secrets and addresses of persons. Names in `stays`, such as the serial, stay."""
    kept = set(stays)

    def like_a_plate(found: re.Match[str]) -> str:
        return found[0] if found[1] or found[0] in kept or found[0] in KNOWN else HIDDEN

    def long(found: re.Match[str]) -> str:
        is_key = LEAST_OF_A_KEY <= len(found[0]) <= 36 and found[0] not in kept
        return HIDDEN if is_key and not found[0].isdigit() else found[0]

    line = "".join(it if it.isprintable() else "?" for it in line)
    line = KEY.sub(rf"\1{HIDDEN}", line)
    line = PLATE.sub(rf"\1{HIDDEN}", line)
    line = SECRET.sub(rf"\1{HIDDEN}", line)
    line = WITH_USER.sub(rf"\1{HIDDEN}@", line)
    line = MAIL.sub(HIDDEN, line)
    line = LONG.sub(long, line)
    return LIKE_A_PLATE.sub(like_a_plate, line)


def setup_without(text: str) -> list[str]:
    """Return the lines of a setup in TOML with only values that others may read. A text that is no TOML gives one line that says so."""
    try:
        found = tomllib.loads(text)
    except tomllib.TOMLDecodeError as error:
        return [f"not shown, because it is no TOML: {str(error).splitlines()[0][:80]}"]
    return [f"{name} = {value}" for name, value in values_of("", found)]


def values_of(name: str, value: Any) -> Iterable[tuple[str, str]]:
    """Return each value with its full name, hidden if it isn't for others."""
    last = name.rpartition(".")[2].rstrip("]0123456789[")
    if isinstance(value, dict):
        for key, it in value.items():
            yield from values_of(f"{name}.{key}" if name else key, it)
    elif isinstance(value, list):
        for at, it in enumerate(value):
            yield from values_of(f"{name}[{at}]", it)
    elif isinstance(value, str):
        yield name, value if PLAIN_TEXT.fullmatch(value) or last in PLAIN_KEYS else HIDDEN
    else:
        yield name, str(value).lower() if isinstance(value, bool) else str(value)
