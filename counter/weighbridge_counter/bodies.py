"""Bodies of requests: a form passes as it came, and a JSON object becomes the form that has the same values.

The office judges the values. Here a body is refused only if no form could have its values.
"""

import json
import re
import urllib.parse
from collections.abc import Iterable, Mapping, Sequence
from typing import Any, NoReturn

from weighbridge_paper.export import KEY, PLATE
from weighbridge_paper.words import FREE_LINES

from .refusals import Refusal

JSON = "application/json"
KIND = re.compile("first|second|single")
LINES: Mapping[str, type] = dict.fromkeys(FREE_LINES, str)
# The fields of each route, and the type of each in JSON.
FIELDS: Mapping[str, Mapping[str, type]] = {
    "/weighings": {"key": str, "kind": str, "plate": str, "tare": int, "at": int, "once": bool}
    | LINES,
    "/voids": {"key": str, "plate": str, "at": int},
    "/papers": {"printer": str},
}
MALFORMED = Refusal("malformed")


class BadBody(Exception):
    """Raised for a body that can't be used. Nothing was done then."""

    def __init__(self, status: int, refusal: Refusal) -> None:
        super().__init__(refusal.name)
        self.status, self.refusal = status, refusal


def form_of(kind: str, body: bytes, fields: Mapping[str, type]) -> bytes:
    """Return a body as a form. `kind` is its media type. Raises BadBody."""
    if kind != JSON:
        return body
    return urllib.parse.urlencode(list(pairs_of(object_in(body), fields))).encode()


def object_in(body: bytes) -> dict[str, Any]:
    """Return the object that a body has. Raises BadBody if it has none, or a name twice."""
    try:
        found = json.loads(
            body.decode("utf-8"), object_pairs_hook=once_each, parse_constant=refuse_constant
        )
    except (ValueError, RecursionError):  # including a body that isn't UTF-8
        raise BadBody(400, MALFORMED) from None
    if not isinstance(found, dict):
        raise BadBody(400, MALFORMED)
    return found


def once_each(pairs: list[tuple[str, Any]]) -> dict[str, Any]:
    found: dict[str, Any] = {}
    for name, value in pairs:
        if name in found:
            raise BadBody(422, Refusal("bad_value", field=shown(name)))
        found[name] = value
    return found


def refuse_constant(name: str) -> NoReturn:
    """Refuse NaN and the infinities, which no JSON has."""
    raise ValueError(name)


def pairs_of(found: Mapping[str, Any], fields: Mapping[str, type]) -> Iterable[tuple[str, str]]:
    """Return the fields of a form with the values of an object. Raises BadBody for a name that isn't one of `fields`, and for a value of another type."""
    for name, value in found.items():
        if name not in fields:
            raise BadBody(422, Refusal("unknown_field", field=shown(name)))
        # True is an int of Python, and no number of JSON
        if type(value) is not fields[name] or not is_whole(value):
            raise BadBody(422, Refusal("bad_value", field=name))
        if value is not False:  # a form leaves out what isn't so
            yield name, "1" if value is True else str(value)


def is_whole(value: object) -> bool:
    """Return False for a text with half of a letter, which no form can have."""
    return str(value).encode("utf-8", "ignore") == str(value).encode("utf-8", "surrogatepass")


def shown(name: str) -> str:
    """Return the name of a field as an answer may have it: bounded, and of whole letters."""
    return name.encode("utf-8", "replace").decode("utf-8")[:60]


def bad_field(target: str, form: bytes) -> str | None:
    """Return the name of the field that the office can't use in a form, or None if this isn't known.

    The office judges, and its answer doesn't name the field.
    """
    asked = urllib.parse.parse_qsl(form.decode("latin-1"), keep_blank_values=True)
    given: dict[str, list[str]] = {}
    for name, value in asked:
        given.setdefault(name, []).append(value)
    forms = {"key": KEY, "kind": KIND, "plate": PLATE}
    wanted = [it for it in forms if it in FIELDS[target]]
    return next((it for it in wanted if not is_usable(given.get(it, []), forms[it])), None)


def is_usable(values: Sequence[str], form: re.Pattern[str]) -> bool:
    return len(values) == 1 and form.fullmatch(values[0]) is not None
