"""Whether a client asks for JSON by its field Accept, by the rules of RFC 9110 (12.5.1). Without a wish it gets the text."""

import re
from collections.abc import Iterable

JSON, TEXT = ("application", "json"), ("text", "plain")
TOKEN = r"[!#$%&'*+.^_`|~0-9A-Za-z-]+"
QUOTED = r'"(?:[^"\\]|\\.)*"'
# The ranges of a list. A comma within quotes is no end. A quote that nothing closes reaches to the end, so that no letter is tried twice.
RANGE = re.compile(r'(?:"(?:[^"\\]|\\.)*(?:"|\\?$)|[^",])+')
NAMED = re.compile(
    rf"[ \t]*({TOKEN})/({TOKEN})((?:[ \t]*;(?:[ \t]*{TOKEN}=(?:{TOKEN}|{QUOTED}))?)*)[ \t]*"
)
PARAMETER = re.compile(rf";[ \t]*({TOKEN})=({TOKEN}|{QUOTED})")
WEIGHT = re.compile(r"0(?:\.[0-9]{0,3})?|1(?:\.0{0,3})?")
Range = tuple[str, str, float]


def range_of(text: str) -> Range | None:
    """Return the type, the subtype and the weight of a media range. Return None if it has another form, or fits neither the text nor the JSON."""
    found = NAMED.fullmatch(text)
    if found is None:
        return None
    weight = "1"
    for name, value in PARAMETER.findall(found[3]):
        name, value = name.lower(), value.strip('"').lower()
        if name == "q":
            weight = value
            break
        if (name, value) != ("charset", "utf-8"):
            return None
    if WEIGHT.fullmatch(weight) is None:
        return None
    return found[1].lower(), found[2].lower(), float(weight)


def weight_of(ranges: Iterable[Range], kind: tuple[str, str]) -> tuple[float, bool]:
    """Return the weight of a kind by the range that fits it most closely, and whether that range names it."""
    for wanted in (kind, (kind[0], "*"), ("*", "*")):
        weights = [it[2] for it in ranges if it[:2] == wanted]
        if weights:
            return max(weights), wanted == kind
    return 0.0, False


def wants_json(accept: Iterable[str]) -> bool:
    """Return True if a client prefers JSON to text, by all its fields Accept. If it weighs both the same, JSON must be named, and the text must not."""
    found = [range_of(it) for field in accept for it in RANGE.findall(field)]
    ranges = [it for it in found if it is not None]
    (json, is_named), (text, is_text_named) = (weight_of(ranges, it) for it in (JSON, TEXT))
    return json > text or (json == text > 0 and is_named and not is_text_named)
