"""Takes values out of the files of a bridge. Secrets aren't values: of a setup only what others may read is shown."""

import hashlib
import json
import re
import tomllib

from weighbridge_support.hiding import HIDDEN, setup_without

from .deciding import Thing, Values, shown
from .saying import short

MOST_SETTINGS = 60  # of one file
OPTION = re.compile(r"\s*(?:export\s+)?([A-Za-z_][A-Za-z0-9_]*)=(.*)")
# In a file of options only the bridge's own are shown, and none whose name says that it is a secret.
OWN = re.compile(r"WEIGHBRIDGE_(?!.*(?:PASS|SECRET|TOKEN|KEY))[A-Z_]+")
SPLIT = "WEIGHBRIDGE_SETUP"
WITH_USER = re.compile(r"://[^/\s]*@")
NEWEST = re.compile(rb"(newest (\d{10}) ([0-9a-f]{64})) ([0-9a-f]{64})")
SLOT = 148
CALIBRATION = re.compile(
    rb"calibration (\d{1,10})\nmoment (\d{1,12})\n(?:filter (\w+ \d{1,2})\n)?((?:point -?\d{1,18} -?\d{1,10}\n)+)digest ([0-9a-f]{64})\n\Z"
)
LISTED = re.compile(r"([0-9a-f]{64})  (/\S+)")


def options_of(text: str) -> tuple[Values, int]:
    """Return the options of a file that a unit reads, and how many aren't shown."""
    found: Values = {}
    hidden = 0
    for line in text.splitlines():
        it = OPTION.fullmatch(line)
        if it is None or line.lstrip().startswith("#"):
            continue
        name, value = it[1], it[2].strip().strip("\"'")
        if not OWN.fullmatch(name) or WITH_USER.search(value):
            hidden += 1
            found[short(name)] = HIDDEN
        elif name == SPLIT:
            found.update(words_of(value))
        else:
            found[name] = short(value)
    return found, hidden


def words_of(text: str) -> Values:
    """Return the options of the service, each with its value."""
    found: Values = {}
    words = text.replace("=", " ").split()
    name = ""
    for it in words:
        if it.startswith("--"):
            name = short(it)
            found[name] = ""
        elif name:
            found[name] = short(f"{found[name]} {it}".strip())
    return found


def toml_of(text: str) -> tuple[Values, int]:
    """Return the values of a setup that others may read, and how many aren't shown."""
    try:
        tomllib.loads(text)
    except tomllib.TOMLDecodeError:
        return {"form": "it is no TOML, so nothing of it is shown"}, 1
    pairs = [it.partition(" = ") for it in setup_without(text)]
    found: Values = {short(name): short(value) for name, _, value in pairs}
    return found, sum(it == HIDDEN for it in found.values())


def setup_of(path: str, data: bytes, at: int) -> Values:
    """Return the values of a setup. Its digest covers what isn't shown only if there is no secret, because a short secret can be guessed from a digest."""
    text = data.decode("utf-8", "replace")
    found, hidden = toml_of(text) if path.endswith(".toml") else options_of(text)
    kept = dict(list(found.items())[:MOST_SETTINGS])
    if len(found) > len(kept):
        kept["more settings"] = len(found) - len(kept)
    of = json.dumps(found, sort_keys=True).encode() if hidden else data
    about: Values = {"changed": shown(at), "sha256": hashlib.sha256(of).hexdigest()}
    if hidden:
        about["hidden"] = hidden
    return {**about, **kept}


def zero_of(data: bytes, at: int) -> Thing:
    """Return the load that the zero was last set to, in tenths of e, and when."""
    try:
        tenths = int(data[:9].decode("ascii")) if len(data) >= 9 and data[8:9] == b"\n" else None
    except ValueError:
        tenths = None
    if tenths is None:
        return {"tenths": "unknown, because the note isn't whole", "set": shown(at)}
    return {"tenths": tenths, "set": shown(at)}


def newest_of(data: bytes) -> Values:
    """Return the newest entry that the journal's witness names."""
    found: Values = {"newest": 0, "digest": "0" * 64}
    for at in (0, SLOT):
        it = NEWEST.match(data, at)
        if it is None or hashlib.sha256(it[1]).hexdigest().encode() != it[4]:
            continue
        number = int(it[2])
        if number >= int(found["newest"]):
            found = {"newest": number, "digest": it[3].decode()}
    return found


def calibration_of(data: bytes) -> Thing:
    """Return the newest calibration of the file, and whether the file fits its last digest."""
    if not data:
        return None
    at = data.rfind(b"calibration ")
    it = CALIBRATION.match(data, max(at, 0))
    if at < 0 or it is None:
        return {"form": "its last calibration has another form"}
    digest = it[5].decode()
    fits = hashlib.sha256(data[: it.start(5) - len("digest ")]).hexdigest() == digest
    return {
        "number": int(it[1]),
        "made": shown(int(it[2])),
        "filter": it[3].decode() if it[3] else "none",
        "points": it[4].count(b"\n"),
        "digest": digest,
        "fits": "yes" if fits else "no",
    }


def programs_of(digests: dict[str, str], listed: str | None) -> Values:
    """Return the digest of all program files, those of the two proved programs, and which files differ from the package's list."""
    lines = "".join(f"{digest}  {path}\n" for path, digest in sorted(digests.items()))
    found: Values = {"files": len(digests), "sha256": hashlib.sha256(lines.encode()).hexdigest()}
    for name in ("weighbridge", "weighbridge-converter"):
        if (digest := digests.get(f"/usr/bin/{name}")) is not None:
            found[name] = digest
    if listed is None:
        found["list"] = "the package's SHA256SUMS isn't there"
        return found
    wanted = {it[2]: it[1] for it in map(LISTED.fullmatch, listed.splitlines()) if it is not None}
    wrong = sorted(path for path, digest in wanted.items() if digests.get(path) != digest)
    found["list"] = "each listed file is as listed" if not wrong else f"{len(wrong)} differ"
    if wrong:
        found["first that differs"] = short(wrong[0])
    return found


def packages_of(text: str) -> Values:
    """Return the version of each package that dpkg-query printed."""
    rows = [it.split("\t") for it in text.splitlines()[:100]]
    return {short(it[0]): short(it[1]) for it in rows if len(it) == 2 and it[1]}


def move_of(data: bytes) -> Thing:
    """Return what the note of a move says."""
    try:
        found = json.loads(data)
    except (ValueError, RecursionError):
        found = None
    if not isinstance(found, dict):
        return {"form": "it is no note of a move"}
    choice = found.get("choice")
    kept: Values = {}
    for table, names in (
        (found, ("began", "ended")),
        (choice if isinstance(choice, dict) else {}, ("command", "copy", "last", "serial", "old")),
    ):
        kept.update({it: short(str(table[it])) for it in names if table.get(it) is not None})
    return kept
