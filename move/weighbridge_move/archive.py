"""Reads the archive of the settings. Only what is listed here may be in it, with the owner and mode that are listed here.

Root puts these files in place, and the archive comes from a disk that others had in their hands. So nothing is extracted: the archive is read into memory, each member is compared with
the list, and the bytes of files are written by `moving`. A drop-in of systemd could start any program as root, so it may only have the keys that the pages name.
"""

import io
import posixpath
import re
import tarfile
from dataclasses import dataclass, field

from weighbridge_night.programs import printable

MOST_BYTES = 64 << 20  # of an archive
MOST_MEMBERS = 500
MOST_FILE = 16 << 20
VERSIONS = "var/backups/weighbridge/version.txt"
# An archive that was made by hand may have these. They aren't put back, because the counter makes them again from the journal.
LEFT = {"var/lib/weighbridge-counter/journal.json"}
ROOT = "root"
NAME = r"[A-Za-z0-9][A-Za-z0-9._@-]{0,63}"
HAND = "leave it out by --without PATH, and put it in place by hand"


@dataclass(frozen=True)
class Rule:
    """The owner and mode of files whose path has this form."""

    form: re.Pattern[str]
    user: str
    group: str
    mode: int
    package: str  # that makes the user


def rule(form: str, user: str, group: str, mode: int, package: str = "weighbridge") -> Rule:
    return Rule(re.compile(form), user, group, mode, package)


RULES = [
    rule(r"etc/weighbridge-alarm\.toml", ROOT, "weighbridge-alarm", 0o640),
    rule(rf"etc/weighbridge(-{NAME})?\.(conf|toml)", ROOT, ROOT, 0o644),
    rule(rf"etc/weighbridge-head-office/{NAME}", ROOT, ROOT, 0o600),
    rule(
        rf"etc/systemd/system/weighbridge[a-z@-]*\.(service|timer)\.d/{NAME}\.conf",
        ROOT,
        ROOT,
        0o644,
    ),
    rule(r"etc/msmtprc", ROOT, "weighbridge-alarm", 0o640),
    rule(r"etc/nginx/conf\.d/weighbridge-counter\.conf", ROOT, ROOT, 0o644),
    rule(r"etc/nginx/weighbridge/passwords", ROOT, "www-data", 0o640),
    rule(rf"etc/nginx/weighbridge/{NAME}", ROOT, ROOT, 0o600),
    rule(rf"var/lib/weighbridge-night/ssh/{NAME}", "weighbridge-night", "weighbridge-night", 0o600),
    rule(
        r"var/lib/weighbridge-converter/calibration",
        "weighbridge-converter",
        "weighbridge-converter",
        0o600,
    ),
    rule(
        r"var/lib/weighbridge-counter/tares\.json",
        "weighbridge-counter",
        "weighbridge-counter",
        0o600,
        "weighbridge-counter",
    ),
]
DROP_IN = re.compile(r"etc/systemd/system/")
# The keys that drop-ins of the pages have. None of them starts a program or changes its user.
KEYS = {
    "DeviceAllow",
    "DevicePolicy",
    "IPAddressAllow",
    "OnCalendar",
    "Persistent",
    "PrivateDevices",
    "RandomizedDelaySec",
    "ReadWritePaths",
    "RestrictAddressFamilies",
    "SupplementaryGroups",
}
SECTIONS = {"[Service]", "[Timer]", "[Unit]"}


@dataclass(frozen=True)
class Member:
    """A file of the archive."""

    path: str  # without / at its beginning
    data: bytes
    user: str = ROOT
    group: str = ROOT
    mode: int = 0o644
    package: str = "weighbridge"


@dataclass
class Archive:
    """The files of an archive that are put back."""

    members: dict[str, Member] = field(default_factory=dict)
    versions: dict[str, str] = field(default_factory=dict)  # of packages; empty if it names none
    left: list[str] = field(default_factory=list)  # paths that aren't put back

    def text(self, path: str) -> str:
        """Return what a file has. A file that isn't there has nothing."""
        it = self.members.get(path)
        return it.data.decode("utf-8", "replace") if it is not None else ""


def rule_of(path: str) -> Rule | None:
    return next((it for it in RULES if it.form.fullmatch(path)), None)


def is_parent(path: str) -> bool:
    """Return True if a file of the list can be in this folder."""
    examples = (
        "etc/weighbridge-head-office",
        "etc/nginx/conf.d",
        "etc/nginx/weighbridge",
        "var/backups/weighbridge",
        "var/lib/weighbridge-night/ssh",
        "var/lib/weighbridge-converter",
        "var/lib/weighbridge-counter",
    )
    return any(f"{it}/".startswith(f"{path}/") for it in examples) or bool(
        re.fullmatch(r"etc/systemd(/system(/weighbridge[a-z@-]*\.(service|timer)\.d)?)?", path)
    )


def versions_of(text: str) -> dict[str, str]:
    """Return the version of each package that `dpkg-query -W` named. A package that isn't installed has none."""
    found = {}
    for line in text.splitlines()[:100]:
        it = re.fullmatch(
            r"([a-z0-9][a-z0-9+.-]{1,63})(?::[a-z0-9]+)?\t([A-Za-z0-9.+~:-]{1,64})", line
        )
        if it is not None:
            found[it[1]] = it[2]
    return found


def wrong_in_drop_in(text: str) -> str | None:
    """Return the first line of a drop-in that this program doesn't put back."""
    if "\\\n" in text:
        return "a line that continues in the next one"
    for line in text.splitlines():
        it = line.strip()
        if not it or it.startswith(("#", ";")) or it in SECTIONS:
            continue
        if it.partition("=")[0].strip() not in KEYS or "=" not in it:
            return printable(it)[:80]
    return None


def fault_of_member(it: tarfile.TarInfo, path: str) -> str | None:
    """Return why a member can't be put back. Return None if it can, or if it is a folder of the list."""
    if it.name.startswith("/") or ".." in it.name.split("/") or path != it.name.rstrip("/"):
        return f"it is no plain path below /; {HAND}"
    if it.isdir():
        return None if is_parent(path) else f"this folder isn't in the list of settings; {HAND}"
    if it.type not in (tarfile.REGTYPE, tarfile.AREGTYPE) or it.sparse is not None:
        return f"it is a link or device, and no file; {HAND}"
    if it.mode & 0o7000:
        return f"it has the mode {it.mode:o}, which would give rights of its owner; {HAND}"
    if it.size > MOST_FILE:
        return f"it has {it.size} bytes, and {MOST_FILE} are allowed; {HAND}"
    if path != VERSIONS and path not in LEFT and rule_of(path) is None:
        return f"it isn't in the list of settings; {HAND}"
    return None


def archive_of(data: bytes, without: frozenset[str]) -> tuple[Archive, list[str]]:
    """Return the files of an archive, and each fault in it."""
    found, faults, seen = Archive(), [], set()
    try:
        with tarfile.open(fileobj=io.BytesIO(data), mode="r:") as tar:
            for count, it in enumerate(tar):
                if count >= MOST_MEMBERS:
                    raise tarfile.TarError(f"it has more than {MOST_MEMBERS} members")
                path = posixpath.normpath(it.name)
                if path in without:
                    seen.add(path)
                    found.left.append(path)
                    continue
                name = printable(it.name)[:200]
                if (why := fault_of_member(it, path)) is not None:
                    faults.append(f"{name}: {why}")
                    continue
                if it.isdir():
                    continue
                if path in seen:
                    faults.append(f"{name}: it is there twice; make the archive again")
                    continue
                seen.add(path)
                file = tar.extractfile(it)
                content = file.read() if file is not None else b""
                if len(content) != it.size:
                    raise tarfile.TarError(f"{name} is cut")
                faults += add(found, path, content, it.mode)
    except (tarfile.TarError, ValueError, OverflowError, EOFError, RecursionError) as error:
        faults.append(
            f"it can't be read as a tar ({printable(str(error))[:200]}); take another archive"
        )
    faults += [f"--without {it}: the archive has no such path" for it in sorted(without - seen)]
    return found, faults


def add(found: Archive, path: str, content: bytes, mode: int) -> list[str]:
    """Add a file, and return its faults."""
    if path == VERSIONS:
        found.versions = versions_of(content.decode("utf-8", "replace"))
    elif path in LEFT:
        found.left.append(path)
    elif (one := rule_of(path)) is not None:
        if DROP_IN.match(path):
            wrong = wrong_in_drop_in(content.decode("utf-8", "replace"))
            if wrong is not None:
                return [
                    f"{path}: it has `{wrong}`, which the list of settings doesn't have; {HAND}"
                ]
        wanted = one.mode
        if path.endswith(".conf"):
            # only root reads it, for a unit, so what was hidden from others stays so
            wanted = 0o600 | (one.mode & mode)
        found.members[path] = Member(path, content, one.user, one.group, wanted, one.package)
    return []
