"""The parts of the file. Each is gathered separately, so that one that fails leaves the others whole."""

import json
import re
from collections.abc import Callable, Iterator
from dataclasses import dataclass
from functools import partial
from typing import Any

from .hiding import HIDDEN, line_without, setup_without
from .world import SECONDS, SECONDS_OF_A_CHECK, Missing, World

UNITS = (
    "weighbridge.service",
    "weighbridge-converter.service",
    "weighbridge-ports.service",
    "weighbridge-counter.service",
    "weighbridge-night.timer",
    "weighbridge-night.service",
    "weighbridge-alarm.timer",
    "weighbridge-alarm.service",
    "weighbridge-audit.timer",
    "weighbridge-audit.service",
)
STATES = (
    "Id,LoadState,UnitFileState,ActiveState,SubState,Result,ExecMainStatus,NRestarts,"
    "ActiveEnterTimestamp,InactiveEnterTimestamp,MemoryCurrent"
)
CONFIGURED = (
    "/etc/weighbridge.conf",
    "/etc/weighbridge-converter.conf",
    "/etc/weighbridge-ports.conf",
)
SETUPS = (
    "/etc/weighbridge-counter.toml",
    "/etc/weighbridge-paper.toml",
    "/etc/weighbridge-night.toml",
    "/etc/weighbridge-alarm.toml",
)
FOLDERS = (
    "/var/lib/weighbridge",
    "/var/lib/weighbridge-converter",
    "/var/lib/weighbridge-counter",
    "/var/lib/weighbridge-night",
    "/var/lib/weighbridge-alarm",
    "/var/lib/weighbridge-audit",
)
OFFICE, COUNTER = "127.0.0.1:880", "127.0.0.1:882"
# Fields of answers that name a vehicle, a request or a person.
NAMES = {"clerk", "driver", "goods", "key", "order", "plate", "plates", "text"}
# The last lines are those around the fault.
MOST_LINES, MOST_OF_A_LINE = 1500, 400
SERIAL = re.compile(r"--serial[ =]+([A-Z0-9]{1,16})\b")
ADDRESS = re.compile(r"^\s*WEIGHBRIDGE_OFFICE=[\"']?(127\.[0-9.]+:[0-9]+)", re.M)


@dataclass(frozen=True)
class Part:
    """A part of the file: its title, and its lines."""

    title: str
    lines: list[str]


def office_in(configuration: str) -> str:
    """Return the address of the office in the service's options, or the package's own."""
    found: list[str] = ADDRESS.findall(configuration)
    return found[-1] if found else OFFICE


def parts(world: World) -> Iterator[Part]:
    """Return each part, with what it doesn't have in words."""
    configuration = ""
    try:
        configuration = world.read(CONFIGURED[0])
    except Missing:
        pass
    serials = SERIAL.findall(configuration)
    office = office_in(configuration)

    def part(title: str, text_of: Callable[[], str], is_plain: bool = False) -> Part:
        try:
            lines = text_of().splitlines()
        except Missing as why:
            return Part(title, [f"not available: {line_without(str(why), serials)}"])
        left = [f".. {len(lines) - MOST_LINES} earlier lines are left out"]
        lines = lines if len(lines) <= MOST_LINES else left + lines[-MOST_LINES:]
        cut = [it if len(it) <= MOST_OF_A_LINE else f"{it[:MOST_OF_A_LINE]} .." for it in lines]
        return Part(title, cut if is_plain else [line_without(it, serials) for it in cut])

    yield part("Versions", lambda: versions(world), is_plain=True)
    yield part("Clock", lambda: world.run(["timedatectl", "show"]), is_plain=True)
    yield part("Units", lambda: units(world), is_plain=True)
    for path in CONFIGURED:
        yield part(path, partial(options, world, path))
    for path in SETUPS:
        yield part(path, partial(setup, world, path), is_plain=True)
    yield part(
        "Health of the counter", lambda: health(world.get(f"http://{COUNTER}/health", SECONDS))
    )
    yield part(
        "Indication of the office", lambda: world.get(f"http://{office}/indication", SECONDS)
    )
    yield part(
        "Check by the office", lambda: world.get(f"http://{office}/check", SECONDS_OF_A_CHECK)
    )
    yield part("Alarm", lambda: world.run(["weighbridge-alarm", "list"]))
    yield part("Audit trail", lambda: world.run(["weighbridge-audit", "show"]), is_plain=True)
    yield part("Last night", lambda: world.read("/var/lib/weighbridge-night/last.json"))
    for folder in FOLDERS:
        yield part(folder, partial(sizes, world, folder))
    yield part("Disks", lambda: world.run(["df", "-h", "--exclude-type=tmpfs"]), is_plain=True)
    yield part("Memory", lambda: world.run(["free", "-m"]), is_plain=True)
    yield part("The last hour's lines", lambda: world.run(
        ["journalctl", "--no-pager", "--since=-1h", "--output=short-iso", f"--lines={MOST_LINES}",
         *(f"--unit={it}" for it in UNITS)]))  # fmt: skip
    yield part("The kernel's warnings", lambda: world.run(
        ["journalctl", "--no-pager", "--dmesg", "--priority=warning", "--lines=100"]))  # fmt: skip


def versions(world: World) -> str:
    own = [["weighbridge", "--version"], ["dpkg-query", "-W", "weighbridge*"], ["uname", "-rm"]]
    found = []
    for words in own:
        try:
            found.append(world.run(words).rstrip())
        except Missing as why:
            found.append(f"{words[0]}: not available: {why}")
    try:
        system = world.read("/etc/os-release")
        found += [it for it in system.splitlines() if it.startswith("PRETTY_NAME=")]
    except Missing:
        pass
    return "\n".join(found)


def units(world: World) -> str:
    """Return one line for each unit. Empty values are left out."""
    shown = world.run(["systemctl", "show", f"--property={STATES}", *UNITS])
    blocks = [it.splitlines() for it in shown.split("\n\n")]
    return "\n".join(", ".join(it for it in block if not it.endswith("=")) for block in blocks)


def options(world: World, path: str) -> str:
    """Return the lines of a file of options without comments."""
    lines = world.read(path).splitlines()
    return "\n".join(it for it in lines if it.strip() and not it.startswith("#"))


def setup(world: World, path: str) -> str:
    return "\n".join(setup_without(world.read(path)))


def health(text: str) -> str:
    """Return the counter's health with one line for each of its parts, without what names a vehicle or a person."""
    head, _, body = text.partition("\n")
    try:
        found = json.loads(body)
    except (ValueError, RecursionError):
        return text
    if not isinstance(found, dict):
        return text
    return "\n".join(
        [head, *(f"{name}: {json.dumps(without_names(it))}" for name, it in found.items())]
    )


def without_names(value: Any) -> Any:
    """Return the value with each field of NAMES hidden, at any depth."""
    if isinstance(value, dict):
        return {
            name: HIDDEN if name in NAMES and it is not None else without_names(it)
            for name, it in value.items()
        }
    return [without_names(it) for it in value] if isinstance(value, list) else value


def sizes(world: World, folder: str) -> str:
    found = world.sizes(folder)
    return "\n".join(f"{size:>14,}  {at:%Y-%m-%d %H:%M:%S}  {name}" for name, size, at in found)


def text_of(found: list[Part], begun: str) -> str:
    """Return the whole file."""
    head = [
        "The state of this bridge, for its service company",
        f"Made {begun}. Times are in UTC unless a line says otherwise.",
        "Plates, keys, passwords and addresses of persons are replaced by [hidden]. Read it before you send it.",
    ]
    blocks = ["\n".join(head)]
    blocks += ["\n".join([f"== {it.title} ==", *(it.lines or ["nothing"])]) for it in found]
    return "\n\n".join(blocks) + "\n"
