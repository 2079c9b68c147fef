"""The command line of weighbridge-support."""

import argparse
import os
import sys
import tempfile

from weighbridge_night.programs import RealPrograms

from .gathering import parts, text_of
from .world import RealWorld

FOLDER = "/root"


def complain(words: str) -> None:
    print(f"weighbridge-support: {words}", file=sys.stderr)


def write(path: str, text: str) -> str | None:
    """Write a new file that only its owner reads. Return why it can't be written. None if it was."""
    try:
        handle = os.open(path, os.O_WRONLY | os.O_CREAT | os.O_EXCL | os.O_NOFOLLOW, 0o600)
        with open(handle, "w", encoding="utf-8", errors="replace") as file:
            file.write(text)
            file.flush()
            os.fsync(file.fileno())
    except OSError as error:
        return error.strerror or "it can't be written"
    return None


def options() -> argparse.ArgumentParser:
    it = argparse.ArgumentParser(
        prog="weighbridge-support",
        description="Gathers what a service company needs to know of this bridge, in one text file without plates and keys. Nothing is sent or changed.",
        epilog="Status: 0 if the file was written, 1 if it couldn't be, 2 for wrong arguments.",
    )
    it.add_argument(
        "--output",
        metavar="FILE",
        help=f"a new file, or - for the screen; {FOLDER}/weighbridge-support-DATE.txt if it isn't given",
    )
    return it


def main() -> int:
    asked = options().parse_args()
    with tempfile.TemporaryDirectory(prefix="weighbridge-support-") as scratch:
        world = RealWorld(RealPrograms(scratch))
        begun = world.now()
        if os.geteuid() != 0:
            complain("some parts will be missing, because this user isn't root; run it as root")
        text = text_of([*parts(world)], f"{begun:%Y-%m-%d %H:%M:%S}")
    if asked.output == "-":
        sys.stdout.write(text)
        return 0
    path = asked.output or f"{FOLDER}/weighbridge-support-{begun:%Y-%m-%dT%H%M%SZ}.txt"
    why = write(path, text)
    if why is not None:
        complain(f"{path}: {why}; name a new file with --output")
        return 1
    print(f"{path}: written, {len(text.encode()) / 1000:.0f} kB. Read it, and then send it.")
    return 0


if __name__ == "__main__":
    sys.exit(main())
