"""The built program that the checks try."""

import os
import subprocess

from checks import TOP

# Other built programs than those of this folder can be named by these variables.
NAMED, NAMED_CONVERTER = (
    os.path.abspath(path) if (path := os.environ.get(it)) else ""
    for it in ("WEIGHBRIDGE_PROGRAM", "WEIGHBRIDGE_CONVERTER_PROGRAM")
)
PROGRAM = NAMED or str(TOP / "weighbridge")
CONVERTER = NAMED_CONVERTER or str(TOP / "weighbridge-converter")


def named() -> list[str]:
    """Return the programs that the variables name, or none if the launchers are tried."""
    return [NAMED, CONVERTER] if NAMED else []


def compiled() -> str:
    """Return the program itself, which the launcher of this folder runs."""
    return NAMED or str(TOP / "crates" / "weighbridge" / "out" / "weighbridge")


def compiled_converter() -> str:
    """Return the converter itself, which the launcher of this folder runs."""
    crate = TOP / "crates" / "weighbridge_converter"
    return NAMED_CONVERTER or str(crate / "out" / "weighbridge_converter")


def printed(*words: str, program: str = PROGRAM) -> tuple[int, str, str]:
    """Return the status of a run, and what it printed and reported."""
    it = subprocess.run([program, *words], stdin=subprocess.DEVNULL, capture_output=True, text=True)
    return it.returncode, it.stdout, it.stderr
