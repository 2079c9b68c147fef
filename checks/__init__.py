"""The checks of everything around the proved part, as a package of unittest. `python3 -m checks` runs it, and docs/checks.md lists what is in it."""

import sys
from pathlib import Path

TOP = Path(__file__).resolve().parent.parent
# Where the checks find the model and the parts that they check. The counter comes first, because a module `tests` of theirs is its own.
FOLDERS = (
    "counter",
    "alarm",
    "audit",
    "checks/model",
    "inspect",
    "library/python",
    "move",
    "night",
    "readers",
    "support",
)
sys.dont_write_bytecode = True
sys.path[:0] = [path for it in FOLDERS if (path := str(TOP / it)) not in sys.path]
