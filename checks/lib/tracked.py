"""The files that git tracks, by the interpreter that their first line names. It needs python3 and git."""

import os
import re
import subprocess


def tracked(top: str, interpreter: str, ending: str) -> list[str]:
    """Return the paths of the files that git tracks below `top`, if their name has `ending` or their first line names `interpreter`, a pattern."""
    listed = subprocess.run(
        ["git", "ls-files", "-s", "-z"], cwd=top, capture_output=True, text=True, check=True
    )
    files = []
    for entry in listed.stdout.split("\0"):
        mode, _, path = entry.partition(" ")[0], *entry.partition("\t")[1:]
        if mode not in ("100644", "100755") or not os.path.isfile(os.path.join(top, path)):
            continue
        with open(os.path.join(top, path), "rb") as file:
            first_line = file.readline(80)
        if path.endswith(ending) or re.match(rb"#!.*\b(?:%b)\b" % interpreter.encode(), first_line):
            files.append(path)
    return files
