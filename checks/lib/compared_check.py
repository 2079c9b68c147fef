#!/usr/bin/python3
"""Replaces the built program for checks/agreement. It runs the program. Before a `check --file`, it compares the program's verdict about a copy of the journal
with the second verifier's. @program@ is the program, and @folder@ has the verifier and gets the verdicts."""

import fcntl
import json
import os
import shutil
import subprocess
import sys
import tempfile

PROGRAM, FOLDER, TOP = "@program@", "@folder@", "@top@"


def journal_of(words: list[str]) -> str | None:
    """Return the file of a `check --file` without another file or option. Return None for any other command."""
    named = [it for it in words[1:] if it != "--verbose"]
    if words[:1] != ["check"] or len(named) != 2 or named[0] != "--file":
        return None
    return named[1]


def compare(path: str) -> dict[str, object] | None:
    """Return both verdicts about a copy of the journal. Return None if it can't be copied whole, because a service writes it or a file isn't plain."""
    sys.dont_write_bytecode = True
    sys.path.insert(0, TOP)
    from checks.lib.verdict import ENDINGS, verdict_of

    real = os.path.realpath(path)
    folder = tempfile.mkdtemp(dir=FOLDER)
    copy = f"{folder}/journal.db"
    try:
        for ending in ENDINGS:
            if os.path.lexists(real + ending):
                if not os.path.isfile(real + ending):
                    return None
                shutil.copyfile(real + ending, copy + ending)
        if not os.path.exists(copy):
            return None
        own = run([PROGRAM, "check", "--file", copy])
        second = run([f"{FOLDER}/verify", copy])
        said = second.stdout.decode("utf-8", "backslashreplace")
        # A verifier ends with status 2 if it can't read the file as a journal.
        wanted = "store" if second.returncode == 2 else verdict_of(copy, said)
        found = (own.stdout or own.stderr).decode().rstrip("\n").rpartition("\n")[2]
        same = wanted is None or found == wanted or wanted == "store" == found[:5]
        kind = "follows from nothing" if wanted is None else f"both say {found.split()[0]}"
        if not same:
            kind = "differs"
            os.rename(folder, f"{FOLDER}/differ/{os.path.basename(folder)}")
        return {
            "kind": kind,
            "verifier": wanted,
            "program": found,
            "by": said[:400],
            "reason": own.stderr.decode()[:400],
            "path": os.path.basename(folder),
        }
    except OSError:
        return None
    finally:
        shutil.rmtree(folder, ignore_errors=True)


def run(words: list[str]) -> "subprocess.CompletedProcess[bytes]":
    return subprocess.run(words, stdin=subprocess.DEVNULL, capture_output=True, timeout=60)


def note(verdict: dict[str, object]) -> None:
    with open(f"{FOLDER}/verdicts", "a", encoding="utf-8") as file:
        fcntl.flock(file, fcntl.LOCK_EX)
        file.write(json.dumps(verdict) + "\n")


def main() -> None:
    words = sys.argv[1:]
    path = journal_of(words)
    if path is not None and os.access(FOLDER, os.W_OK):
        verdict = compare(path)
        if verdict is not None:
            note(verdict)
    os.execv(PROGRAM, [PROGRAM, *words])


main()
