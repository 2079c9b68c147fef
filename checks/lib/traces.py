"""The traces of checks/data/traces, each with what a replay of it prints. A folder has those that show one thing.

A trace is a file NAME.trace, and NAME.printed next to it has what it prints. The trace's first line has the options of the replay, as
`# --pace 50`. A line of NAME.printed that begins with `! ` is reported on standard error, and the status of the replay is 1 then.
"""
import functools
import os

TRACES = os.path.join(os.path.dirname(os.path.dirname(os.path.abspath(__file__))), "data", "traces")
PARTS = (".trace", ".printed")


def read(file: str) -> bytes:
    with open(os.path.join(TRACES, file), "rb") as it:
        return it.read()


@functools.cache
def files() -> set[str]:
    return {
        os.path.relpath(os.path.join(at, name), TRACES)
        for at, _, names in os.walk(TRACES)
        for name in names
    }


def names() -> list[str]:
    """Return the traces that have both of their files, in order."""
    there = files()
    return sorted(
        {
            os.path.splitext(file)[0]
            for file in there
            if all(os.path.splitext(file)[0] + part in there for part in PARTS)
        }
    )


def alone() -> list[str]:
    """Return the files that are no part of a trace with both of its files."""
    return sorted(files() - {name + part for name in names() for part in PARTS})


def folders() -> set[str]:
    return {os.path.dirname(name) for name in names()} - {""}


class Trace:
    """A trace, the options of its replay, the status that is wanted, and what is wanted of both outputs."""

    def __init__(self, name: str) -> None:
        self.text, printed = read(f"{name}.trace"), read(f"{name}.printed")
        first = self.text.split(b"\n", 1)[0].decode()
        self.options = first[2:].split() if first.startswith("# --") else []
        lines = printed.splitlines(keepends=True)
        self.reported = b"".join(line[2:] for line in lines if line.startswith(b"! "))
        self.printed = b"".join(line for line in lines if not line.startswith(b"! "))
        self.status = 1 if self.reported else 0
