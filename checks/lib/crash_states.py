"""States of a journal's files that a power cut may leave: strace records the writes of a service's run, and they are torn as a disk may tear them.

A disk keeps what was synced. Of what was written since, each byte is as before or as written, in runs of one to 4,096 bytes, and a file has any
length between. The witness next to a journal is never synced, so a power cut may leave any part of what was written to it. It needs strace.
"""

import os
import random
import re

CALLS = "pwrite64,fdatasync,fsync,ftruncate"
LINE = re.compile(r"(pwrite64|fdatasync|fsync|ftruncate)\(\d+<([^>]*)>(?:, (.*))?\)\s+= (\d+)")
WRITTEN = re.compile(r'"([^"]*)", (\d+), (\d+)')
RUNS = [1, 1, 8, 512, 4096]
# A call: its kind, the file, the place in it, and the bytes.
Call = tuple[str, str, int, bytes]


# The files of a journal, by what their names end with.
FILES = {"log": "-wal", "witness": "-newest", "file": ".db"}


class Recording:
    """Records the writes of a program, which it runs as `program`. It has the calls in their order: what was done, to which of the files, where,
    and with which bytes."""

    def __init__(self, folder: str, program: str) -> None:
        self.folder, self.program = folder, os.path.join(folder, "recorded")
        self.calls: list[Call] = []
        self.read: dict[str, int] = {}
        with open(self.program, "w") as it:
            it.write(
                f'#!/bin/sh\nexec strace -D -qq -y -xx -s 50000000 -o "{folder}/trace.$(date +%s%N)" -e trace={CALLS} "{program}" "$@"\n'
            )
        os.chmod(self.program, 0o755)

    def count(self) -> int:
        """Return how many calls there are by now."""
        for name in sorted(it for it in os.listdir(self.folder) if it.startswith("trace.")):
            with open(os.path.join(self.folder, name), "rb") as it:
                it.seek(self.read.setdefault(name, 0))
                for line in it:
                    if not line.endswith(b"\n"):
                        break
                    self.read[name] += len(line)
                    if (found := LINE.search(line.decode(errors="replace"))) and (
                        call := call_of(*found.groups())
                    ):
                        self.calls.append(call)
        return len(self.calls)


def bytes_of(text: str) -> bytes:
    return bytes.fromhex(text.replace("\\x", ""))


def call_of(what: str, path: str, words: str, result: str) -> Call | None:
    path = bytes_of(path).decode() if path.startswith("\\x") else path
    which = next((name for name, end in FILES.items() if path.endswith(end)), None)
    if which is None:
        return None
    if what == "pwrite64":
        written = WRITTEN.match(words)
        assert written, words
        data, _, at = written.groups()
        return "write", which, int(at), bytes_of(data)[: int(result)]
    if what == "ftruncate":
        return "cut", which, int(words), b""
    return "sync", which, 0, b""


def put(data: bytearray, at: int, new: bytes) -> None:
    data.extend(bytes(max(0, at + len(new) - len(data))))
    data[at : at + len(new)] = new


def cut(data: bytearray, length: int) -> None:
    del data[length:]
    data.extend(bytes(length - len(data)))


class Disk:
    """The files: what was synced of each, and what was done since."""

    def __init__(self, file: bytes = b"", log: bytes = b"", witness: bytes = b"") -> None:
        self.synced = {"file": file, "log": log, "witness": witness}
        self.since: dict[str, list[Call]] = {"file": [], "log": [], "witness": []}

    def take(self, call: Call) -> None:
        what, which, _, _ = call
        self.since[which].append(call)
        if what == "sync":
            whole = bytearray(self.synced[which])
            for it in self.since[which]:
                done(whole, it)
            self.synced[which], self.since[which] = bytes(whole), []

    def whole(self, which: str) -> bytes:
        """Return all that was written."""
        data = bytearray(self.synced[which])
        for it in self.since[which]:
            done(data, it)
        return bytes(data)

    def torn(self, which: str, chance: random.Random) -> bytes:
        """Return what a power cut leaves now, in one of many ways."""
        data = bytearray(self.synced[which])
        for what, _, at, new in self.since[which]:
            if what == "cut" and chance.random() < 0.5:
                cut(data, at)
            if what == "write":
                tear(data, at, new, chance)
        return bytes(data)


def done(data: bytearray, call: Call) -> None:
    what, _, at, new = call
    if what == "write":
        put(data, at, new)
    if what == "cut":
        cut(data, at)


def tear(data: bytearray, at: int, new: bytes, chance: random.Random) -> None:
    """Writes all, nothing or a part."""
    way = chance.random()
    if way < 0.15:
        return
    if way < 0.3:
        put(data, at, new)
        return
    run, lost = chance.choice(RUNS), chance.randrange(256)
    end = chance.randrange(len(new) + 1) if chance.random() < 0.3 else len(new)
    old = bytes(data[at : at + end]).ljust(end, b"\0")
    # for each run a byte by chance, which becomes 255 where the run is written
    kept = chance.randbytes(-(-end // run)).translate(bytes(lost) + bytes([255]) * (256 - lost))
    mask = b"".join(bytes([it]) * run for it in kept)[:end] if run > 1 else kept
    put(data, at, mixed(old, new[:end], mask))


def mixed(old: bytes, new: bytes, mask: bytes) -> bytes:
    """Return the bytes of the one where the mask is 0, of the other where it is 255."""
    before, after, which = (int.from_bytes(it, "big") for it in (old, new, mask))
    return (before ^ ((before ^ after) & which)).to_bytes(len(old), "big")
