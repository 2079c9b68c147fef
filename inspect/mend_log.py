#!/usr/bin/env python3
"""Repairs flipped bits in a copy of a journal's log, at most one in each frame. Use it if the program refuses the log because it is damaged.

  inspect/mend_log.py /var/lib/weighbridge/journal.db /srv/mended

Every frame of a log has a checksum of everything before it. So this program goes to the first damaged place, which is the log's header or a frame,
and turns over each bit there, one at a time. It repeats this at the next damaged place until each frame is whole. If more than eight places are
damaged, it gives up.

Different bits can have the same effect on a checksum, so several bits may make the frame and the next frame whole. Then only those count with which
SQLite finds its database whole, and verify.py (in the same folder) finds the journal whole. If exactly one bit is left, that is the flipped one. If
several are left in a page that a later commit of the log wrote again, the program chooses the first, because no entry depends on that page.

The program writes the repaired log and the journal's other files into a new folder. It only reads the original files. It prints what it changed. Then
it checks the copy as the service does: the log, the entries and the `-newest` file. If `weighbridge` is in the PATH, or `--program` names it, that
program checks the copy too. It prints what is still wrong. Show the output and both copies to the inspector, because a repaired journal is evidence
like the damaged one.

It needs only Python 3.8 or later, and takes some seconds. Stop the service before.

Status 0: it wrote a repaired copy, and nothing is wrong with it.
Status 1: it wrote nothing, because nothing is damaged or no single bits repair it. Or something is still wrong with the copy.
Status 2: it can't read or write a file.
"""
from __future__ import annotations  # the oldest Python that is enough for this program is 3.8

import argparse
import hashlib
import os
import shutil
import sqlite3
import struct
import subprocess
import sys
import tempfile
from collections.abc import Iterable, Iterator

sys.dont_write_bytecode = True  # so that Python writes nothing next to this program
sys.path.insert(0, os.path.dirname(os.path.realpath(__file__)))
import verify  # noqa: E402
from verify import FRAME_HEADER, HEADER, Unreadable, checksum  # noqa: E402

BESIDE = ("", "-wal", "-newest")
# The page number of a commit's first frame if it counts zeros.
COUNT = verify.COUNT.to_bytes(4, "big")
MOST_BITS, MOST_WAYS = 8, 64


class Log(verify.Log):
    """The bytes of a log, and where a repair may go."""

    def is_end(self, at: int) -> bool:
        """Return True if the log may end at byte `at`, because a frame there was never finished or is of an earlier log."""
        frame = self.data[at : at + self.length]
        return (
            len(frame) < self.length
            or frame[8] == 0
            or sum(a != b for a, b in zip(frame[8:16], self.salts)) > 1
        )

    def is_counted(self, at: int) -> bool:
        """Return True if the commit with the frame at byte `at` counts nothing, or has what it counted.

        It counts its zeros, and how far its numbers are below the number of the frame that counts.
        """
        begin = at
        while begin > HEADER and not any(
            self.data[begin - self.length + 4 : begin - self.length + 8]
        ):
            begin -= self.length
        if self.data[begin : begin + 4] != COUNT:
            return True
        found, it, counted = 0, begin, FRAME_HEADER + 8
        while True:
            frame = self.data[it : it + self.length]
            found += (
                frame[counted:].count(0)
                + int.from_bytes(COUNT, "big")
                - int.from_bytes(frame[:4], "big")
            )
            if any(frame[4:8]) or len(frame) < self.length:
                break
            it, counted = it + self.length, FRAME_HEADER
        found += int.from_bytes(COUNT, "big") - int.from_bytes(frame[4:8], "big")
        return found == int.from_bytes(
            self.data[begin + FRAME_HEADER : begin + FRAME_HEADER + 8], "big"
        )

    def first_damage(self) -> int | None:
        """Return the byte where the first frame that isn't whole begins. Return None if each frame up to the log's end is whole."""
        at = HEADER
        while self.is_whole(at):
            at += self.length
        return None if self.is_end(at) and not self.signed_behind(at + self.length) else at


def turned(data: bytes, bit: int) -> bytes:
    """Return the data with one bit turned over."""
    other = bytearray(data)
    other[bit // 8] ^= 1 << bit % 8
    return bytes(other)


def is_mended_at(log: Log, at: int) -> bool:
    """Return True if the frame at byte `at` and the next one are whole, and its commit has what it counted.

    If the log ends behind the frame, there needn't be a next one.
    """
    return (
        log.is_whole(at)
        and (log.is_whole(at + log.length) or log.is_end(at + log.length))
        and log.is_counted(at)
    )


def bits_of_header(data: bytes) -> list[int]:
    """Return each bit of the header that, turned over, makes the header and the first frame whole.

    If there is none, return each bit that makes the header itself whole.
    """
    whole = [bit for bit in range(8 * HEADER) if Log(turned(data, bit)).has_header()]
    return [bit for bit in whole if is_mended_at(Log(turned(data, bit)), HEADER)] or whole


def bits_of_frame(log: Log, at: int) -> list[int]:
    """Return each bit of the frame at byte `at` that, turned over, makes this frame and the next one whole.

    If there is none, return each bit that makes the frame itself whole.
    """
    frame = log.data[at : at + log.length]
    content, stored = frame[:8] + frame[FRAME_HEADER:], struct.unpack(">2I", frame[16:24])
    total = checksum(log.order, log.sum_before(at), content)
    found = []
    if frame[8:16] == log.salts:
        for bit in bits_by_checksum(log.order, content, stored[0] - total[0], stored[1] - total[1]):
            found.append(bit if bit < 64 else bit + 8 * (FRAME_HEADER - 8))
    for bit in range(8 * 8, 8 * FRAME_HEADER):
        other = turned(frame[:FRAME_HEADER], bit)
        if other[8:16] == log.salts and struct.unpack(">2I", other[16:24]) == total:
            found.append(bit)
    whole = [
        8 * at + bit for bit in sorted(found) if Log(turned(log.data, 8 * at + bit)).is_whole(at)
    ]
    return [bit for bit in whole if is_mended_at(Log(turned(log.data, bit)), at)] or whole


def bits_by_checksum(order: str | None, content: bytes, first: int, second: int) -> Iterator[int]:
    """Yield each bit of the content that, turned over, makes the two sums of its checksum greater by `first` and `second`.

    A checksum is a sum in which each word has two weights of its own.
    """
    first, second = first & 0xFFFFFFFF, second & 0xFFFFFFFF
    words = struct.unpack(f"{order}{len(content) // 4}I", content)
    weights = [(1, 1), (0, 1)]  # of the last two words
    for pair in range(len(words) - 2, -1, -2):
        for index, (one, other) in enumerate(weights, pair):
            for bit in range(32):
                change = -(1 << bit) if words[index] >> bit & 1 else 1 << bit
                if (one * change) & 0xFFFFFFFF == first and (other * change) & 0xFFFFFFFF == second:
                    byte = bit // 8 if order == "<" else 3 - bit // 8
                    yield 8 * (4 * index + byte) + bit % 8
        weights = [
            ((one + other) & 0xFFFFFFFF, (one + 2 * other) & 0xFFFFFFFF) for one, other in weights
        ]


class Stuck(Exception):
    """Raised if no single bits repair the log."""


def ways(data: bytes, bits: tuple[int, ...] = ()) -> list[tuple[int, ...]]:
    """Return each way to make the log whole with one bit in each damaged place, as a tuple of bits. Raises Stuck if a place has no such bit."""
    log = Log(data)
    at = log.first_damage() if log.has_header() else 0
    if at is None:
        return [bits]
    if len(bits) == MOST_BITS:
        raise Stuck(f"more than {MOST_BITS} places are damaged")
    found = bits_of_frame(log, at) if at else bits_of_header(data)
    made, stuck = [], Stuck(
        f"in {where_of(at)} 0 single bits could be the flipped one, and it has to be one"
    )
    for bit in found:
        try:
            made += ways(turned(data, bit), (*bits, bit))
        except Stuck as fault:
            stuck = fault
        if len(made) > MOST_WAYS:
            break
    if not made:
        raise stuck
    return made


def where_of(at: int) -> str:
    return f"the frame from byte {at}" if at else "the header"


def with_bits(data: bytes, bits: Iterable[int]) -> bytes:
    for bit in bits:
        data = turned(data, bit)
    return data


def faults_of(files: dict[str, bytes]) -> list[str]:
    """Return what verify.py finds wrong with a journal of these files, and what SQLite finds wrong with the database."""
    with tempfile.TemporaryDirectory() as folder:
        path = os.path.join(folder, "journal.db")
        for end, it in files.items():
            write(path + end, it)
        try:
            journal = verify.Journal(path)
        except (ValueError, sqlite3.Error, Unreadable) as fault:
            return [str(fault)]
        found = [
            *journal.faults_of_files(),
            *journal.faults_of_rows(),
            *journal.faults_of_chain(),
            *journal.faults_of_newest(),
        ]
        return [it.replace(path, "the copy") for it in found]


def stands_again(log: Log, at: int) -> bool:
    """Return True if a later commit of the log wrote the page of the frame at byte `at` again."""
    page, it, last = log.data[at : at + 4], at + log.length, 0
    while log.is_whole(it):
        last = it if log.data[it : it + 4] == page else last
        if any(log.data[it + 4 : it + 8]) and last:
            return True
        it += log.length
    return False


def flipped_bits(files: dict[str, bytes]) -> tuple[int, ...]:
    """Return the bits of the log that are flipped. End the program if they can't be found."""
    data = files["-wal"]
    if len(data) < HEADER:
        sys.exit("nothing was written: the log has no whole header")
    if data[0] == 0:
        sys.exit("nothing was written: nothing is in the log, which a checkpoint has emptied")
    try:
        found = ways(data)
    except Stuck as fault:
        sys.exit(f"nothing was written: {fault}")
    if found == [()]:
        sys.exit("nothing was written: no frame of the log is damaged")
    if len(found) > 1:
        found = [
            it for it in found if not faults_of({**files, "-wal": with_bits(data, it)})
        ] or found
    last = place_of(Log(with_bits(data, found[0])), found[0][-1])
    if (
        len(found) > 1
        and len({it[:-1] for it in found}) == 1
        and last
        and stands_again(Log(with_bits(data, found[0])), last)
    ):
        found = found[:1]
    if len(found) != 1:
        sys.exit(
            f"nothing was written: in {where_of(last)} {len(found)} single bits could be the flipped one, and it has to be one"
        )
    return found[0]


def place_of(log: Log, bit: int) -> int:
    """Return the byte where the frame with this bit begins. Return 0 for the header."""
    byte = bit // 8
    return 0 if byte < HEADER else byte - (byte - HEADER) % log.length


def asked_program(program: str | None, copy: str) -> list[str]:
    """Return what the program says about a copy that it refuses. Return an empty list if it accepts the copy, or if `program` is None."""
    if program is None:
        return []
    try:
        it = subprocess.run(
            [program, "check", "--file", copy], capture_output=True, text=True, timeout=600
        )
    except (OSError, subprocess.SubprocessError) as fault:
        return [f"{program} can't be run: {fault}"]
    return (
        []
        if it.returncode == 0
        else [f"{program} check --file {copy}: {' '.join((it.stdout + it.stderr).split())}"]
    )


def read(path: str) -> bytes:
    with open(path, "rb") as it:
        return it.read()


def write(path: str, data: bytes) -> None:
    with open(os.open(path, os.O_WRONLY | os.O_CREAT | os.O_EXCL, 0o600), "wb") as it:
        it.write(data)
        it.flush()
        os.fsync(it.fileno())


def mend(path: str, folder: str, program: str | None) -> int:
    """Write the repaired copy, and print what was done and what is still wrong. Return the exit status."""
    data = {end: read(path + end) for end in BESIDE if end == "-wal" or os.path.exists(path + end)}
    if not data.get(""):
        sys.exit(
            "nothing was written: the journal's file is missing or empty, and no bit of its log repairs that"
        )
    bits = flipped_bits(data)
    before, data["-wal"] = data["-wal"], with_bits(data["-wal"], bits)
    log = Log(data["-wal"])
    if (damage := log.damage(len(data[""]))) is not None:
        sys.exit(
            f"nothing was written: {len(bits)} flipped bits are found, and the program still refuses the log: {damage}"
        )
    os.mkdir(folder, 0o700)
    copy = os.path.join(folder, os.path.basename(path))
    try:
        for end, it in data.items():
            write(copy + end, it)
    except OSError:
        shutil.rmtree(folder)
        raise
    for bit in bits:
        byte = bit // 8
        print(
            f"{path}-wal: bit {bit % 8} of byte {byte}, in {where_of(place_of(log, bit))}, was flipped: {before[byte]:#04x} is {data['-wal'][byte]:#04x} in the copy"
        )
    print(f"damaged log, SHA-256 {hashlib.sha256(before).hexdigest()}")
    print(f"repaired log, SHA-256 {hashlib.sha256(data['-wal']).hexdigest()}")
    left = faults_of(data) + asked_program(program, copy)
    for fault in left:
        print(f"still wrong: {fault}")
    print(f"the copy is {copy}; check it by: weighbridge check --file {copy}")
    print("show both to the inspector before a service uses the copy")
    return 1 if left else 0


def main() -> int:
    parser = argparse.ArgumentParser(
        description=__doc__, formatter_class=argparse.RawDescriptionHelpFormatter
    )
    parser.add_argument("journal", help="the journal's file, whose log is refused")
    parser.add_argument("folder", help="the folder to make for the repaired copy")
    parser.add_argument(
        "--program",
        default=shutil.which("weighbridge"),
        help="the program that checks the copy; weighbridge, if that is in the PATH",
    )
    words = parser.parse_args()
    try:
        return mend(words.journal, words.folder, words.program)
    except OSError as fault:
        print(f"{fault.filename or words.folder}: {fault.strerror}", file=sys.stderr)
        return 2


sys.exit(main())
