#!/usr/bin/env python3
"""Show that a reader gives the counts that a line, its registers or a file have, or loses the reading, whatever they hold. It needs python3,
python3-hypothesis, python3-pymodbus and python3-serial, but no program of this project.

The inputs come by chance. For each one, this file works out the counts in its own way, and compares them.

Usage: checks/lib/reader_inputs.py     from any folder; checks/converters runs it too
"""

import ast
import itertools
import math
import os
import struct
import sys
import tempfile
import unittest.mock
from typing import Any

TOP = os.path.dirname(os.path.dirname(os.path.dirname(os.path.abspath(__file__))))
sys.path.insert(0, TOP)
import checks  # noqa: E402, F401
from paced import Lost  # noqa: E402

SCRATCH = tempfile.TemporaryDirectory()
IS_THERE = True
try:
    os.environ["HYPOTHESIS_STORAGE_DIRECTORY"] = SCRATCH.name
    import pymodbus  # noqa: F401
    import serial  # noqa: F401
    from hypothesis import given, settings
    from hypothesis import strategies as some
except ImportError as error:
    print(f"reader_inputs: left out, since {error}", flush=True)
    IS_THERE = False

EXAMPLES = 2000
LEAST, GREATEST = -(2**31), 2**31 - 1
# Words of a device next to the ends of 8, 16, 24 and 32 bits, and of a float that is no number.
EDGES = [0, 1, 0x7F, 0x80, 0xFF, 0x100, 0x7F80, 0x7FFF, 0x8000, 0xFF00, 0xFF7F, 0xFF80, 0xFFFF]


def part_of(reader: str) -> dict[str, Any]:
    """Return what a reader defines, without running it: all before it reads its arguments."""
    path = os.path.join(TOP, "readers", reader)
    with open(path, encoding="utf-8") as file:
        tree = ast.parse(file.read())
    body = itertools.takewhile(lambda it: not ast.unparse(it).startswith("given = "), tree.body)
    names: dict[str, Any] = {"__file__": path, "__name__": reader, "__doc__": reader}
    exec(compile(ast.Module([*body], []), path, "exec"), names)
    return names


def setup_of(names: dict[str, Any], *words: str) -> Any:
    """Return the setup that a reader makes of these arguments."""
    with unittest.mock.patch.object(sys, "argv", ["reader", *words]):
        return names["options"]()


def found_by(read: Any, *words: Any) -> int | None:
    """Return the counts, or None if the reading is lost. Any other error goes to the caller."""
    try:
        return int(read(*words))
    except Lost:
        return None


def fitting(value: int, bits: int) -> int | None:
    """Return the value if it fits in these bits with a sign, and in the converter's 32."""
    least, greatest = max(LEAST, -(2 ** (bits - 1))), min(GREATEST, 2 ** (bits - 1) - 1)
    return value if least <= value <= greatest else None


def sir_counts(line: bytes, decimals: int, bits: int) -> int | None:
    """Return the counts of a line of MT-SICS level 0: a state, a value right-aligned in ten characters, and a unit."""
    if line[:2] != b"S " or line[2:3] not in (b"S", b"D") or line[3:4] != b" ":
        return None
    value, unit = line[4:14].lstrip(b" "), line[15:].rstrip(b" ")
    if line[14:15] != b" " or not unit.isalpha() or not unit.isascii():
        return None
    digits = value.removeprefix(b"-")
    whole, point, behind = digits.partition(b".")
    if not (whole + behind).isdigit() or len(behind) != decimals or len(point) != bool(decimals):
        return None
    return fitting(int(whole + behind) * (-1 if value.startswith(b"-") else 1), bits)


def continuous_counts(line: bytes, bits: int) -> int | None:
    """Return the counts of a frame with three status words, of six digits each for weight and tare."""
    if len(line) != 16 or line[:1] != b"\x02" or not all(0x20 <= it < 0x80 for it in line[1:4]):
        return None
    digits, tare = line[4:10].lstrip(b" "), line[10:]
    if not digits.isdigit() or not all(it in b" 0123456789" for it in tare) or line[2] & 5:
        return None
    return fitting(int(digits) * (-1 if line[2] & 2 else 1), bits)


def changed(draw: Any, line: bytes) -> bytes:
    """Return a line with up to two of its bytes changed, lost or doubled."""
    for _ in range(draw(some.integers(0, 2))):
        at = draw(some.integers(0, max(0, len(line) - 1)))
        byte = draw(
            some.binary(min_size=1, max_size=1) | some.sampled_from([b" ", b"-", b".", b"5"])
        )
        how = draw(some.sampled_from(["change", "lose", "add"]))
        line = line[:at] + (b"" if how == "lose" else byte) + line[at + (how != "add") :]
    return line


def lines() -> None:
    names = part_of("text")

    @settings(max_examples=EXAMPLES, deadline=None, database=None, derandomize=True)
    @given(some.data(), some.integers(0, 3), some.sampled_from([16, 24, 32]))
    def sir(data: Any, decimals: int, bits: int) -> None:
        words = ("--tcp", "h:1", "--preset", "sir", "--decimals", str(decimals))
        setup = setup_of(names, *words, "--bits", str(bits))
        value = data.draw(some.integers(-(2**31), 2**31))
        text = f"{value / 10**decimals:.{decimals}f}"
        text = data.draw(some.sampled_from([text, text, f"{text}.", f".{text}"]))[:10]
        line = f"S {data.draw(some.sampled_from('SDI+-'))} {text:>10} kg".encode()
        line = changed(data.draw, line) if data.draw(some.booleans()) else line
        found = found_by(names["counts_of"], setup, line)
        assert found == sir_counts(line, decimals, bits), (line, found)

    @settings(max_examples=EXAMPLES, deadline=None, database=None, derandomize=True)
    @given(some.data(), some.sampled_from([16, 24, 32]))
    def continuous(data: Any, bits: int) -> None:
        setup = setup_of(names, "--tcp", "h:1", "--preset", "continuous", "--bits", str(bits))
        state = bytes(data.draw(some.lists(some.integers(0x20, 0x7F), min_size=3, max_size=3)))
        value, tare = (data.draw(some.integers(0, 999_999)) for _ in range(2))
        line = b"\x02" + state + f"{value:6}{tare:06}".encode()
        line = changed(data.draw, line) if data.draw(some.booleans()) else line
        found = found_by(names["counts_of"], setup, line)
        assert found == continuous_counts(line, bits), (line, found)

    sir()
    continuous()


def wanted(words: list[int], form: str, bits: int, is_negative: bool, scale: float) -> int | None:
    """Return the counts of the words of a device, the high one first."""
    raw = int.from_bytes(b"".join(it.to_bytes(2, "big") for it in words), "big")
    if form == "--float":
        value = struct.unpack(">f", raw.to_bytes(4, "big"))[0] * scale
        return fitting(math.floor(value + 0.5), 32) if math.isfinite(value) else None
    if form == "--offset-binary":
        return fitting(raw - 2 ** (bits - 1), bits) if raw < 2**bits else None
    if form == "--unsigned":
        return raw if raw < min(2**bits, 2**31) else None
    if form == "--negative":
        return fitting(-raw if is_negative else raw, bits + 1)
    width = 16 * len(words)
    return fitting(raw - (2**width if raw >= 2 ** (width - 1) else 0), bits)


def registers() -> None:
    names = part_of("modbus")
    forms = ["", "--float", "--offset-binary", "--unsigned", "--negative"]

    @settings(max_examples=EXAMPLES, deadline=None, database=None, derandomize=True)
    @given(some.data(), some.sampled_from(forms), some.sampled_from([16, 24, 32]), some.booleans())
    def held(data: Any, form: str, bits: int, is_low_first: bool) -> None:
        bits = 32 if form == "--float" else bits
        scale = data.draw(some.floats(0, exclude_min=True, allow_infinity=False))
        more = [form] if form else []
        more += ["--scale", repr(scale)] if form == "--float" else []
        more += ["0x8"] if form == "--negative" else []
        faulty = data.draw(some.sampled_from([0, 0x10, 0xF0]))
        more += ["--faulty", hex(faulty)] if faulty else []
        more += ["--status", "9"] if faulty or form == "--negative" else []
        more += ["--low-first"] if is_low_first else []
        setup = setup_of(names, "--tcp", "h", "--address", "1", "--bits", str(bits), *more)
        count = 1 if bits == 16 else 2
        word = some.integers(0, 0xFFFF) | some.sampled_from(EDGES)
        given_words, state = data.draw(some.lists(word, min_size=count, max_size=count)), data.draw(
            word
        )
        device = names["Device"](setup)
        device.registers = lambda address, _: [state] if address == 9 else [*given_words]
        high_first = given_words[::-1] if is_low_first else given_words
        right = wanted(high_first, form, bits, bool(state & 8), scale)
        right = None if state & faulty else right
        assert found_by(device.value) == right, (setup, given_words, state)

    held()


def channels() -> None:
    names = part_of("iio")
    end = some.sampled_from([b"\n", b"", b"\n\n", b" ", b".5", b"a"])

    @settings(max_examples=EXAMPLES // 4, deadline=None, database=None, derandomize=True)
    @given(
        some.binary(max_size=30)
        | some.tuples(some.integers(-(2**40), 2**40), end).map(lambda it: b"%d%s" % it),
        some.integers(8, 32),
        some.booleans(),
    )
    def file(content: bytes, bits: int, is_offset: bool) -> None:
        more = ["--offset-binary"] if is_offset else []
        words = ("--folder", SCRATCH.name, "--channel", "raw", "--bits", str(bits), *more)
        with open(os.path.join(SCRATCH.name, "raw"), "wb") as channel:
            channel.write(content)
        digits = content.removesuffix(b"\n").removeprefix(b"-")
        value = int(content) if digits.isdigit() and len(digits) <= 18 else None
        right = None if value is None else fitting(value, bits)
        if is_offset:
            right = (
                value - 2 ** (bits - 1) if value is not None and 0 <= value < 2**bits else None
            )
        read = names["reader"](setup_of(names, *words))
        found = found_by(lambda: read()[0])
        assert found == right, (content, bits, is_offset, found)

    file()


def show() -> None:
    if not IS_THERE:
        return
    for part in (lines, registers, channels):
        part()
        print(f"a reader's {part.__name__} by chance: the right counts, or lost: ok", flush=True)


if __name__ == "__main__":
    show()
