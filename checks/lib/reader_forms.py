"""Shows what the readers read and refuse, for checks/converters: the devices of docs/devices.md, each form of a value, lines of every kind, and wrong
arguments."""

import json
import os
import shlex
import socket
import struct
import subprocess
import time
from collections.abc import Iterator
from contextlib import contextmanager
from typing import IO, Any

from checks import TOP
from checks.lib import bridge
from checks.lib.converting import READERS, first_line, holds, same
from checks.lib.devices import begun, end, pipe
from checks.lib.program import CONVERTER
from checks.lib.register_modbus import RegisterModbus


def reads_devices(folder: str) -> None:
    """Show the samples of docs/devices.md, read with the arguments that it gives."""
    with open(os.path.join(READERS, "samples", "devices.json")) as it:
        devices = json.load(it)
    page = (TOP / "docs" / "devices.md").read_text(encoding="utf-8").replace("\\|", "|")
    read_by = {"registers": registers_read, "channel": channel_read, "sent": texts_read}
    for device in devices:
        name, words = device["device"], device["words"]
        shown = f"| `{shlex.join(words)}` |"
        row = next((it for it in page.split("\n") if shown in it), "")
        holds(f"docs/devices.md has the arguments of {name}", row, shown)
        source = row.partition(" | ")[0]
        is_named = source.endswith(f"({device['source']})")
        holds(f"docs/devices.md says which source the sample of {name} is from", is_named, source)
        kind = next(it for it in read_by if it in device)
        same(f"the sample of {name}", device["counts"], read_by[kind](device, words, folder))


def registers_read(device: dict[str, Any], words: list[str], _: str) -> list[str]:
    found = []
    for held in device["registers"]:
        registers = {int(at): value for at, value in held.items()}
        found.append(modbus_line(registers, *words))
    return found


def modbus_line(registers: dict[int, int], *words: str) -> str:
    server = RegisterModbus(bridge.HOST, registers)
    found = first_line(*words, "--tcp", f"{bridge.HOST}:{server.port}")
    server.close()
    return found


def channel_read(device: dict[str, Any], words: list[str], folder: str) -> list[str]:
    return [channel_line(folder, text, *words) for text in device["channel"]]


def channel_line(folder: str, text: str, *words: str) -> str:
    with open(os.path.join(folder, words[2]), "w") as it:
        it.write(text)
    return first_line(*words, "--folder", folder)


@contextmanager
def text_reader(*words: str) -> Iterator[tuple[socket.socket, IO[str]]]:
    """Let a reader of a text device connect by TCP. Return the stream to it, and what it prints."""
    with socket.create_server((bridge.HOST, 0)) as listener:
        at = f"{bridge.HOST}:{listener.getsockname()[1]}"
        command = [f"{READERS}/text", "--tcp", at, *words, "--timeout", "2"]
        reader = begun(command, stdout=subprocess.PIPE, stderr=subprocess.DEVNULL, text=True)
        stream, _ = listener.accept()
        with stream:
            stream.setsockopt(socket.IPPROTO_TCP, socket.TCP_NODELAY, 1)
            time.sleep(0.3)  # what comes while the reader opens its device is dropped
            yield stream, pipe(reader.stdout)
            end(reader)


def texts_read(device: dict[str, Any], words: list[str], _: str) -> list[str]:
    found, is_each = [], "--ask" in words
    sent, asked = [it.encode() for it in device["sent"]], device.get("asked", "").encode()
    with text_reader(*words[1:]) as (stream, printed):
        if not is_each:
            ending = sent[0][-2 if sent[0].endswith(b"\r\n") else -1 :]
            stream.sendall(b"the rest of a line" + ending)
        for at, line in enumerate(sent):
            if asked and (is_each or at == 0):
                same(f"what {device['device']} is asked", asked, stream.recv(64))
            stream.sendall(line)
            found.append(printed.readline().strip())
    return found


def float_registers(value: float) -> dict[int, int]:
    return dict(enumerate(struct.unpack(">HH", struct.pack(">f", value))))


def reads_forms(folder: str) -> None:
    """Show each form of a value, of registers and of a channel."""
    value = float_registers(1_234.56)
    by_ten, middle, signed = (
        "--float --scale 10",
        "--bits 24 --offset-binary",
        "--status 9 --negative 8",
    )
    for name, registers, words, wanted in (
        ("a float", value, by_ten, "12346"),
        ("a float, low word first", {0: value[1], 1: value[0]}, f"{by_ten} --low-first", "12346"),
        ("an exact half below zero", float_registers(-2.5), "--float --scale 1", "-2"),
        ("a float that is no number", float_registers(float("nan")), by_ten, "lost"),
        ("a float without bounds", float_registers(float("-inf")), by_ten, "lost"),
        ("a float past 32 bits", float_registers(3e8), by_ten, "lost"),
        ("offset binary, the middle", {0: 0x80, 1: 0}, middle, "0"),
        ("offset binary, below it", {0: 0x7F, 1: 0xFFFF}, middle, "-1"),
        ("offset binary, the least", {0: 0, 1: 0}, middle, "-8388608"),
        ("offset binary, past its bits", {0: 0x100, 1: 0}, middle, "lost"),
        ("offset binary of 16 bits", {0: 0x8005}, "--bits 16 --offset-binary", "5"),
        ("a sign of its own", {0: 0, 1: 1_234, 9: 0x0018}, signed, "-1234"),
        ("no sign", {0: 0, 1: 1_234, 9: 0x0010}, signed, "1234"),
        ("a fault next to a sign", {0: 0, 1: 1_234, 9: 0x0018}, f"{signed} --faulty 16", "lost"),
        ("a value past 32 bits with its sign", {0: 0x8000, 1: 0, 9: 0}, signed, "lost"),
    ):
        found = modbus_line(registers, "modbus", "--address", "0", *words.split())
        same(name, wanted, found)
    changes_its_sign(signed)
    channel = ("iio", "--channel", "channel", "--bits", "24")
    for number, words, wanted in (
        (8_388_613, "--offset-binary", "5"),
        (0, "--offset-binary", "-8388608"),
        (16_777_216, "--offset-binary", "lost"),
        (8_388_607, "", "8388607"),
    ):
        found = channel_line(folder, f"{number}\n", *channel, *words.split())
        same(f"a channel of {number} {words}", wanted, found)


class Changing(RegisterModbus):
    """A device whose sign changes after its value was read."""

    def before(self, question: bytes) -> None:
        if question[9] == 0:
            self.registers[9] = 8


def changes_its_sign(words: str) -> None:
    device = Changing(bridge.HOST, {0: 0, 1: 7, 9: 0})
    at = ("--tcp", f"{bridge.HOST}:{device.port}", "--address", "0")
    same("a sign that changes meanwhile", "lost", first_line("modbus", *at, *words.split()))
    device.close()


def frame(number: int, is_summed: bool = True, more: int = 0) -> bytes:
    text = f"\x02*0 {number:06}000000\r".encode()
    return text + (bytes([(more - sum(text)) % 128]) if is_summed else b"")


def reads_texts() -> None:
    """Show lines with another end, with and without a checksum, and too many at once."""
    as_stx = 899_999
    same("a checksum that is as STX", b"\x02", frame(as_stx)[-1:])
    preset = ("--preset", "continuous", "--pace", "10")
    with_etx = ("--pattern", "\x02(?P<value>[0-9]+)", "--end", "etx")
    wrong, several = frame(34, more=1), b"".join(frame(it, False) for it in range(9))
    for name, words, sent, wanted in (
        ("lines that end with ETX", with_etx, [b"rest\x03", b"\x0212\x03", b"\x0234\x03"], "12 34"),
        ("frames with a checksum", preset, [b"rest\rX", frame(12), frame(34)], "12 34"),
        ("a wrong checksum", preset, [b"rest\rX", frame(12), wrong, frame(56)], "12 lost 56"),
        (
            *("frames, one with a checksum that is as STX", preset),
            *([b"rest\r", frame(12), frame(as_stx), frame(56)], f"12 {as_stx} 56"),
        ),
        ("frames without one", preset, [b"rest\r", frame(12, False), frame(34, False)], "12 34"),
        ("nine frames at once", preset, [b"rest\r", several], "lost 8"),
    ):
        with text_reader(*words) as (stream, printed):
            for it in sent:
                stream.sendall(it)
                time.sleep(0.1)
            same(name, wanted.split(), [printed.readline().strip() for _ in wanted.split()])


BAD_WORDS = (
    ("modbus", "--address 0", "--tcp"),
    ("modbus", "--tcp h --serial d --address 0", "not allowed"),
    ("modbus", "--tcp h", "--address"),
    ("modbus", "--tcp h --address x", "--address"),
    ("modbus", "--tcp h:x --address 0", "--tcp"),
    ("modbus", "--tcp h:65536 --address 0", "--tcp"),
    ("modbus", "--tcp h --address 0 --bits 20", "--bits"),
    ("modbus", "--tcp h --address 0 --status 3", "--status"),
    ("modbus", "--tcp h --address 0 --faulty 3", "--status"),
    ("modbus", "--tcp h --address 0 --negative 3", "--status"),
    ("modbus", "--tcp h --address 0 --float", "--scale"),
    ("modbus", "--tcp h --address 0 --scale 10", "--float"),
    ("modbus", "--tcp h --address 0 --float --scale 0", "--scale"),
    ("modbus", "--tcp h --address 0 --float --scale 1 --bits 16", "32 bits"),
    ("modbus", "--tcp h --address 0 --float --scale 1 --unsigned", "not allowed"),
    ("modbus", "--tcp h --address 0 --pace 0", "--pace"),
    ("modbus", "--tcp h --address 0 --pace nan", "--pace"),
    ("modbus", "--tcp h --address 0 --wrong", "--wrong"),
    ("text", "--preset sir", "--tcp"),
    ("text", "--tcp h:1", "--preset"),
    ("text", "--tcp h:1 --preset other", "--preset"),
    ("text", "--tcp h:1 --preset sir --pattern x", "not allowed"),
    ("text", "--tcp h:1 --pattern (", "--pattern"),
    ("text", "--tcp h:1 --pattern x", "value"),
    ("text", "--tcp h:1 --preset sir --end nul", "--end"),
    ("text", "--tcp h:1 --preset sir --pace -1", "--pace"),
    ("iio", "--channel c", "--folder"),
    ("iio", "--folder f", "--channel"),
    ("iio", "--folder f --channel c --bits 64", "--bits"),
    ("iio", "--folder f --channel c --pace 2000", "--pace"),
)


def refuses_words() -> None:
    """Show that wrong arguments end a reader with status 2, and that it names them."""
    for reader, words, named in BAD_WORDS:
        command = [os.path.join(READERS, reader), *words.split()]
        it = subprocess.run(command, capture_output=True, text=True, timeout=20)
        is_refused = it.returncode == 2 and named in it.stderr and not it.stdout
        holds(f"{reader} {words}", is_refused, (it.returncode, it.stderr[-200:]))


def unit_ends_as_its_reader(folder: str) -> None:
    """Show that the package's unit ends with its reader's status, so that wrong arguments don't start it again for good."""
    unit = TOP / "packaging" / "weighbridge" / "weighbridge-converter.service"
    lines = unit.read_text(encoding="utf-8").splitlines()
    [line] = [it.removeprefix("ExecStart=") for it in lines if it.startswith("ExecStart=")]
    for there, here in (
        ("$$", "$"),
        ("/usr/lib/weighbridge", READERS),
        ("/usr/bin/weighbridge-converter", CONVERTER),
        ("/var/lib/weighbridge/calibration", f"{folder}/calibration"),
    ):
        line = line.replace(there, here)
    for words in ("modbus --tcp h", "text --tcp h:1", "iio --folder f"):
        own = {"WEIGHBRIDGE_READER": words}
        own["WEIGHBRIDGE_LISTEN"] = f"{bridge.HOST}:{bridge.free_port()}"
        it = subprocess.run(
            shlex.split(line), env={**os.environ, **own}, capture_output=True, timeout=20
        )
        same(f"the unit's status with the reader {words}", 2, it.returncode)
