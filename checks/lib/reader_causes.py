#!/usr/bin/env python3
"""Show that a reader loses a reading only by what a device or its line can cause, and that any other error ends it. It needs python3, python3-pymodbus and
python3-serial, but no program of this project.

A library that is played before the installed one raises an error at each question. So does a library after an upgrade that changed a name.

Usage: checks/lib/reader_causes.py     from any folder; checks/converters runs it too
"""

import os
import pty
import subprocess
import sys
import tempfile
import threading
import tty

TOP = os.path.dirname(os.path.dirname(os.path.dirname(os.path.abspath(__file__))))
READERS = os.path.join(TOP, "readers")
sys.path.insert(0, TOP)
from checks.lib.showing import same  # noqa: E402

PYMODBUS = "\n".join(
    (
        "import errno, struct, termios",
        "import serial",
        "from pymodbus.exceptions import ConnectionException, ModbusException, ModbusIOException",
        '__version__ = "3.8.6"',
        "class Client:",
        "    socket = None",
        "    def __init__(self, *_, **named):",
        "        pass",
        "    def connect(self):",
        "        {at_connect}",
        "        return True",
        "    def close(self):",
        "        pass",
        "    def read_holding_registers(self, address, count=1, slave=1):",
        "        {at_question}",
        "",
    )
)
SERIAL = """
import termios
SEVENBITS, EIGHTBITS = 7, 8
class SerialException(OSError):
    pass
class Serial:
    in_waiting = 0
    def __init__(self, *_, **named):
        {at_connect}
    def read(self, most):
        {at_question}
    def write(self, what):
        pass
    def close(self):
        pass
"""
# Errors that a device, its line or its network can cause.
OF_THE_DEVICE = (
    "raise OSError(errno.EIO, 'input/output error')",
    "raise ConnectionResetError('reset')",
    "raise TimeoutError('timed out')",
    "raise termios.error(5, 'input/output error')",
    "raise serial.SerialException('device disconnected')",
    "raise ModbusIOException('no response')",
    "raise ConnectionException('closed')",
    "return ModbusIOException('no response')",
    "raise struct.error('unpack requires a buffer of 1 bytes')",
)
# Errors that only a mistake in a program causes, for example after an upgrade of the library.
OF_A_PROGRAM = (
    "raise AttributeError('no attribute slave')",
    "raise TypeError('unexpected keyword argument slave')",
    "raise ValueError('no such framer')",
    "raise KeyError('slave')",
    "raise IndexError('list index out of range')",
    "raise RuntimeError('no running event loop')",
    "return object()",
)


def ended(words: list[str], folder: str | None, lines: int = 3) -> tuple[int, list[str], str]:
    """Return the status of a reader, what it printed and what it logged. End it after this number of lines."""
    reader = subprocess.Popen(
        [os.path.join(READERS, words[0]), *words[1:], "--pace", "50"],
        stdin=subprocess.DEVNULL,
        stdout=subprocess.PIPE,
        stderr=subprocess.PIPE,
        text=True,
        env={**os.environ, **({"PYTHONPATH": folder} if folder else {})},
    )
    assert reader.stdout is not None
    printed = list[str]()
    while len(printed) < lines and (line := reader.stdout.readline()):
        printed.append(line.strip())
    if len(printed) == lines:
        reader.kill()
    said = reader.communicate(timeout=20)[1]
    return reader.returncode, printed, said


def played(folder: str, library: str, at_connect: str = "pass", at_question: str = "pass") -> str:
    """Write a library that raises these errors, and return its folder."""
    path = os.path.join(folder, str(len(os.listdir(folder))))
    text = {"pymodbus": PYMODBUS, "serial": SERIAL}[library]
    text = text.format(at_connect=at_connect, at_question=at_question)
    package = os.path.join(path, library)
    os.makedirs(package)
    files = {"__init__.py": text}
    if library == "pymodbus":
        names = "ModbusException ConnectionException ModbusIOException"
        files["exceptions.py"] = "class ModbusException(Exception):\n    pass\n" + "".join(
            f"class {it}(ModbusException):\n    pass\n" for it in names.split()[1:]
        )
        files[
            "client.py"
        ] = "from pymodbus import Client\nModbusTcpClient = ModbusSerialClient = Client\n"
    for name, content in files.items():
        with open(os.path.join(package, name), "w") as file:
            file.write(content)
    return path


def loses(what: str, words: list[str], folder: str | None, has: str) -> None:
    status, printed, said = ended(words, folder)
    found = printed, len(said.splitlines()), has in said
    same(f"{what}: the readings are lost, with one line", (["lost"] * 3, 1, True), found)


def ends(what: str, words: list[str], folder: str | None, name: str) -> None:
    status, printed, said = ended(words, folder)
    found = status, printed, "Traceback" in said, name in said.splitlines()[-1]
    same(f"{what}: the reader ends, with its traceback", (1, [], True, True), found)


def of_modbus(folder: str) -> None:
    words = ["modbus", "--tcp", "127.0.0.1:5", "--address", "0"]
    for it in OF_THE_DEVICE:
        loses(f"modbus: {it}", words, played(folder, "pymodbus", at_question=it), "lost: no ")
    for it in OF_A_PROGRAM:
        name = it.split()[1].split("(")[0] if it.startswith("raise") else "AttributeError"
        ends(f"modbus: {it}", words, played(folder, "pymodbus", at_question=it), name)
    for it in ("raise AttributeError('params')", "raise TypeError('retries')"):
        name = it.split()[1].split("(")[0]
        ends(f"modbus, opening: {it}", words, played(folder, "pymodbus", at_connect=it), name)
    it = "raise ValueError('Failed to set custom baud rate')"
    loses(
        f"modbus, opening: {it}",
        ["modbus", "--serial", "d", "--address", "0"],
        played(folder, "pymodbus", at_connect=it),
        "custom baud rate; check",
    )


def of_text(folder: str) -> None:
    words = ["text", "--serial", "d", "--preset", "continuous"]
    for it in ("raise SerialException('gone')", "raise OSError('gone')", "raise termios.error(5)"):
        loses(f"text: {it}", words, played(folder, "serial", at_question=it), "doesn't answer")
        loses(f"text, opening: {it}", words, played(folder, "serial", it), "doesn't answer")
    for name in ("AttributeError", "TypeError", "ValueError", "KeyError", "IndexError"):
        it = f"raise {name}('changed')"
        ends(f"text: {it}", words, played(folder, "serial", at_question=it), name)
    it = "raise ValueError('Failed to set custom baud rate')"
    loses(f"text, opening: {it}", words, played(folder, "serial", it), "custom baud rate; check")
    ends(
        "text, opening: TypeError",
        words,
        played(folder, "serial", "raise TypeError('exclusive')"),
        "TypeError",
    )


def of_iio(folder: str) -> None:
    loses(
        "iio: no such folder", ["iio", "--folder", f"{folder}/none", "--channel", "c"], None, "none"
    )


def garbled() -> None:
    """Show that an answer that the installed pymodbus can't take apart is lost: this one raises struct.error there."""
    device, line = pty.openpty()
    for it in (device, line):
        tty.setraw(it)

    def answer() -> None:
        while question := os.read(device, 300):
            if len(question) == 8:
                os.write(device, bytes.fromhex("012b0e0100000005"))

    threading.Thread(target=answer, daemon=True).start()
    words = ["modbus", "--serial", os.ttyname(line), "--parity", "N", "--address", "0"]
    loses("modbus: an answer that is cut", words, None, "no whole answer")


def wrong_ports() -> None:
    for port in ("x", "0", "65536", ""):
        status, printed, said = ended(["modbus", "--tcp", f"h:{port}", "--address", "0"], None)
        found = status, printed, "argument --tcp" in said
        same(f"modbus: the port {port!r}", (2, [], True), found)


def show() -> None:
    with tempfile.TemporaryDirectory() as folder:
        of_modbus(folder)
        of_text(folder)
        of_iio(folder)
    garbled()
    wrong_ports()


if __name__ == "__main__":
    show()
    print("causes of the readers: ok")
