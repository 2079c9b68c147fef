"""Shows the way from a load cell's device to a stored weighing, with calibrations, filters, slow clients, and each reader
with each fault.

The program (`converter_alone`): a calibration is made of points step by step, and is in its file only once all points
are there. Each refusal is caused. A file of which one byte is changed is refused. `finish` may be repeated. The check
writes counts, and each line that comes out is the load that the check computes from its own calibration by fractions. A
client may connect late, be slow, not read, or be there while the program is stopped. It still gets no line whose counts
came more than a second before, except for those that its own system had accepted. The input is never held up.

Filters (`converter_filters`): their values are those of their definition. They do what docs/install.md says. Over them
a swinging weight gets an answer only at rest.

The readers read a Modbus server of the distribution's pymodbus, over TCP, and by RTU over pseudo terminals of socat.
They also read a text device on a pseudo terminal, and a folder in the form of industrial IO. `weighbridge-converter` and the service process what
each reader prints. The reply of `SI` and a stored weighing are those of the load that this check computes. Then the
check causes each fault. While it lasts, `lost` comes and nothing else. Standard error has one line when it begins and
one when it ends. Then the counts come again.

Forms (`reader_forms`): the readers read the samples of docs/devices.md with the arguments of that page, each form of a value,
and lines of every kind. Wrong arguments are refused, and the package's unit then ends with that status.

Causes (`reader_causes`): a reader loses a reading only by what the device or its line can cause. Any other error ends
it with its traceback.

Inputs (`reader_inputs`): lines, registers and files by chance give the counts that the check works out in its own way, or
are lost.

Faults (`reader_faults`): a server of this check's own answers twice, late again, late, and too late. It answers with
another request's number, with those of two requests exchanged, in pieces, and with bytes after the answer, and it keeps
the line busy. No
reading is older than 250 ms. No reading is lost, except those of another number, too late, or on a busy line. The check
does this with the distribution's pymodbus, and once more with each one in a folder of WEIGHBRIDGE_PYMODBUS (folders
separated by colons, as the unpacked package of Debian 13). A device that sends once it got SIR, at
five periods, is off for 0.5, 2 and 5 seconds. Its values are back within two seconds, and it gets SIR once an opening. Then
each reader has a device with a fault every two seconds at random. The check compares each line that a reader passes on
with what the device held at that moment. None is older than 250 ms, and none is a value that the device never held.
Over two of the readers weighings are stored, each of a load that was on the bridge.

Last, the text device, now over TCP, sends readings to a client, 50 a second for ten minutes. None may be lost,
and none may be older than 250 ms. The check prints the delay from a count to its line, the median and the greatest, and
that of 10,000 lines without a reader in between.

The machine may stop in between, as a virtual machine does while it is paused, and one processor may stop while the
others run. On each processor a process of this check reads the clock every 20 ms, and a gap of more than 100 ms is a
stall. A line counts unless a stall touches its way, or ended within half a second before. An attempt that fails while
a processor is stopped is made again, up to four times in all. A part that lasts for some seconds ends once no stall has
touched that number of seconds in it. It fails if that takes more than two and a half times as long. Four fifths of the
lines of these seconds have to be judged. The check fails if a processor was stopped for more than a fifth of the time.

With --times 20 the random faults last ten minutes, not half of one, and a device is off for longer. Times are those of a
machine that isn't busy. Root asks to run before others.
"""

import os
import tempfile
import threading
import time
import traceback
from collections.abc import Callable

from checks.lib import (
    converter_alone,
    converter_filters,
    converting,
    reader_causes,
    reader_faults,
    reader_forms,
)
from checks.lib.case import PROGRAM, Check, many, skip_without
from checks.lib.converting import NEW, Running, calibrate, holds, same, stalls, undisturbed
from checks.lib.devices import Device, Iio, Modbus, ModbusLine, Text, TextByTcp, wait_for


def tearDownModule() -> None:
    """End the watch for stalls, if it began."""
    if stalls.cache_info().currsize:
        stalls().close()
        stalls.cache_clear()


class Part(Check):
    """A part of the check, with a folder that has a calibration. In the folder `even` the loads are the counts."""

    box: str

    @classmethod
    def setUpClass(cls) -> None:
        cls.box = cls.enterClassContext(tempfile.TemporaryDirectory())
        os.makedirs(cls.even())
        calibrate(cls.box)
        calibrate(cls.even(), [(0, 0), (2_000_000, 2_000_000)])
        before, threading.excepthook = threading.excepthook, cls.fails_too
        cls.addClassCleanup(setattr, threading, "excepthook", before)

    @classmethod
    def even(cls) -> str:
        return os.path.join(cls.box, "even")

    @staticmethod
    def fails_too(fault: threading.ExceptHookArgs) -> None:
        """Note a failure that ends a thread."""
        if fault.exc_value:
            traceback.print_exception(fault.exc_value)
        converting.cases.append((f"{fault.exc_type.__name__} in a thread", False, fault.exc_value))

    def show(self, part: Callable[..., object], *given: object) -> None:
        """Run a part, and show its cases."""
        try:
            part(*given)
        finally:
            for what, is_so, found in converting.taken():
                self.holds(what, is_so, found)

    def attempt(self, part: Callable[..., object], *given: object) -> None:
        """Run a part, and once more if it fails while the machine stands still."""
        self.show(undisturbed, part.__name__, part, *given)


class Timed(Part):
    """A part that measures time. It runs before other programs, because a busy machine is no fault of the programs that are tried. The watch for
    stalls gets the priority of the programs that it excuses."""

    @classmethod
    def setUpClass(cls) -> None:
        super().setUpClass()
        try:
            for process in (0, *stalls().processes()):
                os.sched_setscheduler(process, os.SCHED_RR, os.sched_param(1))
            usual = (0, os.SCHED_OTHER, os.sched_param(0))
            cls.addClassCleanup(os.sched_setscheduler, *usual)
        except OSError:
            pass  # this user may not

    @classmethod
    def tearDownClass(cls) -> None:
        print(stalls().text(), flush=True)
        lasted = time.monotonic() - stalls().begun
        if lasted - stalls().longest() < converting.RUNNING * lasted:
            raise AssertionError("a processor ran for less than four fifths of the time")


class Program(Part):
    """The converter without a service, and its filters."""

    needs = (PROGRAM,)
    seconds = 60

    @skip_without("gnuplot")
    def test_calibration(self) -> None:
        self.show(converter_alone.makes_a_calibration, self.folder())

    def test_finish_again(self) -> None:
        self.show(converter_alone.finishes_again, self.folder())

    @skip_without("cc")
    def test_points_that_cannot_be_removed(self) -> None:
        self.show(converter_alone.keeps_points, self.folder())

    def test_lines_of_counts(self) -> None:
        self.attempt(converter_alone.passes_on_each_load, self.box)

    def test_filters(self) -> None:
        self.show(converter_filters.filters, self.even())

    def test_table_of_filters(self) -> None:
        self.show(converter_filters.what_filters_do)


class Clients(Timed):
    """Clients of the converter, its delays, and weights at rest over filters."""

    needs = (PROGRAM,)
    alone = True
    seconds = 120

    def test_come_and_go(self) -> None:
        self.attempt(converter_alone.come_and_go, self.even())

    def test_does_not_read(self) -> None:
        self.attempt(converter_alone.does_not_read, self.even())

    def test_delays(self) -> None:
        self.attempt(converter_alone.delays_of_10_000, self.even())

    def test_stable_equilibrium(self) -> None:
        self.show(converter_filters.stable_equilibrium, self.box)


class Readers(Part):
    """The readers, at what they read and refuse."""

    needs = (PROGRAM, "serial", "pymodbus")
    seconds = 60

    def test_devices(self) -> None:
        self.show(reader_forms.reads_devices, self.box)

    def test_forms(self) -> None:
        self.show(reader_forms.reads_forms, self.box)

    def test_texts(self) -> None:
        self.show(reader_forms.reads_texts)

    def test_wrong_arguments(self) -> None:
        self.show(reader_forms.refuses_words)

    def test_unit(self) -> None:
        self.show(reader_forms.unit_ends_as_its_reader, self.box)

    def test_causes(self) -> None:
        reader_causes.show()

    @skip_without("hypothesis")
    def test_inputs(self) -> None:
        from checks.lib import reader_inputs  # it says at its import what it lacks

        for part in (reader_inputs.lines, reader_inputs.registers, reader_inputs.channels):
            with self.subTest(f"a reader's {part.__name__} by chance: the right counts, or lost"):
                part()


class Faults(Timed):
    """The readers, at devices with faults."""

    needs = (PROGRAM, "socat", "serial", "serial_asyncio", "pymodbus")
    alone = True
    seconds = 240

    def test_odd_answers(self) -> None:
        self.show(reader_faults.reads_odd_answers)

    def test_device_that_was_off(self) -> None:
        self.show(reader_faults.comes_back)

    def test_random_faults(self) -> None:
        self.show(reader_faults.random_faults, self.box)

    def tried(self, name: str, device: Device) -> None:
        self.show(reader_faults.goes_through, name, device, self.box)
        self.show(reader_faults.is_lost, name, device, self.box)
        device.close()

    def test_modbus_over_tcp(self) -> None:
        self.tried("Modbus over TCP", Modbus(os.path.join(self.box, "tcp")))

    def test_modbus_by_rtu(self) -> None:
        self.tried("Modbus by RTU", ModbusLine(os.path.join(self.box, "rtu")))

    def test_text(self) -> None:
        self.tried("text", Text(os.path.join(self.box, "text"), 10))

    def test_industrial_io(self) -> None:
        self.tried("industrial IO", Iio(os.path.join(self.box, "iio")))


class Numbered(TextByTcp):
    """A device that sends the number of each frame, and keeps when it sent it."""

    def __init__(self, folder: str, rate: float) -> None:
        self.sent: list[float] = []
        super().__init__(folder, rate)

    def frame(self) -> bytes:
        self.sent.append(time.monotonic())
        return f"\x02*0 {len(self.sent) - 1:06}000000\r".encode()


def judge_long_run(
    lines: list[tuple[float, str]], sent: list[float], numbers: range, begin: float, end: float
) -> None:
    """Judge what came of these numbers, which the device sent, and what came in place of a number."""
    whole = [(at, int(text)) for at, text in lines if text.isdigit()]
    came = {number: at for at, number in whole}
    order = [number for _, number in whole]
    holds("each number comes at most once and in order", order == sorted(came))
    lost = [at for at, text in lines if not text.isdigit()]
    judged = [it for it in numbers if not stalls().touch(sent[it], came.get(it, sent[it] + NEW))]
    converting.is_judged_enough("the long run", len(judged), 50 * many(600))
    missing = [it for it in judged if it not in came][:5]
    same("numbers that don't come, and no stall touches their way", [], missing)
    sudden = [round(it - begin, 3) for it in lost if not stalls().touch(it - NEW, it)][:5]
    same("seconds after which a line is lost, and no stall touches its way", [], sudden)
    ages = {it: came[it] - sent[it] for it in judged if it in came}
    late = [it for it, age in ages.items() if age > NEW][:5]
    same("numbers that come after more than 250 ms, and no stall touches their way", [], late)
    seconds = end - begin - stalls().seconds(begin, end)
    is_enough = len(numbers) >= 49 * seconds
    holds("50 lines come in a second without a stall", is_enough, (len(numbers), seconds))
    print(f"{len(lost)} of {len(numbers)} lines are lost, at stalls and without", flush=True)
    converter_alone.show_delays("from the device to the client", [*ages.values()])


class LongRun(Timed):
    """50 readings a second from the text device. None is lost or old unless a stall touches its way."""

    needs = (PROGRAM, "serial")
    alone = True
    seconds = 620

    def test_long_run(self) -> None:
        self.show(self.run_long)

    def run_long(self) -> None:
        device = Numbered(os.path.join(self.box, "long"), 50)
        chain = Running(self.even(), device.words(), 50)
        client = chain.client()
        wait_for("a first line", lambda: any(text.isdigit() for text in client.texts()))
        at = next(at for at, text in enumerate(client.texts()) if text.isdigit())
        first = int(client.texts()[at])
        begin = device.sent[first]
        converting.lasts_long_enough("the long run", begin, many(600))
        end, last = time.monotonic(), len(device.sent)
        time.sleep(1)
        judge_long_run(client.lines[at:], device.sent, range(first, last), begin, end)
        logged, disturbed = chain.logged(), [it for it in stalls().found if it[1] > begin]
        # Lines can be lost twice at a stall, and the reader logs a loss and its end.
        what = f"the reader logs at most four lines for each of {len(disturbed)} stalls"
        holds(what, len(logged) <= 4 * len(disturbed), logged[:4])
        client.close()
        chain.close()
        device.close()
