"""Shows what the readers make of faults, for checks/converters: single ones, odd answers, devices that were off, faults at random."""

import os
import random
import re
import shutil
import statistics
import subprocess
import threading
import time
from collections.abc import Callable

from checks.lib import bridge, odd_modbus
from checks.lib.case import many
from checks.lib.converting import (
    NEW,
    OLD,
    PYMODBUS,
    READERS,
    Client,
    Running,
    holds,
    is_judged_enough,
    lasts_long_enough,
    line_of,
    same,
    side_by_side,
    stalls,
    tenths,
    undisturbed,
    with_pymodbus,
)
from checks.lib.devices import Device, begun, end, pipe, wait_for
from checks.lib.program import PROGRAM, printed
from checks.lib.random_faults import (
    Faulty,
    FaultyAsked,
    FaultyIio,
    FaultyLine,
    FaultyModbus,
    FaultySir,
    FaultyText,
)
from checks.lib.sir_device import SirDevice

RATE = 10


def goes_through(name: str, device: Device, folder: str) -> None:
    """Show that the device's load is indicated and stored, as computed."""
    chain = Running(folder, device.words(), RATE)
    journal = os.path.join(folder, f"{name}.db")
    device.put(-8_388)
    service = bridge.Service(PROGRAM, journal, chain, "--pace", str(RATE))
    terminal = bridge.Terminal(service)
    for key, counts in enumerate((232_000, 96_766, 636_700)):
        gross = ((tenths(counts) or 0) + 5) // 10 * 20
        for now, shown in ((-8_388, 0), (counts, gross)):
            device.put(now)
            time.sleep(0.5)
            same(f"{name}: S at {now} counts", f"S S {shown:10} kg", terminal.ask("S"))
        same(f"{name}: SI at {counts} counts", f"S S {gross:10} kg", terminal.ask("SI"))
        answer = bridge.post(service, "/weighings", f"key=K{key}&kind=first&plate=P-{key}")
        is_stored = answer and answer[0] == 201 and f"G {gross:10} kg" in answer[1]
        holds(f"{name}: a weighing of {gross} kg is stored", is_stored, answer)
    terminal.close()
    _, err, status = service.end()
    same(f"{name}: the service ends with its converter", (0, ""), (status, err))
    found = printed("check", "--file", journal)
    same(f"{name}: the journal", (0, "SOUND 3\n", ""), found)


def is_lost(name: str, device: Device, folder: str) -> None:
    """Show that each fault is `lost`, and nothing else, from when it begins to when it ends."""
    device.put(232_000)
    chain = Running(folder, device.words(), RATE)
    client = chain.client()
    wanted = line_of(232_000)
    wait_for(f"{name}: a first line", lambda: wanted in client.texts(), 20)
    for fault, begins, ends in device.faults():
        what = f"{name}, {fault}"
        undisturbed(what, has_fault, what, device, chain, client, begins, ends)
    client.close()
    chain.close()


def has_fault(
    name: str,
    device: Device,
    chain: Running,
    client: Client,
    begins: Callable[[], object],
    ends: Callable[[], object],
) -> None:
    wanted, other = line_of(232_000), line_of(96_766)
    before = len(chain.logged())
    begins()
    time.sleep(0.8)
    start = len(client.lines)
    time.sleep(1.4)
    during = client.texts()[start:]
    logged = chain.logged()[before:]
    ends()
    device.put(96_766)
    wait_for(f"{name}: a line after it", lambda: client.texts()[-1] == other, 20)
    time.sleep(0.5)
    after = chain.logged()[before:]
    texts = set(client.texts())
    holds(f"{name}: all lines are lost while it lasts", set(during) == {"lost"}, during[:5])
    is_in_pace = 0.3 * 1.4 * RATE <= len(during) <= 1.3 * 1.4 * RATE + 1
    holds(f"{name}: lines come at the pace", is_in_pace, len(during))
    is_one = len(logged) == 1 and "are lost: " in logged[0]
    holds(f"{name}: one line when it begins", is_one, logged)
    is_one = len(after) == 2 and "are back" in after[1]
    holds(f"{name}: one line when it ends", is_one, after[1:])
    holds(f"{name}: no other load comes", texts <= {wanted, other, "lost"}, texts)
    device.put(232_000)
    wait_for(f"{name}: the load again", lambda: client.texts()[-1] == wanted)


# How a server answers, and how many of 40 readings are lost, from and to.
ODD: tuple[tuple[odd_modbus.Answers, int, int], ...] = (
    (odd_modbus.twice, 0, 0),
    (odd_modbus.once_many_times, 0, 0),
    (odd_modbus.late_again, 0, 20),
    (odd_modbus.late, 0, 0),
    (odd_modbus.too_late, 40, 40),
    (odd_modbus.foreign, 8, 11),
    (odd_modbus.exchanged, 40, 40),
    (odd_modbus.in_pieces, 0, 0),
    (odd_modbus.with_more, 0, 0),
    (odd_modbus.keeping_busy, 0, 40),
    (odd_modbus.without_end, 1, 40),
)


def reads_odd_answers() -> None:
    """Show answers that are not as they should be, over TCP, read by each pymodbus."""
    for folder in PYMODBUS:
        rows = []
        for answers, least, most in ODD:
            name = f"answers {answers.__name__.replace('_', ' ')}" + f", by {folder}" * bool(folder)
            rows.append((name, reads_one_odd, name, folder, answers, least, most))
        side_by_side(undisturbed, rows)


def reads_one_odd(
    name: str, folder: str, answers: odd_modbus.Answers, least: int, most: int
) -> None:
    server = odd_modbus.OddModbus(answers)
    command = [f"{READERS}/modbus", "--tcp", f"{bridge.HOST}:{server.port}", "--address", "0"]
    streams = {"stdout": subprocess.PIPE, "stderr": subprocess.DEVNULL}
    reader = begun(command, text=True, env=with_pymodbus(folder), **streams)
    ages, lost = [], 0
    for _ in range(40):
        text = pipe(reader.stdout).readline().strip()
        if text == "lost":
            lost += 1
        else:
            ages.append(server.milliseconds() - int(text))
    end(reader)
    server.close()
    oldest = max(ages, default=0)
    holds(f"{name}: no reading is older than 250 ms", oldest <= 250, oldest)
    holds(f"{name}: {least} to {most} of 40 readings are lost", least <= lost <= most, lost)


def comes_back() -> None:
    """Show a device that forgot what it must send, at five periods and three times, all side by side."""
    rows = []
    for period in (0.02, 0.1, 0.12, 0.15, 0.2):
        for off in (0.5, 2.0, many(5)):
            name = f"a period of {period} s, off for {off} s"
            rows.append((name, comes_back_after, name, period, off))
    side_by_side(undisturbed, rows)


def comes_back_after(name: str, period: float, off: float) -> None:
    device = SirDevice(period)
    command = [f"{READERS}/text", "--tcp", f"{bridge.HOST}:{device.port}", "--preset", "sir"]
    reader = begun(command, stdout=subprocess.PIPE, stderr=subprocess.DEVNULL, text=True)
    lines: list[tuple[float, str]] = []

    def hear() -> None:
        lines.extend((time.monotonic(), it.strip()) for it in pipe(reader.stdout))

    hearing = threading.Thread(target=hear, daemon=True)
    hearing.start()
    time.sleep(2)
    device.is_on = False
    time.sleep(off)
    device.is_on, back, asked = True, time.monotonic(), device.asked
    time.sleep(5)
    again = device.asked - asked
    reader.kill()
    hearing.join(10)
    device.close()
    late = [at - back for at, text in lines if at > back + 2 and text == "lost"]
    holds(f"{name}: no reading is lost two seconds after", not late, late[:3])
    values = sum(text == "1234" for at, text in lines if at > back)
    holds(f"{name}: values come", values >= 3 / max(period, 0.1) * 0.6, values)
    holds(f"{name}: it is asked once or twice when it is back", 1 <= again <= 2, again)


def own_folder(folder: str, name: str) -> str:
    """Make a folder with a calibration whose loads are the counts."""
    own = os.path.join(folder, re.sub(r"[ /]", "_", name))
    os.makedirs(own)
    shutil.copy(os.path.join(folder, "even", "calibration"), own)
    return own


def has_faults(name: str, device: Faulty, folder: str, seconds: float, pymodbus: str = "") -> None:
    """Judge each line of a device with faults, against what it held at that moment."""
    environment = with_pymodbus(pymodbus)
    chain = Running(own_folder(folder, name), device.words(), environment=environment)
    client = chain.client()
    begin = time.monotonic()
    lasts_long_enough(name, begin, seconds)
    untouched = stalls().untouched(begin) / (time.monotonic() - begin)
    client.close()
    device.close()
    chain.close()
    found = [(at, int(text)) for at, text in client.lines if text != "lost"]
    ages = [(at, value, device.age(value, at)) for at, value in found]
    never = [value for _, value, age in ages if age is None]
    known = [(at, age) for at, _, age in ages if age is not None]
    judged = [age for at, age in known if not stalls().touch(at - age, at)]
    oldest = max(judged, default=9.0)
    holds(f"{name}: no line is a value that the device never held", not never, never[:5])
    holds(f"{name}: no line is older than 250 ms", oldest <= NEW, oldest)
    is_judged_enough(name, len(judged), untouched * len(known))
    have_loads = len(found) > len(client.lines) / 4 > seconds
    holds(f"{name}: a fourth of the lines have a load", have_loads, len(found))
    median = statistics.median(judged) * 1000 if judged else 0
    said = (
        f"{len(found)} of {len(client.lines)} lines with a load, at the median {median:.0f} ms old"
    )
    print(f"{name}: {device.had} faults, {said}\n", end="")


class Staying:
    """The load on the bridge: nothing, and then a load, each for some seconds."""

    SECONDS, LOADS = 4.0, (0, 10_000, 0, 23_450, 0, 7_770, 0, 31_110)

    def __init__(self) -> None:
        self.begun = time.monotonic()

    def load(self, at: float) -> int:
        return self.LOADS[int((at - self.begun) / self.SECONDS) % len(self.LOADS)]

    def now(self) -> int:
        return self.load(time.monotonic())


def random_faults(folder: str) -> None:
    seconds, seed = max(30, many(30)), random.randrange(1_000_000)
    devices: dict[str, Faulty] = {
        "Modbus over TCP": FaultyModbus(seed),
        "Modbus by RTU": FaultyLine(seed + 1, os.path.join(folder, "faulty_line")),
        "frames": FaultyText(seed + 2),
        "MT-SICS": FaultySir(seed + 3),
        "a cell that is asked": FaultyAsked(seed + 4),
        "industrial IO": FaultyIio(seed + 5, os.path.join(folder, "faulty_iio")),
    }
    print(f"random faults of {seconds} s, seed {seed}", flush=True)
    rows: list[tuple[object, ...]] = [
        (has_faults, f"{name} with faults", device, folder, seconds)
        for name, device in devices.items()
    ]
    for at, other in enumerate(PYMODBUS[1:]):
        line = FaultyLine(seed, os.path.join(folder, f"other_line_{at}"))
        for kind, device in (("TCP", FaultyModbus(seed)), ("RTU", line)):
            name = f"Modbus by {kind} with faults, by {other}"
            rows.append((has_faults, name, device, folder, seconds, other))
    for kind, faulty in (("Modbus", FaultyModbus), ("frames", FaultyText)):
        name, load = f"weighings over {kind} with faults", Staying()
        rows.append((stores_what_stood, name, faulty(seed + 6, load), load, folder, seconds))
    side_by_side(lambda part, *row: part(*row), rows)


def stores_what_stood(
    name: str, device: Faulty, load: Staying, folder: str, seconds: float
) -> None:
    """Show weighings over a device with faults: each is of a load that was there within the last second and a half."""
    own = own_folder(folder, name)
    chain = Running(own, device.words())
    journal = os.path.join(own, "journal.db")
    service = bridge.Service(PROGRAM, journal, chain)
    until, number, stored, excused = time.monotonic() + seconds, 0, 0, 0
    while time.monotonic() < until:
        number += 1
        begin = time.monotonic()
        body = f"key=K{number}&kind=first&plate=P-{number}"
        status, slip = bridge.post(service, "/weighings", body) or (0, "")
        gross = re.search(r"G +([0-9]+) kg", slip)
        if status == 201 and gross:
            stored += 1
            now = time.monotonic()
            moments = [now - back / 20 for back in range(31 + int((now - begin) * 20))]
            there = {(load.load(at) + 5) // 10 * 20 for at in moments}
            if int(gross[1]) not in there and stalls().touch(begin - OLD, now):
                excused += 1
            else:
                what = f"{name}: {gross[1]} kg were on the bridge"
                holds(what, int(gross[1]) in there, sorted(there))
        time.sleep(0.3)
    device.close()
    service.end()
    holds(f"{name}: weighings are stored", stored >= seconds / 20, f"{stored} of {number}")
    what = f"{name}: few weighings, at stalls, are of a load that wasn't there"
    holds(what, excused <= stored / 4, f"{excused} of {stored}")
    found = printed("check", "--file", journal)
    same(f"{name}: the journal", (0, f"SOUND {stored}\n", ""), found)
