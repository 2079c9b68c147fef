"""One terminal for many: replies, late commands, tares of one weighing, and what is killed or held within."""

import random
import re
import shutil
import socket
import time
from pathlib import Path
from typing import Any

from checks.lib.case import PROGRAM
from checks.lib.counter import NO_TARE, Bridge, Meanwhile, Till, held
from checks.lib.counter_case import AtTheCounter
from checks.lib.nginx import replaced

from checks import TOP

# Commands of a till, with a pattern of the right reply.
REPLIES = {
    "SI": r"S [SD] +-?\d+ kg|S I",
    "S": r"S S +-?\d+ kg|S I",
    "TA": r"TA A +\d+ kg",
    "I4": r'I4 A "WB01"',
    "I0": r'I0 A 1 "TAC"',
    "WEIGH": "ES",
    "": "ES",
    "TAC": "TAC A",
    "TA 4000 kg": r"TA A +4000 kg",
    "TA 6000 kg": r"TA A +6000 kg",
    "Z": r"Z [+AI]",
    "@": r'I4 A "WB01"',
}


def ask_at_random(
    port: int, seed: int, count: int
) -> tuple[list[tuple[str, str | None]], list[float]]:
    """Ask `count` questions one after the other. Return those with a wrong reply, and the seconds that each took."""
    rng = random.Random(seed)
    wrong, times = [], []
    with Till(port) as till:
        for _ in range(count):
            line = rng.choice(list(REPLIES))
            began = time.monotonic()
            said = till.last_line(line)
            times.append(time.monotonic() - began)
            is_dropped = said == f"{line.split(' ')[0]} I"
            if said is None or not (is_dropped or re.fullmatch(REPLIES[line], said)):
                wrong.append((line, said))
    return wrong, times


def watch_display(port: int, seconds: float) -> list[str]:
    """Return the lines of a display in `seconds`."""
    lines = []
    with Till(port) as display:
        display.send(b"SIR\r\n")
        until = time.monotonic() + seconds
        while time.monotonic() < until:
            lines.append(display.line())
    return lines


def without_reset(folder: str) -> str:
    """Make a copy of the counter that ends its connections by an ordinary close, in place of a reset. Return the path of its program."""
    copy = Path(folder) / "copy"
    ignored = shutil.ignore_patterns("__pycache__", "tests")
    shutil.copytree(TOP / "counter", copy, ignore=ignored)
    # next to the program, as the package has it
    shutil.copy(TOP / "clients" / "refusals.txt", copy)
    path = copy / "weighbridge_counter" / "terminal.py"
    closes = ("self.transport.abort()", "self.transport.close()")
    text = path.read_text(encoding="utf-8")
    path.write_text(
        replaced(path.name, text, ('"ii", 1, 0', '"ii", 0, 0'), closes), encoding="utf-8"
    )
    return str(copy / "weighbridge-counter")


def refused_while_held(
    bridge: Bridge, line: str, seconds: float
) -> tuple[bool, list[str | None], int]:
    """Let two tills send a line while the service stands still for `seconds`.

    Return whether both were refused or got no reply, the weight and the tare afterwards, and how many tares acted late.
    """
    bridge.put(30)  # 60 kg: within the range of zero
    with held(bridge.service.process):
        time.sleep(random.uniform(0, 1.2 / bridge.pace))
        tills = [Meanwhile(bridge.terminal_says, name, line) for name in ("till", "other")]
        time.sleep(seconds)
    said = [it.get() for it in tills]
    bridge.wait_until_up()
    time.sleep(1.0)
    is_refused = all(it is None or it.endswith(" I") for it in said)
    # the counter clears a tare that acted though its sender was refused
    return is_refused, bridge.replies("till", "SI", "TA"), bridge.metric("tares_cleared_total")


class Fanout(AtTheCounter):
    """Tills, a display and a page at ten readings a second."""

    needs = (PROGRAM, "aiohttp", "prometheus_client")
    seconds = 150

    def test_many_clients(self) -> None:
        bridge = self.bridge
        bridge.put(9170)
        display = Meanwhile(watch_display, bridge.ports["display"], 6)
        tills = [
            Meanwhile(ask_at_random, bridge.ports[name], seed, 60)
            for seed, name in enumerate(("till", "other"))
        ]
        zeros = Meanwhile(lambda: [bridge.ask("POST", "/zero")[1] for _ in range(15)])
        results = [it.get() for it in tills]
        times = sorted(it for _, took in results for it in took)
        what = "two tills and a page at once: each reply is of its own question"
        self.same(what, [], [it for wrong, _ in results for it in wrong])
        lines = display.get()
        said = f"{len(lines) / 6:.1f} a second; a till's answer: median {1000 * times[len(times) // 2]:.0f} ms, worst {1000 * times[-1]:.0f} ms"
        print(said, flush=True)
        is_each = abs(len(lines) / 6 - bridge.pace) < 0.1 * bridge.pace + 0.5
        are_values = all(it.startswith("S ") for it in lines)
        self.holds("a display has each value meanwhile", is_each and are_values, said)
        what = "a page's zero is refused in the scale's words"
        self.holds(what, all('"Z +"' in it or "not_sent" in it for it in zeros.get()))
        bridge.terminal_says("till", "TAC")
        what = "a port that only reads refuses what would change the scale"
        self.same(what, ["ES"] * 4, bridge.replies("display", "Z", "T", "TA 5000 kg", "TAC"))
        weight = bridge.terminal_says("display", "SI")
        self.same("and answers the rest", "S S      18340 kg", weight)
        self.same("no tare is set", NO_TARE, bridge.tare())
        with Till(bridge.ports["till"]) as till:
            till.send(b"TA 3000 kg\r\nTAC\r\n")
            till.stream.shutdown(socket.SHUT_WR)
            found = b""
            while more := till.stream.recv(4096):
                found += more
        wanted = b"TA A       3000 kg\r\nTAC A\r\n"
        self.same("a client that shuts its side is answered", wanted, found)

    def test_nothing_late(self) -> None:
        for line in ("Z", "T", "TA 5000 kg"):
            for seconds in (1.3, 1.7, 3.5):
                what = f"{line} while the service stands still for {seconds} s is refused, and nothing acts later"
                found = refused_while_held(self.bridge, line, seconds)
                self.same(what, (True, ["S S         60 kg", NO_TARE], 0), found)

    def test_a_copy_without_the_reset(self) -> None:
        """Show that the test above sees it if a command acts after its sender was refused."""
        copy = self.new_bridge(self.pace)
        copy.executable = without_reset(copy.folder)
        copy.start_counter()
        found = 0
        for _ in range(4):
            is_refused, (_, tare), late = refused_while_held(copy, "TA 5000 kg", 1.4)
            found += is_refused and (tare != NO_TARE or late > 0)
            copy.terminal_says("till", "TAC")
        self.holds("a copy without the reset fails that test", found > 0, f"{found} of 4 times")

    def test_nothing_late_when_the_counter_stands_still(self) -> None:
        """Hold the counter while a till sends and gives up."""
        bridge = self.bridge
        bridge.put(0)
        for seconds in (1.5, 4.0):
            form = {"key": f"late-{seconds}", "kind": "single", "plate": "LATE", "tare": "3000"}
            with held(bridge.process), Till(bridge.ports["till"]) as till:
                till.send(b"TA 5000 kg\r\n")
                page = Meanwhile(bridge.ask, "POST", "/weighings", form)
                time.sleep(seconds)
                till.close()
            told = page.get()
            bridge.wait_until_up()
            time.sleep(0.5)
            what = f"what came while the counter stood still for {seconds} s is not carried out"
            self.same(what, (NO_TARE, (503, "counter late\n")), (bridge.tare(), told[:2]))

    def test_a_tare_of_one_weighing(self) -> None:
        bridge, number = self.bridge, iter(range(1, 1000))

        def single(tare: object) -> tuple[int, str]:
            return bridge.weigh(f"tare-{next(number)}", "single", "AB-12", tare)

        bridge.next_vehicle(9170)
        status, text = single(5000)
        is_so = "PT       5000 kg\n" in text and text.endswith("N      13340 kg\n")
        self.holds("a Single with its tare in one act", status == 201 and is_so, text)
        self.same("no tare is left", NO_TARE, bridge.tare())
        for what, tare, words in (
            ("nor where the office refuses", 5000, "refused 11 not_cleared\n"),
            ("nor by one that is not below the weight", 30000, "refused 10 no_preset\n"),
            ("nor by one above Max", 99999, "counter tare_refused\n"),
        ):
            if tare == 30000:
                bridge.next_vehicle(9170)
            self.same(what, ((409, words), NO_TARE), (single(tare), bridge.tare()))
        self.same("what is no tare", (422, "counter bad_tare\n"), single("5x"))
        bridge.terminal_says("till", "TA 3000 kg")
        what = "one that a till has set is refused by name, and stays"
        wanted = ((409, "counter tare_set\n"), "TA A       3000 kg")
        self.same(what, wanted, (single(5000), bridge.tare()))
        refused = (409, "refused 9 tare_active\n")
        met = bridge.weigh("tare-first", "first", "AB-12")
        self.same("and a First meets it by name", refused, met)
        said = bridge.ask("POST", "/tare/clear")[1]
        self.same("the page clears it", ('{"said": "TAC A"}', NO_TARE), (said, bridge.tare()))
        four = [("single", 4000), ("first", None), ("single", 5000), ("first", None)]
        acts = [
            Meanwhile(bridge.weigh, f"side-{it}", kind, f"S-{it}", tare)
            for it, (kind, tare) in enumerate(four)
        ]
        told = [it.get() for it in acts]
        faults = [text.split()[0] for status, text in told if status != 201]
        is_so = len(faults) == 3 and {*faults} <= {"refused", "counter"}
        shown = [text.split("\n")[0] for _, text in told]
        self.holds("of four at once one is stored, with its own tare or none", is_so, shown)
        self.same("and none is left", NO_TARE, bridge.tare())

    def test_zero_since_the_start(self) -> None:
        """Show that the counter knows over its own start whether zero was set, and not over one of the service."""
        bridge = self.bridge

        def is_known() -> object:
            return bridge.state()["zero"]["known"]

        bridge.put(0)
        self.same("zero by the page", '{"said": "Z A"}', bridge.ask("POST", "/zero")[1])
        self.same("it is known", True, is_known())
        bridge.restart_counter()
        self.becomes("and still is once the counter was started again", True, is_known)
        service = self.comes("the service is seen", lambda: bridge.health()["service"])
        is_it = service["process"] == bridge.service.process.pid and "--pace" in service["words"]
        is_named = service["program"]["version"].startswith("weighbridge ")
        what = "the service's program, words and start are shown"
        self.holds(what, is_it and is_named, service)
        bridge.kill_counter()
        bridge.kill_service()
        bridge.start_service()
        bridge.start_counter()
        what = "a start of the service is noticed, though the counter was away"
        self.becomes(what, False, is_known)
        self.same("a till sets zero", "Z A", bridge.terminal_says("till", "Z"))
        self.same("and it is known again", True, is_known())
        bridge.kill_service()
        bridge.start_service()
        bridge.wait_until_up()
        self.becomes("a start within is noticed too", False, is_known)
        bridge.ask("POST", "/zero")
        with held(bridge.service.process):
            time.sleep(3)
        bridge.wait_until_up()
        time.sleep(0.5)
        self.same("a service that stood still wasn't started", True, is_known())


class FanoutAt50(Fanout):
    """Tills, a display and a page at 50 readings a second."""

    pace = 50


class AnotherAtTheTerminal(AtTheCounter):
    """Another client has the service's terminal."""

    needs = (PROGRAM, "aiohttp", "prometheus_client")
    seconds = 30

    def links(self, seconds: float) -> set[str]:
        """Return what the events of `seconds` say of the link to the terminal."""
        return {it["link"] for name, it in self.bridge.events(seconds) if name == "state"}

    def test_it_is_named(self) -> None:
        """Show that the counter names a client that goes past it, even while it tries again, and that a service that stands still is none."""
        bridge = self.bridge
        bridge.kill_counter()
        with Till(bridge.terminal) as other:
            other.send(b"SIR\r\n")
            other.line()
            bridge.start_counter(is_waited_for=False)
            what = "another one at the terminal is named"
            self.becomes(what, "waits", lambda: bridge.state()["link"])
            self.same("and it stays so while the counter tries again", {"waits"}, self.links(5))
            told = bridge.weigh("other-1", "single", "A", 5000)
            what = "a weighing with a tare is not begun"
            self.same(what, (503, "counter no_terminal\n"), told)
        bridge.wait_until_up()
        with held(bridge.service.process), Till(bridge.ports["till"]) as till:
            till.send(b"TAC\r\n")
            links = self.links(6)
        bridge.wait_until_up()
        what = "a service that stands still shows as one that doesn't answer"
        self.same(what, {"up", "held"}, links)


class Kills(AtTheCounter):
    """The counter and the service killed, and each held, at moments over a whole weighing: no tare is left, and one key has one entry."""

    needs = (PROGRAM, "aiohttp", "prometheus_client")
    seconds = 120
    kills = 6

    def disturb(self, what: str, told: Meanwhile) -> None:
        """Kill or hold the counter or the service, and wait until all is there again."""
        bridge = self.bridge
        if "hold" in what:
            process: Any = bridge.process if "counter" in what else bridge.service.process
            with held(process):
                time.sleep(random.uniform(1.1, 2.5))
            told.get()
        elif what == "counter":
            bridge.kill_counter()
            told.get()
            bridge.start_counter(is_waited_for=False)
        else:
            bridge.kill_service()
            told.get()
            time.sleep(0.05)
            bridge.start_service()
        bridge.wait_until_up()

    def test_killed_within_the_act(self) -> None:
        bridge, kills, holds = self.bridge, self.kills, self.kills // 3
        span, left, stored, twice = 0.05 + 3.0 / bridge.pace, 0, 0, 0
        times = {"counter": kills, "service": kills, "hold counter": holds, "hold service": holds}
        moments = [
            (what, at, span * at / count) for what, count in times.items() for at in range(count)
        ]
        for what, at, moment in moments:
            bridge.next_vehicle(9170)
            form = (f"kill-{what.replace(' ', '-')}-{at}", "single", f"K-{at}", 5000)
            told = Meanwhile(bridge.weigh, *form, within=8)
            time.sleep(moment)
            self.disturb(what, told)
            left += bridge.tare() != NO_TARE
            count = sum(it[1] == form[0] for it in bridge.entries())
            again = bridge.weigh(*form)
            stored += count
            twice += count > 1 or (count == 1 and again[0] != 201)
            twice += sum(it[1] == form[0] for it in bridge.entries()) > 1
            first = told.get()
            twice += bool(first) and first[0] == 201 and first[1] != again[1]
        what = f"killed {2 * kills} times and held {2 * holds} times within the act, no tare is left and each key has one entry"
        self.same(what, (0, 0), (left, twice))
        is_so = 0 < stored < len(moments)
        self.holds("some of them were stored, and some not", is_so, f"{stored} stored")
        self.holds("the journal is sound", bridge.is_sound())


class KillsAt50(Kills):
    """Kills at 50 readings a second."""

    pace = 50


class ManyKills(Kills):
    """Five times as many."""

    slow = True
    seconds = 600
    kills = 30


class ManyKillsAt50(ManyKills):
    """Five times as many, at 50 readings a second."""

    pace = 50
