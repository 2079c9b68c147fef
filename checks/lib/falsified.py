#!/usr/bin/env python3
"""Falsified programs for checks/trial --slow: each runs the program that WEIGHBRIDGE_PROGRAM names, and changes what goes in or comes out as WEIGHBRIDGE_FALSIFIED says."""
import os
import re
import subprocess
import sys
import threading
import time
from collections.abc import Iterable, Iterator

# The name of each, the tests of checks/trial that it must fail, and what it does.
ALL = {
    "none": (
        ("performance", "discrimination", "limits", "zero_accuracy", "ticket", "power_cut"),
        "nothing is falsified",
    ),
    "half_down": (("rounding",), "rounds an exact half down"),
    "one_more": (("limits",), "indicates an interval above Max + 9 e"),
    "zero_farther": (("zero_range",), "sets the zero a tenth of e beyond its range"),
    "zero_off": (("zero_accuracy",), "sets the zero 0.3 e off"),
    "fast_tracking": (("tracking",), "tracks at each reading"),
    "whole_tare": (("tare_accuracy", "tare_weighing"), "takes a tare in whole e"),
    "lost_as_zero": (("warm_up",), "takes a lost reading for a load of zero"),
    "wide_band": (("stability",), "takes the wider band"),
    "other_tare": (("ticket",), "prints another preset tare"),
    "slow_swing": (("swings",), "stores during a slow swing: takes a window of four"),
    "blind": (("discrimination",), "is blind to a tenth of e at Min"),
    "kept_tare": (("power_cut",), "keeps a tare over a restart"),
    "gain": (("performance",), "weighs a thousandth too much"),
    "net_limit": (("limits",), "reports overload by the net"),
    "drift": (("creep",), "drifts by 0.6 e in half an hour"),
    "uneven": (("repeatability",), "weighs each second vehicle 3 e heavier"),
}


class Reading:
    """A trace up to a line."""

    def __init__(self, words: list[str]) -> None:
        value = dict(zip(words[1::2], words[2::2]))
        self.max = int(value["--max"]) // int(value["--interval"]) * 10
        self.last, self.shift, self.count, self.tare, self.loaded = 0, 0, 0, 0, 0

    def changed(self, name: str, load: int) -> int:
        if name == "half_down" and load % 10 == 5:
            return load - 1
        if name == "one_more" and self.max + 95 <= load < self.max + 105:
            return self.max + 94
        if name == "zero_farther" and abs(load) == self.max * 2 // 100 + 1:
            return load - (1 if load > 0 else -1)
        if name == "blind" and 195 <= load <= 215 and abs(load - self.last) == 1:
            return self.last
        if name == "gain":
            return load + load // 1000
        if name == "net_limit" and self.tare and load > self.max + 94:
            return self.max + 94
        if name == "drift" and self.count > 17_000:
            return load + 6
        if name == "uneven" and load > 5000 and self.loaded % 2:
            return load + 30
        return load + self.shift


def edited(name: str, words: list[str], lines: Iterable[str]) -> Iterator[str]:
    """Yield the lines of a trace as the falsified program understands them."""
    seen = Reading(words)
    for line in lines:
        reading = re.fullmatch(r"r (-?\d+)(?: (\d+))?", line)
        if reading:
            load = int(reading[1])
            seen.loaded += load > 5000 >= seen.last
            load = seen.changed(name, load)
            seen.count += int(reading[2] or 1)
            seen.last = load
            line = f"r {load}" + (f" {reading[2]}" if reading[2] else "")
        elif name == "lost_as_zero" and line.startswith("r lost"):
            line = line.replace("r lost", "r 0 4", 1)[:5]
        elif name == "zero_off" and line == "t Z":
            seen.shift = 3
        elif name == "whole_tare" and line == "t T":
            seen.shift = seen.last - (seen.last + 5) // 10 * 10
        if line == "t T" or line.startswith("t TA "):
            seen.tare = 1
        yield line


def keep_a_tare(words: list[str]) -> None:
    """Takes a tare once the service listens."""
    host, port = words[words.index("--terminal") + 1].split(":")
    import socket

    until = time.monotonic() + 5
    while time.monotonic() < until:
        try:
            with socket.create_connection((host, int(port)), 1) as it:
                it.sendall(b"TA 5000 kg\r\n")
                it.recv(100)
                return
        except OSError:
            time.sleep(0.005)


def main(program: str, name: str, words: list[str]) -> int:
    if words[:1] == ["serve"]:
        if name == "kept_tare" and os.path.exists(words[words.index("--file") + 1]):
            threading.Thread(target=keep_a_tare, args=(words,)).start()
            return subprocess.Popen([program, *words]).wait()
        os.execv(program, [program, *words])
    for option, value, at in (
        ("--window", "4", "slow_swing"),
        ("--band", "2", "wide_band"),
        ("--pace", "2", "fast_tracking"),
    ):
        if at == name:
            words[words.index(option) + 1] = value
    text = "".join(f"{line}\n" for line in edited(name, words, sys.stdin.read().splitlines()))
    run = subprocess.run([program, *words], input=text, capture_output=True, text=True)
    out = (
        re.sub(r"(?m)^\| PT +\d+", "| PT       5020", run.stdout)
        if name == "other_tare"
        else run.stdout
    )
    sys.stdout.write(out)
    sys.stderr.write(run.stderr)
    return run.returncode


if __name__ == "__main__":
    sys.exit(
        main(os.environ["WEIGHBRIDGE_PROGRAM"], os.environ["WEIGHBRIDGE_FALSIFIED"], sys.argv[1:])
    )
