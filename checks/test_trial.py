"""Shows that the program passes those tests of a type examination that need only software. It shows with `--slow` that 16
falsified programs fail them. docs/trial.md is its report.

Usage: checks/trial                                     compares the report with docs/trial.md and docs/trial.svg, and reports a difference
       checks/trial --release                           fails if there is one
       checks/trial --report FOLDER [--observed NAME]   writes trial.md, trial.html and trial.svg into the folder

The day and the observer's name may differ. Between releases the pages may have the report of an earlier program. A falsified program
(checks/lib/falsified.py) must fail the tests that it is made for.
"""

import functools
import os
import subprocess
import time
from collections.abc import Iterator
from unittest import mock

from checks import TOP
from checks.lib import falsified, report
from checks.lib.case import PROGRAM, Check, given, skip_without
from checks.lib.instrument import E, Instrument, instruments
from checks.lib.program import PROGRAM as BUILT
from checks.lib.trials import TRIALS, Result

# Tests of R 76-2 that no software can fill.
OTHERS = [
    [
        "eccentric loading (A.4.7), sensitivity, span stability (B.4), endurance (A.6)",
        "they test load receptor and cells",
    ],
    ["creep of the load cell (A.4.11), warm-up time (A.5.2)", "they test cells and converter"],
    [
        "tilting (A.5.1), temperature (A.5.3), voltage (A.5.4), damp heat (B.2)",
        "they test influences on the instrument",
    ],
    ["disturbances (B.3)", "they test the electronics; for a lost reading, see Warm-up"],
    ["construction, markings, seals, display and printer", "somebody must inspect them"],
]


@functools.cache
def results() -> list[Result]:
    return [it.run(BUILT) for it in TRIALS.values()]


@functools.cache
def version() -> list[str]:
    ran = subprocess.run([BUILT, "--version"], capture_output=True, text=True, check=True)
    return ran.stdout.splitlines()


def plots() -> Iterator[report.Plot]:
    """Return what is indicated of loads a tenth of e apart, around changeover points and at Max + 9 e."""
    it = Instrument(BUILT)
    for title, begin, end in (
        ("Around three changeover points", 9153, 9187),
        ("At Max + 9 e", it.max + 85, it.max + 102),
    ):
        loads = range(begin, end)
        found = it.replies(["t SIR", *(f"r {load}" for load in loads)])
        points = [
            (load * it.interval / E, int(one.split()[2]))
            for load, one in zip(loads, found)
            if one.endswith("kg")
        ]
        span = (begin * it.interval / E, end * it.interval / E)
        yield report.Plot(title, span, points, it.interval)


def blocks(observed: str) -> Iterator[report.Block]:
    passed = sum(it.is_passed for it in results())
    yield "h1", "A trial of the instrument"
    yield "p", (
        "`checks/trial` makes this report. It has those tests of a type examination that need only software. They are from OIML R 76-1:2006, whose sections are cited here, and from its report R 76-2. `weighbridge replay` puts loads on in "
        "tenths of e. The check computes each wanted value from the requirement. This project reports about itself, and it is no notified body."
    )
    yield "p", f"The program: {'; '.join(version())}."
    yield "p", f"The setup, unless a test names another: {Instrument(BUILT).setup()}; readings are simulated. {'; '.join(f'{it.named()}: {it.described()}' for it in instruments(BUILT))}."
    yield "p", f"Made on {time.strftime('%Y-%m-%d', time.gmtime())}; observed by {observed}."
    yield "p", f"{passed} of {len(results())} tests are passed."
    yield "p", "These tests need more than software:"
    yield "table", ["Test", "Why"], OTHERS
    yield "p", "The plot has the indicated weight against the applied load, with a dot for each tenth of e. It shows e/2 on either side in grey."
    yield "image", "trial.svg"
    for it in results():
        yield "h2", it.trial.title
        yield "p", f"Requirement: {it.trial.requirement}"
        yield "p", f"Done: {it.trial.done}"
        yield "p", f"Passed: {'yes' if it.is_passed else 'NO'}, {len(it.rows)} rows."
        yield "table", *it.shown()


def compared(text: str) -> list[str]:
    """Return the lines that must be the same: not the day, nor gnuplot's own; nor the program's if it doesn't say what it is."""
    is_named = not any("isn't named" in it or "not counted" in it for it in version())
    others = ("Made on ", "<desc>", *([] if is_named else ["The program: "]))
    return [line for line in text.splitlines() if not line.startswith(others)]


class Tests(Check):
    """The tests, and the report of them."""

    needs = (PROGRAM,)
    options = {"--report": "FOLDER", "--observed": "NAME", "--release": ""}
    seconds = 20

    def test_rows(self) -> None:
        for it in results():
            for row in it.rows:
                self.holds(f"{it.trial.title}: {' | '.join(row)}", row[-1] != "NO")

    @skip_without("gnuplot")
    def test_report(self) -> None:
        said = [*blocks(given.get("observed") or "nobody: a machine made it")]
        plot = report.svg([*plots()])
        texts = {"md": report.markdown(said), "html": report.html(said, plot), "svg": plot}
        if folder := given.get("report"):
            for kind, text in texts.items():
                with open(os.path.join(folder, f"trial.{kind}"), "w", encoding="utf-8") as file:
                    file.write(text)
            return
        for kind in ("md", "svg"):
            page = f"docs/trial.{kind}"
            held = compared((TOP / page).read_text(encoding="utf-8"))
            if given.get("release"):
                self.same(page, held, compared(texts[kind]))
            elif held != compared(texts[kind]):
                print(
                    f"{page} is another report, or of another program; checks/trial --report docs makes it again"
                )


class Falsified(Check):
    """Falsified programs, each of which must fail the tests that it is made for, and one that falsifies nothing."""

    needs = (PROGRAM,)
    slow = True
    seconds = 120

    def test_programs(self) -> None:
        for name, (tests, what) in falsified.ALL.items():
            named = {"WEIGHBRIDGE_PROGRAM": BUILT, "WEIGHBRIDGE_FALSIFIED": name}
            with mock.patch.dict(os.environ, named):
                failed = {it for it in tests if not TRIALS[it].run(falsified.__file__).is_passed}
            self.same(f"falsified: {what}", {*tests} if name != "none" else set(), failed)
