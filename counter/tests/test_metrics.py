"""The metrics: one for each thing that the counter's parts count, with its help text, and none of another part of the process."""

import contextlib
import io
import re
import tempfile
import unittest
from collections.abc import Callable, Iterable
from pathlib import Path
from typing import Any

from prometheus_client.parser import text_string_to_metric_families
from weighbridge_counter import acts, fanout
from weighbridge_counter.counter import Counter
from weighbridge_counter.metrics import COUNTED, OF_OFFICE, OF_READINGS, PREFIX, metrics_of
from weighbridge_counter.setup import Setup

PARTS = Path(acts.__file__).parent
PAGE = PARTS.parent.parent / "docs" / "counter_reference.md"
# By file: how the names begin that it makes when it counts.
MADE = {"fanout.py": {OF_READINGS}, "acts.py": {OF_OFFICE}}


class Metrics(unittest.TestCase):
    def setUp(self) -> None:
        folder = tempfile.TemporaryDirectory()
        self.addCleanup(folder.cleanup)
        with contextlib.redirect_stderr(io.StringIO()):
            self.counter = Counter(Setup(state=Path(folder.name)), lambda address: None)
        self.addCleanup(self.counter.printing.notes.shutdown)

    def families(self) -> dict[str, Any]:
        read: Callable[[str], Iterable[Any]] = text_string_to_metric_families
        return {it.name: it for it in read(metrics_of(self.counter))}

    def values(self) -> dict[tuple[str, ...], float]:
        return {
            (it.name.removeprefix(f"{PREFIX}_"), *it.labels.values()): it.value
            for family in self.families().values()
            for it in family.samples
        }

    def test_each_thing_that_is_counted_has_a_metric_that_begins_at_zero(self) -> None:
        values = self.values()
        for it in COUNTED.values():
            self.assertEqual(0, values[it.name,], it.name)
        for state in "SDI+-":
            self.assertEqual(0, values["readings_total", state])
        for number, name in enumerate(COUNTED, 1):
            self.counter.counts[name] = number
        values = self.values()
        self.assertEqual(
            list(range(1, len(COUNTED) + 1)),
            [values[it.name,] for it in COUNTED.values()],
        )

    def test_a_reading_is_counted_by_its_state_and_a_refusal_by_its_line(self) -> None:
        for name, count in (
            ("readings_+", 3),
            ("readings_S", 4),
            ("office_refused_11_not_cleared", 5),
            ('office_a"b\\c', 6),
            ("office_stored", 7),
            ("office_no_answer", 8),
        ):
            self.counter.counts[name] = count
        values = self.values()
        self.assertEqual(
            {"S": 4, "D": 0, "I": 0, "+": 3, "-": 0},
            {key[1]: it for key, it in values.items() if key[0] == "readings_total"},
        )
        self.assertEqual(
            {"refused_11_not_cleared": 5, 'a"b\\c': 6},
            {key[1]: it for key, it in values.items() if key[0] == "office_refusals_total"},
        )
        self.assertEqual(
            [7, 8], [values[it,] for it in ("office_texts_total", "office_unanswered_total")]
        )

    def test_no_part_counts_what_no_metric_shows(self) -> None:
        found = 0
        for path in PARTS.glob("*.py"):
            names = set(re.findall(r'counts\[f?"([^"]*)"\]', path.read_text()))
            made = {it.partition("{")[0] for it in names if "{" in it}
            self.assertEqual(MADE.get(path.name, set()), made, path.name)
            plain = {it for it in names if "{" not in it}
            self.assertEqual(set(), plain - set(COUNTED), path.name)
            found += len(plain)
        outcomes = {it.value for it in fanout.Outcome if it is not fanout.Outcome.ANSWERED}
        self.assertEqual(set(), outcomes - set(COUNTED))
        self.assertGreater(found, 8)

    def test_each_metric_has_a_help_text_of_its_own(self) -> None:
        helps = [it.documentation for it in self.families().values()]
        for it in helps:
            self.assertRegex(it, r"^[A-Z1].{8,118}\.$")
        self.assertEqual(len(set(helps)), len(helps))

    def test_nothing_else_of_the_process_is_told(self) -> None:
        text = metrics_of(self.counter)
        for line in text.splitlines():
            self.assertRegex(line, rf"^(# (HELP|TYPE) )?{PREFIX}_")
        self.assertNotIn("events_total", text)
        self.assertNotIn("_created", text)

    def test_what_is_not_known_is_no_number(self) -> None:
        text = metrics_of(self.counter)
        for name in ("value_age_seconds", "net_kg", "tare_kg", "service_start_seconds"):
            self.assertIn(f"\n{PREFIX}_{name} NaN\n", text)
        self.assertIn(f"\n{PREFIX}_entries 0.0\n", text)

    def test_the_reference_has_each_metric_and_no_other(self) -> None:
        part = PAGE.read_text(encoding="utf-8").split("\n### Metrics\n")[1].split("\n## ")[0]
        on_page = set(re.findall(r"^\| `([a-z_]+)(?:\{[a-z]+\})?` \|", part, re.M))
        told = {it.name.removeprefix(f"{PREFIX}_") for it in self.families().values()}
        counted = {
            f"{it.name.removeprefix(f'{PREFIX}_')}"
            for it in self.families().values()
            if it.type == "counter"
        }
        self.assertEqual({f"{it}_total" if it in counted else it for it in told}, on_page)


if __name__ == "__main__":
    unittest.main()
