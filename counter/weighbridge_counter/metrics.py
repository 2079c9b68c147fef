"""The metrics of `/metrics`, for Prometheus.

prometheus_client writes them from a registry of their own, so that they hold nothing else of the process.
"""

from collections.abc import Iterator
from typing import NamedTuple

from prometheus_client import CollectorRegistry, generate_latest
from prometheus_client.metrics_core import CounterMetricFamily, GaugeMetricFamily, Metric
from prometheus_client.registry import Collector

from .counter import Counter

PREFIX = "weighbridge_counter"
TEXT_FORM = "text/plain; version=0.0.4; charset=utf-8"


class Counted(NamedTuple):
    """A metric of what is counted."""

    name: str
    help_text: str


# by the name under which the counter's parts count
COUNTED = {
    "sent": Counted(
        "commands_sent_total", "Commands that the counter sent to the terminal, its own ones too."
    ),
    "dropped": Counted(
        "commands_dropped_total",
        "Commands, and tares with their weighing, whose time was over before they could be sent.",
    ),
    "not_sent": Counted(
        "commands_not_sent_total", "Commands that had their turn, and were not sent in time."
    ),
    "unanswered": Counted("commands_unanswered_total", "Commands that were sent and got no reply."),
    "called_back": Counted(
        "commands_called_back_total",
        "Unanswered commands for which the counter reset the connection to the terminal.",
    ),
    "stray_replies": Counted(
        "stray_replies_total",
        "Lines of the terminal that nobody asked for; the counter then resets.",
    ),
    "stood_still": Counted(
        "standstills_total",
        "Times that lines came after the counter itself stood still; the counter then resets.",
    ),
    "tares_cleared": Counted(
        "tares_cleared_total",
        "Tares that were left at the scale, and that the counter cleared when it connected.",
    ),
    "office_stored": Counted(
        "office_texts_total",
        "Texts of weighings and voids that the office returned with 201, repeated ones too.",
    ),
    "office_no_answer": Counted(
        "office_unanswered_total", "Weighings and voids that the office did not answer."
    ),
    "answers_not_taken": Counted(
        "answers_not_taken_total",
        "Answers that their client got, but that the counter could not process for its lists or printers.",
    ),
    "exports": Counted("exports_total", "Exports that the counter read into its lists."),
    "exports_not_understood": Counted(
        "exports_not_understood_total", "Exports that the counter could not read."
    ),
    "clients_refused": Counted(
        "connections_refused_total", "Connections that had no place, and got a 503 or nothing."
    ),
    "clients_cut": Counted(
        "connections_cut_total",
        "Connections that the counter cut: too slow, silent, or in another's place.",
    ),
    "lists_begun_again": Counted(
        "lists_begun_again_total", "Times that the lists started again because of another journal."
    ),
}
READINGS = Counted("readings_total", "Values of the terminal, by their state.")
STATES = "SDI+-"
REFUSED = Counted(
    "office_refusals_total", "Refusals and faults that the office returned, by their first line."
)
# what the counter's parts count begins with one of these, and the rest is the label
OF_READINGS, OF_OFFICE = "readings_", "office_"


class Figures(Collector):
    """The figures of a counter at the moment of a scrape."""

    def __init__(self, counter: Counter) -> None:
        self.counter = counter

    def collect(self) -> Iterator[Metric]:
        counts = self.counter.counts
        for own_name, it in COUNTED.items():
            yield CounterMetricFamily(f"{PREFIX}_{it.name}", it.help_text, counts[own_name])
        yield labelled(READINGS, "state", {it: counts[OF_READINGS + it] for it in STATES})
        refused = {
            name.removeprefix(OF_OFFICE): count
            for name, count in sorted(counts.items())
            if name.startswith(OF_OFFICE) and name not in COUNTED
        }
        yield labelled(REFUSED, "refusal", refused)
        for name, (help_text, value) in self.gauges().items():
            number = float("nan") if value is None else float(value)
            yield GaugeMetricFamily(f"{PREFIX}_{name}", help_text, number)

    def gauges(self) -> dict[str, tuple[str, float | None]]:
        """Return each value with its help text. A value that isn't known is None."""
        counter = self.counter
        fanout, books, room = counter.terminal.fanout, counter.books, counter.room()
        is_fresh = fanout.is_fresh() and fanout.value is not None
        return {
            "value_age_seconds": ("Age of the newest value.", fanout.age()),
            "net_kg": (
                "The weight that is indicated, net if a tare is in force.",
                fanout.value.kg if is_fresh and fanout.value else None,
            ),
            "tare_kg": ("The tare in force.", fanout.tare),
            "reading_period_seconds": ("Time between two values.", fanout.period),
            "terminal_up": (
                "1 if the terminal sends values.",
                fanout.link == "up" and not fanout.is_held(),
            ),
            "office_up": (
                "1 if the office answered its last request, with its journal open.",
                books.state == "ok",
            ),
            "zero_known": ("1 if zero was set since the service was started.", counter.zero.is_set),
            "lists_whole": ("1 if nothing is known to be missing on the lists.", books.is_whole()),
            "entries": ("Entries on the lists.", len(books.lists.entries)),
            "newest_entry": ("Number of the newest entry.", books.lists.last),
            "on_site": ("Vehicles that were weighed in, and not out.", len(books.lists.open)),
            "journal_free_places": (
                "Places of the journal that are free.",
                room.places if room else None,
            ),
            "journal_room_days": (
                "Days for which the free places last, by the entries of the last two weeks.",
                room.days if room else None,
            ),
            "export_seconds": (
                "Time that the last export and its reading took.",
                books.export_seconds,
            ),
            "files_written": (
                "1 if the disk took each file of the counter's own.",
                not counter.files.faults,
            ),
            "papers_waiting": (
                "Papers that wait for a printer, or failed.",
                len(counter.printing.jobs),
            ),
            "pages": ("Event streams that are open.", len(counter.pages.open)),
            "service_start_seconds": (
                "Start of the service, in seconds since 1970.",
                counter.service.started_at() if counter.service else None,
            ),
        }


def labelled(it: Counted, label: str, counts: dict[str, int]) -> CounterMetricFamily:
    family = CounterMetricFamily(f"{PREFIX}_{it.name}", it.help_text, labels=[label])
    for value, count in counts.items():
        family.add_metric([value], count)
    return family


def metrics_of(counter: Counter) -> str:
    registry = CollectorRegistry()
    registry.register(Figures(counter))
    return generate_latest(registry).decode()
