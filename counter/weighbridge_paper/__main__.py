"""The command: a text of the office on standard input becomes a paper."""

import argparse
import sys
import time
from collections.abc import Iterable
from pathlib import Path

from .devices import TROUBLES
from .export import COLUMNS, NoExport, records_of, whole
from .layout import given_of
from .printers import Papers, Printer, read_papers
from .printing import Worker
from .reader import SetupFault, trouble_of_folder
from .spool import Job, Spool
from .text import NoText, Text, check_digests, read_text
from .words import FREE_LINES

AGAIN_AFTER = 0.5  # seconds between two tries
STATES = {"waits": "waits", "begun": "is being printed", "failed": "failed", "printed": "printed"}
ABOUT = """Prints the office's text of a slip or ticket, which comes on standard input. What isn't in the office's form is refused. The first print of a text is
the original; each further one is marked DUPLICATE, that of a First's slip COPY."""
EXAMPLE = """examples:
  weigh.sh first AB-12 | weighbridge-paper --printer yard
  weigh.sh second AB-12 | weighbridge-paper --printer yard --goods "Gravel 0/16" --order 4711
  weighbridge-paper --printer yard --reprint 2        a further print of number 2
  weighbridge-paper --list                            what waits, what failed, and why
  weighbridge-paper --again 7                         job 7 of that list waits again, if it failed
  weighbridge-paper --printer yard                    prints what waits, if nothing comes on standard input

A digest is also of the entry's key and of the digest before, which the text lacks. With --key, or with --against and an export of the journal, it is made
again, and a changed text refused; if it can't be, a line says so.

status: 0 printed, 1 not printed yet: a line says why, and it waits, 2 the words or the setup are refused, 3 the text is refused, and nothing is printed"""


def words_of(given: list[str]) -> argparse.Namespace:
    words = argparse.ArgumentParser(
        "weighbridge-paper",
        description=ABOUT,
        epilog=EXAMPLE,
        formatter_class=argparse.RawDescriptionHelpFormatter,
    )
    words.add_argument(
        "--setup",
        metavar="FILE",
        type=Path,
        default=Path("/etc/weighbridge-paper.toml"),
        help="the printers; /etc/weighbridge-paper.toml",
    )
    words.add_argument("--printer", metavar="NAME", help="one of the setup")
    for name in FREE_LINES:
        words.add_argument(
            f"--{name}",
            metavar="TEXT",
            default="",
            help="a free line, which is no part of the weighing",
        )
    words.add_argument(
        "--key", metavar="KEY", help="the key under which it was weighed, to make its digest again"
    )
    words.add_argument(
        "--against",
        metavar="EXPORT",
        type=Path,
        help="an export of the journal, to make its digests again",
    )
    words.add_argument(
        "--within", metavar="SECONDS", type=float, default=30.0, help="how long to try; 30"
    )
    words.add_argument(
        "--reprint",
        metavar="NUMBER",
        type=int,
        help="a further print of a number that was printed here",
    )
    words.add_argument(
        "--list", dest="is_list", action="store_true", help="what waits and what failed"
    )
    words.add_argument("--again", metavar="JOB", type=int, help="a job that failed waits again")
    words.add_argument(
        "--drop", metavar="JOB", type=int, help="a job that waits or failed is printed no more"
    )
    words.add_argument(
        "--check",
        dest="only_check",
        action="store_true",
        help="read the setup, try its folder, and end",
    )
    asked = words.parse_args(given)
    if asked.printer is None and not (
        asked.is_list or asked.only_check or asked.again is not None or asked.drop is not None
    ):
        words.error("--printer is missing: name one of the setup")
    return asked


def say(what: str) -> None:
    print(f"weighbridge-paper: {what}", file=sys.stderr, flush=True)


def text_asked_for(asked: argparse.Namespace, spool: Spool) -> Text | None:
    """Return the text to print. Return None if there is none, so that the papers that wait are printed. Raise NoText."""
    if asked.reprint is not None:
        found = spool.text_of(asked.reprint)
        if found is None:
            raise NoText(
                f"number {asked.reprint} was never printed here: get its text from the office, GET /tickets/{asked.reprint}"
            )
        return found
    if sys.stdin.isatty():
        return None
    letters = sys.stdin.buffer.read(65536).decode("utf-8", "replace")
    if not letters:
        return None
    text = read_text(letters)
    keys, digests = known_of(asked, text)
    for line in check_digests(text, keys, digests):
        say(line)
    return text


def known_of(asked: argparse.Namespace, text: Text) -> tuple[dict[int, str], dict[int, str]]:
    """Keys and digests by number, as far as the words name them. Raises NoText."""
    keys, digests = {}, {}
    if asked.against is not None:
        try:
            for fields in records_of(asked.against.read_text(encoding="utf-8")):
                row = dict(zip(COLUMNS, fields))
                number = whole(row["number"])
                keys[number], digests[number] = row["key"], row["digest"]
        except (OSError, ValueError, NoExport):
            raise NoText(
                f"{asked.against} is no export of the journal, so it can't be checked against it"
            ) from None
        if missing := [it.number for it in text.weighings if it.number not in keys]:
            raise NoText(
                f"number {missing[0]} isn't in {asked.against}: it was purged, or never stored"
            )
    if asked.key is not None:
        keys[text.own.number] = asked.key
    return keys, digests


def print_text(asked: argparse.Namespace, printer: Printer, spool: Spool) -> int:
    text = text_asked_for(asked, spool)
    waiting = [it.id for it in spool.jobs("waits", "begun") if it.printer == printer.name]
    if text is None and not waiting:
        say(
            "nothing came on standard input, and nothing waits: the weighing before may have been refused"
        )
        return 3
    job = (
        waiting[-1]
        if text is None
        else spool.put(spool.take(text, given_of(vars(asked))), printer.name)
    )
    until: float = time.monotonic() + asked.within
    worker = Worker(spool, printer)
    while True:
        while worker.turn(lambda: time.monotonic() > until):
            pass
        state = spool.job(job)
        if state is None or state.state not in ("waits", "begun") or time.monotonic() > until:
            return told(state)
        time.sleep(AGAIN_AFTER)


def told(job: Job | None) -> int:
    if job is None:
        return 0
    if job.state == "printed":
        print(f"{line_of(job)}: {'original' if job.is_original else 'further print'}")
        return 0
    say(line_of(job))
    return 1


def line_of(job: Job) -> str:
    what = "ticket" if job.text.is_ticket else "slip"
    why = f": {TROUBLES[job.why]}" if job.why else ""
    return f"job {job.id}: {what} {job.text.own.number}, {job.text.plate}, {STATES.get(job.state, job.state)} at {job.printer}{why}"


def show(jobs: Iterable[Job]) -> None:
    for it in jobs:
        print(line_of(it))


def carry_out(asked: argparse.Namespace, papers: Papers) -> int:
    spool = Spool(papers.spool)
    if asked.is_list:
        show(spool.jobs("waits", "begun", "failed"))
        return 0
    for number, act, why in (
        (asked.again, spool.again, "didn't fail"),
        (asked.drop, spool.drop, "neither waits nor failed"),
    ):
        if number is not None and not act(number):
            say(f"job {number} {why}, so nothing was done; --list shows the jobs")
            return 2
    if asked.printer is None:
        return 0
    printer = papers.printer(asked.printer)
    if printer is None:
        say(
            f"{asked.setup}: there is no printer {asked.printer}: it has {', '.join(it.name for it in papers.printers) or 'none'}"
        )
        return 2
    return print_text(asked, printer, spool)


def check(setup: Path, papers: Papers) -> int:
    """Say what a setup without a mistake means, or why its spool can't be used."""
    if (trouble := trouble_of_folder(papers.spool)) is not None:
        say(
            f"{setup}: spool: {trouble}: nothing could be printed; repair that, or name another folder"
        )
        return 1
    printers = ", ".join(it.name for it in papers.printers) or "none"
    print(
        f"{setup}: in order; printers: {printers}; each weighing is printed by: {papers.by_itself or 'none'}"
    )
    return 0


def main(given: list[str] | None = None) -> int:
    asked = words_of(sys.argv[1:] if given is None else given)
    try:
        papers = read_papers(asked.setup)
        return check(asked.setup, papers) if asked.only_check else carry_out(asked, papers)
    except SetupFault as fault:
        for line in fault.mistakes:
            say(line)
        return 2
    except NoText as fault:
        say(f"this is no text to print: {fault}")
        return 3
    except ImportError as fault:
        say(f"{fault}: install python3-reportlab and python3-qrcode")
        return 2
    except OSError as fault:
        say(str(fault))
        return 1


if __name__ == "__main__":
    sys.exit(main())
