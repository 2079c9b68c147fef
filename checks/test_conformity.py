"""Shows that everything that docs/conformity.md names exists, that its commands print what it shows, and that each rule
and clause has a row or a reason.

The gate runs it.

Usage: checks/conformity [PROGRAM]. It runs the page's commands in their order, by PROGRAM if it is given. Otherwise it
uses the launcher, which builds the program first if it isn't built. Each command must print what the page shows. A
mutant must be one that can still be made, so the line that it replaces must be there once. A row or a stated exception
must name each rule of docs/rules.md and each clause of a public call in the crates' READMEs. Calls that are exceptions
are in checks/data/conformity_calls.md. The page must count its requirements right, and its table must have them all.
The check prints a row for each requirement.

       checks/conformity --table. Makes the page's table of all requirements from its sections.

It takes a quarter of a minute.
"""

import re
from collections.abc import Iterable, Iterator
from dataclasses import dataclass, field

from checks import TOP
from checks.lib import links, page
from checks.lib.case import PROGRAM, Check, given
from checks.lib.program import named

PAGE = "docs/conformity.md"
# The calls that no row of the page names, each with its reason.
CALLS = "checks/data/conformity_calls.md"
# The table of all requirements: its heading, how it shows each answer, and in which order.
TABLE = "## All requirements"
SHOWN = {
    "no": "**not met**",
    "in part": "in part",
    "yes": "met",
    "not offered": "not offered",
    "not software": "not the software's",
}
EXCEPTIONS = "## Rules and clauses that no row names"
# The short names of the documents that the headings of the second level begin with.
DOCUMENTS = {"OIML R 76-1": "R 76-1", "WELMEC Guide 7.2": "WELMEC 7.2", "MT-SICS": "MT-SICS"}
LABELS = ("Met", "Rule", "Definition", "Proved", "Tested", "Refused")
# The ports of the page's service.
PORTS = [4001, 8080]
Line = tuple[int, str]


def fail(line: int, text: str, path: str = PAGE) -> None:
    raise AssertionError(f"{path}:{line}: {text}")


@dataclass
class Row:
    """A requirement of the page, with the text after each of its labels, and its commands."""

    line: int
    title: str
    document: str
    said: dict[str, Line] = field(default_factory=dict)
    steps: list[page.Step] = field(default_factory=list)

    def text(self, label: str) -> str:
        return self.said.get(label, (0, ""))[1]

    @property
    def answer(self) -> str:
        return re.split("[.,:]", self.text("Met"))[0]

    def named(self, label: str) -> list[str]:
        return re.findall(r"`([^`]+)`", self.text(label))

    @property
    def rules(self) -> list[str]:
        return self.text("Rule").split("; ") if "Rule" in self.said else []

    @property
    def proved(self) -> list[tuple[str, str, list[str]]]:
        """Return what is proved, as crate, call and the clauses that are named of it."""
        parts = [it.strip().partition(":") for it in self.text("Proved").split(";")]
        return [
            (crate.strip(" `"), call, re.findall(r"`([^`]+)`", clauses))
            for crate, _, calls in parts
            for call, clauses in re.findall(r"`([^`]+)`(?: \(([^)]*)\))?", calls)
        ]


def rows_of(lines: list[str]) -> tuple[list[Row], list[Line]]:
    """Return the requirements, and the lines of the section of exceptions."""
    rows: list[Row] = []
    left: list[Line] = []
    row: Row | None = None
    label, document, is_left = "", "", False
    for number, text in enumerate(lines, 1):
        if text.startswith("## "):
            row, label, is_left = None, "", text == EXCEPTIONS
            begun = [it for begin, it in DOCUMENTS.items() if text[3:].startswith(begin)]
            document = begun[0] if begun else ""
        elif is_left:
            left.append((number, text))
        elif text.startswith("### "):
            row, label = Row(number, text[4:], document), ""
            rows.append(row)
        elif row and (said := re.match(r"- \*\*(\w+)\*\*: (.*)", text)):
            label = said[1]
            if label not in LABELS or label in row.said:
                fail(number, f"no label, or one that was there: {label}")
            row.said[label] = (number, said[2])
        elif row and label and text.startswith("  "):
            row.said[label] = (row.said[label][0], f"{row.text(label)} {text.strip()}")
        else:
            label = ""
    return rows, left


def check_names(row: Row) -> int:
    """Return how many links there are, except the commands. Fail at the first that is gone."""
    if row.answer not in SHOWN:
        fail(row.line, f"{row.title}: Met begins with none of {', '.join(SHOWN)}")
    for rule in row.rules:
        if rule not in links.rules():
            fail(row.said["Rule"][0], f"docs/rules.md has no place {rule}")
    count = len(row.rules)
    for label, missing in (
        ("Definition", links.definition_missing),
        ("Tested", links.test_missing),
        ("Refused", links.wrong_body_missing),
    ):
        if label in row.said and not row.named(label):
            fail(row.said[label][0], f"{label} names nothing")
        for name in row.named(label):
            if why := missing(name):
                fail(row.said[label][0], why)
        count += len(row.named(label))
    for crate, call, clauses in row.proved:
        if why := links.clause_missing(crate, call, clauses):
            fail(row.said["Proved"][0], why)
        count += max(1, len(clauses))
    if "Proved" in row.said and not row.proved:
        fail(row.said["Proved"][0], "Proved names nothing")
    if row.answer in ("yes", "in part") and not row.proved and not row.named("Tested"):
        fail(row.line, f"{row.title}: nothing says that it is met")
    return count


def exceptions_in(path: str, lines: Iterable[Line]) -> Iterator[Line]:
    """Return the cells that name what no row does, with the number of the line; the other cell is the reason."""
    for number, text in lines:
        cells = [it.strip() for it in text.strip("|").split("|")] if text.startswith("| ") else []
        if len(cells) != 2 or cells[0] in ("Rule", "Calls") or set(cells[0]) == {"-"}:
            continue
        if not cells[1]:
            fail(number, "an exception without a reason", path)
        yield number, cells[0]


def anchor_of(title: str) -> str:
    """Return the anchor that a viewer of Markdown gives a heading."""
    return re.sub(r"[^\w\- ]", "", title.lower()).replace(" ", "-")


def table_of(rows: list[Row]) -> list[str]:
    """Return the lines of the table of all requirements, those that aren't met first."""
    lines = ["| Section | Requirement | Met |", "|---|---|---|"]
    for answer, shown in SHOWN.items():
        for row in (it for it in rows if it.answer == answer):
            parts = re.fullmatch(r"(.*?)(?: \(([\w., ]+)\))?", row.title)
            title, at = parts.groups() if parts else (row.title, "")
            section = f"{row.document} {at or ''}".strip()
            lines.append(f"| {section} | [{title}](#{anchor_of(row.title)}) | {shown} |")
    return lines


def table_at(lines: list[str]) -> tuple[int, int]:
    """Return where the page's table of all requirements begins and ends."""
    if TABLE not in lines:
        fail(1, f"there is no section {TABLE}")
    first = next(at for at in range(lines.index(TABLE), len(lines)) if lines[at].startswith("|"))
    last = next(at for at in range(first, len(lines)) if not lines[at].startswith("|"))
    return first, last


def summary(rows: list[Row]) -> str:
    """Return the sentence that counts the requirements."""
    of = {answer: [row for row in rows if row.answer == answer] for answer in SHOWN}
    held = of["yes"] + of["in part"]
    proved = [row for row in held if row.proved]
    return (
        f"Of {len(rows)} requirements, {len(of['yes'])} are met, {len(of['in part'])} are met in part and {len(of['no'])} aren't met. "
        f"{len(of['not offered'])} concern a function that the program doesn't offer, and {len(of['not software'])} don't concern software. Of those that are "
        f"met at least in part, {len(proved)} have a clause or theorem, and {len(held) - len(proved)} have only a test. "
        f"{sum(not row.steps for row in held)} of them can't be tried by a command of this page."
    )


class Conformity(Check):
    """The page, and what it names."""

    needs = (PROGRAM,)
    options = {"PROGRAM": "", "--table": ""}
    seconds = 15

    def setUp(self) -> None:
        self.lines = (TOP / PAGE).read_text(encoding="utf-8").splitlines()
        self.rows, self.left = rows_of(self.lines)
        for step in page.steps_of(str(TOP / PAGE)):
            next(row for row in reversed(self.rows) if row.line < step.line).steps.append(step)

    def test_table(self) -> None:
        first, last = table_at(self.lines)
        if given.get("table"):
            self.lines[first:last] = table_of(self.rows)
            (TOP / PAGE).write_text("\n".join(self.lines) + "\n", encoding="utf-8")
        else:
            found = self.lines[first:last]
            self.same("the table: checks/conformity --table", table_of(self.rows), found)

    def test_summary(self) -> None:
        text = re.sub(r"\s+", " ", " ".join(self.lines))
        self.holds(f"the page says: {summary(self.rows)}", summary(self.rows) in text)

    def test_pages(self) -> None:
        """Show that each page which is pointed to is there, and has the section that is named."""
        text = "\n".join(self.lines)
        for found in re.finditer(r"\]\((\w+\.md)\)(?:\s+\(([^)]*)\))?", text):
            line = text[: found.start()].count("\n") + 1
            why = links.page_missing(found[1], re.sub(r"\s+", " ", found[2] or ""))
            self.same(f"{PAGE}:{line}: {found[0]}", None, why)

    def test_rules(self) -> None:
        """Show that a row or an exception names each rule, and that no exception is needless."""
        rules = {rule for _, named in exceptions_in(PAGE, self.left) for rule in named.split("; ")}
        of_rows = {rule for row in self.rows for rule in row.rules}
        self.same("needless exceptions", set(), rules & of_rows | rules - {*links.rules()})
        self.same("rules that no row names", set(), {*links.rules()} - of_rows - rules)
        print(f"{len(links.rules())} rules, of which {len(rules)} are exceptions")

    def test_clauses(self) -> None:
        """Show that a row or an exception names each clause, and that no exception is needless."""
        lines = enumerate(links.read(CALLS).splitlines(), 1)
        calls = set()
        for _, named_calls in exceptions_in(CALLS, lines):
            crate, _, of_crate = named_calls.partition(":")
            calls |= {(crate.strip(" `"), it) for it in re.findall(r"`([^`]+)`", of_crate)}
        left = {*links.public_clauses()}
        for row in self.rows:
            for it in row.proved:
                left -= links.clauses_named(*it)
        self.same("needless exceptions", set(), calls - {it[:2] for it in left})
        self.same("clauses that no row names", set(), {it for it in left if it[:2] not in calls})
        print(f"{len(links.public_clauses())} clauses, of which {len(left)} are exceptions")

    def test_requirements(self) -> None:
        """Show that what each requirement names is there, and that its commands print what the page shows."""
        shell = page.shell_in(self.folder(), *named()[:1])
        self.addCleanup(shell.end)
        names = page.ports_of(PORTS)
        print("| requirement | links | ok |")
        for row in self.rows:
            with self.subTest(row.title):
                count = check_names(row)
                for step in row.steps:
                    is_exact = "weighbridge replay" in step.command
                    wanted, found = page.compared(step, shell, names, is_exact)
                    self.assertEqual(wanted, found, f"{PAGE}:{step.line}: {step.command}")
                print(f"| {row.title} | {count + len(row.steps)} | ok |", flush=True)
