"""Finds what a page names in this repository: rules of docs/rules.md, definitions, tests, traces, mutants, and clauses of public calls.

The public calls, and which of their clauses are promised, are those of the READMEs of the crates; what clauses a call has is in its source. It needs
only python3.
"""

import functools
import glob
import os
import re
from collections.abc import Iterable, Iterator
from dataclasses import dataclass

from checks import TOP
from checks.lib import traces

PLAIN = "the clause"
# A clause that is promised: its crate, the call with its type, and its name.
Clause = tuple[str, str, str]


def read(path: str) -> str:
    return (TOP / path).read_text(encoding="utf-8")


def paths(pattern: str) -> list[str]:
    return sorted(glob.glob(pattern, root_dir=TOP, recursive=True))


def page_missing(name: str, section: str) -> str | None:
    """Say why a page of docs/, or a section of it, isn't there. Return None if it is."""
    if not (TOP / "docs" / name).exists():
        return f"there is no page {name}"
    if section and section not in re.findall(r"(?m)^#+ (.*)$", read(f"docs/{name}")):
        return f"docs/{name} has no section {section}"
    return None


# Rules


@functools.cache
def rules() -> list[str]:
    """Return the places of docs/rules.md.

    They are the words in bold at the head of a paragraph or of a point, each with its section. The sections without any are places, too, and so are the
    rows of the tables of commands and of refusals.
    """
    found: list[str] = []
    section = lead = ""
    for line in read("docs/rules.md").splitlines():
        if heading := re.match(r"(##+) (.*)", line):
            section, lead = re.sub(r" \(own\)$", "", heading[2]), ""
            found += [section] if heading[1] == "###" else []
        elif bold := re.match(r"(?:- )?\*\*(.+?)\*\*", line):
            lead = bold[1]
            found.append(f"{section}, {lead}")
        elif lead == "Commands" and (command := re.match(r"\| `([^`]+)` \|", line)):
            found.append(f"{section}, {lead}, {command[1]}")
        elif refusal := re.match(r"\| (\d+) \| `(\w+)` \|", line):
            found.append(f"{section}, {refusal[1]} {refusal[2]}")
    return list(dict.fromkeys(found))


# Definitions, tests, traces and mutants


def definition_missing(name: str) -> str | None:
    crate, _, rest = name.partition(".")
    module, _, what = rest.rpartition(".")
    path = f"crates/{crate}/specs/{module.replace('.', '/')}.antt"
    if not what or not (TOP / path).exists():
        return f"no definitions are in {path}"
    begin = r"(?m)^ *(abbrev |unfoldable )?pub (record |data )?"
    if not re.search(rf"{begin}{re.escape(what)}[ :]", read(path)):
        return f"{path} has no definition {what}"
    return None


@functools.cache
def tests() -> set[str]:
    return {
        name
        for path in paths("crates/*/src/**/*.rt")
        for name in re.findall(r"#\[test\]\s+fn (\w+)", read(path))
    }


def test_missing(name: str) -> str | None:
    if name.startswith("checks/"):
        return None if os.access(TOP / name, os.X_OK) else f"there is no check {name}"
    is_trace = name in traces.names() or name in traces.folders()
    return None if is_trace or name in tests() else f"there is no test or trace {name}"


def wrong_body_missing(name: str) -> str | None:
    """Say why a mutant is gone, or can't be made any more: each line that it replaces must be there once. Return None if it can."""
    path = f"crates/{name}.edit"
    is_name = re.fullmatch(r"\w+/(must-fail|wrong-bodies)/\w+", name)
    if not is_name or not (TOP / path).exists():
        return f"there is no mutant {name}"
    text = of = ""
    for line in read(path).splitlines():
        if line.startswith("file: "):
            of = f"crates/{name.split('/')[0]}/{line[6:]}"
            if not (TOP / of).exists():
                return f"{path} is of {of}, which isn't there"
            text = read(of)
        elif line.startswith("old: "):
            if text.count(line[5:]) != 1:
                return f"{path} can't be made: what it replaces isn't once in {of}"
    return None if text else f"{path} names no file"


# Clauses


@dataclass(frozen=True)
class Call:
    """A function of a crate, with the type or trait that it belongs to, and its clauses."""

    owner: str | None
    name: str
    is_public: bool
    clauses: frozenset[str]

    @property
    def shown(self) -> str:
        return f"{self.owner}::{self.name}" if self.owner else self.name


def calls_of(text: str) -> Iterator[Call]:
    """Return the functions of a source."""
    owner: str | None = None
    is_trait = False
    lines = text.splitlines()
    for place, line in enumerate(lines):
        if line == "}":
            owner, is_trait = None, False
        elif block := re.match(r"(?:pub )?(impl|trait)\b(.*)", line):
            bare = block[2]
            while "<" in bare and bare != (less := re.sub(r"<[^<>]*>", "", bare)):
                bare = less
            owner = re.split(r"[\s:{]", bare.rpartition(" for ")[2].strip())[0]
            is_trait = block[1] == "trait"
        elif function := re.match(
            r' *(pub |pub\(crate\) )?(?:unsafe )?(?:extern "C" )?fn (\w+)', line
        ):
            named = re.findall(r"ensures\*? (\w+ )?\{", "\n".join(head_of(lines[place:])))
            clauses = frozenset(it.strip() or PLAIN for it in named)
            yield Call(owner, function[2], function[1] == "pub " or is_trait, clauses)


def head_of(lines: list[str]) -> Iterator[str]:
    """Return the lines of a function to the beginning of its body."""
    for line in lines:
        yield line
        has_clause = "ensures" in line or "requires" in line
        if re.search(r"(;|^ *\{|^\{\}|\{\})$", line) or line.endswith("{") and not has_clause:
            return


def theorems_of(text: str) -> Iterator[Call]:
    """Return the theorems of a crate, as calls with one clause, which is what they state."""
    for name in re.findall(r"(?m)^pub (law_of_\w+) :", text):
        yield Call(None, name, True, frozenset({PLAIN}))


@functools.cache
def calls() -> dict[str, list[Call]]:
    """Return the public functions and the theorems of each crate."""
    found: dict[str, list[Call]] = {}
    for pattern, read_from in (("src/**/*.rt", calls_of), ("proofs/Theorems.antt", theorems_of)):
        for path in paths(f"crates/*/{pattern}"):
            public = [it for it in read_from(read(path)) if it.is_public]
            found.setdefault(path.split("/")[1], []).extend(public)
    return found


def calls_named(crate: str, name: str) -> list[Call]:
    """Return the public functions of this name; `Type::name` has those of one type."""
    owner, _, bare = name.rpartition("::")
    of_crate = calls().get(crate, [])
    return [it for it in of_crate if it.name == bare and (not owner or it.owner == owner)]


@functools.cache
def words_of_specs(crate: str) -> set[str]:
    return {
        word
        for path in paths(f"crates/{crate}/specs/**/*.antt")
        for word in re.findall(r"\w+", read(path))
    }


def promised_rows() -> Iterator[tuple[list[str], str, str]]:
    """Return, of each row of a crate's README that names calls, the crates that its title names, the calls, and the clauses."""
    for path in paths("crates/*/README.md"):
        page = read(path)
        crates = re.findall(r"wb_\w+|weighbridge\w*", page.split("\n", 1)[0])
        is_table, named = False, ""
        for line in page.partition("\n## Promises\n")[2].partition("\n## ")[0].splitlines():
            if not line.startswith("|"):
                is_table = False
                continue
            cells = [it.strip() for it in line.strip("|").split("|")]
            if cells[0] in ("Call", "Law"):
                is_table, named = True, ""
            elif is_table and len(cells) == 3 and set(cells[0]) != {"-"}:
                named = cells[0] or named
                yield crates, named, cells[2]


def owners_of(crate: str, names: str) -> Iterator[str]:
    """Return the calls that a cell names. Only the first of them has the type, a type names all its calls, and a cell that names none is of all
    calls of the crate."""
    owner, of_crate = "", calls().get(crate, [])
    of = re.findall(r"`([\w:]+)`", names)
    if not of:
        yield from (it.shown for it in of_crate)
    for name in of:
        if any(it.owner == name for it in of_crate):
            yield from (it.shown for it in of_crate if it.owner == name)
        elif "::" in name:
            owner = name.split("::")[0]
            yield name
        elif owner and calls_named(crate, f"{owner}::{name}"):
            yield f"{owner}::{name}"
        else:
            yield name


@functools.cache
def public_clauses() -> frozenset[Clause]:
    """Return the clauses that the READMEs of the crates promise."""
    found: set[Clause] = set()
    for crates, names, cell in promised_rows():
        for crate in crates:
            clauses = set(re.findall(r"`([\w-]+)`", re.sub(r"\([^)]*\)|`\w+` of `\w+`", "", cell)))
            has_plain = "clause" in re.sub(r"`[^`]*`", "", cell)
            for call in (it for name in owners_of(crate, names) for it in calls_named(crate, name)):
                of_call = clauses & call.clauses
                if has_plain and PLAIN in call.clauses:
                    of_call.add(PLAIN)
                if call.clauses == {PLAIN} and "`" in names:
                    of_call = {PLAIN}
                elif "`" in names:
                    others = (clauses - call.clauses) & words_of_specs(crate)
                    of_call |= {it for it in others if is_only_a_part(crate, names, it)}
                found |= {(crate, call.shown, it) for it in of_call}
    return frozenset(found)


def is_only_a_part(crate: str, names: str, clause: str) -> bool:
    """Return whether no call of the cell has this clause, so that it is a part of a clause that a definition names."""
    named = [call for name in owners_of(crate, names) for call in calls_named(crate, name)]
    return not any(clause in call.clauses for call in named)


def clause_missing(crate: str, name: str, clauses: list[str]) -> str | None:
    """Say why the call, or one of these clauses of it, isn't promised or isn't in the source. Return None if all are."""
    owners = {it.shown for it in calls_named(crate, name)}
    if not owners:
        return f"{crate} has no public call {name}"
    if len(owners) > 1:
        return f"of {crate} {name} is any of {', '.join(sorted(owners))}"
    if not clauses_named(crate, name, []) and not clauses:
        return (
            f"{crate}: {name} has no clause without a name that its README lists: name its clauses"
        )
    for clause in clauses:
        if not clauses_named(crate, name, [clause]):
            return f"the README and the source have no clause {clause} of {crate}: {name}"
    return None


def clauses_named(crate: str, name: str, clauses: Iterable[str]) -> set[Clause]:
    """Return those of the public clauses that these are; with no name, the clause without one."""
    of = {it.shown for it in calls_named(crate, name)}
    wanted = {*clauses} or {PLAIN}
    return {it for it in public_clauses() if it[0] == crate and it[1] in of and it[2] in wanted}
