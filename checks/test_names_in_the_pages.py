"""Shows that each file, function, test, definition, mutant and link that the pages name exists, and that three pages say
that nothing is type-approved. README.md has at most 1,100 words.

Each relative link of a page leads to a file, and each anchor to a heading of that page. If the program, its package or
a page says `see PAGE.md, SECTION`, docs/PAGE.md has that heading. It also compares the table of docs/checks.md with the
heads of the checks, and the diagrams with those that tools/diagrams draws.
"""
import functools
import glob
import os
import re
import subprocess
from collections.abc import Iterator

from checks import TOP
from checks.lib.case import Check

CODE = tuple(".rt .antt .edit .py .text .sh .html .txt .conf .service .sql".split())
# Names of the kit and of HTTP that the pages use.
OTHERS = {
    "read_to_end",
    "application/x-www-form-urlencoded",
    "application/json",
    "text/plain",
    "crates/NAME/README.md",
}


def read(path: str) -> str:
    with open(os.path.join(TOP, path), encoding="utf-8") as file:
        return file.read()


def files() -> list[str]:
    found = []
    for folder, folders, names in os.walk(TOP):
        folders[:] = [name for name in folders if name not in (".git", "out", "__pycache__")]
        found += [os.path.relpath(os.path.join(folder, name), TOP) for name in names]
    return found


FILES = files()
WORDS = {
    word
    for path in FILES
    if path.endswith(CODE)
    or path.startswith(("checks/", "clients/", "inspect/", "library/", "packaging/", "bench/"))
    and not path.endswith(".gz")
    for word in re.findall(r"[\w-]+", read(path))
}


def endings() -> set[str]:
    """Return what a name of a file may be: each end of a path, with or without its ending, and each run of its folders."""
    found = set()
    for path in FILES:
        parts = path.split("/")
        ends = [
            path,
            *(
                path.removesuffix(it)
                for it in (".rt", ".antt", ".edit", ".trace")
                if path.endswith(it)
            ),
        ]
        found |= {"/".join(end.split("/")[at:]) for end in ends for at in range(len(parts))}
        found |= {
            "/".join(parts[at:to]) for at in range(len(parts)) for to in range(at + 1, len(parts))
        }
    return found


ENDINGS = endings()


def is_file(name: str) -> bool:
    """Return whether a path ends in the name, with or without its ending, or has it as a folder."""
    return name.rstrip("/") in ENDINGS


def is_there(name: str) -> bool:
    return (
        name in OTHERS or is_file(name) or all(part in WORDS for part in re.split(r"::|\.", name))
    )


def names_in(text: str, is_table: bool) -> Iterator[str]:
    for name in re.findall(r"`([^`\n]+)`", text):
        if not re.match(r"[A-Za-z_.][\w/.:-]*$", name) or name.isupper() or "://" in name:
            continue
        if is_table or re.search(r"_|/|[a-z][A-Z]", name):
            yield name


def sections_in(line: str) -> Iterator[tuple[str, str]]:
    for page, sections in re.findall(r"`(docs/[a-z]+\.md)` \(([^)]*)\)", line):
        for section in re.split(r", (?=[A-Zw])|; ", sections):
            if "`" not in section and not section.startswith("with "):
                yield page, section


def paragraphs(page: str) -> list[str]:
    """Return the paragraphs of a page, each on one line."""
    return [" ".join(it.split()) for it in re.split(r"\n\s*\n", read(page))]


def unsaid() -> Iterator[str]:
    """Find the pages whose second paragraph doesn't say that this isn't type-approved, with the counts of docs/conformity.md."""
    table = read("docs/conformity.md").partition("## All requirements")[2].partition("\n## ")[0]
    shown = re.findall(r"(?m)^\|.*\| ([\w' *]+) \|$", table)[1:]
    every, met, partly, unmet = (
        len(shown),
        *(shown.count(it) for it in ("met", "in part", "**not met**")),
    )
    other = every - met - partly - unmet
    said = f" lists {every} requirements of OIML R 76-1 and WELMEC 7.2: {met} are met, {partly} partly met, {unmet} not met, and {other} don't apply to it."
    for page in ("README.md", "docs/operating.md", "docs/counter.md"):
        # below the title and the first paragraph
        third = paragraphs(page)[2]
        if not (
            third.startswith("**Not type-approved.** Only its authors")
            and "the whole instrument needs the approval and the verification" in third
            and third.endswith(said)
        ):
            yield f"{page}: it doesn't say below its first paragraph that this isn't type-approved, with{said}"


def prose(text: str) -> str:
    """Return a page's text without its blocks of code and code spans, with as many lines."""
    text = re.sub(r"(?ms)^ *```.*?^ *```", lambda it: "\n" * it[0].count("\n"), text)
    text = re.sub(r"(?m)(?<=\n\n)(?: {4}.*\n)+", lambda it: "\n" * it[0].count("\n"), text)
    return re.sub(r"`[^`\n]+`", lambda it: "x" * len(it[0]), text)


def headings(page: str) -> list[str]:
    """Return the headings of a page, without their marks."""
    text = re.sub(r"(?ms)^ *```.*?^ *```", "", read(page))
    return [
        re.sub(r"\[([^\]]*)\]\([^)]*\)|[`*]", r"\1", it)
        for it in re.findall(r"(?m)^#+ (.*)$", text)
    ]


@functools.cache
def anchors(page: str) -> set[str]:
    """Return the anchors of a page's headings, as GitHub and most readers of Markdown make them."""
    found: set[str] = set()
    for heading in headings(page):
        anchor = re.sub(r"[^\w\- ]", "", heading.lower()).strip().replace(" ", "-")
        number = next(it for it in range(999) if (f"{anchor}-{it}" if it else anchor) not in found)
        found.add(f"{anchor}-{number}" if number else anchor)
    return found


def dead_links(path: str) -> tuple[int, list[str]]:
    """Find the relative links of a page that lead to no file, or to no heading. Return how many links there are, and a line for each dead one."""
    count, dead, text = 0, [], prose(read(path))
    for link in re.finditer(r"\[[^\]]*\]\((?!\w+:)([^)\s]*)\)", text):
        count += 1
        target, _, anchor = link[1].partition("#")
        page = os.path.normpath(os.path.join(os.path.dirname(path), target)) if target else path
        where = f"{path}:{text[: link.start()].count(chr(10)) + 1}"
        if not os.path.exists(os.path.join(TOP, page)):
            dead.append(f"{where}: a link to {target}, which isn't there")
        elif anchor and anchor not in anchors(page):
            dead.append(f"{where}: a link to {page}, which has no heading #{anchor}")
    return count, dead


def dead_messages(path: str) -> tuple[int, list[str]]:
    """Find what says `see PAGE.md, SECTION` of a section that docs/PAGE.md hasn't; the number of a step may be left out. Return how many there are,
    and a line for each such one.
    """
    count, dead, text = 0, [], read(path)
    for said in re.finditer(r"\bsee ([a-z_]+\.md), ([A-Z][^\"`;\n]*)", text):
        count += 1
        page = f"docs/{said[1]}"
        sections = [re.sub(r"^\d+\. ", "", it) for it in headings(page)] if is_file(page) else []
        if said[2].strip() not in sections:
            line = text[: said.start()].count("\n") + 1
            dead.append(f"{path}:{line}: {said[0]}, which isn't there")
    return count, dead


PAGES = sorted(it for it in FILES if it.endswith(".md") and not it.startswith("checks/data/"))
SAYING = sorted(
    it
    for it in FILES
    if it.endswith((".rt", ".md")) or it.startswith("packaging/") or it == "weighbridge"
)
NAMING = [
    *sorted(glob.glob("docs/*.md", root_dir=TOP)),
    *sorted(glob.glob("crates/*/README.md", root_dir=TOP)),
    "README.md",
]


class NamesInThePages(Check):
    """Links, messages that point to a page, names, and what is made of other files."""

    def test_approval(self) -> None:
        self.assertEqual([], [*unsaid()])

    def test_lengths(self) -> None:
        """Show that the first page is short, and that what pages say of the verifier's length is about so."""
        words = len(read("README.md").split())
        self.holds("README.md has at most 1,100 words", words <= 1100, words)
        length = read("inspect/verify.py").count("\n")
        for page in ("README.md", "docs/inspection.md"):
            said = re.findall(r"(?:one|a) Python script of ([0-9]+) lines", read(page))
            self.holds(
                f"{page} has the length of verify.py",
                len(said) == 1 and abs(int(said[0]) - length) <= 50,
                (said, length),
            )

    def test_links(self) -> None:
        found = [dead_links(it) for it in PAGES]
        count = sum(it for it, _ in found)
        self.holds("there are links", count > 500, count)
        self.assertEqual([], [line for _, dead in found for line in dead])

    def test_messages(self) -> None:
        found = [dead_messages(it) for it in SAYING]
        count = sum(it for it, _ in found)
        self.holds("there are messages", count > 10, count)
        self.assertEqual([], [line for _, dead in found for line in dead])

    def test_names(self) -> None:
        count, missing = 0, []
        for path in NAMING:
            text = re.sub(r"(?ms)^ *```.*?^ *```", "", read(path))
            is_table = path == "docs/changing.md"
            for name in names_in(text, is_table):
                count += 1
                if not is_there(name):
                    missing.append(f"{path}: {name}")
            for page, section in sections_in(re.sub(r"\s*\n\s+", " ", text if is_table else "")):
                if not any(section in it for it in re.findall(r"(?m)^#+ (.*)$", read(page))):
                    missing.append(f"{path}: {page} has no section {section}")
        self.holds("there are names", count > 1000, count)
        self.assertEqual([], missing)

    def test_what_is_made_of_other_files(self) -> None:
        for name in ("list_checks", "diagrams"):
            ran = subprocess.run([str(TOP / "tools" / name), "--check"])
            self.same(f"tools/{name}", 0, ran.returncode)
