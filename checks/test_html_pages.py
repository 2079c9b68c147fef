"""Shows that in the documentation as HTML pages no link is dead, every page can be reached, and no mark-up is left over.
The search finds words without a server, and a table of the clerk's page fits a telephone.
"""

import html.parser
import os
import re
import subprocess
import sys
import tempfile
from pathlib import Path
from typing import Any, ClassVar
from urllib.parse import unquote

from checks import TOP
from checks.lib.bridge import free_port
from checks.lib.browser import Browser
from checks.lib.case import Check, skip_without
from checks.lib.showing import same

# Addresses of others that the pages may name: the theme's authors, the licence of structured data, and this machine.
OUTSIDE = re.compile(
    r"https://(?:www\.mkdocs\.org|readthedocs\.org|github\.com/readthedocs/)|http://schema\.org/|http://127\.0\.0\.1|mailto:"
)
# Markdown that mkdocs didn't understand and left as it was: a list, a table, a fence or a link.
LEFT_OVER = re.compile(r"(?m)^(?:- |\d+\. )\S|^\|.*\|$|^ *```|\]\([\w./#-]+\)")
# The elements whose text may look like mark-up.
APART = ("code", "pre", "script", "style", "h1", "h2", "h3", "h4", "li", "a", "title")
# A query, and the page that must be among its results.
QUERIES = [
    ("not_cleared", "rules.html"),
    ("retention days", "operating.html"),
    ("witness newest", "formats.html"),
]

# The results of a search, and the pages that they lead to, for a browser.
RESULTS = "document.getElementById('mkdocs-search-results')"
FOUND = f"return [...{RESULTS}.querySelectorAll('a')].map((it) => it.href)"


HAS_TABLES = "return document.querySelectorAll('.wy-table-responsive table').length > 0"
# The width of the page, and the first words of each table that is wider than its place.
WIDE = """return [window.innerWidth, ...[...document.querySelectorAll('table')]
    .filter(it => it.scrollWidth > it.clientWidth + 1)
    .map(it => it.textContent.trim().slice(0, 40))]"""


class Page(html.parser.HTMLParser):
    """The links, the anchors and the text of an HTML page, without its code."""

    def __init__(self, path: str) -> None:
        super().__init__()
        self.links: list[str] = []
        self.anchors: set[str] = set()
        self.parts: list[str] = []
        self.inside = 0
        self.feed(Path(path).read_text(encoding="utf-8"))

    def handle_starttag(self, tag: str, attrs: list[tuple[str, str | None]]) -> None:
        named = {name: value or "" for name, value in attrs}
        self.inside += tag in APART
        self.links += [named[it] for it in ("href", "src") if it in named]
        self.anchors |= {named[it] for it in ("id", "name") if it in named}

    def handle_endtag(self, tag: str) -> None:
        self.inside -= tag in APART

    def handle_data(self, data: str) -> None:
        if not self.inside:
            self.parts.append(data)


def show_links(folder: str, pages: dict[str, Page]) -> None:
    """Follow every link from the first page on."""
    dead, left, reached = [], ["index.html"], {"index.html"}
    while left:
        path = left.pop()
        for link in pages[path].links:
            target, _, anchor = link.partition("#")
            if re.match(r"[a-z]+:|//", link):
                if not OUTSIDE.match(link):
                    dead.append(f"{path}: {link} is outside")
                continue
            named = os.path.normpath(os.path.join(os.path.dirname(path), unquote(target)))
            to = named if target else path
            if not os.path.exists(f"{folder}/{to}"):
                dead.append(f"{path}: {link}")
            elif to in pages and anchor and unquote(anchor) not in pages[to].anchors:
                dead.append(f"{path}: {link} has no such anchor")
            if to in pages and to not in reached:
                reached.add(to)
                left.append(to)
    same("no link is dead, and none leads outside", [], dead[:10])
    same("each page can be reached", [], sorted({*pages} - reached - {"404.html", "search.html"}))


def show_contents(pages: dict[str, Page]) -> None:
    """Show that each page of docs/ is there, without mark-up that is left over."""
    wanted = {it.removesuffix(".md") for it in os.listdir(TOP / "docs") if it.endswith(".md")}
    there = {it.removesuffix(".html") for it in pages}
    same("each page of docs/ is there", [], sorted(wanted - there))
    found = {path: LEFT_OVER.findall("".join(page.parts))[:3] for path, page in pages.items()}
    same("no mark-up is left over", {}, {path: it for path, it in found.items() if it})


class HtmlPages(Check):
    """The pages that packaging/html makes, as files and in a browser."""

    needs = ("mkdocs",)
    seconds = 30
    site: ClassVar[str]
    pages: ClassVar[dict[str, Page]]

    @classmethod
    def setUpClass(cls) -> None:
        super().setUpClass()
        cls.site = f"{cls.enterClassContext(tempfile.TemporaryDirectory())}/site"
        words = [sys.executable, str(TOP / "packaging" / "html"), cls.site]
        made = subprocess.run(words, capture_output=True, text=True)
        same("the pages are made", (0, ""), (made.returncode, made.stderr[-2000:]))
        cls.pages = {
            os.path.relpath(f"{at}/{name}", cls.site): Page(f"{at}/{name}")
            for at, _, names in os.walk(cls.site)
            for name in names
            if name.endswith(".html")
        }

    def browser(self, width: int) -> Any:
        browser = Browser(free_port(), self.folder(), width, 900)
        self.addCleanup(browser.close)
        return browser

    def test_contents(self) -> None:
        show_contents(self.pages)

    def test_links(self) -> None:
        show_links(self.site, self.pages)

    @skip_without("tsc")
    def test_types_of_the_search(self) -> None:
        words = "--checkJs --allowJs --noEmit --strict --target es2022 --lib es2022,dom"
        script = str(TOP / "packaging" / "doc" / "search.js")
        ran = subprocess.run(["tsc", *words.split(), script], capture_output=True, text=True)
        self.assertEqual((0, ""), (ran.returncode, ran.stdout))

    @skip_without("chromium", "chromedriver")
    def test_search(self) -> None:
        """Search the pages in a browser that opened them as files."""
        browser = self.browser(1280)
        for query, page in QUERIES:
            browser.go(f"file://{self.site}/search.html?q={query.replace(' ', '+')}")
            what = f"the search for {query} finds {page}"
            self.comes(what, lambda: any(f"/{page}" in it for it in browser.run(FOUND)))
        browser.go(f"file://{self.site}/search.html?q=nosuchwordatall")
        none, said = "No page has all of these words.", f"return {RESULTS}.textContent.trim()"
        self.becomes("the search for a word of no page", none, lambda: browser.run(said))

    @skip_without("chromium", "chromedriver")
    def test_narrow_screen(self) -> None:
        """Open the clerk's pages as on a telephone: no table is wider than the screen."""
        browser = self.browser(360)
        for page in ("clerk.html", "till.html"):
            browser.go(f"file://{self.site}/{page}")
            browser.look(360, 900)
            self.becomes(f"{page} has its tables", True, lambda: browser.run(HAS_TABLES))
            wide = browser.run(WIDE)
            self.same(f"{page}: the tables that are wider than 360 pixels", [360], wide)
