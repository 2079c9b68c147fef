"""The day's page: at 5, 50 and 200 bridges, in a browser, with findings, and with records that look like HTML."""

import re

from checks.lib.browser import Browser
from checks.lib.case import skip_without
from checks.lib.head_office import DAY, OfficeCheck, written
from checks.lib.ports import free_port

SECONDS = 3  # in which a page is made
SET_ASIDE = "SELECT head_office.set_aside(max(journal), {1}, {1}, '{2}') FROM head_office.journal WHERE bridge = '{0}'"


class Pages(OfficeCheck):
    """Pages of many bridges, and of findings."""

    needs = ("PostgreSQL", "sqitch")
    seconds = 35
    alone = True

    def tearDown(self) -> None:
        """Compute the sums of days again, because `fill` made them up."""
        self.office.owner("SELECT head_office.rebuild_sums(bridge) FROM head_office.bridge")
        super().tearDown()

    def fill(self, count: int) -> str:
        """Register this many bridges with a month of totals, and return the page."""
        self.office.owner(
            f"INSERT INTO head_office.bridge (bridge, retention_days) SELECT 'B' || g, 90 FROM generate_series(1, {count}) g ON CONFLICT DO NOTHING",
            "INSERT INTO head_office.journal (bridge) SELECT bridge FROM head_office.bridge WHERE bridge NOT IN (SELECT bridge FROM head_office.journal)",
            "INSERT INTO head_office.load (journal, records, added, findings, new_findings) SELECT journal, 0, 0, 0, 0 FROM head_office.journal",
            "UPDATE head_office.standing SET whole_at = now()",
            "INSERT INTO head_office.day_sum SELECT current_date - d, bridge, 100, 1234567, 1000000 + d * 1000 * length(bridge), 1, 2, 3 FROM head_office.bridge, generate_series(1, 30) d ON CONFLICT DO NOTHING",
        )
        return self.office.page()

    def find(self) -> str:
        """Load a journal with two findings, set an entry aside, and return the page."""
        office = self.office
        book = office.book("FOUND", 30, age=DAY)
        office.load("FOUND", office.export(book, 25))
        book.change(20, gross=9_000).chain(20)
        office.load("FOUND", book.change(3, key="OTHER"))
        office.told(SET_ASIDE.format("FOUND", 4, "<i>" + "false " * 150))
        return office.page()

    def test_many_bridges(self) -> None:
        for count in (5, 50, 200):
            page = self.fill(count)
            took = self.cluster.took
            names = re.findall(r"<strong>(B\d+)</strong>", page)
            what = f"a page of {count} bridges has a small plot of each, in natural order"
            self.same(what, [f"B{n}" for n in range(1, count + 1)], names)
            rows = re.findall(r"<tr><td>(B\d+)</td><td class=\"n\">100</td>", page)
            self.same("  and their totals", names, rows)
            what = f"  and is made in less than {SECONDS} seconds"
            self.holds(what, page.endswith("</html>\n") and took < SECONDS, took)
        is_so = '<td class="n">1,234,567</td>' in page and ">246,913,400</td>" in page
        self.holds("thousands are apart", is_so)
        heading = r"<h2>Now, \d{4}-\d\d-\d\d \d\d:\d\d \w+</h2>\n<h3>Findings that nobody has acknowledged</h3>\n<p>none</p>"
        is_so = page.count("<p>none</p>") == 4 and bool(re.search(heading, page))
        what = "nothing is shown as none, and what is of now is under a heading that says so"
        self.holds(what, is_so, page[2000:3000])

    def test_findings(self) -> None:
        page = self.find()
        short = r'<span title="([0-9a-f]{8})([0-9a-f]{56})">\1…</span>'
        is_short = re.search(short, page) and not re.search(r">[^<]*[0-9a-f]{64}", page)
        what = "a digest is shortened, with the whole in a title"
        self.holds(what, is_short, page)
        found = re.findall(r"<dt>(.*?)</dt>", page)
        kinds = set(re.findall(r'<td title="[^"]*">([a-z ]+)</td>', page))
        is_once = found and len(set(found)) == len(found) and kinds <= set(found)
        corrected = re.search(r"<h3>Corrections of the last week</h3>.*", page)
        what = "the page has the correction, with its reason as a text"
        is_so = (
            corrected
            and '<td>FOUND</td><td class="n">1 of 4</td><td>set aside</td><td>registers</td>'
            in corrected[0]
        )
        self.holds(what, is_so and "&lt;i&gt;false false" in page and "<i>" not in page, page)
        what = "the page says once what to do about each kind of finding"
        self.holds(what, is_once, (found, kinds))

    @skip_without("chromium", "chromedriver")
    def test_widths(self) -> None:
        """Show each page on a phone and on a screen: nothing but a table of its own scrolls sideways."""
        pages, folder = {"findings": self.find(), "200 bridges": self.fill(200)}, self.folder()
        browser = Browser(free_port(), folder, 1280, 900)
        self.addCleanup(browser.close)
        for name, page in pages.items():
            path = written(f"{folder}/page.html", [page])
            for width in (360, 1280):
                browser.look(width, 900)
                browser.go(f"file://{path}")
                wide = browser.run("return document.documentElement.scrollWidth")
                what = f"the page of {name} is no wider than {width} pixels"
                self.holds(what, wide <= width, wide)

    def test_report(self) -> None:
        """Write the page of a day with tickets, a vehicle on site, a silent bridge, and records that look like HTML and SQL."""
        office = self.office
        book = office.book("LIVE", 30, age=2 * DAY).add("first", "LIVE-1")
        office.load("LIVE", office.export(book))
        for number, digest in ((2, "<b>"), (5, "');drop table head_office.entry;--")):
            book.change(number, digest=digest)
        office.load("LIVE", book.add("single", "F-1", 60_200))
        office.register("NEVER")
        day = office.reads("SELECT max(day) FROM head_office.day_total")
        status, page = office.run("report", day)
        self.same("the day's page is written", 0, status)
        net = office.reads(f"SELECT sum(net_kg) FROM head_office.day_total WHERE day = '{day}'")
        self.holds("it has the total of the day", f">{int(net):,}</td>" in page, page[:2000])
        parts = ("LIVE-1", "keep the bridge", "fallen silent", "<svg")
        what = "vehicles on site, findings with what to do, silent bridges, and a plot"
        self.same(what, [], [it for it in parts if it not in page])
        is_text = "<b>" not in page and "&lt;b&gt;" in page
        is_text = is_text and "drop table head_office.entry" in page
        self.holds("no record is taken for HTML", is_text)
        for what, word in (
            ("a day that there isn't is refused", "2026-13-45"),
            ("another word than a day is refused", "today'"),
        ):
            self.same(what, 2, office.run("report", word)[0])
        status, page = office.run("report", "2001-01-01")
        is_none = status == 0 and "<h3>Totals</h3>\n<p>none</p>" in page
        self.holds("a day without tickets has a page too", is_none, page)
