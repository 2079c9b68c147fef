"""The page for screen readers and keyboards, by Chromium's accessibility tree (EN 301 549, WCAG 2.2 AA)."""

import time

from checks.lib.case import PROGRAM
from checks.lib.clerk import ESCAPE
from checks.lib.counter_case import AtThePage
from checks.lib.looks import FAINT_BORDERS

CONTROLS = {"button", "link", "textbox", "searchbox", "combobox", "checkbox", "listbox"}
REGIONS = {"region", "form", "navigation"}
OTHER = "[...document.querySelectorAll('#others button')].find(it => it.textContent.startsWith('{}')).click()"
# Each dialog with what opens it.
DIALOGS = {
    "entry": "document.querySelector('#today .menu').click()",
    "searching": "document.getElementById('find').click()",
    "taring": OTHER.format("Tare"),
    "giving": OTHER.format("Goods"),
    "changing": "document.querySelector('#site .menu').click();"
    " const found = setInterval(() => { const it = [...document.querySelectorAll('#entry[open] button')].find(it => it.textContent.startsWith('Goods'));"
    " if (it) { clearInterval(found); it.click(); } }, 50)",
    "keeping": "document.getElementById('tares').click()",
    "running": "document.getElementById('serial').click()",
}
MENU = "Text, print, withdraw"
SPEAK = "document.dispatchEvent(new KeyboardEvent('keydown', { key: 'w', code: 'KeyW', altKey: true, bubbles: true }))"


class Access(AtThePage):
    """The page with a vehicle on the bridge, and three entries in its lists."""

    needs = (PROGRAM, "aiohttp", "prometheus_client", "chromium", "chromedriver")
    seconds = 40

    def setUp(self) -> None:
        super().setUp()
        for key, plate in (("a-1", "AA-11"), ("a-2", "BB-22")):
            self.bridge.weigh_next(9170, key, "first", plate)
        self.bridge.ask("POST", "/voids", {"key": "a-3", "plate": "AA-11"})
        self.bridge.keep_tare("CC-33", 5000)
        self.becomes("the lists are there", "3", lambda: self.clerk.text("#today-count"))
        self.bridge.next_vehicle(9170)
        self.clerk.is_ready_for("DD-44")

    def tree(self) -> list[tuple[str, str]]:
        """Return role and name of each part that a screen reader finds, in their order."""
        nodes = self.clerk.browser.tool("Accessibility.getFullAXTree")["nodes"]
        return [
            (it["role"]["value"], it.get("name", {}).get("value", ""))
            for it in nodes
            if not it["ignored"]
        ]

    def has_names(self, what: str) -> list[tuple[str, str]]:
        """Show that each control has a name, and return the tree."""
        found = self.tree()
        nameless = [role for role, name in found if role in CONTROLS and not name.strip()]
        self.same(f"{what}: each control has a name", [], nameless)
        return found

    def test_names(self) -> None:
        found = self.has_names("the page")
        regions = {name for role, name in found if role in REGIONS}
        named = {"Weight", "Next step", "Weigh", "Zero, print, search", "On site 1", "Today 3"}
        self.same("its regions have names", named, {it.split(" ·")[0] for it in regions} - {""})
        self.same("no region is without one", False, "" in regions)
        headings = [name for role, name in found if role == "heading"]
        self.same("its headings", ["Kieswerk Wellum", "On site 1"], headings[:2])
        roles = [role for role, _ in found]
        what = "two lists, with a row for each vehicle on site and each entry of today"
        self.same(what, (2, 1 + 3), (roles.count("list"), roles.count("listitem")))
        buttons = [name for role, name in found if role == "button"]
        menus = sorted(it.partition(":")[0] for it in buttons if it.endswith(MENU))
        wanted = ["AA-11, Slip 1", "AA-11, Slip 3", "BB-22, Slip 2", "BB-22, Slip 2"]
        self.same("each row's menu names its plate and its slip", wanted, menus)
        for plate, is_withdrawn in (("AA-11", True), ("BB-22", False)):
            row = next(it for it in buttons if "weighing" in it and it.startswith(plate))
            what = f"a weighing that was withdrawn is named so: {plate}"
            self.same(what, is_withdrawn, row.endswith(", withdrawn"))
        self.clerk.run(SPEAK)
        first = self.clerk.content("#spoken")
        self.same("Alt and W read the weight aloud", "STABLE Gross 18,340 kg", first)
        self.clerk.run(SPEAK)
        again = self.clerk.content("#spoken")
        self.same("and again", (True, first), (again != first, again.strip()))
        is_followed = ("status", "") in self.tree()
        self.same("which is a part that screen readers follow", True, is_followed)

    def test_dialogs(self) -> None:
        for dialog, opens in DIALOGS.items():
            self.clerk.run(opens)
            self.becomes(f"{dialog} is open", 1, lambda: self.clerk.count(f"#{dialog}[open]"))
            time.sleep(0.3)
            found = self.has_names(dialog)
            names = [name for role, name in found if role == "dialog"]
            has_name = len(names) == 1 and names[0].strip()
            self.holds(f"{dialog}: the dialog has a name", has_name, names)
            has_heading = any(role == "heading" for role, _ in found)
            self.holds(f"{dialog}: and a heading", has_heading)
            self.same(f"{dialog}: borders of controls", [], self.clerk.run(FAINT_BORDERS))
            if dialog == "entry":
                lang = self.clerk.run("return document.getElementById('entry-text').lang")
                self.same("the legal text has its language", "en", lang)
            self.clerk.keys(ESCAPE)

    def test_borders(self) -> None:
        for theme in ("light", "dark"):
            self.clerk.run(f"document.documentElement.dataset.theme = '{theme}'")
            for plate, state in (("DD-44", "ready"), ("D D!", "no plate")):
                self.clerk.keys(ESCAPE + plate)
                time.sleep(0.3)
                what = f"{theme}, {state}: borders of controls are 3 to 1 at least"
                self.same(what, [], self.clerk.run(FAINT_BORDERS))
