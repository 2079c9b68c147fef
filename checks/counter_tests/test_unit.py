"""The tests that the counter's packages have in their own folder, on a clock of their own."""

import subprocess

from checks.lib import case
from checks.lib.case import Check

from checks import TOP


STRICT = (
    "--allowJs --checkJs --noEmit --strict --target es2022 --module es2022 --moduleResolution node"
)
# The scripts of a page, and the shapes that their comments name.
SCRIPTS = (("web", "page.d.ts"), ("weighbridge_demo/web", "demo.d.ts"))


class Unit(Check):
    """Tests that need no built program."""

    needs = ("aiohttp", "prometheus_client")
    seconds = 60

    def test_unit(self) -> None:
        self.passes_unittest("counter")

    @case.skip_without("node")
    def test_what_the_page_decides(self) -> None:
        words = ["node", "--test", str(TOP / "counter" / "tests" / "page.test.js")]
        it = subprocess.run(words, capture_output=True, text=True)
        lines = it.stdout.split("\n")
        said = [it for it in lines if it.startswith(("not ok", "# pass", "# fail"))]
        self.holds(
            "what the page decides, by node",
            it.returncode == 0 and "# fail 0" in said and "# pass 0" not in said,
            "; ".join(said) or it.stderr[-2000:],
        )

    @case.skip_without("tsc")
    def test_types_of_the_scripts(self) -> None:
        for folder, shapes in SCRIPTS:
            scripts = sorted(map(str, (TOP / "counter" / folder).glob("*.js")))
            words = ["tsc", *STRICT.split(), "--lib", "dom,dom.iterable,es2022"]
            it = subprocess.run(
                [*words, str(TOP / "counter" / shapes), *scripts], capture_output=True, text=True
            )
            self.same(f"types of counter/{folder}, by tsc", (0, ""), (it.returncode, it.stdout))
