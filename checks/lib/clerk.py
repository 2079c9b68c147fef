"""A clerk at the counter's page, who has only a keyboard."""

import re
import shutil
import tempfile
from collections.abc import Callable
from contextlib import AbstractContextManager, nullcontext
from typing import Any

from checks.lib.bridge import HOST, Closing, free_port
from checks.lib.browser import Browser
from checks.lib.waiting import wait_until

ENTER, ESCAPE, TAB, SPACE = "\ue007", "\ue00c", "\ue004", " "
F1, F2, F3, F4, F6, F7, F8, F9, F10 = (chr(0xE030 + it) for it in (1, 2, 3, 4, 6, 7, 8, 9, 10))
TEN = 10 * ENTER


def at_of(port: int) -> str:
    return f"http://{HOST}:{port}"


class Clerk(Closing):
    """A clerk at the page. Parts of the page are named by CSS selectors."""

    def __init__(
        self,
        at: str,
        width: int = 1280,
        height: int = 800,
        is_dark: bool = False,
        lang: str = "en",
        case: Callable[[str], AbstractContextManager[object]] = nullcontext,
    ) -> None:
        """Open the page. `case` makes a case of each thing that the clerk sees."""
        self.at, self.case, self.folder = at, case, tempfile.mkdtemp(prefix="browser-")
        self.browser = Browser(free_port(), self.folder, width, height)
        self.browser.look(width, height, is_dark)
        self.load(lang)

    def load(self, lang: str = "en") -> None:
        self.browser.go(f"{self.at}/?lang={lang}")
        # a page that prints would wait for a dialog
        self.run(
            "window.papers = []; const text = it => document.querySelector(it)?.textContent ?? '';"
            "window.print = () => window.papers.push([text('#paper .mark'), text('#paper .whole')]);"
        )

    def run(self, script: str, *words: object) -> Any:
        return self.browser.run(script, *words)

    def run_later(self, script: str, *words: object) -> Any:
        """Run a script that calls the last of its arguments with what it found."""
        return self.browser.call("POST", "/execute/async", {"script": script, "args": [*words]})

    def intercept(self, function: str, *words: object) -> None:
        """Let the page fetch by this function of JavaScript. It gets the target, how to fetch it, and these words, and may call `realFetch`."""
        self.run(
            "window.realFetch ??= window.fetch; const words = [...arguments];"
            f"const hook = {function}; window.fetch = (target, how) => hook(target, how, ...words);",
            *words,
        )

    def intercept_nothing(self) -> None:
        self.run("window.fetch = window.realFetch")

    # ---- what is on the page

    def content(self, selector: str) -> str:
        """Return the text of the first part, even if it isn't shown."""
        return str(self.run("return document.querySelector(arguments[0]).textContent", selector))

    def contents(self, selector: str) -> list[str]:
        """Return the texts of all parts."""
        texts = "return [...document.querySelectorAll(arguments[0])].map(it => it.textContent)"
        return list(self.run(texts, selector))

    def count(self, selector: str) -> int:
        return int(self.run("return document.querySelectorAll(arguments[0]).length", selector))

    def text(self, selector: str) -> str:
        """Return the text of the first part as it is shown."""
        return self.browser.text(selector)

    def value(self, selector: str) -> str:
        return str(self.run("return document.querySelector(arguments[0]).value", selector))

    def words(self) -> str:
        """Return what the page asks the clerk to do now."""
        return self.content("#words")

    def more(self) -> str:
        """Return what is below it."""
        return self.content("#more")

    def sentence(self) -> list[str]:
        """Return both, read at once."""
        texts = "return ['words', 'more'].map(it => document.getElementById(it).textContent)"
        return list(self.run(texts))

    def kg(self) -> int | None:
        """Return the weight that is shown. It is None if there is none."""
        digits = re.sub(r"[^\d-]", "", self.content("#weight").replace("\u2212", "-"))
        return int(digits) if digits else None

    def plate(self) -> str:
        return self.value("#plate")

    def focus(self) -> str:
        focus = "return document.activeElement.id || document.activeElement.textContent"
        return str(self.run(focus))

    def is_ready(self) -> bool:
        """Return True if the clerk can press the weigh button for the plate in the field."""
        return bool(self.run("return document.getElementById('go').dataset.look === 'weighs'"))

    def answers(self) -> list[str]:
        """Return the answers to the page's question, with their keys."""
        return self.contents("#hint .answer")

    def button(self) -> str:
        """Return what the weigh button says."""
        return self.text("#go-words")

    def others(self) -> list[str]:
        """Return the other buttons of the form."""
        return self.contents("#others button")

    def kept(self) -> str | None:
        """Return the request that the page keeps until it is answered."""
        found: str | None = self.run("return localStorage.getItem('weighbridge.request')")
        return found

    def papers(self) -> list[list[str]]:
        """Return the mark and the legal text of each paper that was printed since the page was loaded."""
        return list(self.run("return window.papers"))

    def alarms(self) -> str:
        return self.content("#alarms")

    def sees(self, words: str, seconds: float = 15, what: str | None = None) -> None:
        """Wait until the page says so."""

        def is_said(found: str) -> bool:
            return words in found

        what = what or f"the clerk sees: {words}"
        with self.case(what):
            wait_until(what, self.words, is_said, seconds)

    # ---- what the clerk does

    def keys(self, text: str) -> None:
        self.browser.keys(text)

    def sees_after(
        self, keys: str, words: str, seconds: float = 15, what: str | None = None
    ) -> None:
        """Press these keys, and wait until the page says so."""
        self.keys(keys)
        self.sees(words, seconds, what)

    def is_ready_for(self, plate: str, what: str | None = None) -> None:
        """Type a plate into the empty form, and see that the page is ready to weigh it."""
        self.sees_after(ESCAPE + plate, "Ready.", what=what)

    def weigh(self, plate: str, words: str) -> None:
        """Weigh the vehicle on the bridge by Enter, and see what the page says of it."""
        self.is_ready_for(plate)
        self.sees_after(ENTER, words)

    def tab_to(self, words: str, most: int) -> None:
        """Press Tab until the focus is on what begins so, but not more often than `most`."""
        for _ in range(most):
            if self.focus().startswith(words):
                break
            self.keys(TAB)

    def press(self, selector: str, words: str) -> None:
        """Click on the first part whose text begins so."""
        self.run(
            "[...document.querySelectorAll(arguments[0])].find(it => it.textContent.startsWith(arguments[1])).click()",
            selector,
            words,
        )

    def speak(self, lang: str) -> None:
        """Choose another language at the page."""
        self.run(
            "const it = document.getElementById('language'); it.value = arguments[0]; it.dispatchEvent(new Event('change'));",
            lang,
        )

    def choose(self) -> bool:
        """Press the first of the choices, if there is one."""
        press = "const it = document.querySelector('#choices button'); if (it) it.click(); return it !== null"
        return bool(self.run(press))

    def close(self) -> None:
        self.browser.close()
        shutil.rmtree(self.folder, ignore_errors=True)
