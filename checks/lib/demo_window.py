"""A window of a browser at a page of the demo."""

import shutil
import tempfile
from typing import Any

from checks.lib.bridge import Closing, free_port
from checks.lib.browser import Browser
from checks.lib.demoing import WEIGHS_AFTER
from checks.lib.waiting import wait_until


def has_settled(state: Any) -> bool:
    """Return True if a vehicle has stood on the bridge for long enough to be weighed."""
    return bool(state["phase"] == "stands" and state["seconds"] >= WEIGHS_AFTER)


class Window(Closing):
    """The page of the played bridge or the clerk's. Its parts are named by their id."""

    def __init__(
        self, at: str, lang: str = "en", width: int = 1280, height: int = 800, is_dark: bool = False
    ) -> None:
        self.folder = tempfile.mkdtemp(prefix="browser-")
        self.browser = Browser(free_port(), self.folder, width, height)
        self.browser.look(width, height, is_dark)
        self.browser.go(f"{at}?lang={lang}")

    def text(self, part: str) -> str:
        text = "return document.getElementById(arguments[0])?.textContent ?? ''"
        return str(self.browser.run(text, part))

    def press(self, part: str) -> None:
        """Press a button once it can be pressed. It stays as it is for a fifth of a second after a change."""
        wait_until(f"{part} can be pressed", lambda: not self.is_off(part))
        self.press_at_once(part)

    def press_at_once(self, part: str) -> None:
        self.browser.run("document.getElementById(arguments[0]).click()", part)

    def is_off(self, part: str) -> bool:
        is_off = "return document.getElementById(arguments[0]).disabled"
        return bool(self.browser.run(is_off, part))

    def close(self) -> None:
        self.browser.close()
        shutil.rmtree(self.folder, ignore_errors=True)
