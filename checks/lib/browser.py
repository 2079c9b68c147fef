"""A headless Chromium, driven by chromedriver over WebDriver. It needs both, and nothing else of Python's."""

import base64
import json
import os
import signal
import subprocess
import time
import urllib.request
from contextlib import suppress
from typing import Any

from checks.lib.bridge import wait_until_listening

ELEMENT = "element-6066-11e4-a52e-4f735466cecf"


class Browser:
    """One window. Parts of a page are named by CSS selectors."""

    def __init__(self, port: int, folder: str, width: int, height: int) -> None:
        self.at, self.folder = f"http://127.0.0.1:{port}", folder
        quiet = subprocess.DEVNULL
        self.driver = subprocess.Popen(
            ["chromedriver", f"--port={port}", f"--log-path={folder}/chromedriver.log"],
            stdin=quiet,
            stdout=quiet,
            stderr=quiet,
            start_new_session=True,
        )
        wait_until_listening(port, self.driver)
        words = ["--headless=new", "--no-sandbox", "--disable-gpu", "--disable-dev-shm-usage"]
        words += [f"--window-size={width},{height}", f"--user-data-dir={folder}/profile"]
        wanted = {"browserName": "chrome", "acceptInsecureCerts": True}
        wanted["goog:chromeOptions"] = {"args": words}
        found = self.call("POST", "/session", {"capabilities": {"alwaysMatch": wanted}})
        self.at += f"/session/{found['sessionId']}"

    def call(self, method: str, path: str, body: object = None) -> Any:
        data = None if body is None else json.dumps(body).encode()
        request = urllib.request.Request(
            self.at + path, data, {"Content-Type": "application/json"}, method=method
        )
        with urllib.request.urlopen(request, timeout=60) as answer:
            return json.load(answer)["value"]

    def go(self, url: str) -> None:
        self.call("POST", "/url", {"url": url})

    def reload(self) -> None:
        self.call("POST", "/refresh", {})

    def element(self, selector: str) -> str:
        found = self.call("POST", "/element", {"using": "css selector", "value": selector})
        return str(found[ELEMENT])

    def click(self, selector: str) -> None:
        self.call("POST", f"/element/{self.element(selector)}/click", {})

    def type(self, selector: str, text: str) -> None:
        element = self.element(selector)
        self.call("POST", f"/element/{element}/clear", {})
        self.call("POST", f"/element/{element}/value", {"text": text})

    def text(self, selector: str) -> str:
        return str(self.call("GET", f"/element/{self.element(selector)}/text"))

    def run(self, script: str, *words: object) -> Any:
        return self.call("POST", "/execute/sync", {"script": script, "args": list(words)})

    def accept_question(self) -> str:
        """Agrees to the question that the page asks, and gives its text."""
        text: str = self.call("GET", "/alert/text")
        self.call("POST", "/alert/accept", {})
        return text

    def tool(self, command: str, **parameters: object) -> Any:
        """Call a command of the browser's tools for developers, and return its result."""
        return self.call("POST", "/goog/cdp/execute", {"cmd": command, "params": parameters})

    def shown_as(self, medium: str) -> None:
        """Shows the page as on this medium, `print` or `screen`."""
        self.tool("Emulation.setEmulatedMedia", media=medium)

    def look(self, width: int, height: int, is_dark: bool = False) -> None:
        """Shows the page in this size, light or dark."""
        size = {"width": width, "height": height, "deviceScaleFactor": 1, "mobile": False}
        self.tool("Emulation.setDeviceMetricsOverride", **size)
        light = {"name": "prefers-color-scheme", "value": "dark" if is_dark else "light"}
        self.tool("Emulation.setEmulatedMedia", features=[light])

    def keys(self, text: str) -> None:
        """Types where the focus is. Keys with a name are of WebDriver's private letters."""
        self.press(text, [])

    def key_event(self, name: str, is_down: bool = True, is_repeat: bool = False) -> None:
        """Send one event of the key `Enter`, `Escape` or `F1` to `F12`, as the system sends it.

        While a key is held, the system sends its event again and again, with `is_repeat`.
        """
        codes = {"Enter": 13, "Escape": 27} | {f"F{it}": 111 + it for it in range(1, 13)}
        text = {"text": "\r"} if name == "Enter" and is_down else {}
        kind = "keyUp" if not is_down else "keyDown" if text else "rawKeyDown"
        self.tool(
            "Input.dispatchKeyEvent",
            type=kind,
            code=name,
            key=name,
            windowsVirtualKeyCode=codes[name],
            autoRepeat=is_repeat,
            **text,
        )

    def hold(self, name: str, seconds: float, every: float = 0.033) -> None:
        """Hold a key down for `seconds`. After up to half a second it repeats, as on a keyboard."""
        until = time.monotonic() + seconds
        self.key_event(name)
        time.sleep(min(0.5, seconds / 3))
        while time.monotonic() < until:
            self.key_event(name, is_repeat=True)
            time.sleep(every)
        self.key_event(name, is_down=False)

    def hammer(self, text: str, pause: float) -> None:
        """Type as `keys` does. The driver waits `pause` seconds after each key."""
        self.press(text, [{"type": "pause", "duration": round(1000 * pause)}])

    def press(self, text: str, after_each: list[object]) -> None:
        """Press keys one after the other, and act so after each."""
        actions: list[object] = []
        for it in text:
            actions += [
                {"type": "keyDown", "value": it},
                {"type": "keyUp", "value": it},
                *after_each,
            ]
        keyboard = {"type": "key", "id": "keyboard", "actions": actions}
        self.call("POST", "/actions", {"actions": [keyboard]})

    def click_at(self, x: float, y: float, count: int = 1) -> None:
        """Click the mouse at a point of the window, `count` times at once. A double click is two."""
        for it in range(1, count + 1):
            for kind in ("mousePressed", "mouseReleased"):
                self.mouse(kind, x, y, it)

    def mouse(self, kind: str, x: float, y: float, count: int = 1) -> None:
        self.tool("Input.dispatchMouseEvent", type=kind, x=x, y=y, button="left", clickCount=count)

    def middle_of(self, selector: str) -> Any:
        middle = "const it = document.querySelector(arguments[0]).getBoundingClientRect(); return [it.x + it.width / 2, it.y + it.height / 2]"
        return self.run(middle, selector)

    def picture(self) -> bytes:
        return base64.b64decode(self.call("GET", "/screenshot"))

    def close(self) -> None:
        with suppress(OSError):
            self.call("DELETE", "")
        with suppress(ProcessLookupError):
            os.killpg(self.driver.pid, signal.SIGKILL)
        self.driver.wait()
