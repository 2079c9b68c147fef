"""A visitor of `weighbridge-demo`, for checks/release: the installed demo, Chromium, and the first slip on the clerk's page.

It runs in a root of Debian, by the user and the python3 there. Its arguments are the name of the Debian and the file of a picture. Status 1 if something failed.
"""

import json
import re
import sys
import time
from collections.abc import Callable
from typing import Any
from urllib.error import HTTPError

from checks.lib.browser import Browser
from checks.lib.clerk import ENTER, Clerk
from checks.lib.demoing import Running
from checks.lib.waiting import wait_until

WITHIN = 60  # seconds from the command until the slip can be read
WAITS = 60  # seconds for each thing that comes


failures: list[str] = []


def holds(what: str, is_so: object, more: object = "") -> None:
    """Print a line for each thing that is shown."""
    if not is_so:
        failures.append(what)
    print(f"{what}: {'ok' if is_so else 'FAILED'}{f' ({more})' if more else ''}", flush=True)


def same(what: str, wanted: object, found: object) -> None:
    holds(what, wanted == found, "" if wanted == found else f"wanted {wanted!r}, found {found!r}")


def sees(what: str, look: Callable[[], Any]) -> Any:
    """Return what `look` finds once it finds something. Raises TimeoutError if the visitor has to stop."""
    found = wait_until(what, look, seconds=WAITS)
    holds(what, True)
    return found


def follow(browser: Browser, link: str) -> None:
    """Follow a link in this window, though it names another one."""
    browser.run("document.querySelector(arguments[0]).removeAttribute('target')", link)
    browser.click(link)


def text_of(browser: Browser, part: str) -> str:
    text = "return document.getElementById(arguments[0])?.textContent ?? ''"
    return str(browser.run(text, part))


def weigh_the_first(clerk: Clerk, name: str) -> str:
    """Read at the played bridge which plate to type, weigh that vehicle in, and return the text of its slip. Raises TimeoutError."""
    browser = clerk.browser
    sees(f"{name}: the clerk's page says DEMO", lambda: text_of(browser, "demo").startswith("DEMO"))
    follow(browser, "#demo a")
    said = sees(
        f"{name}: its link leads to the played bridge, which names a plate",
        lambda: re.match(r"Type (\S+) on the clerk’s page", text_of(browser, "todo")),
    )
    same(f"{name}: which says DEMO too", "DEMO", text_of(browser, "demo")[:4])
    follow(browser, "#clerk")
    sees(f"{name}: and a link leads back", lambda: "Type the plate." in clerk.words())
    clerk.keys(said[1])
    sees(f"{name}: {said[1]} can be weighed in", lambda: "Ready." in clerk.words())
    clerk.keys(ENTER)
    sees(f"{name}: Enter weighs it in", lambda: clerk.words().startswith("Slip 1: "))
    browser.click("#today button")
    return str(sees(f"{name}: its slip can be read", lambda: text_of(browser, "entry-text")))


def main(name: str, picture: str) -> int | str:
    try:
        running = Running((), command="/usr/bin/weighbridge-demo")
    except OSError as fault:
        raise SystemExit(f"/usr/bin/weighbridge-demo: {fault.strerror}") from None
    try:
        with running as demo, Clerk(demo.wait_until_up().clerk.rstrip("/")) as clerk:
            text = weigh_the_first(clerk, name)
            seconds = time.monotonic() - demo.begun
            same(f"{name}: it is a slip of number 1", "WEIGHING SLIP 1", text.split("\n")[0])
            what = f"{name}: read within {WITHIN} s of the command weighbridge-demo"
            holds(what, seconds <= WITHIN, f"{seconds:.1f} s")
            same(f"{name}: its serial is DEMO", ["DEMO"], re.findall(r" SERIAL (.*)$", text, re.M))
            with open(picture, "wb") as file:
                file.write(clerk.browser.picture())
            same(f"{name}: Ctrl-C ends the demo", 0, demo.ends()[0])
            same(f"{name}: and leaves no process", {}, demo.left())
    except TimeoutError as late:
        holds(str(late), False)
    except HTTPError as fault:
        failures.append(f"chromedriver: {json.load(fault)['value']['message']}")
    return f"{len(failures)} failed: {failures}" if failures else 0


sys.exit(main(*sys.argv[1:]))
