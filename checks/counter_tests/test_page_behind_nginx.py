"""The clerk's page behind a real nginx with a password: it weighs, eight tabs work at once, and a page of another site gets nothing."""

import http.server
import threading
import time
from pathlib import Path

from checks.lib.bridge import HOST
from checks.lib.case import PROGRAM
from checks.lib.clerk import Clerk, at_of
from checks.lib.counter_case import AtThePage
from checks.lib.nginx import KNOWN, WRONG, Nginx

KEEP = "return fetch(location.origin + '/tares/NGINX-1', { method: 'PUT', body: JSON.stringify({ kg: 5000 }) }).then(it => it.status)"
# A page of another site, which shows the counter in a frame and has a form for it.
OTHER_SITE = """<iframe src="%s/"></iframe><form method="post" action="%s/weighings"><input name="key" value="other-site">
    <input name="kind" value="first"><input name="plate" value="OTHER-1"></form>"""
TAKE = "return fetch(arguments[0], { mode: 'no-cors', credentials: 'include' }).then(() => 'taken', () => 'blocked')"


class PageBehindNginx(AtThePage):
    """A clerk who gave the password."""

    needs = (
        PROGRAM,
        "aiohttp",
        "prometheus_client",
        "nginx",
        "openssl",
        "curl",
        "chromium",
        "chromedriver",
    )
    seconds = 60

    def page_of(self, port: int) -> Clerk:
        self.nginx = self.enterContext(Nginx(port))
        self.address = f"https://clerk:weigh-in@{HOST}:{self.nginx.port}"
        return self.new_clerk(self.address)

    def test_who_may_ask(self) -> None:
        ask = self.nginx.ask
        what = "without a password, or with a wrong one"
        self.same(what, ["401 2", "401 2"], [ask("/"), ask("/", *WRONG)])
        self.same("with it", "200 2", ask("/", *KNOWN))
        metrics = ask("/metrics", *KNOWN)
        self.same("nginx forwards nothing that monitoring asks", "404 2", metrics)
        other = ["-d", "key=x", "-H", "Origin: https://elsewhere.example"]
        refused = ask("/weighings", *KNOWN, *other)
        self.same("a page of another site is refused", "403 2", refused)

    def test_a_clerk(self) -> None:
        bridge, clerk = self.bridge, self.clerk
        bridge.next_vehicle(9170)
        self.becomes("the weight is shown behind nginx", 18340, clerk.kg)
        clerk.weigh("NGINX-1", "Slip")
        self.holds("and a vehicle is weighed behind nginx", "Slip" in clerk.words(), clerk.words())
        self.never_old("behind nginx", 4)
        clerk.run(KEEP)
        kept = Path(bridge.folder, "state/tares.json").read_text(encoding="utf-8")
        self.holds("who kept a tare is known by the password", '"by": "clerk"' in kept, kept)

    def test_eight_tabs(self) -> None:
        browser = self.clerk.browser
        self.bridge.put(9170)
        windows = [browser.call("POST", "/window/new", {"type": "tab"})["handle"] for _ in range(8)]
        for it in windows:
            browser.call("POST", "/window", {"handle": it})
            browser.go(f"{self.address}/?lang=en")
        shown = []
        for it in windows:
            browser.call("POST", "/window", {"handle": it})
            until = time.monotonic() + 5
            while self.clerk.kg() != 18340 and time.monotonic() < until:
                time.sleep(0.05)
            shown.append(self.clerk.kg())
        self.same("eight tabs at once each show the weight", [18340] * 8, shown)

    def test_a_page_of_another_site(self) -> None:
        """Show that it shows the counter in no frame, takes no answer of it, and weighs by no form, even in the browser of a clerk who logged in."""
        counter, browser = at_of(self.bridge.http), self.clerk.browser
        text = OTHER_SITE % (counter, f"https://{HOST}:{self.nginx.port}")

        class Answer(http.server.BaseHTTPRequestHandler):
            def do_GET(self) -> None:
                self.send_response(200)
                self.send_header("Content-Type", "text/html")
                self.end_headers()
                self.wfile.write(text.encode())

            def log_message(self, *words: object) -> None:
                pass

        site = self.enterContext(http.server.ThreadingHTTPServer((HOST, 0), Answer))
        threading.Thread(target=site.serve_forever, daemon=True).start()
        self.addCleanup(site.shutdown)
        self.bridge.next_vehicle(9170)
        browser.go(f"http://localhost:{site.server_port}/")
        time.sleep(1)
        browser.call("POST", "/frame", {"id": 0})
        has_none = browser.run("return document.getElementById('plate') === null")
        self.same("a page of another site shows the counter in no frame", True, has_none)
        browser.call("POST", "/frame", {"id": None})
        self.same("takes no answer", "blocked", browser.run(TAKE, f"{counter}/indication"))
        browser.run("document.querySelector('form').submit()")
        time.sleep(2)
        said = browser.run("return document.body.innerText.trim()")
        found = (said, self.bridge.has_key("other-site"))
        self.same("and weighs nothing by a form", ("counter other_site", False), found)
