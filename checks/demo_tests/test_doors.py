"""Requests of another site's page, or by a slip of the hand, that a demo refuses, and the table of answers."""

import json
import re
import subprocess
from typing import Any

from checks.lib.case import PROGRAM
from checks.lib.demo_case import DemoCheck
from checks.lib.demoing import asked

from checks import TOP


class Doors(DemoCheck):
    """A demo with an empty bridge."""

    needs = (PROGRAM, "aiohttp", "prometheus_client", "reportlab", "qrcode")
    seconds = 60

    def test_doors(self) -> None:
        demo = self.demo("--empty", "--quick")
        load = json.dumps({"kg": 20_000}).encode()
        rows: list[tuple[str, int, dict[str, Any]]] = [
            ("another origin", 403, {"Origin": "https://elsewhere.example"}),
            ("another site", 403, {"Sec-Fetch-Site": "cross-site"}),
            ("another port of this machine", 403, {"Sec-Fetch-Site": "same-site"}),
            ("another name", 421, {"Host": "elsewhere.example"}),
        ]
        for what, status, fields in rows:
            found = [
                asked("POST", f"{demo.page}load", body=load, **fields)[0],
                asked("POST", f"{demo.clerk}weighings", {"key": "X"}, **fields)[0],
            ]
            self.same(f"{what}: neither page does it", [status, status], found)
        for body in ("", "{}", "[]", "20000", '{"kg": -20}', '{"kg": 60001}', '{"kg": true}'):
            status = asked("POST", f"{demo.page}load", body=body.encode())[0]
            self.same(f"no load: {body or 'nothing'}", 422, status)
        status = asked("POST", f"{demo.page}load", body=b"1" * 999)[0]
        self.same("a body that is too long", 413, status)
        status = asked("GET", f"{demo.page}web/other.js")[0]
        self.same("no such file", 404, status)
        state = demo.state()
        self.same("nothing is on the bridge", ("empty", 0), (state["phase"], state["kg"]))
        link: dict[str, Any] = {"Sec-Fetch-Site": "same-site", "Sec-Fetch-Mode": "navigate"}
        far: dict[str, Any] = {"Sec-Fetch-Site": "cross-site", "Sec-Fetch-Mode": "navigate"}
        self.same("the link to the clerk's page", 200, asked("GET", demo.clerk, **link)[0])
        self.same("but none of another site", 403, asked("GET", demo.clerk, **far)[0])
        self.same("and not to its data", 403, asked("GET", f"{demo.clerk}papers", **link)[0])
        self.same("Ctrl-C ends it", 0, demo.ends()[0])

    def test_answers(self) -> None:
        """Play the table of answers against a demo, as the author of a till does."""
        demo = self.started("--empty").wait_until_up()
        script = [TOP / "clients" / "answers.py", demo.clerk, "--load", demo.page]
        ran = subprocess.run(script, capture_output=True, text=True, timeout=600)
        rows = ran.stdout.splitlines()
        print("\n".join([*rows, ran.stderr]), flush=True)
        self.same("the table of answers: the status", 0, ran.returncode)
        played = [it for it in rows if re.search(r": ok$", it)]
        self.holds("the table of answers: rows that were played", len(played) >= 25, len(played))
        self.same("the demo of the answers ends", 0, demo.ends()[0])
