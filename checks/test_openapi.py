"""Shows that clients/openapi.json is valid, that each response is as it says, and that each status comes.

counter/openapi.json describes the office too. It is valid, and each response of the office is as it says. The two files stay apart, because the package of
the office has no counter.
"""

import http.client
import json
import os
import random
import re
import resource
import signal
import subprocess
import time
import unittest
from collections.abc import Iterator
from contextlib import closing
from pathlib import Path
from typing import Any

import random_traces

from checks import TOP
from checks.lib import bridge
from checks.lib.case import PROGRAM, Check, many
from checks.lib.program import compiled

# Only a changed entry gives these: checks/serve_routes has them.
DAMAGED = {("/purge", "409"), ("/tickets.csv", "409"), ("/tickets/{number}", "409")}
SCHEMA = "/usr/share/openapi-specification/schemas/v3.0/schema.json"
# Not asked of a route, but of what is none, or has another method.
NO_ROUTE, WRONG_METHOD = "no_route", "wrong_method"


def template_of(target: str) -> str:
    """Return the path of a description that a target has."""
    path = target.split("?", 1)[0]
    return "/tickets/{number}" if re.fullmatch("/tickets/[^/]+", path) else path


def wrong_for_both(whole: Any, method: str, target: str, status: str, body: str) -> str | None:
    """Return what is wrong with a response of the office by the description of office and counter. It lists no route that isn't there, and no other method."""
    operation = whole["paths"].get(template_of(target), {}).get(method.lower())
    if operation is None:
        return None
    listed = operation["responses"].get(status)
    if listed is None:
        return f"{method} {target}: counter/openapi.json doesn't list {status}"
    content = listed["content"].get("text/plain") or listed["content"].get("text/csv")
    if not re.search(content["schema"].get("pattern", ""), body):
        return f"{method} {target}: the body of {status} isn't as counter/openapi.json says: {body[:200]!r}"
    return None


class Description:
    """The document, and which of its statuses came."""

    def __init__(self) -> None:
        self.it, self.of_both = (
            json.loads((TOP / it / "openapi.json").read_text(encoding="utf-8"))
            for it in ("clients", "counter")
        )
        self.parts = self.it["components"]
        self.seen: set[tuple[str, str]] = set()

    def resolved(self, what: Any, kind: str) -> Any:
        return self.parts[kind][what["$ref"].rsplit("/", 1)[1]] if "$ref" in what else what

    def statuses(self) -> set[tuple[str, str]]:
        """Return each route and status that it lists."""
        return {
            (path, status)
            for path, methods in self.it["paths"].items()
            for it in methods.values()
            for status in it["responses"]
        }

    def response(self, method: str, target: str, status: str) -> Any:
        """Return what it says of such a response, or None if it lists none."""
        template = template_of(target)
        methods = self.it["paths"].get(template)
        if methods is None:
            return self.parts["responses"][NO_ROUTE] if status == "404" else None
        if method.lower() not in methods:
            return self.parts["responses"][WRONG_METHOD] if status == "405" else None
        listed = methods[method.lower()]["responses"].get(status)
        if listed is not None:
            self.seen.add((template, status))
        return listed and self.resolved(listed, "responses")

    def wrong(
        self,
        method: str,
        target: str,
        status: str,
        body: str,
        fields: dict[str, str] | None = None,
    ) -> str | None:
        """Return what is wrong with a response, including its head if there is one."""
        response = self.response(method, target, status)
        if response is None:
            return f"{method} {target}: {status} isn't listed"
        ((kind, content),) = response["content"].items()
        if not re.search(content["schema"]["pattern"], body):
            return f"{method} {target}: the body of {status} has another form: {body[:200]!r}"
        if fields is not None:
            if fields.get("Content-Type") != f"{kind}; charset=utf-8":
                return f"{method} {target}: {status} has the type {fields.get('Content-Type')}"
            for name, said in response["headers"].items():
                schema = self.resolved(said, "headers")["schema"]
                value = fields.get(name, "")
                has_form = re.search(schema.get("pattern", ""), value)
                if value not in schema.get("enum", [value]) or not has_form:
                    return f"{method} {target}: {status} has {name}: {value!r}"
        if template_of(target) not in self.it["paths"]:
            return None  # the counter may have this route, and the office doesn't
        return wrong_for_both(self.of_both, method, target, status, body)


def requests_of(trace: bytes) -> Iterator[tuple[str, str] | None]:
    """Return the method and target of each request of a trace, None for those of bytes, up to the first line that isn't understood."""
    for line in re.split(rb"\r?\n", trace):
        if line.startswith((b"o ", b"x ")):
            kind, *words = line.decode("latin-1").split(" ", 4)
            yield (words[1], words[2]) if kind == "o" and len(words) > 2 else None


def ask(
    port: int,
    method: str,
    target: str,
    form: str | None = None,
    fields: dict[str, str] | None = None,
) -> tuple[str, str, dict[str, str]]:
    data = None if form is None else form.encode()
    if fields is None:
        fields = {"Content-Length": str(len(data or b""))} if method == "POST" else {}
    with closing(http.client.HTTPConnection(bridge.HOST, port, timeout=10)) as connection:
        connection.putrequest(method, target, skip_accept_encoding=True)
        for name, value in fields.items():
            connection.putheader(name, value)
        connection.endheaders(data)
        response = connection.getresponse()
        return str(response.status), response.read().decode(), dict(response.getheaders())


class Schema(Check):
    """The documents themselves, and whether the other class sees what isn't as they say."""

    needs = ("jsonschema",)

    @unittest.skipUnless(os.path.exists(SCHEMA), "openapi-specification is not installed")
    def test_schema(self) -> None:
        import jsonschema

        document = Description()
        schema = json.loads(Path(SCHEMA).read_text(encoding="utf-8"))
        for name, it in (("clients", document.it), ("counter", document.of_both)):
            faults = [
                f"{'/'.join(map(str, fault.absolute_path))}: {fault.message[:200]}"
                for fault in jsonschema.Draft4Validator(schema).iter_errors(it)
            ]
            self.same(f"the schema of OpenAPI 3.0 accepts {name}/openapi.json", [], faults[:3])

    def test_wrong_responses(self) -> None:
        document = Description()
        for row in (
            ("GET", "/check", "409", "refused 17 damaged\n"),
            ("GET", "/check", "200", "SOUND\n"),
            ("GET", "/none", "200", ""),
            ("POST", "/check", "200", "SOUND 1\n"),
            ("POST", "/weighings", "409", "refused 16 no_ticket\n"),
            ("POST", "/weighings", "201", "WEIGHING TICKET 1\nPLATE ab\n"),
        ):
            self.holds(f"{row} isn't as the office's file says", document.wrong(*row))
        for row in (
            ("GET", "/check", "409", "refused 17 damaged\n"),
            ("GET", "/check", "200", "SOUND\n"),
            ("POST", "/weighings", "201", "WEIGHING TICKET 1\nPLATE ab\n"),
            ("GET", "/tickets/1", "404", "refused\n"),
        ):
            wrong = wrong_for_both(document.of_both, *row)
            self.holds(f"{row} isn't as the counter's file says", wrong)


class Responses(Check):
    """The responses of replays and of a service."""

    needs = (PROGRAM,)
    seconds = 60

    def test_each_status_comes(self) -> None:
        self.document = Description()
        self.show_random(many(1_500))
        self.show_service()
        # a replay has neither heads that are too long for a trace's line, nor a damaged entry
        never = sorted(
            f"{status} of {path}"
            for path, status in self.document.statuses() - self.document.seen
            if status not in ("400", "431") and (path, status) not in DAMAGED
        )
        self.same("statuses of the description that never came", [], never)

    def show_random(self, count: int) -> None:
        """Show by the model's random traces that each response is as the description says."""
        looked_at = 0
        for seed in range(1, count + 1):
            maker = random_traces.Maker(random.Random(seed))
            trace = maker.trace()
            options = [
                word for name, value in maker.options.items() for word in (f"--{name}", str(value))
            ]
            ran = subprocess.run([compiled(), "replay", *options], input=trace, capture_output=True)
            printed = ran.stdout.decode("latin-1")
            responses = re.findall(r"^o (\d+)\n((?:\|.*\n)*)", printed, re.M)
            for asked, (status, lines) in zip(requests_of(trace), responses):
                if asked is None:
                    continue
                looked_at += 1
                body = re.sub(r"^\| ?", "", lines, flags=re.M)
                wrong = self.document.wrong(*asked, status, body)
                self.assertIsNone(wrong, f"seed {seed}")
        self.holds(f"{looked_at} responses of {count} random traces are as it says", looked_at)

    def answered(
        self,
        method: str,
        target: str,
        form: str | None = None,
        wanted: str = "",
        fields: dict[str, str] | None = None,
    ) -> None:
        """Show that the service's answer is as the description says, and has this status."""
        status, body, head = ask(self.service.office, method, target, form, fields)
        self.assertIsNone(self.document.wrong(method, target, status, body, head))
        if wanted:
            self.assertEqual(wanted, status, f"{method} {target}")

    def show_service(self) -> None:
        """Show a service over sockets: each route, faults of a request, and a disk that accepts nothing."""
        load = [0]
        converter = bridge.Converter(rate=50.0, load=lambda number: load[0])
        # a limit on a file's size is a fault of the disk here, as with the package
        spared = lambda: signal.signal(signal.SIGXFSZ, signal.SIG_IGN)  # noqa: E731
        file = os.path.join(self.folder(), "journal.db")
        self.service = self.enterContext(
            bridge.Service(compiled(), file, converter, "--pace", "50", limit=spared)
        )
        answered = self.answered

        def next_vehicle() -> None:
            for load[0] in (0, 9170):
                time.sleep(0.5)

        next_vehicle()
        answered("POST", "/weighings", "key=K1&kind=first&plate=AB-12", wanted="201")
        answered("POST", "/voids", "key=K2&plate=AB-12", wanted="201")
        for target in ("/indication", "/check", "/journal.csv", "/tickets.csv"):
            answered("GET", target, wanted="200")
            answered("POST", target, "", wanted="405")
        answered("POST", "/purge", "", wanted="200")
        answered("GET", "/tickets/1", wanted="404")
        answered("GET", "/none", wanted="404")
        for target in ("/weighings", "/voids", "/purge"):
            answered("GET", target, wanted="405")
            answered("POST", target, fields={}, wanted="411")
            answered("POST", target, fields={"Content-Length": "1025"}, wanted="413")
            answered("POST", target, fields={"Content-Length": "x"}, wanted="400")
        for path, methods in self.document.it["paths"].items():
            for method in methods:
                target = path.replace("{number}", "1")
                answered(method.upper(), target, fields={"A": "y" * 8190}, wanted="431")
        resource.prlimit(self.service.process.pid, resource.RLIMIT_FSIZE, (100, 100))
        answered("POST", "/weighings", "key=K3&kind=first&plate=CD-34")
        next_vehicle()
        answered("POST", "/weighings", "key=K4&kind=first&plate=CD-34", wanted="503")
        answered("POST", "/voids", "key=K5&plate=CD-34", wanted="503")
        answered("POST", "/purge", "", wanted="503")
        for target in ("/tickets/1", "/journal.csv", "/tickets.csv", "/check"):
            answered("GET", target, wanted="503")
