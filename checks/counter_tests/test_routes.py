"""The description of the routes: counter/openapi.json is valid, has every route of both, and each answer and event is as it says."""

import json
import re
from pathlib import Path
from typing import Any

from checks.lib.case import PROGRAM
from checks.lib.counter_case import AtTheCounter

from checks import TOP

try:
    import jsonschema
except ImportError:
    pass  # the class is skipped

OPENAPI_SCHEMA = Path("/usr/share/openapi-specification/schemas/v3.0/schema.json")
NO_KEY = 36 * "k"


def resolved(schema: Any, document: Any) -> Any:
    """Return a schema of OpenAPI as jsonschema understands it. There nullable is a type of its own."""
    if isinstance(schema, list):
        return [resolved(it, document) for it in schema]
    if not isinstance(schema, dict):
        return schema
    if "$ref" in schema:
        name = schema["$ref"].rsplit("/", 1)[1]
        return resolved(document["components"]["schemas"][name], document)
    made = {name: resolved(it, document) for name, it in schema.items() if name != "nullable"}
    return {"anyOf": [made, {"type": "null"}]} if schema.get("nullable") else made


def routes_of_the_program() -> set[str]:
    """Return the routes that the counter's sources name."""
    found: list[str] = []
    for name in ("routes.py", "fetching.py"):
        text = (TOP / "counter" / "weighbridge_counter" / name).read_text(encoding="utf-8")
        found += re.findall(r'web\.(?:get|post|put|delete)\(r?"([^"]*)"', text)
    names = {"/entries/": "/entries/{number}"}
    plain = {re.sub(r"\{(\w+):.*\}", r"{\1}", names.get(it, it)) for it in found}
    return {it for it in plain if not it.startswith("/web/")}


class Routes(AtTheCounter):
    """Each answer of the office and of the counter, and each event, next to its description."""

    needs = (PROGRAM, "aiohttp", "prometheus_client", "jsonschema")
    pace = 20
    seconds = 30

    def setUp(self) -> None:
        super().setUp()
        text = (TOP / "counter" / "openapi.json").read_text(encoding="utf-8")
        self.document = json.loads(text)
        self.wrong: list[tuple[object, ...]] = []

    def compare(self, name: tuple[object, ...], schema: Any, what: object) -> None:
        """Note what of a text isn't as its schema says."""
        validator = jsonschema.Draft202012Validator(resolved(schema, self.document))
        self.wrong += [(*name, it.message[:200]) for it in validator.iter_errors(what)]

    def answered(
        self, target: str, method: str, port: int, path: str | None = None, **how: Any
    ) -> None:
        """Compare an answer with the description of its route."""
        status, text, fields = self.bridge.ask(method, path or target, port=port, **how)
        responses = self.document["paths"][target][method.lower()]["responses"]
        if (response := responses.get(str(status))) is None:
            self.wrong.append((target, method, status))
            return
        kind = fields.get("content-type", "").partition(";")[0]
        if content := response.get("content"):
            if kind in content:
                what = json.loads(text) if kind == "application/json" else text
                self.compare((target, status), content[kind]["schema"], what)
            else:
                self.wrong.append((target, status, kind))

    def test_valid(self) -> None:
        if not OPENAPI_SCHEMA.exists():
            self.skipTest(f"{OPENAPI_SCHEMA} is not there (openapi-specification)")
        schema = json.loads(OPENAPI_SCHEMA.read_text(encoding="utf-8"))
        validator = jsonschema.Draft4Validator(schema)
        found = [it.message for it in validator.iter_errors(self.document)]
        self.same("openapi.json is valid", [], found[:3])

    def test_routes(self) -> None:
        described = {
            it
            for it, what in self.document["paths"].items()
            if what.get("servers", [{}])[0].get("description") != "the office"
        }
        what = "each route of the counter's program is there, and no other"
        self.same(what, routes_of_the_program(), described - {"/web/{name}"})

    def test_answers(self) -> None:
        self.bridge.next_vehicle(9170)
        self.answers_of_both()
        self.answers_of_the_office()
        self.answers_as_json()
        self.answers_of_the_counter()
        self.bridge.put(0)
        for name, what in self.bridge.events(1.0):
            self.compare((name,), self.document["components"]["schemas"][name], what)
        what = "each answer of both, and each event, is as openapi.json says"
        self.same(what, [], self.wrong[:5])

    def answers_of_both(self) -> None:
        form = {"key": "describe-1", "kind": "first", "plate": "ROUTES"}
        for port in (self.bridge.office, self.bridge.http):
            others = ({"key": "describe-2"}, {"plate": "no plate"}, {"kind": "second"})
            for given in (form, *(form | it for it in others)):
                self.answered("/weighings", "POST", port, form=given)
                if port == self.bridge.http:
                    self.answered("/weighings", "POST", port, form=given, Accept="application/json")
            for key, plate in (("describe-3", "ROUTES"), ("describe-4", "NOBODY")):
                self.answered("/voids", "POST", port, form={"key": key, "plate": plate})
            self.answered("/indication", "GET", port)
            for number in ("1", "999999"):
                self.answered("/tickets/{number}", "GET", port, f"/tickets/{number}")

    def answers_of_the_office(self) -> None:
        for target in ("/journal.csv", "/tickets.csv", "/check"):
            self.answered(target, "GET", self.bridge.office)
        self.answered("/purge", "POST", self.bridge.office, body="")

    def answers_as_json(self) -> None:
        port, as_json = self.bridge.http, {"Accept": "application/json"}
        form = {"key": "describe-1", "kind": "first", "plate": "ROUTES"}
        for body in ("{", '{"key": 1}', '{"unknown": 1}', json.dumps(form)):
            how = {"body": body, "Content_Type": "application/json"}
            self.answered("/weighings", "POST", port, **how)
            self.answered("/weighings", "POST", port, **how, **as_json)
        self.answered("/indication", "GET", port, **as_json)
        for number in ("1", "999999"):
            self.answered("/tickets/{number}", "GET", port, f"/tickets/{number}", **as_json)
            self.answered("/entries/{number}", "GET", port, f"/entries/{number}", **as_json)
        for key in ("describe-1", NO_KEY):
            self.answered("/keys/{key}", "GET", port, f"/keys/{key}", **as_json)

    def answers_of_the_counter(self) -> None:
        port = self.bridge.http
        plain = ("/", "/openapi.json", "/time", "/health", "/metrics", "/papers")
        for target in (*plain, "/today", "/today.csv"):
            self.answered(target, "GET", port)
        for target in ("/zero", "/tare/clear", "/lists/refresh"):
            self.answered(target, "POST", port)
        self.answered("/jobs/{job}/again", "POST", port, "/jobs/999/again", body="")
        self.answered("/jobs/{job}", "DELETE", port, "/jobs/999")
        self.answered("/search", "GET", port, "/search?q=A")
        self.answered("/keys/{key}", "GET", port, "/keys/describe-1")
        for name in ("page.js", "none.js"):
            self.answered("/web/{name}", "GET", port, f"/web/{name}")
        for number in ("1", "999999"):
            paper, entry = f"/papers/{number}", f"/entries/{number}"
            self.answered("/papers/{number}", "POST", port, paper, body="")
            self.answered("/papers/{number}/browser", "POST", port, f"{paper}/browser", body="")
            self.answered("/entries/{number}", "GET", port, entry)
            for body in ('{"goods": "Kies"}', '{"order": ""}', "[]"):
                self.answered("/entries/{number}/given", "PUT", port, f"{entry}/given", body=body)
        for target in ("/entries", "/tickets", "/vehicles"):
            for fields in ("", "?after=0&limit=1", "?limit=0", f"?journal={'0' * 32}"):
                self.answered(target, "GET", port, target + fields)
        self.answered("/plates/{plate}", "GET", port, "/plates/AB-12")
        for body in ('{"kg": 5000}', "{}"):
            self.answered("/tares/{plate}", "PUT", port, "/tares/AB-12", body=body)
        self.answered("/tares/{plate}", "DELETE", port, "/tares/AB-12")
