"""openapi.json describes the routes that are there, at addresses that are there, and agrees with the office's own description."""

import json
import re
import tomllib
import unittest
from collections.abc import Iterator
from pathlib import Path
from types import SimpleNamespace
from typing import Any

from weighbridge_counter.bodies import FIELDS
from weighbridge_counter.refusals import RETRIES, Refusal
from weighbridge_counter.routes import Routes

from .served import FOLDER, document

TOP = FOLDER.parent
SCHEMA = Path("/usr/share/openapi-specification/schemas/v3.0/schema.json")
METHODS = ("get", "post", "put", "delete")
TYPES = {str: "string", int: "integer", bool: "boolean"}
# Only the office has these.
OFFICE = {"/purge", "/journal.csv", "/tickets.csv", "/check"}


def operations(whole: Any) -> Iterator[tuple[str, str, Any]]:
    for path, methods in whole["paths"].items():
        for method in METHODS:
            if method in methods:
                yield path, method, methods[method]


def address_of(text: str, name: str) -> str:
    found = re.search(rf"^{name}=(\S+)$", text, re.M)
    assert found is not None, name
    return found[1]


class TheDescription(unittest.TestCase):
    def setUp(self) -> None:
        self.whole = document()

    def test_its_servers_are_those_of_the_packages(self) -> None:
        setup = tomllib.loads((TOP / "packaging/counter/weighbridge-counter.toml").read_text())
        office = address_of(
            (TOP / "packaging/weighbridge/weighbridge.conf").read_text(), "WEIGHBRIDGE_OFFICE"
        )
        self.assertEqual(setup["office"], office)
        both = [f"http://{setup['listen']}", f"http://{office}"]
        self.assertEqual(both, [it["url"] for it in self.whole["servers"]])
        shared = {"/weighings", "/voids", "/indication", "/tickets/{number}"}
        for path, it in self.whole["paths"].items():
            wanted = None if path in shared else [both[path in OFFICE]]
            servers = it.get("servers")
            self.assertEqual(wanted, servers and [server["url"] for server in servers], path)

    def test_each_route_of_the_counter_is_there_and_no_other(self) -> None:
        setup = SimpleNamespace(listen=("127.0.0.1", 1), hosts=())
        routes = Routes(SimpleNamespace(setup=setup, office=None), FOLDER)  # type: ignore[arg-type]
        found = set()
        for it in routes.application().router.routes():
            resource = it.resource
            assert resource is not None
            if it.method != "HEAD":
                found.add((resource.canonical, it.method.lower()))
        described = {
            (path, method) for path, method, _ in operations(self.whole) if path not in OFFICE
        }
        self.assertEqual(found, described)

    def test_it_agrees_with_the_description_of_the_office(self) -> None:
        own = json.loads((TOP / "clients/openapi.json").read_text(encoding="utf-8"))
        found = set()
        form = "application/x-www-form-urlencoded"
        for path, method, it in operations(own):
            found.add(path)
            same = self.whole["paths"][path][method]
            self.assertEqual(set(), it["responses"].keys() - same["responses"].keys(), path)
            if "requestBody" not in it:
                continue
            theirs = it["requestBody"]["content"][form]["schema"]
            ours = same["requestBody"]["content"][form]["schema"]
            self.assertEqual(theirs["required"], ours["required"])
            for name, field in theirs["properties"].items():
                for what in ("type", "pattern", "enum"):
                    wanted = field.get(what)
                    self.assertEqual(wanted, ours["properties"][name].get(what), (path, name, what))
        shared = {it for it, what in self.whole["paths"].items() if "servers" not in what}
        self.assertEqual(found, shared | OFFICE)

    def test_a_json_body_has_the_fields_that_the_route_takes(self) -> None:
        for path, fields in FIELDS.items():
            at = "/papers/{number}" if path == "/papers" else path
            content = self.whole["paths"][at]["post"]["requestBody"]["content"]
            schema = content["application/json"]["schema"]
            types = {name: it["type"] for name, it in schema["properties"].items()}
            self.assertEqual({name: TYPES[it] for name, it in fields.items()}, types)
            forms = content["application/x-www-form-urlencoded"]["schema"]["properties"]
            self.assertLessEqual(set(forms), set(types))

    def test_a_refusal_is_as_it_says(self) -> None:
        schema = self.whole["components"]["schemas"]["refusal"]
        self.assertEqual(list(RETRIES), schema["properties"]["retry"]["enum"])
        self.assertEqual(set(Refusal("gone").shown()), set(schema["required"]))

    def test_each_reference_leads_somewhere(self) -> None:
        schemas = self.whole["components"]["schemas"]
        for name in re.findall(r'"#/components/schemas/(\w+)"', json.dumps(self.whole)):
            self.assertIn(name, schemas)

    def test_it_is_valid(self) -> None:
        try:
            import jsonschema
        except ImportError:
            self.skipTest("python3-jsonschema isn't installed")
        if not SCHEMA.exists():
            self.skipTest("openapi-specification isn't installed")
        validator = jsonschema.Draft4Validator(json.loads(SCHEMA.read_text(encoding="utf-8")))
        self.assertEqual([], [it.message for it in validator.iter_errors(self.whole)][:3])


if __name__ == "__main__":
    unittest.main()
