"""JSON next to the texts: the texts stay byte for byte, the JSON has them as a field, and a refusal says what to do."""

import asyncio
import json
import re
import unittest
import uuid
from typing import Any
from unittest import mock

from weighbridge_counter import bodies
from weighbridge_counter.bodies import FIELDS, BadBody, bad_field, form_of
from weighbridge_counter.refusals import (
    FILE,
    RETRIES,
    Refusal,
    catalogue,
    catalogue_of,
    refusal_in,
)
from weighbridge_counter.files import NoFile
from weighbridge_counter.shown import NotUnderstood, indication_shown

from weighbridge_counter.terminal import NotSent, Unanswered

from .served import FOLDER, JSON, Answered, WithCounter, faults_of

FIRST = "key=K1&kind=first&plate=AB-12"
PLACES = {
    "/tickets/\\d+": "/tickets/{number}",
    "/entries/\\d+": "/entries/{number}",
    "/keys/.*": "/keys/{key}",
}
AS_JSON = "application/json"
NOTHING: dict[str, str] = {}


class Asked(WithCounter):
    def is_described(self, method: str, target: str, answer: Answered) -> None:
        """Show that an answer is as openapi.json says."""
        try:
            import jsonschema  # noqa: F401
        except ImportError:
            return
        path = target.partition("?")[0]
        for form, template in PLACES.items():
            path = template if re.fullmatch(form, path) else path
        self.assertEqual([], list(faults_of(method, path, answer)), (method, target, answer))

    async def json_of(
        self, method: str, target: str, body: bytes | None = None, /, **how: str
    ) -> Any:
        answer = await self.ask(method, target, body, **JSON, **how)
        self.assertEqual("application/json; charset=utf-8", answer.fields["content-type"])
        self.is_described(method, target, answer)
        return answer.status, answer.json

    async def weighed(self, form: str, **how: str) -> Answered:
        answer = await self.post("/weighings", form, **how)
        self.assertEqual(201, answer.status, answer.body)
        return answer


class Texts(Asked):
    async def test_without_a_wish_an_answer_is_the_office_s_byte_for_byte(self) -> None:
        await self.drives_on(18340)
        first = await self.weighed(FIRST)
        office = await self.at_office("POST", "/weighings", FIRST)
        self.assertEqual(office.body, first.body)
        for accept in ("*/*", "text/plain", "", "x", "application/json;q=0", "image/png"):
            again = await self.weighed(FIRST, Accept=accept)
            self.assertEqual(
                (office.body, "text/plain; charset=utf-8"),
                (again.body, again.fields["content-type"]),
                accept,
            )
        for target in ("/tickets/1", "/indication", "/tickets/x"):
            passed, own = await self.ask("GET", target), await self.at_office("GET", target)
            self.assertEqual((own.status, own.body), (passed.status, passed.body))
        for form in ("key=K2&kind=first&plate=AB-12", "key=K1&kind=first&plate=a b"):
            passed = await self.post("/weighings", form)
            own = await self.at_office("POST", "/weighings", form)
            self.assertEqual((own.status, own.body), (passed.status, passed.body))

    async def test_the_counter_s_own_answers_are_the_same_text(self) -> None:
        for form, status, text in (
            ("key=K1&kind=single&plate=A&tare=x", 422, b"counter bad_tare\n"),
            ("key=K1&kind=first&plate=A&at=x", 422, b"counter bad_at\n"),
            ("key=K1&kind=first&plate=A&once=1", 422, b"counter bad_once\n"),
        ):
            answer = await self.post("/weighings", form)
            self.assertEqual(
                (status, text, "not_sent"),
                (answer.status, answer.body, answer.fields["x-counter"]),
            )
        for method, target, status, text in (
            ("GET", "/none", 404, b"fault 404 no_route\n"),
            ("GET", "/weighings", 405, b"fault 405 wrong_method\n"),
            ("GET", "/keys/" + "k" * 33, 404, b"fault 404 no_route\n"),
        ):
            answer = await self.ask(method, target)
            self.assertEqual((status, text), (answer.status, answer.body))
        large = await self.post("/weighings", "a" * 3000)
        self.assertEqual((413, b"fault 413 too_large\n"), (large.status, large.body))
        self.assertEqual([], self.service.posts())

    async def test_an_entry_is_the_same_json_unless_json_is_asked_for(self) -> None:
        await self.drives_on(18340)
        text = (await self.weighed(FIRST)).body.decode()
        for fields in (NOTHING, {"Accept": "*/*"}):
            answer = await self.ask("GET", "/entries/1", **fields)
            self.assertEqual({"text": text, "from": "passed"}, answer.json)
            missing = await self.ask("GET", "/entries/9", **fields)
            self.assertEqual((404, {"why": "refused 16 no_ticket"}), (missing.status, missing.json))

    async def test_405_names_the_methods(self) -> None:
        answer = await self.ask("GET", "/weighings")
        self.assertEqual("POST", answer.fields["allow"])


class AsJson(Asked):
    async def test_a_slip_and_a_ticket(self) -> None:
        await self.drives_on(18340)
        status, slip = await self.json_of("POST", "/weighings", FIRST.encode())
        office = await self.at_office("POST", "/weighings", FIRST)
        digests = [row[10] for row in self.service.rows]
        wanted = {
            "text": office.body.decode(),
            "number": 1,
            "kind": "first",
            "plate": "AB-12",
            "net_kg": None,
            "weighings": [
                {
                    "number": 1,
                    "kind": "first",
                    "at": self.service.rows[0][4].replace(" ", "T") + "Z",
                    "gross_kg": 18340,
                    "preset_kg": None,
                    "interval_kg": 20,
                    "max_kg": 60000,
                    "serial": "WB01",
                    "digest": digests[0],
                }
            ],
        }
        self.assertEqual((201, wanted), (status, slip))
        await self.drives_on(8140)
        form = b"key=K2&kind=second&plate=AB-12"
        status, ticket = await self.json_of("POST", "/weighings", form)
        self.assertEqual(
            (201, 2, "second", 10200),
            (status, *(ticket[it] for it in ("number", "kind", "net_kg"))),
        )
        self.assertEqual(
            [(1, 18340), (2, 8140)], [(it["number"], it["gross_kg"]) for it in ticket["weighings"]]
        )
        self.assertEqual((200, ticket), await self.json_of("GET", "/tickets/2"))
        self.assertEqual(
            (200, {**ticket, "from": "office"}), await self.json_of("GET", "/entries/2")
        )
        self.assertEqual((200, {**slip, "from": "passed"}), await self.json_of("GET", "/entries/1"))
        self.assertEqual(404, (await self.json_of("GET", "/tickets/1"))[0])

    async def test_a_single_with_its_tare_and_a_void(self) -> None:
        await self.drives_on(18340)
        wish = {"key": "K1", "kind": "single", "plate": "AB-12", "tare": 5000, "goods": "Gravel"}
        status, ticket = await self.json_of(
            "POST", "/weighings", json.dumps(wish).encode(), Content_Type=AS_JSON
        )
        self.assertEqual(
            (201, 13340, 5000),
            (status, ticket["net_kg"], ticket["weighings"][0]["preset_kg"]),
        )
        digest = ticket["weighings"][0]["digest"]
        self.assertEqual({"goods": "Gravel"}, dict(self.counter.given.of(digest)))
        await self.until(lambda: self.service.scale.tare == 0)
        await self.drives_on(8140)
        await self.weighed("key=K2&kind=first&plate=CD-34")
        body = b'{"key": "K3", "plate": "CD-34"}'
        status, void = await self.json_of("POST", "/voids", body, Content_Type=AS_JSON)
        self.assertEqual(
            (201, "void", None), (status, void["kind"], void["weighings"][0]["gross_kg"])
        )

    async def test_an_indication(self) -> None:
        await self.drives_on(18340)
        status, what = await self.json_of("GET", "/indication")
        self.assertEqual((200, "stable", 18340, 18340), (status, *list(what.values())[1:]))
        self.assertEqual((await self.at_office("GET", "/indication")).body.decode(), what["text"])

    async def test_each_form_of_an_indication(self) -> None:
        for text, state, gross, net in (
            ("STABLE G      18340 kg N      13340 kg\n", "stable", 18340, 13340),
            ("MOVING G        -20 kg N      -5020 kg\n", "moving", -20, -5020),
            ("STABLE G          0 kg N          0 kg\n", "stable", 0, 0),
            ("NO LOAD\n", "no_load", None, None),
            ("OVERLOAD\n", "overload", None, None),
            ("UNDERLOAD\n", "underload", None, None),
        ):
            wanted = {"text": text, "state": state, "gross_kg": gross, "net_kg": net}
            self.assertEqual(wanted, indication_shown(text))
        for text in (
            "",
            "STABLE\n",
            "NO LOAD",
            "STABLE G ٣ kg N ٣ kg\n",
            "no load\n",
            "x\nOVERLOAD\n",
        ):
            with self.assertRaises(NotUnderstood):
                indication_shown(text)

    async def test_what_another_program_answers_is_no_answer(self) -> None:
        self.service.tickets[7] = "WEIGHING TICKET 7\nPLATE x\n"
        status, what = await self.json_of("GET", "/tickets/7")
        self.assertEqual((502, "no_answer", "later"), (status, what["name"], what["retry"]))

    async def test_a_key(self) -> None:
        await self.drives_on(18340)
        await self.weighed(FIRST)
        self.assertEqual((200, {"found": True}), await self.json_of("GET", "/keys/K1"))
        self.assertEqual((200, {"found": False}), await self.json_of("GET", "/keys/K9"))


class AKeyThatIsKnown(Asked):
    """A ticket that the office has shows that a key is stored, without an export."""

    async def asks(self, key: str) -> tuple[object, list[str]]:
        """Return the answer, and the questions to the office for it."""
        self.service.came.clear()
        answer = await self.ask("GET", f"/keys/{key}")
        of_keys = (
            "/tickets/2",
            "/tickets/4",
            "/journal.csv",
        )  # and not what the counter asks regularly
        return answer.json["found"], [it for _, it, _ in self.service.came if it in of_keys]

    async def weighs(self) -> None:
        for key, kind, kg in (("K1", "first", 18340), ("K2", "second", 8140)):
            await self.drives_on(kg)
            await self.weighed(f"key={key}&kind={kind}&plate=AB-12")
        await self.drives_on(9000)
        await self.weighed("key=K3&kind=first&plate=CD-34")
        await self.post("/voids", "key=K4&plate=CD-34")

    async def test_a_ticket_is_enough(self) -> None:
        await self.weighs()
        self.assertEqual((True, ["/tickets/2"]), await self.asks("K2"))
        self.assertEqual((True, ["/tickets/2"]), await self.asks("K1"), "its second has it")

    async def test_what_has_no_ticket_needs_an_export(self) -> None:
        await self.weighs()
        for key, is_found in (("K3", True), ("K4", True), ("K9", False)):
            self.assertEqual((is_found, ["/journal.csv"]), await self.asks(key), key)

    async def test_a_row_that_was_changed_shows_nothing(self) -> None:
        await self.weighs()
        with mock.patch.object(self.counter.books.lists, "is_sound", lambda number: False):
            self.assertEqual((True, ["/journal.csv"]), await self.asks("K2"))

    async def test_of_another_journal_a_ticket_shows_nothing(self) -> None:
        await self.weighs()
        was = self.service.tickets[2]
        for ticket in (None, "", was.replace(self.service.rows[1][10], "f" * 64)):
            self.service.tickets.clear()
            self.service.tickets |= {} if ticket is None else {2: ticket}
            self.assertEqual((True, ["/tickets/2", "/journal.csv"]), await self.asks("K2"), ticket)
        self.service.rows.clear()
        self.assertEqual((False, ["/tickets/2", "/journal.csv"]), await self.asks("K2"))


class Refused(Asked):
    async def test_a_refusal_says_what_to_do(self) -> None:
        status, what = await self.json_of("POST", "/weighings", FIRST.encode())
        words = "The load is too light for this weighbridge."
        wanted = {
            "refused": 8,
            "name": "below_min",
            "field": None,
            "retry": "later",
            "words": words,
        }
        self.assertEqual((409, wanted), (status, what))

    async def test_each_field_that_the_office_cannot_use_is_named(self) -> None:
        await self.drives_on(18340)
        for form, field, retry in (
            (f"key={uuid.UUID(int=7)}&kind=first&plate=A", "key", "with_new_key"),
            ("key=&kind=first&plate=A", "key", "with_new_key"),
            ("kind=first&plate=A", "key", "with_new_key"),
            ("key=K1&key=K1&kind=first&plate=A", "key", "with_new_key"),
            ("key=K_1&kind=first&plate=A", "key", "with_new_key"),
            ("key=K1&kind=fourth&plate=A", "kind", "never"),
            ("key=K1&plate=A", "kind", "never"),
            ("key=K1&kind=first&plate=ab", "plate", "never"),
            ("key=K1&kind=first&plate=A+B", "plate", "never"),
            ("key=K1&kind=first&plate=" + 13 * "A", "plate", "never"),
            ("key=K1&kind=first", "plate", "never"),
        ):
            status, what = await self.json_of("POST", "/weighings", form.encode())
            self.assertEqual(
                (422, None, "bad_field", field, retry),
                (status, *(what[it] for it in ("refused", "name", "field", "retry"))),
                form,
            )
        _, what = await self.json_of("POST", "/weighings", b"key=" + 36 * b"k")
        self.assertIn("A UUID has 36 characters with its hyphens", what["words"])
        _, what = await self.json_of("POST", "/voids", b"key=K1")
        self.assertEqual("plate", what["field"])
        self.assertEqual(0, len(self.service.rows))

    async def test_a_uuid_is_no_key_of_a_route(self) -> None:
        answer = await self.ask("GET", f"/keys/{uuid.UUID(int=7)}", **JSON)
        self.assertEqual(
            (404, "no_route", "key"), (answer.status, answer.json["name"], answer.json["field"])
        )
        other = await self.ask("GET", "/none", **JSON)
        self.assertIsNone(other.json["field"])

    async def test_the_counter_s_own(self) -> None:
        for form, name, field, retry in (
            ("key=K1&kind=single&plate=A&tare=x", "bad_tare", "tare", "never"),
            ("key=K1&kind=first&plate=A&at=x", "bad_at", "at", "never"),
            ("key=K1&kind=first&plate=A&once=1", "bad_once", "once", "never"),
        ):
            status, what = await self.json_of("POST", "/weighings", form.encode())
            found = (status, *(what[it] for it in ("refused", "name", "field", "retry")))
            self.assertEqual((422, None, name, field, retry), found)
        late = await self.post("/weighings", FIRST + "&at=1", **JSON)
        self.is_described("POST", "/weighings", late)
        self.assertEqual(
            (503, "late", "later", "1", "not_sent"),
            (
                late.status,
                late.json["name"],
                late.json["retry"],
                late.fields["retry-after"],
                late.fields["x-counter"],
            ),
        )
        text = await self.post("/weighings", FIRST + "&at=1")
        self.assertEqual((b"counter late\n", "1"), (text.body, text.fields["retry-after"]))
        for fields, status, name in (
            ({"Origin": "http://elsewhere.example"}, 403, "other_site"),
            ({"Sec-Fetch-Site": "cross-site"}, 403, "other_site"),
        ):
            answer = await self.ask("POST", "/weighings", b"", **JSON, **fields)
            self.assertEqual((status, name), (answer.status, answer.json["name"]))
            self.assertNotIn("x-counter", answer.fields)

    async def test_no_answer_of_the_office(self) -> None:
        await self.drives_on(18340)
        self.service.is_mute = True
        for method, target in (
            ("GET", "/indication"),
            ("GET", "/tickets/1"),
            ("GET", "/entries/1"),
            ("GET", "/keys/K1"),
            ("POST", "/weighings"),
        ):
            body = FIRST.encode() if method == "POST" else None
            answer = await self.ask(method, target, body, **JSON)
            self.is_described(method, target, answer)
            self.assertEqual(
                (502, "no_answer", "later", "1"),
                (
                    answer.status,
                    answer.json["name"],
                    answer.json["retry"],
                    answer.fields["retry-after"],
                ),
                target,
            )

    async def test_other_routes_refuse_in_the_same_form(self) -> None:
        for target, status, name, field in (
            ("/entries?limit=0", 422, "bad_value", "limit"),
            ("/entries?limit=1001", 422, "bad_value", "limit"),
            ("/tickets?after=x", 422, "bad_value", "after"),
            ("/vehicles?journal=1", 422, "bad_value", "journal"),
            ("/tickets?journal=" + 32 * "0", 409, "other_journal", None),
        ):
            answer = await self.ask("GET", target)
            self.is_described("GET", target, answer)
            self.assertEqual(
                (status, name, field, "never"),
                (answer.status, *(answer.json[it] for it in ("name", "field", "retry"))),
            )
            self.assertIn("why", answer.json)


class OfThePage(Asked):
    """The routes that answer JSON in any case have a refusal's names too for a client that asks for JSON."""

    async def refused(
        self, method: str, target: str, path: str, body: bytes, wanted: dict[str, Any], name: str
    ) -> None:
        plain = await self.ask(method, target, body)
        shown = await self.ask(method, target, body, **JSON)
        for it in (plain, shown):
            self.assertEqual([], list(faults_of(method, path, it)), (method, target, it))
        self.assertEqual(json.dumps(wanted).encode(), plain.body, "as it was")
        names = Refusal("gone").shown().keys()
        self.assertEqual(plain.status, shown.status)
        self.assertEqual(wanted, {it: value for it, value in shown.json.items() if it not in names})
        self.assertEqual(
            (name, Refusal(name).meaning().retry), (shown.json["name"], shown.json["retry"])
        )

    async def test_each_refusal(self) -> None:
        await self.drives_on(18340)
        await self.weighed(FIRST)
        await self.post("/voids", "key=K2&plate=AB-12")
        given, papers = "/entries/{number}/given", "/papers/{number}"
        kg = 'send {"kg": a whole number}'
        lines = "send texts, by the names goods, order, driver"
        for row in (
            ("POST", "/papers/1", papers, b"printer=x", {"why": "no_printer"}, "no_printer"),
            ("POST", "/papers/1", papers, b"", {"why": "no_printer"}, "no_printer"),
            ("PUT", "/entries/1/given", given, b"[]", {"why": lines}, "bad_value"),
            ("PUT", "/entries/2/given", given, b'{"goods": ""}', {"why": "void"}, "is_void"),
            ("PUT", "/entries/9/given", given, b"{}", {"why": "refused 16 no_ticket"}, "no_ticket"),
            ("PUT", "/tares/AB-12", "/tares/{plate}", b"{}", {"why": kg}, "bad_value"),
        ):
            await self.refused(*row)

    async def test_a_command_that_the_scale_does_not_answer(self) -> None:
        for fault, status, name in (
            (NotSent(), 503, "not_sent"),
            (Unanswered(), 504, "unanswered"),
        ):

            async def fails(*_: object, it: Exception = fault) -> str:
                raise it

            with mock.patch.object(self.counter, "set_zero", fails), mock.patch.object(
                self.counter, "clear_tare", fails
            ):
                for target in ("/zero", "/tare/clear"):
                    wanted = {"said": None, "why": name}
                    await self.refused("POST", target, target, b"", wanted, name)
                    self.assertEqual(status, (await self.post(target, "")).status)

    async def test_a_disk_that_takes_no_file(self) -> None:
        async def fails(*_: object) -> None:
            raise NoFile

        with mock.patch.object(self.counter.tares, "drop", fails):
            wanted = {"why": "no_file"}
            await self.refused("DELETE", "/tares/A", "/tares/{plate}", b"", wanted, "no_file")
            answer = await self.ask("DELETE", "/tares/A")
            self.assertEqual((503, "5"), (answer.status, answer.fields["retry-after"]))


class Repeated(Asked):
    NAME = "idempotency-replayed"

    async def test_an_answer_says_if_it_was_given_before(self) -> None:
        await self.drives_on(18340)
        self.assertEqual("false", (await self.weighed(FIRST)).fields[self.NAME])
        for fields in (NOTHING, JSON):
            self.assertEqual("true", (await self.weighed(FIRST, **fields)).fields[self.NAME])
        await self.drives_on(100)
        refused = await self.post("/weighings", "key=K2&kind=first&plate=CD-34")
        self.assertEqual((409, "false"), (refused.status, refused.fields[self.NAME]))
        await self.drives_on(8140)
        again = await self.weighed("key=K2&kind=first&plate=CD-34")
        self.assertEqual("false", again.fields[self.NAME])

    async def test_after_a_lost_answer_nobody_knows(self) -> None:
        await self.drives_on(18340)
        self.service.is_mute = True
        lost = await self.post("/weighings", FIRST)
        self.assertEqual((502, False), (lost.status, self.NAME in lost.fields))
        self.service.is_mute = False
        self.assertNotIn(self.NAME, (await self.weighed(FIRST)).fields)
        self.assertEqual("true", (await self.weighed(FIRST)).fields[self.NAME])

    async def test_after_another_client_s_entry_nobody_knows(self) -> None:
        await self.drives_on(18340)
        await self.at_office("POST", "/weighings", "key=K0&kind=first&plate=ZZ-1")
        await self.drives_on(8140)
        self.assertNotIn(self.NAME, (await self.weighed(FIRST)).fields)

    async def test_an_older_entry_of_another_client_is_not_called_new(self) -> None:
        await self.drives_on(18340)
        await self.at_office("POST", "/weighings", FIRST)
        await asyncio.sleep(1.1)
        self.assertNotIn(self.NAME, (await self.weighed(FIRST)).fields)

    async def test_after_a_refusal_that_shows_another_client_nobody_knows(self) -> None:
        await self.drives_on(18340)
        await self.weighed(FIRST)
        refused = await self.post("/weighings", "key=K2&kind=first&plate=CD-34")
        self.assertEqual(
            (b"refused 11 not_cleared\n", "false"), (refused.body, refused.fields[self.NAME])
        )
        await self.drives_on(8140)
        self.assertNotIn(self.NAME, (await self.weighed("key=K2&kind=first&plate=CD-34")).fields)

    async def test_other_routes_do_not_say_it(self) -> None:
        self.assertNotIn(self.NAME, (await self.ask("GET", "/indication")).fields)


class Heads(Asked):
    async def test_head_has_the_fields_of_get_and_no_body(self) -> None:
        await self.drives_on(18340)
        await self.weighed("key=K1&kind=first&plate=AB-12")
        for target in (
            "/",
            "/indication",
            "/entries/1",
            "/entries?after=0",
            "/tickets?after=0",
            "/vehicles",
            "/tickets/9",
            "/none",
            "/keys/K1",
            "/openapi.json",
            "/today",
        ):
            for fields in (NOTHING, JSON):
                got = await self.ask("GET", target, **fields)
                head = await self.ask("HEAD", target, **fields)
                self.assertEqual((got.status, b""), (head.status, head.body), target)
                for name in ("content-type", "content-length", "etag", "cache-control"):
                    self.assertEqual(got.fields.get(name), head.fields.get(name), (target, name))

    async def test_head_of_the_event_stream_ends(self) -> None:
        head = await asyncio.wait_for(self.ask("HEAD", "/events"), 30)
        self.assertEqual(
            (200, "text/event-stream", b""), (head.status, head.fields["content-type"], head.body)
        )
        self.assertEqual(0, len(self.counter.pages.open))

    async def test_the_stream_says_that_it_does_not_resume(self) -> None:
        reader, writer = await asyncio.open_connection("127.0.0.1", self.port)
        fields = f"Host: 127.0.0.1:{self.port}\r\nLast-Event-ID: 7\r\n"
        writer.write(f"GET /events HTTP/1.1\r\n{fields}\r\n".encode())
        got = await asyncio.wait_for(reader.readuntil(b"event: state"), 30)
        writer.close()
        (hello,) = re.findall(rb"event: hello\ndata: (.*)\n", got)
        self.assertIs(False, json.loads(hello)["resumed"])
        self.assertNotIn(b"\nid:", got)

    async def test_head_is_answered_after_a_standstill(self) -> None:
        with mock.patch.object(self.counter.terminal, "is_in_doubt", lambda: True):
            self.assertEqual(200, (await self.ask("HEAD", "/time")).status)
            self.assertEqual(503, (await self.post("/weighings", FIRST)).status)


class Bodies(unittest.TestCase):
    def refused(self, body: bytes, target: str = "/weighings") -> tuple[int, str, str | None]:
        with self.assertRaises(BadBody) as found:
            form_of(AS_JSON, body, FIELDS[target])
        return found.exception.status, found.exception.refusal.name, found.exception.refusal.field

    def test_an_object_is_the_form_with_its_values(self) -> None:
        for body, form in (
            (b'{"key": "K1", "kind": "first", "plate": "AB-12"}', FIRST.encode()),
            (b' {"tare": 5000, "at": 0} ', b"tare=5000&at=0"),
            (b'{"once": true}', b"once=1"),
            (b'{"once": false}', b""),
            (b"{}", b""),
            ('{"goods": "Kies & Öl=1"}'.encode(), b"goods=Kies+%26+%C3%96l%3D1"),
            (b'{"goods": ""}', b"goods="),
        ):
            self.assertEqual(form, form_of(AS_JSON, body, FIELDS["/weighings"]))

    def test_a_form_passes_as_it_came(self) -> None:
        for kind in ("application/x-www-form-urlencoded", "application/octet-stream", "text/json"):
            self.assertEqual(b'{"\xff', form_of(kind, b'{"\xff', FIELDS["/voids"]))

    def test_what_is_no_json_object_is_malformed(self) -> None:
        deep = b"[" * 1000
        for body in (
            *(b"", b"x", b"{", b"[]", b"1", b'"a"', b"null", b"key=K1", b'{"key": "K1",}'),
            *(b'{"key": "\xff"}', b'{"key": "K1"}x', b"{'key': 'K1'}", deep, b'{"a":' * 300),
            *(b'{"tare": NaN}', b'{"tare": Infinity}', b'{"tare": -Infinity}'),
            '{"key": "K1"}'.encode("utf-16"),
        ):
            self.assertEqual((400, "malformed", None), self.refused(body), body[:40])

    def test_a_name_twice_is_named(self) -> None:
        self.assertEqual((422, "bad_value", "key"), self.refused(b'{"key": "K1", "key": "K1"}'))
        self.assertEqual((422, "bad_value", "x"), self.refused(b'{"key": {"x": 1, "x": 1}}'))

    def test_another_type_is_named(self) -> None:
        for name, values in (
            ("key", ("1", "null", "true", "[]", "{}", '["K1"]', "1.5")),
            ("plate", ("1", "null", "false")),
            ("tare", ('"5000"', "5000.0", "5e3", "true", "null", "[5000]", "1e999")),
            ("at", ('"1"', "1.5", "true")),
            ("once", ("1", '"1"', "null")),
            ("goods", ("1", "null", '{"a": 1}', '"\\ud800"')),
        ):
            for value in values:
                body = f'{{"{name}": {value}}}'.encode()
                self.assertEqual((422, "bad_value", name), self.refused(body), body)

    def test_another_name_is_named_and_bounded(self) -> None:
        self.assertEqual((422, "unknown_field", "Tare"), self.refused(b'{"Tare": 1}'))
        self.assertEqual((422, "unknown_field", "tare"), self.refused(b'{"tare": 1}', "/voids"))
        self.assertEqual(
            (422, "unknown_field", 60 * "a"), self.refused(b'{"%s": 1}' % (500 * b"a"))
        )
        self.assertEqual((422, "unknown_field", "?"), self.refused(b'{"\\ud800": 1}'))

    def test_the_field_of_a_good_form_is_not_known(self) -> None:
        self.assertIsNone(bad_field("/weighings", FIRST.encode()))
        self.assertIsNone(bad_field("/voids", b"key=K1&plate=A"))
        self.assertEqual("kind", bad_field("/weighings", b"key=K1&plate=A&kind=void"))


class BodiesOverSockets(Asked):
    async def test_a_refused_body_changes_nothing(self) -> None:
        await self.drives_on(18340)
        for body, status, name, field in (
            (b"{", 400, "malformed", None),
            (b'{"key": "K1", "kind": "first", "plate": 7}', 422, "bad_value", "plate"),
            (b'{"key": "K1", "kind": "first", "plate": "A", "x": 1}', 422, "unknown_field", "x"),
            (b'{"key": "%s"}' % (3000 * b"k"), 413, "too_large", None),
        ):
            for target in ("/weighings", "/voids"):
                text = await self.ask("POST", target, body, Content_Type=AS_JSON)
                self.assertEqual(
                    (status, "text/plain; charset=utf-8"),
                    (text.status, text.fields["content-type"]),
                )
                if target == "/weighings":
                    self.assertEqual(f"fault {status} {name}\n".encode(), text.body)
                    _, what = await self.json_of("POST", target, body, Content_Type=AS_JSON)
                    self.assertEqual(
                        (name, field, "never"), tuple(what[it] for it in ("name", "field", "retry"))
                    )
                if status != 413:
                    self.assertEqual("not_sent", text.fields["x-counter"])
        self.assertEqual(([], []), (self.service.posts(), self.service.rows))

    async def test_a_body_goes_to_the_office_as_the_form(self) -> None:
        await self.drives_on(18340)
        body = b'{"plate": "AB-12", "kind": "first", "key": "K1", "order": "7"}'
        for kind in ("application/json", "Application/JSON; charset=utf-8"):
            answer = await self.ask("POST", "/weighings", body, Content_Type=kind)
            self.assertEqual(201, answer.status)
        wanted = {"plate": "AB-12", "kind": "first", "key": "K1"}
        self.assertEqual([wanted, wanted], self.service.posts())

    async def test_a_printer_is_named_in_json_too(self) -> None:
        answer = await self.ask("POST", "/papers/1", b'{"printer": 1}', Content_Type=AS_JSON)
        self.assertEqual((422, b"fault 422 bad_value\n"), (answer.status, answer.body))
        answer = await self.ask("POST", "/papers/1", b'{"printer": "x"}', Content_Type=AS_JSON)
        self.assertEqual((422, {"why": "no_printer"}), (answer.status, answer.json))


class TheCatalogue(unittest.TestCase):
    def test_each_name_has_its_words_and_when_to_ask_again(self) -> None:
        for name, it in catalogue().items():
            self.assertIn(it.retry, RETRIES, name)
            self.assertTrue(it.words, name)
        self.assertEqual(
            {"never", "later", "after_restart", "with_new_key"},
            {it.retry for it in catalogue().values()},
        )

    def test_each_name_that_the_counter_answers_is_there(self) -> None:
        code = "".join(
            it.read_text(encoding="utf-8") for it in (FOLDER / "weighbridge_counter").glob("*.py")
        )
        names = set(re.findall(r'(?:own|not_sent)\(\d+, "(\w+)"\)|Refusal\("(\w+)"', code))
        found = {own or other for own, other in names}
        found |= set(re.findall(r'\d{3}: "(\w+)"', code))
        self.assertGreater(len(found), 20)
        self.assertEqual(set(), found - set(catalogue()))

    def test_what_to_do(self) -> None:
        for name, retry, after in (
            ("key_reused", "with_new_key", None),
            ("gone", "never", None),
            ("below_min", "later", None),
            ("not_cleared", "with_new_key", None),
            ("store", "after_restart", None),
            ("damaged", "never", None),
            ("busy", "later", "1"),
            ("no_answer", "later", "1"),
            ("no_file", "later", "5"),
            ("of_a_later_version", "later", None),
        ):
            it = Refusal(name)
            self.assertEqual(
                (retry, after), (it.meaning().retry, it.fields().get("Retry-After")), name
            )

    def test_only_whole_refusals_are_read(self) -> None:
        self.assertEqual(Refusal("below_min", 8), refusal_in("refused 8 below_min\n"))
        self.assertEqual(Refusal("bad_field"), refusal_in("fault 422 bad_field\n"))
        for text in (
            "",
            "refused 8 below_min",
            "refused 8 below_min\nx",
            "counter busy\n",
            "refused x y\n",
        ):
            self.assertIsNone(refusal_in(text))

    def test_a_catalogue_with_a_gap_is_refused(self) -> None:
        text = FILE.read_text(encoding="utf-8")
        for broken in (
            text + "99 of_a_later_version Words.\n",
            text + "retry never - unheard_of\n",
            text + "retry sometimes - gone\n",
            text + "retry never - gone\n",
        ):
            with self.assertRaises(ValueError):
                catalogue_of(broken)

    def test_each_type_of_a_body_is_one_of_json(self) -> None:
        types = {it for fields in bodies.FIELDS.values() for it in fields.values()}
        self.assertLessEqual(types, {str, int, bool})


if __name__ == "__main__":
    unittest.main()
