"""Gives the parsers of the counter and of the papers inputs by chance. Each either reads an input or refuses it by its own error.

Needs hypothesis, which is left out where the distribution's package isn't installed.
"""

import asyncio
import contextlib
import io
import json
import os
import tempfile
import unittest
import urllib.parse
from collections import Counter as Counts
from pathlib import Path
from types import SimpleNamespace
from typing import cast

from weighbridge_counter.accepts import wants_json
from weighbridge_counter.acts import Acts, Told
from weighbridge_counter.bodies import FIELDS as BODIES
from weighbridge_counter.bodies import BadBody, form_of
from weighbridge_counter.counter import Counter
from weighbridge_counter.files import Files
from weighbridge_counter.health import health_of
from weighbridge_counter.metrics import metrics_of
from weighbridge_counter.office import Answer, Office
from weighbridge_counter.setup import Setup, read_setup
from weighbridge_counter.shown import NotUnderstood, indication_shown
from weighbridge_counter.terminal import Connection, Terminal
from weighbridge_counter.values import reply_of, value_of
from weighbridge_paper.export import COLUMNS, HEADER, NoExport, rows_of
from weighbridge_paper.reader import SetupFault
from weighbridge_paper.text import NoText, read_text, written

from .papers import USUAL

SCRATCH = tempfile.TemporaryDirectory()
try:
    os.environ["HYPOTHESIS_STORAGE_DIRECTORY"] = SCRATCH.name
    from hypothesis import HealthCheck, example, given, settings
    from hypothesis import strategies as some
except ImportError:
    raise unittest.SkipTest("hypothesis isn't installed") from None

FOLDER = Path(__file__).resolve().parent.parent
TEXTS = [it.text for it in USUAL.values()]
settings.register_profile(
    "here",
    max_examples=200,
    deadline=None,
    database=None,
    derandomize=True,
    suppress_health_check=list(HealthCheck),
)
settings.load_profile("here")
FIELDS = {
    "number": ("1", "2", "4294967295", "01", "-1", "٣", ""),
    "key": ("K1", "-", "", "a b", "k" * 33),
    "kind": ("first", "second", "single", "void", "First", ""),
    "plate": ("AB-1", "", "ab", "A" * 13),
    "moment": ("2026-11-30 12:00:00", "2026-02-30 12:00:00", "0000-00-00 00:00:00", "now"),
    "gross_kg": ("", "100", "0100", "1e3", "9" * 5000),
    "preset_kg": ("", "5", "+5"),
    "interval_kg": ("20", "", "x"),
    "max_kg": ("50000", "\x00"),
    "serial": ("WB1", "", "wb"),
    "digest": ("a" * 64, "a" * 65, '"', "é"),
    "previous": ("0" * 64, "\n", ""),
}
RECORD = f"1,K1,first,AB-1,2026-11-30 12:00:00,100,,20,50000,WB1,{'a' * 64},{'0' * 64}"
ANY_JSON = some.recursive(
    some.none() | some.booleans() | some.integers() | some.floats() | some.text(max_size=8),
    lambda inner: some.lists(inner, max_size=3)
    | some.dictionaries(
        some.sampled_from(
            [
                "told",
                *"service is_set at by known first last digest serial why before now kg".split(),
            ]
            + "until used number plate step AB-1".split()
        ),
        inner,
        max_size=5,
    ),
    max_leaves=12,
)


FIELDS_OF_A_BODY = BODIES["/weighings"]
JSON_VALUE = some.booleans() | some.integers() | some.text(max_size=8) | some.none()
REFUSED_BODIES = ((400, "malformed"), (422, "bad_value"), (422, "unknown_field"))


@some.composite
def changed(draw: some.DrawFn, texts: list[str]) -> str:
    """Return a text of which a piece is removed, doubled, or replaced by any letters."""
    text = draw(some.sampled_from(texts))
    for _ in range(draw(some.integers(1, 3))):
        at, end = sorted(draw(some.tuples(*[some.integers(0, len(text))] * 2)))
        piece = draw(some.sampled_from(["", text[at:end] * 2]) | some.text(max_size=4))
        text = text[:at] + piece + text[end:]
    return text


class LinesOfTheTerminal(unittest.TestCase):
    @example("S S            kg")
    @given(some.text(alphabet="SDI+- 0123456789kg\r\n²٣", max_size=24) | some.text(max_size=24))
    def test_a_line_is_a_value_only_as_the_terminal_writes_it(self, line: str) -> None:
        value = value_of(line, 1.0)
        if value is not None:
            wanted = line.removesuffix("\n")
            self.assertEqual(
                reply_of(value).split() if value.state != "I" else ["S", "I"], wanted.split()
            )

    @given(some.lists(some.binary(max_size=12), max_size=8), some.data())
    def test_lines_are_the_same_however_their_bytes_are_cut(
        self, lines: list[bytes], data: some.DataObject
    ) -> None:
        sent = b"\n".join(lines)
        cuts = sorted(data.draw(some.lists(some.integers(0, len(sent)), max_size=6)))
        whole, pieces = list[str](), list[str]()
        for took, parts in (
            (whole, [sent]),
            (pieces, [sent[a:b] for a, b in zip([0, *cuts], [*cuts, len(sent)])]),
        ):
            connection = Connection.__new__(Connection)
            connection.terminal = cast(Terminal, SimpleNamespace(take=took.extend))
            connection.rest = b""
            for it in parts:
                connection.data_received(it)
        self.assertEqual(whole, pieces)


class TextsAndExports(unittest.TestCase):
    @given(changed(TEXTS) | some.text(max_size=600))
    def test_a_text_is_read_only_as_the_office_writes_it(self, letters: str) -> None:
        try:
            found = read_text(letters)
        except NoText as fault:
            self.assertTrue(str(fault))
        else:
            self.assertEqual(letters, written(found))
            self.assertLessEqual(len(letters.encode()), 512)

    @example([RECORD] * 2)
    @given(
        some.lists(
            some.tuples(*(some.sampled_from(FIELDS[it]) for it in COLUMNS)).map(",".join),
            max_size=4,
        )
    )
    def test_an_export_is_read_or_refused(self, lines: list[str]) -> None:
        self.is_read_or_refused("".join(f"{it}\n" for it in [HEADER, *lines]))

    @given(changed([f"{HEADER}\n{RECORD}\n"]))
    def test_a_changed_export_is_read_or_refused(self, export: str) -> None:
        self.is_read_or_refused(export)

    def is_read_or_refused(self, export: str) -> None:
        last = 0
        try:
            for row in rows_of(export):
                self.assertGreater(row.number, last)
                last = row.number
        except NoExport as fault:
            self.assertTrue(str(fault))


class Requests(unittest.TestCase):
    @given(
        some.binary(max_size=60)
        | some.lists(
            some.sampled_from(
                "key=K1 kind=single kind=first plate=AB-1 tare=5 tare= tare=99999999 once=1 once= at=1 at=x goods=%ff &&= %".split()
            ),
            max_size=6,
        ).map(lambda parts: "&".join(parts).encode())
    )
    def test_a_body_reaches_the_office_without_what_is_not_for_it(self, body: bytes) -> None:
        asked = list[bytes | None]()

        class Refusing(Office):
            async def ask(
                self, method: str, target: str, body: bytes | None = None, within: float = 15.0
            ) -> Answer:
                asked.append(body)
                return Answer(409, "text/plain", b"refused 11 not_cleared\n")

        async def act() -> Told:
            with tempfile.TemporaryDirectory() as folder:
                tared = SimpleNamespace(clock=lambda: 0.0, fanout=SimpleNamespace(tare=5))
                terminal, office = cast(Terminal, tared), Refusing(("127.0.0.1", 1))
                acts = Acts(terminal, office, Files(Path(folder)), 20, Counts())
                return await acts.carry_out("/weighings", body)

        told = asyncio.run(act())
        if asked:
            kept = [
                it
                for it in body.split(b"&")
                if not it.startswith((b"goods=", b"order=", b"driver=", b"once=", b"at="))
            ]
            self.assertEqual([b"&".join(kept)], asked)
        else:
            self.assertFalse(told.is_sent)


class Wishes(unittest.TestCase):
    @given(
        some.dictionaries(some.sampled_from([*FIELDS_OF_A_BODY, "x"]), JSON_VALUE, max_size=6).map(
            lambda it: json.dumps(it).encode()
        )
        | some.binary(max_size=40)
        | ANY_JSON.map(lambda it: json.dumps(it).encode())
    )
    def test_a_json_body_is_a_form_with_its_values_or_is_refused(self, body: bytes) -> None:
        try:
            form = form_of("application/json", body, FIELDS_OF_A_BODY)
        except BadBody as fault:
            self.assertIn((fault.status, fault.refusal.name), REFUSED_BODIES)
            self.assertTrue(fault.refusal.meaning().words)
            json.dumps(fault.refusal.shown()).encode("utf-8")
            return
        pairs = urllib.parse.parse_qsl(
            form.decode("ascii"), keep_blank_values=True, strict_parsing=bool(form)
        )
        shown = {name: str(it) for name, it in json.loads(body).items() if it is not False}
        self.assertEqual(shown, {name: "True" if name == "once" else it for name, it in pairs})

    @given(
        some.lists(some.text(alphabet='application/json text*;q=0.1,"\\', max_size=60), max_size=3)
    )
    def test_any_accept_is_a_wish_for_json_or_for_the_text(self, fields: list[str]) -> None:
        if wants_json(fields):
            self.assertTrue(any("application/" in it.lower() or "*/*" in it for it in fields))
            self.assertFalse(
                wants_json([*fields, "text/plain"]) and not any(";" in it for it in fields)
            )

    @given(some.text(alphabet="STABLEMOVINGDRUNO GN-0123456789kg\n٣", max_size=50))
    def test_an_indication_is_read_or_refused(self, letters: str) -> None:
        with contextlib.suppress(NotUnderstood):
            self.assertEqual(letters, indication_shown(letters)["text"])


class OwnFiles(unittest.IsolatedAsyncioTestCase):
    """Files of the counter's state that somebody else wrote. The counter starts over each."""

    @given(
        some.dictionaries(
            some.sampled_from("act.json journal.json once.json tares.json zero.json".split()),
            ANY_JSON.map(lambda it: json.dumps(it).encode()) | some.binary(max_size=30),
            max_size=5,
        )
    )
    @settings(max_examples=50)
    def test_the_counter_starts(self, files: dict[str, bytes]) -> None:
        async def start() -> None:
            with tempfile.TemporaryDirectory() as name:
                folder = Path(name)
                for it, content in files.items():
                    (folder / it).write_bytes(content)
                with contextlib.redirect_stderr(io.StringIO()):
                    counter = Counter(Setup(state=folder, once=True), lambda address: None)
                    for what in (counter.state(), counter.hello(), health_of(counter)):
                        json.dumps(what)
                    json.dumps(counter.tares.all_shown())
                    metrics_of(counter)
                counter.printing.notes.shutdown()

        asyncio.run(start())

    @given(
        some.dictionaries(
            some.sampled_from(
                "listen terminal office state interval once serial hosts zone languages demo port scoreboard papers nonsense".split()
            ),
            some.sampled_from(
                [
                    '""',
                    '"127.0.0.1:880"',
                    "1",
                    "true",
                    "[]",
                    '["a"]',
                    "{}",
                    "1979-05-27",
                    '"ä"',
                    "nan",
                    "-1",
                ]
            ),
            max_size=6,
        )
    )
    def test_a_setup_is_read_or_each_mistake_is_named(self, keys: dict[str, str]) -> None:
        with tempfile.TemporaryDirectory() as folder:
            path = Path(folder) / "setup.toml"
            path.write_text("".join(f"{key} = {value}\n" for key, value in keys.items()))
            try:
                read_setup(path, FOLDER / "web")
            except SetupFault as fault:
                self.assertTrue(fault.mistakes)
                for it in fault.mistakes:
                    self.assertRegex(it, ".: .")


if __name__ == "__main__":
    unittest.main()
