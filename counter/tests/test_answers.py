"""The table of docs/answers.md is as the counter answers: clients/answers.py plays it over a played service."""

import asyncio
import contextlib
import importlib.util
import io
import json
import re
import sys
import tempfile
import unittest
from pathlib import Path
from types import ModuleType
from unittest import mock

from .served import FOLDER, WithCounter, free_port

CLIENTS = FOLDER.parent / "clients"
PAGE = FOLDER.parent / "docs" / "answers.md"
NO_SUCH_NAME = "| `409 refused 18 unheard_of` | office | no | later | clerk |\n"


def script() -> ModuleType:
    spec = importlib.util.spec_from_file_location("answers_of_clients", CLIENTS / "answers.py")
    assert spec is not None and spec.loader is not None
    module = importlib.util.module_from_spec(spec)
    with mock.patch.object(sys, "dont_write_bytecode", True):
        spec.loader.exec_module(module)
    return module


ANSWERS = script()


class Played(WithCounter):
    async def asyncSetUp(self) -> None:
        await super().asyncSetUp()
        self.load = free_port()
        self.loads = await asyncio.start_server(self.put, "127.0.0.1", self.load)

    async def asyncTearDown(self) -> None:
        self.loads.close()
        await super().asyncTearDown()

    async def put(self, reader: asyncio.StreamReader, writer: asyncio.StreamWriter) -> None:
        """Put a load on the bridge as the played bridge of the demo does. It moves until somebody asks for the indication."""
        head = (await reader.readuntil(b"\r\n\r\n")).decode()
        length = re.search(r"Content-Length: (\d+)", head)
        assert length is not None
        scale = self.service.scale
        scale.kg = json.loads(await reader.readexactly(int(length[1])))["kg"]
        scale.state = "D"
        writer.write(b"HTTP/1.1 200 OK\r\nContent-Length: 2\r\nConnection: close\r\n\r\n{}")
        writer.close()

    async def run_script(self, *words: str) -> tuple[int, str]:
        said = io.StringIO()
        address = f"http://127.0.0.1:{self.port}"

        def run() -> int:
            with contextlib.redirect_stdout(said), contextlib.redirect_stderr(said):
                try:
                    return int(ANSWERS.main([address, *words]))
                except SystemExit as end:
                    return int(end.code or 0)

        status = await asyncio.get_running_loop().run_in_executor(None, run)
        return status, said.getvalue()

    async def with_page(self, page: str, *words: str) -> tuple[int, str]:
        with tempfile.TemporaryDirectory() as folder:
            path = Path(folder) / "answers.md"
            path.write_text(page, encoding="utf-8")
            return await self.run_script("--table", str(path), *words)

    async def test_each_row_that_can_be_played_is_as_the_table_says(self) -> None:
        status, said = await self.run_script("--load", f"http://127.0.0.1:{self.load}")
        self.assertEqual(0, status, said)
        played = {it.removesuffix(": ok") for it in said.splitlines() if it.endswith(": ok")}
        of_office = {it for it in ANSWERS.PLAYS if it.startswith(("411 ", "431 "))}
        self.assertEqual(ANSWERS.PLAYS.keys() - of_office, played, said)
        opened = [it for it in self.service.rows if it[2] == "first"]
        voided = [it for it in self.service.rows if it[2] == "void"]
        self.assertGreater(len(opened), 5)
        self.assertEqual({it[3] for it in opened}, {it[3] for it in voided})

    async def test_without_a_load_the_others_are_played(self) -> None:
        status, said = await self.run_script()
        self.assertEqual(0, status, said)
        self.assertIn("201: not played: it needs a load", said)
        self.assertIn("422 counter bad_at: ok", said)
        self.assertIn("429: not played: it needs nginx", said)
        self.assertEqual([], self.service.rows)

    async def test_a_wrong_row_is_found(self) -> None:
        page = PAGE.read_text(encoding="utf-8")
        for row, wrong in (
            (
                "`422 counter bad_at` | counter | no | never",
                "`422 counter bad_at` | counter | no | later",
            ),
            ("| `404 fault 404 no_route` |", "| `405 fault 405 no_route` |"),
            ("| `503 counter busy` | counter | no | later | till |\n", ""),
            ("| `301` |", NO_SUCH_NAME + "| `301` |"),
            (
                "`422 fault 422 bad_field` | office | no |",
                "`422 fault 422 bad_field` | office | yes |",
            ),
        ):
            self.assertEqual(1, page.count(row), row)
            status, said = await self.with_page(page.replace(row, wrong))
            self.assertEqual(1, status, (row, said))
        for other in ("| Answer |", page.replace("| till |", "| till? |"), ""):
            status, said = await self.with_page(other)
            self.assertEqual(2, status, said)

    async def test_a_counter_that_is_not_there(self) -> None:
        self.port = free_port()
        status, said = await self.run_script()
        self.assertEqual(2, status, said)


class TheTable(unittest.TestCase):
    def rows(self) -> list[tuple[str, ...]]:
        return [tuple(it) for it in ANSWERS.rows_of(PAGE.read_text(encoding="utf-8"), str(PAGE))]

    def test_each_answer_is_there_once(self) -> None:
        seen = [(answer, source) for answer, source, *_ in self.rows()]
        self.assertEqual(len(set(seen)), len(seen))
        self.assertEqual(
            {"office", "counter", "office, counter", "nginx", "network"},
            {source for _, source in seen},
        )

    def test_a_row_that_is_played_is_compared_with_what_came(self) -> None:
        row, bridge = ANSWERS.Row("x", "counter", "no", "later", "till"), mock.Mock()
        bridge.has = lambda key: key == "stored"
        for seen, is_same in (
            (ANSWERS.Seen("x", "later", "free"), True),
            (ANSWERS.Seen("x", None, None), True),
            (ANSWERS.Seen("y", "later", "free"), False),
            (ANSWERS.Seen("x", "never", "free"), False),
            (ANSWERS.Seen("x", "later", "stored"), False),
        ):
            with mock.patch.dict(ANSWERS.PLAYS, {"x": lambda bridge, it=seen: it}):
                if is_same:
                    ANSWERS.play(row, bridge)
                    continue
                with self.assertRaises(ANSWERS.Differs):
                    ANSWERS.play(row, bridge)

    def test_each_status_of_nginx_s_example_is_there(self) -> None:
        text = (FOLDER.parent / "packaging" / "counter" / "nginx.conf").read_text(encoding="utf-8")
        named = set(re.findall(r"(?:return|_status) +(\d{3})", text)) - {"444"}
        self.assertGreater(len(named), 2)
        known = {answer for answer, source, *_ in self.rows() if source == "nginx"}
        self.assertLessEqual(named, known)


if __name__ == "__main__":
    unittest.main()
