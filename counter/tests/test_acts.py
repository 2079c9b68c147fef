"""A tare belongs to one weighing: acts over a terminal and an office that are played, on a clock of their own."""

import asyncio
import contextlib
import io
import socket
import tempfile
import unittest
from collections import Counter
from collections.abc import Awaitable, Callable, Mapping
from functools import partial
from pathlib import Path
from typing import Any, TypeVar

from weighbridge_counter.acts import ACT_FILE, Acts, Told
from weighbridge_counter.files import Files, found_in
from weighbridge_counter.office import Answer, NoAnswer, Office
from weighbridge_counter.terminal import Terminal

from .played import PlayedTerminal, at_once

TICKET = """WEIGHING TICKET 7
PLATE AB-12
SINGLE NO 7
AT 2025-03-10 08:00:00
G      18340 kg
PT       5000 kg
E 20 kg MAX 60000 kg SERIAL WB01
DIGEST 1cabf2920d3f2cb68d9c21efffa641b493539d7d18d6f67f249f4e51ec86c1b5
N      13340 kg
"""
Outcome = TypeVar("Outcome")
BODY = b"key=K1&kind=single&plate=AB%2D12&tare=5000"


class PlayedOffice:
    """Answers each request with the next of its answers, and keeps what the tare was."""

    def __init__(self, played: PlayedTerminal, *answers: tuple[int, str] | None) -> None:
        self.played, self.answers = played, list(answers)
        self.bodies: list[bytes | None] = []
        self.tares: list[int] = []

    async def ask(
        self, method: str, target: str, body: bytes | None = None, within: float = 15.0
    ) -> Answer:
        self.bodies.append(body)
        self.tares.append(self.played.tare)
        answer = self.answers.pop(0)
        if answer is None:
            raise NoAnswer("cut")
        return Answer(answer[0], "text/plain", answer[1].encode())


class Bridge:
    def __init__(self, folder: str, *answers: tuple[int, str] | None) -> None:
        self.played: Any = PlayedTerminal()
        self.terminal = Terminal(("127.0.0.1", 1), 20, self.played.clock)
        self.terminal.fanout = self.played.fanout
        self.files = Files(Path(folder), at_once)
        self.office = PlayedOffice(self.played, *answers)
        self.acts = Acts(self.terminal, self.office, self.files, 20, Counter())
        self.acts.pause = self.pause
        self.texts: list[str] = []
        self.acts.on_text.append(lambda text, asked: self.texts.append(text))
        self.played.connect()
        self.played.reading(3)
        self.played.fanout.settle()

    async def pause(self, seconds: float) -> None:
        self.played.pass_time(seconds)

    def on_disk(self) -> Any:
        return found_in(self.files.path(ACT_FILE))

    async def until(
        self,
        work: Awaitable[Outcome],
        at_reading: Callable[[int], object] = lambda number: None,
        most: int = 200,
    ) -> Outcome:
        """Lets readings pass until the work is done, and all that it began."""
        task = asyncio.ensure_future(work)
        for number in range(most):
            for _ in range(5):
                await asyncio.sleep(0)
            if task.done() and not self.acts.tasks:
                await self.files.bring()
                return task.result()
            at_reading(number)
            self.played.reading()
        raise AssertionError("it doesn't come to its end")


class WithABridge(unittest.IsolatedAsyncioTestCase):
    def bridge(self, *answers: tuple[int, str] | None) -> Bridge:
        folder = tempfile.TemporaryDirectory()
        self.addCleanup(folder.cleanup)
        self.folder = folder.name
        return Bridge(folder.name, *answers)

    async def weigh(self, bridge: Bridge, body: bytes = BODY, **how: Any) -> Told:
        return await bridge.until(bridge.acts.carry_out("/weighings", body), **how)


class Passing(WithABridge):
    async def test_a_request_and_its_text_pass_byte_for_byte(self) -> None:
        bridge = self.bridge((201, TICKET))
        told = await self.weigh(bridge, b"kind=first&plate=AB%2D12&key=K1&more=%41")
        self.assertEqual((201, TICKET.encode(), True), (told.status, told.body, told.is_sent))
        self.assertEqual([b"kind=first&plate=AB%2D12&key=K1&more=%41"], bridge.office.bodies)
        self.assertEqual([TICKET], bridge.texts)
        self.assertEqual(["SIR"], bridge.played.sent)

    async def test_free_lines_for_the_paper_stay_with_the_counter(self) -> None:
        for tare in (b"", b"&tare=5000"):
            bridge = self.bridge((201, TICKET))
            seen: list[Mapping[str, str]] = []
            bridge.acts.on_text = [partial(self.keep, seen)]
            told = await self.weigh(
                bridge, b"key=K1&kind=single&goods=Kies+0%2F16&plate=AB%2D12&driver=%C5%81" + tare
            )
            self.assertEqual(
                (201, [b"key=K1&kind=single&plate=AB%2D12"]), (told.status, bridge.office.bodies)
            )
            self.assertEqual(
                [("Kies 0/16", "Ł", "K1")],
                [(it["goods"], it["driver"], it["key"]) for it in seen],
            )

    @staticmethod
    def keep(seen: list[Mapping[str, str]], text: str, asked: Mapping[str, str]) -> None:
        seen.append(asked)

    async def test_a_press_that_was_long_on_its_way_weighs_nothing(self) -> None:
        for ago, status in ((0, 201), (2900, 201), (3100, 503), (600_000, 503), (-5000, 201)):
            for form in (b"key=K1&kind=first&plate=AB%2D12", BODY):
                bridge = self.bridge((201, TICKET))
                at = round(bridge.terminal.clock() * 1000) - ago
                told = await self.weigh(bridge, form + b"&at=%d" % at)
                self.assertEqual((status, status == 201), (told.status, told.is_sent), (ago, form))
                self.assertEqual(int(status == 201), len(bridge.office.bodies))
                self.assertNotIn(b"at=", b"".join(it or b"" for it in bridge.office.bodies))
        for wrong in (b"", b"x", b"-1", b"1e3", b"9" * 16, "\u0663".encode()):
            bridge = self.bridge()
            told = await self.weigh(bridge, b"key=K1&kind=first&plate=AB%2D12&at=" + wrong)
            self.assertEqual(
                (422, b"counter bad_at\n", False), (told.status, told.body, told.is_sent)
            )

    async def test_a_list_that_fails_keeps_no_answer_and_no_other_list(self) -> None:
        bridge, after = self.bridge((201, TICKET)), []

        def fails(text: str, asked: Mapping[str, str]) -> None:
            raise ValueError("x" * 1000)

        bridge.acts.on_text = [fails, lambda text, asked: after.append(text)]
        with contextlib.redirect_stderr(io.StringIO()) as said:
            told = await self.weigh(bridge, b"key=K1&kind=first&plate=AB-12")
        self.assertEqual((201, TICKET.encode()), (told.status, told.body))
        self.assertEqual([TICKET], after)
        self.assertEqual(1, said.getvalue().count("\n"))

    async def test_no_answer_is_told_as_none_and_as_sent(self) -> None:
        told = await self.weigh(self.bridge(None), b"key=K1&kind=first&plate=AB-12")
        self.assertEqual((502, True), (told.status, told.is_sent))

    async def test_an_office_that_is_not_there_is_told_as_no_answer_and_as_sent(self) -> None:
        listener = socket.create_server(("127.0.0.1", 0))
        address = listener.getsockname()
        listener.close()
        bridge = self.bridge()
        bridge.acts.office = Office(address)
        told = await bridge.acts.carry_out("/weighings", b"key=K1&kind=first&plate=AB-12")
        self.assertEqual(
            (502, b"counter no_answer\n", True), (told.status, told.body, told.is_sent)
        )
        self.assertEqual((1, []), (bridge.acts.counts["office_no_answer"], bridge.texts))

    async def test_a_refusal_is_no_text(self) -> None:
        bridge = self.bridge((409, "refused 11 not_cleared\n"))
        told = await self.weigh(bridge, b"key=K1&kind=first&plate=AB-12")
        self.assertEqual(
            (409, b"refused 11 not_cleared\n", []), (told.status, told.body, bridge.texts)
        )


class WithATare(WithABridge):
    async def test_it_is_set_weighed_and_cleared(self) -> None:
        bridge = self.bridge((201, TICKET))
        told = await self.weigh(bridge)
        self.assertEqual((201, TICKET.encode()), (told.status, told.body))
        self.assertEqual(
            ([b"key=K1&kind=single&plate=AB%2D12"], [5000]),
            (bridge.office.bodies, bridge.office.tares),
        )
        self.assertEqual((["TA 5000 kg", "TAC"], 0), (bridge.played.done, bridge.played.tare))
        self.assertIsNone(bridge.on_disk())

    async def test_a_file_says_so_from_before_it_is_set_until_it_is_cleared(self) -> None:
        bridge = self.bridge((201, TICKET))
        seen = {}

        def reply(line: str) -> str | None:
            seen[line] = bridge.on_disk()
            return PlayedTerminal.reply(bridge.played, line)

        bridge.played.reply = reply
        await self.weigh(bridge)
        self.assertEqual(
            ({"kg": 5000}, {"kg": 5000}, None), (seen["TA 5000 kg"], seen["TAC"], bridge.on_disk())
        )

    async def test_none_is_left_whatever_the_office_says(self) -> None:
        for answer in ((409, "refused 7 unstable\n"), (503, "refused 15 store\n"), None):
            bridge = self.bridge(answer)
            await self.weigh(bridge)
            self.assertEqual((0, None), (bridge.played.tare, bridge.on_disk()))

    async def test_one_that_somebody_set_is_refused_by_name_and_stays(self) -> None:
        bridge = self.bridge()
        bridge.played.tare = 3000
        told = await self.weigh(bridge)
        self.assertEqual(
            (409, b"counter tare_set\n", False), (told.status, told.body, told.is_sent)
        )
        self.assertEqual((3000, []), (bridge.played.tare, bridge.office.bodies))

    async def test_one_that_the_scale_refuses_is_told_so(self) -> None:
        bridge = self.bridge()
        bridge.played.reply = (
            lambda line: "TA L"
            if line.startswith("TA ")
            else PlayedTerminal.reply(bridge.played, line)
        )
        told = await self.weigh(bridge)
        self.assertEqual(
            (409, b"counter tare_refused\n", False), (told.status, told.body, told.is_sent)
        )
        self.assertIsNone(bridge.on_disk())

    async def test_a_tare_in_disguise_never_goes_out(self) -> None:
        bridge = self.bridge((201, TICKET))
        await self.weigh(bridge, BODY + b"&%74are=7%0D%0AZ")
        self.assertEqual(["TA 5000 kg", "TAC"], bridge.played.done)

    async def test_what_is_no_tare_of_a_single_never_goes_out(self) -> None:
        for body in (
            b"kind=single&tare=0",
            b"kind=single&tare=-5",
            b"kind=single&tare=5&tare=6",
            b"kind=first&tare=5",
            b"kind=single&tare=12345678",
        ):
            bridge = self.bridge()
            told = await self.weigh(bridge, body)
            self.assertEqual(
                (422, b"counter bad_tare\n", ["SIR"]), (told.status, told.body, bridge.played.sent)
            )

    async def test_a_file_that_can_not_be_written_is_told_and_nothing_is_set(self) -> None:
        bridge = self.bridge()
        bridge.files.folder = Path(self.folder) / "gone"
        with contextlib.redirect_stderr(io.StringIO()) as said:
            told = await self.weigh(bridge)
        self.assertEqual((503, b"counter no_file\n", False), (told.status, told.body, told.is_sent))
        self.assertEqual(
            ([], [], True),
            (
                bridge.played.done,
                bridge.office.bodies,
                "act.json: it can't be written, because No such file" in said.getvalue(),
            ),
        )
        self.assertFalse(bridge.acts.is_busy())

    async def test_without_values_nothing_is_sent(self) -> None:
        bridge = self.bridge()
        bridge.played.pass_time(0.5)
        task = asyncio.ensure_future(bridge.acts.carry_out("/weighings", BODY))
        for _ in range(5):
            await asyncio.sleep(0)
        bridge.played.pass_time(1.5)
        told = await task
        self.assertEqual(
            (503, b"counter no_terminal\n", False), (told.status, told.body, told.is_sent)
        )
        await bridge.files.bring()
        self.assertEqual(([], None), (bridge.played.done, bridge.on_disk()))

    async def test_the_office_is_asked_for_the_next_only_once_it_is_cleared(self) -> None:
        bridge = self.bridge((201, TICKET), (409, "refused 11 not_cleared\n"))
        first = asyncio.ensure_future(bridge.acts.carry_out("/weighings", BODY))
        for _ in range(50):
            bridge.played.reading(0 if bridge.acts.is_busy() else 1)
            for _ in range(5):
                await asyncio.sleep(0)
        self.assertTrue(bridge.acts.is_busy())
        await bridge.until(bridge.acts.carry_out("/weighings", b"key=K2&kind=first&plate=EF-56"))
        self.assertEqual(201, (await first).status)
        self.assertEqual([5000, 0], bridge.office.tares)

    async def test_a_connection_that_ends_within_the_act_leaves_none(self) -> None:
        for cut_at in range(1, 5):
            bridge = self.bridge((201, TICKET))

            def cut(number: int, bridge: Bridge = bridge, cut_at: int = cut_at) -> None:
                if number == cut_at:
                    bridge.played.fanout.ended()
                    bridge.played.connect()

            await self.weigh(bridge, at_reading=cut)
            bridge.played.reading(2)
            await bridge.until(bridge.acts.look())
            self.assertEqual((0, None), (bridge.played.tare, bridge.on_disk()), cut_at)


class AtTheNextStart(WithABridge):
    async def test_a_tare_that_an_act_left_is_cleared_first(self) -> None:
        bridge = self.bridge()
        await bridge.files.write(ACT_FILE, {"kg": 5005}, 1)
        bridge.played.tare = 5000
        bridge.acts = Acts(bridge.terminal, bridge.office, bridge.files, 20, Counter())
        self.assertTrue(bridge.acts.may_be_left)
        await bridge.until(bridge.acts.look())
        self.assertEqual(
            (0, False, False),
            (bridge.played.tare, bridge.acts.may_be_left, bridge.on_disk() is not None),
        )
        self.assertEqual("WB01", bridge.terminal.serial)

    async def test_one_that_somebody_else_set_is_left_alone(self) -> None:
        bridge = self.bridge()
        await bridge.files.write(ACT_FILE, {"kg": 5000}, 1)
        bridge.played.tare = 3000
        await bridge.until(bridge.acts.look())
        self.assertEqual(
            (3000, 3000, False),
            (bridge.played.tare, bridge.played.fanout.tare, bridge.on_disk() is not None),
        )

    async def test_one_that_acted_though_it_was_called_back_is_cleared(self) -> None:
        bridge = self.bridge()
        bridge.played.fanout.doubtful_tare = 0
        bridge.played.tare = 5000
        await bridge.until(bridge.acts.look())
        self.assertEqual((0, None), (bridge.played.tare, bridge.played.fanout.doubtful_tare))


if __name__ == "__main__":
    unittest.main()
