"""Weighings: requests to the office as they came, and a Single with its tare as one act at the terminal and the office.

Nothing that is stored comes from here: the office judges, and its texts pass byte for byte.
"""

import asyncio
import contextlib
import re
import urllib.parse
from collections import Counter
from collections.abc import AsyncIterator, Awaitable, Callable, Iterable, Mapping
from dataclasses import dataclass, replace
from typing import ParamSpec

from weighbridge_paper.text import NoText, read_text
from weighbridge_paper.words import FREE_LINES

from .bodies import bad_field
from .fanout import Turn
from .files import Files, NoFile, tell
from .once import Once, Withdrawal
from .office import Answer, Answers, NoAnswer
from .refusals import Refusal, refusal_in
from .repeats import Repeats
from .terminal import NotSent, Terminal, Unanswered

ACT_FILE = "act.json"
BEGIN_WITHIN = 1.0  # seconds: an act that can't begin within them never begins
INTEND_WITHIN = 1.0  # seconds: an act never begins if the disk doesn't have its note within them
CLEAR_WITHIN = 2.0  # seconds for each of the tries to clear a tare
CLEAR_TRIES = 3
TRY_AGAIN_AFTER = 0.3  # seconds
LOOK_WITHIN = 5.0  # seconds
TARE = re.compile(r"[1-9]\d{0,6}")
P = ParamSpec("P")
# The free lines are only for the paper. That a vehicle is weighed once, and when the clerk pressed, is the counter's own.
NOT_FOR_THE_OFFICE = tuple(f"{it}=".encode() for it in (*FREE_LINES, "once", "at"))
PRESSED_WITHIN = 3.0  # seconds: an older press never begins, because another vehicle may be there
MOMENT = re.compile(r"\d{1,15}")  # in milliseconds of the counter's clock
# Refusals after which the entry may be in the journal: its slip is gone, or damaged.
MAY_BE_STORED = (b"refused 2 ", b"refused 17 ")
NOT_OPEN = b"refused 13 "


@dataclass(frozen=True)
class Told:
    """The answer to a client. `is_sent` is False if it is certain that nothing went to the office.

    `is_repeated` says whether the answer was given before, and is None if nobody knows.
    """

    status: int
    body: bytes
    is_sent: bool = True
    refusal: Refusal | None = None
    is_repeated: bool | None = None


def own(status: int, name: str) -> Told:
    """Return a refusal of the counter's own."""
    return Told(status, f"counter {name}\n".encode(), refusal=Refusal(name, field=FIELDS.get(name)))


def not_sent(status: int, name: str) -> Told:
    """Return a refusal of the counter's own, before which nothing went to the office. It is of this request, so it wasn't given before."""
    return replace(own(status, name), is_sent=False, is_repeated=False)


# The fields that some of its refusals are about.
FIELDS = {"bad_tare": "tare", "tare_refused": "tare", "bad_at": "at", "bad_once": "once"}
NO_ANSWER = own(502, "no_answer")


class Busy(Exception):
    """Raised if other acts take too long. The act never began."""


@contextlib.asynccontextmanager
async def in_time(lock: asyncio.Lock) -> AsyncIterator[None]:
    """Hold a lock. Raises Busy if others keep it for too long."""
    try:
        await asyncio.wait_for(lock.acquire(), BEGIN_WITHIN)
    except asyncio.TimeoutError:
        raise Busy from None
    try:
        yield
    finally:
        lock.release()


class Acts:
    def __init__(
        self,
        terminal: Terminal,
        office: Answers,
        files: Files,
        interval: int,
        counts: Counter[str],
        once: Once | None = None,
        repeats: Repeats | None = None,
    ) -> None:
        """`once` has the vehicles that are weighed once. Without it such a weighing is refused. Without `repeats` nobody knows what was answered before."""
        self.once, self.repeats = once, repeats
        self.step_of: Callable[[str], Withdrawal | None] = lambda key: None
        self.terminal, self.office, self.files, self.interval, self.counts = (
            terminal,
            office,
            files,
            interval,
            counts,
        )
        self.one_at_a_time, self.one_with_tare = asyncio.Lock(), asyncio.Lock()
        self.intends = False  # whether the file says that a tare will be set, and it isn't yet
        self.tasks: set[asyncio.Task[None]] = set()
        self.pause: Callable[[float], Awaitable[None]] = asyncio.sleep
        self.may_be_left = files.has(ACT_FILE)  # a tare of an act that didn't come to its end
        # Called with each text that the office returned with 201, letter for letter, and with the request's fields: for the lists and the papers.
        self.on_text: list[Callable[[str, Mapping[str, str]], None]] = []
        self.on_answer: Callable[[int, str], None] = lambda status, text: None

    def is_busy(self) -> bool:
        return self.one_at_a_time.locked()

    # ---- weighings and voids

    async def carry_out(self, target: str, body: bytes) -> Told:
        """Pass a request to the office. It runs to its end, even if its client leaves."""
        told: asyncio.Future[Told] = asyncio.get_running_loop().create_future()
        task = asyncio.ensure_future(self._act(target, body, told))
        self.tasks.add(task)
        task.add_done_callback(self.tasks.discard)
        return await asyncio.shield(told)

    async def _act(self, target: str, body: bytes, told: "asyncio.Future[Told]") -> None:
        try:
            asked = dict(urllib.parse.parse_qsl(body.decode("latin-1"), keep_blank_values=True))
            parts = body.split(b"&")
            if any(it.startswith(NOT_FOR_THE_OFFICE) for it in parts):
                parts = [it for it in parts if not it.startswith(NOT_FOR_THE_OFFICE)]
                body = b"&".join(parts)
            tares = [it[5:].decode("latin-1") for it in parts if it.startswith(b"tare=")]
            if (refusal := self._not_now(asked)) is not None:
                told.set_result(refusal)
            elif "once" in asked:
                told.set_result(await self._weigh_once(target, body, asked, bool(tares)))
            elif not tares:
                async with in_time(self.one_at_a_time):
                    await self._close_plate(target, asked)
                    told.set_result(await self._pass_on(target, body, asked))
            elif len(tares) == 1 and TARE.fullmatch(tares[0]) and b"kind=single" in parts:
                rest = b"&".join(it for it in parts if not it.startswith(b"tare="))
                async with in_time(self.one_with_tare):
                    await self._weigh_with_tare(target, rest, tares[0], asked, told)
            else:
                told.set_result(not_sent(422, "bad_tare"))
        except Busy:
            told.set_result(not_sent(503, "busy"))
        except NotSent:
            told.set_result(not_sent(503, "no_terminal"))
        except NoFile:
            told.set_result(not_sent(503, "no_file"))
        finally:
            if not told.done():
                told.set_result(NO_ANSWER)

    def _not_now(self, asked: Mapping[str, str]) -> Told | None:
        """Return the refusal of a request that says when it was sent, if the way to the counter took too long. Return None if it is in time, or doesn't say."""
        at = asked.get("at")
        if at is None:
            return None
        if not MOMENT.fullmatch(at):
            return not_sent(422, "bad_at")
        is_late = self.terminal.clock() - int(at) / 1000 > PRESSED_WITHIN
        return not_sent(503, "late") if is_late else None

    async def _pass_on(self, target: str, body: bytes, asked: Mapping[str, str]) -> Told:
        key = asked.get("key", "")
        before = None if self.repeats is None else self.repeats.sends(key)
        try:
            answer = await self.office.ask("POST", target, body)
        except NoAnswer:
            self.counts["office_no_answer"] += 1
            self._tell(self.on_answer, 0, "")
            return NO_ANSWER
        name = (
            "stored" if answer.status == 201 else answer.text.partition("\n")[0].replace(" ", "_")
        )
        self.counts[f"office_{name}"] += 1
        self._tell(self.on_answer, answer.status, answer.text)
        refusal, is_repeated = self._refusal_of(target, body, answer), None
        if self.repeats is not None and before is not None:
            if answer.status == 201:
                is_repeated = self.repeats.answered(key, before, answer.text)
            elif refusal is not None:
                is_repeated = self.repeats.refused(key, before)
        if answer.status == 201:
            for take in self.on_text:
                self._tell(take, answer.text, asked)
        return Told(answer.status, answer.body, refusal=refusal, is_repeated=is_repeated)

    def _refusal_of(self, target: str, body: bytes, answer: Answer) -> Refusal | None:
        """Return the refusal that the office answered, with the field that it can't use. Return None if it answered none."""
        refusal = None if answer.status == 201 else refusal_in(answer.text)
        if refusal is not None and refusal.name == "bad_field":
            return replace(refusal, field=bad_field(target, body))
        return refusal

    def _tell(self, take: Callable[P, None], *what: P.args, **more: P.kwargs) -> None:
        """Pass an answer to one of its listeners. If the listener fails, the client still gets the answer."""
        try:
            take(*what, **more)
        except Exception as fault:
            self.counts["answers_not_taken"] += 1
            tell(
                f"the client gets an answer of the office, but the counter couldn't process it here: {repr(fault)[:200]}"
            )

    # ---- vehicles that are weighed once

    async def _weigh_once(
        self, target: str, body: bytes, asked: Mapping[str, str], has_tare: bool
    ) -> Told:
        """Pass on the First of a vehicle that is weighed once, which is noted before. Raises Busy or NoFile; nothing was sent then."""
        key, plate = asked.get("key", ""), asked.get("plate", "")
        is_first = (target, asked.get("kind"), asked["once"]) == ("/weighings", "first", "1")
        if self.once is None or not is_first or has_tare or not key or not plate:
            return not_sent(422, "bad_once")
        async with in_time(self.one_at_a_time):
            await self._close_plate(target, asked)
            await self.once.intend(key, plate, INTEND_WITHIN)
            told = await self._pass_on(target, body, asked)
            if told.status == 201:
                with contextlib.suppress(NoText):
                    own = read_text(told.body.decode("utf-8", "replace")).own
                    self.once.stored(key, own.number, own.digest)
            elif (
                told is not NO_ANSWER
                and told.status < 500
                and not told.body.startswith(MAY_BE_STORED)
            ):
                self.once.forget(key)
            return told

    async def _close_plate(self, target: str, asked: Mapping[str, str]) -> None:
        """Withdraw the First of a plate that was weighed once, because the plate comes again. The caller holds the lock."""
        if self.once is not None and target == "/weighings":
            await self._withdraw(self.once.of_plate(asked.get("plate", ""), asked.get("key", "")))

    async def withdraw(self, keys: Iterable[str]) -> None:
        """Withdraw the Firsts of vehicles that were weighed once, by the keys of their notes. Raises Busy."""
        async with in_time(self.one_at_a_time):
            await self._withdraw(keys)

    async def _withdraw(self, keys: Iterable[str]) -> None:
        for key in keys:
            wanted = self.step_of(key)
            if wanted is None or self.once is None:
                continue
            form = {"key": wanted.key, "plate": wanted.plate}
            told = await self._pass_on("/voids", urllib.parse.urlencode(form).encode(), form)
            if told.status == 201 or told.body.startswith(NOT_OPEN):
                self.once.forget(key)

    # ---- a tare that belongs to one weighing

    async def _weigh_with_tare(
        self,
        target: str,
        body: bytes,
        tare: str,
        asked: Mapping[str, str],
        told: "asyncio.Future[Told]",
    ) -> None:
        """Set the tare with `TA`, pass the weighing on, and clear the tare with `TAC`.

        The file warns the counter's next start that a tare may be left, so it is on the disk before anything is set. Nobody waits for the disk at the
        terminal or the office. The client gets its answer before the tare is cleared. Raises Busy, NotSent, or NoFile; nothing was done then.
        """
        if self.terminal.fanout.tare is None:
            async with self.terminal.turn(BEGIN_WITHIN, may_settle=True) as turn:
                with contextlib.suppress(Unanswered):
                    await self.terminal.ask(turn, "TA")
        if self.terminal.fanout.tare != 0:
            told.set_result(self._tare_in_force())
            return
        self.intends = True
        try:
            await self.files.write(ACT_FILE, {"kg": int(tare)}, INTEND_WITHIN)
            async with in_time(self.one_at_a_time), self.terminal.turn(
                BEGIN_WITHIN, may_settle=True
            ) as turn:
                refusal = await self._set_tare(turn, tare)
                if refusal is not None:
                    told.set_result(refusal)
                    return
                try:
                    await self._close_plate(target, asked)
                    told.set_result(await self._pass_on(target, body, asked))
                finally:
                    await self._clear_tare(turn)
        finally:
            if self.intends:  # nothing was set
                self.intends = False
                self.files.keep(ACT_FILE, None)

    def _tare_in_force(self) -> Told:
        return (
            not_sent(503, "no_terminal")
            if self.terminal.fanout.tare is None
            else not_sent(409, "tare_set")
        )

    async def _set_tare(self, turn: Turn, tare: str) -> Told | None:
        """Set the tare. Return why it isn't set, or None if it is. Raises NotSent."""
        if self.terminal.fanout.tare is None:
            with contextlib.suppress(Unanswered):
                await self.terminal.ask(turn, "TA")
        if self.terminal.fanout.tare != 0:
            return self._tare_in_force()
        self.intends = False  # from here on it may be set
        try:
            reply = await self.terminal.ask(turn, f"TA {tare} kg")
        except NotSent:
            self.intends = True
            raise
        except Unanswered:
            self.may_be_left = True  # the next connection finds out
            return not_sent(503, "no_terminal")
        if reply[0].startswith("TA A"):
            return None
        self.intends = True
        return not_sent(409, "tare_refused")

    async def _clear_tare(self, turn: Turn) -> None:
        for _ in range(CLEAR_TRIES):
            try:
                await self.terminal.ask(turn, "TAC", CLEAR_WITHIN)
                self._is_over()
                return
            except (NotSent, Unanswered):
                await self.pause(TRY_AGAIN_AFTER)
        self.may_be_left = True  # the next connection clears it

    def _is_over(self) -> None:
        self.files.keep(ACT_FILE, None)
        self.may_be_left = False

    # ---- a new connection

    async def look(self) -> None:
        """Asks a new connection for what isn't known, and clears a tare that an act or a command that was called back left."""
        while self.terminal.fanout.link == "up":
            try:
                async with self.terminal.turn(LOOK_WITHIN, first=True, may_settle=True) as turn:
                    said = (await self.terminal.ask(turn, "I4"))[0]
                    self.terminal.serial = said.split('"')[1] if said.count('"') == 2 else None
                    await self.terminal.ask(turn, "TA")
                    if self._is_left_behind():
                        await self.terminal.ask(turn, "TAC")
                        self.counts["tares_cleared"] += 1
                    if not self.intends:
                        self._is_over()
                    self.terminal.fanout.settle()
                    return
            except (NotSent, Unanswered):
                await self.pause(TRY_AGAIN_AFTER)

    def _is_left_behind(self) -> bool:
        tare, before = self.terminal.fanout.tare, self.terminal.fanout.doubtful_tare
        if not tare:
            return False
        kept = None if self.intends else self.files.read(ACT_FILE)
        if (
            isinstance(kept, dict)
            and isinstance(kept.get("kg"), int)
            and abs(tare - kept["kg"]) < self.interval
        ):
            return True
        return before is not None and tare != before
