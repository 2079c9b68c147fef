"""Routes for programs that fetch what is new: entries and tickets after a number, and the vehicles on site."""

import json
from collections.abc import Awaitable, Callable
from typing import Any, Protocol

from aiohttp import web

from .answers import as_json, with_tag
from .counter import Counter
from .cursor import Asked, BadField, asked_of, entries_after, tickets_after
from .lists import Lists
from .refusals import Refusal


class InTurn(Protocol):
    """Does what takes milliseconds between two looks at what came."""

    def __call__(self, think: Callable[[], dict[str, Any]]) -> Awaitable[dict[str, Any]]:
        ...


class Fetching:
    def __init__(self, counter: Counter, in_turn: InTurn) -> None:
        self.counter, self.in_turn = counter, in_turn

    def routes(self) -> list[web.RouteDef]:
        return [
            web.get("/entries", self.entries),
            web.get("/tickets", self.tickets),
            web.get("/vehicles", self.vehicles),
        ]

    async def entries(self, request: web.Request) -> web.StreamResponse:
        return await self.answer(request, entries_after)

    async def tickets(self, request: web.Request) -> web.StreamResponse:
        return await self.answer(request, tickets_after)

    async def vehicles(self, request: web.Request) -> web.StreamResponse:
        return await self.answer(request, lambda lists, asked: {"vehicles": lists.on_site()})

    async def answer(
        self, request: web.Request, find: Callable[[Lists, Asked], dict[str, Any]]
    ) -> web.StreamResponse:
        """Answer with what `find` finds in the lists, or with why it can't be known."""
        books = self.counter.books
        try:
            asked = asked_of(request.query)
        except BadField as fault:
            refusal = Refusal("bad_value", field=fault.field)
            return as_json({"why": fault.why, **refusal.shown()}, 422)
        if not books.lists.is_of_export:
            refusal = Refusal("no_export")
            response = as_json({"why": refusal.name, **refusal.shown()}, 503)
            response.headers.update(refusal.fields())
            return response
        if asked.journal not in (None, books.journal.identifier):
            refusal, identifier = Refusal("other_journal"), books.journal.identifier
            shown = {"why": refusal.name, "journal": identifier, **refusal.shown()}
            return as_json(shown, 409)

        def found() -> dict[str, Any]:
            return {
                "journal": books.journal.identifier,
                "whole": books.is_whole(),
                **find(books.lists, asked),
            }

        what = await self.in_turn(found)
        if what.get("more") and what["next"] == asked.after:
            books.wants_export = True  # the text of the next entry isn't kept any more
        return with_tag(request, json.dumps(what).encode(), "application/json")
