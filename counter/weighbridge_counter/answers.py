"""Answers of the counter's own, with the fields that each of them has."""

import hashlib
import mimetypes
from pathlib import Path
from typing import Any

from aiohttp import web

from .accepts import wants_json
from .refusals import Refusal

POLICY = (
    "default-src 'none'; script-src 'self'; style-src 'self'; img-src 'self'; connect-src 'self'; "
    "base-uri 'none'; form-action 'none'; frame-ancestors 'none'; require-trusted-types-for 'script'"
)
# With each answer: what a browser may do with it.
FIELDS = {
    "Content-Security-Policy": POLICY,
    "X-Content-Type-Options": "nosniff",
    "Referrer-Policy": "no-referrer",
    "Cross-Origin-Resource-Policy": "same-origin",
}
PLAIN = "text/plain; charset=utf-8"
NO_STORE = {"Cache-Control": "no-store", **FIELDS}
NO_CACHE = {"Cache-Control": "no-cache", **FIELDS}


def as_json(what: Any, status: int = 200) -> web.Response:
    return web.json_response(what, status=status, headers=NO_STORE)


def as_text(body: bytes, status: int, kind: str = PLAIN, **fields: str) -> web.Response:
    return web.Response(
        status=status, body=body, headers={"Content-Type": kind, **NO_STORE, **fields}
    )


def asks_for_json(request: web.Request) -> bool:
    return wants_json(request.headers.getall("Accept", []))


def refused(
    request: web.Request, status: int, refusal: Refusal, body: bytes, **fields: str
) -> web.Response:
    """Return a refusal: its text, or its JSON if the client asks for that. Both say when to ask again."""
    if not asks_for_json(request):
        return as_text(body, status, **refusal.fields(), **fields)
    response = as_json(refusal.shown(), status)
    response.headers.update({**refusal.fields(), **fields})
    return response


def file_of(request: web.Request, path: Path) -> web.Response:
    """Return a file of the page.

    aiohttp's own response sends a file by sendfile. If the client is cut meanwhile, that keeps a descriptor, and breaks the next connection that gets its number.
    """
    kind = mimetypes.guess_type(path.name)[0] or "application/octet-stream"
    return with_tag(request, path.read_bytes(), kind)


def with_tag(request: web.Request, content: bytes, kind: str) -> web.Response:
    """Return the content, or 304 without it if the client says by the ETag that it has it."""
    digest = hashlib.sha256(content).hexdigest()
    is_known = any(it.value == digest for it in request.if_none_match or ())
    fields = {"ETag": f'"{digest}"', **NO_CACHE}
    response = web.Response(status=304 if is_known else 200, headers=fields)
    if not is_known:
        response.body, response.content_type = content, kind
    return response
