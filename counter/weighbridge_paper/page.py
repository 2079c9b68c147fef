"""A paper for the browser: the blocks as JSON, which the page puts on paper with the print style of web/style.css."""

from collections.abc import Sequence
from typing import Any

from . import layout
from .code import QUIET, modules_of

NARROW = 40  # columns of the legal text on a roll of 80 mm, with figures of 2 mm


def page_of(blocks: Sequence[layout.Block]) -> list[dict[str, Any]]:
    return [block_of(it) for it in blocks]


def block_of(block: layout.Block) -> dict[str, Any]:
    if isinstance(block, layout.Mark):
        return {"is": "mark", "text": block.text}
    if isinstance(block, layout.Line):
        return {"is": "line", "text": block.text, "look": block.look, "centred": block.is_centred}
    if isinstance(block, layout.Pair):
        return {"is": "pair", "name": block.name, "value": block.value, "bold": block.is_bold}
    if isinstance(block, layout.Rule):
        return {"is": "rule", "text": block.text}
    if isinstance(block, layout.Legal):
        return {
            "is": "legal",
            "text": block.letters,
            "narrow": "\n".join(layout.wrapped(block.letters, NARROW)) + "\n",
            "wrapped": block.wrapped,
        }
    rows = modules_of(block.text)
    return {
        "is": "code",
        "text": block.text,
        "name": block.name,
        "side": len(rows),
        "quiet": QUIET,
        "path": path_of(rows),
    }


def path_of(rows: Sequence[Sequence[bool]]) -> str:
    """Return the dark modules as a path of SVG, run by run of each row."""
    made = []
    for down, row in enumerate(rows):
        right = 0
        while right < len(row):
            wide = next((it for it in range(right, len(row)) if not row[it]), len(row)) - right
            if wide:
                made.append(f"M{right} {down}h{wide}v1h-{wide}z")
            right += max(1, wide)
    return "".join(made)
