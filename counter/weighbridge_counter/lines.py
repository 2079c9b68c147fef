"""Cuts what a port's client sends into lines. It has no clock and no socket."""

import re

LONGEST_LINE = 40  # bytes, as at the terminal
# The end of a longer line that is kept. Without its CR it is still too long.
MOST_KEPT = LONGEST_LINE + 2
ZERO_TARE = re.compile(r"TA 0{1,7}(\.0{1,3})? kg")


class Lines:
    """Cuts at each LF, and removes one CR before it, as the terminal does."""

    def __init__(self) -> None:
        self.rest = b""  # of a line whose end hasn't come

    def cut(self, chunk: bytes) -> list[str]:
        """Return the lines that end in this chunk. A line that is too long is returned as an empty one, because both get `ES`."""
        *lines, rest = (self.rest + chunk).split(b"\n")
        self.rest = rest[-MOST_KEPT:]
        return [text_of(it.removesuffix(b"\r")) for it in lines]


class LenientLines(Lines):
    """Cuts at each CR too, and takes a preset tare of 0 kg for the command that clears the tare."""

    def __init__(self) -> None:
        super().__init__()
        self.is_after_cr = False  # a LF that comes next belongs to a line that has ended

    def cut(self, chunk: bytes) -> list[str]:
        if not chunk:
            return []
        fresh = chunk.removeprefix(b"\n") if self.is_after_cr else chunk
        self.is_after_cr = chunk.endswith(b"\r")
        lines = super().cut(fresh.replace(b"\r\n", b"\n").replace(b"\r", b"\n"))
        return ["TAC" if ZERO_TARE.fullmatch(it) else it for it in lines]


def text_of(line: bytes) -> str:
    return line.decode("latin-1") if len(line) <= LONGEST_LINE else ""
