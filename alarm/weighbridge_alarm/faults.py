"""A fault, as one look finds it."""

from dataclasses import dataclass

MOST_ABOUT, MOST_DETAIL = 120, 300


def plain(text: object, most: int) -> str:
    """Return a text of the outer world as one line that commands no terminal and adds no header."""
    line = " ".join(
        "".join(it if it.isprintable() else " " for it in str(text)[: 4 * most]).split()
    )
    return line if len(line) <= most else f"{line[: most - 2]}.."


@dataclass(frozen=True)
class Fault:
    """A fault with its name in the catalogue, what it is about, and details in the words of its source."""

    name: str
    about: str = ""
    detail: str = ""

    @property
    def key(self) -> str:
        return f"{self.name} {self.about}" if self.about else self.name


def fault(name: str, about: object = "", detail: object = "") -> Fault:
    """Return a fault whose texts are one line each, and bounded."""
    return Fault(plain(name, MOST_ABOUT), plain(about, MOST_ABOUT), plain(detail, MOST_DETAIL))


def own_key(receiver: str) -> str:
    """Return the key of the fault that this receiver took no message. Only the others hear of it."""
    return fault("receiver", receiver).key
