"""The forms of a driver's display: one line of bytes for each weight, which a scoreboard shows without a command. It needs no clock and no socket.

docs/counter_reference.md (Scoreboards) has the forms.
"""

from collections.abc import Callable
from dataclasses import dataclass

from .values import Value

STX, LF, CR = b"\x02", b"\n", b"\r"
MOST_DIGITS = 6


@dataclass(frozen=True)
class Shown:
    """The weight that a scoreboard shows. The weight is the indicated one in kg: net if a tare is in force, else gross. Without a weight, `kg` is None."""

    state: str  # as of Value: S, D, I, + or -
    kg: int | None
    tare: int
    interval: int


NOTHING = Shown("I", None, 0, 1)


def shown_of(value: Value | None, tare: int | None, interval: int) -> Shown:
    """Return what a scoreboard shows of a value that isn't old. Nothing is shown while the tare isn't known, because the weight could be either."""
    if value is None or tare is None:
        return NOTHING
    return Shown(value.state, value.kg, tare, interval)


def toledo(it: Shown) -> bytes:
    """Mettler Toledo, continuous: three status characters, weight and tare of six digits each. It has no word for a weight that is missing, so it sends nothing."""
    if it.state == "I":
        return b""
    first = {"1": 0b01, "2": 0b10, "5": 0b11}[str(it.interval)[0]] << 3 | 0b010_0010
    is_out = it.state in "+-"
    status = (
        0b011_0000
        | (it.tare != 0)
        | ((it.kg or 0) < 0 or it.state == "-") << 1
        | is_out << 2
        | (it.state == "D") << 3
    )
    weight = f"{abs(it.kg or 0):>{MOST_DIGITS}}{it.tare:>{MOST_DIGITS}}".encode()
    return STX + bytes((first, status, 0x20)) + weight + CR


def toledo_with_sum(it: Shown) -> bytes:
    """Return the line of `toledo` and its check character, by which the sum of all characters is 0 in seven bits."""
    made = toledo(it)
    return made + bytes((-sum(made) & 0x7F,)) if made else b""


def sma(it: Shown) -> bytes:
    """SMA SCP-0499, as after the command for repeated display."""
    status = {"+": "O", "-": "U", "I": "E"}.get(it.state, "Z" if it.kg == 0 else " ")
    weight = "----------" if it.kg is None else f"{it.kg:>10}"
    net, moves = "N" if it.tare else "G", "M" if it.state == "D" else " "
    return LF + f"{status}1{net}{moves} {weight}kg ".encode() + CR


def condec(it: Shown) -> bytes:
    """Condec and Rice Lake, continuous: sign, seven digits, K for kg, gross or net, and a status."""
    status = {"S": " ", "D": "M", "+": "O", "-": "O"}.get(it.state, "I")
    sign = "-" if (it.kg or 0) < 0 or it.state == "-" else " "
    return STX + f"{sign}{abs(it.kg or 0):>7}K{'N' if it.tare else 'G'}{status}".encode() + CR + LF


FORMS: dict[str, Callable[[Shown], bytes]] = {
    "condec": condec,
    "sma": sma,
    "toledo": toledo,
    "toledo_with_sum": toledo_with_sum,
}
