"""A weighing terminal: MT-SICS levels 0 and 1 over a scale of class III.

    >>> from weighbridge_terminal import Terminal
    >>> terminal = Terminal(interval_kg=20, max_kg=60000)
    >>> for _ in range(4):
    ...     replies = terminal.reading(9170)
    >>> terminal.send("SI\\r\\n")
    ['S S      18340 kg']
    >>> terminal.indication()
    Indication(state=<State.STABLE: 'STABLE'>, gross_kg=18340, net_kg=18340)

A prover checks what a terminal replies, for every history of calls; docs/library.md says what that means. A value of another type raises TypeError. A setup
outside its limits raises SetupError, which is a ValueError, as soon as it is made. A call takes some microseconds and keeps the interpreter's lock. Use a
terminal in one thread at a time.
"""

from __future__ import annotations

import ctypes
import dataclasses
import enum
import operator
import os
from typing import Any, NamedTuple, Optional, Union

__all__ = [
    "Indication",
    "Part",
    "Setup",
    "SetupError",
    "State",
    "Terminal",
    "VERSION",
    "__version__",
]
__version__ = "2.1.1"

# The library's file. Its number changes only if this module has to change with it.
FILE = "libweighbridge-terminal.so.2"
LOST = 2**63 - 1
REPLY_BYTES = 32
SERIAL_BYTES = 20
# Maximum number of bytes that one call passes, because other threads wait meanwhile.
BYTES_A_CALL = 65_536


class _CSetup(ctypes.Structure):
    _fields_ = [
        (name, ctypes.c_uint32)
        for name in ("interval_kg", "max_kg", "window", "band", "pace", "wait")
    ] + [("serial", ctypes.c_char * SERIAL_BYTES)]


class _CIndication(ctypes.Structure):
    _fields_ = [
        ("state", ctypes.c_uint32),
        ("gross_kg", ctypes.c_int32),
        ("net_kg", ctypes.c_int32),
    ]


def _path() -> str:
    """Return the library that the variable names, the one next to this module, or the system's."""
    beside = os.path.join(os.path.dirname(os.path.abspath(__file__)), FILE)
    return os.environ.get("WEIGHBRIDGE_TERMINAL_LIBRARY") or (
        beside if os.path.exists(beside) else FILE
    )


def _load(path: str) -> ctypes.PyDLL:
    """Load the library, and give each function its types, because a pointer would be passed as an int of 32 bits without them."""
    try:
        library = ctypes.PyDLL(path)
    except OSError as fault:
        raise ImportError(
            f"{fault}; install libweighbridge-terminal2, or name the library by WEIGHBRIDGE_TERMINAL_LIBRARY"
        ) from None
    types = {
        "version": (ctypes.c_uint32, []),
        "size": (ctypes.c_size_t, []),
        "alignment": (ctypes.c_size_t, []),
        "setup_size": (ctypes.c_size_t, []),
        "open": (ctypes.c_uint32, [ctypes.c_void_p, ctypes.POINTER(_CSetup)]),
        "reading": (ctypes.c_uint32, [ctypes.c_void_p, ctypes.c_int64]),
        "byte": (ctypes.c_uint32, [ctypes.c_void_p, ctypes.c_uint8]),
        "bytes": (ctypes.c_size_t, [ctypes.c_void_p, ctypes.c_void_p, ctypes.c_size_t]),
        "hang_up": (ctypes.c_uint32, [ctypes.c_void_p]),
        "replies": (ctypes.c_size_t, [ctypes.c_void_p]),
        "reply": (
            ctypes.c_size_t,
            [ctypes.c_void_p, ctypes.c_size_t, ctypes.c_void_p, ctypes.c_size_t],
        ),
        "indicate": (ctypes.c_uint32, [ctypes.c_void_p, ctypes.POINTER(_CIndication)]),
    }
    for name, (result, arguments) in types.items():
        try:
            function = getattr(library, "weighbridge_terminal_" + name)
        except AttributeError:
            raise ImportError(
                f"{path}: it has no call weighbridge_terminal_{name}, because it is older than version {__version__}; install the same version of both"
            ) from None
        function.restype, function.argtypes = result, arguments
    if library.weighbridge_terminal_setup_size() != ctypes.sizeof(_CSetup):
        raise ImportError(
            f"{path}: its setup has another size than this module's; install the same version of both"
        )
    return library


_library = _load(_path())
_number = _library.weighbridge_terminal_version()

VERSION: str = f"{_number // 10000}.{_number // 100 % 100}.{_number % 100}"
"""The version of the library."""


class State(str, enum.Enum):
    """The states of an indication. Each is its text too."""

    NO_LOAD = "NO LOAD"
    """The last reading is lost, or there is none."""
    OVERLOAD = "OVERLOAD"
    """Gross is above Max + 9 e."""
    UNDERLOAD = "UNDERLOAD"
    """Gross is below -20 e."""
    MOVING = "MOVING"
    """Weights that aren't stable."""
    STABLE = "STABLE"
    """Stable weights."""

    def __str__(self) -> str:
        return self.value


STATES = tuple(State)


class Part(NamedTuple):
    """A part of a setup: its number, its name, and its limits."""

    number: int
    name: str
    allowed: str


PARTS = (
    Part(1, "interval_kg", "1, 2, 5, 10, 20 or 50"),
    Part(2, "max_kg", "500 to 10,000 whole intervals"),
    Part(3, "window", "4 to 64"),
    Part(4, "band", "1 or 2"),
    Part(5, "pace", "2 to 50"),
    Part(6, "wait", "1 to 600"),
    Part(7, "serial", "1 to 16 characters of A-Z and 0-9"),
)


class SetupError(ValueError):
    """A setup of which a part is outside its limits; `part` is the first such part."""

    def __init__(self, part: Part) -> None:
        super().__init__(f"{part.name} is not {part.allowed}")
        self.part = part


def _whole(name: str, value: Any) -> int:
    """Return `value` as an int, by the same rule as Python's own calls."""
    try:
        return operator.index(value)
    except TypeError:
        raise TypeError(f"{name} must be an int, and is {type(value).__name__}") from None


@dataclasses.dataclass(frozen=True)
class Setup:
    """The parts of an instrument. A part outside its limits is refused when the setup is made."""

    interval_kg: int = 20
    """The verification scale interval e, in kilograms: 1, 2, 5, 10, 20 or 50."""
    max_kg: int = 60000
    """Max, in kilograms: 500 to 10,000 whole intervals."""
    window: int = 4
    """The readings that must agree: 4 to 64."""
    band: int = 2
    """Within how many tenths of e: 1 or 2."""
    pace: int = 10
    """The readings a second: 2 to 50."""
    wait: int = 20
    """The readings that S, Z and T wait: 1 to 600."""
    serial: str = "WB01"
    """1 to 16 characters of A-Z and 0-9."""

    def __post_init__(self) -> None:
        """Refuse a part of another type by TypeError, and the first part that is outside its limits by SetupError."""
        for part in PARTS[:-1]:
            object.__setattr__(self, part.name, _whole(part.name, getattr(self, part.name)))
        if not isinstance(self.serial, str):
            raise TypeError(f"serial must be a str, and is {type(self.serial).__name__}")
        # The library decides what a setup is, so a terminal of it is opened, and dropped.
        _Memory().open(self)

    def _as_c(self) -> _CSetup:
        for part in PARTS[:-1]:
            if not 0 <= getattr(self, part.name) < 2**32:
                raise SetupError(part)
        serial = self.serial.encode("ascii", "replace")
        # A text that is too long for its place is no serial, and a text with a 0 in it isn't either.
        fits = len(serial) < SERIAL_BYTES and b"\0" not in serial
        numbers = [getattr(self, part.name) for part in PARTS[:-1]]
        return _CSetup(*numbers, serial if fits else b"")


class _Memory:
    """Memory for one terminal, which is there as long as this object is."""

    def __init__(self) -> None:
        size, step = _library.weighbridge_terminal_size(), _library.weighbridge_terminal_alignment()
        self._bytes = ctypes.create_string_buffer(size + step - 1)
        # The terminal lies at the first address in it that is aligned.
        self.at = -(-ctypes.addressof(self._bytes) // step) * step

    def open(self, setup: Setup) -> None:
        """Open a terminal of `setup`. Raise SetupError if a part is outside its limits."""
        answer = _library.weighbridge_terminal_open(self.at, setup._as_c())
        if answer:
            raise SetupError(PARTS[answer - 1])


class Indication(NamedTuple):
    """What is indicated."""

    state: State
    gross_kg: Optional[int]
    """Gross in kilograms. None unless the state is MOVING or STABLE."""
    net_kg: Optional[int]
    """Net in kilograms. None unless the state is MOVING or STABLE."""

    @property
    def is_stable(self) -> bool:
        return self.state is State.STABLE


class Terminal:
    """A terminal over a scale that has no reading yet."""

    def __init__(
        self,
        setup: Optional[Setup] = None,
        *,
        interval_kg: Optional[int] = None,
        max_kg: Optional[int] = None,
        window: Optional[int] = None,
        band: Optional[int] = None,
        pace: Optional[int] = None,
        wait: Optional[int] = None,
        serial: Optional[str] = None,
    ) -> None:
        """Open a terminal of `setup`, or of these parts of one. Raise SetupError if a part is outside its limits."""
        values = (interval_kg, max_kg, window, band, pace, wait, serial)
        parts = {part.name: value for part, value in zip(PARTS, values) if value is not None}
        if setup is not None and parts:
            raise TypeError("a terminal takes a setup or its parts, not both")
        if not isinstance(setup, (Setup, type(None))):
            raise TypeError(f"setup must be a Setup, and is {type(setup).__name__}")
        self.setup: Setup = setup or dataclasses.replace(Setup(), **parts)
        self._memory = _Memory()
        self._memory.open(self.setup)
        self._at = self._memory.at
        self._text = ctypes.create_string_buffer(REPLY_BYTES)
        self._shown = _CIndication()

    def __repr__(self) -> str:
        """Return serial, e, Max and what is indicated now."""
        state, gross, net = self.indication()
        weights = "" if gross is None else f", gross {gross} kg, net {net} kg"
        return f"<Terminal {self.setup.serial}, e {self.setup.interval_kg} kg, Max {self.setup.max_kg} kg: {state}{weights}>"

    def __copy__(self) -> "Terminal":
        raise TypeError("a terminal can't be copied")

    def __deepcopy__(self, memo: object) -> "Terminal":
        raise TypeError("a terminal can't be copied")

    def __reduce__(self) -> str:
        raise TypeError("a terminal can't be stored")

    def reading(self, tenths: Optional[int]) -> list[str]:
        """Process a reading of the load converter, in tenths of e from -2,000,000 to 2,000,000, and return its replies without CR LF. None and any
        other number are a lost reading."""
        load = LOST if tenths is None else _whole("a reading", tenths)
        _library.weighbridge_terminal_reading(
            self._at, load if -(2**63) <= load < 2**63 else LOST
        )
        return self._replies()

    def lost(self) -> list[str]:
        """Process a lost reading, and return its replies."""
        return self.reading(None)

    def send(self, text: Union[str, bytes, bytearray, memoryview]) -> list[str]:
        """Process bytes of the terminal's stream, in any pieces, and return the replies in their order, without CR LF. A line ends with LF or
        CR LF."""
        if not isinstance(text, (str, bytes, bytearray, memoryview)):
            raise TypeError(f"a text must be a str or bytes, and is {type(text).__name__}")
        data = text.encode() if isinstance(text, str) else bytes(text)
        held = ctypes.create_string_buffer(data, len(data) + 1)
        replies: list[str] = []
        taken = 0
        while taken < len(data):
            taken += _library.weighbridge_terminal_bytes(
                self._at, ctypes.addressof(held) + taken, min(BYTES_A_CALL, len(data) - taken)
            )
            replies += self._replies()
        return replies

    def hang_up(self) -> None:
        """Process the end of the connection: drop the unfinished line, a waiting command and the repetition. Zero and tare stay."""
        _library.weighbridge_terminal_hang_up(self._at)

    def indication(self) -> Indication:
        """Return what is indicated at the last reading."""
        _library.weighbridge_terminal_indicate(self._at, self._shown)
        state = STATES[self._shown.state]
        if state in (State.MOVING, State.STABLE):
            return Indication(state, self._shown.gross_kg, self._shown.net_kg)
        return Indication(state, None, None)

    def _replies(self) -> list[str]:
        count = _library.weighbridge_terminal_replies(self._at)
        return [self._reply(place) for place in range(count)] if count else []

    def _reply(self, place: int) -> str:
        length = _library.weighbridge_terminal_reply(self._at, place, self._text, REPLY_BYTES)
        return self._text.raw[: length - 2].decode("ascii")
