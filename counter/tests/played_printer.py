"""A played printer for ESC/POS on TCP: slow, deaf, without paper, cut in the middle, gone and back. It keeps what it printed, paper by paper."""

import contextlib
import re
import socket
import struct
import threading
import time

CUT = b"\x1dVB\x00"
PICTURE = re.compile(rb"\x1dv0\x00(..)(..)", re.S)
# The answers to DLE EOT 1 to 4, by the trouble; 0x12 are the bits that are always set.
ANSWERS = {
    "": (0x12, 0x12, 0x12, 0x12),
    "paper_out": (0x1A, 0x32, 0x12, 0x72),
    "paper_low": (0x12, 0x12, 0x12, 0x1E),
    "cover_open": (0x1A, 0x16, 0x12, 0x12),
    "offline": (0x1A, 0x12, 0x12, 0x12),
    "knife": (0x1A, 0x52, 0x1A, 0x12),
    "fault": (0x1A, 0x52, 0x32, 0x12),
}


class PlayedPrinter:
    """A printer that prints at `rate` bytes a second, or at once."""

    def __init__(self, port: int = 0) -> None:
        self.state, self.is_deaf, self.is_dumb, self.knows_behind = "", False, False, True
        self.rate: int | None = None
        # Bytes of a paper after which it breaks the connection, or has no paper.
        self.cut_after: int | None = None
        self.out_after: int | None = None
        self.printed: list[bytes] = []  # whole papers
        self.begun: list[bytes] = []  # what came out of papers that were cut
        self.connections = self.asked = 0
        self.stream: socket.socket | None = None
        self.port, self.is_over = port, False
        self.there()

    def there(self) -> None:
        self.is_over = False
        self.listener = socket.create_server(("127.0.0.1", self.port))
        self.port = self.listener.getsockname()[1]
        threading.Thread(target=self._serve, args=(self.listener,), daemon=True).start()

    def gone(self) -> None:
        """Switched off: nobody listens, and what it had in its memory is lost."""
        self.is_over = True
        with contextlib.suppress(OSError):
            self.listener.shutdown(socket.SHUT_RDWR)
        self.listener.close()
        self.reset()

    def reset(self) -> None:
        stream, self.stream = self.stream, None
        if stream is not None:
            with contextlib.suppress(OSError):
                stream.setsockopt(socket.SOL_SOCKET, socket.SO_LINGER, struct.pack("ii", 1, 0))
                stream.shutdown(socket.SHUT_RDWR)

    def _serve(self, listener: socket.socket) -> None:
        while not self.is_over:
            try:
                stream, _ = listener.accept()
            except OSError:
                return
            self.connections += 1
            self.stream = stream
            with contextlib.suppress(OSError), stream:
                Connection(self, stream).run()


class Connection:
    """One at a time, as most such printers have it."""

    def __init__(self, printer: PlayedPrinter, stream: socket.socket) -> None:
        self.printer, self.stream, self.waiting, self.paper = printer, stream, b"", b""
        stream.settimeout(0.01)

    def run(self) -> None:
        printer = self.printer
        has_ended = False
        while printer.stream is self.stream:
            if printer.is_deaf:
                time.sleep(0.01)
                continue
            try:
                more = self.stream.recv(
                    4096 if printer.rate is None else max(1, printer.rate // 20)
                )
                has_ended = not more
            except TimeoutError:
                more = b""
            if printer.rate is not None and more:
                time.sleep(len(more) / printer.rate)
            self.take(more)
            self.work()
            if has_ended and not self.waiting:
                break
        if self.paper:
            printer.begun.append(self.paper)

    def take(self, more: bytes) -> None:
        """Answer a command in real time at once, even if nothing is printed."""
        while re.fullmatch(rb"\x10\x04[\x01-\x04]", more[:3], re.S) and (
            not self.waiting or self.printer.state
        ):
            self.printer.asked += 1
            if not self.printer.is_dumb:
                self.stream.sendall(bytes([ANSWERS[self.printer.state][more[2] - 1]]))
            more = more[3:]
        self.waiting += more

    def work(self) -> None:
        printer = self.printer
        while self.waiting and printer.state in ("", "paper_low"):
            if self.waiting.startswith(b"\x1dr\x01"):
                self.waiting = self.waiting[3:]
                if printer.knows_behind:
                    self.stream.sendall(b"\x00")
                continue
            if (
                self.waiting[:1] == b"\x1d"
                and len(self.waiting) < 8
                and not self.waiting.startswith(CUT)
                and self.waiting[:2] not in (b"\x1d!", b"\x1dB")
            ):
                return  # the rest of it is still to come
            count = self.length()
            if count > len(self.waiting):
                return
            self.paper += self.waiting[:count]
            is_whole = self.waiting.startswith(CUT)
            self.waiting = self.waiting[count:]
            if is_whole:
                printer.printed.append(self.paper)
                self.paper = b""
            if printer.cut_after is not None and len(self.paper) >= printer.cut_after:
                printer.cut_after = None
                printer.reset()
                return
            if printer.out_after is not None and len(self.paper) >= printer.out_after:
                printer.out_after, printer.state = None, "paper_out"

    def length(self) -> int:
        found = PICTURE.match(self.waiting)
        if found:
            return 8 + int.from_bytes(found[1], "little") * int.from_bytes(found[2], "little")
        return len(CUT) if self.waiting.startswith(CUT) else 1
