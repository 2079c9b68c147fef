"""Driver's displays, by TCP and by a serial line: each shows what the scale indicates, and no weight that is older than a second."""

import os
import pty
import select
import socket
import time

from checks.lib.bridge import HOST, free_port
from checks.lib.case import PROGRAM
from checks.lib.counter_case import CounterCheck


class Board:
    """The end of a line, from which the newest whole frames are read."""

    def __init__(self, handle: int, end: bytes) -> None:
        self.handle, self.end, self.rest = handle, end, b""

    def newest(self, seconds: float = 0.5) -> bytes:
        """Return the last frame of the next moments. It is empty if none comes."""
        frames: list[bytes] = []
        until = time.monotonic() + seconds
        while (left := until - time.monotonic()) > 0:
            if not select.select([self.handle], [], [], left)[0]:
                break
            self.rest += os.read(self.handle, 4096)
            *whole, self.rest = self.rest.split(self.end)
            frames += whole
        return frames[-1] if frames else b""


class Boards(CounterCheck):
    """Two displays of different makes at one counter."""

    needs = (PROGRAM, "aiohttp", "prometheus_client")
    seconds = 30

    def test_displays(self) -> None:
        port, (ours, theirs) = free_port(), pty.openpty()
        for it in (ours, theirs):
            self.addCleanup(os.close, it)
        bridge = self.new_bridge(
            settings=f'[[scoreboard]]\nname = "ramp"\nform = "toledo"\nlisten = "{HOST}:{port}"\n'
            f'[[scoreboard]]\nname = "yard"\nform = "condec"\ndevice = "{os.ttyname(theirs)}"\n'
        ).start_counter()
        stream = self.enterContext(socket.create_connection((HOST, port), 5))
        ramp, yard = Board(stream.fileno(), b"\r"), Board(ours, b"\r\n")
        bridge.put(9170)
        self.becomes("toledo by TCP: the weight", b"\x0220  18340     0", ramp.newest)
        self.becomes("condec by a line: the weight", b"\x02   18340KG ", yard.newest)
        bridge.terminal_says("till", "TA 3000 kg")
        self.becomes("toledo: net, and the tare", b"\x0221  15340  3000", ramp.newest)
        self.becomes("condec: net", b"\x02   15340KN ", yard.newest)
        bridge.terminal_says("till", "TAC")
        bridge.converter.sway = 100
        self.becomes("toledo: it moves", b"\x0228", lambda: ramp.newest()[:3])
        self.becomes("condec: it moves", b"KGM", lambda: yard.newest()[-3:])
        bridge.converter.sway = 0
        bridge.put(0)
        self.becomes("condec: the empty bridge", b"\x02       0KG ", yard.newest)
        bridge.kill_service()
        time.sleep(1.3)
        self.same("without a service condec says so", b"\x02       0KGI", yard.newest())
        ramp.newest(0.2)  # what was sent before
        self.same("and toledo sends nothing", b"", ramp.newest(1.0))
        bridge.start_service()
        bridge.wait_until_up()
        bridge.put(4070)
        self.becomes("then both have a weight again", b"\x02    8140KG ", yard.newest)
        self.becomes("toledo too", b"\x0220   8140     0", ramp.newest)
        bridge.restart_counter()
        self.comes("a new start of the counter finds the line", yard.newest)
