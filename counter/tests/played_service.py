"""A service that is played over real sockets, to try the counter and its page without a weighbridge. It stores nothing, and proves nothing.

  python3 -m tests.played_service 4001 8080      from the folder counter; lines on standard input are loads in kg, as 18340
"""

import asyncio
import datetime
import hashlib
import sys
import urllib.parse

from weighbridge_paper.export import KEY, KINDS, PLATE

from .played import PlayedTerminal

ZEROS = "0" * 64
HEADER = (
    "number,key,kind,plate,moment,gross_kg,preset_kg,interval_kg,max_kg,serial,digest,previous\n"
)


class PlayedService:
    def __init__(self, terminal: int, office: int, pace: float = 10.0) -> None:
        self.ports, self.pace = (terminal, office), pace
        self.scale = PlayedTerminal()
        self.scale.kg, self.is_cleared = 0, True
        self.client: asyncio.StreamWriter | None = None
        self.rows: list[list[str]] = []
        self.texts: dict[str, str] = {}  # of each key
        self.tickets: dict[int, str] = {}
        self.open: dict[str, int] = {}
        self.servers: list[asyncio.Server] = []

    async def start(self) -> None:
        self.servers = [
            await asyncio.start_server(self.talk, "127.0.0.1", self.ports[0]),
            await asyncio.start_server(self.answer, "127.0.0.1", self.ports[1]),
        ]
        self.readings = asyncio.ensure_future(self.read())

    async def read(self) -> None:
        while True:
            await asyncio.sleep(1 / self.pace)
            self.is_cleared = self.is_cleared or self.scale.kg < 400
            if self.client is not None and not self.client.is_closing() and self.scale.repeats:
                self.client.write(f"{self.scale.value()}\r\n".encode())

    async def talk(self, reader: asyncio.StreamReader, writer: asyncio.StreamWriter) -> None:
        self.client, self.scale.repeats = writer, False
        try:
            while line := (await reader.readline()).decode().strip():
                reply = self.scale.reply(line)
                if reply is not None:
                    writer.write(f"{reply}\r\n".encode())
        except OSError:
            pass
        writer.close()

    async def answer(self, reader: asyncio.StreamReader, writer: asyncio.StreamWriter) -> None:
        try:
            head = (await reader.readuntil(b"\r\n\r\n")).decode()
            length = next(
                (
                    int(it.split(":")[1])
                    for it in head.split("\r\n")
                    if it.lower().startswith("content-length:")
                ),
                0,
            )
            pairs = urllib.parse.parse_qsl((await reader.readexactly(length)).decode())
            form = {} if len(dict(pairs)) < len(pairs) else dict(pairs)  # a field twice is none
            method, target = head.split(" ")[:2]
            status, text = self.judge(method, target, form)
            body = text.encode()
            writer.write(
                f"HTTP/1.1 {status} X\r\nContent-Type: text/plain; charset=utf-8\r\nContent-Length: {len(body)}\r\nConnection: close\r\n\r\n".encode()
                + body
            )
        except (OSError, EOFError):
            pass
        writer.close()

    def judge(self, method: str, target: str, form: dict[str, str]) -> tuple[int, str]:
        if target == "/journal.csv":
            return 200, HEADER + "".join(",".join(it) + "\n" for it in self.rows)
        if target == "/indication":
            return (
                200,
                f"{'MOVING' if self.scale.state == 'D' else 'STABLE'} G {self.scale.kg:>10} kg N {self.scale.kg - self.scale.tare:>10} kg\n",
            )
        if target.startswith("/tickets/"):
            number = target[9:]
            return (
                (200, self.tickets[int(number)])
                if number.isdigit() and int(number) in self.tickets
                else (404, "refused 16 no_ticket\n")
            )
        if method != "POST" or target not in ("/weighings", "/voids"):
            return 404, "fault 404 no_route\n"
        key, plate = form.get("key", ""), form.get("plate", "")
        kind = form.get("kind", "") if target == "/weighings" else "void"
        if not (KEY.fullmatch(key) and PLATE.fullmatch(plate) and kind in KINDS):
            return 422, "fault 422 bad_field\n"
        if key in self.texts:
            is_same = [kind, plate] == next(it[2:4] for it in self.rows if it[1] == key)
            return (201, self.texts[key]) if is_same else (409, "refused 1 key_reused\n")
        refusal = self.refusal(kind, plate)
        return (409, f"refused {refusal}\n") if refusal else (201, self.store(key, kind, plate))

    def refusal(self, kind: str, plate: str) -> str | None:
        kg, tare = self.scale.kg, self.scale.tare
        rows = [
            (kind != "void" and self.scale.state == "D", "7 unstable"),
            (kind != "void" and kg < 400, "8 below_min"),
            (kind in ("first", "second") and tare != 0, "9 tare_active"),
            (kind == "single" and not 0 < tare < kg, "10 no_preset"),
            (kind != "void" and not self.is_cleared, "11 not_cleared"),
            (kind == "first" and plate in self.open, "12 already_open"),
            (kind in ("second", "void") and plate not in self.open, "13 no_open"),
        ]
        return next((name for is_so, name in rows if is_so), None)

    def store(self, key: str, kind: str, plate: str) -> str:
        number, now = len(self.rows) + 1, datetime.datetime.now(datetime.timezone.utc).replace(
            microsecond=0
        )
        gross = str(self.scale.kg) if kind != "void" else ""
        preset = str(self.scale.tare) if kind == "single" else ""
        previous = self.rows[-1][10] if self.rows else ZEROS
        signed = f"version 2\nnumber {number}\nkey {key}\nkind {kind}\nplate {plate}\nmoment {int(now.timestamp())}\ngross {gross or '-'}\npreset {preset or '-'}\n"
        digest = hashlib.sha256(
            f"{signed}interval 20\nmax 60000\nserial WB01\nprevious {previous}\n".encode()
        ).hexdigest()
        at = now.strftime("%Y-%m-%d %H:%M:%S")
        self.rows.append(
            [
                str(number),
                key,
                kind,
                plate,
                at,
                gross,
                preset,
                "20",
                "60000",
                "WB01",
                digest,
                previous,
            ]
        )
        text = self.text_of(number)
        self.texts[key] = text
        if kind in ("second", "single"):
            self.tickets[number] = text
        self.open = {
            it: first for it, first in self.open.items() if it != plate or kind == "single"
        } | ({plate: number} if kind == "first" else {})
        self.is_cleared = self.is_cleared and kind == "void"
        return text

    def text_of(self, number: int) -> str:
        row = self.rows[number - 1]
        head = f"WEIGHING {'TICKET' if row[2] in ('second', 'single') else 'SLIP'} {number}\nPLATE {row[3]}\n"
        if row[2] == "second":
            first = self.rows[self.open[row[3]] - 1]
            return (
                head
                + self.block(first)
                + self.block(row)
                + f"N {abs(int(first[5]) - int(row[5])):>10} kg\n"
            )
        net = f"N {int(row[5]) - int(row[6]):>10} kg\n" if row[2] == "single" else ""
        return head + self.block(row) + net

    def block(self, row: list[str]) -> str:
        weights = (f"G {row[5]:>10} kg\n" if row[5] else "") + (
            f"PT {row[6]:>10} kg\n" if row[6] else ""
        )
        return f"{row[2].upper()} NO {row[0]}\nAT {row[4]}\n{weights}E 20 kg MAX 60000 kg SERIAL WB01\nDIGEST {row[10]}\n"


async def main() -> None:
    service = PlayedService(int(sys.argv[1]), int(sys.argv[2]))
    await service.start()
    loop = asyncio.get_running_loop()
    while line := await loop.run_in_executor(None, sys.stdin.readline):
        service.scale.kg = int(line)


if __name__ == "__main__":
    asyncio.run(main())
