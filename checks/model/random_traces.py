"""Random traces of a weighbridge station, compared between a program and the model next to this file.

`python3 random_traces.py PROGRAM COUNT SEED` prints the first ten traces over which the two differ, and how many there were. With one word
more it prints how often each answer came. If they differ, and the distribution's `hypothesis` is there, the program looks for a small trace over
which they still do.
"""
import random
import subprocess
import sys
from typing import Any

import station_model

DAY = 86400
M = 1741593600
COMMANDS = (
    "S;SI;Z;T;TA;TAC;@;I0;I4;SIR;SIR;SIR 1;s;;S ; S;TA 5000 kg;TA 100 kg;TA 0.010 kg;TA 12.5 kg;"
    "TA 9.999 kg;TA 1 g;TA x;TA ;TA 60009.999 kg;TA 60010 kg;TA 18340 kg;TA 9999999.999 kg;"
    "TA 00000001 kg;I1;TI"
).split(";")
PLATES = ["AB-12", "CD-34", "A"]
KEYS = [f"K{number}" for number in range(12)] + ["k" * 32]
TARGETS = (
    "/weighings /voids /purge /tickets/1 /tickets/2 /tickets/3 /tickets/0 /tickets/0004 "
    "/tickets/4294967295 /tickets/4294967296 /tickets/99999999999 /tickets/ /tickets/1/ "
    "/tickets/x /indication /journal.csv /tickets.csv /check /check?x=/ / ? /Check //check "
    "/%63heck /tickets/%31 /tickets/1.csv"
).split()


class Maker:
    """Makes one random trace, step by step, with a drifting clock and load."""

    def __init__(self, source: random.Random) -> None:
        self.random = source
        pick = self.random.choice
        self.interval = pick([1, 2, 5, 10, 20, 20, 50])
        count = pick([500, 501, 502, 503, 504, 1000, 3000, 3000, 3001, 9999, 10000])
        self.options: dict[str, Any] = {
            "interval": self.interval,
            "max": self.interval * count,
            "window": pick([4, 4, 4, 5, 7, 64]),
            "band": pick([1, 2, 2]),
            "pace": pick([2, 5, 6, 10, 11, 50]),
            "wait": pick([1, 2, 3, 5, 20, 600]),
            "serial": pick(["WB01", "X", "A1B2C3D4E5F6G7H8"]),
            "retention": pick([1, 2, 90, 3650]),
            "capacity": pick([2, 3, 4, 5, 6, 1000]),
        }
        if self.random.random() < 0.5:
            self.options = {
                "wait": pick([1, 3, 20]),
                "capacity": pick([2, 5, 1000]),
                "retention": pick([1, 90]),
            }
            self.interval, count = 20, 3000
        self.top = 10 * count
        self.limit = count // 5
        self.window: int = self.options.get("window", 4)
        self.moment = M
        self.zero = 0
        self.level = 0
        self.calm = self.random.random() < 0.7

    def load(self) -> int:
        """Return a load near one of the bounds that matter, or anywhere."""
        pick, whole = self.random.choice, self.random.randint
        base = pick(
            [
                0,
                0,
                0,
                0,
                self.level,
                self.level,
                self.limit,
                -self.limit,
                195,
                200,
                -205,
                self.top,
                self.top + 95,
                self.zero,
                self.zero,
                9170,
                4070,
                self.zero + 195,
                self.zero - 205,
                self.zero + self.top + 90,
            ]
        )
        return base + whole(-6, 6)

    def readings(self) -> list[str]:
        pick, whole = self.random.choice, self.random.randint
        chance = self.random.random()
        if chance < 0.04:
            return [f"r lost {whole(1, 3)}"]
        if chance < 0.06:
            return [
                pick(
                    (
                        "r 2000001;r -2000001;r 2000000;r -2000000 4;r 123456789012345678;r -0 2;"
                        "r 0007 3;r lost"
                    ).split(";")
                )
            ]
        if chance < 0.3:
            self.level = self.load()
            return [f"r {self.level + whole(-1, 1)}" for _ in range(whole(1, 6))]
        if chance < 0.4:
            self.zero = pick([self.zero + whole(-8, 8), whole(-self.limit - 2, self.limit + 2)])
            return [f"r {self.zero} {self.window}", "t Z"]
        self.level = self.load()
        return [
            f"r {self.level} {pick([1, 2, self.window - 1, self.window, self.window, self.window, self.window + 3])}"
        ]

    def drift(self) -> list[str]:
        """Small loads about a zero, with commands between them and questions that show the zero and the tare to a tenth."""
        pick, whole = self.random.choice, self.random.randint
        lines, here = [], self.zero
        for _ in range(whole(3, 20)):
            here = pick(
                [
                    here,
                    here,
                    here + whole(-2, 2),
                    self.zero + whole(-7, 7),
                    pick([-1, 1]) * self.limit + whole(-3, 3),
                ]
            )
            lines.append(f"r {here} {pick([1, 1, 2, self.window, whole(1, 12)])}")
            if self.random.random() < 0.4:
                lines.append(
                    "t "
                    + pick(
                        [
                            "Z",
                            "Z",
                            "T",
                            "S",
                            "SI",
                            "SIR",
                            "I4",
                            "TA",
                            "@",
                            "TAC",
                            f"TA {self.interval * whole(0, 4)} kg",
                            "TA 30 kg",
                        ]
                    )
                )
            if self.random.random() < 0.3:
                lines += [
                    f"r {here + pick([-6, -5, -4, 4, 5, 6])} {pick([1, self.window])}",
                    "t SI",
                ]
            if self.random.random() < 0.2:
                lines += [
                    f"r {here + whole(1990, 2010)} {self.window}",
                    pick(["t T", "t SI", "t S"]),
                    f"r {here + whole(2100, 2120)} {self.window}",
                    "t SI",
                ]
        self.zero = here
        return lines

    def terminal(self) -> list[str]:
        pick, whole = self.random.choice, self.random.randint
        chance = self.random.random()
        text = pick(COMMANDS)
        if chance < 0.1:
            text = pick(["TA ", "S", "x", "T"]) + "y" * whole(34, 41)
            text = text[: whole(38, 42)]
        if chance < 0.8:
            return ["t " + text if text or chance < 0.5 else "t"]
        data = (text + pick(["\r\n", "\n", "\r\r\n", "\r", ""])).encode()
        cut = whole(0, len(data))
        pieces = [data[:cut], data[cut:]]
        lines = ["b " + piece.hex() for piece in pieces if piece]
        if chance < 0.85:
            lines.insert(1, "h")
        if chance > 0.97:
            lines = ["b " + self.random.randbytes(whole(1, 6)).hex()]
        return lines

    def clock(self) -> int:
        pick, whole = self.random.choice, self.random.randint
        chance = self.random.random()
        if chance < 0.1:
            return max(0, self.moment - pick([1, 2, DAY]))
        if chance < 0.2:
            self.moment += pick([1, DAY - 1, DAY, DAY + 1, 2 * DAY, 90 * DAY, 91 * DAY])
        if chance < 0.22:
            return pick([0, 1, 253402207200])
        if self.random.random() < 0.02:
            self.moment = self.moment // DAY * DAY + pick([0, -1, 1]) + DAY
        return self.moment + whole(0, 1)

    def weighing(self) -> list[str]:
        pick = self.random.choice
        key, plate, kind = pick(KEYS), pick(PLATES), pick(["first", "second", "second", "single"])
        lines = []
        if kind == "single" and self.calm:
            lines.append(pick(["t TA 5000 kg", f"t TA {self.interval * 150} kg", "t TAC"]))
        elif self.calm and self.random.random() < 0.7:
            lines.append("t TAC")
        if self.calm and self.random.random() < 0.8:
            lines += [
                f"r {self.zero} {pick([1, 1, self.window])}",
                f"r {pick([self.load(), self.zero + 1500, self.zero + 3000])} {self.window}",
            ]
        lines.append(f"o {self.clock()} POST /weighings key={key}&kind={kind}&plate={plate}")
        if self.random.random() < 0.3:
            lines.append(f"o {self.clock()} POST /weighings key={key}&kind={kind}&plate={plate}")
        while self.random.random() < 0.25:
            lines.append(
                f"o {self.clock()} POST /weighings key={pick(KEYS)}&kind={pick(['first', 'second', 'single'])}&plate={plate}"
            )
        return lines

    def office(self) -> list[str]:
        pick = self.random.choice
        chance = self.random.random()
        moment = self.clock()
        if chance < 0.45:
            return self.weighing()
        if chance < 0.55:
            return [f"o {moment} POST /voids key={pick(KEYS)}&plate={pick(PLATES)}"]
        if chance < 0.65:
            return [f"o {moment} POST /purge"]
        if chance < 0.8:
            return [f"o {moment} GET {pick(TARGETS)}"]
        if chance < 0.85:
            return [f"o {moment} POST {pick(TARGETS)} {self.form()}"]
        return [
            f"x {moment} {(self.http() if self.random.random() < 0.5 else self.tidy_http()).hex()}"
        ]

    def form(self) -> str:
        pick, whole = self.random.choice, self.random.randint
        pieces = [
            f"key={pick(KEYS)}",
            f"kind={pick(['first', 'second', 'single', 'void', 'Single', ''])}",
            f"plate={pick(PLATES)}",
        ]
        self.random.shuffle(pieces)
        text = "&".join(pieces)
        for _ in range(pick([0, 0, 1, 2, 3])):
            place = whole(0, len(text))
            text = (
                text[:place]
                + pick(
                    [
                        "%",
                        "%4",
                        "%4b",
                        "+",
                        "&",
                        "=",
                        "&&",
                        "%26",
                        "%3D",
                        "x",
                        "A",
                        " ",
                        "\0",
                        "&key=K1",
                        "&plate",
                        "%ff",
                        "k%65y",
                    ]
                )
                + text[place + pick([0, 0, 1]) :]
            )
        return text

    def tidy_http(self) -> bytes:
        """Return a request that is right except for its length or its form."""
        pick = self.random.choice
        body = pick(
            [
                self.form().encode(),
                b"key=K1&kind=first&plate=A",
                b"a" * pick([0, 1, 1023, 1024, 1025, 1030]),
            ]
        )
        length = len(body) + pick([0, 0, 0, 0, 1, -1, 1000, 1024 - len(body), 1025 - len(body)])
        fields = pick(
            [[b"Content-Length: %d" % max(length, 0)]] * 6
            + [
                [],
                [b"Content-Length: 1", b"Content-Length: 1"],
                [b"Transfer-Encoding: x"],
                [b"transfer-encoding: chunked", b"Content-Length: 2"],
                [b"Content-Length: 1 0"],
                [b"content-length:%d" % max(length, 0), b"Host: a"],
            ]
        )
        fields = fields + [b"A: b"] * pick([0] * 8 + [62, 63, 64])
        target = pick([b"/weighings", b"/voids", b"/purge", b"/weighings?x=y"])
        return (
            b"POST "
            + target
            + b" HTTP/1.1\r\n"
            + b"".join(field + b"\r\n" for field in fields)
            + b"\r\n"
            + body
        )

    def http(self) -> bytes:
        """Return a request that is right, with some rubbish put in."""
        pick, whole = self.random.choice, self.random.randint
        method = pick(["GET", "POST", "POST", "get", "HEAD", "PUT", "P", "G@T", "POST "])
        method = pick([method, "GET", "POST", "POST"])
        body = self.form().encode()
        end = pick([b"\r\n", b"\r\n", b"\r\n", b"\n", b"\r"])
        end = pick([b"\r\n", b"\r\n", b"\r\n", end])
        version = pick(
            [b"HTTP/1.1"] * 8 + [b"HTTP/1.0", b"HTTP/1.2", b"HTTP/2", b"http/1.1", b"HTTP/1.1 "]
        )
        length = pick(
            [str(len(body))] * 6
            + [
                str(len(body) + 1),
                str(max(0, len(body) - 1)),
                "0",
                "+5",
                "5, 5",
                "",
                "1024",
                "1025",
                "9" * 30,
                "00" + str(len(body)),
                "x",
                "\t 3 ",
            ]
        )
        fields = [b"Content-Length: " + length.encode()] * pick([1, 1, 1, 1, 1, 1, 0, 2])
        fields += [
            pick(
                [
                    b"Host: x",
                    b"A:",
                    b"A: \xff\x80",
                    b"Transfer-Encoding: chunked",
                    b"content-type:text/plain ",
                    b"X-Y_z: \t a b\t ",
                    b"A : 1",
                    b" B: 1",
                    b"A: 1\x7f",
                    b": 1",
                    b"CONTENT-length:3",
                    b"nocolon",
                    b"A:" + b" " * 20,
                ]
            )
            for _ in range(pick([0, 0, 0, 1, 2]))
        ]
        self.random.shuffle(fields)
        if self.random.random() < 0.05:
            fields += [b"F: 1"] * pick([61, 62, 63, 64, 65])
        if self.random.random() < 0.05:
            fields += [b"L: " + b"y" * pick([8000, 8100, 8190, 8200])]
        target = pick(TARGETS).encode()
        if self.random.random() < 0.06:
            target += pick(
                [
                    b"\xc3\xbc",
                    b"\xff",
                    b'"',
                    b"<",
                    b">",
                    b"\x7f",
                    b"\t",
                    b"#",
                    b"\\",
                    b"^",
                    b"|",
                    b"{n}",
                    b" x",
                    b"?\xff",
                    b"?\xc3\xbc",
                ]
            )
        data = (
            pick([b""] * 10 + [b"\r\n", b"\n", b"\r", b" "])
            + method.encode()
            + b" "
            + target
            + b" "
            + version
            + end
        )
        data += b"".join(field + end for field in fields) + end + body
        for _ in range(pick([0] * 8 + [1, 2])):
            place = whole(0, len(data))
            data = data[:place] + self.random.randbytes(pick([0, 1])) + data[place + pick([0, 1]) :]
        if self.random.random() < 0.04:
            data = data[: whole(1, len(data))]
        if self.random.random() < 0.03:
            data += b"z" * 9000
        return data or b"\n"

    def trace(self) -> bytes:
        pick = self.random.choice
        lines = []
        for _ in range(pick([5, 20, 40, 60])):
            chance = self.random.random()
            if chance < 0.06:
                lines += self.drift()
            elif chance < 0.35:
                lines += self.readings()
            elif chance < 0.55:
                lines += self.terminal()
            elif chance < 0.57:
                lines.append("h")
            elif chance < 0.59:
                lines.append(pick(["", "# comment", "#"]))
            elif chance < 0.593:
                lines.append(
                    pick(
                        [
                            "q",
                            "r",
                            "b 5",
                            "h ",
                            "o 5",
                            "t\t",
                            "r 5 0",
                            "x 5 4",
                            "r 5 10001",
                            "o 00 GET /check",
                            "o 253402207201 GET /check",
                        ]
                    )
                )
            else:
                lines += self.office()
        end = pick(["\n", "\n", "\r\n"])
        text = end.join(lines) + pick(["", "\n"])
        return text.encode("latin-1")


class Compared:
    """A random trace, with what the program and the model print."""

    def __init__(self, program: str, source: random.Random) -> None:
        maker = Maker(source)
        self.trace = maker.trace()
        self.words = [
            word for option, value in maker.options.items() for word in (f"--{option}", str(value))
        ]
        run = subprocess.run(
            [program, "replay"] + self.words, input=self.trace, capture_output=True
        )
        self.printed = run.stdout, run.stderr.decode(), run.returncode
        self.model = station_model.replay(station_model.setup_of_words(self.words), self.trace)

    def differs(self) -> bool:
        return bool(self.printed != self.model)

    def show(self, title: str) -> None:
        got, wanted = self.printed[0].split(b"\n"), self.model[0].split(b"\n")
        place = next(
            (i for i, (a, b) in enumerate(zip(got, wanted)) if a != b), min(len(got), len(wanted))
        )
        print(
            f"--- {title}: {' '.join(self.words)}\n  line {place + 1}: program {got[place:place + 2]} model {wanted[place:place + 2]} {self.printed[1:]} {self.model[1:]}"
        )
        print(self.trace.decode("latin-1"))


def show_smallest(program: str) -> None:
    """Prints a small trace over which the two differ, if hypothesis is there and finds one."""
    try:
        from hypothesis import HealthCheck, Phase, find, settings, strategies
        from hypothesis.errors import NoSuchExample
    except ImportError:
        print("looked for no smaller trace, because python3-hypothesis isn't installed")
        return
    rules = settings(
        max_examples=2000,
        deadline=None,
        database=None,
        phases=[Phase.generate, Phase.shrink],
        suppress_health_check=list(HealthCheck),
    )
    traces = strategies.randoms(use_true_random=False).map(lambda source: Compared(program, source))
    try:
        find(traces, Compared.differs, settings=rules).show("a small one")
    except NoSuchExample:
        print("no smaller trace was found")


def main() -> None:
    program, count, seed = sys.argv[1], int(sys.argv[2]), int(sys.argv[3])
    different = 0
    seen: dict[bytes, int] = {}
    for number in range(seed, seed + count):
        both = Compared(program, random.Random(number))
        for line in both.model[0].split(b"\n"):
            kind = line[2:12] if line.startswith(b"t ") else line[:24]
            if line.startswith((b"t ", b"o ", b"| refused", b"| fault", b"| PURGED")):
                seen[kind] = seen.get(kind, 0) + 1
        if both.differs():
            different += 1
            if different <= 10:
                both.show(f"seed {number}")
    if different:
        show_smallest(program)
    print(f"{count} traces, {different} differences")
    if len(sys.argv) > 4:
        for kind, times in sorted(seen.items()):
            print(times, kind)
    sys.exit(1 if different else 0)


if __name__ == "__main__":
    main()
