"""Histories of a weighbridge station as traces, with what must be printed, reasoned out by hand.

`python3 histories.py PROGRAM` runs each history over the program and over the model next to this file, and prints the differences.
"""
import hashlib
import subprocess
import sys
from collections.abc import Sequence

import station_model

M = 1741593600  # 2025-03-10 08:00:00
LATER = 1741599000  # 2025-03-10 09:30:00
MORNING = "2025-03-10 08:00:00"
HALF_PAST_NINE = "2025-03-10 09:30:00"
PLATE_LINE = "E 20 kg MAX 60000 kg SERIAL WB01"
ENTRY_TEXT = (
    "version 2\nnumber {}\nkey {}\nkind {}\nplate {}\nmoment {}\ngross {}\npreset {}\ninterval 20\nmax 60000\nserial WB01\n"
    "previous {}\n"
)
ZEROS = "0" * 64
JOURNAL_HEAD = (
    "number,key,kind,plate,moment,gross_kg,preset_kg,interval_kg,max_kg,serial,digest,previous"
)
TICKETS_HEAD = "ticket,kind,plate,first,at,gross_kg,tare_kg,net_kg"
HISTORIES: list[tuple[str, str, bytes, str, str, int]] = []


def history(
    name: str,
    trace: str | Sequence[str | bytes],
    wanted: str | Sequence[str],
    options: str = "",
    complaint: str = "",
    status: int = 0,
) -> None:
    """Add a history. The lines of the trace and of the output are lists, or texts that have a semicolon and a blank between two lines."""
    given = trace.split("; ") if isinstance(trace, str) else trace
    data = b"".join((line if isinstance(line, bytes) else line.encode()) + b"\n" for line in given)
    printed = wanted.split("; ") if isinstance(wanted, str) else wanted
    HISTORIES.append(
        (name, options, data, "".join(line + "\n" for line in printed), complaint, status)
    )


def digest(
    number: int,
    key: str,
    kind: str,
    plate: str,
    moment: int,
    gross: int | str = "-",
    preset: int | str = "-",
    previous: str = ZEROS,
) -> str:
    return hashlib.sha256(
        ENTRY_TEXT.format(number, key, kind, plate, moment, gross, preset, previous).encode()
    ).hexdigest()


def weighing(moment: int, key: str, kind: str, plate: str) -> str:
    return f"o {moment} POST /weighings key={key}&kind={kind}&plate={plate}"


def driven(tenths: int, moment: int, key: str, kind: str, plate: str) -> list[str]:
    """Return what happens if a vehicle drives onto the empty bridge, stands still and is weighed."""
    return ["r 0", f"r {tenths} 4", weighing(moment, key, kind, plate)]


def void(moment: int, key: str, plate: str) -> str:
    return f"o {moment} POST /voids key={key}&plate={plate}"


def raw(moment: int, data: bytes) -> str:
    return f"x {moment} {data.hex()}"


def answer(status: int, *body: str) -> list[str]:
    return [f"o {status}"] + ["| " + line for line in body]


def kg(value: int) -> str:
    return f"{value:>10} kg"


def block(
    word: str, number: int, at: str, seal: str, gross: int | None = None, preset: int | None = None
) -> list[str]:
    lines = [f"{word} NO {number}", f"AT {at}"]
    lines += [f"G {kg(gross)}"] if gross is not None else []
    lines += [f"PT {kg(preset)}"] if preset is not None else []
    return lines + [PLATE_LINE, f"DIGEST {seal}"]


def slip(number: int, plate: str, *lines: str) -> list[str]:
    return answer(201, f"WEIGHING SLIP {number}", f"PLATE {plate}", *lines)


def ticket(number: int, plate: str, lines: Sequence[str], net: int, status: int = 201) -> list[str]:
    return answer(status, f"WEIGHING TICKET {number}", f"PLATE {plate}", *lines, f"N {kg(net)}")


# A pair, used often.
D1 = digest(1, "K1", "first", "AB-12", M, 18340)
D2 = digest(2, "K2", "second", "AB-12", LATER, 8140, previous=D1)
FIRST_BLOCK = block("FIRST", 1, MORNING, D1, 18340)
SLIP_1 = slip(1, "AB-12", *FIRST_BLOCK)
TICKET_2 = ticket(2, "AB-12", FIRST_BLOCK + block("SECOND", 2, HALF_PAST_NINE, D2, 8140), 10200)
PAIR = [*driven(9170, M, "K1", "first", "AB-12"), *driven(4070, LATER, "K2", "second", "AB-12")]
PAIR_PRINTED = SLIP_1 + TICKET_2

# Terminal: indication.
history("01 four equal loads", "r 9170 4; t SI", "t S S      18340 kg")
history("02 below the half", "r 9163 3; r 9164; t SI", "t S S      18320 kg")
history("03 the half goes up", "r 9163 3; r 9165; t SI", "t S S      18340 kg")
history(
    "04 over and under",
    "r 30094 4; t SI; r 30095 4; t SI; r -205 4; t SI; r -206 4; t SI",
    "t S S      60180 kg; t S +; t S S       -400 kg; t S -",
)
history("05 nothing weighed", "t SI; t S; r lost 20", "t S I; t S I")
history(
    "06 lost starts the window again",
    "r 9170 4; r lost; t SI; r 9170 3; t SI; r 9170; t SI",
    "t S I; t S D      18340 kg; t S S      18340 kg",
)
history(
    "07 numbers of readings",
    "r 2000001; t SI; r 999999999999999999; t SI; r -2000000; t SI; r 000000000000000004 3; r -0; "
    "r 4; t SI",
    "t S I; t S I; t S -; t S D          0 kg",
)
history(
    "08 the middle of the window counts",
    "r 9172 2; r 9170 2; r 9169; t SI; r 9170; t SI",
    "t S D      18340 kg; t S S      18340 kg",
)
# Zero.
history(
    "09 zero setting at its bounds",
    "r 600 4; t Z; t SI; r 601 4; t Z; t SI; r -601 4; t Z; t SI; r -600 4; t Z; t SI",
    "t Z A; t S S          0 kg; t Z +; t S S          0 kg; t Z -; t S -; t Z A; "
    "t S S          0 kg",
)
history("10 two steps of tracking", "r 3 7; r 7; t SI", "t S D         20 kg")
history("11 three steps of tracking", "r 3 8; r 7; t SI", "t S D          0 kg")
history(
    "12 no step at a reading that sets zero",
    "r 3 3; t Z; r 3; r 4; r 8; t SI",
    "t Z A; t S D          0 kg",
)
history(
    "13 zero setting leaves the gap running",
    "r 3 4; t Z; r 4; r 8; t SI",
    "t Z A; t S D         20 kg",
)
history(
    "14 a refused zero setting lets the step be made",
    "r 599 4; t Z; r 603 3; t Z; r 603; r 604; t SI",
    "t Z A; t Z +; t S S          0 kg",
)
history("15 four steps in 43 readings", "r -5 43; r -10; t SI", "t S D        -20 kg", "--pace 50")
history("16 five steps in 44 readings", "r -5 44; r -10; t SI", "t S D          0 kg", "--pace 50")
history(
    "17 the zero's limit stops tracking",
    "r 600 4; t Z; r 601 8; r 605; t SI",
    "t Z A; t S D         20 kg",
)
history(
    "18 no tracking at a net zero",
    "r 9170 4; t T; r 9173 40; t SI; r 9175 4; t SI",
    "t T S      18340 kg; t S S          0 kg; t S S         20 kg",
)
history(
    "19 a reply uses the zero after the step",
    "r 9179 4; t T; r 4 3; t S; r 4",
    "t T S      18360 kg; t S S     -18360 kg",
)
# Tares.
history(
    "20 weighed tare in tenths",
    "r 9173 4; t T; t TA; r 9997 4; t SI",
    "t T S      18340 kg; t TA A      18340 kg; t S S       1640 kg",
)
history(
    "21 preset rounded, bad, and before a weighed tare",
    "r 9170 4; t TA 5003 kg; t TA 5010 kg; t TA 5 g; t T",
    "t TA A       5000 kg; t TA A       5020 kg; t TA L; t T I",
)
history(
    "22 bounds and forms of a preset",
    "t TA; t TA 9.999 kg; t TA 10 kg; t TA 60009.999 kg; t TA 60010 kg; t TA 0 kg; "
    "t TA 1234567.1 kg; t TA 12345678 kg; t TA 12. kg; t TA .5 kg; t TA 29.9999 kg; "
    "t TA 029.5 kg; t TA 30 kg; t TA 30 kg ; t TA 30 KG; t TA  30 kg; t TA ; t TA-5 kg; t TA",
    "t TA A          0 kg; t TA L; t TA A         20 kg; t TA A      60000 kg; t TA L; t TA L; "
    "t TA L; t TA L; t TA L; t TA L; t TA L; t TA A         20 kg; t TA A         40 kg; t TA L; "
    "t TA L; t TA L; t TA L; t ES; t TA A         40 kg",
)
history(
    "23 weighed tare in force",
    "r 9170 4; t T; t TA 100 kg; t TA 1 kg; t TA abc; r 5000 4; t T; t TA; t SI; t TAC; t TA; t SI",
    "t T S      18340 kg; t TA I; t TA I; t TA L; t T S      10000 kg; t TA A      10000 kg; "
    "t S S          0 kg; t TAC A; t TA A          0 kg; t S S      10000 kg",
)
history(
    "24 bounds of a weighed tare",
    "r 0 4; t T; r 4 4; t T; r 5 4; t T; t TAC; r 30004 4; t T; r 30003 4; t T",
    # The zero moves to 1 at the fourth 4, to 2 at the second 5 and to 3 at the fourth; 5 - 3 = 2 rounds to 0.
    # Then 30004 - 3 is above 30000 and 30003 - 3 isn't.
    "t T -; t T -; t T -; t TAC A; t T +; t T S      60000 kg",
)
history(
    "25 zero setting and @ clear a tare",
    "r 100 4; t T; r 300 4; t Z; t TA; t SI; t TA 500 kg; t SI; t @; t SI",
    "t T S        200 kg; t Z A; t TA A          0 kg; t S S          0 kg; t TA A        500 kg; "
    't S S       -500 kg; t I4 A "WB01"; t S S          0 kg',
)
# Waiting and lines.
history(
    "26 stable at the last reading of the wait",
    ["t S"] + ["r 9100", "r 9200"] * 8 + ["r 9170 4"],
    "t S S      18340 kg",
)
history(
    "27 not stable at the last reading",
    ["t S"] + ["r 9100", "r 9200"] * 8 + ["r 9100", "r 9170 3"],
    "t S I",
)
history(
    "28 waits and other lines",
    "t S; t SI; t S; t @; t s; t S 1; t",
    't S I; t S I; t I4 A "WB01"; t ES; t ES; t ES',
)
history(
    "29 each line ends the wait before it",
    "t Z; t Z; t T; t S; t x; t T; t I4; t SR",
    't Z I; t Z I; t T I; t S I; t ES; t T I; t I4 A "WB01"; t ES',
)
history(
    "30 over and under answer a waiting S at once, Z and T wait",
    "t S; r 40000; t S; t Z; r -300; r 40000 19; t S; t T; r -300; t S",
    # Z waits until the last four loads are 40000, then it is decided: above. T comes at a stable scale, so it is decided too.
    "t S +; t S +; t Z +; t S +; t T +; t S -",
)
history(
    "31 one reading of waiting",
    "t Z; r 0; r 0 2; t Z; r 0; t T; r lost; t T; r 9170; r 9170",
    "t Z I; t Z A; t T -; t T I",
    "--wait 1",
)
history(
    "32 hang-up",
    "r 0 4; t T; b 53; h; b 490d0a; r 9170; t S; h; r 9170 20; t T; b 54; h; t TA",
    "t T -; t ES; t T S      18340 kg; t TA A      18340 kg",
)
history(
    "33 lines in pieces",
    "r 9170 4; b 53; b 490d; b 0a; b 53490a5349; b 0a; b 530d490d0a; b 53490d0d0a; b 0a; b 0d0A",
    ["t S S      18340 kg"] * 3 + ["t ES"] * 4,
)
history(
    "34 long lines",
    [
        "t TA " + "x" * 37,
        "t TA " + "x" * 38,
        "b " + (b"TA " + b"x" * 37 + b"\r\r\n").hex(),
        "b " + (b"TA " + b"x" * 37 + b"\n").hex(),
        "b " + (b"TA " + b"x" * 36 + b"\r\r\n").hex(),
        "b " + (b"SI" * 5000 + b"\n").hex(),
        "t I4",
    ],
    't TA L; t ES; t ES; t TA L; t TA L; t ES; t I4 A "WB01"',
)
history(
    "35 the list of commands",
    "t I0",
    [f't I0 B 0 "{name}"' for name in ("@", "I0", "I4", "S", "SI", "SIR", "Z")]
    + ['t I0 B 1 "T"', 't I0 B 1 "TA"', 't I0 A 1 "TAC"'],
)
# Repetition.
history(
    "35.1 the value at each reading, up to SI",
    "t SIR; r 9170 4; t SI; r 9170",
    ["t S D      18340 kg"] * 3 + ["t S S      18340 kg"] * 2,
)
history(
    "35.2 after the answer of a waiting Z, up to @",
    "t SIR; t Z; r 3 4; t @; r 3",
    ["t S D          0 kg"] * 3 + ["t Z A", "t S S          0 kg", 't I4 A "WB01"'],
)
history(
    "35.3 SIR answers what waits, and a hang-up ends it",
    "t S; t SIR; r lost; h; r 0",
    "t S I; t S I",
)
history("35.4 a line that isn't understood leaves it on", "t SIR; t x; r lost", "t ES; t S I")
history(
    "35.5 SIR while Z waits, twice, then @",
    "t Z; t SIR; r 0; t SIR; r 0; t @; r 0 9",
    't Z I; t S D          0 kg; t S D          0 kg; t I4 A "WB01"',
)
history(
    "35.6 in a half line at a hang-up, and half a line of SI",
    "b 534952; h; b 0d0a; r 0; t SIR; b 5349; r 0; b 0a; r 0",
    "t ES; t S D          0 kg; t S D          0 kg",
)
history(
    "35.7 with a parameter it is no command",
    "t SIR 5; r 0; t SIR; t SIR 5; t TA 100 kg; r 0; t S; r 0 2",
    "t ES; t ES; t TA A        100 kg; t S D       -100 kg; t S S       -100 kg",
)
history(
    "35.8 a hundred readings with T and TAC among them",
    "t SIR; r 9170 40; t T; r 9170 30; t TAC; r 9170 30",
    ["t S D      18340 kg"] * 3
    + ["t S S      18340 kg"] * 37
    + ["t T S      18340 kg"]
    + ["t S S          0 kg"] * 30
    + ["t TAC A"]
    + ["t S S      18340 kg"] * 30,
)
history(
    "35.9 the value after a tare is less it; a zero in vain",
    "t SIR; t T; r 9170 4; t Z; r lost 3",
    ["t S D      18340 kg"] * 3
    + ["t T S      18340 kg", "t S S          0 kg", "t Z +", "t S I", "t S I", "t S I"],
)
history(
    "35.10 the last reading of a wait",
    "t SIR; t Z; r lost 3",
    "t S I; t Z I; t S I; t S I",
    "--wait 2",
)
history(
    "35.11 a weighing changes no reply",
    ["t SIR", *driven(9170, M, "K1", "first", "AB-12"), "r 9170"],
    ["t S D          0 kg"]
    + ["t S D      18340 kg"] * 3
    + ["t S S      18340 kg"]
    + SLIP_1
    + ["t S S      18340 kg"],
)
# Traces.
history(
    "36 comments, empty lines, CR LF",
    ["# comment", "", "r 9170 4\r", "t SI\r", "\r", "q"],
    "t S S      18340 kg",
    complaint="trace line 6 not understood\n",
    status=1,
)
for place, bad in enumerate(
    (
        "r;r ;r 1 0;r 1 10001;r  1;r 1 01;r 1 2 3;r 1 ;b;b ;b 5;b 5g;b 53 49;h ;hh;o 01 GET /x;"
        "o 253402207201 GET /x;o 5 GET;o 5 GET ;o 5 GET /x y;o 5 PUT /x;o -1 GET /x;o 5 POST;"
        "o 5 POST ;x 5;x 5 ;x 5 4;x 5 4x;R 5; r 5;r 1234567890123456789;r +5;r --5;r LOST;"
        "r lost 0;tSI;T SI; # no;o 5 get /x;x 999999999999999 41"
    ).split(";")
):
    history(
        f"37.{place} bad line {bad!r}",
        ["r 9170 4\r", "t SI", bad, "t SI"],
        ["t S S      18340 kg"],
        complaint="trace line 3 not understood\n",
        status=1,
    )
history("38 too long", ["t SI", "#" * (1048577 - 6)], [], complaint="trace too long\n", status=1)
for options, complaint in [
    ("--interval 3", "1 Interval"),
    ("--max 60010", "2 Max"),
    ("--max 9980", "2 Max"),
    ("--window 3", "3 Window"),
    ("--band 3", "4 Band"),
    ("--pace 51", "5 Pace"),
    ("--wait 0", "6 Wait"),
    ("--serial wb", "7 Serial"),
    ("--retention 3651", "8 Retention"),
    ("--capacity 1", "9 Capacity"),
    ("--interval 3 --max 1", "1 Interval"),
]:
    history(f"39 setup {options}", ["t SI"], [], options, f"setup refused: {complaint}\n", 2)
history(
    "40 the least scale",
    "r 9 2; r 10 2; t SI; r 100 4; t Z; r 101 4; t Z",
    "t S S         20 kg; t Z A; t Z +",
    "--max 10000 --band 1",
)
# Office: the worked pairs.
history(
    "41 a pair and its repetition",
    PAIR
    + ["r 0", weighing(LATER, "K2", "second", "AB-12"), weighing(LATER, "K1", "first", "CD-34")],
    PAIR_PRINTED + TICKET_2 + answer(409, "refused 1 key_reused"),
)
history(
    "42 below min, then not cleared",
    [
        "r 190 4",
        weighing(M, "K1", "first", "AB-12"),
        "r 200 4",
        weighing(M, "K1", "first", "AB-12"),
        weighing(M, "K2", "first", "CD-34"),
    ],
    answer(409, "refused 8 below_min")
    + slip(1, "AB-12", *block("FIRST", 1, MORNING, digest(1, "K1", "first", "AB-12", M, 400), 400))
    + answer(409, "refused 11 not_cleared"),
)
# The entry below it is purged, so its previous digest is zeros.
D3 = digest(3, "K3", "first", "CD-34", 1749427200, 18340)
history(
    "43 purges at the bound",
    PAIR
    + [
        "o 1749427199 POST /purge",
        "o 1749427200 POST /purge",
        weighing(1749427200, "K1", "first", "AB-12"),
        "r 9170 4",
        weighing(1749427200, "K3", "first", "CD-34"),
    ],
    # The second's loads were 4070; the bridge wasn't cleared since, so a reading below twenty intervals is wanted first.
    PAIR_PRINTED
    + answer(200, "PURGED 0")
    + answer(200, "PURGED 2")
    + answer(410, "refused 2 gone")
    + answer(409, "refused 11 not_cleared"),
)
history(
    "43b a purge and a repetition: the bridge was cleared before the repetition",
    PAIR
    + [
        "r 0",
        weighing(LATER, "K2", "second", "AB-12"),
        "o 1749427199 POST /purge",
        "o 1749427200 POST /purge",
        weighing(1749427200, "K1", "first", "AB-12"),
        "r 9170 4",
        weighing(1749427200, "K3", "first", "CD-34"),
    ],
    PAIR_PRINTED
    + TICKET_2
    + answer(200, "PURGED 0")
    + answer(200, "PURGED 2")
    + answer(410, "refused 2 gone")
    + slip(3, "CD-34", *block("FIRST", 3, "2025-06-09 00:00:00", D3, 18340)),
)
history(
    "44 body shorter than its length",
    [raw(M, b"POST /purge HTTP/1.1\r\nContent-Length: 5\r\n\r\nab")],
    answer(400, "fault 400 malformed"),
)
history(
    "45 capacity two",
    [
        *driven(9170, M, "K1", "first", "AB-12"),
        *driven(9170, M, "K2", "first", "CD-34"),
        *driven(4070, M, "K3", "second", "AB-12"),
    ],
    SLIP_1
    + answer(409, "refused 14 journal_full")
    + ticket(
        2,
        "AB-12",
        FIRST_BLOCK
        + block(
            "SECOND", 2, MORNING, digest(2, "K3", "second", "AB-12", M, 8140, previous=D1), 8140
        ),
        10200,
    ),
    "--capacity 2",
)
DAY = 86400
A_1 = digest(1, "A1", "first", "A", M, 18340)
B_2 = digest(2, "B1", "first", "B", M, 18340, previous=A_1)
A_3 = digest(3, "A2", "second", "A", M, 8140, previous=B_2)
B_4 = digest(4, "B2", "void", "B", M + 91 * DAY, previous=A_3)
history(
    "46 an open First holds back a pair",
    [
        *driven(9170, M, "A1", "first", "A"),
        *driven(9170, M, "B1", "first", "B"),
        *driven(4070, M, "A2", "second", "A"),
        f"o {M + 91 * DAY} POST /purge",
        void(M + 91 * DAY, "B2", "B"),
        f"o {M + 91 * DAY} POST /purge",
        f"o {M + 181 * DAY} POST /purge",
        f"o {M + 182 * DAY} POST /purge",
    ],
    slip(1, "A", *block("FIRST", 1, MORNING, A_1, 18340))
    + slip(2, "B", *block("FIRST", 2, MORNING, B_2, 18340))
    + ticket(
        3,
        "A",
        block("FIRST", 1, MORNING, A_1, 18340) + block("SECOND", 3, MORNING, A_3, 8140),
        10200,
    )
    + answer(200, "PURGED 0")
    + slip(4, "B", *block("VOID", 4, "2025-06-09 08:00:00", B_4))
    + answer(200, "PURGED 0")
    + answer(200, "PURGED 0")
    + answer(200, "PURGED 4"),
)
SINGLE_1 = ticket(
    1,
    "AB-12",
    block("SINGLE", 1, MORNING, digest(1, "K1", "single", "AB-12", M, 18340, 5000), 18340, 5000),
    13340,
)
history(
    "47 a single over a preset",
    [
        "r 0",
        "t TA 5003 kg",
        "r 9170 4",
        weighing(M, "K1", "first", "AB-12"),
        weighing(M, "K1", "single", "AB-12"),
        f"o {M} GET /indication",
    ],
    ["t TA A       5000 kg"]
    + answer(409, "refused 9 tare_active")
    + SINGLE_1
    + answer(200, "STABLE G      18340 kg N      13340 kg"),
)
history(
    "48 an earlier clock",
    [
        *driven(9170, M, "K1", "first", "AB-12"),
        weighing(M - 1, "K1", "first", "AB-12"),
        weighing(M - 1, "K2", "second", "AB-12"),
    ],
    SLIP_1 + SLIP_1 + answer(409, "refused 3 clock_back"),
)
history(
    "49 tables and wrong methods",
    PAIR
    + [
        f"o {LATER} GET /tickets.csv",
        f"o {LATER} GET /tickets/1",
        f"o {LATER} POST /check",
        f"o {LATER} GET /journal.csv",
        f"o {LATER} GET /tickets/2",
        f"o {LATER} GET /check",
    ],
    PAIR_PRINTED
    + answer(200, TICKETS_HEAD, "2,pair,AB-12,1,2025-03-10 09:30:00,18340,8140,10200")
    + answer(404, "refused 16 no_ticket")
    + answer(405, "fault 405 wrong_method")
    + answer(
        200,
        JOURNAL_HEAD,
        f"1,K1,first,AB-12,2025-03-10 08:00:00,18340,,20,60000,WB01,{D1},{ZEROS}",
        f"2,K2,second,AB-12,2025-03-10 09:30:00,8140,,20,60000,WB01,{D2},{D1}",
    )
    + ["o 200"]
    + TICKET_2[1:]
    + answer(200, "SOUND 2"),
)
# Office: the requests that were judged by hand.
SAME_2 = digest(2, "K2", "second", "AB-12", M, 18340, previous=D1)
FIRST_3 = digest(3, "K3", "first", "AB-12", M, 8140, previous=SAME_2)
TICKET_SAME = ticket(2, "AB-12", FIRST_BLOCK + block("SECOND", 2, MORNING, SAME_2, 18340), 0)
VOID_4 = slip(
    4, "AB-12", *block("VOID", 4, MORNING, digest(4, "K5", "void", "AB-12", M, previous=FIRST_3))
)
FIRST_AB = weighing(M, "K1", "first", "AB-12")
NO_TICKET = answer(404, "refused 16 no_ticket")
history(
    "50 requests 1 to 30",
    [
        FIRST_AB,
        "r 0",
        "r 30095",
        FIRST_AB,
        "r -206",
        FIRST_AB,
        "r 190",
        FIRST_AB,
        "r 194 4",
        "t T",
        FIRST_AB,
        "r 9170 4",
        FIRST_AB,
        weighing(M, "K1", "single", "AB-12"),
        "t TAC",
        weighing(M, "K1", "single", "AB-12"),
        "t TA 18340 kg",
        weighing(M, "K1", "single", "AB-12"),
        "t TAC",
        FIRST_AB,
        "r lost",
        weighing(0, "K1", "first", "AB-12"),
        weighing(0, "K1", "second", "AB-12"),
        weighing(0, "K1", "first", "AB-13"),
        void(M, "K1", "AB-12"),
        weighing(M - 1, "K2", "second", "AB-12"),
        "r 9170 4",
        weighing(M, "K2", "first", "AB-12"),
        *driven(9170, M, "K2", "first", "AB-12"),
        weighing(M, "K2", "second", "CD-34"),
        weighing(M, "K2", "second", "AB-12"),
        weighing(M, "K3", "second", "AB-12"),
        void(M, "K3", "AB-12"),
        *driven(4070, M, "K3", "first", "AB-12"),
        "r lost",
        void(M, "K5", "AB-12"),
        void(M, "K6", "AB-12"),
        void(5, "K5", "AB-12"),
        "t TA 5000 kg",
        weighing(M, "K2", "second", "AB-12"),
        f"o {M} GET /tickets/0",
        f"o {M} GET /tickets/1",
        f"o {M} GET /tickets/4",
        f"o {M} GET /tickets/42949672960",
        f"o {M} GET /tickets/4294967296",
        f"o {M} GET /tickets/0002?a=b",
    ],
    answer(409, "refused 4 no_load")
    + answer(409, "refused 5 overload")
    + answer(409, "refused 6 underload")
    + answer(409, "refused 7 unstable")
    + ["t T S        380 kg"]
    + answer(409, "refused 8 below_min")
    + answer(409, "refused 9 tare_active") * 2
    + ["t TAC A"]
    + answer(409, "refused 10 no_preset")
    + ["t TA A      18340 kg"]
    + answer(409, "refused 10 no_preset")
    + ["t TAC A"]
    + SLIP_1 * 2
    + answer(409, "refused 1 key_reused") * 3
    + answer(409, "refused 3 clock_back")
    + answer(409, "refused 11 not_cleared")
    + answer(409, "refused 12 already_open")
    + answer(409, "refused 13 no_open")
    + TICKET_SAME
    + answer(409, "refused 11 not_cleared")
    + answer(409, "refused 13 no_open")
    + slip(3, "AB-12", *block("FIRST", 3, MORNING, FIRST_3, 8140))
    + VOID_4
    + answer(409, "refused 13 no_open")
    + VOID_4
    + ["t TA A       5000 kg"]
    + TICKET_SAME
    + NO_TICKET * 5
    + ["o 200"]
    + TICKET_SAME[1:],
)
LONG_KEY = "Abcdefghij-0123456789-ABCDEFGHIJ"
LONG_1 = digest(1, LONG_KEY, "first", "AB-12", M, 18340)
LONG_BLOCK = block("FIRST", 1, MORNING, LONG_1, 18340)
S_2 = digest(2, "S1", "single", "EF-56", M, 18340, 5000, LONG_1)
X_3 = digest(3, "X1", "second", "AB-12", M, 18340, previous=S_2)
history(
    "51 requests 31 to 38",
    [
        *driven(9170, M, LONG_KEY + "x", "first", "AB-12"),
        weighing(M, LONG_KEY, "first", "AB-12"),
        "t TA 5000 kg",
        *driven(9170, M, "S1", "single", "EF-56"),
        *driven(9170, M, "S2", "single", "EF-56"),
        "t TAC",
        weighing(M, "F2", "first", "AB-12"),
        weighing(M, "F2", "first", "GH-78"),
        weighing(M, "X1", "second", "AB-12"),
        void(M, "V1", "AB-12"),
    ],
    answer(422, "fault 422 bad_field")
    + slip(1, "AB-12", *LONG_BLOCK)
    + ["t TA A       5000 kg"]
    + ticket(2, "EF-56", block("SINGLE", 2, MORNING, S_2, 18340, 5000), 13340)
    + answer(409, "refused 14 journal_full")
    + ["t TAC A"]
    + answer(409, "refused 12 already_open")
    + answer(409, "refused 14 journal_full")
    + ticket(3, "AB-12", LONG_BLOCK + block("SECOND", 3, MORNING, X_3, 18340), 0)
    + answer(409, "refused 13 no_open"),
    "--capacity 3",
)
history(
    "52 requests 39 to 43",
    PAIR
    + [
        "o 1749427199 POST /purge",
        "o 1749427200 POST /purge",
        "r lost",
        weighing(5, "K1", "second", "ZZ"),
        *driven(9170, 5, "K3", "first", "AB-12"),
        "o 5 GET /tickets/2",
        "o 5 GET /check",
    ],
    PAIR_PRINTED
    + answer(200, "PURGED 0")
    + answer(200, "PURGED 2")
    + answer(410, "refused 2 gone")
    + slip(
        3,
        "AB-12",
        *block(
            "FIRST", 3, "1970-01-01 00:00:05", digest(3, "K3", "first", "AB-12", 5, 18340), 18340
        ),
    )
    + NO_TICKET
    + answer(200, "SOUND 1"),
)
OLD = 91 * DAY
OLD_1 = digest(1, "A1", "first", "A", 0, 18340)
OLD_2 = digest(2, "B1", "first", "B", 0, 18340, previous=OLD_1)
OLD_3 = digest(3, "B2", "second", "B", 0, 8140, previous=OLD_2)
OLD_4 = digest(4, "A2", "second", "A", OLD, 8140, previous=OLD_3)
A1 = block("FIRST", 1, "1970-01-01 00:00:00", OLD_1, 18340)
B1 = block("FIRST", 2, "1970-01-01 00:00:00", OLD_2, 18340)
history(
    "53 requests 44 and 45",
    [
        *driven(9170, 0, "A1", "first", "A"),
        *driven(9170, 0, "B1", "first", "B"),
        *driven(4070, 0, "B2", "second", "B"),
        f"o {OLD} POST /purge",
        *driven(4070, OLD, "A2", "second", "A"),
        f"o {OLD} POST /purge",
        f"o {OLD} GET /check",
    ],
    slip(1, "A", *A1)
    + slip(2, "B", *B1)
    + ticket(3, "B", B1 + block("SECOND", 3, "1970-01-01 00:00:00", OLD_3, 8140), 10200)
    + answer(200, "PURGED 0")
    + ticket(4, "A", A1 + block("SECOND", 4, "1970-04-02 00:00:00", OLD_4, 8140), 10200)
    + answer(200, "PURGED 0")
    + answer(200, "SOUND 4"),
)
# The entry below it stood when it was appended, so it is chained to that one for good.
YOUNG = digest(3, "S1", "single", "EF-56", 1749427200, 18340, 5000, D2)
YOUNG_BLOCK = block("SINGLE", 3, "2025-06-09 00:00:00", YOUNG, 18340, 5000)
history(
    "54 request 46",
    PAIR
    + [
        "r 0",
        "t TA 5000 kg",
        "r 9170 4",
        weighing(1749427200, "S1", "single", "EF-56"),
        "o 1749427200 POST /purge",
        "o 1749427200 GET /check",
        "o 0 GET /tickets/3",
        weighing(1749427199, "S2", "single", "EF-56"),
        "o 9999999999 POST /purge",
    ],
    PAIR_PRINTED
    + ["t TA A       5000 kg"]
    + ticket(3, "EF-56", YOUNG_BLOCK, 13340)
    + answer(200, "PURGED 2")
    + answer(200, "SOUND 1")
    + ticket(3, "EF-56", YOUNG_BLOCK, 13340, status=200)
    + answer(409, "refused 3 clock_back")
    + answer(200, "PURGED 1"),
)
S3 = digest(3, "S3", "single", "EF-56", LATER, 18340, 5000, D2)
F4 = digest(4, "F4", "first", "EF-56", LATER, 18340, previous=S3)
V5 = digest(5, "V5", "void", "EF-56", LATER, previous=F4)
history(
    "55 requests 47 and 48",
    PAIR
    + [
        "r 0",
        "t TA 5000 kg",
        "r 9170 4",
        weighing(LATER, "S3", "single", "EF-56"),
        "t @",
        *driven(9170, LATER, "F4", "first", "EF-56"),
        void(LATER, "V5", "EF-56"),
        f"o {LATER} GET /tickets.csv",
        f"o {LATER} GET /journal.csv",
    ],
    PAIR_PRINTED
    + ["t TA A       5000 kg"]
    + ticket(3, "EF-56", block("SINGLE", 3, HALF_PAST_NINE, S3, 18340, 5000), 13340)
    + ['t I4 A "WB01"']
    + slip(4, "EF-56", *block("FIRST", 4, HALF_PAST_NINE, F4, 18340))
    + slip(5, "EF-56", *block("VOID", 5, HALF_PAST_NINE, V5))
    + answer(
        200,
        TICKETS_HEAD,
        "2,pair,AB-12,1,2025-03-10 09:30:00,18340,8140,10200",
        "3,preset,EF-56,,2025-03-10 09:30:00,18340,5000,13340",
    )
    + answer(
        200,
        JOURNAL_HEAD,
        f"1,K1,first,AB-12,2025-03-10 08:00:00,18340,,20,60000,WB01,{D1},{ZEROS}",
        f"2,K2,second,AB-12,2025-03-10 09:30:00,8140,,20,60000,WB01,{D2},{D1}",
        f"3,S3,single,EF-56,2025-03-10 09:30:00,18340,5000,20,60000,WB01,{S3},{D2}",
        f"4,F4,first,EF-56,2025-03-10 09:30:00,18340,,20,60000,WB01,{F4},{S3}",
        f"5,V5,void,EF-56,2025-03-10 09:30:00,,,20,60000,WB01,{V5},{F4}",
    ),
)
# Office: HTTP.
SOUND = answer(200, "SOUND 0")
MALFORMED = answer(400, "fault 400 malformed")
NO_ROUTE = answer(404, "fault 404 no_route")
WRONG_METHOD = answer(405, "fault 405 wrong_method")
TOO_LARGE_HEAD = answer(431, "fault 431 head_too_large")
PURGED = answer(200, "PURGED 0")
BAD_FIELD = answer(422, "fault 422 bad_field")
START = b"GET /check HTTP/1.1\r\n"
HEADS = [
    (b"\n", MALFORMED),
    (START, MALFORMED),
    (START + b"\r\n", SOUND),
    (b"\r\n\n" + START + b"\r\n", SOUND),
    (b"GET /check HTTP/1.1\n\n", SOUND),
    (b"GET /check HTTP/1.0\r\n\r\n", SOUND),
    (b"GET /check HTTP/1.2\r\n\r\n", MALFORMED),
    (b"GET  /check HTTP/1.1\r\n\r\n", MALFORMED),
    (b"get /check HTTP/1.1\r\n\r\n", WRONG_METHOD),
    (b"HEAD /check HTTP/1.1\r\n\r\n", WRONG_METHOD),
    (START + b"A: " + b"x" * (8192 - 24), MALFORMED),
    (START + b"A: " + b"x" * (8193 - 24), TOO_LARGE_HEAD),
    (START + b"A: " + b"x" * (8192 - 28) + b"\r\n\r\n", SOUND),
    (START + b"A: " + b"x" * (8193 - 28) + b"\r\n\r\n", TOO_LARGE_HEAD),
    (START + b"A: 1\r\n" * 64 + b"\r\n", SOUND),
    (START + b"A: 1\r\n" * 65 + b"\r\n", MALFORMED),
    (START + b"A: 1\r\n" * 65 + b"\r\n" + b"x" * 9000, TOO_LARGE_HEAD),
    (START + b"\r\n" + b"x" * 9000, SOUND),
    (START + b"A : 1\r\n\r\n", MALFORMED),
    (START + b" A: 1\r\n\r\n", MALFORMED),
    (START + b"A:\r\n\r\n", SOUND),
    (START + b"A: \xff\r\n\r\n", SOUND),
    (START + b"A: \x01\r\n\r\n", MALFORMED),
    (START + b"A: 1\r\r\n\r\n", MALFORMED),
]
history("56 heads", [raw(M, data) for data, _ in HEADS], sum((wanted for _, wanted in HEADS), []))
TARGETS = [
    ("GET", "/", NO_ROUTE),
    ("GET", "/tickets/", NO_ROUTE),
    ("GET", "/tickets/1/", NO_ROUTE),
    ("GET", "/tickets", NO_ROUTE),
    ("GET", "/tickets/a", NO_TICKET),
    ("GET", "/tickets/-1", NO_TICKET),
    ("GET", "/tickets/+1", NO_TICKET),
    ("GET", "/tickets/1?x", NO_TICKET),
    ("GET", "/%63heck", NO_ROUTE),
    ("GET", "/check/", NO_ROUTE),
    ("GET", "/check?a?b=/", SOUND),
    ("GET", "/Check", NO_ROUTE),
    ("GET", "check", NO_ROUTE),
    ("GET", "http://x/check", NO_ROUTE),
    ("GET", "*", NO_ROUTE),
    ("GET", "?", NO_ROUTE),
    ("GET", "/purge", WRONG_METHOD),
    ("GET", "/weighings", WRONG_METHOD),
    ("GET", "/voids?x", WRONG_METHOD),
    ("POST", "/check", WRONG_METHOD),
    ("POST", "/tickets/1", WRONG_METHOD),
    ("POST", "/indication", WRONG_METHOD),
    ("POST", "/nix", NO_ROUTE),
    ("POST", "/purge", PURGED),
    ("POST", "/purge any body", PURGED),
    ("GET", "/tickets.csv", answer(200, TICKETS_HEAD)),
    ("GET", "/journal.csv", answer(200, JOURNAL_HEAD)),
    ("GET", "/indication", answer(200, "NO LOAD")),
]
history(
    "57 targets and methods",
    [f"o {M} {method} {target}" for method, target, _ in TARGETS],
    sum((wanted for _, _, wanted in TARGETS), []),
)
LENGTHS = [
    (b"Content-Length: +5", MALFORMED),
    (b"Content-Length: 5, 5", MALFORMED),
    (b"Content-Length:", MALFORMED),
    (b"Content-Length: 5\r\ncontent-length: 5", MALFORMED),
    (b"Transfer-Encoding: chunked", MALFORMED),
    (b"transfer-encoding:\r\nContent-Length: 5", MALFORMED),
    (b"A: 1", answer(411, "fault 411 no_length")),
    (b"Content-Length: 1025", answer(413, "fault 413 too_large")),
    (b"Content-Length: " + b"9" * 30, answer(413, "fault 413 too_large")),
    (b"Content-Length: 0005", PURGED),
    (b"CONTENT-LENGTH:\t 5\t ", PURGED),
    (b"Content-Length: 6", MALFORMED),
    (b"Content-Length: 4", PURGED),
    (b"Content-Length: -5", MALFORMED),
    (b"Content-Length: 5\r\nContent-Length: 9999", MALFORMED),
    (b"Content-Length: 1024", MALFORMED),
    (b"Content-Length: 0", PURGED),
    (b"Content-Length: " + b"0" * 40, PURGED),
    (b"Content-Lengt: 5", answer(411, "fault 411 no_length")),
]
history(
    "58 lengths of a body",
    [raw(M, b"POST /purge HTTP/1.1\r\n" + fields + b"\r\n\r\nabcde") for fields, _ in LENGTHS]
    + [
        raw(M, b"POST /check HTTP/1.1\r\nTransfer-Encoding: chunked\r\n\r\n"),
        raw(M, START + b"Transfer-Encoding: chunked\r\nContent-Length: x\r\n\r\n"),
        raw(M, b"POST /purge HTTP/1.1\r\nContent-Length: 1024\r\n\r\n" + b"a" * 1024),
    ],
    sum((wanted for _, wanted in LENGTHS), []) + WRONG_METHOD + SOUND + PURGED,
)
NO_LOAD = answer(409, "refused 4 no_load")
FORMS = [
    ("key=K1&kind=first&plate=AB-12", NO_LOAD),
    ("plate=AB-12&kind=single&key=K1", NO_LOAD),
    ("key=K%31&k%69nd=fir%73t&plate=%41B%2D12", NO_LOAD),
    ("key=K1&key=K1&kind=first&plate=AB-12", BAD_FIELD),
    ("k%65y=K1&key=K1&kind=first&plate=AB-12", BAD_FIELD),
    ("kind=first&plate=AB-12", BAD_FIELD),
    ("key=K1&plate=AB-12", BAD_FIELD),
    ("key=K1&kind=first", BAD_FIELD),
    ("", BAD_FIELD),
    ("key=&kind=first&plate=AB-12", BAD_FIELD),
    ("key=K1&kind=first&plate=", BAD_FIELD),
    ("key=K1&kind=first&plate=ab", BAD_FIELD),
    ("key=K_1&kind=first&plate=AB", BAD_FIELD),
    ("key=K1&kind=void&plate=AB", BAD_FIELD),
    ("key=K1&kind=First&plate=AB", BAD_FIELD),
    ("key=K1&kind=first&plate=ABCDEFGHIJ-12", BAD_FIELD),
    ("key=K1&kind=first&plate=ABCDEFGHI-12", NO_LOAD),
    ("key=K1&kind=first&plate=AB+12", BAD_FIELD),
    ("key=K1&kind=first&plate=AB%2012", BAD_FIELD),
    ("key=K1&kind=first&plate=AB&Key=K2&x&=y&&", NO_LOAD),
    ("key=K1;kind=first;plate=AB", BAD_FIELD),
    ("key=K1&kind=first&plate=A=B", BAD_FIELD),
    ("key=K1&kind=first&plate=A%", BAD_FIELD),
    ("key=K1&kind=first&plate=A\0", BAD_FIELD),
    ("key&key=K1&kind=first&plate=A", BAD_FIELD),
    ("key=K1&kind=second&plate=A", NO_LOAD),
    ("key=K1&kind=first&plate=A&kind=first", BAD_FIELD),
    ("key=%C3%BC&kind=first&plate=A", BAD_FIELD),
    ("key=K1&kind=first&plate=A b", BAD_FIELD),
]
history(
    "59 form fields",
    [f"o {M} POST /weighings {form}" for form, _ in FORMS]
    + [
        f"o {M} POST /voids key=K1&plate=A&kind=nonsense&kind=x",
        f"o {M} POST /voids key=K1",
        f"o {M} POST /voids key=K1&plate=a",
        raw(M, b"POST /voids HTTP/1.1\r\nContent-Length: 14\r\n\r\nkey=K1&plate=AB&plate=AC"),
    ],
    sum((wanted for _, wanted in FORMS), [])
    + answer(409, "refused 13 no_open")
    + BAD_FIELD * 2
    + answer(409, "refused 13 no_open"),
)
# Days that mix terminal and office.
history(
    "60 cleared by a zero set at a reading, not by one set at a line",
    [
        "r 600 4",
        "t Z",
        weighing(M, "K1", "first", "AB-12"),
        f"o {M} GET /indication",
        "r 1000 4",
        weighing(M, "K1", "first", "AB-12"),
        "r 600",
        weighing(M, "K1", "first", "AB-12"),
        "r 1000 4",
        weighing(M, "K1", "first", "AB-12"),
    ],
    # 600 shows 60 intervals at the old zero, so no reading was below 20 until 600 comes again after the zero was set there.
    ["t Z A"]
    + answer(409, "refused 8 below_min")
    + answer(200, "STABLE G          0 kg N          0 kg")
    + answer(409, "refused 11 not_cleared")
    + answer(409, "refused 7 unstable")
    + slip(1, "AB-12", *block("FIRST", 1, MORNING, digest(1, "K1", "first", "AB-12", M, 800), 800)),
)
history(
    "60b nineteen intervals clear, twenty don't",
    [
        "r 195 4",
        "r 9170 4",
        weighing(M, "K1", "first", "AB-12"),
        "r 194",
        "r 9170 4",
        weighing(M, "K1", "first", "AB-12"),
        "r 200 4",
        weighing(M, "K2", "second", "AB-12"),
        "r lost",
        "r 200 4",
        weighing(M, "K2", "second", "AB-12"),
    ],
    # 195 rounds to 20, 194 to 19; a lost reading clears nothing.
    answer(409, "refused 11 not_cleared") + SLIP_1 + answer(409, "refused 11 not_cleared") * 2,
)
history(
    "61 cleared by the reading that answers Z",
    ["r 600 3", "t Z", "r 600", "r 1000 4", weighing(M, "K1", "first", "AB-12")],
    ["t Z A"]
    + slip(1, "AB-12", *block("FIRST", 1, MORNING, digest(1, "K1", "first", "AB-12", M, 800), 800)),
)
history(
    "62 indications",
    [
        "r lost",
        f"o {M} GET /indication",
        "r 40000",
        f"o {M} GET /indication",
        "r -206",
        f"o {M} GET /indication",
        "r 0",
        f"o {M} GET /indication",
        "r 0 3",
        "t TA 100 kg",
        f"o {M} GET /indication",
    ],
    answer(200, "NO LOAD")
    + answer(200, "OVERLOAD")
    + answer(200, "UNDERLOAD")
    + answer(200, "MOVING G          0 kg N          0 kg")
    + ["t TA A        100 kg"]
    + answer(200, "STABLE G          0 kg N       -100 kg"),
)
history(
    "63 an office request leaves a waiting command and an unfinished line",
    [
        "r 0",
        "t S",
        "b 53",
        f"o {M} GET /check",
        "r 9170 4",
        weighing(M, "K1", "first", "AB-12"),
        "b 490a",
    ],
    SOUND + ["t S S      18340 kg"] + SLIP_1 + ["t S S      18340 kg"],
)
history(
    "64 the last moment, and one below nothing",
    [
        *driven(9170, 253402207200, "K1", "first", "AB-12"),
        weighing(253402207199, "K2", "second", "AB-12"),
        "o 253402207200 POST /purge",
    ],
    slip(
        1,
        "AB-12",
        *block(
            "FIRST",
            1,
            "9999-12-30 22:00:00",
            digest(1, "K1", "first", "AB-12", 253402207200, 18340),
            18340,
        ),
    )
    + answer(409, "refused 3 clock_back")
    + answer(200, "PURGED 0"),
)


def differences(
    name: str, source: str, got: tuple[str, str, int], wanted: tuple[str, str, int]
) -> int:
    if got == wanted:
        return 0
    print(f"--- {name}: {source} differs")
    for what, one, other in zip(("output", "complaint", "status"), got, wanted):
        if one != other:
            print(f"  {what} got   : {one!r}\n  {what} wanted: {other!r}")
    return 1


def main() -> None:
    program = sys.argv[1]
    failures = 0
    for name, options, trace, output, complaint, status in HISTORIES:
        wanted = (output, complaint, status)
        run = subprocess.run(
            [program, "replay"] + options.split(), input=trace, capture_output=True
        )
        failures += differences(
            name, "program", (run.stdout.decode(), run.stderr.decode(), run.returncode), wanted
        )
        setup = station_model.setup_of_words(options.split())
        if fault := setup.first_fault():
            number, part = fault
            got = ("", f"setup refused: {number} {part}\n", 2)
        else:
            model_output, model_complaint, model_status = station_model.replay(setup, trace)
            got = (model_output.decode(), model_complaint, model_status)
        failures += differences(name, "model", got, wanted)
    print(f"{len(HISTORIES)} histories, {failures} differences")
    sys.exit(1 if failures else 0)


if __name__ == "__main__":
    main()
