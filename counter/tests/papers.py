"""Texts of the office for the tests of papers, each with what its digests are made of."""

import hashlib

ZEROS = "0" * 64


def entry(
    number: int,
    kind: str,
    plate: str,
    moment: int,
    at: str,
    gross: int | None,
    preset: int | None,
    interval: int,
    most: int,
    serial: str,
    previous: str,
    key: str,
) -> tuple[str, str]:
    text = (
        f"version 2\nnumber {number}\nkey {key}\nkind {kind}\nplate {plate}\nmoment {moment}\ngross {gross or '-'}\npreset {preset or '-'}\n"
        f"interval {interval}\nmax {most}\nserial {serial}\nprevious {previous}\n"
    )
    digest = hashlib.sha256(text.encode()).hexdigest()
    weights = (f"G {gross:>10} kg\n" if gross else "") + (f"PT {preset:>10} kg\n" if preset else "")
    block = f"{kind.upper()} NO {number}\nAT {at}\n{weights}E {interval} kg MAX {most} kg SERIAL {serial}\nDIGEST {digest}\n"
    return digest, block


class Sample:
    """A text, the keys of its entries, and the digests before them."""

    def __init__(
        self,
        kind: str,
        plate: str = "AB-12",
        serial: str = "WB01",
        interval: int = 20,
        most: int = 60000,
        first: int = 18340,
        own: int = 8140,
        number: int = 2,
    ) -> None:
        self.keys = {number - 1: "K1", number: "K2"}
        moment, at = 1741593600, "2025-03-10 08:00:00"
        self.digests = {number - 2: "1" * 64, number - 1: "2" * 64} if number > 2 else {}
        previous = self.digests.get(number - 2, ZEROS)
        blocks, net = "", ""
        gross: int | None
        preset: int | None
        if kind == "second":
            before, blocks = entry(
                number - 1,
                "first",
                plate,
                moment,
                at,
                first,
                None,
                interval,
                most,
                serial,
                previous,
                "K1",
            )
            self.digests[number - 1] = before
            net = f"N {abs(first - own):>10} kg\n"
            moment, at, gross, preset = 1741599000, "2025-03-10 09:30:00", own, None
        else:
            self.digests[number - 1] = self.digests.get(number - 1, "2" * 64)
            gross, preset = {"first": (first, None), "void": (None, None), "single": (first, own)}[
                kind
            ]
            net = f"N {first - own:>10} kg\n" if kind == "single" else ""
        self.digest, block = entry(
            number,
            kind,
            plate,
            moment,
            at,
            gross,
            preset,
            interval,
            most,
            serial,
            self.digests[number - 1],
            "K2",
        )
        self.number, self.kind, self.plate = number, kind, plate
        self.text = (
            f"WEIGHING {'TICKET' if net else 'SLIP'} {number}\nPLATE {plate}\n{blocks}{block}{net}"
        )


KINDS = ("first", "second", "single", "void")
USUAL = {kind: Sample(kind) for kind in KINDS}
LONGEST = {
    kind: Sample(
        kind,
        "WWWWW-WWWWWW",
        "WWWWWWWWWWWWWWWW",
        1,
        500000,
        9999999,
        1 if kind == "second" else 9999998,
        4294967295,
    )
    for kind in KINDS
}
