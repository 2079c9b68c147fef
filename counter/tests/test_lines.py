"""Lines of a port's client, cut as the terminal cuts them, and as a lenient port does."""

import itertools
import unittest

from weighbridge_counter.lines import LenientLines, Lines

Cutter = type[Lines]
SENT = b"SI\r\nS\n\nTA 0 kg\r\nI4\rZ\r\r\n" + b"x" * 50 + b"\r\nSI\r\n"
EXACT = ["SI", "S", "", "TA 0 kg", "I4\rZ\r", "", "SI"]
LENIENT = ["SI", "S", "", "TAC", "I4", "Z", "", "", "SI"]


def in_pieces(cutter: Cutter, pieces: list[bytes]) -> list[str]:
    it = cutter()
    return [line for piece in pieces for line in it.cut(piece)]


class TheLines(unittest.TestCase):
    def test_each_in_any_pieces(self) -> None:
        for cutter, wanted in ((Lines, EXACT), (LenientLines, LENIENT)):
            for size in range(1, len(SENT) + 1):
                pieces = [SENT[at : at + size] for at in range(0, len(SENT), size)]
                with self.subTest(cutter=cutter.__name__, size=size):
                    self.assertEqual(wanted, in_pieces(cutter, pieces))

    def test_short_ones_cut_at_every_place(self) -> None:
        rows: list[tuple[Cutter, bytes, list[str]]] = [
            (Lines, b"S\rI\r\n", ["S\rI"]),
            (Lines, b"\r\n", [""]),
            (Lines, b"TA 0 kg\r\n", ["TA 0 kg"]),
            (LenientLines, b"S\r\n", ["S"]),
            (LenientLines, b"S\r", ["S"]),
            (LenientLines, b"S\n", ["S"]),
            # an empty line, which ends a waiting command
            (LenientLines, b"S\r\r", ["S", ""]),
            (LenientLines, b"S\r\n\r\n", ["S", ""]),
            (LenientLines, b"S\n\n", ["S", ""]),
            (LenientLines, b"S\r\n\n", ["S", ""]),
            (LenientLines, b"\r\n\r", ["", ""]),
        ]
        for cutter, sent, wanted in rows:
            for cuts in itertools.product((False, True), repeat=len(sent) - 1):
                pieces = [b""]
                for byte, is_cut in zip(sent, (False, *cuts)):
                    pieces += [b""] if is_cut else []
                    pieces[-1] += bytes([byte])
                with self.subTest(cutter=cutter.__name__, sent=sent, pieces=pieces):
                    self.assertEqual(wanted, in_pieces(cutter, pieces))

    def test_a_piece_without_bytes_changes_nothing(self) -> None:
        self.assertEqual(["S"], in_pieces(LenientLines, [b"S\r", b"", b"\n"]))

    def test_which_tares_are_zero(self) -> None:
        zero = ["TA 0 kg", "TA 0.0 kg", "TA 0000000.000 kg"]
        others = ["TA 0", "TA 0 g", "TA 0. kg", "TA .0 kg", "TA 0.0000 kg", "TA 00000000 kg"]
        others += ["TA 0.001 kg", "TA 10 kg", "TA  0 kg", "TA 0 kg ", "TA -0 kg", "ta 0 kg"]
        for line in zero + others:
            with self.subTest(line=line):
                wanted = "TAC" if line in zero else line
                self.assertEqual([wanted], in_pieces(LenientLines, [f"{line}\r".encode()]))

    def test_a_line_without_end_is_kept_in_part(self) -> None:
        for cutter in (Lines, LenientLines):
            it = cutter()
            for _ in range(1000):
                self.assertEqual([], it.cut(b"S" * 1000))
                self.assertLess(len(it.rest), 100)
            self.assertEqual(["", "SI"], it.cut(b"\r\nSI\r\n"))

    def test_the_longest_line(self) -> None:
        for cutter in (Lines, LenientLines):
            for length, wanted in ((40, "x" * 40), (41, ""), (42, ""), (43, "")):
                for end in (b"\n", b"\r\n"):
                    with self.subTest(cutter=cutter.__name__, length=length, end=end):
                        self.assertEqual([wanted], in_pieces(cutter, [b"x" * length, end]))


if __name__ == "__main__":
    unittest.main()
