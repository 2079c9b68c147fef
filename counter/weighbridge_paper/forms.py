"""The sizes of paper for PDF, and of what stands on them."""

from dataclasses import dataclass

mm = 72 / 25.4  # points


@dataclass(frozen=True)
class Form:
    """A size of paper. The legal text has 8 points at least: its figures are 2 mm high then."""

    width: float
    height: float | None  # None: as long as what stands on it
    margin: float
    plain: float
    legal: float
    title: float
    large: float
    module: float = 0.75 * mm  # of the QR code

    @property
    def within(self) -> float:
        return self.width - 2 * self.margin


FORMS = {
    "a4": Form(210 * mm, 297 * mm, 20 * mm, 10, 10, 16, 28),
    "a5": Form(148 * mm, 210 * mm, 10 * mm, 8, 8, 12, 20, 0.65 * mm),
    "roll80": Form(80 * mm, None, 4 * mm, 8.5, 8, 13, 24),
}
