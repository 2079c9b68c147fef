"""Each form of paper, for each kind of text, usual and longest: the check reads the legal text back letter for letter, and examines the rest."""

from checks.lib.paper_roll import code_of
from checks.lib.papering import (
    PICTURES,
    PaperCheck,
    about,
    code_in_pdf,
    fonts_left_out,
    legal_in_pdf,
    lines_of,
    picture_of,
    printed_of,
    write_row,
)

from tests.papers import KINDS, LONGEST, USUAL, Sample
from weighbridge_paper import words
from weighbridge_paper.text import Text, read_text

DOTS = {"escpos80": 576, "escpos58": 384}
SIZES = {"a4": (210, 297), "a5": (148, 210), "roll80": (80, None)}
GIVEN = {
    "goods": "Kies 0/16 für Straßenbau, gewaschen, Körnung nach Norm 12620",
    "order": "4711/2025-ÄÖÜ",
    "driver": "François Ñandú",
}


def large_of(text: Text, language: str) -> list[str]:
    """Return what may be large: kind, number, plate and net, or the gross if there is no net."""
    kg = text.net if text.net is not None else text.own.gross
    kind = words.word("ticket" if text.is_ticket else "slip", language)
    large = [f"{kind} {text.own.number}", text.plate]
    return large if kg is None else [*large, words.kg(kg, language)]


def mark_of(sample: Sample, language: str) -> str:
    """Return what a further print says."""
    return words.mark("copy" if sample.kind == "first" else "duplicate", language)


def bare(text: str) -> str:
    """Return a text without its blanks."""
    return text.replace(" ", "").replace("\u202f", "")


def missing(rest: str, text: Text, language: str) -> list[str]:
    """Return faults of what every paper has: times, what was given, and that it is no part of the weighing."""
    wanted = [words.utc(it.at) for it in text.weighings]
    wanted += [GIVEN["order"], GIVEN["driver"], "Kies 0/16", words.word("given_by_clerk", language)]
    return [f"no {it}" for it in wanted if it.replace(" ", "") not in rest.replace(" ", "")]


def faults_of_roll(
    path: str, form: str, sample: Sample, language: str, is_further: bool
) -> list[str]:
    """Return the faults of a receipt, as a printer that is played puts it on paper."""
    it, text = printed_of(path, DOTS[form]), read_text(sample.text)
    it.save(f"{path}.png")
    mark = mark_of(sample, language)
    ends = [it.lines[0].strip(), it.lines[-1].strip()]
    rest = " ".join(" ".join(it.lines).split())
    large = [each.replace("\u202f", " ") for each in large_of(text, language)]
    found = {
        "the legal text is another one": it.legal() != sample.text,
        f"large is {it.large()}": it.large() != large,
        f"its ends are {ends}": (ends == [mark, mark]) != is_further
        or (not is_further and mark in rest),
        "its QR code": code_of(it.image) != f"{sample.number} {sample.digest}",
        f"{it.cuts} cuts": it.cuts != 1,
        f"a letter that isn't there: {rest[:80]}": "?" in rest,
    }
    return [what for what, is_wrong in found.items() if is_wrong] + missing(rest, text, language)


def faults_of_pdf(
    path: str, form: str, sample: Sample, language: str, is_further: bool
) -> list[str]:
    """Return the faults of a PDF."""
    text = read_text(sample.text)
    pages, width, height = about(path)
    rest = " ".join(" ".join(lines_of(path, form)).split())
    count, left_out = rest.count(mark_of(sample, language)), fonts_left_out(path)
    wide, high = SIZES[form]
    found = {
        "the legal text is another one": legal_in_pdf(path, form) != sample.text,
        f"{count} marks": count != 2 * is_further,
        "its QR code": code_in_pdf(path) != f"{sample.number} {sample.digest}",
        f"a font isn't embedded: {left_out}": bool(left_out),
        f"{pages} pages of {width} by {height} mm": pages != 1
        or width != wide
        or high not in (None, height),
    }
    faults = [what for what, is_wrong in found.items() if is_wrong]
    faults += [f"no large {it}" for it in large_of(text, language) if bare(it) not in bare(rest)]
    return faults + missing(rest, text, language)


class Forms(PaperCheck):
    """80 papers, and full pages."""

    needs = ("reportlab", "qrcode", "PIL", "serial", "pdftotext", "pdftoppm", "zbarimg")
    seconds = 120

    def test_forms(self) -> None:
        count, wrong = 0, []
        given = [part for name, value in GIVEN.items() for part in (f"--{name}", value)]
        for form in (*DOTS, *SIZES):
            pictures = []
            for at, (length, samples) in enumerate((("usual", USUAL), ("longest", LONGEST))):
                for kind in KINDS:
                    language = words.LANGUAGES[(KINDS.index(kind) + at) % 4]
                    sample = samples[kind]
                    desk = self.desk(language, box=f'to = "file:{{folder}}/made"\nform = "{form}"')
                    first = desk.run(sample.text, "--printer", "box", *given)[0]
                    again = ("--printer", "box", "--reprint", str(sample.number))
                    statuses = [first, desk.run("", *again)[0]]
                    name = f"{form} {kind} {length} {language}"
                    wrong += [f"{name}: statuses {statuses}"] if statuses != [0, 0] else []
                    faults_of = faults_of_roll if form in DOTS else faults_of_pdf
                    for is_further, path in zip((False, True), made := desk.made()):
                        found = faults_of(path, form, sample, language, is_further)
                        wrong += [f"{name}{' further' * is_further}: {it}" for it in found]
                    count += len(made)
                    if PICTURES:
                        path = made[at]
                        pictures.append(f"{path}.png" if form in DOTS else picture_of(path, 75))
            if PICTURES:
                write_row(pictures, f"{PICTURES}/{form}.png", 0.5 if form in DOTS else 1)
        what = "each form, kind, length and language: letters, large print, marks, QR code, fonts, pages"
        self.same(what, [], wrong[:5])
        self.same("papers read back", 80, count)

    def test_full_page(self) -> None:
        """Show that the legal text stays together if there is more than a page has room for, and that each page of a further print is marked."""
        lines = [f"Line {it} of what the company has to say" for it in range(8)]
        box = f'to = "file:{{folder}}/made"\nform = "a5"\nheader = {lines}\nfooter = {lines}'
        desk = self.desk(box=box)
        given = [part for name in GIVEN for part in (f"--{name}", GIVEN["goods"])]
        for sample in (LONGEST["second"], USUAL["second"]):
            desk.run(sample.text, "--printer", "box", *given)
            desk.run("", "--printer", "box", "--reprint", str(sample.number))
            for path, count in zip(desk.made()[-2:], (0, 3)):
                rest = " ".join(" ".join(lines_of(path, "a5")).split())
                found = (about(path)[0], legal_in_pdf(path, "a5"), rest.count("DUPLICATE"))
                self.same("a full page", (2, sample.text, count), found)
