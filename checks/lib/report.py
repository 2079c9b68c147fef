"""A report as Markdown and as HTML, and plots as SVG. It needs python3, and gnuplot for the plots."""
import html as pages
import re
import subprocess
from collections.abc import Iterable, Iterator, Sequence
from typing import Any

WIDTH, HEIGHT = 520, 320
# The kind of a block, and what it has: a text, or the columns and rows of a table.
Block = tuple[Any, ...]


class Plot:
    """Points of an applied load and the indicated weight, in kg, with the interval of the instrument."""

    def __init__(
        self,
        title: str,
        span: tuple[float, float],
        points: Sequence[tuple[float, float]],
        interval: float,
    ) -> None:
        self.title, self.span, self.points, self.interval = title, span, points, interval


def cell(text: str) -> str:
    return text.replace("|", "\\|") if "`" not in text else text.replace("|", "/")


def row(cells: Iterable[str]) -> str:
    return "| " + " | ".join(cell(it) for it in cells) + " |"


def markdown(blocks: Iterable[Block]) -> str:
    """Return the text of blocks: headings, paragraphs, tables and an image."""
    parts = []
    for kind, *rest in blocks:
        if kind == "table":
            columns, rows = rest
            parts.append("\n".join([row(columns), "|" + "---|" * len(columns), *map(row, rows)]))
        elif kind == "image":
            parts.append(f"![indicated weight against applied load]({rest[0]})")
        else:
            parts.append({"h1": "# ", "h2": "## ", "p": ""}[kind] + rest[0])
    return "\n\n".join(parts) + "\n"


def marked(text: str) -> str:
    return re.sub(r"`([^`]*)`", r"<code>\1</code>", pages.escape(text, quote=False))


def cells_of(cells: Iterable[str], kind: str) -> str:
    """Return a row of a table, with cells of this kind."""
    return "<tr>" + "".join(f"<{kind}>{marked(it)}</{kind}>" for it in cells) + "</tr>"


def html(blocks: Sequence[Block], image: str) -> str:
    """Return the report as a page of its own, with the image in it."""
    parts = []
    for kind, *rest in blocks:
        if kind == "table":
            columns, rows = rest
            lines = [cells_of(columns, "th"), *(cells_of(cells, "td") for cells in rows)]
            parts.append("<table>\n" + "\n".join(lines) + "\n</table>")
        elif kind == "image":
            parts.append(image[image.index("<svg") :])
        else:
            parts.append(f"<{kind}>{marked(rest[0])}</{kind}>")
    style = "body{font-family:sans-serif;margin:2em;max-width:75em}table{border-collapse:collapse}td,th{border:1px solid #999;padding:2px 6px;text-align:left}"
    title = next(rest[0] for kind, *rest in blocks if kind == "h1")
    head = f'<!DOCTYPE html>\n<html lang="en">\n<head>\n<meta charset="utf-8">\n<title>{marked(title)}</title>\n<style>{style}</style>\n</head>\n<body>\n'
    return head + "\n".join(parts) + "\n</body>\n</html>\n"


def svg(plots: Sequence[Plot]) -> str:
    """Return the plots, side by side, as gnuplot draws them."""
    words = [
        f"set terminal svg size {len(plots) * WIDTH},{HEIGHT} fixed background 'white' font 'sans-serif,11'",
        f"set multiplot layout 1,{len(plots)}",
        "unset key",
        "set border 3",
        "set tics nomirror",
        "set xlabel 'applied load in kg'",
        "set ylabel 'indicated in kg'",
    ]
    for plot in plots:
        words += drawn(plot)
    return subprocess.check_output(["gnuplot"], input="\n".join([*words, ""]), text=True)


def drawn(plot: Plot) -> Iterator[str]:
    """Gnuplot's words for a plot: half an interval on either side of the load in grey, the load itself, and the points."""
    low, high = plot.span
    half = plot.interval / 2
    yield f"set title '{plot.title}'"
    yield f"set xrange [{low}:{high}]"
    yield f"set yrange [{low - plot.interval}:{high + plot.interval}]"
    yield f"set xtics {plot.interval}"
    yield f"set ytics {plot.interval}"
    yield "$points << END"
    yield from (f"{load} {shown}" for load, shown in plot.points)
    yield "END"
    yield "$band << END"
    yield from (f"{load} {load - half} {load + half}" for load in (low, high))
    yield "END"
    yield (
        "plot $band using 1:2:3 with filledcurves fillcolor rgb '#dddddd', x with lines linecolor rgb '#888888', "
        "$points with points pointtype 7 pointsize 0.4 linecolor rgb '#003366'"
    )
