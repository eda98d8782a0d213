"""Two runs side by side: what each command was answered, each page's history, frames and files, with the differences marked."""
from __future__ import annotations

from difflib import SequenceMatcher
from pathlib import Path
from typing import Iterator, NamedTuple, Sequence

from .markup import esc, plural
from .report import Line
from .run import Run, Work

HERE = Path(__file__).resolve().parent
MOST_COMPARED = 4_000_000
KEYS = "<kbd>n</kbd> the next difference, <kbd>N</kbd> or <kbd>p</kbd> the one before, <kbd>d</kbd> shows differences alone"


class Cell(NamedTuple):
    """What stands on one side of a row: a head by which the sides are matched, and what is compared."""

    head: str
    lines: tuple[Line, ...]

    @property
    def told(self) -> list[str]:
        """The texts that are compared."""
        return [line.text for line in self.lines]


Row = tuple[Sequence[Cell], Sequence[Cell]]


def rows_of(one: Sequence[Cell], other: Sequence[Cell]) -> list[Row]:
    """The two sides row by row: what has the same head stands in one row, what one side alone has stands alone."""
    heads = [cell.head for cell in one], [cell.head for cell in other]
    if heads[0] == heads[1] or len(one) * len(other) > MOST_COMPARED:
        most = max(len(one), len(other))
        return [(one[n : n + 1], other[n : n + 1]) for n in range(most)]
    rows: list[Row] = []
    for tag, a, b, c, d in SequenceMatcher(None, *heads, autojunk=False).get_opcodes():
        if tag == "equal":
            rows += [(one[a + n : a + n + 1], other[c + n : c + n + 1]) for n in range(b - a)]
        else:
            rows += [([cell], []) for cell in one[a:b]] + [([], [cell]) for cell in other[c:d]]
    return rows


def is_difference(row: Row) -> bool:
    """Whether the sides of a row differ."""
    left, right = row
    return len(left) != len(right) or left[0].head != right[0].head or left[0].told != right[0].told


def _commands(works: list[Work]) -> list[Cell]:
    return [Cell(work.command.text, tuple(work.lines)) for work in works]


def parts_of(one: Run, other: Run) -> list[tuple[str, list[Row]]]:
    """The parts of the page: their titles and rows."""
    parts: list[tuple[str, list[Row]]] = []

    def add(title: str, left: Sequence[Cell], right: Sequence[Cell]) -> None:
        parts.append((title, rows_of(left, right)))

    def pick(lists: Sequence[list[Cell]], number: int) -> list[Cell]:
        return lists[number] if number < len(lists) else []

    sides = (one, other)
    ends = [[Cell("", (run.report.stop,)), Cell("", (run.report.poisoned,))] for run in sides]
    add("Stop and poisoned frames", *ends)
    works = [[_commands(row) for row in run.works] for run in sides]
    for cpu in range(max(map(len, works))):
        add(f"Processor {cpu}", pick(works[0], cpu), pick(works[1], cpu))
    pages = [
        [[Cell(entry.line.text, (entry.line, *entry.seen, *entry.signals)) for entry in history] for history in run.report.pages]
        for run in sides
    ]
    for page in range(max(map(len, pages))):
        add(f"Page {page}", pick(pages[0], page), pick(pages[1], page))
    frames = [[Cell(f"frame {n}", (f.line, *f.marks)) for n, f in enumerate(run.report.frames)] for run in sides]
    add("Frames in the end", *frames)
    add("Files", *[[Cell(f"file {n}", (line,)) for n, line in enumerate(run.report.files)] for run in sides])
    return [(title, rows) for title, rows in parts if rows]


def _cell_html(side: Sequence[Cell], is_command: bool) -> str:
    if not side:
        return '<td class="none">not here</td>'
    head = f"<code>{esc(side[0].head)}</code>" if is_command else ""
    lines = "".join(
        f'<span class="ans"><span class="why">{line.number}</span> <code>{esc(line.text)}</code></span>' for line in side[0].lines
    )
    return f"<td>{head}{lines}</td>"


def beside_html(one: Run, other: Run, names: Sequence[str]) -> Iterator[str]:
    """The page, in pieces."""
    parts = parts_of(one, other)
    count = sum(map(is_difference, (row for _, rows in parts for row in rows)))
    style = "".join((HERE / name).read_text(encoding="utf-8") for name in ("view.css", "beside.css"))
    yield '<!doctype html>\n<html lang="en"><head><meta charset="utf-8">\n'
    yield '<meta http-equiv="Content-Security-Policy" content="default-src \'none\'; style-src \'unsafe-inline\'; '
    yield "script-src 'unsafe-inline'\">\n"
    yield '<meta name="viewport" content="width=device-width, initial-scale=1">\n<meta name="color-scheme" content="light dark">\n'
    yield f"<title>{esc(names[0])} beside {esc(names[1])}</title>\n<style>\n{style}</style></head>\n<body>\n"
    yield f"<main>\n<h1>{esc(names[0])} beside {esc(names[1])}</h1>\n"
    yield f'<p>{plural(count, "difference")}. Numbers are those of the lines of the reports.</p>\n<p class="keys">{KEYS}.</p>\n'
    yield '<p><button type="button" id="only" aria-pressed="false">Differences alone</button></p>\n'
    number = 0
    for title, rows in parts:
        differing = sum(map(is_difference, rows))
        kind = "" if differing else ' class="same"'
        yield f'<section{kind}><h2>{esc(title)} <span class="why">{plural(differing, "difference")}</span></h2>\n'
        yield f'<table class="beside">\n<thead><tr><th scope="col">{esc(names[0])}</th><th scope="col">{esc(names[1])}</th></tr></thead>\n<tbody>\n'
        for row in rows:
            mark = ' class="same"'
            if is_difference(row):
                mark, number = f' class="differs" id="d{number}" tabindex="-1"', number + 1
            cells = "".join(_cell_html(side, title.startswith("Processor")) for side in row)
            yield f"<tr{mark}>{cells}</tr>\n"
        yield "</tbody></table></section>\n"
    script = (HERE / "beside.js").read_text(encoding="utf-8")
    yield f"</main>\n<script>\n{script}</script>\n</body></html>\n"
