"""Frames with their marks, files, and the stop."""
from __future__ import annotations

from typing import Iterator

from . import plain
from .lanes import to_command
from .markup import badge, esc, item, sources, tie
from .report import Frame
from .run import Run


def frames_html(run: Run) -> Iterator[str]:
    """All frames, those with which nothing happened as small tiles."""
    yield '<ol role="list" class="frames">\n'
    for number, frame in enumerate(run.report.frames):
        yield _frame(run, number, frame)
    yield "</ol>\n"


def _frame(run: Run, number: int, frame: Frame) -> str:
    """A frame: its place, its bad and weak lines and its marks."""
    bad, weak = frame.line.values[-2:]
    body = f'<b class="no">{number}</b> {_place(frame)}'
    for mask, kind in ((bad, "bad"), (weak, "weak")):
        if mask:
            body += f' <span class="lines">{badge("failure" if kind == "bad" else "event", plain.bad_lines(mask, kind))}</span>'
    if frame.marks:
        body += '<ol role="list" class="sub">\n' + "".join(_marks(run, number, frame)) + "</ol>"
    kind = "failure" if bad else "fine"
    if frame.state == "handled":
        kind = "offline" if _is_soft(frame) and not bad else "failure"
    size = "wide" if frame.marks or bad or weak else "tile"
    return item(f"f{number}", f"k-{kind}", f"fra {size}", body, report=sources((frame.line, *frame.marks)))


def _place(frame: Frame) -> str:
    """Where a frame is in the end."""
    if frame.state == "page":
        page = frame.line.of("page")
        return tie(f"p{page}", f"page {page}", "holds")
    if frame.state == "handled":
        return badge("offline" if _is_soft(frame) else "failure", "handled")
    return f'<span class="why">{esc(frame.state)}</span>'


def _is_soft(frame: Frame) -> bool:
    """Whether a frame was last taken out of use in good order."""
    return bool(frame.marks) and frame.marks[-1].words[4:5] == ("soft",)


def _marks(run: Run, number: int, frame: Frame) -> Iterator[str]:
    """The record of a frame."""
    for index, mark in enumerate(frame.marks):
        is_poisoned = mark.words[0] == "poisoned"
        kind = "failure" if is_poisoned and mark.words[4] != "soft" else "offline"
        cycle = f"cycle {mark.of('cycle')}" if len(frame.marks) > 1 or mark.of("cycle") else ""
        link = to_command(*mark.who, "by")
        entry = run.entry_of_mark.get((number, index))
        if entry is not None:
            link += tie(f"e{entry[0]}-{entry[1]}", f"page {entry[0]} · {entry[1]}", "entry")
        word = "poisoned" if is_poisoned else "unpoisoned"
        says = f'{esc(plain.mark_says(mark))} <span class="why">{cycle}</span>'
        body = f'{badge(kind, word)}{says} <span class="ties">{link}</span>'
        yield item(f"m{number}-{index}", f"k-{kind}", "mar", body, report=sources([mark]))


def stop_html(run: Run) -> str:
    """What stopped the machine, or nothing."""
    stop = run.report.stop
    if stop.words[1] == "none":
        return ""
    body = f'{badge("stop", "The machine stopped")} {esc(plain.stop_says(stop))} {to_command(*stop.who, "by")}'
    return f'<ul role="list" class="stopped">{item("stop", "k-stop", "sto", body, report=sources([stop]))}</ul>\n'


def files_html(run: Run) -> Iterator[str]:
    """The losses of each file, told or not."""
    yield '<ul role="list" class="files">\n'
    for number, line in enumerate(run.report.files):
        lost = line.of("word")
        text = badge("failure", f"{lost} lost") if lost else '<span class="why">nothing lost</span>'
        yield f"<li>file {number}: {text}</li>\n"
    yield "</ul>\n"
