"""The whole page."""
from __future__ import annotations

import json
from collections import Counter
from pathlib import Path
from typing import Iterator, Optional

from . import plain
from .about import facts_of, filters_html, table_html
from .lanes import AnyOrder, Lanes
from .markup import badge, esc, plural
from .memory import files_html, frames_html, stop_html
from .order import Order
from .run import Run, word_of
from .report import Report
from .script import Script
from .locks import Trace
from .traced import TracedOrder

HERE = Path(__file__).resolve().parent
POLICY = "default-src 'none'; style-src 'unsafe-inline'; script-src 'unsafe-inline'"
KEYS = (
    "<kbd>↓</kbd> <kbd>↑</kbd> through the run, <kbd>→</kbd> <kbd>←</kbd> through what belongs together, "
    "<kbd>Enter</kbd> pins, <kbd>Esc</kbd> lets go; <kbd>f</kbd> <kbd>r</kbd> <kbd>s</kbd> <kbd>w</kbd> next failure, refusal, signal, "
    "wait (with <kbd>Shift</kbd> the one before)"
)
ALIGNED = (
    "Each lane goes down in its own order. Where lanes stand side by side, a thing stands below another if the report tells that "
    "it came later; what shares no page, no frame and no policy may have come in any order."
)
APART = (
    "Each lane goes down in its own order. The keys and buttons go through all lanes in an order that the report allows; what "
    "shares no page, no frame and no policy may have come in any other."
)
TRACED = (
    "All lanes share one order, that of the turns in the trace. A command reaches from its first turn to its last; an entry "
    "stands at the turn that made it."
)
CONTRARY = "No order of time fits this report: its lanes contradict one another. Each lane is in its own order."
LEGEND = (
    ("failure", "failure"),
    ("refusal", "refused"),
    ("signal", "signal"),
    ("stop", "stop"),
    ("offline", "taken out or taken back"),
    ("event", "event"),
    ("wait", "waited (told by a trace)"),
)
MOST_SHOWN = 200


def page_html(script: Script, report: Report, name: str, trace: Optional[Trace] = None) -> Iterator[str]:
    """The page of a run, in pieces."""
    run = Run(script, report)
    order: AnyOrder = Order(run) if trace is None else TracedOrder(run, trace)
    lanes = Lanes(run, order, trace)
    yield from _head(name, lanes)
    yield '<a class="skip" href="#run">To the run</a>\n<header>\n'
    yield f"<h1>Run of {esc(name)}</h1>\n"
    yield from _opening(script)
    yield from _summary(run)
    yield "</header>\n<main>\n"
    yield f'<section aria-labelledby="run"><h2 id="run" tabindex="-1">The run</h2>\n<p class="keys">{KEYS}.</p>\n'
    note = (ALIGNED if lanes.is_aligned else APART) if order.is_free else CONTRARY
    note = note if trace is None else TRACED
    yield f'<p class="note">{note}</p>\n'
    yield f'<p class="legend">{"".join(badge(kind, word) for kind, word in LEGEND if trace or kind != "wait")}</p>\n'
    yield from _schedule(script)
    yield filters_html(script)
    yield stop_html(run)
    yield from lanes.html()
    yield '</section>\n<section aria-labelledby="frames"><h2 id="frames">Frames in the end</h2>\n'
    yield from frames_html(run)
    yield "</section>\n"
    yield '<section aria-labelledby="uses"><h2 id="uses">Pages by process</h2>\n'
    yield from table_html(run)
    yield "</section>\n"
    if report.files:
        yield '<section aria-labelledby="files"><h2 id="files">Files</h2>\n'
        yield from files_html(run)
        yield "</section>\n"
    yield from _machine(script)
    yield "</main>\n"
    yield _pane(trace is not None)
    yield f'<script type="application/json" id="order">{_facts(run, order)}</script>\n'
    scripts = "".join((HERE / name).read_text(encoding="utf-8") for name in ("choices.js", "view.js"))
    yield f"<script>\n{scripts}</script>\n</body></html>\n"


def _facts(run: Run, order: AnyOrder) -> str:
    """The ids of all items in their order, each with its pages and its processes, and its turn if that is known."""
    names, facts = order.history(), facts_of(run)
    turns = {name: turn for turn, _, name in order.places()} if isinstance(order, TracedOrder) else {}
    last = max(turns.values(), default=0)
    rows = [[name, sorted(facts[name][0]), sorted(facts[name][1]), turns.get(name, last)] for name in names]
    return json.dumps({"items": rows, "isTraced": bool(turns)}, separators=(",", ":"))


def _head(name: str, lanes: Lanes) -> Iterator[str]:
    style = (HERE / "view.css").read_text(encoding="utf-8")
    wide = (HERE / "aligned.css").read_text(encoding="utf-8")
    yield '<!doctype html>\n<html lang="en"><head><meta charset="utf-8">\n'
    yield f'<meta http-equiv="Content-Security-Policy" content="{POLICY}">\n'
    yield '<meta name="viewport" content="width=device-width, initial-scale=1">\n'
    yield '<meta name="color-scheme" content="light dark">\n'
    yield f"<title>{esc(name)} – a run of hwp</title>\n<style>\n{style}"
    if lanes.is_aligned:
        yield f"@media (min-width: {max(44, lanes.count * 10.5 + 4)}rem) {{\n{wide}}}\n"
    yield "</style></head>\n<body>\n"


def _opening(script: Script) -> Iterator[str]:
    """What the script says of itself."""
    text = " ".join(line for line in script.opening if line)
    if text:
        yield f'<p class="opening">{esc(text if len(text) <= 2000 else text[:2000] + " ...")}</p>\n'


def _summary(run: Run) -> Iterator[str]:
    """The counts of what happened."""
    script, report = run.script, run.report
    kinds: Counter[str] = Counter()
    for row in run.works:
        for work in row:
            kinds.update(plain.answer_kind(word_of(answer)) for answer in work.answers)
    entries = [entry for history in report.pages for entry in history]
    failures = sum(
        1 for frame in report.frames for mark in frame.marks if mark.words[0] == "poisoned" and mark.words[4] != "soft"
    )
    offlined = sum(1 for frame in report.frames for mark in frame.marks if mark.words[4:5] == ("soft",))
    sigbus = sum(1 for entry in entries if entry.verb in ("load", "store") and entry.line.get("thread") is not None)
    signals = sum(len(entry.signals) for entry in entries)
    facts = [
        (None, f"{plural(sum(map(len, script.commands)), 'command')} on {plural(script.cpus, 'processor')}"),
        (None, f"{plural(len(entries), 'entry', 'entries')} of {plural(len(script.pages), 'page')}"),
        (None, f"{plural(script.frames, 'frame')}, {report.poisoned.of('word')} poisoned in the end"),
        ("failure", plural(failures, "memory failure")),
        ("signal", plural(signals, "signal of a failure", "signals of failures")),
        ("failure", f"{plural(sigbus, 'access', 'accesses')} answered by SIGBUS"),
        ("offline", f"{plural(offlined, 'frame')} taken out by soft offline"),
        ("refusal", f"{plural(kinds['refusal'], 'command')} refused"),
    ]
    yield '<ul role="list" class="facts">\n'
    for kind, text in facts:
        if kind is None or not text.startswith("0 "):
            yield f"<li>{_fact(kind, text)}</li>\n"
    if report.stop.words[1] == "none":
        yield "<li>The machine did not stop.</li>\n"
    yield "</ul>\n"


def _fact(kind: Optional[str], text: str) -> str:
    return esc(text) if kind is None else badge(kind, text)


def _schedule(script: Script) -> Iterator[str]:
    """The words of the schedule, which are open to be read where they are few."""
    if script.schedule:
        is_open = " open" if len(script.schedule) <= MOST_SHOWN else ""
        yield f"<details{is_open}><summary>Schedule of the script, {plural(len(script.schedule), 'word')}</summary>"
        yield f"<p><code>{esc(' '.join(script.schedule))}</code></p></details>\n"


def _machine(script: Script) -> Iterator[str]:
    """What the script declares of the machine as a whole."""
    yield '<section aria-labelledby="machine"><h2 id="machine">The machine of the script</h2>\n<ul role="list" class="facts">\n'
    recovery = "stops at a memory failure" if script.recovery == 0 else "recovers from memory failures"
    early = "early" if script.early else "late"
    kernel = ", ".join(map(str, sorted(script.kernel)))
    facts = [f"It {recovery}.", f"Threads with the default policy are signalled {early}."]
    facts += [f"Frames of the kernel: {kernel}."] if kernel else []
    yield from (f"<li>{esc(fact)}</li>\n" for fact in facts)
    yield "</ul>\n"
    yield "</section>\n"


def _pane(is_traced: bool) -> str:
    """The bar at the bottom, and above it, once there is something to show, the lines of an item and of what is pinned."""
    steps = [
        ("back", "Back"),
        ("next", "Next"),
        ("failure", '<span class="long-word">Next </span>failure'),
        ("refusal", '<span class="long-word">Next </span>refusal'),
        ("signal", '<span class="long-word">Next </span>signal'),
    ]
    steps += [("wait", '<span class="long-word">Next </span>wait')] if is_traced else []
    buttons = "".join(f'<button type="button" data-go="{go}">{text}</button>' for go, text in steps)
    return (
        '<aside id="pane" aria-label="Lines of the script and the report">\n'
        '<canvas id="strip" height="18" aria-hidden="true"></canvas>\n'
        f'<div class="bar">{buttons}<button type="button" data-go="pin" aria-pressed="false">Pin</button>'
        '<button type="button" data-go="narrow" aria-pressed="false" hidden>Only its pages</button></div>\n'
        '<div class="slots"><div id="now" aria-live="polite"></div>'
        '<div id="pinned" hidden></div></div></aside>\n'
    )
