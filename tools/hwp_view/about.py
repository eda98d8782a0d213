"""What each item of a run is of: its pages and its processes, by which the picture is filtered, and the table of both."""
from __future__ import annotations

from typing import Iterator

from .markup import esc, plural, tie
from .run import Run, Work, sight_of
from .script import Script

Facts = tuple[set[int], set[int]]
COLUMNS = ("loads", "stores", "SIGBUS", "signals")
MOST_CELLS = 4096


def facts_of(run: Run) -> dict[str, Facts]:
    """The pages and the processes of each item."""
    facts: dict[str, Facts] = {}
    for page, history in enumerate(run.report.pages):
        for index in range(len(history)):
            facts[f"e{page}-{index}"] = ({page}, _processes_of_entry(run, page, index))
            for number, signal in enumerate(history[index].signals):
                facts[f"s{page}-{index}-{number}"] = ({page}, {signal.of("proc")})
    for cpu, row in enumerate(run.works):
        for seq, work in enumerate(row):
            facts[f"c{cpu}-{seq}"] = _of_command(run, work, facts)
    for number, frame in enumerate(run.report.frames):
        pages = {frame.line.of("page")} if frame.state == "page" else set()
        for index, mark in enumerate(frame.marks):
            entry = run.entry_of_mark.get((number, index))
            own = facts[f"e{entry[0]}-{entry[1]}"] if entry else (set(), facts["c{}-{}".format(*mark.who)][1])
            facts[f"m{number}-{index}"] = own
            pages |= own[0]
        facts[f"f{number}"] = (pages, set())
    stop = run.report.stop
    if stop.words[1] != "none":
        facts["stop"] = facts["c{}-{}".format(*stop.who)]
    return facts


def _processes_of_entry(run: Run, page: int, index: int) -> set[int]:
    """The processes of an entry's translation and thread, and of its signals."""
    entry = run.report.pages[page][index]
    found = {signal.of("proc") for signal in entry.signals}
    slot, thread = entry.line.get("trans"), entry.line.get("thread")
    if slot is not None:
        found.add(run.script.translations[slot].process)
    if thread is not None:
        found.add(run.script.threads[thread].process)
    return found


def _of_command(run: Run, work: Work, facts: dict[str, Facts]) -> Facts:
    """A command is of the pages that it names, met or saw, and of the processes of what it names and of its entries."""
    script, command = run.script, work.command
    pages, processes = {page for page, _ in work.entries}, set()
    page, slot, thread = script.page_of(command), command.named("trans"), command.named("thread")
    pages |= set() if page is None else {page}
    pages |= {sight.page for sight in map(sight_of, work.answers) if sight is not None}
    processes |= set() if slot is None else {script.translations[slot].process}
    processes |= set() if thread is None else {script.threads[thread].process}
    for place in work.entries:
        processes |= facts[f"e{place[0]}-{place[1]}"][1]
    return pages, processes


def filters_html(script: Script) -> str:
    """The fields by which one searches and filters."""

    def choice(name: str, label: str, none: str, values: list[tuple[str, str]]) -> str:
        options = "".join(f'<option value="{value}">{esc(text)}</option>' for value, text in [("", none), *values])
        return f'<label>{label} <select id="by-{name}">{options}</select></label>\n'

    pages = [(str(n), str(n)) for n in range(len(script.pages))]
    kinds = "failure refusal signal stop offline waited".split()
    named = ["failures", "refusals", "signals", "the stop", "taken out or back", "waits"]
    return (
        '<form id="filters" role="search">\n<label>Search <input type="search" id="by-text" autocomplete="off"></label>\n'
        + choice("page", "Page", "all", pages)
        + choice("process", "Process", "all", [(str(n), str(n)) for n in range(script.procs)])
        + choice("kind", "Kind", "all", list(zip(kinds, named)))
        + '<output id="found"></output>\n</form>\n'
    )


def table_html(run: Run) -> Iterator[str]:
    """What each process did to each page, and what that cost it."""
    counts: dict[tuple[int, int], list[int]] = {}
    for page, history in enumerate(run.report.pages):
        for entry in history:
            slot, is_access = entry.line.get("trans"), entry.verb in ("load", "store")
            if is_access and slot is not None:
                column = 2 if entry.line.get("thread") is not None else ("load", "store").index(entry.verb)
                counts.setdefault((page, run.script.translations[slot].process), [0] * 4)[column] += 1
            for signal in entry.signals:
                counts.setdefault((page, signal.of("proc")), [0] * 4)[3] += 1
    if not counts:
        yield '<p class="none">No process used a page.</p>\n'
        return
    head = "".join(f'<th scope="col">{text}</th>' for text in ("page", "process", *COLUMNS))
    yield f'<table class="uses">\n<thead><tr>{head}</tr></thead>\n<tbody>\n'
    for (page, process), row in sorted(counts.items())[:MOST_CELLS]:
        cells = "".join(f"<td>{number or ''}</td>" for number in row)
        yield f'<tr><th scope="row">{tie(f"p{page}", str(page))}</th><th scope="row">{process}</th>{cells}</tr>\n'
    yield "</tbody></table>\n"
    if len(counts) > MOST_CELLS:
        yield f'<p class="none">And {plural(len(counts) - MOST_CELLS, "row")} more.</p>\n'
