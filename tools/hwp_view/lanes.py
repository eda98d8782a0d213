"""The lanes of a run: one for each processor with its commands, and one for each page with its entries."""
from __future__ import annotations

from collections import defaultdict
from typing import Iterable, Iterator, Optional, Union

from . import plain
from .markup import badge, esc, item, plural, sources, tie
from .order import Order
from .report import Entry, Line
from .run import Place, Run, Work, entry_named, moved_by, sight_of, word_of
from .script import Command
from .locks import Hold, Trace, Wait
from .trace import turn_text, value_text
from .traced import TracedOrder

AnyOrder = Union[Order, TracedOrder]
MOST_ALIGNED_LANES = 9
MOST_ROOMY_LANES = 5
MOST_EAGER_LANES = 16
MOST_ALIGNED_ROWS = 600
MOST_SHORT = 60
PART = 20
MOST_SLOTS = 8
MOST_FAILED = 4
MOST_HOLDS = 6
KINDS = ("stop", "failure", "refusal", "offline")


def name_of(cpu: int, seq: int) -> str:
    """A command by its processor and number, as it is shown."""
    return f"cpu {cpu} · {seq}"


def to_command(cpu: int, seq: int, hint: str, kind: str = "") -> str:
    """A link to a command."""
    return tie(f"c{cpu}-{seq}", name_of(cpu, seq), hint, kind)


class Lanes:
    """The lanes of one run."""

    def __init__(self, run: Run, order: AnyOrder, trace: Optional[Trace] = None) -> None:
        self.run = run
        self.order = order
        self.trace = trace
        self.holds: dict[tuple[int, int], list[Hold]] = defaultdict(list)
        for hold in trace.holds if trace else []:
            self.holds[(hold.cpu, hold.seq)].append(hold)
        self.count = run.script.cpus + len(run.script.pages)
        self.is_aligned = order.is_free and self.count <= MOST_ALIGNED_LANES and order.height <= MOST_ALIGNED_ROWS
        self.slots: dict[int, list[str]] = defaultdict(list)
        for number, translation in enumerate(run.script.translations):
            self.slots[translation.page].append(f"{number} (process {translation.process})")
        self.frames: dict[int, list[int]] = defaultdict(list)
        for number, frame in enumerate(run.report.frames):
            if frame.state == "page":
                self.frames[frame.line.of("page")].append(number)

    def html(self) -> Iterator[str]:
        """All lanes."""
        if self.is_aligned:
            tight = " tight" if self.count > MOST_ROOMY_LANES else ""
            pages = len(self.run.script.pages)
            columns = f"repeat({self.run.script.cpus}, minmax(0, 1fr))" + (
                f" repeat({pages}, minmax(0, 1.4fr))" if pages else ""
            )
            yield f'<div class="lanes aligned{tight}" style="--columns:{columns};--rows:{self.order.height}">\n'
        else:
            lazy = " lazy" if self.count > MOST_EAGER_LANES else ""
            yield f'<div class="lanes many{lazy}">\n'
        for cpu in range(self.run.script.cpus):
            yield from self._processor(cpu)
        for page in range(len(self.run.script.pages)):
            yield from self._page(page)
        yield "</div>\n"

    def _rows(self, first: int, last: Optional[int] = None) -> str:
        """Where an item stands among the rows of all lanes, where these have common rows."""
        if not self.is_aligned:
            return ""
        return f"--a:{first};--z:{(first if last is None else last) + 1}"

    def _lane(self, name: str, title: str, about: str, items: Iterable[str], empty: str) -> Iterator[str]:
        """A lane with its heading."""
        yield f'<section class="lane" aria-labelledby="{name}"><h3 id="{name}">{title}</h3><p class="about">{about}</p>\n'
        lines = list(items)
        if not lines:
            yield f'<p class="none">{empty}</p></section>\n'
        elif self.is_aligned or len(lines) <= MOST_SHORT:
            yield f'<ol role="list" class="part">\n{"".join(lines)}</ol></section>\n'
        else:
            yield '<div class="long">\n'
            for at in range(0, len(lines), PART):
                yield f'<ol role="list" class="part">\n{"".join(lines[at : at + PART])}</ol>\n'
            yield "</div></section>\n"

    def _processor(self, cpu: int) -> Iterator[str]:
        threads = [
            f"thread {number} of process {thread.process}{'' if thread.handler else ' without a handler'}"
            for number, thread in enumerate(self.run.script.threads)
            if thread.cpu == cpu
        ]
        works = self.run.works[cpu]
        about = f"{plural(len(works), 'command')}; {', '.join(threads) or 'no thread'}"
        yield from self._lane(f"cpu{cpu}", f"Processor {cpu}", esc(about), map(self._command, works), "No commands.")

    def _command(self, work: Work) -> str:
        """A command with its events, what stands beside its answer, and its answer."""
        command = work.command
        kinds = {plain.event_kind(event) for event in work.events} | {plain.beside_kind(line) for line in work.beside}
        kinds |= {plain.answer_kind(word_of(answer)) for answer in work.answers}
        kind = next((kind for kind in KINDS if kind in kinds), "fine" if work.answers else "refusal")
        says = plain.command_says(self.run.script, command)
        lines = [f'<b class="no">{command.seq}</b> <code>{esc(command.text)}</code>{self._frame_of(command)}']
        if self.is_aligned:
            lines[0] += f' <span class="why gloss">{esc(says)}</span>'
        lines += [f'<span class="ans">{self._event(event)}</span>' for event in work.events]
        lines += [f'<span class="ans">{self._beside(line)}</span>' for line in work.beside]
        lines += [f'<span class="ans">{self._answer(answer, command)}</span>' for answer in work.answers]
        if not work.answers:
            lines.append(f'<span class="ans">{badge("refusal", "no answer")}in the report</span>')
        lines += self._turns(command)
        return item(
            f"c{command.cpu}-{command.seq}",
            f"k-{kind}",
            "com waited" if self._waits(command) else "com",
            "\n".join(lines),
            script=f"{command.line} {command.text}",
            report=sources(work.lines),
            trace="\n".join(f"{wait.turn.number + 2} {turn_text(wait.turn)}" for wait in self._waits(command)),
            says=says,
            rows=self._rows(*self.order.spans[command.cpu][command.seq]),
        )

    def _waits(self, command: Command) -> list[Wait]:
        return self.trace.waits.get((command.cpu, command.seq), []) if self.trace else []

    def _turns(self, command: Command) -> Iterator[str]:
        """What a trace says of a command: what it waited for, its turns, and the locks that it held."""
        if self.trace is None:
            return
        for wait in self._waits(command):
            turn = wait.turn
            why = f"{turn.kind} found {turn.place} as {value_text(turn.word, turn.before)}"
            if wait.holder:
                holder = to_command(*wait.holder, "the command")
                text = f"for {esc(turn.place)}, which {holder} had locked"
            else:
                text = esc(why)
            when = f"at turn {turn.number}" if wait.times == 1 else f"{wait.times} turns, {turn.number} to {wait.last},"
            yield f'<span class="ans">{badge("wait", "waited")}{when} {text}</span>'
        turns = self.trace.of[(command.cpu, command.seq)]
        held = self.holds[(command.cpu, command.seq)]
        shown = [f"{hold.word} in turns {hold.first} to {hold.last}" for hold in held[:MOST_HOLDS]]
        shown += [f"and {len(held) - MOST_HOLDS} more"] if len(held) > MOST_HOLDS else []
        locks = f"; it held {', '.join(shown)}" if shown else ""
        yield f'<span class="ans why">turns {turns[0].number} to {turns[-1].number}{esc(locks)}</span>'

    def _made_by(self, page: int, index: int) -> str:
        """The line of the trace that made an entry."""
        if not isinstance(self.order, TracedOrder):
            return ""
        turn = self.order.turn_of[(page, index)]
        return f"{turn.number + 2} {turn_text(turn)}"

    def _frame_of(self, command: Command) -> str:
        """A link to the frame that a command names."""
        frame = command.named("frame")
        return "" if frame is None or command.verb == "scrub" else " " + tie(f"f{frame}", f"frame {frame}")

    def _event(self, event: Line) -> str:
        frame = plain.event_frame(event, self.run.script)
        link = "" if frame is None else tie(f"f{frame}", f"frame {frame}")
        status = f'<span class="why">{esc(plain.status_says(event.of("status")))}</span>'
        return f"{badge(plain.event_kind(event), 'event')}{esc(plain.event_says(event))} {status} {link}"

    def _beside(self, line: Line) -> str:
        """A frame that was taken out of use, or a machine check of a guest."""
        shown = f"{badge(plain.beside_kind(line), word_of(line))}{esc(plain.beside_says(line))}"
        if word_of(line) == "guest":
            return f'{shown} <span class="why">{esc(plain.status_says(line.of("status")))}</span>'
        frame, moved = line.of("frame"), moved_by(line)
        link = "" if moved is None else " " + self._to_entry(moved, f"page {moved[0]} · {moved[1]}", "named")
        return f"{shown} {tie(f'f{frame}', f'frame {frame}')}{link}"

    def _answer(self, answer: Line, command: Command) -> str:
        """An answer, and where it points."""
        word, code = plain.answer_badge(answer)
        _, meaning = plain.answer_says(answer)
        why = f'<span class="why">{esc(meaning)}</span> ' if meaning else ""
        shown = f"<code>{esc(code)}</code> " if code else ""
        return (
            f"{badge(plain.answer_kind(word_of(answer)), word)}{shown}{why}{' '.join(self._pointers(answer, command))}"
        )

    def _pointers(self, answer: Line, command: Command) -> Iterator[str]:
        """Links to the frame and the entry that an answer names, to where it saw its page, and to its failures of pages."""
        frame, named, sight = answer.get("frame"), entry_named(answer), sight_of(answer)
        if frame is not None:
            yield "to " + tie(f"f{frame}", f"frame {frame}")
        if named is not None:
            yield self._to_entry(named, f"page {named[0]} · {named[1]}", "named")
        if sight is not None:
            yield self._to_entry(
                (sight.page, sight.after - 1), f"page {sight.page} after {plural(sight.after, 'entry', 'entries')}"
            )
        if word_of(answer) == "gone":
            ending, page = self.run.ending_for(answer, command), answer.of("page")
            yield self._to_entry(ending or (page, -1), f"page {page}" + (f" · {ending[1]}" if ending else ""))
        failed = [
            place
            for place in self.run.work(command.cpu, command.seq).entries
            if self._is_failure(place) and place != named
        ]
        for place in failed[:MOST_FAILED]:
            yield self._to_entry(place, f"page {place[0]} · {place[1]}")

    def _is_failure(self, place: Place) -> bool:
        return self.run.report.pages[place[0]][place[1]].verb == "fail"

    def _to_entry(self, place: Place, text: str, kind: str = "") -> str:
        """A link to an entry, to its page where it is none of it, or no link where the report has no such entry."""
        page, index = place
        if index < 0:
            return tie(f"p{page}", text, kind=kind)
        is_there = self.run.has_entry(place)
        return (
            tie(f"e{page}-{index}", text, "entry" if kind else "", kind) if is_there else f"{esc(text)} (no such entry)"
        )

    def _page(self, page: int) -> Iterator[str]:
        declared = self.run.script.pages[page]
        title = f"Page {page}"
        parts = ["anonymous" if declared.file is None else f"of file {declared.file}, filled with {declared.fill}"]
        if declared.locked:
            parts.append("locked")
        slots = self.slots[page]
        if slots:
            more = f" and {len(slots) - MOST_SLOTS} more" if len(slots) > MOST_SLOTS else ""
            parts.append(f"trans {', '.join(slots[:MOST_SLOTS])}{more}")
        links = [tie(f"f{number}", f"frame {number}") for number in self.frames[page]]
        place = f"in the end in {' and '.join(links)}" if links else "in the end in no frame"
        about = f"{plural(len(self.run.report.pages[page]), 'entry', 'entries')}; {esc('; '.join(parts))}; {place}"
        yield from self._lane(f"p{page}", title, about, self._history(page), "No entries.")

    def _history(self, page: int) -> Iterator[str]:
        """The entries of a page, and between them what refusals saw of it."""
        sights = self.run.sights.get(page, {})
        history = self.run.report.pages[page]
        cpus = {entry.line.of("cpu") for entry in history} | {c.cpu for commands in sights.values() for c in commands}
        rail = sorted(cpus) if self.run.script.cpus > 1 else []
        for index, entry in enumerate(history):
            yield from self._sights(sights.get(index, []), rail)
            yield self._entry(page, index, entry, rail)
        for after in sorted(sights):
            if after >= len(history):
                yield from self._sights(sights[after], rail)

    def _sights(self, commands: list[Command], rail: list[int]) -> Iterator[str]:
        """Refusals that saw a page between two entries."""
        for command in commands:
            answer = self.run.work(command.cpu, command.seq).answer
            word = word_of(answer) if answer is not None else ""
            row = self.order.sight_row(command.cpu, command.seq)
            style = f' style="{self._rows(row)}"' if self.is_aligned else ""
            link = to_command(command.cpu, command.seq, "for")
            text = f"{badge('refusal')}<code>{esc(command.verb)}</code>: {esc(word)}"
            yield f'<li class="sight"{style}>{self._rail(command.cpu, rail)}<span class="what">{text}</span>{link}</li>\n'

    def _rail(self, cpu: int, rail: list[int]) -> str:
        """The processor of an entry, in its own place among those that have to do with the page."""
        if not rail:
            return ""
        style = f"--c:{rail.index(cpu)};--n:{len(rail)}"
        return f'<span class="rail" aria-hidden="true" style="{style}"><i>{cpu}</i></span>'

    def _entry(self, page: int, index: int, entry: Entry, rail: list[int]) -> str:
        """An entry, with what stands below a failure."""
        cpu, seq = entry.line.who
        kind = plain.entry_kind(entry)
        names = self.run.named_by.get((page, index), [])
        is_named = any(command.cpu == cpu and command.seq == seq for command in names)
        link = to_command(cpu, seq, "the answer of" if is_named else "for", "named" if is_named else "")
        link += "".join(to_command(c.cpu, c.seq, "named by", "named") for c in names if (c.cpu, c.seq) != (cpu, seq))
        mark = self.run.mark_of_entry.get((page, index))
        if mark is not None:
            link = tie(f"m{mark[0]}-{mark[1]}", f"frame {mark[0]}", "mark of") + link
        word = plain.entry_badge(entry)
        shown = "" if kind != "fine" and word == entry.verb else f"<code>{esc(entry.verb)}</code> "
        what = f"{badge(kind, word)}{shown}{esc(plain.entry_says(entry))}"
        below = "".join(self._below(page, index, entry))
        body = f'{self._rail(cpu, rail)}<b class="no">{index}</b> <span class="what">{what}</span>'
        body += f'<span class="ties">{link}</span>{below}'
        lines = sources((entry.line, *entry.seen, *entry.signals))
        row = self._rows(self.order.entry_row((page, index)))
        made = self._made_by(page, index)
        return item(f"e{page}-{index}", f"k-{kind}", "ent", body, report=lines, trace=made, rows=row)

    def _below(self, page: int, index: int, entry: Entry) -> Iterator[str]:
        """The policies that a failure read, and its signals."""
        if not entry.seen and not entry.signals:
            return
        yield '<ul role="list" class="sub">\n'
        for seen in entry.seen:
            yield f"<li><code>seen</code> {esc(plain.seen_says(seen))}</li>\n"
        for number, signal in enumerate(entry.signals):
            body = badge("signal") + esc(plain.signal_says(signal))
            yield item(f"s{page}-{index}-{number}", "k-signal", "sig", body, report=sources([signal]))
        yield "</ul>"
