"""The real order of a run, from its trace: each entry stands at the turn that made it, each command at its turns."""
from __future__ import annotations

from bisect import bisect_left
from typing import Callable, Optional

from .forms import Malformed
from .report import Entry
from .run import Place, Run, sight_of
from .locks import Trace
from .trace import Turn

LOADS = ("load", "store", "mce")


def _step_of(page: int, entry: Entry) -> tuple[str, str]:
    """The kind and the word of the step that makes an entry. A bad line or a word is met at `load_bad` of some frame, by an access through
    the translation whose word is named then."""
    slot = f"trans {entry.line.get('trans')}"
    if entry.verb in ("load", "store") and entry.line.get("thread") is not None:
        return "load_pte", slot
    if entry.verb in LOADS:
        return "load_bad", slot
    if entry.verb == "sync":
        return "load_bad", ""
    if entry.verb in ("map", "free"):
        return "set_pte", slot
    return "set_cache", f"cache {page}"


def _touched(turns: list[Turn]) -> dict[int, str]:
    """The word that each of a command's turns is about: of a look at bad lines the translation that its access went through."""
    words: dict[int, str] = {}
    through = ""
    for turn in turns:
        through = turn.place if turn.kind == "load_pte" else through
        words[turn.number] = through if turn.kind == "load_bad" else turn.place
    return words


class TracedOrder:
    """The rows of a run's entries and commands in the order of its turns. It serves where an `Order` does."""

    is_free = True

    def __init__(self, run: Run, trace: Trace) -> None:
        self.run = run
        self.trace = trace
        self.turn_of: dict[Place, Turn] = {}
        for row in run.works:
            for work in row:
                self._place_entries(work.command.cpu, work.command.seq, work.entries)
        self._check_pages()
        ends = [turns[-1].number for turns in trace.of.values()]
        moments = set(ends) | {turn.number for turn in self.turn_of.values()}
        moments |= {self._sight_turn(cpu, seq) for cpu, row in enumerate(run.works) for seq in range(len(row))}
        self.moments = sorted(moments)
        self.height = len(self.moments)
        self.spans = [[self._span(cpu, seq) for seq in range(len(row))] for cpu, row in enumerate(run.works)]

    def _place_entries(self, cpu: int, seq: int, places: list[Place]) -> None:
        """Finds the turns of a command's entries, in the order of each page."""
        turns = self.trace.of[(cpu, seq)]
        reached: dict[int, int] = {}
        touched = _touched(turns)
        for place in places:
            entry = self.run.report.pages[place[0]][place[1]]
            kind, word = _step_of(place[0], entry)
            fits: Callable[[Turn], bool] = lambda turn: turn.kind == kind and word in ("", touched[turn.number])
            start = reached.get(place[0], turns[0].number)
            found = [turn for turn in turns if turn.number >= start and fits(turn)]
            if not found:
                self._refuse(place, f"processor {cpu} made no step `{kind}` of it in its command {seq}")
            turn = found[-1] if kind == "load_pte" else found[0]
            self.turn_of[place] = turn
            reached[place[0]] = turn.number + 1

    def _check_pages(self) -> None:
        """The turns of a page's entries rise."""
        for page, history in enumerate(self.run.report.pages):
            for index in range(1, len(history)):
                one, other = self.turn_of[(page, index - 1)], self.turn_of[(page, index)]
                if one.number >= other.number:
                    self._refuse((page, index), f"turn {other.number} made it, and turn {one.number} the entry before it")

    def _refuse(self, place: Place, why: str) -> None:
        line = self.run.report.pages[place[0]][place[1]].line
        raise Malformed(f"report line {line.number}: the trace is of another run than entry {place[1]} of page {place[0]}: {why}")

    def _row(self, turn: int) -> int:
        """The row of a turn, or of the next one that has a row."""
        return bisect_left(self.moments, turn) + 1

    def _sight_turn(self, cpu: int, seq: int) -> int:
        """The turn at which a refusal saw its page: its last step but what lets the page go; or the command's last turn."""
        turns, answer = self.trace.of[(cpu, seq)], self.run.work(cpu, seq).answer
        sight = None if answer is None else sight_of(answer)
        seen: list[Turn] = []
        if sight is not None:
            seen = [turn for turn in turns if turn.kind == "unlock_page" and turn.place == f"page {sight.page}"]
        return (seen or turns)[-1].number

    def _span(self, cpu: int, seq: int) -> tuple[int, int]:
        turns = self.trace.of[(cpu, seq)]
        return self._row(turns[0].number), self._row(turns[-1].number)

    def entry_row(self, place: Place) -> int:
        """The row of an entry."""
        return self._row(self.turn_of[place].number)

    def sight_row(self, cpu: int, seq: int) -> int:
        """The row in which a refusal saw its page."""
        return self._row(self._sight_turn(cpu, seq))

    def turn_of_mark(self, place: Place) -> int:
        """The turn of a mark: the one that set the frame's poison bit, or took it back; else the last of its command."""
        mark = self.run.report.frames[place[0]].marks[place[1]]
        kind = "poison" if mark.words[0] == "poisoned" else "revive"
        turns = self.trace.of[mark.who]
        made = [turn for turn in turns if turn.kind == kind and turn.place == f"frame {place[0]}"]
        return (made or turns)[-1].number

    def places(self) -> list[tuple[int, int, str]]:
        """The ids of commands, entries, signals and marks and of the stop, each with its turn, in their order."""
        found: list[tuple[int, int, str]] = []
        for (cpu, seq), turns in self.trace.of.items():
            found.append((turns[0].number, 0, f"c{cpu}-{seq}"))
            for frame, index in self.run.work(cpu, seq).marks:
                found.append((self.turn_of_mark((frame, index)), 900, f"m{frame}-{index}"))
        for (page, index), turn in self.turn_of.items():
            found.append((turn.number, 1, f"e{page}-{index}"))
            signals = self.run.report.pages[page][index].signals
            found += [(turn.number, 2 + k, f"s{page}-{index}-{k}") for k in range(len(signals))]
        stop = self._stop_turn()
        if stop is not None:
            found.append((stop, 999, "stop"))
        return sorted(found)

    def _stop_turn(self) -> Optional[int]:
        if self.run.report.stop.words[1] == "none":
            return None
        return next((turn.number for turn in self.trace.turns if turn.kind == "stop"), len(self.trace.turns) - 1)

    def history(self) -> list[str]:
        """The ids in the order of their turns, and those of the frames."""
        return [name for _, _, name in self.places()] + [f"f{number}" for number in range(len(self.run.report.frames))]
