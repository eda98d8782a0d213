"""What the turns of a trace say of locks, and of what commands waited for."""
from __future__ import annotations

from dataclasses import dataclass, field
from typing import NamedTuple, Optional

from .forms import Malformed, shown
from .script import Script
from .trace import Turn, read_trace, value_text

LOCKS = frozenset(("lock_frame", "lock_page"))


class Hold(NamedTuple):
    """A lock that a command held: from one turn to another."""

    word: str
    cpu: int
    seq: int
    first: int
    last: int


class Wait(NamedTuple):
    """Turns of a command that waited for one word, the last of them, and the command that had it locked, if it is a lock."""

    turn: Turn
    times: int
    last: int
    holder: Optional[tuple[int, int]]


@dataclass
class Trace:
    """A trace; turns, locks and waits by commands."""

    turns: list[Turn]
    of: dict[tuple[int, int], list[Turn]] = field(default_factory=dict)
    holds: list[Hold] = field(default_factory=list)
    waits: dict[tuple[int, int], list[Wait]] = field(default_factory=dict)
    held: dict[str, Turn] = field(default_factory=dict)

    def note(self, turn: Turn) -> None:
        """Notes what a turn says of locks."""
        who = (turn.cpu, turn.seq)
        self.of.setdefault(who, []).append(turn)
        if turn.word in ("frame", "page"):
            was, is_now = "locked" in turn.before, "locked" in turn.after
            if is_now and not was:
                self.held[turn.place] = turn
            elif was and not is_now and turn.place in self.held:
                start = self.held.pop(turn.place)
                self.holds.append(Hold(turn.place, start.cpu, start.seq, start.number, turn.number))
        if turn.end == "waits":
            self.note_wait(turn, self.waits.setdefault(who, []))

    def note_wait(self, turn: Turn, waits: list[Wait]) -> None:
        """Notes a turn that waits; one that waits for the same word again is of the wait before it."""
        of_command = self.of[(turn.cpu, turn.seq)]
        holder = self.held.get(turn.place) if turn.kind in LOCKS else None
        is_same = len(of_command) > 1 and of_command[-2].end == "waits" and of_command[-2].place == turn.place
        if waits and is_same:
            waits[-1] = waits[-1]._replace(times=waits[-1].times + 1, last=turn.number)
        else:
            waits.append(Wait(turn, 1, turn.number, (holder.cpu, holder.seq) if holder else None))

    def close(self) -> None:
        """Ends the locks that are held at the end, and puts all in their order."""
        for word, start in self.held.items():
            self.holds.append(Hold(word, start.cpu, start.seq, start.number, len(self.turns) - 1))
        self.holds.sort(key=lambda hold: hold.first)


def read_locks(data: bytes, script: Script) -> Trace:
    """The trace of these bytes, of a run of this script. Raises Malformed at the first line at fault, or at one whose word stood otherwise."""
    trace = Trace(read_trace(data, script))
    stands: dict[str, str] = {}
    for turn in trace.turns:
        before = value_text(turn.word, turn.before)
        if stands.setdefault(turn.place, before) != before:
            raise Malformed(f"trace line {turn.number + 2}: {turn.place} was left as {shown(stands[turn.place])}, not {shown(before)}")
        stands[turn.place] = value_text(turn.word, turn.after)
        trace.note(turn)
    trace.close()
    return trace
