"""The command `hwp-words`."""
from __future__ import annotations

from typing import Iterator, NamedTuple, Optional, Sequence

from hwp_view.forms import Malformed, ranges
from hwp_view.script import Script, read_script
from hwp_view.trace import Turn, read_trace

from .console import REFUSED, Ended, ask, called, parser, read, unexpected, write

SAYS = """Says what each word of a script's schedule came to: how many turns, and where and why it ended. The turns are those of TRACE,
or else of a run of hwp-trace. One of the two may be `-`, for standard input."""
STATUSES = """status: 0 done. 2: the arguments are others. 3: the script or the trace is refused, or the trace is of another schedule.
4: a read failed. 5: a write failed. 6: out of memory. 70: the program hwp-trace could not be run."""


class Word(NamedTuple):
    """A word of the schedule: where it stands, its text, its processor, and the kind of step that it goes to."""

    line: int
    column: int
    text: str
    cpu: int
    kind: Optional[str]

    @property
    def is_one_turn(self) -> bool:
        """Whether it is a single turn."""
        return self.kind is None and not self.text.endswith(".")


class Held(NamedTuple):
    """Who did something: the processor and its command."""

    cpu: int
    seq: int


def schedule_words(data: bytes) -> list[Word]:
    """The words of the schedule of a script that is right."""
    words = []
    for number, line in enumerate(data.decode("latin-1").split("\n"), 1):
        if line.startswith("#") or line.split(" ") == [""]:
            continue
        at, texts = 0, []
        for text in line.split(" "):
            if text:
                texts.append((at + 1, text))
            at += len(text) + 1
        if texts and texts[0][1] == "schedule":
            for column, text in texts[1:]:
                cpu, _, kind = text.partition("@")
                words.append(Word(number, column, text, int(cpu.removesuffix(".")), kind or None))
    return words


class State:
    """What the turns so far tell of locks, of frames on their way, and of failures."""

    def __init__(self, script: Script) -> None:
        self.script = script
        self.locked: dict[str, Held] = {}
        self.poisoned: dict[int, Held] = {}
        self.taken: dict[int, Held] = {}
        self.looked: dict[int, int] = {}
        self.at = [0] * script.cpus

    def add(self, turn: Turn) -> None:
        """Adds a turn."""
        held = Held(turn.cpu, turn.seq)
        if "locked" in turn.after and "locked" not in turn.before:
            self.locked[turn.place] = held
        if turn.word == "frame" and turn.of is not None:
            self.looked[turn.cpu] = turn.of
            if turn.kind == "poison":
                self.poisoned[turn.of] = held
        if turn.word == "free" and turn.of is not None:
            for bit in range(64):
                if (turn.before["mask"] ^ turn.after["mask"]) >> bit & 1:
                    self.taken[64 * turn.of + bit] = held
        self.at[turn.cpu] += turn.end == "answered"

    def command(self, held: Held) -> str:
        """A command, by its number and its text."""
        return f"command {held.seq} ({self.script.commands[held.cpu][held.seq].text})"

    def who(self, held: Optional[Held]) -> str:
        """A processor in a command."""
        return "another processor" if held is None else f"processor {held.cpu} in its {self.command(held)}"

    def why(self, turn: Turn) -> str:
        """What a turn waits for."""
        if turn.kind in ("lock_frame", "lock_page"):
            return f"{turn.place} is locked by {self.who(self.locked.get(turn.place))}"
        if turn.kind == "load_avail":
            return "no frame is free that no processor has reserved"
        if turn.kind == "take_bit":
            frame = self.looked.get(turn.cpu)
            taker = None if frame is None else self.taken.get(frame)
            return f"frame {'?' if frame is None else frame} has been taken from the free frames by {self.who(taker)}"
        failed = None if turn.of is None else self.poisoned.get(turn.of)
        return f"the failure of {turn.place} by {self.who(failed)} isn't ended"


def ends(word: Word, turn: Turn) -> bool:
    """Whether a word ends with this turn."""
    return word.is_one_turn or turn.end in ("answered", "waits") or turn.kind == word.kind


def turns_of(word: Word, turns: Sequence[Turn], at: int) -> int:
    """How many turns from this one on are of the word."""
    count = 0
    while at + count < len(turns) and turns[at + count].cpu == word.cpu:
        count += 1
        if ends(word, turns[at + count - 1]):
            break
    return count


def span(count: int, at: int) -> str:
    """A number of turns, and which they are."""
    if count == 0:
        return "no turn"
    return f"1 turn, {at}" if count == 1 else f"{count} turns, {at} to {at + count - 1}"


def came_to(word: Word, last: Turn, state: State) -> str:
    """Where a word ended, and why."""
    command = state.command(Held(last.cpu, last.seq))
    missed = f"; {word.kind} was not reached" if word.kind and last.kind != word.kind else ""
    if last.end == "answered":
        return f"{command} is answered, by {last.kind} of {last.place}{missed}"
    if last.end == "waits":
        return f"{command} waits at {last.kind}: {state.why(last)}{missed}"
    return f"{command} has made {last.kind} of {last.place}"


def told(name: str, data: bytes, script: Script, turns: Sequence[Turn]) -> Iterator[str]:
    """What each word came to, a line for each, and then the turns behind the schedule."""
    state, at = State(script), 0
    for word in schedule_words(data):
        where, count = f"{name}:{word.line}:{word.column}: {word.text} :", turns_of(word, turns, at)
        has_more = state.at[word.cpu] < len(script.commands[word.cpu])
        if (count == 0) == has_more or (count and not ends(word, turns[at + count - 1])):
            raise Ended(REFUSED, f"{where} the trace isn't of this schedule: see its turn {at + count}")
        for turn in turns[at : at + count]:
            state.add(turn)
        if count == 0:
            yield f"{where} no turn; processor {word.cpu} has answered all its commands"
        else:
            yield f"{where} {span(count, at)}; {came_to(word, turns[at + count - 1], state)}"
        at += count
    cpus = sorted({turn.cpu for turn in turns[at:]})
    whose = f", of processor{'s' if len(cpus) > 1 else ''} {ranges(cpus)}" if cpus else ""
    yield f"{name}: finishing order : {span(len(turns) - at, at)}{whose}"


def traced(data: bytes) -> bytes:
    """The trace that hwp-trace writes of a script."""
    answer = ask("hwp-trace", [], data)
    if answer.status not in (0, 8):
        raise unexpected("hwp-trace", answer)
    return answer.out


def main(words: Sequence[str]) -> int:
    """Runs the command with these words, and answers its status."""
    options = parser("hwp-words", SAYS, STATUSES)
    options.add_argument("script", metavar="SCRIPT")
    options.add_argument("trace", metavar="TRACE", nargs="?")
    paths = options.parse_args(words)
    if paths.script == paths.trace == "-":
        options.error("only one of the two may be standard input")
    data = read(paths.script)
    try:
        script = read_script(data)
        turns = read_trace(traced(data) if paths.trace is None else read(paths.trace), script)
    except Malformed as why:
        raise Ended(REFUSED, str(why)) from why
    name = paths.script if paths.script == "-" else called(paths.script)
    write("".join(f"{line}\n" for line in told(name, data, script, turns)))
    return 0
