"""A trace as Chrome trace JSON: tracks of processors, pages and frames, with spans and instants. A turn takes a microsecond."""
from __future__ import annotations

from collections import defaultdict
from typing import Iterator, NamedTuple, Sequence

from hwp_view.forms import Malformed
from hwp_view.report import Report
from hwp_view.run import word_of
from hwp_view.script import Script
from hwp_view.trace import Turn

from .words import State

Json = dict[str, object]
PROCESSORS, PAGES, FRAMES = 1, 2, 3
GROUPS = {PROCESSORS: "processors", PAGES: "pages", FRAMES: "frames"}
CODES = {"ar": "BUS_MCEERR_AR", "ao": "BUS_MCEERR_AO"}


class Track(NamedTuple):
    """A track: its group, and the number of its processor, page or frame."""

    group: int
    number: int


class Picture:
    """The events of a trace."""

    def __init__(self, script: Script, turns: Sequence[Turn], report: Report) -> None:
        self.script, self.turns, self.report = script, turns, report
        self.events: list[Json] = []
        self.tracks: set[Track] = set()
        self.of_command: dict[tuple[int, int], list[Turn]] = defaultdict(list)
        for turn in turns:
            self.of_command[(turn.cpu, turn.seq)].append(turn)

    def event(self, track: Track, name: str, kind: str, more: Json, args: Json) -> None:
        """Adds an event to a track."""
        self.tracks.add(track)
        self.events.append({"name": name, "cat": kind, **more, "pid": track.group, "tid": track.number, "args": args})

    def span(self, track: Track, name: str, kind: str, first: int, end: int, args: Json) -> None:
        """Adds a span of turns, from the first to the one before the end."""
        self.event(track, name, kind, {"ph": "X", "ts": first, "dur": end - first}, args)

    def instant(self, track: Track, name: str, kind: str, turn: int, args: Json) -> None:
        """Adds an instant at the end of a turn."""
        self.event(track, name, kind, {"ph": "i", "ts": turn + 1, "s": "t"}, args)

    def add_commands(self) -> None:
        """A span for each command, from its first turn to its last, with its answer."""
        answers = {(cpu, line.of("seq")): line for cpu, row in enumerate(self.report.cpus) for line in row if word_of(line) != "event"}
        for (cpu, seq), turns in self.of_command.items():
            command, answer = self.script.commands[cpu][seq], answers.get((cpu, seq))
            args: Json = {"command": seq, "script_line": command.line}
            if answer is not None:
                args["answer"] = " ".join(answer.words[1:])
            self.span(Track(PROCESSORS, cpu), command.text, "command", turns[0].number, turns[-1].number + 1, args)

    def add_steps(self) -> None:
        """A span for each turn, and one for each wait, to the turn of the processor in which it goes on."""
        state = State(self.script)
        begun: dict[int, tuple[int, str]] = {}
        for turn in self.turns:
            track, where = Track(PROCESSORS, turn.cpu), f"{turn.kind} {turn.place}"
            if turn.end != "waits" and turn.cpu in begun:
                first, why = begun.pop(turn.cpu)
                self.span(track, "waits", "wait", first, turn.number, {"why": why})
            if turn.end == "waits" and turn.cpu not in begun:
                begun[turn.cpu] = (turn.number, state.why(turn))
            args: Json = {"turn": turn.number, "kind": turn.kind, "came_to": turn.end}
            self.span(track, where, "step", turn.number, turn.number + 1, args)
            state.add(turn)

    def add_locks(self) -> None:
        """A span for each time that a page or a frame is locked."""
        begun: dict[Track, Turn] = {}
        for turn in self.turns:
            if turn.of is None or turn.word not in ("page", "frame"):
                continue
            track = Track(PAGES if turn.word == "page" else FRAMES, turn.of)
            if "locked" in turn.after and track not in begun:
                begun[track] = turn
            elif "locked" not in turn.after and track in begun:
                self.lock(track, begun.pop(track), turn.number + 1)
        for track, turn in begun.items():
            self.lock(track, turn, len(self.turns))

    def lock(self, track: Track, turn: Turn, end: int) -> None:
        """Adds the span of a lock."""
        args: Json = {"cpu": turn.cpu, "command": turn.seq, "does": self.script.commands[turn.cpu][turn.seq].text}
        self.span(track, f"locked by processor {turn.cpu}", "lock", turn.number, end, args)

    def add_failures(self) -> None:
        """An instant where a frame is poisoned, of its processor, the frame, and the page in it."""
        for turn in self.turns:
            if turn.kind == "poison" and turn.of is not None and "poisoned" not in turn.before:
                command = self.script.commands[turn.cpu][turn.seq]
                name = f"frame {turn.of} {'is taken out of use' if command.verb == 'soft' else 'fails'}"
                tracks = [Track(PROCESSORS, turn.cpu), Track(FRAMES, turn.of)]
                tracks += [Track(PAGES, turn.before["owner"])] if "owner" in turn.before else []
                for track in tracks:
                    self.instant(track, name, "failure", turn.number, {"frame": turn.of, "does": command.text})

    def add_signals(self) -> None:
        """An instant for each signal: of a failure where its page leaves the frame, of an access where it is answered."""
        left: dict[tuple[int, int, int], Iterator[Turn]] = {}
        for page, history in enumerate(self.report.pages):
            for entry in history:
                cpu, seq = entry.line.who
                if entry.verb == "fail":
                    key = (cpu, seq, page)
                    leaving = left.setdefault(key, iter(self.leaving(*key)))
                    turn = next(leaving, None)
                    if turn is None:
                        raise Malformed(f"report line {entry.line.number}: the trace has no such failure")
                    for signal in entry.signals:
                        text = f"SIGBUS to thread {signal.of('thread')}, {CODES[signal.words[3]]}"
                        self.signal(turn, page, text, {"process": signal.of("proc"), "trans": signal.of("trans")})
                elif entry.verb in ("load", "store") and entry.line.get("thread") is not None:
                    turns = self.of_command.get((cpu, seq))
                    if not turns:
                        raise Malformed(f"report line {entry.line.number}: the trace has no such command")
                    text = f"SIGBUS to thread {entry.line.of('thread')}, {CODES['ar']}"
                    self.signal(turns[-1], page, text, {"trans": entry.line.of("trans")})

    def leaving(self, cpu: int, seq: int, page: int) -> list[Turn]:
        """The turns of a command by which a page leaves its frame."""
        turns = self.of_command.get((cpu, seq), [])
        return [turn for turn in turns if turn.kind == "set_cache" and turn.of == page and "none" in turn.after]

    def signal(self, turn: Turn, page: int, text: str, args: Json) -> None:
        """Adds the instant of a signal."""
        for track in (Track(PROCESSORS, turn.cpu), Track(PAGES, page)):
            self.instant(track, text, "signal", turn.number, args)

    def names(self) -> Iterator[Json]:
        """What tells the names of the groups and of the tracks, and their order."""
        for group, name in GROUPS.items():
            yield self.name("process_name", group, 0, {"name": name})
            yield self.name("process_sort_index", group, 0, {"sort_index": group})
        for track in sorted(self.tracks):
            one = {PROCESSORS: "processor", PAGES: "page", FRAMES: "frame"}[track.group]
            own = self.behind(track.number) if track.group == PAGES else ""
            yield self.name("thread_name", track.group, track.number, {"name": f"{one} {track.number}{own}"})
            yield self.name("thread_sort_index", track.group, track.number, {"sort_index": track.number})

    def behind(self, number: int) -> str:
        """What stands behind a page, and whether it is locked."""
        page = self.script.pages[number]
        return f" ({'anonymous' if page.file is None else f'file {page.file}'}{', locked' if page.locked else ''})"

    @staticmethod
    def name(name: str, group: int, number: int, args: Json) -> Json:
        """An event that names a track or a group."""
        return {"name": name, "ph": "M", "pid": group, "tid": number, "args": args}


def chrome(script: Script, turns: Sequence[Turn], report: Report, name: str) -> Json:
    """The Chrome trace of a run."""
    picture = Picture(script, turns, report)
    picture.add_commands()
    picture.add_steps()
    picture.add_locks()
    picture.add_failures()
    picture.add_signals()
    events = sorted(picture.events, key=lambda event: (event["ts"], -int(str(event.get("dur", 0)))))
    return {
        "traceEvents": [*picture.names(), *events],
        "displayTimeUnit": "ns",
        "otherData": {"script": name, "unit": "a turn takes a microsecond"},
    }
