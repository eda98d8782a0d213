"""The order of a run, as far as its report tells it.

A report has the order of each page's history, of each processor's commands and of each frame's marks. From these, and from what
answers and policies say of other lines, each thing gets a row: what comes before another thing stands in a row above it. Of
things in one row the report doesn't tell which came first.
"""
from __future__ import annotations

from collections import defaultdict, deque
from typing import Optional

from .run import Place, Run, sight_of, word_of

UNCORRECTED = 61


class _Graph:
    """Things that come before others, each by so many rows."""

    def __init__(self) -> None:
        self.after: list[list[tuple[int, int]]] = []
        self.waits: list[int] = []

    def node(self) -> int:
        """A new thing."""
        self.after.append([])
        self.waits.append(0)
        return len(self.after) - 1

    def put(self, first: int, second: int, rows: int = 1) -> None:
        """The second thing comes at least so many rows below the first."""
        if first != second:
            self.after[first].append((second, rows))
            self.waits[second] += 1

    def rows(self) -> tuple[list[int], bool]:
        """The row of each thing, from 1, and whether the order has no circle. A circle is cut at its lowest number."""
        row, waits = [1] * len(self.after), list(self.waits)
        is_placed = [False] * len(self.after)
        ready = deque(node for node, count in enumerate(waits) if count == 0)
        next_cut, is_free = 0, True
        while next_cut < len(self.after):
            if not ready:
                if not is_placed[next_cut]:
                    ready.append(next_cut)
                    is_free = False
                next_cut += 1
                continue
            node = ready.popleft()
            if is_placed[node]:
                continue
            is_placed[node] = True
            for other, rows in self.after[node]:
                waits[other] -= 1
                if not is_placed[other]:
                    row[other] = max(row[other], row[node] + rows)
                    if waits[other] == 0:
                        ready.append(other)
        return row, is_free


class Order:
    """The rows of a run's entries and commands, and the order in which one goes through all of it."""

    def __init__(self, run: Run) -> None:
        self.run = run
        self.graph = _Graph()
        self.entries = [[self.graph.node() for _ in history] for history in run.report.pages]
        self.moments: list[list[Optional[int]]] = [[None] * len(row) for row in run.works]
        self.ends = [[self.graph.node() for _ in row] for row in run.works]
        self._order_pages()
        self._order_marks()
        self._order_policies()
        self._order_poison()
        self._order_bad_lines()
        self._order_stop()
        self._order_processors()
        self.row, self.is_free = self.graph.rows()
        self.spans = [[self._span(cpu, seq) for seq in range(len(row))] for cpu, row in enumerate(run.works)]
        self.height = max(self.row, default=0)

    def entry_row(self, place: Place) -> int:
        """The row of an entry."""
        return self.row[self.entries[place[0]][place[1]]]

    def sight_row(self, cpu: int, seq: int) -> int:
        """The row in which a refusal saw its page."""
        moment = self.moments[cpu][seq]
        assert moment is not None
        return self.row[moment]

    def _moment(self, cpu: int, seq: int) -> int:
        """A command's moment beside its entries."""
        moment = self.moments[cpu][seq]
        if moment is None:
            moment = self.moments[cpu][seq] = self.graph.node()
        return moment

    def _order_pages(self) -> None:
        for nodes in self.entries:
            for first, second in zip(nodes, nodes[1:]):
                self.graph.put(first, second)
        for cpu, row in enumerate(self.run.works):
            for seq, work in enumerate(row):
                for answer in work.answers:
                    sight = sight_of(answer)
                    if sight is not None:
                        self._see(self._moment(cpu, seq), self.entries[sight.page], sight.after)
                    ending = self.run.ending_for(answer, work.command)
                    if ending is not None:
                        self.graph.put(self.entries[ending[0]][ending[1]], self._moment(cpu, seq))

    def _see(self, moment: int, nodes: list[int], after: int) -> None:
        """A moment stands behind so many entries of a page, and before the next one."""
        if 0 < after <= len(nodes):
            self.graph.put(nodes[after - 1], moment)
        if after < len(nodes):
            self.graph.put(moment, nodes[after])

    def _mark_node(self, place: Place, cpu: int, seq: int) -> int:
        """Where a mark stands: with its entry, or else at a moment of its command."""
        entry = self.run.entry_of_mark.get(place)
        return self._moment(cpu, seq) if entry is None else self.entries[entry[0]][entry[1]]

    def _order_marks(self) -> None:
        for number, frame in enumerate(self.run.report.frames):
            nodes = [self._mark_node((number, index), *mark.who) for index, mark in enumerate(frame.marks)]
            for first, second in zip(nodes, nodes[1:]):
                self.graph.put(first, second)

    def _order_policies(self) -> None:
        """A policy was seen after the thread's setting of that number, and before the next one."""
        settings = self.run.settings()
        for page, history in enumerate(self.run.report.pages):
            for index, entry in enumerate(history):
                for seen in entry.seen:
                    of_thread, count = settings[seen.of("thread")], seen.of("count")
                    node = self.entries[page][index]
                    if 0 < count <= len(of_thread):
                        self.graph.put(self._moment(of_thread[count - 1].cpu, of_thread[count - 1].seq), node)
                    if count < len(of_thread):
                        self.graph.put(node, self._moment(of_thread[count].cpu, of_thread[count].seq))

    def _order_poison(self) -> None:
        """`already` comes after the frame's poisoning, `hardwareseen` after the hardware's, where there was just one."""
        by_frame: dict[int, list[int]] = defaultdict(list)
        by_hardware: list[int] = []
        for number, frame in enumerate(self.run.report.frames):
            for index, mark in enumerate(frame.marks):
                if mark.words[0] == "poisoned":
                    by_frame[number].append(self._mark_node((number, index), *mark.who))
                    if mark.words[4] == "hw":
                        by_hardware.append(by_frame[number][-1])
        for row in self.run.works:
            for work in row:
                word = word_of(work.answer) if work.answer is not None else ""
                frame_named = work.command.named("frame")
                if word in ("already", "hardwareseen") and frame_named is not None:
                    nodes = by_frame[frame_named] if word == "already" else by_hardware
                    if len(nodes) == 1:
                        self.graph.put(nodes[0], self._moment(work.command.cpu, work.command.seq))

    def _order_bad_lines(self) -> None:
        """A line was met as a bad or a weak one after the command that made it so, where there was just one."""
        spoilers: dict[tuple[str, int, int], list[int]] = defaultdict(list)
        for cpu, row in enumerate(self.run.works):
            for seq, work in enumerate(row):
                if work.command.verb in ("bad", "weak") and work.answer is not None and word_of(work.answer) == "done":
                    frame, line = work.command.numbers
                    spoilers[(work.command.verb, frame, line)].append(self._moment(cpu, seq))
        for cpu, row in enumerate(self.run.works):
            for seq, work in enumerate(row):
                places = work.entries
                met = [self.entries[q][i] for q, i in places if self.run.report.pages[q][i].verb == "mce"]
                if work.command.verb != "scrub" and not (len(met) == 1 and len(work.events) == 1):
                    continue
                for event in work.events:
                    address, verb = event.of("address"), "bad" if event.of("status") >> UNCORRECTED & 1 else "weak"
                    before = spoilers.get((verb, address // 4096, address // 64 % 64), [])
                    if len(before) == 1:
                        self.graph.put(before[0], met[0] if met else self._moment(cpu, seq))

    def _order_stop(self) -> None:
        """What answers that the machine has stopped comes after what stopped it."""
        stop = self.run.report.stop
        if stop.words[1] == "none":
            return
        cpu, seq = stop.who
        for other, row in enumerate(self.run.works):
            for work in row if other != cpu else []:
                if work.answer is not None and word_of(work.answer) == "stopped":
                    self.graph.put(self.ends[cpu][seq], self._moment(other, work.command.seq))
                    break

    def _order_processors(self) -> None:
        """A command's entries, and its moment if it has one by now, come after those of the command before it."""
        for cpu, row in enumerate(self.run.works):
            for seq, work in enumerate(row):
                has_own_mark = any(place not in self.run.entry_of_mark for place in work.marks)
                if not work.entries or has_own_mark:
                    self._moment(cpu, seq)
                nodes = [self.entries[page][index] for page, index in work.entries]
                moment = self.moments[cpu][seq]
                for node in nodes if moment is None else nodes + [moment]:
                    self.graph.put(node, self.ends[cpu][seq], 0)
                    if seq > 0:
                        self.graph.put(self.ends[cpu][seq - 1], node)

    def _span(self, cpu: int, seq: int) -> tuple[int, int]:
        """The first and the last row of a command."""
        rows = [self.entry_row(place) for place in self.run.works[cpu][seq].entries]
        moment = self.moments[cpu][seq]
        if moment is not None:
            rows.append(self.row[moment])
        return min(rows), max(rows)

    def history(self) -> list[str]:
        """The ids of commands, entries, signals and marks and of the stop, in an order that the rows allow."""
        places: list[tuple[int, int, int, int, int, str]] = []
        for cpu, row in enumerate(self.run.works):
            for seq, work in enumerate(row):
                places.append((self.spans[cpu][seq][0], cpu, seq, 0, 0, f"c{cpu}-{seq}"))
                for number, place in enumerate(work.entries, 1):
                    places.append((self.entry_row(place), cpu, seq, number, 0, f"e{place[0]}-{place[1]}"))
                    signals = self.run.report.pages[place[0]][place[1]].signals
                    for k in range(len(signals)):
                        places.append((self.entry_row(place), cpu, seq, number, k + 1, f"s{place[0]}-{place[1]}-{k}"))
                for number, place in enumerate(work.marks, len(work.entries) + 1):
                    row_of_mark = self.row[self._mark_node(place, cpu, seq)]
                    places.append((row_of_mark, cpu, seq, number, 0, f"m{place[0]}-{place[1]}"))
        stop = self.run.report.stop
        if stop.words[1] != "none":
            places.append((self.spans[stop.of("cpu")][stop.of("seq")][1], *stop.who, 1 << 32, 0, "stop"))
        frames = [f"f{number}" for number in range(len(self.run.report.frames))]
        return [place[-1] for place in sorted(places)] + frames
