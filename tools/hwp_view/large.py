"""A large run for tests of the picture: four processors with 1,000 commands each, and the report of one that went turn by turn.

The machine is a sketch. It knows what the picture has to draw: pages that come, go, fail and move, poison entries, signals,
refusals. It is no judge of what a run may be.
"""
from __future__ import annotations

import random
import sys
from pathlib import Path
from typing import Optional

CPUS, FRAMES, PAGES, PER_CPU = 4, 256, 40, 1000


class Sketch:
    """The state of the machine, and the lines of its report."""

    def __init__(self, seed: int) -> None:
        self.random = random.Random(seed)
        self.slots = [((v + v // PAGES) % CPUS, v % PAGES) for v in range(2 * PAGES)]
        self.frame: list[Optional[int]] = [None] * PAGES
        self.maps: list[set[int]] = [set() for _ in range(PAGES)]
        self.lost: set[int] = set()
        self.entries: list[list[str]] = [[] for _ in range(PAGES)]
        self.counts = [0] * PAGES
        self.marks: list[list[str]] = [[] for _ in range(FRAMES)]
        self.free = list(range(FRAMES - 1, 0, -1))
        self.commands: list[list[str]] = [[] for _ in range(CPUS)]
        self.answers: list[list[str]] = [[] for _ in range(CPUS)]

    def note(self, page: int, *lines: str) -> str:
        """An entry, and where it stands."""
        self.entries[page] += lines
        self.counts[page] += 1
        return f"{page} {self.counts[page] - 1}"

    def access(self, cpu: int, who: str, verb: str) -> tuple[str, str]:
        """A load or a store."""
        slot = self.random.choice([v for v, (process, _) in enumerate(self.slots) if process == cpu])
        page, line = self.slots[slot][1], self.random.randrange(64)
        command = f"{verb} {cpu} {slot} {line}" + (" 7" if verb == "store" else "")
        if page in self.lost:
            return command, f"sigbus {self.note(page, f'{verb} {who} {slot} {line} sigbus {cpu}')}"
        if self.frame[page] is None:
            self.frame[page] = self.free.pop()
            self.note(page, f"in {who}")
        if slot not in self.maps[page]:
            self.maps[page].add(slot)
            self.note(page, f"map {who} {slot}")
        at = self.note(page, f"{verb} {who} {slot} {line} 0 7")
        return command, f"stored {at}" if verb == "store" else f"value 7 {at}"

    def out(self, who: str) -> tuple[str, str]:
        """A swap-out of an even page."""
        page = 2 * self.random.randrange(PAGES // 2)
        if self.frame[page] is None:
            return f"out {page}", f"notresident {page} {self.counts[page]}"
        self.leave(page)
        return f"out {page}", f"done {self.note(page, f'out {who}')}"

    def leave(self, page: int, is_free: bool = True) -> int:
        """A page leaves its frame."""
        frame = self.frame[page]
        assert frame is not None
        self.frame[page] = None
        self.maps[page].clear()
        if is_free:
            self.free.append(frame)
        return frame

    def inject(self, cpu: int, who: str) -> tuple[str, str]:
        """A failure of a frame that a page is in, now and then; else of one that was poisoned."""
        page = self.random.randrange(1, PAGES, 8)
        frame = self.frame[page]
        poisoned = [number for number, marks in enumerate(self.marks) if marks]
        if frame is None or page in self.lost or self.random.randrange(3):
            return (f"inject {poisoned[-1]}", "already") if poisoned else ("fsync 0", "done")
        slot = min(self.maps[page], default=0)
        process = self.slots[slot][0]
        self.leave(page, is_free=False)
        self.lost.add(page)
        self.marks[frame].append(f"poisoned 0 {who} sw filedirty recovered")
        lines = (f"fail {who} filedirty opt - 1 1", f"seen {process} early 0", f"signal {process} {process} ao {slot}")
        self.note(page, *lines)
        return f"inject {frame}", "recovered"

    def turn(self, cpu: int) -> None:
        """A command."""
        who = f"{cpu} {len(self.commands[cpu])}"
        kind = self.random.randrange(100)
        if kind < 50:
            command, answer = self.access(cpu, who, "load")
        elif kind < 80:
            command, answer = self.access(cpu, who, "store")
        elif kind < 92:
            command, answer = self.out(who)
        else:
            command, answer = self.inject(cpu, who) if kind < 97 else (f"prctl {cpu} 33 9 0 0 0", "einval")
        self.answers[cpu].append(f"{len(self.commands[cpu])} {answer}")
        self.commands[cpu].append(command)

    def script(self) -> str:
        """The script."""
        lines = ["hwp 1", f"cpus {CPUS}", f"frames {FRAMES}", "kernel 0", "file 0"]
        lines += [f"proc {n}" for n in range(CPUS)] + [f"thread {n} {n} {n} handler" for n in range(CPUS)]
        lines += [f"page {q} anon" if q % 2 == 0 else f"page {q} file 0 fill {q}" for q in range(PAGES)]
        lines += [f"trans {v} {process} {page}" for v, (process, page) in enumerate(self.slots)]
        for cpu, commands in enumerate(self.commands):
            lines += [f"cpu {cpu}", *commands]
        turns = [str(self.random.randrange(CPUS)) for _ in range(20_000)]
        lines += ["schedule " + " ".join(turns[at : at + 50]) for at in range(0, len(turns), 50)]
        return "\n".join(lines + ["end", ""])

    def report(self) -> str:
        """The report."""
        lines = [
            "hwp-report 1",
            "stop none",
            f"count {sum(1 for marks in self.marks if marks)}",
            f"file 0 lost {len(self.lost)}",
        ]
        pages = {frame: page for page, frame in enumerate(self.frame)}
        for number, marks in enumerate(self.marks):
            state = (
                "kernel"
                if number == 0
                else "handled"
                if marks
                else f"page {pages[number]}"
                if number in pages
                else "free"
            )
            lines += [f"frame {number} {state} bad 0 weak 0", *marks]
        for page, entries in enumerate(self.entries):
            lines += [f"page {page} {self.counts[page]}", *entries]
        for cpu, answers in enumerate(self.answers):
            lines += [f"cpu {cpu} {len(answers)}", *answers]
        return "\n".join(lines + ["end", ""])


def write(folder: Path, per_cpu: int = PER_CPU) -> tuple[Path, Path]:
    """Writes a large script and its report, and answers where."""
    sketch = Sketch(5)
    for _ in range(per_cpu):
        for cpu in range(CPUS):
            sketch.turn(cpu)
    script, report = folder / f"large-{per_cpu}.hwp", folder / f"large-{per_cpu}.report"
    script.write_text(sketch.script())
    report.write_text(sketch.report())
    return script, report


if __name__ == "__main__":
    write(Path(sys.argv[1]))
