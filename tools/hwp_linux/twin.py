"""Linux's side of a run: the orders that make each command there, and what the guest's lines say of it."""
from __future__ import annotations

import errno
import re
from dataclasses import dataclass, field
from typing import Optional, Protocol, Sequence

from hwp_view.script import Command, Script

from .plan import Event, NoForm, Signal, Step, World

PRIVATE, SHARED, OF_FILE = 0, 1, 2
KERNEL_CODE, PAGE_BITS = 128, 12
CODES = {4: "ar", 5: "ao", KERNEL_CODE: "kernel"}
ACTED = ("recovered", "delayed", "ignored", "already", "outside")
# An address at which QEMU has no memory, for frames that hwp's machine doesn't have.
OUTSIDE = 1 << 36
# Banks of QEMU's processor. The last one has an event that isn't enabled where nothing else would be a machine check.
FIRST_BANK, SPARE_BANK = 3, 8
NOT_ENABLED = 0xA000000000000000
UNCORRECTED = 1 << 61
NOTHING_TO_READ = 512
REFUSED = {
    "notmapped": "the translation isn't in use",
    "notresident": "the page is in no frame",
    "dirty": "the page is dirty",
    "mapped": "the page is in use",
    "locked": "the page is locked",
    "noframe": "no frame is free",
}
NO_FORM = {
    "badlines": "emulated memory has no bad lines that a write-back would meet",
    "hasbad": "emulated memory has no bad lines",
}


class Guest(Protocol):
    """What takes orders: a machine, or a recording of one."""

    def order(self, words: str) -> list[str]:
        """Gives an order, and answers the lines of the guest."""

    def check(self, words: str, events: Sequence[tuple[int, int, int, int]], ripv: int, eipv: int, failures: int) -> list[str]:
        """Raises a machine check while a thread reads, or while none runs."""

    def nested(self) -> list[str]:
        """Raises a machine check inside a machine check."""


@dataclass
class Seen:
    """What Linux made of a command: its answer in hwp's words, the signals, the processes that ended, and the change of the count.
    No answer means that the command wasn't made, `why` not."""

    word: Optional[str] = None
    why: str = ""
    outcomes: list[str] = field(default_factory=list)
    signals: list[Signal] = field(default_factory=list)
    ended: set[int] = field(default_factory=set)
    count: int = 0
    log: list[str] = field(default_factory=list)


class Twin:
    """The machine of a script, on Linux."""

    def __init__(self, guest: Guest, script: Script) -> None:
        self.guest, self.script = guest, script
        self.frames: dict[int, int] = {}
        self.count = 0
        self.lines: list[str] = []
        self.kinds = [self.kind(number) for number in range(len(script.pages))]

    def kind(self, page: int) -> int:
        """What a page is on Linux. A page of which a translation is given back, or that has several, has to be shared memory: private
        memory would be gone."""
        if self.script.pages[page].file is not None:
            return OF_FILE
        leading = self.leading(page)
        freed = {c.numbers[0] for row in self.script.commands for c in row if c.verb == "free"}
        return SHARED if len(leading) != 1 or freed & set(leading) else PRIVATE

    def leading(self, page: int) -> list[int]:
        """The translations that lead to a page."""
        return [number for number, translation in enumerate(self.script.translations) if translation.page == page]

    def order(self, words: str) -> str:
        """Gives an order, keeps the lines of it, and answers the last one."""
        lines = self.guest.order(words)
        self.lines += lines
        return lines[-1].removeprefix("= ")

    def set_up(self) -> None:
        """Makes all that the script declares."""
        script = self.script
        for number in range(script.files):
            self.order(f"file {number}")
        for number, page in enumerate(script.pages):
            self.order(f"page {number} {self.kinds[number]} {page.file or 0} {page.fill}{' 1' if page.locked else ''}")
        self.order(f"settle {script.cpus}")
        for number, thread in enumerate(script.threads):
            self.order(f"thread {number} {thread.process} {int(thread.handler)}")
        for number, translation in enumerate(script.translations):
            self.order(f"trans {number} {translation.process} {translation.page}")
        if script.early is not None:
            self.order(f"early {script.early}")
        if script.recovery is not None:
            self.order(f"recovery {script.recovery}")

    def frame(self, number: int, world: World) -> int:
        """The Linux frame of a frame of hwp's: that of the page in it; else one that is free there, or reserved for the kernel's."""
        page = world.page_in(number)
        if page is not None and number not in world.poisoned:
            found = int(self.order(f"frame {page}").split()[1])
            if found:
                self.frames[number] = found
                return found
        elif number not in world.poisoned and number not in self.script.kernel:
            self.frames.pop(number, None)
        if number not in self.frames:
            kind = "reserved" if number in self.script.kernel else "unused"
            self.frames[number] = int(self.order(kind).split()[1])
        return self.frames[number]

    def make(self, step: Step, world: World) -> Seen:
        """Makes a command on Linux, and answers what it came to."""
        self.lines = []
        seen = Seen()
        seen.word = getattr(self, f"make_{step.command.verb}")(step, world, seen)
        self.note(seen)
        return seen

    def note(self, seen: Seen) -> None:
        """What the lines of the guest say beside the answer."""
        for line in self.lines:
            first, *rest = line.split(" ")
            if first == "signal":
                thread, code, translation, bits = (int(word) for word in rest)
                size = "" if code == KERNEL_CODE or bits == PAGE_BITS else f" with {bits} bits"
                signal = Signal(thread, CODES.get(code, f"code {code}") + size, translation)
                seen.signals.append(signal._replace(translation=-1) if code == KERNEL_CODE else signal)
            elif first == "ended":
                seen.ended.add(int(rest[0]))
            elif first == "log":
                seen.log.append(line[4:])
            elif first == "count":
                seen.count, self.count = seen.count + int(rest[0]) - self.count, int(rest[0])

    def logged(self) -> list[str]:
        """What the kernel's log says since the command began."""
        return [line[4:] for line in self.lines if line.startswith("log ")]

    def access(self, step: Step, world: World, seen: Seen) -> Optional[str]:
        """A load or a store: in a machine check, the thread reads the page in a loop while that comes."""
        command, answer = step.command, step.answer.words[1]
        if answer in REFUSED:
            seen.why = REFUSED[answer]
            return None
        if step.has("mce"):
            came = self.checked_access(step, world, seen)
            if command.verb == "load" or command.verb == "fetch" or not came.startswith("did"):
                return self.accessed(command, came)
        return self.accessed(command, self.order(" ".join([_verb(command), *map(str, command.numbers)])))

    make_load = make_store = make_fetch = make_kload = access

    def checked_access(self, step: Step, world: World, seen: Seen) -> str:
        """An access that meets a bad line."""
        command = step.command
        thread, translation, line = command.numbers[:3]
        if command.verb == "kload":
            raise NoForm("emulated memory has no bad line that the kernel would meet as it copies")
        if sum(entry.verb == "mce" for _, _, entry in step.entries) > 1:
            raise NoForm("the command meets two bad lines")
        page = self.script.translations[translation].page
        if translation not in world.pages[page].used:
            is_new = command.verb == "store" and self.kinds[page] != OF_FILE and not world.pages[page].was_out
            self.order(f"store {thread} {translation} {line} 0" if is_new else f"load {thread} {translation} {line}")
        own = next(event.address // 4096 for event in step.events if event.row in (9, 10) or event.bank in (0, 1))
        self.frames[own] = int(self.order(f"frame {page}").split()[1])
        return self.check(f"spin {thread} {translation} {line}", step.events, world, seen, {own: self.frames[own]})

    def accessed(self, command: Command, came: str) -> str:
        """The answer of an access in hwp's words."""
        if came.startswith("did"):
            return "stored" if command.verb == "store" else f"value {came.split()[1]}"
        return "efault" if came == f"error {errno.EFAULT}" else came

    def check(
        self, words: str, events: Sequence[Event], world: World, seen: Seen, known: dict[int, int], bits: tuple[int, int] = (1, 1)
    ) -> str:
        """Raises a machine check with what hwp's banks held, and notes what Linux did about each event. Frames that are known are not
        asked for."""
        rows, frames = [], []
        for event in events:
            number = event.address // 4096
            outside = number >= self.script.frames
            frame = OUTSIDE // 4096 + number if outside else known[number] if number in known else self.frame(number, world)
            frames.append(frame)
            rows.append((FIRST_BANK + event.bank, event.status, frame * 4096 + event.address % 4096, event.misc))
        if not any(event.status & UNCORRECTED for event in events):
            rows.append((SPARE_BANK, NOT_ENABLED, 0, 0))
        begun = len(self.lines)
        self.lines += self.guest.check(words, rows, *bits, sum(event.outcome in ACTED for event in events))
        told = [line for line in self.lines[begun:] if line.startswith("log ")]
        seen.outcomes += outcomes(told, frames)
        return self.lines[-1].removeprefix("= ")

    def make_free(self, step: Step, world: World, seen: Seen) -> Optional[str]:
        """free: the process gives the memory back. A poison entry goes away with that, so it is made where hwp has one too."""
        translation = step.command.numbers[0]
        page = self.script.translations[translation].page
        if step.word == "notmapped" and translation not in world.pages[page].barred:
            seen.why = REFUSED["notmapped"]
            return None
        return _done(self.order(f"discard {translation}"))

    def make_drop(self, step: Step, world: World, seen: Seen) -> Optional[str]:
        """drop: the page cache lets the page go."""
        if step.word in REFUSED:
            seen.why = REFUSED[step.word]
            return None
        page = step.command.numbers[0]
        if self.kinds[page] != OF_FILE:
            raise NoForm("Linux drops no anonymous page that isn't in use")
        return _done(self.order(f"drop {page}"))

    def make_sync(self, step: Step, world: World, seen: Seen) -> Optional[str]:
        """sync: the page is written back."""
        return None if self.is_refused(step, seen) else _done(self.order(f"sync {step.command.numbers[0]}"))

    def is_refused(self, step: Step, seen: Seen) -> bool:
        """Whether hwp refuses what Linux has no refusal of."""
        if step.word in NO_FORM:
            raise NoForm(NO_FORM[step.word])
        seen.why = REFUSED.get(step.word, "")
        return bool(seen.why)

    def make_out(self, step: Step, world: World, seen: Seen) -> Optional[str]:
        """out: a process has the page swapped out, and no other process has it mapped."""
        if self.is_refused(step, seen):
            return None
        number = step.command.numbers[0]
        living = [v for v in self.leading(number) if self.script.translations[v].process not in world.ended]
        used = [v for v in living if v in world.pages[number].used]
        if not living:
            raise NoForm("no process has the page")
        by = used[0] if used else living[0]
        for other in living:
            if other != by:
                self.order(f"discard {other}")
        if not used:
            process = self.script.translations[by].process
            self.order(f"load {self.first_thread(process)} {by} 0")
        return _done(self.order(f"pageout {by}"))

    def first_thread(self, process: int) -> int:
        """The first thread of a process."""
        return next(number for number, thread in enumerate(self.script.threads) if thread.process == process)

    def make_fsync(self, step: Step, world: World, seen: Seen) -> Optional[str]:
        """fsync: the descriptor of the command's processor tells its error, and writes nothing back."""
        came = self.order(f"fsync {step.command.numbers[0]} {step.command.cpu}")
        return "eio" if came == f"error {errno.EIO}" else _done(came)

    def make_open(self, step: Step, world: World, seen: Seen) -> Optional[str]:
        """open: the descriptor of the command's processor is given back, and the file opened anew."""
        came = self.order(f"open {step.command.numbers[0]} {step.command.cpu}")
        return "opened" if came.startswith("did") else came

    def make_prctl(self, step: Step, world: World, seen: Seen) -> Optional[str]:
        """prctl: the call, as it stands."""
        numbers = step.command.numbers
        came = self.order(" ".join(["prctl", *map(str, numbers)]))
        if came == f"error {errno.EINVAL}":
            return "einval"
        is_asking = numbers[1] & 0xFFFFFFFF == 34
        return f"is {came.split()[1]}" if came.startswith("did") and is_asking else _done(came)

    def make_bad(self, step: Step, world: World, seen: Seen) -> Optional[str]:
        """bad, weak and log: nothing happens yet."""
        seen.why = "what it leaves comes with the machine check"
        return None

    make_weak = make_log = make_bad

    def make_watch(self, step: Step, world: World, seen: Seen) -> Optional[str]:
        """watch: the guest has no order for it."""
        raise NoForm("Linux collects corrected errors by rules of its own")

    def make_fork(self, step: Step, world: World, seen: Seen) -> Optional[str]:
        """fork: the guest has no order for it, since it makes all processes of a script at the beginning."""
        raise NoForm("the processes of a script are there from the beginning, and none is a child of another")

    def make_scrub(self, step: Step, world: World, seen: Seen) -> Optional[str]:
        """scrub: a machine check for each bad line that it meets, while no thread runs."""
        group: list[Event] = []
        for event in step.events:
            if event.bank == 2 and event.status & UNCORRECTED == 0:
                seen.outcomes.append("nothing")
                continue
            group.append(event)
            if event.bank == 2:
                self.check("idle", group, world, seen, {})
                group = []
        if not step.events:
            seen.why = "the scrubber meets no line"
        return "checked" if step.events else None

    def make_raise(self, step: Step, world: World, seen: Seen) -> Optional[str]:
        """raise: a machine check while a thread runs, or while none does."""
        words, numbers = step.command.words, step.command.numbers
        if words[1] == "nested":
            self.lines += self.guest.nested()
            return "checked"
        if words[1] == "user":
            came = self.check(f"spin {numbers[0]} {NOTHING_TO_READ} 0", step.events, world, seen, {}, (numbers[1], numbers[2]))
            return came if came == "gone" and step.word == "gone" else "checked"
        self.check("idle", step.events, world, seen, {}, (numbers[0], numbers[1]))
        return "checked"

    def make_inject(self, step: Step, world: World, seen: Seen) -> Optional[str]:
        """inject: the failure of hwpoison-inject."""
        frame = self.frame(step.command.numbers[0], world)
        came = self.order(f"inject {frame}")
        return outcomes([line for line in self.lines if line.startswith("log ")], [frame])[0] if came != "stuck" else came

    def make_soft(self, step: Step, world: World, seen: Seen) -> Optional[str]:
        """soft: the soft offline of sysfs."""
        if self.is_refused(step, seen):
            return None
        number = step.command.numbers[0]
        page = world.page_in(number) if number not in world.poisoned else None
        frame = self.frame(number, world)
        came = self.order(f"soft {frame}")
        if any("already poisoned" in line for line in self.logged()):
            return "already"
        if not came.startswith("did"):
            return "kernel" if came == f"error {errno.EIO}" else came
        if page is None:
            return "takenfree"
        after = int(self.order(f"frame {page}").split()[1])
        return "stays" if after == frame else "moved" if after else "invalidated"

    def make_unpoison(self, step: Step, world: World, seen: Seen) -> Optional[str]:
        """unpoison: the one of hwpoison-inject."""
        if self.is_refused(step, seen):
            return None
        came = self.order(f"unpoison {self.frame(step.command.numbers[0], world)}")
        if came == f"error {errno.EOPNOTSUPP}":
            return "hardwareseen"
        if came == f"error {errno.EBUSY}":
            return "notpoisoned" if any("already unpoisoned" in line for line in self.logged()) else "inuse"
        return _done(came)


def _verb(command: Command) -> str:
    return "load" if command.verb == "fetch" else command.verb


def _done(came: str) -> str:
    return "done" if came.startswith("did") else came


def outcomes(log: Sequence[str], frames: Sequence[int]) -> list[str]:
    """What the log says that was done about each of these frames, in hwp's words; the second of two equal ones has the second line."""
    left: dict[int, list[str]] = {}
    for line in log:
        found = re.search(r"Memory failure: 0x([0-9a-f]+): (?:recovery action for .*: (\w+)|.*(already|outside))", line)
        if found:
            left.setdefault(int(found[1], 16), []).append((found[2] or found[3]).lower())
    return [left[frame].pop(0) if left.get(frame) else "nothing" for frame in frames]
