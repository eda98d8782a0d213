"""The list of differences between hwp and Linux that are understood (docs/LINUX.md): each has a name, and says which differences
of a command it is the reason of. A rule that isn't named here makes a difference one that nobody understands yet."""
from __future__ import annotations

from dataclasses import dataclass, field
from typing import Callable, NamedTuple, Optional

from hwp_view.script import Script

from .plan import SIGNALLED, Event, Signal, Step, World
from .twin import ACTED, OF_FILE, PRIVATE, SHARED, Seen

OVERFLOW, ADDRESSED = 1 << 62, 1 << 58 | 1 << 59
ACCESSES = ("load", "store", "fetch", "kload")


class Difference(NamedTuple):
    """Where the two sides differ: in what, each side's word, which event or process it is about, and which signal."""

    about: str
    hwp: str
    linux: str
    number: int = 0
    signal: Optional[Signal] = None


@dataclass
class Memory:
    """What earlier differences have left: pages that Linux still has, entries that it freed, frames that stay poisoned there."""

    kept: dict[int, str] = field(default_factory=dict)
    lost: dict[int, str] = field(default_factory=dict)
    freed: set[int] = field(default_factory=set)
    still: dict[int, str] = field(default_factory=dict)
    ended: dict[int, str] = field(default_factory=dict)
    alive: dict[int, str] = field(default_factory=dict)
    policies: dict[int, str] = field(default_factory=dict)
    losses: set[int] = field(default_factory=set)
    opened: set[tuple[int, int]] = field(default_factory=set)
    is_hardware: bool = False
    is_over: bool = False


class Case(NamedTuple):
    """A command in which the sides differ."""

    script: Script
    step: Step
    world: World
    seen: Seen
    kinds: list[int]
    memory: Memory

    @property
    def verb(self) -> str:
        """The command's first word."""
        return self.step.command.verb

    @property
    def page(self) -> Optional[int]:
        """The page that the command names, or the one in the frame that it names."""
        named = self.script.page_of(self.step.command)
        frame = self.frame
        return named if named is not None or frame is None else self.world.page_in(frame)

    @property
    def frame(self) -> Optional[int]:
        """The frame that the command names."""
        return self.step.command.numbers[0] if self.verb in ("inject", "soft", "unpoison") else None

    def failed(self, situation: str) -> list[int]:
        """The pages that fail in this situation by the command."""
        return [page for was, page in self.step.failed.values() if was == situation and page is not None]

    def process(self, thread: int) -> int:
        """The process of a thread."""
        return self.script.threads[thread].process

    def leads(self, signal: Optional[Signal], pages: list[int]) -> bool:
        """Whether a signal names a translation to one of the pages."""
        translations = self.script.translations
        return signal is not None and 0 <= signal.translation < len(translations) and translations[signal.translation].page in pages

    def event(self, difference: Difference) -> Optional[Event]:
        """The event that a difference is about; for others the only one of the command."""
        events = self.step.events
        return events[difference.number] if difference.about == "event" else events[0] if len(events) == 1 else None


def never_stored(case: Case, one: Difference) -> bool:
    """A page of anonymous memory that was only read has nothing to lose on Linux: private memory is the one zero page of all then,
    which belongs to the kernel, and shared memory is a clean page."""
    page, memory = case.page, case.memory
    lost = [page for page in case.failed("anononly") + case.failed("lockedanon") if not case.world.pages[page].is_stored]
    if lost:
        memory.still.update((frame, "never stored") for frame, (_, page) in case.step.failed.items() if page in lost)
        is_kernel = one.signal is not None and one.signal.code == "kernel"
        is_second = "already" in (case.seen.word, *case.seen.outcomes)
        words = ("ignored", "already", "value 0", "sigbus", "stored", "gone")
        is_more = (one.about == "count" and is_second) or (one.about == "extra" and is_kernel)
        return is_more or one.about in ("missing", "end") or one.linux in words
    if case.verb == "soft" and page is not None and case.kinds[page] == PRIVATE and not case.world.pages[page].is_stored:
        return (one.hwp, one.linux) in (("moved", "kernel"), ("moved", "already"), ("+1", "+0"))
    return False


def swap_dirty_early(case: Case, one: Difference) -> bool:
    """Linux signals early processes of a dirty page in the swap cache."""
    return is_early_extra(case, one, case.failed("swapdirty"))


def is_early_extra(case: Case, one: Difference, pages: list[int]) -> bool:
    """Whether Linux sends one early signal more for one of these pages, or a process ends by it."""
    if one.about == "extra" and one.signal is not None and one.signal.code == "ao":
        return case.leads(one.signal, pages)
    if one.about == "end" and one.linux == "ends":
        leading = {t.process for t in case.script.translations if t.page in pages}
        return one.number in leading and any(is_early(case, n) for n, t in enumerate(case.script.threads) if t.process == one.number)
    return False


def is_early(case: Case, thread: int) -> bool:
    """Whether a thread may be early: one of its settings says so, or the system's default."""
    settings = (c.numbers for row in case.script.commands for c in row if c.verb == "prctl" and c.numbers[0] == thread)
    return bool(case.script.early) or any(numbers[1:4] == (33, 1, 1) for numbers in settings)


def swapped_in_by_store(case: Case, one: Difference) -> bool:
    """A page that a store swaps in leaves Linux's swap cache: it fails as one that was never there."""
    pages = [page for page in case.failed("swapdirty") if case.world.pages[page].is_in_by_store]
    if not pages:
        return False
    if one.about in ("answer", "event"):
        return (one.hwp, one.linux) == ("delayed", "recovered")
    return is_early_extra(case, one, pages)


def shared_from_swap(case: Case, one: Difference) -> bool:
    """Shared memory that an access swaps in leaves Linux's swap cache: it fails as a page that was never there, and is lost."""
    pages = [page for was in ("swapclean", "swapdirty") for page in case.failed(was) if case.kinds[page] == SHARED]
    if not pages:
        return False
    if one.about in ("answer", "event"):
        return (one.hwp, one.linux) == ("delayed", "recovered")
    if one.about == "extra":
        return case.leads(one.signal, pages)
    return (one.about, one.linux) == ("end", "ends") and one.number in {t.process for t in case.script.translations if t.page in pages}


def untouched_mapping(case: Case, one: Difference) -> bool:
    """Linux signals an early process that has a page mapped which it never touched, and the thread that a required event meets."""
    pages = [page for situation in SIGNALLED for page in case.failed(situation) if case.kinds[page] != PRIVATE]
    used = {translation for page in pages for translation in case.world.pages[page].used}
    touching = {case.script.translations[translation].process for translation in used}
    process = one.number if one.about == "end" else case.process(one.signal.thread) if one.signal is not None else -1
    return process not in touching and (is_early_extra(case, one, pages) or is_met_extra(case, one, pages))


def is_met_extra(case: Case, one: Difference, pages: list[int]) -> bool:
    """Whether Linux signals the thread that a required event meets for one of these pages, or its process ends by that."""
    if case.step.command.words[:2] != ("raise", "user") or not any(event.row == 9 for event in case.step.events):
        return False
    met = case.step.command.numbers[0]
    if one.about == "extra" and one.signal is not None:
        return (one.signal.thread, one.signal.code) == (met, "ar") and case.leads(one.signal, pages)
    return (one.about, one.linux, one.number) == ("end", "ends", case.process(met))


def unpoison_in_cache(case: Case, one: Difference) -> bool:
    """Linux doesn't take a page back that is still in the swap cache, or that is a page of shared memory."""
    memory, frame = case.memory, case.frame
    if frame is None or memory.still.get(frame) != "page in a cache":
        return False
    return (case.verb, one.hwp, one.linux) in (("unpoison", "done", "inuse"), ("unpoison", "-1", "+0"))


def still_poisoned(case: Case, one: Difference) -> Optional[str]:
    """A frame that Linux didn't take back when hwp did: the rule that was the reason then."""
    rule = case.memory.still.get(case.frame) if case.frame is not None else None
    pairs = (("done", "inuse"), ("-1", "+0"), ("recovered", "already"), ("takenfree", "already"), ("+1", "+0"), ("notpoisoned", "inuse"))
    return rule if (one.hwp, one.linux) in pairs else None


def soft_of_kernel_frame(case: Case, one: Difference) -> bool:
    """Linux says of a poisoned frame of the kernel's that it is poisoned already, and hwp that it is the kernel's."""
    return (case.verb, one.about, one.hwp, one.linux) == ("soft", "answer", "kernel", "already")


def hardware_first(case: Case, one: Difference) -> bool:
    """After a failure that the hardware told, Linux refuses to unpoison before it looks at the frame."""
    return (case.verb, one.about, one.linux) == ("unpoison", "answer", "hardwareseen") and one.hwp in ("notpoisoned", "inuse")


def hardware_for_nothing(case: Case, one: Difference) -> bool:
    """Linux takes nothing back after an event for a frame that was poisoned already, or that is outside of memory."""
    if not case.memory.is_hardware or case.verb != "unpoison":
        return False
    return (one.hwp, one.linux) in (("done", "hardwareseen"), ("-1", "+0"))


def first_mapping(case: Case, one: Difference) -> bool:
    """A signal names the first mapping that Linux finds, and hwp's the lowest translation in use."""
    if one.about != "address" or one.signal is None:
        return False
    failed = [page for _, page in case.step.failed.values() if page is not None]
    return case.leads(one.signal, failed)


def kernel_access(case: Case, one: Difference) -> bool:
    """An access of the kernel through a poison entry is answered by EFAULT, and by no signal."""
    if case.verb != "kload":
        return False
    return one.about == "missing" or (one.hwp, one.linux) in (("sigbus", "efault"), ("ends", "goes on"))


def poison_entry_freed(case: Case, one: Difference) -> bool:
    """madvise or munmap takes a poison entry away, and the next touch is a new fault."""
    if (case.verb, one.hwp, one.linux) == ("free", "notmapped", "done"):
        case.memory.freed.add(case.step.command.numbers[0])
        return True
    if case.verb not in ACCESSES or case.step.command.numbers[1] not in case.memory.freed:
        return False
    return one.hwp in ("sigbus", "gone", "ends") or one.about == "missing"


def policy_set_though_refused(case: Case, one: Difference) -> bool:
    """prctl with an unknown policy is refused, and has set the thread to late all the same."""
    rows = case.script.commands
    refused = {c.numbers[0] for row in rows for c in row if c.verb == "prctl" and c.numbers[1:3] == (33, 1) and c.numbers[3] > 2}
    case.memory.policies.update((thread, "policy set though refused") for thread in refused)
    return False


def option_as_int(case: Case, one: Difference) -> bool:
    """Linux reads the option of prctl as an int, so its high bits say nothing."""
    numbers = case.step.command.numbers
    if case.verb == "prctl" and one.hwp == "einval" and numbers[1] >> 32 != 0:
        case.memory.policies[numbers[0]] = "option as an int"
        return True
    return False


def other_option(case: Case, one: Difference) -> bool:
    """Linux's prctl has other options, which have nothing to do with memory failures."""
    is_refused = (case.verb, one.about, one.hwp) == ("prctl", "answer", "einval")
    return is_refused and case.step.command.numbers[1] not in (33, 34)


def thread_killed(case: Case, one: Difference) -> bool:
    """Where a required failure doesn't help, Linux kills the thread by a SIGBUS of the kernel's own code."""
    event = case.event(one)
    is_helpless = any(event.row == 9 and event.outcome in ("outside", "ignored") for event in case.step.events)
    if not is_helpless or event is None:
        return False
    return one.about == "end" or one.about == "extra" and one.signal is not None and one.signal.code == "kernel"


def second_required(case: Case, one: Difference) -> bool:
    """Of two events for which action is required, Linux acts on the first alone."""
    required = [event for event in case.step.events if event.row == 9]
    if len(required) < 2:
        return False
    return one.about in ("missing", "end", "count") or one.about == "event" and one.linux == "nothing" and one.number > 0


def overflow_not_signalled(case: Case, one: Difference) -> bool:
    """S7 with an overflow: Linux leaves the event to the poll, and doesn't stop."""
    return one.about == "stop" and one.hwp == "stopped" and any(e.row == 7 and e.status & OVERFLOW for e in case.step.events)


def overflow_optional(case: Case, one: Difference) -> bool:
    """S13 with an overflow, of a scrub or a write-back with its address: Linux acts on it."""
    codes = (*range(0xC0, 0xD0), 0x17A)
    lost = [event for event in case.step.events if event.row == 13 and event.status & OVERFLOW and event.status & 0xFFFF in codes]
    if not any(event.status & ADDRESSED == ADDRESSED for event in lost):
        return False
    return one.about in ("count", "extra", "end") or (one.about, one.hwp) == ("event", "nothing")


def not_restartable(case: Case, one: Difference) -> bool:
    """Machine checks with RIPV or EIPV 0, which hwp makes by `raise` alone. With EIPV 0 alone Linux leaves a required event alone; with
    RIPV 0 it kills the thread, or panics in kernel mode; with both 0 it panics, whatever the event."""
    words = case.step.command.words
    if case.verb != "raise" or words[-2:] == ("1", "1") or len(words) < 4:
        return False
    if words[-2:] == ("1", "0"):
        is_left = one.about == "event" and one.hwp in ACTED and one.linux == "nothing"
        return is_left or one.about in ("missing", "count") or (one.hwp, one.linux) in (("ends", "goes on"), ("stopped", "goes on"))
    if words[1] == "kernel" or words[-2:] == ("0", "0"):
        return one.about == "stop" and one.hwp == "goes on"
    is_left = one.about == "event" and one.hwp in ACTED and one.linux == "nothing"
    is_killed = one.signal is not None and one.signal.code == "kernel" or (one.about, one.linux) == ("end", "ends")
    return is_left or is_killed or one.about == "count" or (one.hwp, one.linux) == ("stopped", "goes on")


def unusable_address(case: Case, one: Difference) -> bool:
    """Linux looks at the mode and the size in MISC: it does without an address that isn't a physical one of a page."""
    if not any(is_unusable(event) for event in case.step.events):
        return False
    is_left = one.about == "event" and one.hwp in ACTED and one.linux == "nothing"
    is_killed = one.signal is not None and one.signal.code == "kernel"
    return is_left or is_killed or one.about in ("missing", "count", "end")


def is_unusable(event: Event) -> bool:
    """Whether an event that names a page has an address that Linux doesn't use."""
    return event.row in (9, 12) and (event.misc >> 6 & 7 != 2 or event.misc & 63 > 12)


def soft_of_unmapped_page(case: Case, one: Difference) -> bool:
    """Linux drops a clean page of a file, and shared memory that was only read, if nobody has it mapped. hwp moves it."""
    page = case.page
    if page is None or (case.verb, one.hwp, one.linux) != ("soft", "moved", "invalidated"):
        return False
    return case.kinds[page] == OF_FILE or case.kinds[page] == SHARED and not case.world.pages[page].is_stored


def locked_page_told(case: Case, one: Difference) -> bool:
    """Every process that uses a locked page is told of its loss; Linux tells those that asked for it."""
    pages = case.failed("lockedfile") + case.failed("lockedanon")
    if one.about == "missing" and one.signal is not None and one.signal.code == "ao" and case.leads(one.signal, pages):
        return not is_early(case, one.signal.thread)
    leading = {t.process for t in case.script.translations if t.page in pages}
    return (one.about, one.linux) == ("end", "goes on") and one.number in leading


def opened_before_told(case: Case, one: Difference) -> bool:
    """Who opens a file is told of its last loss where nobody was told of that before; hwp tells only of what is lost from then on."""
    handle = (case.step.command.cpu, case.step.command.numbers[0])
    is_told = (case.verb, one.hwp, one.linux) == ("fsync", "done", "eio") and handle in case.memory.opened
    if is_told:
        case.memory.opened.discard(handle)
    return is_told


def other_policy(case: Case, one: Difference) -> Optional[str]:
    """A thread that has another policy on Linux: the rule that was the reason."""
    if case.verb == "prctl":
        return case.memory.policies.get(case.step.command.numbers[0]) if one.hwp.startswith("is ") else None
    return case.memory.policies.get(one.signal.thread) if one.signal is not None and one.signal.code == "ao" else None


def lost_there(case: Case, one: Difference) -> Optional[str]:
    """A page that Linux lost and hwp has still: the rule that was the reason."""
    rule = case.memory.lost.get(case.page) if case.page is not None else None
    return rule if case.verb in ACCESSES and (one.about in ("extra", "end") or one.linux in ("sigbus", "gone", "value 0")) else None


def kept(case: Case, one: Difference) -> Optional[str]:
    """A page that hwp lost and Linux has still: the rule that was the reason."""
    page = case.page
    rule = case.memory.kept.get(page) if page is not None else None
    if rule is None or case.verb not in ACCESSES:
        return None
    return rule if one.about in ("missing", "end") or one.hwp in ("sigbus", "gone") or one.hwp.startswith("value") else None


def ended_there(case: Case, one: Difference) -> Optional[str]:
    """A process that ended on one side alone: the rule that was the reason."""
    numbers, slots = case.step.command.numbers, case.step.command.slots
    if "thread" not in slots:
        return None
    process = case.process(numbers[slots.index("thread")])
    if process in case.memory.ended and (one.linux == "gone" or one.about in ("missing", "end", "count", "event")):
        return case.memory.ended[process]
    return case.memory.alive.get(process) if case.step.word == "gone" else None


RULES: dict[str, Callable[[Case, Difference], bool]] = {
    "never stored": never_stored,
    "swapped in by a store": swapped_in_by_store,
    "shared memory from swap": shared_from_swap,
    "early in the swap cache": swap_dirty_early,
    "untouched mapping": untouched_mapping,
    "page in a cache": unpoison_in_cache,
    "soft offline of the kernel's": soft_of_kernel_frame,
    "hardware first": hardware_first,
    "hardware for nothing": hardware_for_nothing,
    "first mapping": first_mapping,
    "access of the kernel": kernel_access,
    "poison entry freed": poison_entry_freed,
    "policy set though refused": policy_set_though_refused,
    "option as an int": option_as_int,
    "other option": other_option,
    "thread killed": thread_killed,
    "second required": second_required,
    "overflow, not signalled": overflow_not_signalled,
    "overflow, optional": overflow_optional,
    "not restartable": not_restartable,
    "unusable address": unusable_address,
    "soft offline of an unmapped page": soft_of_unmapped_page,
    "locked page, told": locked_page_told,
    "opened before anybody was told": opened_before_told,
}
FOLLOWS: tuple[Callable[[Case, Difference], Optional[str]], ...] = (kept, lost_there, still_poisoned, ended_there, other_policy)


def rule_of(case: Case, one: Difference) -> Optional[str]:
    """The name of the rule that is the reason of a difference, if there is one."""
    for name, is_reason in RULES.items():
        if is_reason(case, one):
            return name
    return next((rule for follows in FOLLOWS if (rule := follows(case, one)) is not None), None)


def note(case: Case) -> None:
    """Notes what a command leaves that later differences come from, whether it differs or not."""
    memory = case.memory
    memory.is_hardware = memory.is_hardware or any(event.outcome in ("already", "outside") for event in case.step.events)
    for number, (situation, page) in case.step.failed.items():
        if page is not None and (situation == "swapdirty" or case.kinds[page] == SHARED):
            memory.still.setdefault(number, "page in a cache")
        if page is not None and situation == "swapclean" and case.kinds[page] == SHARED:
            memory.lost[page] = "shared memory from swap"
    note_losses(case)


def note_losses(case: Case) -> None:
    """Notes the files of which a loss is told to nobody yet, and who opens one of them."""
    memory, command = case.memory, case.step.command
    lost = case.failed("filedirty") + case.failed("lockedfile")
    memory.losses.update(behind for page in lost if (behind := case.script.pages[page].file) is not None)
    if case.verb == "open" and command.numbers[0] in memory.losses:
        memory.opened.add((command.cpu, command.numbers[0]))
    elif case.verb == "fsync" and case.seen.word == "eio":
        memory.losses.discard(command.numbers[0])


def note_rule(case: Case, one: Difference, rule: str) -> None:
    """Notes what a difference leaves: a process that goes on or ends on Linux alone, and pages that only hwp lost."""
    if one.about == "end":
        (case.memory.ended if one.linux == "ends" else case.memory.alive)[one.number] = rule
    event = case.event(one)
    page = case.world.page_in(event.address // 4096) if one.about == "event" and event is not None and one.hwp == "nothing" else None
    if page is not None:
        case.memory.lost[page] = rule
    if one.about in ("event", "answer") and one.linux in ("ignored", "already", "nothing", "value 0"):
        case.memory.kept.update((page, rule) for situation, page in case.step.failed.values() if page is not None)
