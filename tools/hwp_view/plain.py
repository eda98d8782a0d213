"""What commands, answers, events, entries and marks say, in plain words."""
from __future__ import annotations

from typing import Optional

from .forms import lines_of_mask, ranges
from .report import Entry, Line
from .run import word_of
from .script import Command, Script

FAILURES = frozenset("sigbus gone eio recovered delayed ignored".split())
RESULTS = frozenset("recovered delayed ignored".split())
GOOD = frozenset("value stored done is opened scrubbed raised".split())
OFFLINE = frozenset("moved takenfree".split())
QUIET_OUTCOMES = frozenset("none keep deferred logged".split())
STOP_OUTCOMES = frozenset("stop panic".split())

POLICIES = {0: "late", 1: "early", 2: "default"}
STATUS_BITS = {63: "VAL", 62: "OVER", 61: "UC", 60: "EN", 59: "MISCV", 58: "ADDRV", 57: "PCC", 56: "S", 55: "AR"}

ANSWERS = {
    "noframe": "no frame was to be had",
    "notresident": "the page was in no frame",
    "notmapped": "the translation was not in use",
    "dirty": "stored to, or never written anywhere",
    "mapped": "a translation was in use",
    "locked": "a locked page stays in its frame",
    "einval": "these arguments are not taken",
    "already": "its poison bit was set already",
    "kernel": "the frame is the kernel's",
    "notpoisoned": "its poison bit was not set",
    "hardwareseen": "some frame has failed by hardware",
    "gone": "its process was ended by a signal",
    "stopped": "the machine has stopped",
    "gueststopped": "the guest has stopped",
    "guestbad": "the guest uses this guest frame no more",
    "takenfree": "no page was in the frame",
    "delayed": "the content is lost, nobody told yet",
    "ignored": "it stays in use",
}
SITUATIONS = {
    "free": "no page in the frame",
    "kernel": "a frame of the kernel",
    "fileclean": "clean page of a file",
    "filedirty": "dirty page of a file, now lost",
    "anononly": "anonymous page, its only copy lost",
    "swapclean": "page with a good copy in swap",
    "swapdirty": "page newer than its copy in swap, now lost",
    "lockedclean": "locked page, clean, of a file",
    "lockedfile": "locked page, dirty, of a file, now lost",
    "lockedanon": "locked anonymous page, now lost",
    "moved": "its page moved to another frame",
}
CAUSES = {"hw": "by hardware", "sw": "by software", "soft": "by soft offline"}
COMMANDS = {
    "free": "translation {trans} to page {page} goes out of use",
    "drop": "the frame of page {page} is freed, if the page is clean, unused and not locked",
    "sync": "page {page} is written back to its file",
    "out": "page {page} is swapped out",
    "fsync": "asks what file {file} lost since this processor asked last",
    "open": "opens file {file}: what it lost before isn't told to this processor any more",
    "load": "thread {thread} loads line {line} of page {page}",
    "kload": "the kernel loads line {line} of page {page} for thread {thread}",
    "fetch": "thread {thread} fetches an instruction at line {line} of page {page}",
    "store": "thread {thread} stores {word} at line {line} of page {page}",
    "bad": "line {line} of frame {frame} goes bad",
    "weak": "line {line} of frame {frame} goes weak",
    "log": "a raw event is logged in bank 1",
    "inject": "software makes frame {frame} fail",
    "soft": "frame {frame} is taken out of use while its content is good",
    "unpoison": "takes back that frame {frame} was poisoned",
    "watch": "gets a new collector: {threshold} corrected errors of a frame within {window} rounds take it out of use",
    "fork": "the process of thread {thread} makes process {proc} its child",
}


def command_says(script: Script, command: Command) -> str:
    """What a command does."""
    if command.verb == "prctl":
        return _prctl_says(command)
    if command.verb == "scrub":
        low, high = command.numbers
        return f"frame {low} is scrubbed" if low == high else f"frames {low} to {high} are scrubbed"
    if command.verb == "raise":
        return _raise_says(command)
    names = dict(zip(command.slots, command.numbers))
    page = script.page_of(command)
    if page is not None:
        names["page"] = page
    twin = script.twin_of(command)
    private = "" if twin is None else f" (its twin, translation {twin}: page {script.translations[twin].page})"
    return COMMANDS[command.verb].format(**names) + private


def _prctl_says(command: Command) -> str:
    thread, operation, second, policy = command.numbers[:4]
    if operation == 33 and second == 1 and policy in POLICIES:
        return f"sets the policy of thread {thread} to {POLICIES[policy]}"
    if operation == 33 and second == 0:
        return f"clears the policy of thread {thread}"
    return f"asks for the policy of thread {thread}" if operation == 34 else f"prctl of thread {thread}"


def _raise_says(command: Command) -> str:
    kind = command.words[1]
    if kind == "nested":
        return "a machine check inside a machine check"
    ripv, eipv = command.numbers[-2:]
    who = f"while thread {command.numbers[0]} runs" if kind == "user" else "in kernel mode"
    return f"a machine check {who}, RIPV {ripv}, EIPV {eipv}"


def answer_kind(word: str) -> str:
    """Whether an answer is fine, a failure, a refusal, a frame taken out in good order, or of a stopped machine."""
    if word in GOOD:
        return "fine"
    if word in OFFLINE:
        return "offline"
    if word == "stopped":
        return "stop"
    return "failure" if word in FAILURES else "refusal"


def answer_says(answer: Line) -> tuple[str, str]:
    """An answer as the report says it, without where it points, and what that means where the word doesn't tell."""
    word = word_of(answer)
    mask, number = answer.get("mask"), answer.get("word")
    if mask is not None:
        return word, bad_lines(mask)
    if number is None:
        return word, ANSWERS.get(word, "")
    meanings = {
        "eio": "loss told" if number == 1 else "losses told",
        "opened": "loss before" if number == 1 else "losses before",
        "is": POLICIES.get(number, ""),
        "inuse": "the frame's count",
    }
    meanings["raised"] = meanings["scrubbed"] = "event line" if number == 1 else "event lines"
    return f"{word} {number}", meanings.get(word, "")


def answer_badge(answer: Line) -> tuple[str, str]:
    """The word in an answer's badge, and what stands behind it: a refusal and a memory failure are named by their kind."""
    word, _ = answer_says(answer)
    kind = answer_kind(word_of(answer))
    if kind == "refusal":
        return "refused", word
    return ("failure", word) if kind == "failure" and word in RESULTS else ("", word) if kind == "fine" else (word, "")


def bad_lines(mask: int, kind: str = "bad") -> str:
    """The lines of a mask: `bad line 5`, `bad lines 5 to 8`."""
    lines = lines_of_mask(mask)
    return f"{kind} line{'' if len(lines) == 1 else 's'} {ranges(lines)}" if lines else f"no {kind} line"


def beside_kind(line: Line) -> str:
    """The kind of what stands beside an answer: a frame by what came of it, a guest's machine check as a failure."""
    return "failure" if line.words[1] == "guest" else answer_kind(line.words[3])


def beside_says(line: Line) -> str:
    """What stands beside an answer: a frame and what came of it, or a guest's bank, the row of its event, and what was done."""
    if line.words[1] == "guest":
        return f"guest's bank {line.of('bank')}, {line.words[6]}: {line.words[7]}"
    mask = line.get("mask")
    found = "" if mask is None else f", {bad_lines(mask)}"
    return f"frame {line.of('frame')}: {line.words[3]}{f' to frame {line.values[2]}' if line.words[3] == 'moved' else found}"


def event_kind(event: Line) -> str:
    """Whether an event stops the machine, asks for a memory failure, or is only noted."""
    outcome = event.words[7]
    if outcome in STOP_OUTCOMES:
        return "stop"
    return "event" if outcome in QUIET_OUTCOMES else "failure"


def event_says(event: Line) -> str:
    """An event: its bank, the row that graded it, and what was done."""
    return f"bank {event.of('bank')}, {event.words[6]}: {event.words[7]}"


def event_frame(event: Line, script: Script) -> Optional[int]:
    """The frame that an event's address lies in, where the event is of a memory failure of a frame of the machine."""
    frame = event.of("address") // 4096
    return frame if event_kind(event) != "event" and event.words[7] != "outside" and frame < script.frames else None


def status_says(status: int) -> str:
    """The flags that are set in a status, and its code."""
    flags = " ".join(name for bit, name in STATUS_BITS.items() if status >> bit & 1)
    return f"{flags}, code {status & 0xFFFF:04x}" if flags else f"code {status & 0xFFFF:04x}"


def entry_kind(entry: Entry) -> str:
    """Whether an entry is fine, a failure or a bad line that was met, or a page moved in good order."""
    if entry.verb in ("fail", "mce") or entry.line.get("thread") is not None:
        return "failure"
    return "offline" if entry.verb == "soft" else "fine"


def entry_badge(entry: Entry) -> str:
    """The word in an entry's badge."""
    return "sigbus" if entry.line.get("thread") is not None and entry.verb != "fail" else entry.verb


def entry_says(entry: Entry) -> str:
    """What happened to the page."""
    line = entry.line
    slot, where, word = line.get("trans"), line.get("line"), line.get("word")
    if entry.verb == "fail":
        thread = line.get("thread")
        needed = "" if thread is None else f", needed by thread {thread}"
        return f"{line.words[3]}: {SITUATIONS[line.words[3]]}{needed}"
    if entry.verb in ("load", "store") and line.get("thread") is not None:
        return f"line {where}, trans {slot}, to thread {line.of('thread')}"
    if entry.verb in ("load", "store"):
        mask = f" ({bad_lines(line.of('mask'))})" if line.of("mask") else ""
        return f"line {where} {'=' if entry.verb == 'load' else '←'} {word}, trans {slot}{mask}"
    if entry.verb == "mce":
        return f"line {where} is bad, trans {slot} ({bad_lines(line.of('mask'))})"
    texts = {"in": "into a frame", "drop": "out of its frame", "sync": "written back", "out": "to swap"}
    texts.update(map=f"trans {slot} into use", free=f"trans {slot} out of use", soft="to another frame")
    return texts[entry.verb]


def seen_says(seen: Line) -> str:
    """A policy that a failure read."""
    count = seen.of("count")
    setting = "never set" if count == 0 else f"setting {count}"
    return f"thread {seen.of('thread')} is {seen.words[2]} ({setting})"


def signal_says(signal: Line) -> str:
    """A signal of a failure."""
    process, thread, slot = signal.of("proc"), signal.of("thread"), signal.of("trans")
    return f"SIGBUS to thread {thread} of process {process}, BUS_MCEERR_{signal.words[3].upper()}, trans {slot}"


def mark_says(mark: Line) -> str:
    """A mark of a frame."""
    if mark.words[0] == "unpoisoned":
        return "used again"
    cause, situation, result = mark.words[4:7]
    found = situation if situation == "moved" else f"{situation}, {SITUATIONS[situation]}"
    return f"{CAUSES[cause]}: {found if cause != 'soft' else SITUATIONS[situation]}; {result}"


def stop_says(stop: Line) -> str:
    """What stopped the machine."""
    cause = stop.words[3]
    if cause == "shutdown":
        return "shutdown: a machine check inside a machine check"
    if cause == "panic":
        return f"panic: a failure of frame {stop.of('frame')}, and the machine doesn't recover"
    row, bank, mode = stop.words[4], stop.of("bank"), stop.words[9]
    return f"severity {row}: an event of bank {bank} in {mode} mode, {status_says(stop.of('status'))}"
