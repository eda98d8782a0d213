"""The command `hwp-explain`."""
from __future__ import annotations

import re
from typing import NamedTuple, Optional, Sequence

from hwp_view.forms import Malformed
from hwp_view.report import read_report
from hwp_view.script import read_script

from .console import Ended, ask, called, parser, read, unexpected, write
from .records import log_line, records

SAYS = """Says what the bits of an MCi_STATUS mean, which class the event is of, and which row of the severity table grades it in
each mode, for each RIPV and EIPV: the program hwp is asked, by scripts that log the event and raise a machine check.
STATUS and MISC are hexadecimal, with or without 0x. With --record it writes the records that FILE has, of mcelog, of
rasdaemon or of the kernel's log, as `log` lines of a script."""
STATUSES = """status: 0 done. 2: the arguments are others. 3: FILE has no record, or one that can't be read. 4: a read failed.
5: a write failed. 6: out of memory. 70: the program hwp could not be run."""

FLAGS = {
    63: ("VAL", "the event is valid", "the event isn't valid"),
    62: ("OVER", "another event of the bank was lost", "no event was lost"),
    61: ("UC", "the error wasn't corrected", "the error was corrected"),
    60: ("EN", "reporting was enabled", "reporting wasn't enabled"),
    59: ("MISCV", "the misc register is valid", "the misc register isn't valid"),
    58: ("ADDRV", "the address register is valid", "the address register isn't valid"),
    57: ("PCC", "the processor's context is corrupt", "the processor's context is intact"),
    56: ("S", "a machine check signalled it", "no machine check signalled it"),
    55: ("AR", "action is required before the program goes on", "no action is required"),
}
VALID, OVER, UNCORRECTED, CORRUPT = 63, 62, 61, 57
REQUESTS = (
    "an access|a read|a write|a data load|a data store|an instruction fetch|a prefetch|an eviction or writeback|a snoop".split("|")
)
MEMORY = "an access|a read|a write|an address or a command|scrubbing".split("|")
KINDS = "instructions|data|any content|reserved".split("|")
MODES = {0: "segment offset", 1: "linear address", 2: "physical address", 3: "memory address", 7: "generic"}
ROWS = {
    2: ("none", "EN is 0"),
    3: ("stop", "PCC is 1"),
    4: ("keep", "UC is 0"),
    5: ("stop", "RIPV and EIPV are 0"),
    6: ("deferred", "S and AR are 0"),
    7: ("stop", "S is 0 and AR is 1"),
    8: ("stop", "AR and OVER are 1"),
    9: ("required", "AR is 1, the code is 0x134 or 0x150, ADDRV and MISCV are 1, user mode, RIPV is 1"),
    10: ("stop", "AR is 1, the code is 0x134 or 0x150, ADDRV and MISCV are 1, kernel mode, RIPV is 1"),
    11: ("stop", "any other event with AR 1"),
    12: ("optional", "AR and OVER are 0, the code is 0xc0 to 0xcf or 0x17a, ADDRV and MISCV are 1"),
    13: ("logged", "any other event with S 1 and AR 0"),
    14: ("logged", "anything else"),
}
CORRECTED = 1 << VALID
MACHINE = "hwp 1\ncpus 1\nframes 1\nproc 0\nthread 0 0 0 handler\ncpu 0\n"


class Case(NamedTuple):
    """In what a machine check finds the processor."""

    mode: str
    ripv: int
    eipv: int

    @property
    def raised(self) -> str:
        """The command that raises it."""
        return f"raise {'user 0' if self.mode == 'user' else 'kernel'} {self.ripv} {self.eipv}"


CASES = [Case(mode, ripv, eipv) for mode in ("user", "kernel") for ripv in (1, 0) for eipv in (1, 0)]


def is_set(status: int, bit: int) -> bool:
    """Whether a bit of a status is set."""
    return bool(status >> bit & 1)


def event_class(status: int) -> str:
    """The class of an event."""
    if is_set(status, CORRUPT):
        return "fatal (PCC is 1)"
    return "uncorrected (UC is 1, PCC is 0)" if is_set(status, UNCORRECTED) else "corrected (UC and PCC are 0)"


def code_says(code: int) -> str:
    """What an error code means: one of a TLB, of memory, of a cache or of a bus, or another one. Bit 12 only tells of filtering."""
    request, low, code = code >> 4 & 15, code & 15, code & 0xEFFF
    told = REQUESTS[request] if request < len(REQUESTS) else "a request of a reserved kind"
    level = f"{KINDS[low >> 2]}, {'any level' if low & 3 == 3 else f'level {low & 3}'}"
    if code >> 4 == 1:
        return f"a TLB: {level}"
    if code >> 7 == 1 and request & 7 < len(MEMORY):
        return f"memory: {MEMORY[request & 7]}, {'any channel' if low == 15 else f'channel {low}'}"
    if code >> 8 == 1:
        return f"a cache: {told}, {level}"
    if code >> 11 == 1:
        return f"a bus or interconnect: {told}"
    return "no error" if code == 0 else "a code without parts"


def script_for(status: int, misc: int, case: Case) -> str:
    """A script that has the bank hold this status when the machine check comes. An event that is logged in an empty bank loses
    OVER; it has it where a corrected event is overwritten, or, if it is corrected itself, where it stays."""
    event, other = f"log {status:#x} 0x0 {misc:#x}\n", f"log {CORRECTED:#x} 0x0 0x0\n"
    is_corrected = not is_set(status, UNCORRECTED) and not is_set(status, CORRUPT)
    if not is_set(status, OVER):
        logs = event
    else:
        logs = event + other if is_corrected else other + event
    return f"{MACHINE}{logs}{case.raised}\nend\n"


def row_of(status: int, misc: int, case: Case) -> int:
    """The row that grades a valid status, as the program says."""
    data = script_for(status, misc, case).encode()
    answer = ask("hwp", ["step"], data)
    if answer.status not in (0, 8):
        raise unexpected("hwp step", answer)
    try:
        events = [line for line in read_report(answer.out, read_script(data)).cpus[0] if line.words[1] == "event"]
    except Malformed as why:
        raise Ended(70, f"hwp step wrote no report: {why}") from why
    if len(events) != 1 or (events[0].of("status"), events[0].of("misc")) != (status, misc):
        raise Ended(70, f"hwp step told of other events than {status:#x}")
    return events[0].of("row")


def bits(status: int, misc: int) -> list[str]:
    """What the bits mean, a line for each field."""
    lines = [f"status {status:#x}"]
    for bit, (name, one, none) in FLAGS.items():
        lines.append(f"  {bit:>5}  {name:<5}  {int(is_set(status, bit))}  {one if is_set(status, bit) else none}")
    code, model = status & 0xFFFF, status >> 16 & 0xFFFF
    lines.append(f"  54-32         {status >> 32 & 0x7FFFFF:#x}  other information")
    lines.append(f"  31-16         {model:#x}  the processor model's own code")
    lines.append(f"   15-0         {code:#x}  {code_says(code)}")
    if is_set(status, 59):
        mode = misc >> 6 & 7
        lines.append(f"misc {misc:#x}: a {MODES.get(mode, 'reserved')} (bits 8-6), valid from bit {misc & 63} on (bits 5-0)")
    lines.append(f"class: {event_class(status)}")
    return lines


def grades(status: int, misc: int) -> list[str]:
    """The rows that grade the status, a line for each case."""
    if not is_set(status, VALID):
        return ["graded by row S1, none: VAL is 0, so no bank holds it and no machine check tells of it"]
    lines = ["mode    RIPV  EIPV  row  grade     since"]
    for case in CASES:
        row = row_of(status, misc, case)
        grade, since = ROWS.get(row, ("?", "the program has a row that this tool does not know"))
        lines.append(f"{case.mode:<6}  {case.ripv:>4}  {case.eipv:>4}  S{row:<3} {grade:<8}  {since}")
    return lines


def register(word: str) -> Optional[int]:
    """The number that a word writes in hexadecimal."""
    return int(word, 16) if re.fullmatch(r"(0[xX])?[0-9a-fA-F]{1,16}", word) else None


def main(words: Sequence[str]) -> int:
    """Runs the command with these words, and answers its status."""
    options = parser("hwp-explain", SAYS, STATUSES)
    options.add_argument("status", metavar="STATUS", nargs="?")
    options.add_argument("misc", metavar="MISC", nargs="?", default="0")
    options.add_argument("--record", metavar="FILE", help="writes the records of FILE as `log` lines; - is standard input")
    options.add_argument("--frame", metavar="F", help="with --record: puts the addresses into frame F, 0 to 255")
    asked = options.parse_args(words)
    if (asked.status is None) == (asked.record is None) or (asked.frame is not None and asked.record is None):
        options.error("either STATUS, or --record FILE is needed")
    if asked.record is not None:
        if asked.frame is not None and not re.fullmatch("0|[1-9][0-9]{0,2}", asked.frame):
            options.error("the frame is a number")
        frame = None if asked.frame is None else int(asked.frame)
        if frame is not None and frame > 255:
            options.error("a machine has frames 0 to 255")
        name = asked.record if asked.record == "-" else called(asked.record)
        found = records(read(asked.record).decode("utf-8", "replace"), name)
        write("".join(f"# {name}:{record.line}\n{log_line(record, frame)}\n" for record in found))
        return 0
    numbers = [register(word) for word in (asked.status, asked.misc)]
    if None in numbers:
        options.error("STATUS and MISC are 1 to 16 hex digits, with or without 0x")
    status, misc = (number or 0 for number in numbers)
    write("".join(f"{line}\n" for line in bits(status, misc) + grades(status, misc)))
    return 0
