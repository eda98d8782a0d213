"""The scripts that are compared: files, and rows of tables, each with what is expected of it."""
from __future__ import annotations

import os
import re
from typing import Iterator, NamedTuple, Optional

from hwp_tools.console import HOME, READ, USAGE, Ended, called, read
from hwp_view.forms import Malformed
from hwp_view.script import Script, read_script

from .plan import order_of
from .rules import RULES

MARK = re.compile(r"#\s*linux\b\s*(.*)")
MACHINE = """hwp 1
cpus 1
frames 2
proc 0
thread 0 0 0 handler
page 0 anon
trans 0 0 0
cpu 0
store 0 0 0 5
{logs}
raise {mode}
end
"""
# What is logged so that a bank holds an event with the overflow flag: a corrected one first, or for a corrected one behind it.
CORRECTED, OVERFLOW, UNCORRECTED, FATAL = 0x8000000000000000, 1 << 62, 1 << 61, 1 << 57


class Tried(NamedTuple):
    """A script by its name: its text, and what is expected of it, if anything."""

    name: str
    data: bytes
    script: Script
    expected: Optional[str]


def touched(tried: Tried) -> Tried:
    """The script with a load through each translation behind its commands, each by the first thread of its process: that shows where
    translations lead in the end. Its commands stand in one order, and each is whole."""
    script, order = tried.script, order_of(tried.script)
    lists = [[command.text for command in row] for row in script.commands]
    for number, translation in enumerate(script.translations):
        thread = next((n for n, thread in enumerate(script.threads) if thread.process == translation.process), None)
        if thread is not None:
            cpu = script.threads[thread].cpu
            order.append((cpu, len(lists[cpu])))
            lists[cpu].append(f"load {thread} {number} 0")
    above = [line for line in tried.data.decode("latin-1").split("\n") if not line.startswith("#")]
    cut = next(at for at, line in enumerate(above) if line.split()[:1] in (["cpu"], ["schedule"], ["end"]))
    lines = above[:cut] + [line for cpu, row in enumerate(lists) if row for line in (f"cpu {cpu}", *row)]
    words = [f"schedule {cpu}." for cpu, _ in order] if script.cpus > 1 else []
    data = "\n".join([*lines, *words, "end", ""]).encode("latin-1")
    return tried._replace(data=data, script=script_in(data, tried.name))


def verdict_of(text: str, place: str) -> str:
    """An expectation as a verdict says it: `same`, `differs RULE, RULE`, or `no form`."""
    word, _, rest = text.strip().partition(" ")
    rules = sorted(rule.strip() for rule in rest.split(";")) if rest.strip() else []
    if word == "same" and not rules:
        return "same"
    if word == "no" and rest.strip() == "form":
        return "no form there"
    if word == "differs" and rules and all(rule in RULES for rule in rules):
        return "differs as understood: " + "; ".join(rules)
    raise Ended(USAGE, f"{place}: {text!r} is no expectation: `same`, `differs RULE; RULE` with rules of docs/LINUX.md, or `no form`")


def script_in(data: bytes, place: str) -> Script:
    """The script of these bytes."""
    try:
        return read_script(data)
    except Malformed as why:
        raise Ended(USAGE, f"{place}: {why}") from None


def name_of(path: str) -> str:
    """What a file is called: by its path from the top of the repository, if it is in there."""
    whole = os.path.realpath(path)
    return os.path.relpath(whole, HOME) if whole.startswith(HOME + os.sep) else called(path)


def from_file(path: str, expected: Optional[str] = None) -> Tried:
    """A script in a file. A comment `# linux ..` in it is what is expected."""
    data, name = read(path), name_of(path)
    marks = [MARK.match(line) for line in data.decode("latin-1").split("\n") if MARK.match(line)]
    if len(marks) > 1:
        raise Ended(USAGE, f"{name}: two lines `# linux`")
    if marks and marks[0] is not None:
        expected = verdict_of(marks[0][1], name)
    return Tried(name, data, script_in(data, name), expected)


def rows_of(path: str) -> Iterator[tuple[str, list[str]]]:
    """The rows of a table: each with its place, cut at `|`."""
    for number, line in enumerate(read(path).decode("utf-8", "replace").split("\n"), 1):
        if line.strip() and not line.startswith("#"):
            yield f"{called(path)}:{number}", [cell.strip() for cell in line.split("|")]


def logs_of(status: int) -> str:
    """The `log` lines after which an empty bank holds this status."""
    line = "log {:#018x} 0x0 0x86".format
    if not status & OVERFLOW:
        return line(status)
    if status & (UNCORRECTED | FATAL):
        return f"{line(CORRECTED)}\n{line(status)}"
    return f"{line(status)}\n{line(CORRECTED)}"


def from_table(path: str) -> Iterator[Tried]:
    """The scripts of a table. A row is `NAME | VERDICT`, of a script beside the table's folder, or `STATUS | MODE | VERDICT` of a bank."""
    folder = os.path.dirname(path)
    for place, cells in rows_of(path):
        expected = verdict_of(cells[-1], place)
        if len(cells) == 2:
            yield from_file(os.path.join(folder, cells[0]), expected)
        elif len(cells) == 3 and re.fullmatch("[0-9a-f]{16}", cells[0]):
            mode = "user 0 1 1" if cells[1] == "user" else "kernel 1 1"
            data = MACHINE.format(logs=logs_of(int(cells[0], 16)), mode=mode).encode()
            yield Tried(f"{cells[0]} {cells[1]}", data, script_in(data, place), expected)
        else:
            raise Ended(USAGE, f"{place}: no row of a table of scripts or of banks")


def scripts_of(paths: list[str]) -> list[Tried]:
    """The scripts of these files and tables; of none, those of tests/linux."""
    if not paths:
        folder = os.path.join(HOME, "tests", "linux")
        try:
            names = sorted(os.listdir(folder))
        except OSError as fault:
            raise Ended(READ, f"can't read {folder}: {fault.strerror}") from fault
        paths = [os.path.join(folder, name) for name in names if name.endswith((".hwp", ".table"))]
    found: list[Tried] = []
    for path in paths:
        found += from_table(path) if path.endswith(".table") else [from_file(path)]
    return found
