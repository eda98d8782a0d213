"""The command `hwp-view`."""
from __future__ import annotations

import argparse
import os
import sys
from typing import Iterator, NoReturn, Sequence

from .beside import beside_html
from .forms import Malformed
from .page import page_html
from .report import read_report
from .run import Run
from .script import read_script
from .locks import read_locks

USAGE = "hwp-view SCRIPT REPORT [TRACE] > page.html\n       hwp-view --beside SCRIPT REPORT SCRIPT REPORT > page.html"
HELP = """Writes a picture of a run as one HTML page that needs no network: the commands and answers of each processor, the
history of each page, the frames, the signals and the stop. SCRIPT is a fault script, REPORT what `hwp step` wrote for it, TRACE
what `hwp-trace` wrote for it: with it the page has the real order, the locks and the waits. One of them may be `-` for standard
input."""
STATUSES = """Status 0: done. 2: the words are others, or what was read is malformed, or isn't of one run. 4: a read failed.
5: a write failed."""


class _Parser(argparse.ArgumentParser):
    """Says what is wrong with the words in one line."""

    def error(self, message: str) -> NoReturn:
        """Ends with status 2."""
        sys.exit(fail(2, f"{message}; usage: {' or '.join(line.strip() for line in USAGE.splitlines())}"))


def read(path: str) -> bytes:
    """The bytes of a file, or of standard input."""
    if path == "-":
        return sys.stdin.buffer.read()
    with open(path, "rb") as source:
        return source.read()


def fail(status: int, text: str) -> int:
    """Says a line on standard error."""
    print(f"hwp-view: {text}", file=sys.stderr)
    return status


def read_words(words: Sequence[str]) -> argparse.Namespace:
    """What the words ask for."""
    parser = _Parser(prog="hwp-view", usage=USAGE, description=HELP, epilog=STATUSES, allow_abbrev=False)
    parser.add_argument("--beside", action="store_true", help="two runs side by side, with their differences marked")
    parser.add_argument("files", nargs="+", metavar="FILE", help="a script and its report, and its trace if there is one")
    asked = parser.parse_args(list(words))
    if len(asked.files) not in ((4,) if asked.beside else (2, 3)):
        parser.error(f"{len(asked.files)} files")
    if asked.files.count("-") > 1:
        parser.error("standard input can be read once")
    return asked


def main(words: Sequence[str]) -> int:
    """Runs the command with these words, and answers its status."""
    asked = read_words(words)
    try:
        data = [read(path) for path in asked.files]
    except OSError as fault:
        return fail(4, f"can't read {ascii(fault.filename) if fault.filename else 'standard input'}: {fault.strerror}")
    names = ["standard input" if path == "-" else os.path.basename(path) for path in asked.files]
    try:
        page = _beside(data, names) if asked.beside else _one(data, names)
        pieces = [piece.encode("utf-8", "replace") for piece in page]
    except Malformed as why:
        return fail(2, str(why))
    return write(pieces)


def _one(data: Sequence[bytes], names: Sequence[str]) -> Iterator[str]:
    script = read_script(data[0])
    report = read_report(data[1], script)
    return page_html(script, report, names[0], read_locks(data[2], script) if len(data) == 3 else None)


def _beside(data: Sequence[bytes], names: Sequence[str]) -> Iterator[str]:
    """The page of two runs, which have the names of their reports. A refusal says of which pair of files it is."""
    runs = []
    for at in (0, 2):
        try:
            script = read_script(data[at])
            runs.append(Run(script, read_report(data[at + 1], script)))
        except Malformed as why:
            raise Malformed(f"{ascii(names[at])} and {ascii(names[at + 1])}: {why}") from None
    titles = [names[1], names[3]] if names[1] != names[3] else [f"{names[1]}, first", f"{names[3]}, second"]
    return beside_html(runs[0], runs[1], titles)


def write(pieces: Sequence[bytes]) -> int:
    """Writes the page, and answers the status."""
    try:
        for piece in pieces:
            sys.stdout.buffer.write(piece)
        sys.stdout.buffer.flush()
    except OSError as fault:
        sys.stderr.flush()
        os.dup2(os.open(os.devnull, os.O_WRONLY), 1)
        return fail(5, f"can't write the page: {fault.strerror}")
    return 0
