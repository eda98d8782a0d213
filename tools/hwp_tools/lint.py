"""The command `hwp-lint`."""
from __future__ import annotations

from typing import NamedTuple, Optional, Sequence

from hwp_view.script import Refused, read_script

from .advice import advice, at
from .console import called, parser, read, write

SAYS = """Says where hwp refuses a script, and what to write there, as FILE:LINE:COLUMN: REASON: what stands there; what to write.
LINE and REASON are those of `hwp step`: the first line at fault, and of the reasons that apply to it the first in the
order of docs/FORMATS.md. COLUMN counts bytes from 1. `-` is standard input."""
STATUSES = """status: 0 no script is refused. 1: one is. 2: the arguments are others. 4: a read failed; nothing is written.
5: a write failed."""


class Fault(NamedTuple):
    """Where a script is refused: the line, and the byte in it, from 1; the reason, and the text."""

    line: int
    column: int
    why: str
    text: str


def fault_of(data: bytes) -> Optional[Fault]:
    """The fault for which hwp refuses these bytes, if it does."""
    try:
        read_script(data)
    except Refused as refused:
        says = advice(at(refused, data))
        return Fault(refused.line, says.byte + 1, refused.why, f"{says.stands}; {says.write}")
    return None


def main(words: Sequence[str]) -> int:
    """Runs the command with these words, and answers its status."""
    options = parser("hwp-lint", SAYS, STATUSES)
    options.add_argument("script", metavar="SCRIPT", nargs="+")
    paths = options.parse_args(words).script
    faults = [(path, fault_of(data)) for path, data in [(path, read(path)) for path in paths]]
    told = [f"{path if path == '-' else called(path)}:{f.line}:{f.column}: {f.why}: {f.text}\n" for path, f in faults if f is not None]
    write("".join(told))
    return 1 if told else 0
