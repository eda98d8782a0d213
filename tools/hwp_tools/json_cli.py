"""The command `hwp-json`."""
from __future__ import annotations

import argparse
import json
from typing import Sequence

from hwp_view.forms import Malformed
from hwp_view.report import Report, read_report
from hwp_view.script import Script, read_script
from hwp_view.trace import Turn, read_trace

from .chrome import chrome
from .console import REFUSED, Ended, ask, called, parser, read, unexpected, write
from .json_lines import dumped, report_records, text_of, trace_records
from .words import traced

SAYS = """Writes a report or a trace as JSON Lines, one record a line; a run as Chrome trace JSON, a format of
Perfetto; or the report or the trace whose JSON Lines are given. Where a report or a trace isn't given, `hwp step` or hwp-trace make it of the
script. `-` is standard input."""
STATUSES = """status: 0 done. 2: the arguments are others. 3: a script, a report, a trace or JSON Lines are refused. 4: a read failed.
5: a write failed. 6: out of memory. 70: a program could not be run."""


def words_parser() -> argparse.ArgumentParser:
    """The parser of the words."""
    options = parser("hwp-json", SAYS, STATUSES)
    kinds = options.add_subparsers(dest="kind", required=True, metavar="report|trace|chrome|text")
    for kind, files, says in (
        ("report", ["script", "[report]"], "a report as JSON Lines"),
        ("trace", ["script", "[trace]"], "a trace as JSON Lines"),
        ("chrome", ["script", "[report]", "[trace]"], "a run as Chrome trace JSON"),
        ("text", ["lines"], "the report or the trace of JSON Lines"),
    ):
        of_kind = kinds.add_parser(kind, help=says, description=says)
        for file in files:
            name = file.strip("[]")
            if file == name:
                of_kind.add_argument(name, metavar=name.upper())
            else:
                of_kind.add_argument(name, metavar=name.upper(), nargs="?")
    return options


def report_of(data: bytes, script: Script, path: str | None) -> Report:
    """The report in a file, or that of a run."""
    if path is not None:
        return read_report(read(path), script)
    answer = ask("hwp", ["step"], data)
    if answer.status not in (0, 8):
        raise unexpected("hwp step", answer)
    return read_report(answer.out, script)


def turns_of(data: bytes, script: Script, path: str | None) -> list[Turn]:
    """The turns of the trace in a file, or those of a run."""
    return read_trace(traced(data) if path is None else read(path), script)


def written(asked: argparse.Namespace) -> str:
    """What is to be written."""
    if asked.kind == "text":
        name = asked.lines if asked.lines == "-" else called(asked.lines)
        return text_of(read(asked.lines).decode("utf-8", "replace"), name)
    data = read(asked.script)
    script = read_script(data)
    if asked.kind == "report":
        return dumped(report_records(script, report_of(data, script, asked.report)))
    turns = turns_of(data, script, asked.trace)
    if asked.kind == "trace":
        return dumped(trace_records(script, turns))
    name = "standard input" if asked.script == "-" else called(asked.script)
    return json.dumps(chrome(script, turns, report_of(data, script, asked.report), name), separators=(",", ":")) + "\n"


def main(words: Sequence[str]) -> int:
    """Runs the command with these words, and answers its status."""
    options = words_parser()
    asked = options.parse_args(words)
    if [getattr(asked, name, None) for name in ("script", "report", "trace", "lines")].count("-") > 1:
        options.error("only one of them may be standard input")
    try:
        write(written(asked))
    except Malformed as why:
        raise Ended(REFUSED, str(why)) from why
    return 0
