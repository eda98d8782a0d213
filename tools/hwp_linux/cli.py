"""The command tools/linux/run."""
from __future__ import annotations

import argparse
import os
import sys
import tempfile
from contextlib import contextmanager
from pathlib import Path
from typing import Iterator, NamedTuple, Optional, Sequence

from hwp_tools.console import REFUSED, Ended, ask, parser, unexpected, write
from hwp_view.forms import Malformed
from hwp_view.report import Report, read_report

from .boot import found, kernel_in, package_of, unpacked
from .compare import DIFFERS, NO_FORM, Comparison, Verdict
from .machine import Machine, opened
from .plan import NoForm, order_of
from .recording import Recorder
from .scripts import Tried, scripts_of, touched

SAYS = """Boots a Linux kernel once, runs each fault script on it and on hwp, and says in one line a script what came of it:
`same`, `differs as understood` with the rules that are the reason, `differs` with the command and both answers, or `no form there`
with the command that Linux can't make (docs/LINUX.md). A file that ends with .table has a script, or a bank of a machine check, in
each row. Without a script all of tests/linux are run. HWP_PROGRAM names hwp, else it is bin/hwp."""
STATUSES = """status: 0 all is as expected: as the script's line `# linux ..` or its row says, or else the same, understood, or without
a form. 1: something isn't. 2: the arguments are others, or no script. 3: hwp refuses a script. 4: a read failed. 5: a write failed.
70: a package is missing, hwp isn't built, or the machine has no end. Whatever the status, QEMU and all files of the run are gone;
--keep leaves the console, and what was said to the guest."""


def words_of(words: Sequence[str]) -> argparse.Namespace:
    """What the command line asks for."""
    options = parser("tools/linux/run", SAYS, STATUSES)
    options.add_argument("scripts", metavar="SCRIPT", nargs="*")
    about = "the kernel's package, or the folder into which it is unpacked; else HWP_KERNEL, a package in this folder, or /boot"
    options.add_argument("--kernel", metavar="PACKAGE", help=about)
    options.add_argument("--qemu", metavar="PROGRAM", help="the program to use as qemu-system-x86_64")
    options.add_argument("--folder", metavar="FOLDER", help="where the files of the run are; else a temporary folder, which goes away")
    options.add_argument("--keep", metavar="FOLDER", help="where to leave the console, and what was said to the guest")
    options.add_argument("--plain", dest="is_plain", action="store_true", help="no loads through all translations at the end of a script")
    options.add_argument("-v", dest="is_long", action="store_true", help="write each command, with both answers and the kernel's log")
    return options.parse_args(words)


@contextmanager
def folder_of(named: Optional[str]) -> Iterator[Path]:
    """A folder of its own in the one that is named, or in that for temporary files. It is removed in the end."""
    if named is not None:
        os.makedirs(named, exist_ok=True)
    with tempfile.TemporaryDirectory(prefix="hwp-linux.", dir=named) as folder:
        yield Path(folder)


class Job(NamedTuple):
    """A script to compare, and the report of it; or a verdict at once, where the order of its commands has no form on Linux."""

    tried: Tried
    report: Report | Verdict


def job_of(tried: Tried, is_plain: bool) -> Job:
    """A script with its report."""
    try:
        order_of(tried.script)
    except NoForm as why:
        return Job(tried, Verdict(NO_FORM, str(why), []))
    tried = tried if is_plain else touched(tried)
    return Job(tried, report_of(tried))


def report_of(tried: Tried) -> Report:
    """The report of `hwp step`."""
    answer = ask("hwp", ["step"], tried.data)
    if answer.status == REFUSED:
        raise Ended(REFUSED, f"{tried.name}: {answer.told}")
    if answer.status not in (0, 8):
        raise unexpected("hwp", answer)
    try:
        return read_report(answer.out, tried.script)
    except Malformed as why:
        raise Ended(REFUSED, f"{tried.name}: hwp's report: {why}") from None


def table(verdict: Verdict) -> str:
    """Each command with both answers."""
    lines = []
    for row in verdict.rows:
        lines.append(f"    {row.step.who[0]} {row.step.who[1]} {row.step.command.text:24} {row.hwp} | {row.linux}")
        lines[-1] += f"  ({'; '.join(row.rules)})" if row.rules else ""
        lines += [f"        {text}" for text in row.log]
    return "".join(line + "\n" for line in lines)


def compared(machine: Machine, job: Job, keep: Optional[str]) -> Verdict:
    """Runs a script on a machine that is booted. What was said is left behind where that is asked for."""
    tried, report = job
    if isinstance(report, Verdict):
        return report
    machine.again()
    recorder = Recorder(machine)
    try:
        return Comparison(recorder, tried.script, report).run()
    finally:
        if keep is not None:
            name = tried.name.replace(os.sep, "-").replace(" ", "-")
            Path(keep, f"{name}.said").write_text(recorder.text(), encoding="utf-8")
            Path(keep, f"{name}.console").write_text(machine.console_text(), encoding="utf-8")


def is_as_expected(tried: Tried, verdict: Verdict) -> bool:
    """Whether a verdict is the one that is due."""
    if tried.expected is None:
        return verdict.word != DIFFERS
    return (verdict.word if verdict.word == NO_FORM else str(verdict)) == tried.expected


def tell(tried: Tried, verdict: Verdict, is_long: bool) -> bool:
    """Writes the line of a script, and says whether it is as expected."""
    is_due = is_as_expected(tried, verdict)
    write(f"{tried.name}: {verdict}" + ("\n" if is_due else f"  (expected: {tried.expected or 'no difference that nobody understands'})\n"))
    if is_long or not is_due:
        write(table(verdict))
    sys.stdout.flush()
    return is_due


def run(options: argparse.Namespace) -> int:
    """Boots, and compares all scripts."""
    tried = scripts_of(options.scripts)
    package = package_of(options.kernel)
    qemu = found("qemu-system-x86_64", options.qemu)
    jobs = [job_of(one, options.is_plain) for one in tried]
    if options.keep is not None:
        os.makedirs(options.keep, exist_ok=True)
    wrong = 0
    with folder_of(options.folder) as folder:
        kernel = kernel_in(unpacked(package, folder))
        machine = opened(qemu, kernel, folder)
        try:
            write(f"Linux {kernel.version}\n")
            for job in jobs:
                wrong += not tell(job.tried, compared(machine, job, options.keep), options.is_long)
        finally:
            machine.end()
    write(f"{len(tried)} scripts, {wrong} not as expected\n" if wrong else f"{len(tried)} scripts, all as expected\n")
    return 1 if wrong else 0


def main(words: Sequence[str]) -> int:
    """Runs the command with these words, and answers its status."""
    return run(words_of(words))
