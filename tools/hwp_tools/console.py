"""What the commands share: how they read, write, run the proved program, and end."""
from __future__ import annotations

import argparse
import os
import signal
import subprocess
import sys
from typing import IO, Callable, NamedTuple, NoReturn, Optional, Sequence

HOME = os.path.dirname(os.path.dirname(os.path.dirname(os.path.realpath(__file__))))
NAMED_BY = {"hwp": "HWP_PROGRAM", "hwp-trace": "HWP_TRACE_PROGRAM"}
USAGE, REFUSED, READ, WRITE, MEMORY, MISSING = 2, 3, 4, 5, 6, 70


class Ended(Exception):
    """A command ends with this status, and says this on standard error."""

    def __init__(self, status: int, text: str) -> None:
        super().__init__(text)
        self.status = status


class Signalled(BaseException):
    """A signal came that ends the command."""

    def __init__(self, number: int) -> None:
        super().__init__()
        self.number = number


class Answer(NamedTuple):
    """The status of a program, and what it wrote to standard output and to standard error."""

    status: int
    out: bytes
    told: str


class Parser(argparse.ArgumentParser):
    """A parser of words that says so if its help can't be written: argparse takes no notice of that."""

    def _print_message(self, message: str, file: Optional[IO[str]] = None) -> None:
        if file is sys.stdout:
            file.write(message)
        else:
            super()._print_message(message, file)


def parser(name: str, says: str, statuses: str) -> Parser:
    """A parser of the words of a command, whose help ends with its statuses."""
    return Parser(
        prog=name, description=says, epilog=statuses, formatter_class=argparse.RawDescriptionHelpFormatter, allow_abbrev=False
    )


def read(path: str) -> bytes:
    """The bytes of a file, or of standard input for `-`."""
    try:
        if path == "-":
            return sys.stdin.buffer.read()
        with open(path, "rb") as source:
            return source.read()
    except OSError as fault:
        raise Ended(READ, f"can't read {called(path)}: {fault.strerror}") from fault


def called(path: str) -> str:
    """What a message calls a file: one line, whatever its name is."""
    return "standard input" if path == "-" else path if path.isprintable() else ascii(path)


def write(text: str) -> None:
    """Writes to standard output."""
    sys.stdout.buffer.write(text.encode("utf-8", "surrogateescape"))


def program(name: str) -> str:
    """The path of `hwp` or `hwp-trace`: the one that is named, or the one beside the tools, which has to be built."""
    named, crate = os.environ.get(NAMED_BY[name]), os.path.join(HOME, "crates", name.replace("-", "_"))
    if not named and os.path.isdir(crate) and not os.path.exists(os.path.join(crate, "out", os.path.basename(crate))):
        raise Ended(MISSING, f"{name} isn't built: `bin/{name} --version` proves and builds it, or {NAMED_BY[name]} names one")
    return named or os.path.join(HOME, "bin", name)


def ask(name: str, words: Sequence[str], data: bytes) -> Answer:
    """Runs `hwp` or `hwp-trace` on these bytes, and proves neither. If a signal comes, the program is ended first."""
    path = program(name)
    pipe, environment = subprocess.PIPE, {"HWP_BUILD": "never", **os.environ}
    try:
        child = subprocess.Popen([path, *words], stdin=pipe, stdout=pipe, stderr=pipe, env=environment)
    except OSError as fault:
        raise Ended(MISSING, f"can't run {called(path)}: {fault.strerror}") from fault
    try:
        out, told = child.communicate(data)
    except BaseException:
        _end(child)
        raise
    said = told.decode("utf-8", "replace").strip()
    if child.returncode < 0 or child.returncode in (MISSING, 126, 127):
        raise Ended(MISSING, f"{called(path)} ended with status {child.returncode}: {said or 'it told nothing'}")
    return Answer(child.returncode, out, said)


def _end(child: subprocess.Popen[bytes]) -> None:
    """Ends a program that is not wanted any more."""
    child.terminate()
    try:
        child.wait(10)
    except subprocess.TimeoutExpired:
        child.kill()
        child.wait()


def unexpected(name: str, answer: Answer) -> Ended:
    """The end of a command whose program ended with a status that this call never has."""
    status = answer.status if answer.status in (READ, WRITE, MEMORY) else MISSING
    return Ended(status, f"{name} ended with status {answer.status}: {answer.told or 'it told nothing'}")


def command(name: str, main: Callable[[Sequence[str]], int], words: Sequence[str]) -> int:
    """Runs a command with these words, and answers its status."""
    for number in (signal.SIGINT, signal.SIGTERM, signal.SIGHUP):
        if signal.getsignal(number) != signal.SIG_IGN:
            signal.signal(number, _signalled)
    try:
        status = main(words)
        sys.stdout.flush()
        return status
    except Ended as why:
        return _told(name, why.status, str(why))
    except SystemExit as ended:
        return _flushed(name, ended.code)
    except OSError as fault:
        return _told(name, WRITE, f"can't write: {fault.strerror}")
    except Signalled as came:
        signal.signal(came.number, signal.SIG_DFL)
        os.kill(os.getpid(), came.number)
        return 128 + came.number


def _signalled(number: int, _frame: object) -> NoReturn:
    raise Signalled(number)


def _flushed(name: str, code: object) -> int:
    """The end of a call that asked for help, or had other words than it may have."""
    try:
        sys.stdout.flush()
    except OSError as fault:
        return _told(name, WRITE, f"can't write: {fault.strerror}")
    return code if isinstance(code, int) else 0


def _told(name: str, status: int, text: str) -> int:
    """Says a line on standard error. What is still to be written to standard output goes nowhere."""
    if status == WRITE:
        os.dup2(os.open(os.devnull, os.O_WRONLY), 1)
    try:
        print(f"{name}: {text}", file=sys.stderr)
    except OSError:
        pass
    return status


def script_of(path: str, data: bytes, why: Optional[str] = None) -> bytes:
    """A script down to its line `end`, with its line feed, so that a report may stand behind it."""
    lines = data.split(b"\n")
    for number, line in enumerate(lines):
        if not line.startswith(b"#") and line.strip(b" ") == b"end":
            return b"\n".join(lines[: number + 1]) + b"\n"
    raise Ended(REFUSED, why or f"{called(path)} has no line `end`")
