"""The command `hwp-campaign`."""
from __future__ import annotations

import argparse
import base64
import hashlib
import json
import os
import re
import shlex
import shutil
import signal
import subprocess
import sys
import threading
import time
from typing import Any, Dict, Iterator, List, NamedTuple, NoReturn, Sequence, Tuple

from .shrinking import Shows, parts, shrunk
from .tasks import called

HOME = os.path.dirname(os.path.dirname(os.path.dirname(os.path.realpath(__file__))))
STATUSES = """Status 0: all are legal, or the smaller script is written. 1: one is not legal, or the script doesn't show the pattern.
2: the words are others, or a script can't be read. 5: standard output was closed early. 70: GNU parallel or the program is missing. 73: the folder can't be written.
128 and more: it was broken off by that signal."""
NUMBER = re.compile(r"0|[1-9][0-9]{0,14}")
MOST_OUTCOMES, MOST_ANSWERS = 10, 6
PATIENCE = 30


class Fault(Exception):
    """What ends the command: a status and a line."""

    def __init__(self, status: int, text: str) -> None:
        super().__init__(text)
        self.status = status


class Task(NamedTuple):
    """A task: how it is called here, the folder for what is kept of it, and the line that a process of GNU parallel gets."""

    name: str
    folder: str
    line: str


def seeds(first: str, last: str) -> Iterator[Task]:
    """The tasks of seeds."""
    return (Task(f"seed {seed}", str(seed), f"seed {seed}") for seed in range(int(first), int(last) + 1))


def read(path: str) -> bytes:
    """The bytes of a script."""
    try:
        with open(path, "rb") as file:
            return file.read()
    except OSError as fault:
        raise Fault(2, f"can't read {path}: {fault.strerror}") from None


def scripts(paths: Sequence[str]) -> List[Task]:
    """The tasks of scripts of one's own. The name behind the path is another one as soon as the script is."""
    tasks = []
    for path in dict.fromkeys(paths):
        text = read(path)
        digest = hashlib.sha256(text).hexdigest()[:12]
        folder = f"{re.sub(r'[^A-Za-z0-9.-]', '_', path)}-{digest}"
        tasks.append(Task(path, folder, f"script {digest} {base64.b64encode(text).decode()}"))
    return tasks


def known(keep: str, runs: int) -> Dict[str, Dict[str, Any]]:
    """The results that the folder has, by their tasks; a line that was broken off is none."""
    found = {}
    path = os.path.join(keep, "results")
    if os.path.exists(path):
        with open(path, encoding="utf-8") as lines:
            for line in lines:
                try:
                    result = json.loads(line)
                except ValueError:
                    continue
                if result["runs"] == runs:
                    found[result["task"]] = result
    return found


def key(task: Task) -> str:
    """The name by which results know a task."""
    return " ".join(task.line.split(" ", 2)[:2])


def end(parallel: "subprocess.Popen[str]") -> None:
    """Ends GNU parallel and what it runs. Asked once it waits for its jobs, and asked again it ends them; two signals at a time may be
    one to it, so it is asked until it has ended."""
    until = time.time() + PATIENCE
    while parallel.poll() is None and time.time() < until:
        parallel.send_signal(signal.SIGTERM)
        try:
            parallel.wait(0.5)
        except subprocess.TimeoutExpired:
            pass
    if parallel.poll() is None:
        parallel.kill()
        parallel.wait()


def feed(parallel: "subprocess.Popen[str]", tasks: Iterator[Task]) -> None:
    """Gives GNU parallel the tasks, for as long as it takes them."""
    assert parallel.stdin is not None
    try:
        for task in tasks:
            parallel.stdin.write(f"{task.line}\n")
        parallel.stdin.close()
    except OSError:
        pass


def answers(given: argparse.Namespace, program: str, tasks: Iterator[Task]) -> Iterator[Dict[str, Any]]:
    """The answers to tasks, as they come."""
    seconds = os.environ.get("HWP_SECONDS", "300")
    work = " ".join(shlex.quote(word) for word in (os.path.join(HOME, "tools", "hwp_campaign", "task"), program, str(given.runs), seconds))
    options = [word for name in ("jobs", "sshlogin") if getattr(given, name) for word in (f"--{name}", getattr(given, name))]
    words = ["parallel", "--will-cite", "--plain", "--pipe", "-N1", "--block", "4M", *options, work]
    parallel = subprocess.Popen(words, stdin=subprocess.PIPE, stdout=subprocess.PIPE, encoding="utf-8", start_new_session=True)
    try:
        threading.Thread(target=feed, args=(parallel, tasks), daemon=True).start()
        assert parallel.stdout is not None
        for line in parallel.stdout:
            yield json.loads(line)
        parallel.wait()
    finally:
        end(parallel)


def store(keep: str, folder: str, result: Dict[str, Any]) -> None:
    """Keeps a result, and the files of one that isn't legal."""
    files = result.pop("files")
    for name, text in files.items():
        os.makedirs(os.path.join(keep, folder), exist_ok=True)
        with open(os.path.join(keep, folder, name), "w", encoding="utf-8") as out:
            out.write(text)
    with open(os.path.join(keep, "results"), "a", encoding="utf-8") as out:
        out.write(json.dumps(result) + "\n")


def show_outcomes(name: str, result: Dict[str, Any]) -> None:
    """The outcomes of a script, with the answers in which they differ."""
    outcomes: List[Tuple[int, Dict[str, str]]] = result["outcomes"]
    print(f"{name}: {len(outcomes)} outcome{'s' if len(outcomes) > 1 else ''} in {result['runs']} runs")
    for count, unlike in outcomes[:MOST_OUTCOMES] if len(outcomes) > 1 else []:
        told = [f"{place} {answer}" for place, answer in list(unlike.items())[:MOST_ANSWERS]]
        more = [f"{len(unlike) - MOST_ANSWERS} more"] if len(unlike) > MOST_ANSWERS else []
        print(f"  {count} times: {', '.join([*told, *more])}")
    if len(outcomes) > MOST_OUTCOMES:
        print(f"  and {len(outcomes) - MOST_OUTCOMES} more")


def campaign(given: argparse.Namespace, program: str, make: Any, count: int, what: str) -> int:
    """Runs the tasks that have no result yet, and says what came of all."""
    os.makedirs(given.keep, exist_ok=True)
    results = known(given.keep, given.runs)
    folders = {key(task): task.folder for task in make()} if what == "scripts" else {}
    if any(key(task) not in results for task in make()):
        for done, result in enumerate(answers(given, program, (task for task in make() if key(task) not in results)), 1):
            store(given.keep, folders.get(result["task"], result["task"].split()[-1]), result)
            results[result["task"]] = result
            if sys.stderr.isatty():
                print(f"\r\033[K{done} tried, {count} in all", end="", file=sys.stderr, flush=True)
        if sys.stderr.isatty():
            print(file=sys.stderr)
    verdicts = {task.name: results.get(key(task), {}).get("verdict", "no verdict (it is tried again next time)") for task in make()}
    legal = sum(verdict == "legal" for verdict in verdicts.values())
    print(f"{legal} of {count} {what} are legal")
    for name, verdict in verdicts.items():
        if verdict != "legal":
            print(f"  {name}: {verdict}")
    for task in make() if what == "scripts" else ():
        if results.get(key(task), {}).get("outcomes"):
            show_outcomes(task.name, results[key(task)])
    return 0 if legal == count else 1


def shrink(given: argparse.Namespace, program: str) -> int:
    """Writes a smaller script that still shows the pattern."""
    text = read(given.words[0]).decode("utf-8", "replace")
    seconds = float(os.environ.get("HWP_SECONDS", "300"))
    tried = called(program, ["step"], text, seconds)
    if tried.status not in (0, 8):
        raise Fault(2, f"{given.words[0]}: step ends with status {tried.status}: {tried.told.strip()}")
    os.makedirs(given.keep, exist_ok=True)
    path = os.path.join(given.keep, "smaller.hwp")
    shows = Shows(program, given.shrink, given.runs, int(given.jobs or os.cpu_count() or 1), seconds)

    def keep(script: Any) -> None:
        with open(f"{path}.new", "w", encoding="utf-8") as out:
            out.write(script.text())
        os.replace(f"{path}.new", path)

    script = parts(text)
    if not shows(script):
        raise Fault(1, f"none of {given.runs} runs of {given.words[0]} shows {given.shrink!r}")
    keep(script)
    smaller = shrunk(script, shows, keep)
    print(f"{path}: {len(smaller.commands)} of {len(script.commands)} commands, {len(smaller.text().splitlines())} lines; "
          f"{shows.often(smaller.text())} of {given.runs} runs show it ({shows.tried} scripts tried)")
    return 0


def words_of(words: Sequence[str]) -> argparse.Namespace:
    """Reads the words of the command."""
    parser = argparse.ArgumentParser(
        prog="hwp-campaign",
        usage="%(prog)s [options] FROM TO\n       %(prog)s [options] SCRIPT..\n       %(prog)s --shrink PATTERN [options] SCRIPT",
        description="Runs the scripts of the seeds FROM to TO, or scripts of your own, by `hwp step` and `hwp run`, many at a time, and has "
        "each report judged by `hwp check`. Of your own scripts it counts the outcomes of `run`.",
        epilog=STATUSES,
    )
    parser.add_argument("words", nargs="*", metavar="FROM TO, SCRIPT", help="two numbers, or scripts; ./7 is a script too")
    parser.add_argument("--keep", metavar="FOLDER", help="where the campaign is kept, and goes on where it was broken off")
    parser.add_argument("--runs", type=int, metavar="N", help="how often `run` runs each script: 1 for seeds, else 50")
    parser.add_argument("--jobs", metavar="N", help="how many at a time")
    parser.add_argument("--sshlogin", metavar="HOSTS", help="machines that take part, for GNU parallel; `:` is this one")
    parser.add_argument("--shrink", metavar="PATTERN", help="writes a smaller script, a report of which by `run` has a line like this")
    given = parser.parse_args(words)
    are_numbers = bool(given.words) and all(NUMBER.fullmatch(word) for word in given.words)
    if not given.words or (are_numbers and (len(given.words) != 2 or int(given.words[0]) > int(given.words[1]))):
        parser.error("two numbers in order are due, or scripts")
    if given.shrink is not None and (are_numbers or len(given.words) != 1 or given.sshlogin):
        parser.error("--shrink takes one script, and no other machines")
    if (given.runs is not None and given.runs < 1) or (given.jobs and not (given.jobs.isdigit() and int(given.jobs))):
        parser.error("--runs and --jobs take a number above 0")
    try:
        re.compile(given.shrink or "")
    except re.error as fault:
        parser.error(f"--shrink: {fault}")
    given.are_seeds = are_numbers
    given.runs = given.runs or (1 if are_numbers else 50)
    given.keep = given.keep or ("campaign-" + "-".join(given.words) if are_numbers else "campaign")
    return given


def find_program() -> str:
    """The program that HWP_PROGRAM names, or else the proved one, which is built first where that is needed."""
    named = os.environ.get("HWP_PROGRAM")
    if named:
        found = shutil.which(named)
        if not found:
            raise Fault(70, f"HWP_PROGRAM names {named}, and that is no program that can be run")
        return os.path.abspath(found)
    start = os.path.join(HOME, "bin", "hwp")
    if subprocess.run([start, "--version"], stdin=subprocess.DEVNULL, stdout=subprocess.DEVNULL, check=False).returncode:
        raise Fault(70, "there is no program to run")
    built = os.path.join(HOME, "crates", "hwp", "out", "hwp")
    return built if os.path.exists(built) else start


def broken_off(number: int, _: Any) -> NoReturn:
    """Ends the command by way of all that has to be ended."""
    raise Fault(128 + number, "broken off; the same words go on where it was")


def main(words: Sequence[str]) -> int:
    """Runs the command with these words, and answers its status."""
    given = words_of(words)
    for number in (signal.SIGTERM, signal.SIGHUP, signal.SIGINT):
        if signal.getsignal(number) != signal.SIG_IGN:
            signal.signal(number, broken_off)
    try:
        if given.shrink is not None:
            return shrink(given, find_program())
        if not shutil.which("parallel"):
            raise Fault(70, "GNU parallel is needed (Debian's package parallel)")
        if given.are_seeds:
            first, last = given.words
            return campaign(given, find_program(), lambda: seeds(first, last), int(last) - int(first) + 1, "seeds")
        tasks = scripts(given.words)
        return campaign(given, find_program(), lambda: iter(tasks), len(tasks), "scripts")
    except BrokenPipeError:
        os.dup2(os.open(os.devnull, os.O_WRONLY), 1)
        return 5
    except (Fault, OSError) as fault:
        print(f"hwp-campaign: {fault}", file=sys.stderr)
        return fault.status if isinstance(fault, Fault) else 73
