"""The machine that runs the kernel: QEMU, its monitor, and the line over which the guest program takes orders."""
from __future__ import annotations

import ctypes
import json
import os
import re
import selectors
import signal
import socket
import subprocess
import time
from pathlib import Path
from typing import Sequence

from hwp_tools.console import MISSING, Ended

from .boot import Kernel, qemu_words

BOOT_SECONDS, ORDER_SECONDS = 1800, 180
MARK = "booted"
# What a machine check tells of the processor, beside RIPV and EIPV (bits 0 and 1): one is being dealt with, and it is of this one alone.
IN_PROGRESS, LOCAL = 4, 8
TRIES = 200
# prctl(2): the process gets this signal when its parent ends, however that comes.
PR_SET_PDEATHSIG = 1


def _end_with_parent() -> None:
    ctypes.CDLL(None).prctl(PR_SET_PDEATHSIG, signal.SIGKILL)


class Stopped(Exception):
    """The machine stopped: the text is why, as the console or QEMU says it."""


class Machine:
    """A kernel that is booted. Each script begins where the boot ended."""

    def __init__(self, qemu: str, kernel: Kernel, folder: Path) -> None:
        ours, theirs = socket.socketpair()
        self.console = folder / "console"
        self.line = ours
        self.events: list[str] = []
        self.texts: list[str] = []
        self.answers: dict[int, object] = {}
        self.asked = self.seen = 0
        self.rests = {"line": b"", "monitor": b""}
        environment = {**os.environ, "TMPDIR": str(folder)}
        with theirs:
            words, pipe = qemu_words(qemu, kernel, folder, theirs.fileno()), subprocess.PIPE
            try:
                self.child = subprocess.Popen(
                    words, stdin=pipe, stdout=pipe, stderr=pipe, pass_fds=[theirs.fileno()], env=environment, preexec_fn=_end_with_parent
                )
            except OSError as fault:
                raise Ended(MISSING, f"can't run {qemu}: {fault.strerror}") from fault
        assert self.child.stdout is not None
        self.ready = selectors.DefaultSelector()
        self.ready.register(ours, selectors.EVENT_READ, "line")
        self.ready.register(self.child.stdout, selectors.EVENT_READ, "monitor")

    def start(self) -> None:
        """Waits until the guest program is there, and keeps the machine as it is then."""
        self.monitor("qmp_capabilities")
        try:
            said = self.take_answer(BOOT_SECONDS)
        except Stopped as why:
            raise Ended(MISSING, f"the kernel doesn't boot: {why}; its console ends with {self.console_text()[-200:]!r}") from None
        if len(said) > 1:
            raise Ended(MISSING, f"the guest isn't set up: {'; '.join(said[:-1])}")
        self.hmp(f"savevm {MARK}")

    def end(self) -> None:
        """Ends QEMU."""
        self.child.kill()
        self.child.wait()
        self.line.close()
        for pipe in (self.child.stdin, self.child.stdout, self.child.stderr):
            if pipe is not None:
                pipe.close()

    def pump(self, until: float) -> bool:
        """Takes in what the guest and the monitor have to say; false if that is nothing until then."""
        rows = self.ready.select(max(0.0, until - time.monotonic()))
        for key, _ in rows:
            data = os.read(key.fd, 65536)
            if not data:
                assert self.child.stderr is not None
                raise Ended(MISSING, f"QEMU ended: {self.child.stderr.read().decode('utf-8', 'replace').strip()}")
            *lines, self.rests[key.data] = (self.rests[key.data] + data).split(b"\n")
            for line in lines:
                self.take_in(key.data, line.decode("utf-8", "replace").strip("\r"))
        return bool(rows)

    def take_in(self, source: str, line: str) -> None:
        """Sorts a line: of the guest, an event of QEMU, or the monitor's answer."""
        if source == "line":
            self.texts.append(line)
            return
        message = json.loads(line)
        if "event" in message:
            self.events.append(message["event"])
        elif "id" in message:
            self.answers[message["id"]] = message

    def monitor(self, name: str, **arguments: object) -> object:
        """Has QEMU's monitor run a command."""
        self.asked += 1
        order = {"execute": name, "arguments": arguments, "id": self.asked}
        assert self.child.stdin is not None
        self.child.stdin.write(json.dumps(order).encode() + b"\n")
        self.child.stdin.flush()
        until = time.monotonic() + ORDER_SECONDS
        while self.asked not in self.answers:
            if not self.pump(until):
                raise Ended(MISSING, f"QEMU has no answer to {name} after {ORDER_SECONDS} seconds")
        answer = self.answers.pop(self.asked)
        assert isinstance(answer, dict)
        if "error" in answer:
            raise Ended(MISSING, f"QEMU refuses {name}: {answer['error']['desc']}")
        return answer["return"]

    def hmp(self, line: str) -> str:
        """Has the monitor for people run a line, and answers what it says."""
        said = str(self.monitor("human-monitor-command", **{"command-line": line}))
        if line.startswith(("savevm", "loadvm")) and said.strip():
            raise Ended(MISSING, f"QEMU says of {line}: {said.strip()}")
        return said

    def again(self) -> None:
        """Puts the machine back to where the boot ended, also after a panic."""
        self.monitor("stop")
        self.hmp(f"loadvm {MARK}")
        self.texts, self.events, self.rests["line"] = [], [], b""
        self.seen = len(self.console_bytes())
        self.monitor("cont")

    def has_stopped(self) -> bool:
        """Whether the machine has reset itself or ended, as after a panic."""
        return any(event in ("RESET", "SHUTDOWN") for event in self.events)

    def console_bytes(self) -> bytes:
        """All that the console says."""
        return self.console.read_bytes() if self.console.exists() else b""

    def console_text(self) -> str:
        """What the console says since the script began."""
        return self.console_bytes()[self.seen :].decode("utf-8", "replace")

    def order(self, words: str) -> list[str]:
        """Gives the guest an order, and answers its lines. Raises Stopped if the machine stops."""
        self.line.sendall(words.encode() + b"\n")
        return self.take_answer(ORDER_SECONDS)

    def take_answer(self, seconds: float, last: str = "= ") -> list[str]:
        """The lines of the guest, down to the one that begins with this."""
        until = time.monotonic() + seconds
        while not any(text.startswith(("= ", last)) for text in self.texts):
            if self.has_stopped():
                raise Stopped(self.reason())
            if not self.pump(until):
                raise Stopped(f"no answer after {seconds} seconds")
        at = next(at for at, text in enumerate(self.texts) if text.startswith(("= ", last)))
        taken, self.texts = self.texts[: at + 1], self.texts[at + 1 :]
        return taken

    def reason(self) -> str:
        """Why the machine stopped."""
        told = re.search(r"Kernel panic - not syncing: (.*)", self.console_text())
        return f"panic: {told[1].strip()}" if told else "shutdown"

    def check(self, words: str, events: Sequence[tuple[int, int, int, int]], ripv: int, eipv: int, failures: int) -> list[str]:
        """Raises a machine check while a thread reads a word (`spin T V L`), or while no thread runs (`idle`). An event is a bank, its
        status, its address and its misc."""
        self.line.sendall(words.encode() + b"\n")
        said = self.take_answer(ORDER_SECONDS, "spins " if words.startswith("spin") else "idles")
        if said[-1].startswith("= "):
            return said
        self.stop_where(said[-1].split())
        state = ripv | eipv << 1 | IN_PROGRESS | LOCAL
        uncorrected = [event for event in events if event[1] >> 61 & 1 and event[1] >> 63]
        for bank, status, address, misc in events:
            is_last = bool(uncorrected) and bank == uncorrected[-1][0]
            self.hmp(f"mce 0 {bank} {status:#x} {state if is_last else 0:#x} {address:#x} {misc:#x}")
        self.monitor("cont")
        return said[:-1] + self.order(str(failures))

    def stop_where(self, said: Sequence[str]) -> None:
        """Stops the machine where the thread is in its loop in user mode, or where the processor waits."""
        for _ in range(TRIES):
            self.monitor("stop")
            state = self.hmp("info registers")
            at, mode, halted = (re.search(form, state) for form in (r"RIP=([0-9a-f]+)", r"CPL=(\d)", r"HLT=(\d)"))
            assert at is not None and mode is not None and halted is not None
            if said[0] == "spins" and mode[1] == "3" and int(said[1], 16) <= int(at[1], 16) < int(said[2], 16):
                return
            if said[0] == "idles" and halted[1] == "1":
                return
            self.monitor("cont")
            time.sleep(0.005)
        raise Ended(MISSING, f"the machine isn't where it {said[0]}")

    def nested(self) -> list[str]:
        """Raises a machine check inside a machine check."""
        self.monitor("stop")
        for _ in range(2):
            self.hmp(f"mce 0 3 0xbd000000000000c0 {IN_PROGRESS | 3:#x} 0 0x86")
        self.monitor("cont")
        return self.order("idle")


def opened(qemu: str, kernel: Kernel, folder: Path) -> Machine:
    """A machine that has booted; it is ended if it can't."""
    machine = Machine(qemu, kernel, folder)
    try:
        machine.start()
    except BaseException:
        machine.end()
        raise
    return machine
