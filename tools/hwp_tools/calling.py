"""Calls of the commands in the process of a test, and a stand-in for the program."""
from __future__ import annotations

import io
import os
import tempfile
import unittest
from contextlib import redirect_stderr, redirect_stdout
from pathlib import Path
from typing import Callable, Mapping, NamedTuple, Sequence
from unittest import mock

from hwp_tools.console import command


class Call(NamedTuple):
    """The status of a call, and what it wrote to standard output and to standard error."""

    status: int
    out: str
    told: str


def call(name: str, main: Callable[[Sequence[str]], int], words: Sequence[str], environment: Mapping[str, str]) -> Call:
    """A call of a command with these words, in this environment."""
    out, told = io.TextIOWrapper(io.BytesIO(), "utf-8"), io.StringIO()
    with redirect_stdout(out), redirect_stderr(told), mock.patch.dict(os.environ, environment):
        status = command(name, main, words)
    out.seek(0)
    return Call(status, out.read(), told.getvalue())


class Folder(unittest.TestCase):
    """A test that has a folder of its own."""

    def setUp(self) -> None:
        folder = tempfile.TemporaryDirectory()
        self.addCleanup(folder.cleanup)
        self.folder = Path(folder.name)

    def file(self, name: str, data: bytes | str) -> str:
        """The path of a file with these bytes."""
        path = self.folder / name
        path.write_bytes(data.encode() if isinstance(data, str) else data)
        return str(path)

    def program(self, name: str, text: str) -> str:
        """The path of a program with this text."""
        path = self.file(name, text)
        os.chmod(path, 0o755)
        return path
