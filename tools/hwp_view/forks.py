"""Where a script may give a translation a private twin, and where a process may be forked: docs/FORMATS.md has the rules in words."""
from __future__ import annotations

from typing import TYPE_CHECKING, Iterator, NamedTuple, Optional

if TYPE_CHECKING:
    from .script import Command, Script


class Wrong(NamedTuple):
    """Why a line may not stand where it does, and the number of the word at fault."""

    text: str
    word: int


def no_pair(script: Script, of: int, twin: int) -> Optional[Wrong]:
    """Why two declared translations are no pair: of two processes, or not to two anonymous pages."""
    one, other = script.translations[of], script.translations[twin]
    if one.process != other.process:
        return Wrong(f"translation {twin} isn't of process {one.process}, of which translation {of} is", 2)
    if one.page == other.page:
        return Wrong(f"translations {of} and {twin} lead to the same page", 2)
    for place, page in enumerate((one.page, other.page), 1):
        if script.pages[page].file is not None:
            return Wrong(f"translation {(of, twin)[place - 1]} leads to page {page}, which is of a file", place)
    return None


def no_twin(script: Script, of: int, twin: int) -> Optional[Wrong]:
    """Why one translation can't be the twin of another one: a twin has its page alone, and no twin."""
    if of in script.twins:
        return Wrong(f"translation {of} is itself a twin", 1)
    if script.twins[twin] is not None:
        return Wrong(f"translation {twin} has a twin", 2)
    page = script.translations[twin].page
    if sum(other.page == page for other in script.translations) > 1:
        return Wrong(f"page {page}, to which translation {twin} leads, has another translation", 2)
    return None


def frozen_by(script: Script, process: int) -> set[int]:
    """The pages that a fork of the process freezes: those to which a translation of it leads that has a twin."""
    pairs = zip(script.translations, script.twins)
    return {translation.page for translation, twin in pairs if translation.process == process and twin is not None}


def no_fork(script: Script, cpu: int, thread: int, child: int) -> Optional[Wrong]:
    """Why the thread can't fork the child behind the commands that the list of this processor has so far."""
    parent = script.threads[thread].process
    if child == parent:
        return Wrong(f"process {child} is that of thread {thread} itself", 2)
    used = next((c for c in script.commands[cpu] if _process(script, c) == child), None)
    if used is not None:
        return Wrong(f"process {child} was used before, by `{used.text}` in line {used.line}", 2)
    if any(c.verb == "fork" and c.named("proc") == child for row in script.commands for c in row):
        return Wrong(f"process {child} was forked before", 2)
    away = next((n for n, t in enumerate(script.threads) if t.process in (parent, child) and t.cpu != cpu), None)
    if away is not None:
        place = 1 if script.threads[away].process == parent else 2
        return Wrong(f"thread {away} of process {script.threads[away].process} is on another processor", place)
    return next(_unshared(script, cpu, parent, child), None)


def _process(script: Script, command: Command) -> Optional[int]:
    """The process of the thread that a command is of."""
    thread = command.named("thread")
    return None if thread is None else script.threads[thread].process


def _unshared(script: Script, cpu: int, parent: int, child: int) -> Iterator[Wrong]:
    """What keeps a page, which the fork would freeze, from being shared by the two processes."""
    before = [process for c in script.commands[cpu] if c.verb == "fork" and (process := _process(script, c)) is not None]
    for page in sorted(frozen_by(script, parent)):
        leading = [(n, t) for n, t in enumerate(script.translations) if t.page == page]
        for number, translation in leading:
            if translation.process not in (parent, child):
                yield Wrong(f"translation {number} to page {page} is of process {translation.process}", 2)
            if script.twins[number] is None:
                yield Wrong(f"translation {number} to page {page} has no `cow` line", 2)
        for process in (parent, child):
            if sum(translation.process == process for _, translation in leading) > 1:
                yield Wrong(f"process {process} has two translations to page {page}", 2)
        if any(page in frozen_by(script, process) for process in before):
            yield Wrong(f"a fork above freezes page {page} already", 2)
