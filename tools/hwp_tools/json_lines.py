"""Reports and traces as JSON Lines, one record a line, and back."""
from __future__ import annotations

import json
import re
from typing import Iterable, Iterator, NamedTuple, Optional, Sequence

from hwp_view.forms import Malformed, lines_of_mask, shown
from hwp_view.report import ANSWERS, BESIDE_ANSWERS, Line, Report
from hwp_view.script import Command, Page, Script
from hwp_view.trace import WORDS, Fields, Turn, read_value, turn_text, value_text

Json = dict[str, object]

# For each record of a report the forms of its line: words as they stand, fields in braces, and behind a colon the words that a field
# may be. A form with more fields stands above one with fewer that would fit it, too.
FORMS: dict[str, list[str]] = {
    "report": ["hwp-report {version}"],
    "stop": [
        "stop {cpu} {command} {cause:severity} {row} {bank} {status} {ripv} {eipv} {mode}",
        "stop {cpu} {command} {cause:panic} {frame}",
        "stop {cpu} {command} {cause:shutdown}",
        "stop {cause:none}",
    ],
    "count": ["count {poisoned}"],
    "file": ["file {file} lost {lost}"],
    "frame": [
        "frame {frame} {state:page} {page} bad {bad} weak {weak}",
        "frame {frame} {state:free,kernel,handled} bad {bad} weak {weak}",
    ],
    "poisoned": ["poisoned {cycle} {cpu} {command} {cause} {situation} {result}"],
    "unpoisoned": ["unpoisoned {cycle} {cpu} {command}"],
    "page": ["page {page} {entries}"],
    "entry": [
        "{entry:fail} {cpu} {command} {situation} {need:req} {thread} {seen} {signals}",
        "{entry:fail} {cpu} {command} {situation} {need:opt} - {seen} {signals}",
        "{entry:load,store} {cpu} {command} {trans} {line} {answer:sigbus} {thread}",
        "{entry:load,store} {cpu} {command} {trans} {line} {bad} {content}",
        "{entry:mce} {cpu} {command} {trans} {line} {bad}",
        "{entry:map,free} {cpu} {command} {trans}",
        "{entry:in,drop,sync,out,soft} {cpu} {command}",
    ],
    "seen": ["seen {thread} {policy} {settings}"],
    "signal": ["signal {process} {thread} {code} {trans}"],
    "cpu": ["cpu {cpu} {lines}"],
    "event": ["{command} event {bank} {status} {address} {misc} {row} {outcome}"],
    "offlined": [
        "{command} offlined {frame} {result:moved} {to} {page} {at}",
        "{command} offlined {frame} {result:hasbad} {bad}",
        "{command} offlined {frame} {result:takenfree,already,noframe,stopped}",
    ],
    "guest": ["{command} guest {bank} {status} {address} {misc} {row} {outcome}"],
    "answer": [],
    "end": ["end"],
}
SLOTS = {"word": "number", "mask": "bad", "entry": "at"}


def _answer_forms() -> Iterator[str]:
    """The forms of the answers, those with more fields first."""
    for answer, shapes in ANSWERS.items():
        for shape in sorted(shapes, key=len, reverse=True):
            names = ["content" if answer == "value" and slot == "word" else SLOTS.get(slot, slot) for slot in shape.split()]
            yield " ".join(["{command}", f"{{answer:{answer}}}", *(f"{{{name}}}" for name in names)])


FORMS["answer"] += _answer_forms()

TEXTS = frozenset("state cause situation result entry need answer policy code mode outcome row".split())
MASKS = frozenset("bad weak".split())
REGISTERS = frozenset("status address misc".split())
FIELD = re.compile(r"\{(\w+)(?::([\w,]+))?\}")


class Slot(NamedTuple):
    """A word of a form: as it stands, or a field, and which words that may be."""

    text: str
    field: str
    choices: tuple[str, ...]


def _slots(form: str) -> list[Slot]:
    """The words of a form."""
    slots = []
    for text in form.split(" "):
        field = FIELD.fullmatch(text)
        slots.append(Slot(text, field[1], tuple(field[2].split(",") if field[2] else ())) if field else Slot(text, "", ()))
    return slots


PARSED = {record: [_slots(form) for form in forms] for record, forms in FORMS.items()}


def to_json(field: str, word: str) -> object:
    """A word of a report as JSON: texts, lists of lines, registers as 0x and digits, contents of memory as decimal digits, numbers."""
    if field in TEXTS or field == "content":
        return word
    if field in MASKS:
        return lines_of_mask(int(word, 16))
    return f"0x{word}" if field in REGISTERS else int(word)


def from_json(field: str, told: object) -> Optional[str]:
    """The word of a report that a field tells, or None where it tells none."""
    if field in TEXTS:
        return told if isinstance(told, str) and re.fullmatch(r"[A-Za-z0-9]+", told) else None
    if field == "content":
        return told if isinstance(told, str) and re.fullmatch("0|[1-9][0-9]*", told) else None
    if field in MASKS:
        if not isinstance(told, list) or not all(type(line) is int and 0 <= line < 64 for line in told):
            return None
        mask = sum(1 << line for line in told)
        return f"{mask:x}" if told == lines_of_mask(mask) else None
    if field in REGISTERS:
        return told[2:] if isinstance(told, str) and re.fullmatch("0x(0|[1-9a-f][0-9a-f]*)", told) else None
    return str(told) if type(told) is int and told >= 0 else None


def record(kind: str, words: Sequence[str]) -> Json:
    """The record of a line of a report."""
    for slots in PARSED[kind]:
        if len(slots) == len(words) and all(_fits(slot, word) for slot, word in zip(slots, words)):
            return {"record": kind, **{slot.field: to_json(slot.field, word) for slot, word in zip(slots, words) if slot.field}}
    raise Malformed(f"no record {kind} has the words {shown(' '.join(words))}")


def _fits(slot: Slot, word: str) -> bool:
    return word in slot.choices if slot.choices else bool(slot.field) or word == slot.text


def line_of(told: Json) -> str:
    """The line of a report that a record tells."""
    kind = str(told.get("record"))
    for slots in PARSED.get(kind, []):
        fields = [slot for slot in slots if slot.field]
        if all(slot.field in told and (not slot.choices or told[slot.field] in slot.choices) for slot in fields):
            words = [from_json(slot.field, told[slot.field]) if slot.field else slot.text for slot in slots]
            wrong = [slot.field for slot, word in zip(slots, words) if word is None]
            if wrong:
                raise Malformed(f"{wrong[0]} can't be {shown(json.dumps(told[wrong[0]]))}")
            return " ".join(word for word in words if word is not None)
    raise Malformed(f"no record {shown(kind)} has these fields")


def _declared(page: Page) -> Json:
    """What the script says of a page."""
    behind: Json = {"anonymous": True} if page.file is None else {"file": page.file, "fill": str(page.fill)}
    return {**behind, "locked": True} if page.locked else behind


def report_records(script: Script, report: Report) -> Iterator[Json]:
    """The records of a report."""
    yield {"record": "report", "version": script.version}
    yield _named(script, "stop", report.stop)
    yield record("count", report.poisoned.words)
    yield from (record("file", line.words) for line in report.files)
    for number, frame in enumerate(report.frames):
        yield record("frame", frame.line.words)
        for mark in frame.marks:
            yield {**_named(script, mark.words[0], mark), "frame": number}
    for page, history in enumerate(report.pages):
        yield {"record": "page", "page": page, "entries": len(history), **_declared(script.pages[page])}
        for at, entry in enumerate(history):
            place: Json = {"page": page, "at": at}
            yield {**_named(script, "entry", entry.line), **place}
            yield from ({**record("seen", seen.words), **place} for seen in entry.seen)
            yield from ({**record("signal", signal.words), **place} for signal in entry.signals)
    for cpu, lines in enumerate(report.cpus):
        yield {"record": "cpu", "cpu": cpu, "lines": len(lines)}
        for line in lines:
            kind = line.words[1] if line.words[1] == "event" or line.words[1] in BESIDE_ANSWERS else "answer"
            told = record(kind, line.words)
            yield {"record": told.pop("record"), "cpu": cpu, **told, **_does(script.commands[cpu][line.of("seq")])}
    yield {"record": "end"}


def _named(script: Script, kind: str, line: Line) -> Json:
    """The record of a line that names a command, with the command, and the process of its translation."""
    told = record(kind, line.words)
    trans = line.get("trans")
    if trans is not None:
        told["process"] = script.translations[trans].process
    return {**told, **(_does(script.commands[line.of("cpu")][line.of("seq")]) if "cpu" in line.slots else {})}


def _does(command: Command) -> Json:
    """A command as the script has it."""
    return {"does": command.text, "script_line": command.line}


def trace_records(script: Script, turns: Sequence[Turn]) -> Iterator[Json]:
    """The records of a trace."""
    yield {"record": "trace", "version": 1, "turns": len(turns)}
    for turn in turns:
        told: Json = {"record": "turn", "turn": turn.number, "cpu": turn.cpu, "command": turn.seq, "kind": turn.kind, "word": turn.word}
        if turn.of is not None:
            told["of"] = turn.of
        told["before"] = _value(turn, turn.before)
        if turn.after != turn.before:
            told["after"] = _value(turn, turn.after)
        yield {**told, "end": turn.end, **_does(script.commands[turn.cpu][turn.seq])}


FLAGS = frozenset("locked poisoned handled kernel none poison unlocked alive nomemory".split())


def _value(turn: Turn, fields: Fields) -> Json:
    """What a word says: a mask as a list, of frames or of lines, and a key without a number as true."""
    told: Json = {}
    for key, number in fields.items():
        if key == "mask":
            first = 64 * (turn.of or 0) if turn.word == "free" else 0
            told["frames" if turn.word == "free" else "lines"] = [first + bit for bit in lines_of_mask(number)]
        else:
            told[key] = True if key in FLAGS and turn.word != "count" else number
    return told


def turn_line(told: Json) -> str:
    """The line of a trace that a record tells."""
    word, of = told.get("word"), told.get("of")
    if word not in WORDS or (WORDS[str(word)] is None) != (of is None):
        raise Malformed(f"word can't be {shown(json.dumps(word))}")
    numbers = [number for number in map(told.get, ("turn", "cpu", "command", "of")) if isinstance(number, int) and number >= 0]
    texts = [text for text in map(told.get, ("kind", "end")) if isinstance(text, str) and re.fullmatch("[a-z_]+", text)]
    if len(numbers) != (3 if of is None else 4) or len(texts) != 2 or any(isinstance(number, bool) for number in numbers):
        raise Malformed("turn, cpu, command and of are numbers, kind and end are words")
    first = _fields(str(word), of, told.get("before"))
    second = _fields(str(word), of, told["after"]) if "after" in told else first
    named = None if of is None else numbers[3]
    return turn_text(Turn(numbers[0], numbers[1], numbers[2], texts[0], str(word), named, first, second, texts[1]))


def _fields(word: str, of: object, told: object) -> Fields:
    """The fields of a value that a record tells."""
    if not isinstance(told, dict):
        raise Malformed("before and after are objects")
    fields: Fields = {}
    for key, number in told.items():
        if key in ("frames", "lines"):
            first = 64 * int(str(of)) if key == "frames" else 0
            if not isinstance(number, list) or not all(type(bit) is int and 0 <= bit - first < 64 for bit in number):
                raise Malformed(f"{key} can't be {shown(json.dumps(number))}")
            fields["mask"] = sum(1 << bit - first for bit in set(number))
        elif type(number) not in (int, bool):
            raise Malformed(f"{shown(key)} can't be {shown(json.dumps(number))}")
        else:
            fields[key] = int(number)
    if read_value(word, value_text(word, fields)) != fields:
        raise Malformed(f"{word} has no value {shown(json.dumps(told))}")
    return fields


def dumped(records: Iterable[Json]) -> str:
    """Records as JSON Lines."""
    return "".join(json.dumps(told, separators=(",", ":")) + "\n" for told in records)


def text_of(text: str, name: str) -> str:
    """The report or the trace whose records these are. Ends at the first line that is none of them."""
    lines: list[str] = []
    kinds: list[str] = []
    parsed: list[Json] = []
    for number, line in enumerate(text.removesuffix("\n").split("\n"), 1):
        try:
            told = json.loads(line)
            if not isinstance(told, dict):
                raise Malformed("a record is an object")
            lines.append(_line(told, not parsed or parsed[0].get("record") == "report"))
        except (ValueError, RecursionError) as why:
            raise Malformed(f"{name}:{number}: no JSON: {why}") from why
        except Malformed as why:
            raise Malformed(f"{name}:{number}: {why}") from why
        parsed.append(told)
        kinds.append(str(told["record"]))
    _check_whole(parsed, kinds, name)
    return "".join(f"{line}\n" for line in lines)


def _line(told: Json, is_report: bool) -> str:
    """The line of a record."""
    if told.get("record") == "trace" and told.get("version") == 1:
        return "hwp-trace 1"
    if told.get("record") == "turn" and not is_report:
        return turn_line(told)
    if not is_report:
        raise Malformed(f"{shown(str(told.get('record')))} is no record of a trace")
    return line_of(told)


def _check_whole(parsed: Sequence[Json], kinds: Sequence[str], name: str) -> None:
    """Refuses records that are cut off: a report ends with `end`, a trace has as many turns as it says."""
    if kinds[:1] == ["report"] and kinds[-1] == "end" and kinds.count("end") == 1:
        return
    if kinds[:1] == ["trace"] and parsed[0].get("turns") == len(parsed) - 1 and set(kinds[1:]) <= {"turn"}:
        return
    raise Malformed(f"{name}: the records are neither those of a report, to `end`, nor all those of a trace")


