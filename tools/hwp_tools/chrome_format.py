"""Judges Chrome trace JSON by the format's own description (Trace Event Format): which fields an event has, and that spans nest."""
from __future__ import annotations

from collections import defaultdict
from typing import Any, Iterator

NUMBER = (int, float)
METADATA = {"process_name": str, "thread_name": str, "process_sort_index": int, "thread_sort_index": int, "process_labels": str}
PHASES = frozenset("B E X i I C b n e s t f P N O D M V v R c".split())
UNITS = frozenset(("ms", "ns"))


def faults(data: Any) -> Iterator[str]:
    """What the format doesn't allow in a trace, and which tracks have no name."""
    if not isinstance(data, dict) or not isinstance(data.get("traceEvents"), list):
        yield "no object with a list traceEvents"
        return
    if data.get("displayTimeUnit", "ms") not in UNITS:
        yield f"displayTimeUnit is {data['displayTimeUnit']!r}"
    named: set[tuple[object, object]] = set()
    used: set[tuple[object, object]] = set()
    for number, event in enumerate(data["traceEvents"]):
        found = list(_event_faults(event))
        yield from (f"event {number}: {fault}" for fault in found)
        if found:
            return
        track = (event["pid"], event["tid"])
        if event["ph"] == "M":
            named.update([track] if event["name"] == "thread_name" else [])
        else:
            used.add(track)
    yield from (f"track {track} has no name" for track in sorted(used - named, key=str))
    yield from _overlaps([event for event in data["traceEvents"] if event["ph"] == "X"])


def _event_faults(event: Any) -> Iterator[str]:
    """What is wrong with one event."""
    if not isinstance(event, dict):
        yield "no object"
        return
    phase = event.get("ph")
    if phase not in PHASES:
        yield f"ph is {phase!r}"
    for field, kinds in (("name", str), ("pid", int), ("tid", int), ("args", dict)):
        if not isinstance(event.get(field), kinds):
            yield f"{field} is {event.get(field)!r}"
    if phase == "M":
        kind = METADATA.get(str(event.get("name")))
        value = (event.get("args") or {}).get("name" if kind is str else "sort_index")
        if kind is None or not isinstance(value, kind):
            yield f"metadata {event.get('name')!r} with {value!r}"
        return
    if not isinstance(event.get("ts"), NUMBER) or event["ts"] < 0:
        yield f"ts is {event.get('ts')!r}"
    if not isinstance(event.get("cat"), str):
        yield f"cat is {event.get('cat')!r}"
    if phase == "X" and (not isinstance(event.get("dur"), NUMBER) or event["dur"] < 0):
        yield f"dur is {event.get('dur')!r}"
    if phase in ("i", "I") and event.get("s", "t") not in ("g", "p", "t"):
        yield f"s is {event.get('s')!r}"


def _overlaps(spans: list[dict[str, Any]]) -> Iterator[str]:
    """Spans of one track of which one begins inside the other and ends behind it."""
    tracks: dict[tuple[int, int], list[tuple[float, float, str]]] = defaultdict(list)
    for span in spans:
        tracks[(span["pid"], span["tid"])].append((span["ts"], -span["dur"], span["name"]))
    for track, rows in tracks.items():
        open_ends: list[float] = []
        for begin, length, name in sorted(rows):
            while open_ends and open_ends[-1] <= begin:
                open_ends.pop()
            if open_ends and open_ends[-1] < begin - length:
                yield f"track {track}: {name!r} at {begin} ends behind the span that it begins in"
            open_ends.append(begin - length)
