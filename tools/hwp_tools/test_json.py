"""Tests of hwp-json: records by hand, round trips of all reports and traces, and Chrome traces by the format's description."""
from __future__ import annotations

import copy
import json
import shutil
import subprocess
import unittest
from pathlib import Path
from typing import Any

from hwp_tools import chrome_format
from hwp_tools.calling import Call, Folder, call
from hwp_tools.json_cli import main
from hwp_tools.json_lines import line_of, record
from hwp_view.forms import CHOICES
from hwp_view.report import BESIDE_ANSWERS, CPU_LINE_SHAPES, ENTRIES, FRAMES, MARKS, SEEN, SIGNAL, STOPS

HOME = Path(__file__).resolve().parents[2]
# The kind of a line of a report, the line, and its record.
RECORDS: list[tuple[str, str, dict[str, object]]] = [
    ("stop", "stop none", {"cause": "none"}),
    ("stop", "stop 1 2 shutdown", {"cpu": 1, "command": 2, "cause": "shutdown"}),
    ("stop", "stop 1 2 panic 3", {"cpu": 1, "command": 2, "cause": "panic", "frame": 3}),
    (
        "stop",
        "stop 0 4 severity S8 1 fd80000000000134 1 0 user",
        {
            **{"cpu": 0, "command": 4, "cause": "severity", "row": "S8", "bank": 1},
            **{"status": "0xfd80000000000134", "ripv": 1, "eipv": 0, "mode": "user"},
        },
    ),
    ("file", "file 1 lost 2", {"file": 1, "lost": 2}),
    ("frame", "frame 3 page 4 bad 8000000000000001 weak 6", {"frame": 3, "state": "page", "page": 4, "bad": [0, 63], "weak": [1, 2]}),
    ("frame", "frame 0 kernel bad 0 weak 0", {"frame": 0, "state": "kernel", "bad": [], "weak": []}),
    (
        "poisoned",
        "poisoned 1 0 2 soft moved recovered",
        {"cycle": 1, "cpu": 0, "command": 2, "cause": "soft", "situation": "moved", "result": "recovered"},
    ),
    ("entry", "in 0 3", {"entry": "in", "cpu": 0, "command": 3}),
    ("entry", "free 0 3 5", {"entry": "free", "cpu": 0, "command": 3, "trans": 5}),
    (
        "entry",
        "store 1 0 2 3 10 18446744073709551615",
        {"entry": "store", "cpu": 1, "command": 0, "trans": 2, "line": 3, "bad": [4], "content": "18446744073709551615"},
    ),
    (
        "entry",
        "load 1 0 2 3 sigbus 4",
        {"entry": "load", "cpu": 1, "command": 0, "trans": 2, "line": 3, "answer": "sigbus", "thread": 4},
    ),
    ("entry", "mce 0 2 1 5 20", {"entry": "mce", "cpu": 0, "command": 2, "trans": 1, "line": 5, "bad": [5]}),
    (
        "entry",
        "fail 0 2 filedirty opt - 3 1",
        {"entry": "fail", "cpu": 0, "command": 2, "situation": "filedirty", "need": "opt", "seen": 3, "signals": 1},
    ),
    (
        "entry",
        "fail 0 2 anononly req 7 0 1",
        {"entry": "fail", "cpu": 0, "command": 2, "situation": "anononly", "need": "req", "thread": 7, "seen": 0, "signals": 1},
    ),
    ("seen", "seen 1 early 2", {"thread": 1, "policy": "early", "settings": 2}),
    ("signal", "signal 0 1 ao 2", {"process": 0, "thread": 1, "code": "ao", "trans": 2}),
    (
        "event",
        "2 event 0 bd80000000000134 140 86 S9 recovered",
        {"command": 2, "bank": 0, "status": "0xbd80000000000134", "address": "0x140", "misc": "0x86", "row": "S9", "outcome": "recovered"},
    ),
    ("offlined", "1 offlined 5 takenfree", {"command": 1, "frame": 5, "result": "takenfree"}),
    ("offlined", "1 offlined 5 hasbad 3", {"command": 1, "frame": 5, "result": "hasbad", "bad": [0, 1]}),
    ("offlined", "1 offlined 5 moved 6 0 4", {"command": 1, "frame": 5, "result": "moved", "to": 6, "page": 0, "at": 4}),
    (
        "guest",
        "2 guest 0 bd80000000000134 140 86 S9 bad",
        {"command": 2, "bank": 0, "status": "0xbd80000000000134", "address": "0x140", "misc": "0x86", "row": "S9", "outcome": "bad"},
    ),
    ("answer", "1 guestbad", {"command": 1, "answer": "guestbad"}),
    ("answer", "1 value 77 0 3", {"command": 1, "answer": "value", "content": "77", "page": 0, "at": 3}),
    ("answer", "1 moved 5 0 4", {"command": 1, "answer": "moved", "frame": 5, "page": 0, "at": 4}),
    ("answer", "1 done", {"command": 1, "answer": "done"}),
    ("answer", "1 done 0 4", {"command": 1, "answer": "done", "page": 0, "at": 4}),
    ("answer", "1 badlines 3 0 4", {"command": 1, "answer": "badlines", "bad": [0, 1], "page": 0, "at": 4}),
    ("answer", "1 eio 3", {"command": 1, "answer": "eio", "number": 3}),
    ("answer", "1 opened 0", {"command": 1, "answer": "opened", "number": 0}),
    ("answer", "1 gone 3", {"command": 1, "answer": "gone", "page": 3}),
    ("answer", "1 noframe", {"command": 1, "answer": "noframe"}),
]
HEAD = '{"record":"report","version":1}\n'
# JSON Lines that are refused, the line, and what is said of it.
REFUSED = [
    ("", 1, "no JSON"),
    ("nonsense\n", 1, "no JSON"),
    ("[1]\n", 1, "a record is an object"),
    ('{"record":"turn"}\n', 1, "no record 'turn'"),
    (HEAD + '{"record":"count"}\n', 2, "no record 'count' has these fields"),
    (HEAD + '{"record":"count","poisoned":-1}\n', 2, "poisoned can't be '-1'"),
    (HEAD + '{"record":"count","poisoned":1.5}\n', 2, "poisoned can't be '1.5'"),
    (HEAD + '{"record":"count","poisoned":true}\n', 2, "poisoned can't be 'true'"),
    (HEAD + '{"record":"frame","frame":0,"state":"lost","bad":[],"weak":[]}\n', 2, "no record 'frame' has these fields"),
    (HEAD + '{"record":"frame","frame":0,"state":"free","bad":[64],"weak":[]}\n', 2, "bad can't be '[64]'"),
    (HEAD + '{"record":"frame","frame":0,"state":"free","bad":[2,1],"weak":[]}\n', 2, "bad can't be '[2, 1]'"),
    (HEAD + '{"record":"seen","thread":0,"policy":"late\\nend","settings":0}\n', 2, "policy can't be"),
    (HEAD + '{"record":"count","poisoned":' + "9" * 5000 + "}\n", 2, "no JSON"),
    (HEAD + '{"record":"count","poisoned":1}\n', 0, "neither those of a report"),
    ('{"record":"trace","version":1,"turns":1}\n', 0, "neither those of a report"),
    ('{"record":"trace","version":1,"turns":1}\n{"record":"end"}\n', 2, "no record of a trace"),
    ('{"record":"trace","version":1,"turns":1}\n{"record":"turn","word":"bad"}\n', 2, "word can't be"),
]
TURN = '{"record":"turn","turn":0,"cpu":0,"command":0,"kind":"load_bad","word":"bad","of":0,"before":{"lines":[1]},"end":"moved"}\n'
# What stands in place of what in TURN, and what is said of it.
REFUSED_TURNS = [
    ('"cpu":0', '"cpu":"0"', "are numbers"),
    ('"moved"', '"a b"', "are words"),
    ('{"lines":[1]}', "1", "before and after are objects"),
    ('{"lines":[1]}', '{"lines":[64]}', "lines can't be"),
    ('{"lines":[1]}', '{"number":1}', "has no value"),
    ('"bad","of":0', '"avail"', "has no value"),
    ('"bad","of":0,"before":{"lines":[1]}', '"avail","before":{"number":-1}', "has no value"),
]
LOCK = HOME / "tests" / "traces" / "failure-waits-for-a-load"
REPORT = """hwp-report 1
stop none
count 1
frame 0 handled bad 0 weak 0
poisoned 0 1 0 sw anononly recovered
frame 1 free bad 0 weak 0
frame 2 free bad 0 weak 0
frame 3 free bad 0 weak 0
page 0 5
in 0 0
map 0 0 0
store 0 0 0 0 0 5
load 0 1 0 0 0 5
fail 1 0 anononly opt - 1 0
seen 0 default 0
cpu 0 2
0 stored 0 2
1 value 5 0 3
cpu 1 1
0 recovered
end
"""
# The spans but for those of single turns (track, name, turns from and to), and the instants (track, name, behind which turn) of LOCK.
SPANS = [
    ("processor 0", "store 0 0 0 5", 0, 28),
    ("processor 0", "load 0 0 0", 29, 45),
    ("processor 1", "inject 0", 35, 53),
    ("processor 1", "waits", 41, 45),
    ("page 0 (anonymous)", "locked by processor 0", 3, 20),
    ("page 0 (anonymous)", "locked by processor 1", 40, 53),
    ("frame 0", "locked by processor 0", 10, 18),
    ("frame 0", "locked by processor 0", 24, 27),
    ("frame 0", "locked by processor 0", 34, 44),
    ("frame 0", "locked by processor 1", 46, 52),
]
FAILURES = [(track, "frame 0 fails", 36) for track in ("processor 1", "frame 0", "page 0 (anonymous)")]
SIGNALS = [(track, "SIGBUS to thread 0, BUS_MCEERR_AO", 49) for track in ("processor 1", "page 0 (anonymous)")]
LATE = [(track, "SIGBUS to thread 0, BUS_MCEERR_AR", 45) for track in ("processor 0", "page 0 (anonymous)")]


class Lines(Folder):
    """JSON Lines, and what they give back."""

    def json(self, *words: str, **environment: str) -> Call:
        """A call of hwp-json."""
        return call("hwp-json", main, words, environment)

    def test_lines_have_the_records_that_the_document_says(self) -> None:
        for kind, line, fields in RECORDS:
            with self.subTest(line=line):
                self.assertEqual(record(kind, line.split(" ")), {"record": kind, **fields})
                self.assertEqual(line_of({"record": kind, **fields, "does": "load 0 0 0", "script_line": 3}), line)

    def test_every_line_that_a_report_may_have_comes_back(self) -> None:
        shapes = [("stop", shape) for shape in STOPS] + [("frame", shape) for shape in FRAMES]
        shapes += [(shape.split()[0].strip("'"), shape) for shape in [*MARKS, *SEEN, SIGNAL[0]]]
        shapes += [("entry", f"'{verb} cpu seq {rest}") for verb, rests in ENTRIES.items() for rest in rests]
        own = {"event", *BESIDE_ANSWERS}
        shapes += [(verb if verb in own else "answer", shape) for verb, rests in CPU_LINE_SHAPES.items() for shape in rests]
        samples = {"row": "S9", "mask": "20", "status": "bd", "address": "1000", "misc": "86"}
        samples.update({slot: sorted(words)[0] for slot, words in CHOICES.items()})
        for kind, shape in shapes:
            with self.subTest(shape=shape):
                words = [slot[1:] if slot.startswith("'") else samples.get(slot, "1") for slot in shape.split()]
                self.assertEqual(line_of(record(kind, words)), " ".join(words))

    def test_reports_and_traces_come_back_byte_for_byte(self) -> None:
        found = [path for folder in ("examples", "tests") for path in sorted((HOME / folder).rglob("*.hwp"))]
        tried = 0
        for path in found:
            for kind, of_kind in (("report", path.with_suffix(".report")), ("trace", path.with_suffix(".trace"))):
                if of_kind.exists():
                    with self.subTest(of_kind.name):
                        lines = self.json(kind, str(path), str(of_kind))
                        self.assertEqual((lines.status, lines.told), (0, ""))
                        back = self.json("text", self.file("lines", lines.out))
                        self.assertEqual((back.status, back.told), (0, ""))
                        self.assertEqual(back.out.encode(), of_kind.read_bytes())
                        tried += 1
        self.assertGreater(tried, 100)

    def test_records_name_what_the_script_says(self) -> None:
        lines = self.json("report", f"{LOCK}.hwp", self.file("report", REPORT)).out
        told = [json.loads(line) for line in lines.splitlines()]
        store = {"record": "entry", "entry": "store", "cpu": 0, "command": 0, "trans": 0, "line": 0, "bad": [], "content": "5"}
        named = {"process": 0, "does": "store 0 0 0 5", "script_line": 13, "page": 0, "at": 2}
        self.assertEqual(told[11], {**store, **named})
        self.assertEqual(told[8], {"record": "page", "page": 0, "entries": 5, "anonymous": True})
        self.assertEqual(told[18], {"record": "cpu", "cpu": 1, "lines": 1})
        turn = {"record": "turn", "turn": 48, "cpu": 1, "command": 0, "kind": "set_pte", "word": "trans", "of": 0}
        value = {"before": {"frame": 0}, "after": {"poison": True}, "end": "moved", "does": "inject 0", "script_line": 16}
        self.assertEqual(json.loads(self.json("trace", f"{LOCK}.hwp", f"{LOCK}.trace").out.splitlines()[49]), {**turn, **value})

    def test_sets_of_free_frames_are_numbered_through(self) -> None:
        script = self.file("script", "hwp 1\ncpus 1\nframes 70\ncpu 0\ninject 66\nend\n")
        text = "hwp-trace 1\n0 0 0 take_bit free 1 : 3f -> 3b : answered\n"
        lines = self.json("trace", script, self.file("trace", text)).out
        told = json.loads(lines.splitlines()[1])
        self.assertEqual((told["before"], told["after"]), ({"frames": [64, 65, 66, 67, 68, 69]}, {"frames": [64, 65, 67, 68, 69]}))
        self.assertEqual(self.json("text", self.file("lines", lines)).out, text)

    def test_other_lines_are_refused_at_their_place(self) -> None:
        trace = '{"record":"trace","version":1,"turns":1}\n'
        turns = [(trace + TURN.replace(old, new), 2, says) for old, new, says in REFUSED_TURNS]
        self.assertEqual(self.json("text", self.file("lines", trace + TURN)).out, "hwp-trace 1\n0 0 0 load_bad bad 0 : 2 : moved\n")
        for text, line, says in REFUSED + turns:
            with self.subTest(text=text[-80:]):
                path = self.file("lines", text)
                ended = self.json("text", path)
                self.assertEqual((ended.status, ended.out), (3, ""))
                self.assertTrue(ended.told.startswith(f"hwp-json: {path}:{f'{line}:' if line else ''} "), ended.told)
                self.assertIn(says, ended.told)

    @unittest.skipUnless(shutil.which("jq"), "there is no jq here")
    def test_jq_reads_them(self) -> None:
        lines = self.json("report", f"{LOCK}.hwp", self.file("report", REPORT)).out
        query = '[.[] | select(.record == "entry" and .cpu == 1) | .situation] | join(" ")'
        told = subprocess.run(["jq", "-rs", query], input=lines, capture_output=True, text=True, check=True)
        self.assertEqual(told.stdout, "anononly\n")

    def test_each_end_has_its_status(self) -> None:
        report, script = self.file("report", REPORT), f"{LOCK}.hwp"
        program = self.program("program", "#!/bin/sh\ncat > /dev/null\ncat \"$GIVES\"\nexit $ENDS\n")
        own = {"HWP_PROGRAM": program, "HWP_TRACE_PROGRAM": program}
        calls: list[tuple[list[str], str, int, int]] = [
            (["report", script], report, 0, 0),
            (["report", script], report, 8, 0),
            (["report", script], report, 6, 6),
            (["report", script], f"{LOCK}.trace", 0, 3),
            (["trace", script], f"{LOCK}.trace", 0, 0),
            (["trace", script, report], "", 0, 3),
            (["chrome", script, report], f"{LOCK}.trace", 0, 0),
            (["chrome", script, f"{self.folder}/none", f"{LOCK}.trace"], "", 0, 4),
            (["chrome", report], "", 0, 3),
            (["report", "-", "-"], "", 0, 2),
            (["nothing"], "", 0, 2),
            ([], "", 0, 2),
        ]
        for words, gives, ends, status in calls:
            with self.subTest(words=words, ends=ends):
                ended = self.json(*words, **own, GIVES=gives, ENDS=str(ends))
                self.assertEqual((ended.status, ended.out == ""), (status, status != 0), ended.told)


class Chrome(Folder):
    """Chrome traces."""

    def chrome(self, report: str) -> dict[str, Any]:
        """The Chrome trace of LOCK with this report."""
        told = call("hwp-json", main, ["chrome", f"{LOCK}.hwp", self.file("report", report), f"{LOCK}.trace"], {})
        self.assertEqual((told.status, told.told), (0, ""))
        data: dict[str, Any] = json.loads(told.out)
        return data

    def instants(self, data: dict[str, Any]) -> list[tuple[str, str, int]]:
        """The instants: the track, the name, and behind which turn."""
        return [(self.tracks(data)[(e["pid"], e["tid"])], e["name"], e["ts"] - 1) for e in data["traceEvents"] if e["ph"] == "i"]

    def tracks(self, data: dict[str, Any]) -> dict[tuple[int, int], str]:
        """The names of the tracks."""
        return {(e["pid"], e["tid"]): e["args"]["name"] for e in data["traceEvents"] if e["name"] == "thread_name"}

    def test_spans_and_instants_are_those_of_the_turns(self) -> None:
        data = self.chrome(REPORT)
        self.assertEqual(list(chrome_format.faults(data)), [])
        names, spans = self.tracks(data), [event for event in data["traceEvents"] if event["ph"] == "X"]
        told = [(names[(e["pid"], e["tid"])], e["name"], e["ts"], e["ts"] + e["dur"] - 1) for e in spans if e["cat"] != "step"]
        self.assertEqual(sorted(told), sorted(SPANS))
        self.assertEqual(sorted(self.instants(data)), sorted(FAILURES))
        steps = [(e["tid"], e["ts"], e["dur"], e["name"]) for e in spans if e["cat"] == "step"]
        self.assertEqual(len(steps), 54)
        self.assertIn((1, 41, 1, "lock_frame frame 0"), steps)
        waits = next(e for e in spans if e["cat"] == "wait")
        self.assertEqual(waits["args"]["why"], "frame 0 is locked by processor 0 in its command 1 (load 0 0 0)")

    def test_signals_stand_where_they_are_sent(self) -> None:
        early = REPORT.replace("opt - 1 0\n", "opt - 1 1\n").replace("seen 0 default 0\n", "seen 0 early 0\nsignal 0 0 ao 0\n")
        self.assertEqual(sorted(self.instants(self.chrome(early))), sorted(FAILURES + SIGNALS))
        late = REPORT.replace("load 0 1 0 0 0 5", "load 0 1 0 0 sigbus 0")
        self.assertEqual(sorted(self.instants(self.chrome(late))), sorted(FAILURES + LATE))
        other = self.file("other", REPORT.replace("fail 1 0", "fail 0 0"))
        told = call("hwp-json", main, ["chrome", f"{LOCK}.hwp", other, f"{LOCK}.trace"], {})
        self.assertEqual((told.status, told.out), (3, ""))
        self.assertIn("report line 14: the trace has no such failure", told.told)

    def test_what_the_format_does_not_allow_is_seen(self) -> None:
        data = self.chrome(REPORT)
        at = next(n for n, event in enumerate(data["traceEvents"]) if event["ph"] == "X")
        for change, says in (
            ({"dur": None}, "dur is None"),
            ({"dur": -1}, "dur is -1"),
            ({"dur": 30}, "ends behind the span"),
            ({"ph": "Q"}, "ph is 'Q'"),
            ({"ts": "0"}, "ts is '0'"),
            ({"pid": None}, "pid is None"),
            ({"tid": 7}, "has no name"),
            ({"cat": None}, "cat is None"),
            ({"ph": "i", "s": "x"}, "s is 'x'"),
            ({"ph": "M"}, "metadata"),
            ({"name": 5}, "name is 5"),
        ):
            with self.subTest(change=change):
                other = copy.deepcopy(data)
                other["traceEvents"][at].update(change)
                self.assertIn(says, "; ".join(chrome_format.faults(other)))


if __name__ == "__main__":
    unittest.main()
