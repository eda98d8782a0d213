"""A look at what is drawn: the pages of all examples, and of a large run, in a headless browser. Started by `look`."""
from __future__ import annotations

import re
import subprocess
import sys
import tempfile
import time
from pathlib import Path
from typing import Any

from hwp_view import large, test_trace
from hwp_view.browser import Browser, Message
from hwp_view.page import page_html
from hwp_view.report import read_report
from hwp_view.script import read_script

HERE = Path(__file__).resolve().parent
ROOT = HERE.parents[1]
WIDTHS = (320, 400, 560, 768, 1024, 1600)
PICTURED = (400, 1600)
ENTRY = r"(?:in|map|free|drop|sync|out|soft|load|store|mce|fail) "
OF_ITEMS = rf"{ENTRY}|frame |poisoned |unpoisoned |seen |signal |[0-9]|stop [0-9]"
MOST_PRESSES = 2000
MOST_SECONDS_TO_OPEN = 1.5
FRAMES = "new Promise(done => { let n = 15; const next = () => (--n ? requestAnimationFrame(next) : done()); next(); })"


def count(pattern: str, text: str) -> int:
    """How many lines of a text begin so."""
    return len(re.findall(f"^(?:{pattern})", text, re.MULTILINE))


def commands_of(script: str) -> dict[int, str]:
    """The lines of the commands of a script, by their numbers."""
    lines: dict[int, str] = {}
    is_listed = False
    for number, line in enumerate(script.split("\n"), 1):
        first = line.split(" ")[0]
        if first in ("cpu", "schedule", "end"):
            is_listed = first == "cpu"
        elif is_listed and line and not line.startswith("#"):
            lines[number] = line
    return lines


class Look:
    """The looks at one page after another, and what was found wrong."""

    def __init__(self, browser: Browser, pictures: Path) -> None:
        self.browser = browser
        self.pictures = pictures
        self.faults: list[str] = []
        self.name = ""

    def want(self, is_right: bool, what: str) -> None:
        """Notes a fault where something isn't right."""
        if not is_right:
            self.faults.append(f"{self.name}: {what}")
            print(f"look: {self.faults[-1]}", file=sys.stderr)

    def ask(self, call: str) -> Any:
        """Asks one of the functions in looking.js."""
        return self.browser.run(f"window.look.{call}")

    def open(self, path: Path, name: str, width: int) -> None:
        """Opens a page. It may ask for nothing but itself, and may report no error."""
        self.name = name
        self.browser.window(width, 900, "light")
        events = self.browser.open(path)
        self.browser.run("window.look = " + (HERE / "looking.js").read_text(encoding="utf-8").rstrip().rstrip(";"))
        asked = [
            event["params"]["request"]["url"] for event in events if event["method"] == "Network.requestWillBeSent"
        ]
        self.want(asked == [path.resolve().as_uri()], f"asks for {asked}")
        self.check_events(events)

    def check_events(self, events: list[Message]) -> None:
        """No exception, and nothing in the browser's log."""
        for event in events:
            is_fault = event["method"] in ("Runtime.exceptionThrown", "Log.entryAdded")
            self.want(not is_fault, f"an error: {event['params'] if is_fault else ''}")

    def counts(self, script: str, report: str) -> None:
        """As many items are drawn as the script has commands, and the report entries, frames, marks and signals."""
        wanted = {
            "commands": len(commands_of(script)),
            "entries": count(ENTRY, report),
            "frames": count("frame ", report),
            "marks": count("poisoned |unpoisoned ", report),
            "signals": count("signal ", report),
            "stops": count("stop [0-9]", report),
        }
        drawn = self.ask("counts()")
        self.want(drawn == wanted, f"draws {drawn}, not {wanted}")

    def looks(self, is_pictured: bool) -> None:
        """At each width, in light and dark: nothing overflows and all texts stand out."""
        grounds = set()
        for scheme in ("light", "dark"):
            for width in WIDTHS:
                self.browser.window(width, 900, scheme)
                over = self.ask("overflow()")
                self.want(not over, f"at {width} px: too wide: {over[:4]}")
                if width in PICTURED:
                    faint = self.ask("faint()")
                    self.want(not faint, f"{scheme}: too faint: {faint[:4]}")
                    if is_pictured:
                        height = self.browser.run("document.documentElement.scrollHeight")
                        self.browser.window(width, height, scheme)
                        self.browser.picture(self.pictures / f"{self.name}-{width}-{scheme}.png")
            grounds.add(self.browser.run("getComputedStyle(document.body).backgroundColor"))
        self.want(len(grounds) == 2, "light and dark have the same ground")

    def fresh(self, path: Path, width: int) -> None:
        """Each key works on a page just opened, and until then the pane takes little of the window."""
        for key in ("ArrowDown", "ArrowRight", "Home", "End", "f", "r", "s"):
            self.open(path, self.name, width)
            share = self.browser.run("document.getElementById('pane').offsetHeight / innerHeight")
            self.want(share < 0.1, f"at {width} px the empty pane takes {share:.0%} of the height")
            kinds = {"f": ".k-failure, .k-stop", "r": ".k-refusal", "s": ".k-signal"}.get(key, ".it")
            is_there = self.browser.run(f"[...document.querySelectorAll('.it')].some(el => el.matches('{kinds}'))")
            self.browser.press(key)
            self.browser.run(FRAMES)
            focus = self.ask("focus()")
            self.want((focus["id"] is not None) == is_there, f"{key} on a page just opened leads to {focus['id']}")
            self.want(not is_there or focus.get("isSeen") is True, f"{key} on a page just opened leads to what isn't seen")

    def in_view(self, key: str, width: int) -> None:
        """What a key leads to is in view, also when the lanes around it have found their heights."""
        self.browser.window(width, 900, "light")
        self.browser.press("Home")
        seen: list[str] = []
        while len(seen) < MOST_PRESSES:
            self.browser.press(key)
            self.browser.run(FRAMES)
            focus = self.ask("focus()")
            if focus["id"] in seen:
                break
            seen.append(focus["id"])
            self.want(focus.get("isSeen") is True, f"at {width} px: {key} leads to {focus['id']}, which isn't seen")
        self.want(len(seen) > 1, f"{key} leads to {seen}")

    def filters(self) -> None:
        """A filter puts other items away, keys go through what is left, and the strip leads to a place of the run."""
        self.browser.window(1600, 900, "light")
        self.browser.press("/")
        self.want(self.browser.run("document.activeElement.id") == "by-text", "/ doesn't lead to the search")
        choose = "document.getElementById('by-{}').value = '{}'"
        shown = "[...document.querySelectorAll('.it')].filter(el => el.checkVisibility()).map(el => el.id)"
        self.browser.run(choose.format("page", "0") + "; " + choose.format("kind", "failure"))
        self.browser.run("document.getElementById('filters').requestSubmit()")
        kept = self.browser.run(shown)
        is_failure = self.browser.run(
            "[...document.querySelectorAll('.it')].filter(el => el.checkVisibility())"
            ".every(el => el.matches('.k-failure') || el.querySelector('.k-failure'))"
        )
        self.want(is_failure, f"with a filter for failures of page 0 {kept} are shown")
        if kept:
            self.browser.press("End")
            self.want(self.ask("focus()")["id"] in kept, "End leads to what is put away")
        self.browser.run(choose.format("page", "") + "; " + choose.format("kind", ""))
        self.browser.run("document.getElementById('filters').requestSubmit()")
        self.want(len(self.browser.run(shown)) > len(kept), "no filter shows no more than a filter")
        place = self.browser.run(
            "(() => { const box = document.getElementById('strip').getBoundingClientRect();"
            " return [box.right - 2, box.top + 9]; })()"
        )
        self.browser.click(*place)
        at = self.browser.run("JSON.parse(document.getElementById('order').textContent).items.at(-1)[0]")
        self.want(self.ask("focus()")["id"] == at, f"the end of the strip leads to {self.ask('focus()')['id']}, not {at}")

    def keyboard(self, width: int, script: str, report: str) -> None:
        """Tab leads to the first item and the arrow to each other one, each of which is seen and shows its lines."""
        self.browser.window(width, 900, "light")
        self.browser.run("document.activeElement.blur()")
        presses = 0
        while self.ask("focus()")["id"] is None and presses < 20:
            self.browser.press("Tab")
            presses += 1
        self.want(self.ask("focus()")["id"] is not None, "Tab leads to no item")
        self.browser.press("Home")
        seen: list[str] = []
        shown: set[tuple[str, str]] = set()
        while len(seen) < MOST_PRESSES:
            focus = self.ask("focus()")
            if focus["id"] is None or focus["id"] in seen[-1:]:
                break
            seen.append(focus["id"])
            shown.update((what, text) for what, text in focus["lines"])
            self.want(
                focus["isSeen"] and focus["outline"] >= 2, f"at {width} px: {focus['id']} has the focus and isn't seen"
            )
            self.browser.press("ArrowDown")
        items = self.browser.run("window.look.items().map(el => el.id)")
        self.want(sorted(seen) == sorted(items), f"the focus goes to {len(seen)} of {len(items)} items")
        wanted = {(f"script line {number}", " ".join(line.split())) for number, line in commands_of(script).items()}
        for number, line in enumerate(report.split("\n"), 1):
            if re.match(OF_ITEMS, line):
                wanted.add((f"report line {number}", line))
        self.want(shown == wanted, f"lines shown and wanted differ: {sorted(shown ^ wanted)[:4]}")

    def steps(self, report: str) -> None:
        """The keys for failures, refusals and signals, for what belongs together, and for the pin."""
        for key, kinds in (("f", ("k-failure", "k-stop")), ("r", ("k-refusal",)), ("s", ("k-signal",))):
            self.browser.press("Home")
            there = self.browser.run(f"document.querySelectorAll('.it.{',.it.'.join(kinds)}').length")
            if there > self.browser.run(f"Number(document.activeElement.matches('.{',.'.join(kinds)}'))"):
                self.browser.press(key)
                kinds_of = str(self.ask("focus()")["kinds"]).split()
                self.want(any(kind in kinds_of for kind in kinds), f"{key} leads to {kinds_of}")
        answer = re.search(
            r"^cpu 0 .*\n(?:.*\n)*?([0-9]+) (?:stored|done|sigbus) ([0-9]+) ([0-9]+)$", report, re.MULTILINE
        )
        if answer:
            command, entry = f"c0-{answer.group(1)}", f"e{answer.group(2)}-{answer.group(3)}"
            self.browser.run(f"document.getElementById('{command}').focus()")
            for start, goal in ((command, entry), (entry, command)):
                ring = [start]
                while len(ring) < 50 and (len(ring) == 1 or ring[-1] != start):
                    self.browser.press("ArrowRight")
                    ring.append(self.ask("focus()")["id"])
                self.want(goal in ring, f"the right arrow at {start} leads to {ring}, never to {goal}")
                self.browser.run(f"document.getElementById('{goal}').focus()")
        self.pin()

    def pin(self) -> None:
        """Enter pins an item, which stays while the focus goes on, and Escape lets it go."""
        self.browser.press("Home")
        self.browser.press("ArrowDown")
        focus = self.ask("focus()")
        self.browser.press("Enter")
        self.browser.press("ArrowDown")
        pinned = self.ask("pinned()")
        held = pinned["isShown"] and pinned["id"] == focus["id"] and focus["lines"][-1][1] in pinned["text"]
        self.want(held, f"Enter at {focus['id']} pins {pinned}")
        self.browser.press("Escape")
        self.want(not self.ask("pinned()")["isShown"], "Escape doesn't let go")

    def pointer(self) -> None:
        """Pointing at a command shows its line."""
        self.browser.window(1600, 900, "light")
        place = self.browser.run(
            "(() => { const el = document.querySelector('.com code'); el.scrollIntoView({block: 'center'}); "
            "const box = el.getBoundingClientRect(); return [box.left + 4, box.top + 4, el.textContent]; })()"
        )
        self.browser.point(5, 5)
        self.browser.point(place[0], place[1])
        lines = self.browser.run("[...document.querySelectorAll('#now dd')].map(dd => dd.textContent)")
        self.want(place[2] in lines, f"pointing at {place[2]} shows {lines}")
        self.browser.point(5, 5)

    def heard(self) -> None:
        """What a screen reader has to go by: landmarks, headings, lists, and names for links and buttons."""
        nodes = [node for node in self.browser.call("Accessibility.getFullAXTree")["nodes"] if not node.get("ignored")]
        roles = [node["role"]["value"] for node in nodes]
        for role in ("banner", "main", "complementary", "heading", "list", "region"):
            self.want(role in roles, f"a screen reader finds no {role}")
        items = len(self.browser.run("window.look.items().map(el => el.id)"))
        self.want(roles.count("listitem") >= items, f"{roles.count('listitem')} list items for {items} items")
        for node in nodes:
            if node["role"]["value"] in ("link", "button", "heading", "region", "complementary"):
                self.want(bool(node.get("name", {}).get("value")), f"a {node['role']['value']} without a name")
        self.browser.call("Accessibility.disable")


def write_page(script: Path, report: Path, page: Path) -> float:
    """Writes a page by the program, and answers the seconds that took."""
    begun = time.monotonic()
    with page.open("wb") as out:
        subprocess.run([ROOT / "bin" / "hwp-view", script, report], stdout=out, check=True)
    return time.monotonic() - begun


def look_at_example(look: Look, script: Path, folder: Path) -> None:
    """All looks at the page of an example."""
    report = script.with_suffix(".report")
    page = folder / f"{script.stem}.html"
    write_page(script, report, page)
    texts = script.read_text(), report.read_text()
    look.open(page, script.stem, 1600)
    look.counts(*texts)
    look.looks(is_pictured=True)
    for width in PICTURED:
        look.keyboard(width, *texts)
    look.steps(texts[1])
    look.pointer()
    look.filters()
    look.heard()
    look.check_events(look.browser.take_events())
    for width in PICTURED:
        look.fresh(page, width)
    look.browser.open(page, "#f0")
    look.want(look.browser.run("document.activeElement.id") == "f0", "#f0 doesn't lead to frame 0")


def look_at_trace(look: Look, folder: Path) -> None:
    """The page of a worked trace: the wait is found by its key, and shows its line. Then two runs side by side."""
    script, report, page = test_trace.WORKED, folder / "traced.report", folder / "traced.html"
    report.write_text(test_trace.REPORT)
    with page.open("wb") as out:
        command = [ROOT / "bin" / "hwp-view", script, report, script.with_suffix(".trace")]
        subprocess.run(command, stdout=out, check=True)
    look.open(page, "traced", 1600)
    look.looks(is_pictured=True)
    look.browser.press("w")
    focus = look.ask("focus()")
    look.want(focus["id"] == "c1-0", f"w leads to {focus['id']}")
    line = ["trace line 43", "41 1 0 lock_frame frame 0 : count 4 owner 0 locked poisoned : waits"]
    look.want(line in focus.get("lines", []), f"the wait shows {focus.get('lines')}")
    other = folder / "other.report"
    other.write_text(test_trace.REPORT.replace("value 5", "value 6").replace("0 0 5\nfail", "0 0 6\nfail"))
    with page.open("wb") as out:
        subprocess.run([ROOT / "bin" / "hwp-view", "--beside", script, report, script, other], stdout=out, check=True)
    look.open(page, "beside", 400)
    for key, wanted in (("n", "d0"), ("n", "d1"), ("p", "d0"), ("d", "d0")):
        look.browser.press(key)
        at = look.browser.run("document.activeElement.id")
        look.want(at == wanted, f"{key} leads to {at}, not {wanted}")
    shown = look.browser.run("[...document.querySelectorAll('tbody tr')].filter(el => el.checkVisibility()).map(el => el.id)")
    look.want(shown == ["d0", "d1", "d2"], f"d shows {shown}")
    look.want(not look.ask("overflow()"), f"too wide: {look.ask('overflow()')[:4]}")
    look.check_events(look.browser.take_events())


def seconds_to_draw(script: Path, report: Path) -> float:
    """The processor's seconds for a page."""
    begun = time.process_time()
    read = read_script(script.read_bytes())
    sum(len(piece) for piece in page_html(read, read_report(report.read_bytes(), read), script.name))
    return time.process_time() - begun


def seconds_to_open(program: str, page: Path) -> float:
    """The seconds that a browser that has just begun takes for a page."""
    browser = Browser(program)
    try:
        browser.window(1600, 900, "light")
        return browser.seconds_to_open(page)
    finally:
        browser.close()


def look_at_large(look: Look, folder: Path, program: str) -> None:
    """A large run: its page is made in time that grows with the run and not faster, and one gets about in it."""
    small, big = large.write(folder, 250), large.write(folder, 1000)
    write_page(*small, folder / "small.html")
    look.open(folder / "small.html", "large of 1,000 commands", 400)
    for key in ("s", "f"):
        look.in_view(key, 400)
    less, more = min(seconds_to_draw(*small) for _ in range(3)), min(seconds_to_draw(*big) for _ in range(3))
    page = folder / "large.html"
    written = write_page(*big, page)
    opened = seconds_to_open(program, page)
    look.open(page, "large", 1600)
    look.want(more < 8 * less, f"four times the commands take {more / less:.1f} times as long")
    script, report = (path.read_text() for path in big)
    drawn = look.browser.run(
        "({commands: document.querySelectorAll('.com').length, entries: document.querySelectorAll('.ent').length})"
    )
    look.want(drawn == {"commands": 4000, "entries": count(ENTRY, report)}, f"draws {drawn}")
    look.want(len(commands_of(script)) == 4000, "the large run has other commands")
    step = walk_in_large(look)
    size = page.stat().st_size / 1e6
    print(
        f"look: large: 4,000 commands, {drawn['entries']:,} entries, {size:.1f} MB, written in {written:.1f} s, ",
        end="",
    )
    print(
        f"opened in {opened:.1f} s, a step in {step * 1000:.0f} ms; 4 times the commands take {more / less:.1f} times as long"
    )
    look.want(opened < MOST_SECONDS_TO_OPEN, f"the page takes {opened:.2f} s of a processor to open")
    look.want(step < 1, "too slow to be of use")


def walk_in_large(look: Look) -> float:
    """Goes about in the page of the large run, and answers the seconds of a step."""
    look.browser.run("document.getElementById('c0-0').focus()")
    begun = time.monotonic()
    for _ in range(50):
        look.browser.press("ArrowDown")
    step = (time.monotonic() - begun) / 50
    for key in ("f", "s", "ArrowRight", "End", "Home"):
        look.browser.press(key)
        look.want(look.ask("focus()")["isSeen"], f"{key} leads to what isn't seen")
    look.browser.run("document.getElementById('c0-0').focus(); document.querySelector('[data-go=narrow]').click()")
    lanes = "[...document.querySelectorAll('.lane:has(.ent)')].filter(el => el.checkVisibility())"
    look.want(look.browser.run(f"{lanes}.length") == 1, "with only its pages, c0-0 has other pages than its own")
    look.browser.press("ArrowDown")
    look.want(look.browser.run(f"{lanes}[0].contains(document.activeElement)"), "the lane of the item in focus is away")
    look.browser.picture(look.pictures / "large-1600-light.png")
    for width in PICTURED:
        look.browser.window(width, 900, "light")
        wide = look.browser.run("document.documentElement.scrollWidth")
        look.want(wide <= width, f"{wide} px wide at {width} px")
    look.check_events(look.browser.take_events())
    return step


def main(program: str, pictures: Path) -> int:
    """Looks at all pages."""
    pictures.mkdir(parents=True, exist_ok=True)
    browser = Browser(program)
    look = Look(browser, pictures)
    scripts = sorted((ROOT / "examples").glob("*.hwp"))
    look.want(bool(scripts), "there are no examples")
    try:
        with tempfile.TemporaryDirectory(prefix="hwp-view-") as folder:
            for script in scripts:
                look_at_example(look, script, Path(folder))
            look_at_large(look, Path(folder), program)
            look_at_trace(look, Path(folder))
    finally:
        browser.close()
    found = f"{len(look.faults)} faults" if look.faults else "all as wanted"
    print(f"look: {len(scripts)} examples and a large run, {found}; pictures in {pictures}")
    return 1 if look.faults else 0


if __name__ == "__main__":
    sys.exit(main(sys.argv[1], Path(sys.argv[2])))
