"""A headless Chromium, driven over the pipes of its DevTools protocol. For tests alone."""
from __future__ import annotations

import base64
import json
import os
import subprocess
import tempfile
from collections import deque
from pathlib import Path
from typing import Any, Deque, Optional

Message = dict[str, Any]
KEYS = {
    "Enter": 13,
    "Tab": 9,
    "Escape": 27,
    "ArrowDown": 40,
    "ArrowUp": 38,
    "ArrowLeft": 37,
    "ArrowRight": 39,
    "Home": 36,
    "End": 35,
}


class Browser:
    """One browser with one page."""

    def __init__(self, program: str) -> None:
        self.folder = tempfile.TemporaryDirectory(prefix="hwp-view-")
        from_us, self.to_browser = os.pipe()
        self.from_browser, from_it = os.pipe()
        words = [
            program,
            "--headless=new",
            "--remote-debugging-pipe",
            f"--user-data-dir={self.folder.name}",
            "--disable-gpu",
        ]
        words += ["--no-first-run", "--hide-scrollbars", "--disable-extensions", "--disable-background-networking"]
        words += ["--no-sandbox"] if os.geteuid() == 0 else []
        start = f'exec "$@" 3<&{from_us} 4>&{from_it} 2> /dev/null'
        self.process = subprocess.Popen(["bash", "-c", start, "bash", *words], pass_fds=(from_us, from_it))
        os.close(from_us)
        os.close(from_it)
        self.bytes = b""
        self.number = 0
        self.events: Deque[Message] = deque()
        self.session: Optional[str] = None
        target = self.call("Target.createTarget", url="about:blank")["targetId"]
        self.session = self.call("Target.attachToTarget", targetId=target, flatten=True)["sessionId"]
        for domain in ("Page", "Runtime", "Network", "Log"):
            self.call(f"{domain}.enable")

    def close(self) -> None:
        """Ends the browser."""
        self.session = None
        self.call("Browser.close")
        self.process.wait(timeout=30)
        os.close(self.to_browser)
        os.close(self.from_browser)
        self.folder.cleanup()

    def _read(self) -> Message:
        while b"\0" not in self.bytes:
            more = os.read(self.from_browser, 1 << 20)
            if not more:
                raise RuntimeError("the browser has ended")
            self.bytes += more
        text, self.bytes = self.bytes.split(b"\0", 1)
        message: Message = json.loads(text)
        return message

    def call(self, method: str, **values: Any) -> Message:
        """Calls a method of the protocol, and answers its result."""
        self.number += 1
        message: Message = {"id": self.number, "method": method, "params": values}
        if self.session is not None:
            message["sessionId"] = self.session
        data = json.dumps(message).encode() + b"\0"
        while data:
            data = data[os.write(self.to_browser, data) :]
        while True:
            answer = self._read()
            if answer.get("id") == self.number:
                if "error" in answer:
                    raise RuntimeError(f"{method}: {answer['error']}")
                result: Message = answer["result"]
                return result
            if "method" in answer:
                self.events.append(answer)

    def take_events(self) -> list[Message]:
        """The events since they were last taken."""
        events = list(self.events)
        self.events.clear()
        return events

    def open(self, path: Path, fragment: str = "") -> list[Message]:
        """Opens a file afresh, waits until it is loaded, and answers the events of that."""
        self._go("about:blank")
        return self._go(path.resolve().as_uri() + fragment)

    def _go(self, url: str) -> list[Message]:
        self.take_events()
        self.call("Page.navigate", url=url)
        seen: list[Message] = []
        while True:
            seen += self.take_events()
            if any(event["method"] == "Page.loadEventFired" for event in seen):
                return seen
            message = self._read()
            if "method" in message:
                self.events.append(message)

    def seconds_to_open(self, path: Path) -> float:
        """Opens a page, and answers the seconds that its main thread worked on it, whatever else the machine does."""
        self.call("Performance.enable", timeDomain="threadTicks")
        self.open(path)
        self.run("new Promise(done => requestAnimationFrame(() => requestAnimationFrame(done)))")
        metrics = self.call("Performance.getMetrics")["metrics"]
        return float(next(metric["value"] for metric in metrics if metric["name"] == "TaskDuration"))

    def run(self, script: str) -> Any:
        """The value of a JavaScript expression."""
        result = self.call("Runtime.evaluate", expression=script, returnByValue=True, awaitPromise=True)
        if "exceptionDetails" in result:
            raise RuntimeError(str(result["exceptionDetails"]))
        return result["result"].get("value")

    def press(self, key: str) -> None:
        """Presses a key."""
        code = KEYS.get(key, ord(key.upper()[0]))
        values: Message = {
            "key": key,
            "windowsVirtualKeyCode": code,
            "code": key if key in KEYS else f"Key{key.upper()}",
        }
        if key == "Enter" or len(key) == 1:
            values["text"] = "\r" if key == "Enter" else key
        self.call("Input.dispatchKeyEvent", type="keyDown", **values)
        self.call("Input.dispatchKeyEvent", type="keyUp", **values)

    def point(self, x: float, y: float) -> None:
        """Moves the pointer."""
        self.call("Input.dispatchMouseEvent", type="mouseMoved", x=x, y=y)

    def click(self, x: float, y: float) -> None:
        """Clicks."""
        for kind in ("mousePressed", "mouseReleased"):
            self.call("Input.dispatchMouseEvent", type=kind, x=x, y=y, button="left", clickCount=1)

    def window(self, width: int, height: int, scheme: str) -> None:
        """Gives the page a size, and a light or a dark scheme."""
        self.call("Emulation.setDeviceMetricsOverride", width=width, height=height, deviceScaleFactor=1, mobile=False)
        self.call("Emulation.setEmulatedMedia", features=[{"name": "prefers-color-scheme", "value": scheme}])

    def picture(self, path: Path) -> None:
        """Writes a screenshot."""
        path.write_bytes(base64.b64decode(self.call("Page.captureScreenshot", format="png")["data"]))
