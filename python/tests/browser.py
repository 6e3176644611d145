"""A browser without a window, for tests: Chromium over its debugging pipe, with nothing but the standard library."""

from __future__ import annotations

import base64
import json
import os
import shutil
import subprocess
import tempfile
from pathlib import Path
from typing import Any, Dict, List, Optional

NAMES = ("chromium", "chromium-browser", "google-chrome")

# The browser has its pipe at 3 (in) and 4 (out).
START = 'exec "$@" 3<&"$IN" 4>&"$OUT"'


def program() -> Optional[str]:
    """The browser that is installed."""
    return next(filter(None, map(shutil.which, NAMES)), None)


class Browser:
    """A browser with one page; what it asks the network for and what it complains of is kept."""

    def __init__(self) -> None:
        self.requests: List[str] = []
        self.complaints: List[str] = []
        self.events: List[str] = []
        self.count = 0
        self.folder = tempfile.mkdtemp()
        self._start()
        target = self.ask("Target.createTarget", url="about:blank")["targetId"]
        self.session: Optional[str] = self.ask("Target.attachToTarget", targetId=target, flatten=True)["sessionId"]
        for domain in ("Page", "Runtime", "Network", "Log"):
            self.ask(f"{domain}.enable")

    def _start(self) -> None:
        """Starts the program on two pipes."""
        self.session = None
        theirs_in, to_browser = os.pipe()
        from_browser, theirs_out = os.pipe()
        words = [str(program()), "--headless=new", "--no-sandbox", "--disable-gpu", "--no-first-run", "--remote-debugging-pipe"]
        self.process = subprocess.Popen(
            ["bash", "-c", START, "bash", *words, f"--user-data-dir={self.folder}"],
            pass_fds=(theirs_in, theirs_out),
            env={**os.environ, "IN": str(theirs_in), "OUT": str(theirs_out)},
            stderr=subprocess.DEVNULL,
        )
        os.close(theirs_in)
        os.close(theirs_out)
        self.to_browser, self.from_browser = os.fdopen(to_browser, "wb"), os.fdopen(from_browser, "rb")
        self.rest = b""

    def close(self) -> None:
        """Ends the program."""
        self.session = None
        self.ask("Browser.close")
        self.to_browser.close()
        self.from_browser.close()
        self.process.wait(30)
        shutil.rmtree(self.folder, ignore_errors=True)

    def _next(self) -> Dict[str, Any]:
        """The next message of the browser."""
        while b"\0" not in self.rest:
            part = os.read(self.from_browser.fileno(), 1 << 16)
            if not part:
                raise EOFError("the browser has ended")
            self.rest += part
        text, _, self.rest = self.rest.partition(b"\0")
        message: Dict[str, Any] = json.loads(text)
        self._keep(message)
        return message

    def _keep(self, message: Dict[str, Any]) -> None:
        """Keeps what a message says of the network and of faults."""
        method, more = message.get("method", ""), message.get("params", {})
        self.events.append(method)
        if method == "Network.requestWillBeSent":
            self.requests.append(more["request"]["url"])
        elif method in ("Runtime.exceptionThrown", "Log.entryAdded", "Runtime.consoleAPICalled"):
            self.complaints.append(json.dumps(more))

    def ask(self, method: str, **more: Any) -> Dict[str, Any]:
        """What the browser answers to a command."""
        self.count += 1
        message = {"id": self.count, "method": method, "params": more}
        if self.session:
            message["sessionId"] = self.session
        self.to_browser.write(json.dumps(message).encode() + b"\0")
        self.to_browser.flush()
        while True:
            answer = self._next()
            if answer.get("id") == self.count:
                if "error" in answer:
                    raise RuntimeError(f"{method}: {answer['error']}")
                return dict(answer["result"])

    def open(self, file: Path, width: int, height: int) -> None:
        """Shows a file on a screen of this size."""
        size = {"width": width, "height": height, "deviceScaleFactor": 1, "mobile": width < 600}
        self.ask("Emulation.setDeviceMetricsOverride", **size)
        self.requests.clear()
        self.complaints.clear()
        self.events.clear()
        self.ask("Page.navigate", url=file.resolve().as_uri())
        while "Page.loadEventFired" not in self.events:
            self._next()

    def run(self, script: str) -> Any:
        """The value of an expression on the page."""
        answer = self.ask("Runtime.evaluate", expression=script, returnByValue=True)
        if "exceptionDetails" in answer:
            raise RuntimeError(f"{script}: {answer['exceptionDetails']}")
        return answer["result"].get("value")

    def click(self, selector: str) -> None:
        """A press of the mouse in the middle of an element, which is brought into sight first."""
        where = (
            f"(() => {{ const one = document.querySelector({json.dumps(selector)}); one.scrollIntoView({{block: 'center'}});"
        )
        box = self.run(where + " const b = one.getBoundingClientRect(); return [b.x + b.width / 2, b.y + b.height / 2]; })()")
        for kind in ("mousePressed", "mouseReleased"):
            self.ask("Input.dispatchMouseEvent", type=kind, x=box[0], y=box[1], button="left", clickCount=1)

    def picture(self, file: Path) -> None:
        """Writes a picture of all of the page."""
        size = self.ask("Page.getLayoutMetrics")["cssContentSize"]
        clip = {"x": 0, "y": 0, "width": size["width"], "height": size["height"], "scale": 1}
        data = self.ask("Page.captureScreenshot", format="png", captureBeyondViewport=True, clip=clip)["data"]
        file.parent.mkdir(parents=True, exist_ok=True)
        file.write_bytes(base64.b64decode(data))
