"""Chromium without a window, controlled over a pipe by its DevTools protocol: pages, scripts in them, keys, widths and pictures."""

from __future__ import annotations

import base64
import contextlib
import json
import os
import pathlib
import subprocess
import sys
import tempfile
import time
from typing import Any, Dict, Iterator, List

# The browser reads commands from descriptor 3 and answers on 4.
START = "import os, sys; os.dup2(int(sys.argv[1]), 3); os.dup2(int(sys.argv[2]), 4); os.execvp(sys.argv[3], sys.argv[3:])"
WORDS = ["--headless", "--no-sandbox", "--disable-gpu", "--disable-dev-shm-usage", "--no-first-run", "--remote-debugging-pipe"]
# The keys that the checks press, with their codes.
KEYS = {"Tab": 9, "Enter": 13, "Escape": 27, "F9": 120}


class Page:
    """A page that is open."""

    def __init__(self, pipe: Pipe, session: str) -> None:
        self.pipe, self.session = pipe, session

    def call(self, method: str, **given: Any) -> Dict[str, Any]:
        """What a command of the protocol answers."""
        return self.pipe.call(method, given, self.session)

    def open(self, url: str) -> None:
        """Opens another address, and waits until it is loaded."""
        self.call("Page.navigate", url=url)
        self.wait("document.readyState === 'complete'")

    def run(self, script: str) -> Any:
        """What an expression comes to in the page; a promise is waited for."""
        answer = self.call("Runtime.evaluate", expression=script, awaitPromise=True, returnByValue=True)
        if "exceptionDetails" in answer:
            raise AssertionError(f"{script[:80]}: {answer['exceptionDetails'].get('exception', {}).get('description', answer)}")
        return answer["result"].get("value")

    def wait(self, script: str, seconds: float = 60) -> Any:
        """Waits until an expression holds in the page. What it comes to then."""
        ends = time.monotonic() + seconds
        while time.monotonic() < ends:
            found = self.run(script)
            if found:
                return found
            time.sleep(0.02)
        raise AssertionError(f"the page never had: {script[:200]}")

    def processor_seconds(self) -> float:
        """How long the page's thread had a processor so far. "Performance" has to be enabled for that, with the ticks of threads."""
        found = {it["name"]: it["value"] for it in self.call("Performance.getMetrics")["metrics"]}
        return float(found["ThreadTime"])

    def look(self, width: int, height: int, is_dark: bool = False) -> None:
        """Gives the page a width and a height in pixels, for who likes light pages or dark ones."""
        self.call("Emulation.setDeviceMetricsOverride", width=width, height=height, deviceScaleFactor=1, mobile=width < 600)
        scheme = {"name": "prefers-color-scheme", "value": "dark" if is_dark else "light"}
        self.call("Emulation.setEmulatedMedia", features=[scheme])

    def picture(self, path: pathlib.Path, is_whole: bool = True) -> None:
        """Writes what the page looks like to a file."""
        answer = self.call("Page.captureScreenshot", format="png", captureBeyondViewport=is_whole)
        path.write_bytes(base64.b64decode(answer["data"]))

    def press(self, key: str, modifiers: int = 0) -> None:
        """Presses a key. Of the modifiers 1 is Alt, 2 Ctrl and 8 Shift."""
        given = {"key": key, "code": key, "windowsVirtualKeyCode": KEYS[key], "modifiers": modifiers}
        text = {"text": "\r"} if key == "Enter" and modifiers == 0 else {}
        self.call("Input.dispatchKeyEvent", type="keyDown" if text else "rawKeyDown", **given, **text)
        self.call("Input.dispatchKeyEvent", type="keyUp", **given)

    def type(self, text: str) -> None:
        """Types a text where the focus is."""
        self.call("Input.insertText", text=text)

    def click(self, selector: str) -> None:
        """Presses the left button of the mouse on the middle of an element."""
        place = self.run(
            f"(() => {{ const it = document.querySelector({json.dumps(selector)}); it.scrollIntoView({{block: 'center'}});"
            " const box = it.getBoundingClientRect(); return [box.x + box.width / 2, box.y + box.height / 2]; })()"
        )
        for kind in ("mousePressed", "mouseReleased"):
            self.call("Input.dispatchMouseEvent", type=kind, x=place[0], y=place[1], button="left", clickCount=1)


class Pipe:
    """The two ends of the pipes to a browser, on which messages end with a zero byte."""

    def __init__(self, out: int, back: int) -> None:
        self.out, self.back, self.number, self.left = out, back, 0, b""
        # What pages wrote to their consoles, and errors of their scripts.
        self.told: List[str] = []

    def call(self, method: str, given: Dict[str, Any], session: str = "") -> Dict[str, Any]:
        """Sends a command and waits for its answer."""
        self.number += 1
        message = {"id": self.number, "method": method, "params": given, **({"sessionId": session} if session else {})}
        os.write(self.out, json.dumps(message).encode() + b"\0")
        while True:
            heard = self.hear()
            if heard.get("id") == self.number:
                if "error" in heard:
                    raise AssertionError(f"{method}: {heard['error']}")
                answer: Dict[str, Any] = heard["result"]
                return answer
            self.note(heard)

    def hear(self) -> Dict[str, Any]:
        """The next message."""
        while b"\0" not in self.left:
            more = os.read(self.back, 1 << 20)
            if not more:
                raise AssertionError("the browser has ended")
            self.left += more
        line, _, self.left = self.left.partition(b"\0")
        heard: Dict[str, Any] = json.loads(line)
        return heard

    def note(self, heard: Dict[str, Any]) -> None:
        """Keeps what a page told by itself."""
        given = heard.get("params", {})
        if heard.get("method") == "Runtime.exceptionThrown":
            self.told.append(json.dumps(given["exceptionDetails"])[:500])
        elif heard.get("method") == "Log.entryAdded" and given["entry"]["level"] == "error":
            self.told.append(given["entry"]["text"])


@contextlib.contextmanager
def browser(program: str) -> Iterator[Page]:
    """A browser with an empty page, which is ended afterwards."""
    (read_out, out), (back, write_back) = os.pipe(), os.pipe()
    with tempfile.TemporaryDirectory() as folder:
        words = [sys.executable, "-c", START, str(read_out), str(write_back), program, *WORDS, f"--user-data-dir={folder}", "about:blank"]
        none = subprocess.DEVNULL
        with subprocess.Popen(words, pass_fds=(read_out, write_back), stdin=none, stdout=none, stderr=none) as child:
            os.close(read_out)
            os.close(write_back)
            try:
                yield first_page(Pipe(out, back))
            finally:
                child.terminate()
                child.wait()
                os.close(out)
                os.close(back)
                # Its helpers write to the folder for a moment longer.
                time.sleep(0.3)


def first_page(pipe: Pipe) -> Page:
    """The page that the browser opened at its start."""
    target = next(it for it in pipe.call("Target.getTargets", {})["targetInfos"] if it["type"] == "page")
    session = pipe.call("Target.attachToTarget", {"targetId": target["targetId"], "flatten": True})["sessionId"]
    page = Page(pipe, session)
    for domain in ("Page", "Runtime", "Log"):
        page.call(f"{domain}.enable")
    return page
