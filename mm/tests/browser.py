"""A headless Chromium for tests, spoken to over a pipe by the protocol of its developer tools. Nothing but Python is needed for that."""

from __future__ import annotations

import base64
import json
import os
import select
import shutil
import subprocess
import tempfile
import time
from typing import Any, Optional

NAMES = ("chromium", "chromium-browser", "google-chrome", "google-chrome-stable")
FLAGS = (
    "--headless=new",
    "--remote-debugging-pipe",
    "--no-first-run",
    "--no-default-browser-check",
    "--disable-background-networking",
    "--disable-component-update",
    "--disable-extensions",
    "--disable-gpu",
    "--disable-dev-shm-usage",
    "--mute-audio",
    "--hide-scrollbars",
    "--force-color-profile=srgb",
)
SECONDS = 120


def find_browser() -> Optional[str]:
    """The browser that $BROWSER_FOR_TESTS names, or a Chromium on the path."""
    named = os.environ.get("BROWSER_FOR_TESTS")
    return named or next(filter(None, map(shutil.which, NAMES)), None)


class Failed(Exception):
    """The browser has answered with an error, or not at all."""


class NoAnswer(Failed):
    """The browser has not answered in time, or has ended."""


class Browser:
    """A running browser with one page."""

    def __init__(self, path: str) -> None:
        self.room = tempfile.mkdtemp(prefix="mm-browser-")
        there, self.to = os.pipe()
        self.back, back = os.pipe()
        sandbox = ["--no-sandbox"] if os.geteuid() == 0 else []
        words = [path, *FLAGS, *sandbox, f"--user-data-dir={self.room}", "about:blank"]
        # The browser reads from descriptor 3 and writes to 4.
        script = f'exec "$@" 3<&{there} 4>&{back}'
        self.process = subprocess.Popen(
            ["bash", "-c", script, "bash", *words],
            stdin=subprocess.DEVNULL,
            stdout=subprocess.DEVNULL,
            stderr=subprocess.DEVNULL,
            pass_fds=(there, back),
        )
        os.close(there)
        os.close(back)
        self.rest, self.number, self.session = b"", 0, ""
        # What pages said on the console, and exceptions that nobody caught.
        self.complaints: list[str] = []
        # What pages asked for.
        self.asked: list[str] = []
        try:
            self._attach()
        except Failed:
            self.close()
            raise

    def _attach(self) -> None:
        target = self.call("Target.createTarget", url="about:blank")["targetId"]
        self.session = self.call("Target.attachToTarget", targetId=target, flatten=True)["sessionId"]
        for domain in ("Page", "Runtime", "Log", "Network", "Accessibility"):
            self.call(f"{domain}.enable")

    def __enter__(self) -> Browser:
        return self

    def __exit__(self, *_: Any) -> None:
        self.close()

    def close(self) -> None:
        try:
            self.session = ""
            self.call("Browser.close")
            self.process.wait(SECONDS)
        except (Failed, OSError, subprocess.TimeoutExpired):
            self.process.kill()
            self.process.wait()
        os.close(self.to)
        os.close(self.back)
        shutil.rmtree(self.room, ignore_errors=True)

    def _message(self, until: float) -> Any:
        while b"\0" not in self.rest:
            if not select.select([self.back], [], [], max(0, until - time.monotonic()))[0]:
                raise NoAnswer(f"the browser gives no answer in {SECONDS} seconds")
            more = os.read(self.back, 1 << 16)
            if not more:
                raise NoAnswer("the browser has ended")
            self.rest += more
        text, self.rest = self.rest.split(b"\0", 1)
        return json.loads(text)

    def _hear(self, message: Any) -> None:
        """Keeps what a page complained of."""
        told = message.get("params", {})
        if message.get("method") == "Runtime.exceptionThrown":
            detail = told["exceptionDetails"]
            self.complaints.append(detail.get("exception", {}).get("description") or detail["text"])
        elif message.get("method") == "Runtime.consoleAPICalled" and told["type"] in ("error", "warning", "assert"):
            self.complaints.append(" ".join(str(each.get("value", "")) for each in told["args"]))
        elif message.get("method") == "Network.requestWillBeSent":
            self.asked.append(told["request"]["url"])
        elif message.get("method") == "Log.entryAdded" and told["entry"]["level"] in ("error", "warning"):
            self.complaints.append(told["entry"]["text"])

    def call(self, method: str, **params: Any) -> Any:
        """The answer to a command of the protocol. If a page gives none and the browser does, the page is at fault."""
        try:
            return self._call(method, params)
        except NoAnswer:
            if not self.session:
                raise
            self.session = ""
            self._call("Browser.getVersion", {})
            raise Failed(f"{method}: the page gives no answer in {SECONDS} seconds") from None

    def _call(self, method: str, params: dict[str, Any]) -> Any:
        self.number += 1
        asked = {"id": self.number, "method": method, "params": params}
        if self.session:
            asked["sessionId"] = self.session
        os.write(self.to, json.dumps(asked).encode() + b"\0")
        until = time.monotonic() + SECONDS
        while True:
            message = self._message(until)
            if message.get("id") == self.number:
                if "error" in message:
                    raise Failed(f"{method}: {message['error']['message']}")
                return message["result"]
            self._hear(message)

    def run(self, script: str) -> Any:
        """The value of an expression in the page. A promise is waited for."""
        answer = self.call("Runtime.evaluate", expression=script, returnByValue=True, awaitPromise=True)
        if "exceptionDetails" in answer:
            raise Failed(answer["exceptionDetails"].get("exception", {}).get("description", "an exception"))
        return answer["result"].get("value")

    def open(self, path: str) -> float:
        """Opens a file; how many milliseconds it took until it was drawn."""
        answer = self.call("Page.navigate", url=f"file://{path}")
        if "errorText" in answer:
            raise Failed(f"{path}: {answer['errorText']}")
        return float(
            self.run(
                "new Promise((done) => { const look = () => document.readyState === 'complete' && document.documentElement"
                ".dataset.place !== undefined ? requestAnimationFrame(() => done(performance.now())) : setTimeout(look, 5); look(); })"
            )
        )

    def size(self, width: int, height: int, scale: float = 1, dark: bool = False, phone: bool = False) -> None:
        """The window, and whether the person wants a dark page."""
        self.call(
            "Emulation.setDeviceMetricsOverride", width=width, height=height, deviceScaleFactor=scale, mobile=phone
        )
        scheme = {"name": "prefers-color-scheme", "value": "dark" if dark else "light"}
        self.call("Emulation.setEmulatedMedia", features=[scheme])

    def key(self, name: str, text: str = "", shift: bool = False) -> None:
        """Presses a key, and waits until the page has drawn."""
        codes = {"ArrowLeft": 37, "ArrowUp": 38, "ArrowRight": 39, "ArrowDown": 40, "Home": 36, "End": 35, "Tab": 9}
        codes |= {"Enter": 13, "Escape": 27, " ": 32, "PageUp": 33, "PageDown": 34}
        code = codes.get(name, ord(name[0].upper()))
        more = {"text": text or (name if len(name) == 1 else "")} if len(name) == 1 or text else {}
        if name == "Enter":
            more = {"text": "\r"}
        for kind in ("keyDown", "keyUp"):
            self.call(
                "Input.dispatchKeyEvent",
                type=kind,
                key=name,
                code=name,
                windowsVirtualKeyCode=code,
                modifiers=8 if shift else 0,
                **(more if kind == "keyDown" else {}),
            )
        self.drawn()

    def drawn(self) -> None:
        """Waits until the next frame is there."""
        self.run("new Promise((done) => requestAnimationFrame(() => requestAnimationFrame(() => done(1))))")

    def click(self, x: float, y: float) -> None:
        for kind, buttons in (("mouseMoved", 0), ("mousePressed", 1), ("mouseReleased", 0)):
            self.call("Input.dispatchMouseEvent", type=kind, x=x, y=y, button="left", buttons=buttons, clickCount=1)
        self.drawn()

    def picture(self, path: str, whole: bool = False) -> None:
        """A screenshot of the window, or of the whole page."""
        shot = self.call("Page.captureScreenshot", format="png", captureBeyondViewport=whole)
        with open(path, "wb") as file:
            file.write(base64.b64decode(shot["data"]))
