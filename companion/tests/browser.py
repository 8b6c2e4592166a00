"""A headless Chromium, driven through its debugging pipe; and what is looked at of a page in it."""

import base64
import fcntl
import json
import os
import shutil
import subprocess
import tempfile
import time
from pathlib import Path
from types import TracebackType
from typing import Any

CHROMIUM = next((path for path in map(shutil.which, ("chromium", "chromium-browser", "google-chrome")) if path), None)
SECONDS = 60
# Reads commands on 3, and writes answers and events on 4, each ended by a zero byte.
FLAGS = ("--headless=new", "--remote-debugging-pipe", "--no-sandbox", "--disable-gpu", "--disable-dev-shm-usage",
         "--hide-scrollbars", "--no-first-run", "--disable-extensions", "about:blank")


class Browser:
    def __init__(self) -> None:
        assert CHROMIUM
        # A process of its own may still write there when Chromium has ended.
        self.folder = tempfile.TemporaryDirectory(prefix="gasday-browser-", ignore_cleanup_errors=True)
        (reads, self.to), (self.back, writes) = os.pipe(), os.pipe()
        high = [fcntl.fcntl(number, fcntl.F_DUPFD, 10) for number in (reads, writes)]

        def give_pipes() -> None:
            os.dup2(high[0], 3)
            os.dup2(high[1], 4)

        self.process = subprocess.Popen([CHROMIUM, f"--user-data-dir={self.folder.name}", *FLAGS], pass_fds=(3, 4),
                                        preexec_fn=give_pipes, stdout=subprocess.DEVNULL, stderr=subprocess.DEVNULL)
        for number in (reads, writes, *high):
            os.close(number)
        self.waiting, self.number, self.session = b"", 0, ""
        self.events: list[dict[str, Any]] = []
        target = self.ask("Target.createTarget", url="about:blank")["targetId"]
        self.session = self.ask("Target.attachToTarget", targetId=target, flatten=True)["sessionId"]
        for domain in ("Page", "Runtime", "Log", "Network"):
            self.ask(f"{domain}.enable")

    def __enter__(self) -> "Browser":
        return self

    def __exit__(self, kind: type[BaseException] | None, error: BaseException | None, trace: TracebackType | None) -> None:
        self.session = ""
        try:
            self.ask("Browser.close")
            self.process.wait(10)
        except (OSError, RuntimeError, subprocess.TimeoutExpired):
            self.process.kill()
            self.process.wait()
        os.close(self.to)
        os.close(self.back)
        self.folder.cleanup()

    def message(self) -> dict[str, Any]:
        while b"\0" not in self.waiting:
            read = os.read(self.back, 1 << 20)
            if not read:
                raise RuntimeError("Chromium has ended")
            self.waiting += read
        first, _, self.waiting = self.waiting.partition(b"\0")
        told: dict[str, Any] = json.loads(first)
        return told

    def ask(self, method: str, **words: Any) -> dict[str, Any]:
        self.number += 1
        asked: dict[str, Any] = {"id": self.number, "method": method, "params": words}
        if self.session:
            asked["sessionId"] = self.session
        os.write(self.to, json.dumps(asked).encode() + b"\0")
        while (told := self.message()).get("id") != self.number:
            self.events.append(told)
        if "error" in told:
            raise RuntimeError(f"{method}: {told['error']}")
        result: dict[str, Any] = told["result"]
        return result

    def open(self, path: str | Path, width: int, height: int, script: bool = True) -> None:
        """Opens a page in a window of a size; a narrow one as a phone shows it."""
        self.ask("Emulation.setDeviceMetricsOverride", width=width, height=height, deviceScaleFactor=1, mobile=width < 600)
        self.ask("Emulation.setScriptExecutionDisabled", value=not script)
        self.events.clear()
        self.ask("Page.navigate", url=Path(path).resolve().as_uri())
        end = time.monotonic() + SECONDS
        while not any(event.get("method") == "Page.loadEventFired" for event in self.events):
            if time.monotonic() > end:
                raise RuntimeError("the page isn't loaded")
            self.events.append(self.message())

    def value(self, expression: str) -> Any:
        """What an expression of the page comes to."""
        told = self.ask("Runtime.evaluate", expression=expression, returnByValue=True, awaitPromise=True)
        if "exceptionDetails" in told:
            raise RuntimeError(told["exceptionDetails"]["exception"].get("description", "an exception"))
        return told["result"].get("value")

    def faults(self) -> list[str]:
        """What the page has told of errors, and what it asked for beside itself."""
        found = []
        for event in self.events:
            method, words = event.get("method"), event.get("params", {})
            if method == "Runtime.exceptionThrown" or method == "Log.entryAdded" and words["entry"]["level"] == "error":
                found.append(json.dumps(words))
            if method == "Network.requestWillBeSent" and not words["request"]["url"].startswith(("file:", "data:")):
                found.append(words["request"]["url"])
        return found

    def press(self, key: str) -> None:
        codes = {"Tab": 9, "Enter": 13}
        for kind in ("rawKeyDown", "char", "keyUp"):
            if kind == "char" and key != "Enter":
                continue
            self.ask("Input.dispatchKeyEvent", type=kind, key=key, code=key, windowsVirtualKeyCode=codes[key],
                     **({"text": "\r"} if kind == "char" else {}))

    def drag(self, start: tuple[float, float], end: tuple[float, float]) -> None:
        for kind, (x, y) in (("mousePressed", start), ("mouseMoved", end), ("mouseReleased", end)):
            self.ask("Input.dispatchMouseEvent", type=kind, x=x, y=y, button="left", clickCount=1,
                     buttons=0 if kind == "mouseReleased" else 1)

    def media(self, name: str) -> None:
        self.ask("Emulation.setEmulatedMedia", media=name)

    def screenshot(self, path: str | Path, whole: bool = True) -> None:
        told = self.ask("Page.captureScreenshot", format="png", captureBeyondViewport=whole)
        Path(path).write_bytes(base64.b64decode(told["data"]))

    def pdf(self) -> bytes:
        return base64.b64decode(self.ask("Page.printToPDF", printBackground=True)["data"])
