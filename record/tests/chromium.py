"""Debian's Chromium without a screen, driven by the DevTools protocol over a pipe."""

from __future__ import annotations

import base64
import json
import os
import shutil
import subprocess
import tempfile
from collections.abc import Iterator
from contextlib import contextmanager
from pathlib import Path
from typing import Any, BinaryIO

CHROMIUM = shutil.which("chromium")
#: Where the browser reads commands and writes answers (--remote-debugging-pipe).
_READS, _WRITES = 3, 4


class Tab:
    """One tab of a browser."""

    def __init__(self, commands: BinaryIO, answers: BinaryIO) -> None:
        self._commands, self._answers = commands, answers
        self._number = 0
        self._session: str | None = None
        target = self("Target.createTarget", url="about:blank")["targetId"]
        self._session = self("Target.attachToTarget", targetId=target, flatten=True)["sessionId"]
        #: What the page broke of its own policy, and what it threw.
        self.faults: list[str] = []
        for domain in ("Page", "Runtime", "Log", "Network"):
            self(f"{domain}.enable")

    def __call__(self, method: str, **parameters: Any) -> dict[str, Any]:
        """Sends a command and gives its answer."""
        self._number += 1
        message = {"id": self._number, "method": method, "params": parameters}
        if self._session:
            message["sessionId"] = self._session
        self._commands.write(json.dumps(message).encode() + b"\0")
        self._commands.flush()
        while True:
            said = self._next()
            if said.get("id") == self._number:
                if "error" in said:
                    raise AssertionError(f"{method}: {said['error']}")
                return dict(said["result"])

    def _next(self) -> dict[str, Any]:
        """The next message of the browser; faults of the page are kept."""
        text = bytearray()
        while (letter := self._answers.read(1)) != b"\0":
            if not letter:
                raise AssertionError("the browser is gone")
            text += letter
        said: dict[str, Any] = json.loads(text)
        match said.get("method"):
            case "Log.entryAdded":
                self.faults.append(said["params"]["entry"]["text"])
            case "Runtime.exceptionThrown":
                self.faults.append(str(said["params"]["exceptionDetails"]))
            case "Network.requestWillBeSent" if not said["params"]["request"]["url"].startswith("file:"):
                self.faults.append(f"asks for {said['params']['request']['url']}")
        return said

    def open(self, file: Path, fragment: str = "") -> None:
        """Opens a file, and waits until it is there."""
        self("Page.navigate", url="about:blank")
        self("Page.navigate", url=f"{file.as_uri()}{fragment}")
        while self._next().get("method") != "Page.loadEventFired":
            pass

    def says(self, expression: str) -> Any:
        """The value of an expression in the page, with which a promise is waited for."""
        answer = self("Runtime.evaluate", expression=expression, returnByValue=True, awaitPromise=True)
        if "exceptionDetails" in answer:
            raise AssertionError(f"{expression}: {answer['exceptionDetails']}")
        return answer["result"].get("value")

    def press(self, key: str, code: str, number: int, text: str = "") -> None:
        """Presses a key, which may stand for a text, and lets it go."""
        for kind in ("keyDown" if text else "rawKeyDown", "keyUp"):
            self("Input.dispatchKeyEvent", type=kind, key=key, code=code, windowsVirtualKeyCode=number, text=text)

    def wide(self, width: int, height: int = 1000) -> None:
        """Makes the window as wide as this."""
        self("Emulation.setDeviceMetricsOverride", width=width, height=height, deviceScaleFactor=1, mobile=False)

    def scheme(self, name: str) -> None:
        """Prefers light or dark colours."""
        self("Emulation.setEmulatedMedia", features=[{"name": "prefers-color-scheme", "value": name}])

    def picture(self, whole: bool = False) -> bytes:
        """A picture of what is seen, or of the whole page, as PNG."""
        return base64.b64decode(self("Page.captureScreenshot", format="png", captureBeyondViewport=whole)["data"])


@contextmanager
def browser() -> Iterator[Tab]:
    """A browser with one tab, with a profile of its own, which is removed afterwards."""
    assert CHROMIUM is not None
    commands_read, commands_write = os.pipe()
    answers_read, answers_write = os.pipe()
    with tempfile.TemporaryDirectory(ignore_cleanup_errors=True) as profile:
        words = [CHROMIUM, "--headless=new", "--no-sandbox", "--disable-gpu", "--remote-debugging-pipe",
                 "--no-first-run", f"--user-data-dir={profile}"]
        # A shell puts the pipes where the browser looks for them.
        shell = f'exec "$@" {_READS}<&{commands_read} {_WRITES}>&{answers_write}'
        run = subprocess.Popen(["bash", "-c", shell, "bash", *words], pass_fds=(commands_read, answers_write),
                               stdout=subprocess.DEVNULL, stderr=subprocess.DEVNULL)
        os.close(commands_read)
        os.close(answers_write)
        with open(commands_write, "wb") as commands, open(answers_read, "rb") as answers:
            try:
                yield Tab(commands, answers)
            finally:
                run.terminate()
                run.wait()
