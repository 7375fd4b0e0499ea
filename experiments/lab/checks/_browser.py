"""Chromium without a window, driven by its own protocol over a pipe: it opens a file, is clicked at, and tells."""

import base64
import json
import os
import select
import shutil
import subprocess
import time
from pathlib import Path
from typing import Any

WORDS = ("--headless", "--remote-debugging-pipe", "--no-sandbox", "--disable-gpu", "--hide-scrollbars", "--mute-audio",
         "--no-first-run", "--disable-background-networking", "--disable-component-update", "--disable-sync",
         "--disable-renderer-backgrounding", "--disable-backgrounding-occluded-windows",
         "--disable-background-timer-throttling", "--disable-features=CalculateNativeWinOcclusion")
PATIENCE = 60  # seconds for an answer


def has_chromium() -> bool:
    """Whether pages can be tried; says so where they can't."""
    there = shutil.which("chromium") is not None
    if not there:
        print("check: no chromium, so no page is opened: apt-get install --no-install-recommends chromium", flush=True)
    return there


class Browser:
    """One page of a browser; `console` holds what the page has said there."""

    def __init__(self, folder: Path) -> None:
        self.console: list[str] = []
        self._number = 0
        self._rest = b""
        to_read, self._to = os.pipe()
        self._from, from_write = os.pipe()
        words = ["chromium", *WORDS, f"--user-data-dir={folder / 'browser'}", "about:blank"]
        self._process = subprocess.Popen(words, stdin=subprocess.DEVNULL, stdout=subprocess.DEVNULL,
                                         stderr=subprocess.DEVNULL, close_fds=False,
                                         preexec_fn=lambda: _hand_over(to_read, from_write))
        os.close(to_read)
        os.close(from_write)
        self._session: str | None = None
        target = self.ask("Target.createTarget", url="about:blank")["targetId"]
        self._session = self.ask("Target.attachToTarget", targetId=target, flatten=True)["sessionId"]
        for domain in ("Page", "Runtime", "Log"):
            self.ask(f"{domain}.enable")
        self.ask("Page.bringToFront")

    def close(self) -> None:
        """Ends the browser."""
        self._session = None
        try:
            self.ask("Browser.close")
        except (EOFError, BrokenPipeError):
            pass
        self._process.wait(10)
        os.close(self._to)
        os.close(self._from)

    def __enter__(self) -> "Browser":
        return self

    def __exit__(self, *_: object) -> None:
        self.close()

    def ask(self, method: str, **params: Any) -> dict[str, Any]:
        """Asks for something, and waits for the answer."""
        self._number += 1
        message: dict[str, Any] = {"id": self._number, "method": method, "params": params}
        if self._session:
            message["sessionId"] = self._session
        os.write(self._to, json.dumps(message).encode() + b"\0")
        while True:
            told = self._told()
            if told.get("id") == self._number:
                if "error" in told:
                    raise RuntimeError(f"{method}: {told['error']['message']}")
                return told["result"]

    def _told(self) -> dict[str, Any]:
        """The next message; what is said on the console is kept."""
        while b"\0" not in self._rest:
            if not select.select([self._from], [], [], PATIENCE)[0]:
                self._process.kill()
                raise TimeoutError(f"the browser says nothing for {PATIENCE} s")
            part = os.read(self._from, 1 << 20)
            if not part:
                raise EOFError("the browser has ended")
            self._rest += part
        text, self._rest = self._rest.split(b"\0", 1)
        told = json.loads(text)
        if told.get("method") in ("Runtime.consoleAPICalled", "Runtime.exceptionThrown", "Log.entryAdded"):
            self.console.append(json.dumps(told["params"])[:2000])
        return told

    def run(self, script: str) -> Any:
        """What an expression of the page gives; a promise is waited for."""
        told = self.ask("Runtime.evaluate", expression=script, returnByValue=True, awaitPromise=True)
        if "exceptionDetails" in told:
            raise RuntimeError(f"{script[:200]}: {json.dumps(told['exceptionDetails'])[:1500]}")
        return told["result"].get("value")

    def open(self, page: Path, seconds: float = 60) -> float:
        """Opens a page, and waits until it shows its run; how many seconds that took."""
        begin = time.monotonic()
        self.ask("Page.navigate", url=page.resolve().as_uri())
        while time.monotonic() < begin + seconds:
            try:
                if self.run("typeof freeblock === 'object' && !!freeblock.page"):
                    self.settle()
                    return time.monotonic() - begin
            except RuntimeError:
                pass
            time.sleep(0.02)
        raise TimeoutError(f"{page} isn't open after {seconds} s: {self.console}")

    def settle(self) -> None:
        """Waits until the page is drawn."""
        self.run("new Promise(done => requestAnimationFrame(() => requestAnimationFrame(() => done(0))))")

    def size(self, width: int, height: int, mobile: bool = False, scale: float = 1) -> None:
        """How large the window is."""
        self.ask("Emulation.setDeviceMetricsOverride", width=width, height=height, deviceScaleFactor=scale, mobile=mobile)
        self.ask("Emulation.setTouchEmulationEnabled", enabled=mobile)

    def wish(self, **features: str) -> None:
        """What the reader wishes for, such as prefers_color_scheme="dark"."""
        given = [{"name": name.replace("_", "-"), "value": value} for name, value in features.items()]
        self.ask("Emulation.setEmulatedMedia", features=given)

    def picture(self, path: Path, whole: bool = True) -> None:
        """A picture of the window, or of all of the page."""
        told = self.ask("Page.captureScreenshot", format="png", captureBeyondViewport=whole)
        path.write_bytes(base64.b64decode(told["data"]))

    def press(self, key: str) -> None:
        """Presses a key on what has the focus."""
        named = {"Space": " "}.get(key, key)
        text = {"text": named} if len(named) == 1 else {"text": "\r"} if key == "Enter" else {}
        self.ask("Input.dispatchKeyEvent", type="keyDown", key=named, code=key, **text)
        self.ask("Input.dispatchKeyEvent", type="keyUp", key=named, code=key)

    def mouse(self, kind: str, x: float, y: float, **more: Any) -> None:
        """Something that the mouse does: Moved, Pressed, Released or Wheel."""
        self.ask("Input.dispatchMouseEvent", type=f"mouse{kind}", x=x, y=y, **more)

    def click(self, x: float, y: float) -> None:
        """Clicks at a point of the window."""
        self.mouse("Moved", x, y)
        for kind in ("Pressed", "Released"):
            self.mouse(kind, x, y, button="left", clickCount=1)

    def box(self, element: str) -> dict[str, float]:
        """Where an element stands in the window, after it has been scrolled to."""
        return self.run(f"(() => {{ const e = document.getElementById({json.dumps(element)}); e.scrollIntoView({{block: 'center'}});"
                        "const b = e.getBoundingClientRect(); return {x: b.x, y: b.y, width: b.width, height: b.height}; })()")


def _hand_over(to_read: int, from_write: int) -> None:
    """Gives the browser the two ends under the numbers that it expects."""
    low, high = os.dup(to_read), os.dup(from_write)
    os.dup2(low, 3)
    os.dup2(high, 4)
