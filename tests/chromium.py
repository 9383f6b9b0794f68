"""chromium.py: a browser without a window, driven by Chromium's own protocol over two pipes. It needs no package of
Python's."""
from __future__ import annotations
import base64
import json
import os
import pathlib
import select
import subprocess
import tempfile
import time
from typing import Any
from tests import harness

SECONDS = 120  # an answer that takes longer is a failure
KEYS = {"Tab": (9, ""), "Enter": (13, "\r"), "Escape": (27, ""), "Space": (32, " ")}  # the others are letters and signs


class Failed(Exception):
    """What the browser, or a script in it, answered in place of a value."""


class Browser:
    """A browser with one page. It is closed at the end of a `with`."""
    events: list[dict[str, Any]]
    session: str | None

    def __init__(self, width: int = 1280, height: int = 1000) -> None:
        self.folder = tempfile.TemporaryDirectory(ignore_cleanup_errors=True)
        to_read, self.writes = os.pipe()
        self.reads, to_write = os.pipe()
        # the browser reads its orders from 3 and writes its answers to 4
        script = f'exec 3<&{to_read} 4>&{to_write}; exec "$@"'
        words = [harness.command("chromium"), "--headless=new", "--remote-debugging-pipe", "--no-sandbox",
                 "--disable-gpu", "--disable-dev-shm-usage",
                 "--lang=en", f"--window-size={width},{height}", f"--user-data-dir={self.folder.name}", "about:blank"]
        self.process = subprocess.Popen(["bash", "-c", script, "bash", *words],
                                        pass_fds=(to_read, to_write), stdin=subprocess.DEVNULL,
                                        stdout=subprocess.DEVNULL, stderr=subprocess.DEVNULL)
        os.close(to_read)
        os.close(to_write)
        self.number, self.rest, self.events, self.session = 0, b"", [], None
        page = next(target for target in self.ask("Target.getTargets")["targetInfos"] if target["type"] == "page")
        self.session = self.ask("Target.attachToTarget", targetId=page["targetId"], flatten=True)["sessionId"]
        for name in ("Page", "DOM", "Runtime", "Log", "Accessibility"):
            self.ask(f"{name}.enable")

    def __enter__(self) -> Any:
        return self

    def __exit__(self, *_: Any) -> None:
        os.close(self.writes)
        try:
            self.process.wait(10)
        except subprocess.TimeoutExpired:
            self.process.kill()
            self.process.wait()
        os.close(self.reads)
        self.folder.cleanup()

    def read(self, until: Any) -> Any:
        """The next text from the browser."""
        while b"\0" not in self.rest:
            if not select.select([self.reads], [], [], max(0, until - time.monotonic()))[0]:
                raise Failed("no answer in time")
            piece = os.read(self.reads, 1 << 20)
            if not piece:
                raise Failed("the browser ended")
            self.rest += piece
        text, self.rest = self.rest.split(b"\0", 1)
        return json.loads(text)

    def ask(self, method: Any, **parameters: Any) -> Any:
        """The answer to an order. Events that come before it are kept."""
        self.number += 1
        order = {"id": self.number, "method": method, "params": parameters,
                 **({"sessionId": self.session} if self.session else {})}
        text = json.dumps(order).encode() + b"\0"
        while text:
            text = text[os.write(self.writes, text[:1 << 16]):]
        until = time.monotonic() + SECONDS
        while True:
            got = self.read(until)
            if got.get("id") == self.number:
                if "error" in got:
                    raise Failed(got["error"]["message"])
                return got["result"]
            self.events.append(got)

    def event(self, method: Any) -> Any:
        """The parameters of the first event of a kind that was not taken yet."""
        until = time.monotonic() + SECONDS
        while True:
            for place, event in enumerate(self.events):
                if event.get("method") == method:
                    return self.events.pop(place)["params"]
            self.events.append(self.read(until))

    # ---- the page

    def go(self, address: Any) -> None:
        """Goes to an address."""
        self.ask("Page.navigate", url=address)

    def open(self, path: Any) -> None:
        """Opens a file as a page, and waits until the page is ready."""
        self.go(pathlib.Path(path).resolve().as_uri())
        self.until("document.body?.dataset.ready === '1'")

    def value(self, expression: Any) -> Any:
        """The value of an expression, which may be a promise."""
        got = self.ask("Runtime.evaluate", expression=expression, awaitPromise=True, returnByValue=True)
        if "exceptionDetails" in got:
            details = got["exceptionDetails"]
            raise Failed(details.get("exception", {}).get("description") or details["text"])
        return got["result"].get("value")

    def until(self, expression: Any) -> None:
        """Waits until an expression is true."""
        end = time.monotonic() + SECONDS
        while not self.value(f"Boolean({expression})"):
            if time.monotonic() > end:
                raise Failed(f"never came: {expression}")
            time.sleep(0.05)

    def give(self, selector: Any, *paths: Any) -> None:
        """Gives files to a chooser."""
        root = self.ask("DOM.getDocument")["root"]["nodeId"]
        node = self.ask("DOM.querySelector", nodeId=root, selector=selector)["nodeId"]
        self.ask("DOM.setFileInputFiles", files=[str(path) for path in paths], nodeId=node)

    def press(self, name: Any) -> None:
        """Presses a key, and lets it go."""
        code, text = KEYS.get(name) or (ord(name.upper()), name)
        key = {"key": text if name == "Space" else name, "code": name, "windowsVirtualKeyCode": code}
        self.ask("Input.dispatchKeyEvent", type="keyDown", **key, **({"text": text} if text else {}))
        self.ask("Input.dispatchKeyEvent", type="keyUp", **key)

    def type(self, text: Any) -> None:
        """Types a text where the cursor is."""
        self.ask("Input.insertText", text=text)

    def look(self, width: Any = None, height: Any = None, is_dark: bool = False) -> None:
        """Shows the page in a size, light or dark. Without a size it is that of the window."""
        self.ask("Emulation.setEmulatedMedia",
                 features=[{"name": "prefers-color-scheme", "value": "dark" if is_dark else "light"}])
        if width is None:
            self.ask("Emulation.clearDeviceMetricsOverride")
        else:
            self.ask("Emulation.setDeviceMetricsOverride", width=width, height=height, deviceScaleFactor=1,
                     mobile=width < 600)

    def faults(self, and_failed: bool = True) -> Any:
        """What the page has reported as errors: of its scripts, and of answers that failed."""
        self.value("0")  # what came before has come then
        logged = [event["params"]["entry"] for event in self.events if event.get("method") == "Log.entryAdded"]
        failed = [entry for entry in logged if entry["level"] == "error" and "favicon" not in entry.get("url", "")]
        thrown = [event["params"] for event in self.events if event.get("method") == "Runtime.exceptionThrown"]
        return [json.dumps(fault)[:300] for fault in thrown + (failed if and_failed else [])]

    def picture(self, path: Any) -> None:
        """A picture of the page as it is shown."""
        pathlib.Path(path).write_bytes(base64.b64decode(self.ask("Page.captureScreenshot", format="png")["data"]))
