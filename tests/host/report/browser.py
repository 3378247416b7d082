"""A browser without a window, driven through its debugging pipe by what Python itself has: a message of JSON, then a zero byte."""

import base64
import json
import os
import select
import shutil
import subprocess
import time
from pathlib import Path

KEYS = {"Tab": 9, "Enter": 13, "End": 35, "Home": 36, "ArrowLeft": 37, "ArrowUp": 38, "ArrowRight": 39, "ArrowDown": 40, "PageDown": 34, " ": 32,
        "+": 187, "-": 189}


class BrowserError(Exception):
    """What the browser refuses, or does not answer."""


class Browser:
    """A running chromium with one page."""

    def __init__(self, folder, seconds=60):
        self.seconds, self.number, self.rest, self.events = seconds, 0, b"", []
        read_end, self.to_browser = os.pipe()
        self.from_browser, write_end = os.pipe()
        options = ["--headless=new", "--remote-debugging-pipe", f"--user-data-dir={folder}/profile", "--no-first-run", "--disable-gpu",
                   "--disable-dev-shm-usage", "--disable-background-networking", "--disable-component-update", "--hide-scrollbars"]
        if os.geteuid() == 0:
            options.append("--no-sandbox")  # chromium has none for root
        # The pipe is behind descriptors 3 and 4.
        script = f'exec "$@" 3<&{read_end} 4>&{write_end}'
        with open(f"{folder}/chromium.log", "wb") as log:
            self.process = subprocess.Popen(["bash", "-c", script, "bash", shutil.which("chromium"), *options, "about:blank"],
                                            pass_fds=(read_end, write_end), stdin=subprocess.DEVNULL, stdout=log, stderr=log)
        os.close(read_end)
        os.close(write_end)
        self.session = None
        page = next(one for one in self.ask("Target.getTargets")["targetInfos"] if one["type"] == "page")
        self.session = self.ask("Target.attachToTarget", targetId=page["targetId"], flatten=True)["sessionId"]
        for domain in ["Page", "Runtime", "Log", "Network", "Accessibility"]:
            self.ask(f"{domain}.enable")

    def ask(self, method, **parameters):
        """Sends a command, and gives what is answered; events on the way are kept."""
        self.number += 1
        message = {"id": self.number, "method": method, "params": parameters}
        if self.session:
            message["sessionId"] = self.session
        os.write(self.to_browser, json.dumps(message).encode() + b"\0")
        until = time.monotonic() + self.seconds
        while True:
            told = self.next(until)
            if told.get("id") == self.number:
                if "error" in told:
                    raise BrowserError(f"{method}: {told['error']['message']}")
                return told["result"]
            self.events.append(told)

    def next(self, until):
        """The next message."""
        while b"\0" not in self.rest:
            left = until - time.monotonic()
            if left <= 0 or not select.select([self.from_browser], [], [], left)[0]:
                raise BrowserError("the browser does not answer")
            part = os.read(self.from_browser, 1 << 20)
            if not part:
                raise BrowserError("the browser has ended")
            self.rest += part
        message, _, self.rest = self.rest.partition(b"\0")
        return json.loads(message)

    def wait_for(self, event):
        """Waits until an event has come."""
        until = time.monotonic() + self.seconds
        while not any(one.get("method") == event for one in self.events):
            self.events.append(self.next(until))

    def open(self, path):
        """Opens a file, and gives the seconds until its scripts have run and a picture of it was drawn."""
        self.events.clear()
        begun = time.monotonic()
        self.ask("Page.navigate", url=Path(path).resolve().as_uri())
        self.wait_for("Page.loadEventFired")
        self.run("new Promise(done => requestAnimationFrame(() => setTimeout(done)))")
        return time.monotonic() - begun

    def run(self, script):
        """The value of an expression in the page."""
        told = self.ask("Runtime.evaluate", expression=script, returnByValue=True, awaitPromise=True)
        if "exceptionDetails" in told:
            raise BrowserError(told["exceptionDetails"].get("exception", {}).get("description", script))
        return told["result"].get("value")

    def press(self, key, count=1):
        """A key of the keyboard, pressed and let go."""
        text = {"Enter": "\r"}.get(key, key if len(key) == 1 else "")
        for _ in range(count):
            for kind in ["keyDown", "keyUp"]:
                self.ask("Input.dispatchKeyEvent", type=kind, key=key, code=key, text=text if kind == "keyDown" else "", windowsVirtualKeyCode=KEYS[key])
        self.settle()

    def write(self, text):
        """Text into the element that has the focus."""
        self.ask("Input.insertText", text=text)
        self.settle()

    def click(self, selector):
        """The mouse on the middle of an element."""
        box = self.run(f"(() => {{ const e = document.querySelector({json.dumps(selector)}); e.scrollIntoView({{block: 'center'}});"
                       " const r = e.getBoundingClientRect(); return [r.x + r.width / 2, r.y + r.height / 2]; })()")
        for kind in ["mousePressed", "mouseReleased"]:
            self.ask("Input.dispatchMouseEvent", type=kind, x=box[0], y=box[1], button="left", clickCount=1)
        self.settle()

    def settle(self):
        """Waits until what was asked for is drawn."""
        self.run("new Promise(done => requestAnimationFrame(() => setTimeout(done, 5)))")

    def media(self, media="", scheme="light"):
        """Screen or paper, light or dark."""
        self.ask("Emulation.setEmulatedMedia", media=media, features=[{"name": "prefers-color-scheme", "value": scheme}])
        self.settle()

    def size(self, width, height):
        """The size of the window."""
        self.ask("Emulation.setDeviceMetricsOverride", width=width, height=height, deviceScaleFactor=1, mobile=False)
        self.settle()

    def picture(self, path, whole=True):
        """A picture of the page."""
        data = self.ask("Page.captureScreenshot", format="png", captureBeyondViewport=whole)["data"]
        with open(path, "wb") as file:
            file.write(base64.b64decode(data))

    def complaints(self):
        """Errors and warnings of the console, and requests that are not for the file itself."""
        found = []
        for event in self.events:
            method, told = event.get("method"), event.get("params", {})
            if method == "Runtime.exceptionThrown":
                found.append(told["exceptionDetails"].get("exception", {}).get("description", "an exception"))
            elif method == "Log.entryAdded" and told["entry"]["level"] in ("error", "warning"):
                found.append(told["entry"]["text"])
            elif method == "Runtime.consoleAPICalled":
                found.append(f"console.{told['type']}")
            elif method == "Network.requestWillBeSent" and (told["type"] != "Document" or not told["request"]["url"].startswith("file://")):
                found.append(f"a request for {told['request']['url'][:80]}")
        return found

    def close(self):
        """Ends the browser."""
        self.session = None
        try:
            self.ask("Browser.close")
            self.process.wait(10)
        except (BrowserError, OSError, subprocess.TimeoutExpired):
            self.process.kill()
            self.process.wait()
