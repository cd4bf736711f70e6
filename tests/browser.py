"""Drives a headless Chromium through its DevTools protocol, over two pipes, so that no port and no library is needed."""
from __future__ import annotations

import base64
import json
import os
import pathlib
import select
import shutil
import subprocess
import time
from typing import Any

COMMANDS = ("chromium", "chromium-browser", "google-chrome")
# As root Chromium has no sandbox. The rest is that it asks no server of its own, and shares no memory with other processes.
ARGUMENTS = [
    "--headless=new",
    "--no-sandbox",
    "--disable-gpu",
    "--disable-dev-shm-usage",
    "--no-first-run",
    "--disable-background-networking",
    "--disable-component-update",
    "--disable-sync",
    "--remote-debugging-pipe",
]


# A message of the protocol, or a part of one.
JsonObject = dict[str, Any]


def command() -> str | None:
    """The browser's path; nothing if none is installed."""
    return next((path for name in COMMANDS if (path := shutil.which(name))), None)


class Fault(Exception):
    """The browser reported an error, or did not answer in time."""


class Browser:
    """A browser with one page. It ends with the block that it is made for."""

    def __init__(self, place: str, seconds: float = 60) -> None:
        self.seconds, self.number, self.rest = seconds, 0, b""
        self.events: list[JsonObject] = []
        self.log = pathlib.Path(place) / "browser.log"
        reads, self.send = os.pipe()
        self.receive, writes = os.pipe()
        # The browser reads commands from descriptor 3 and writes answers to 4.
        words = [
            "sh",
            "-c",
            f'exec 3<&{reads} 4>&{writes} "$@"',
            "sh",
            command() or COMMANDS[0],
            *ARGUMENTS,
            f"--user-data-dir={place}/profile",
            "about:blank",
        ]
        with open(self.log, "wb") as log:
            self.child = subprocess.Popen(words, pass_fds=(reads, writes), stdin=subprocess.DEVNULL, stdout=log, stderr=log)
        os.close(reads)
        os.close(writes)
        self.session: str | None = None

    def __enter__(self) -> Browser:
        targets = self.call("Target.getTargets")["targetInfos"]
        target = next(it["targetId"] for it in targets if it["type"] == "page")
        self.session = self.call("Target.attachToTarget", targetId=target, flatten=True)["sessionId"]
        for domain in ("Page", "Runtime", "Network", "Log"):
            self.call(f"{domain}.enable")
        return self

    def __exit__(self, *_: object) -> None:
        try:
            self.session = None
            self.call("Browser.close")
            self.child.wait(timeout=20)
        except (Fault, OSError, subprocess.TimeoutExpired):
            self.child.kill()
            self.child.wait()
        os.close(self.send)
        os.close(self.receive)

    def message(self, end: float) -> JsonObject:
        """The next message."""
        while b"\0" not in self.rest:
            if not select.select([self.receive], [], [], max(0.0, end - time.monotonic()))[0]:
                raise Fault("the browser does not answer")
            more = os.read(self.receive, 1 << 20)
            if not more:
                raise Fault(f"the browser has ended: {self.log.read_text(errors='replace')[-1000:]}")
            self.rest += more
        text, self.rest = self.rest.split(b"\0", 1)
        return dict(json.loads(text))

    def call(self, method: str, **parameters: Any) -> JsonObject:
        """What a method answers. Events that come before are kept."""
        self.number += 1
        request = {"id": self.number, "method": method, "params": parameters}
        if self.session:
            request["sessionId"] = self.session
        os.write(self.send, json.dumps(request).encode() + b"\0")
        end = time.monotonic() + self.seconds
        while True:
            message = self.message(end)
            if message.get("id") == self.number:
                if "error" in message:
                    raise Fault(f"{method}: {message['error']}")
                return dict(message["result"])
            self.events.append(message)

    def open(self, address: str) -> None:
        """Opens an address, and waits until it is loaded and its scripts have run."""
        self.call("Page.navigate", url="about:blank")
        self.wait_for("location.href === 'about:blank' && document.readyState === 'complete'")
        self.events.clear()
        self.call("Page.navigate", url=address)
        self.wait_for("location.protocol !== 'about:' && document.readyState === 'complete'")

    def wait_for(self, script: str) -> None:
        """Waits until an expression is true in the page."""
        end = time.monotonic() + self.seconds
        while not self.value(script):
            if time.monotonic() > end:
                raise Fault(f"it does not become true: {script}")
            time.sleep(0.02)

    def value(self, script: str) -> Any:
        """The value of an expression in the page."""
        answer = self.call("Runtime.evaluate", expression=script, returnByValue=True, awaitPromise=True)
        if "exceptionDetails" in answer:
            raise Fault(f"{script}: {answer['exceptionDetails']}")
        return answer["result"].get("value")

    def faults(self) -> list[JsonObject]:
        """What the page has complained about since it was opened."""
        kinds = ("Runtime.exceptionThrown", "Log.entryAdded", "Runtime.consoleAPICalled")
        return [event["params"] for event in self.events if event.get("method") in kinds]

    def requests(self) -> list[str]:
        """The addresses that the page has asked for since it was opened."""
        return [event["params"]["request"]["url"] for event in self.events if event.get("method") == "Network.requestWillBeSent"]

    def press(self, key: str) -> None:
        """A key that is pressed and released."""
        code = {"Enter": 13, "Tab": 9, "ArrowDown": 40, "ArrowUp": 38, "Home": 36, "End": 35, " ": 32}[key]
        text = {"Enter": "\r", " ": " "}.get(key, "")
        more = {"text": text, "unmodifiedText": text} if text else {}
        for kind in ("keyDown" if text else "rawKeyDown", "keyUp"):
            self.call(
                "Input.dispatchKeyEvent", type=kind, key=key, code=key, windowsVirtualKeyCode=code, **(more if kind == "keyDown" else {})
            )

    def look(self, width: int, height: int, is_dark: bool = False) -> None:
        """The size of the window, and the colours that the user prefers."""
        self.call("Emulation.setDeviceMetricsOverride", width=width, height=height, deviceScaleFactor=1, mobile=False)
        scheme = "dark" if is_dark else "light"
        self.call("Emulation.setEmulatedMedia", features=[{"name": "prefers-color-scheme", "value": scheme}])

    def picture(self, path: pathlib.Path) -> None:
        """Writes what is seen of the page, all of its height, as PNG."""
        made = self.call("Page.captureScreenshot", format="png", captureBeyondViewport=True)
        path.write_bytes(base64.b64decode(made["data"]))
