"""A headless Chromium, driven by its driver's HTTP calls: pages are opened, clicked and typed at as by a person."""
from __future__ import annotations

import base64
import json
import os
import shutil
import socket
import subprocess
import time
import urllib.error
import urllib.request
from typing import Any

ELEMENT = "element-6066-11e4-a52e-4f735466cecf"  # by this name an element is given
KEYS = {"left": "\ue012", "down": "\ue015", "right": "\ue014", "home": "\ue011", "end": "\ue010", "enter": "\ue007", "escape": "\ue00c", "tab": "\ue004",
        "page up": "\ue00e", "page down": "\ue00f"}
SECONDS = 120  # for all that is done with a browser


def is_there() -> bool:
    """Whether a browser and its driver are installed."""
    return bool(shutil.which("chromium") and shutil.which("chromedriver"))


class NoBrowser(Exception):
    """The browser is installed, and doesn't begin here."""


class Browser:
    """A session of the browser."""

    def __init__(self, width: int = 1280, height: int = 800) -> None:
        self.until = time.monotonic() + SECONDS
        with socket.socket() as it:
            it.bind(("127.0.0.1", 0))
            self.port = it.getsockname()[1]
        self.driver = subprocess.Popen(["chromedriver", f"--port={self.port}"], stdout=subprocess.DEVNULL, stderr=subprocess.DEVNULL)
        args = ["--headless=new", f"--window-size={width},{height}", "--disable-gpu", "--disable-dev-shm-usage"]
        args += ["--no-sandbox"] if os.geteuid() == 0 else []
        options = {"args": args, "binary": shutil.which("chromium")}
        wanted = {"browserName": "chrome", "goog:chromeOptions": options, "goog:loggingPrefs": {"browser": "ALL", "performance": "ALL"}}
        self.session = ""
        self.session = self.begun({"capabilities": {"alwaysMatch": wanted}})["sessionId"]

    def begun(self, words: dict[str, Any]) -> Any:
        """Begins the session, once the driver listens."""
        said: object = "no answer"
        for _ in range(100):
            try:
                return self.call("POST", "/session", words)
            except urllib.error.HTTPError as error:
                said = error
                break
            except OSError as error:  # the driver doesn't listen yet
                said = error
                time.sleep(0.1)
        self.driver.kill()
        self.driver.wait()
        raise NoBrowser(said)

    def __enter__(self) -> Browser:
        return self

    def __exit__(self, *_: object) -> None:
        try:
            self.call("DELETE", f"/session/{self.session}")
        finally:
            self.driver.kill()
            self.driver.wait()

    def call(self, verb: str, path: str, words: dict[str, Any] | None = None) -> Any:
        data = json.dumps(words).encode() if words is not None else None
        request = urllib.request.Request(f"http://127.0.0.1:{self.port}{path}", data, {"Content-Type": "application/json"}, method=verb)
        with urllib.request.urlopen(request, timeout=max(1.0, self.until - time.monotonic())) as answer:
            return json.load(answer)["value"]

    def ask(self, path: str, words: dict[str, Any] | None = None) -> Any:
        return self.call("GET" if words is None else "POST", f"/session/{self.session}{path}", words)

    def open(self, url: str) -> None:
        self.ask("/url", {"url": url})

    def elements(self, selector: str) -> list[str]:
        return [it[ELEMENT] for it in self.ask("/elements", {"using": "css selector", "value": selector})]

    def click(self, element: str) -> None:
        self.ask(f"/element/{element}/click", {})

    def type(self, text: str) -> None:
        """Types keys at what has the focus."""
        pressed = [{"type": kind, "value": it} for it in ([KEYS[text]] if text in KEYS else text) for kind in ("keyDown", "keyUp")]
        self.ask("/actions", {"actions": [{"type": "key", "id": "keys", "actions": pressed}]})

    def text(self, selector: str) -> str:
        return str(self.run("return document.querySelector(arguments[0])?.textContent ?? ''", selector))

    def run(self, script: str, *words: Any) -> Any:
        return self.ask("/execute/sync", {"script": script, "args": list(words)})

    def emulate(self, command: str, **words: Any) -> None:
        """Has the browser take on another screen, or another wish of its user."""
        self.ask("/goog/cdp/execute", {"cmd": f"Emulation.{command}", "params": words})

    def scheme(self, wish: str) -> None:
        self.emulate("setEmulatedMedia", features=[{"name": "prefers-color-scheme", "value": wish}])

    def width(self, width: int, height: int = 800) -> None:
        self.emulate("setDeviceMetricsOverride", width=width, height=height, deviceScaleFactor=1, mobile=width < 600)

    def said(self) -> list[str]:
        """What stands on its console."""
        return [str(it["message"]) for it in self.ask("/se/log", {"type": "browser"})]

    def asked(self) -> list[str]:
        """Which addresses were asked for."""
        events = [json.loads(it["message"])["message"] for it in self.ask("/se/log", {"type": "performance"})]
        return [it["params"]["request"]["url"] for it in events if it["method"] == "Network.requestWillBeSent"]

    def picture(self, path: str) -> None:
        with open(path, "wb") as file:
            file.write(base64.b64decode(self.ask("/screenshot")))
