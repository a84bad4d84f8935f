"""Debian's Chromium without a window, driven over a pair of pipes by its own protocol (DevTools), as a person would use it."""
import base64
import contextlib
import json
import os
import select
import subprocess
import time

WORDS = ["chromium", "--headless=new", "--no-sandbox", "--disable-gpu", "--disable-dev-shm-usage", "--no-first-run", "--disable-extensions",
         "--disable-background-networking", "--window-size=1200,900", "--remote-debugging-pipe"]


class Browser:
    """A browser with one page. What its console says is kept: a breach of the page's policy is told there."""

    def __init__(self, folder, patience=120):
        self.patience, self.held, self.number, self.console = patience, b"", 0, []
        hears, self.tells = os.pipe()
        self.hears, tells = os.pipe()

        def pipes():
            os.dup2(hears, 3)
            os.dup2(tells, 4)

        with open(folder / "chromium.log", "wb") as log:
            self.process = subprocess.Popen([*WORDS, f"--user-data-dir={folder / 'profile'}", "about:blank"], stdout=log, stderr=log, pass_fds=(3, 4),
                                            preexec_fn=pipes)
        os.close(hears)
        os.close(tells)
        target = self.ask("Target.createTarget", url="about:blank")["targetId"]
        self.session = self.ask("Target.attachToTarget", targetId=target, flatten=True)["sessionId"]
        for domain in ("Page", "Runtime", "Log", "Network"):
            self.ask(f"{domain}.enable")

    session = None

    def ask(self, method, **words):
        """What the browser answers to a command."""
        self.number += 1
        told = {"id": self.number, "method": method, "params": words} | ({"sessionId": self.session} if self.session else {})
        os.write(self.tells, json.dumps(told).encode() + b"\0")
        while True:
            heard = self.hear()
            if heard.get("id") == self.number:
                assert "error" not in heard, f"{method}: {heard['error']}"
                return heard["result"]

    def hear(self):
        """The next thing that it says."""
        until = time.monotonic() + self.patience
        while b"\0" not in self.held:
            assert select.select([self.hears], [], [], max(0, until - time.monotonic()))[0], "chromium says nothing"
            piece = os.read(self.hears, 1 << 20)
            assert piece, "chromium has ended"
            self.held += piece
        whole, self.held = self.held.split(b"\0", 1)
        heard = json.loads(whole)
        if heard.get("method") in ("Log.entryAdded", "Runtime.exceptionThrown", "Runtime.consoleAPICalled"):
            self.console.append(json.dumps(heard["params"]))
        return heard

    def loaded(self):
        """Waits until the page is there."""
        while self.hear().get("method") != "Page.loadEventFired":
            pass

    def open(self, address):
        self.ask("Page.navigate", url=address)
        self.loaded()

    def run(self, script):
        """The value of a script. The browser's own scripts run though the page may have none."""
        said = self.ask("Runtime.evaluate", expression=script, returnByValue=True)
        assert "exceptionDetails" not in said, f"{script}: {said['exceptionDetails']}"
        return said["result"].get("value")

    def explain(self, invite, moment=""):
        """Pastes an INVITE into the form, and sends it."""
        for name, value in (("textarea", invite), ("input", str(moment))):
            self.run(f"document.querySelector('{name}').value = {json.dumps(value)}")
        self.run("document.querySelector('button').click()")
        self.loaded()

    def dom(self):
        return self.run("document.documentElement.outerHTML")

    def picture(self, path):
        """The whole page as a PNG in this file, and its width and height."""
        size = self.ask("Page.getLayoutMetrics")["cssContentSize"]
        clip = {"x": 0, "y": 0, "width": size["width"], "height": size["height"], "scale": 1}
        shot = base64.b64decode(self.ask("Page.captureScreenshot", format="png", clip=clip, captureBeyondViewport=True)["data"])
        path.write_bytes(shot)
        assert shot[:8] == b"\x89PNG\r\n\x1a\n", shot[:16]
        return tuple(int.from_bytes(shot[at : at + 4], "big") for at in (16, 20))

    def __enter__(self):
        return self

    def __exit__(self, *_):
        with contextlib.suppress(Exception):
            self.ask("Browser.close")
        try:
            self.process.wait(10)
        except subprocess.TimeoutExpired:
            self.process.kill()
            self.process.wait()
        os.close(self.hears)
        os.close(self.tells)
