"""Chromium without a window, driven through its debugging pipe; Debian's package is installed where it is missing."""
import base64
import json
import os
import shutil
import subprocess
import sys
import tempfile

WORDS = ["--headless", "--no-sandbox", "--disable-gpu", "--disable-dev-shm-usage", "--hide-scrollbars", "--remote-debugging-pipe", "--no-first-run",
         "about:blank"]


class Missing(Exception):
    """There is no browser, and none could be installed."""


def found():
    """The browser's command."""
    if not shutil.which("chromium"):
        for words in (["update", "-qq"], ["install", "-y", "-qq", "chromium"]):
            try:
                subprocess.run(["apt-get", *words], stdout=subprocess.DEVNULL, check=True, timeout=900)
            except (OSError, subprocess.SubprocessError) as why:
                raise Missing(why) from why
    return shutil.which("chromium")


class Browser:
    """One page at a time. `errors` has what went wrong in its scripts."""

    def __init__(self):
        command = found()
        self.errors, self.last, self.rest = [], 0, b""
        self.room = tempfile.TemporaryDirectory()
        hears, self.tells = os.pipe()
        self.hears, tells = os.pipe()
        # the pipe's ends are to be 3 and 4; a shell puts them there
        words = ["sh", "-c", f'exec 3<&{hears} 4>&{tells} "$@"', "sh", command, f"--user-data-dir={self.room.name}", *WORDS]
        self.process = subprocess.Popen(words, pass_fds=(hears, tells), stderr=subprocess.DEVNULL)
        os.close(hears)
        os.close(tells)
        self.session = None
        target = self.ask("Target.createTarget", url="about:blank")["targetId"]
        self.session = self.ask("Target.attachToTarget", targetId=target, flatten=True)["sessionId"]
        for part in ("Page", "Runtime", "Log"):
            self.ask(f"{part}.enable")
        self.size(1400, 1000)

    def hear(self):
        """The next message; an error in a script is noted."""
        while b"\0" not in self.rest:
            got = os.read(self.hears, 1 << 16)
            if not got:
                sys.exit("the browser has ended")
            self.rest += got
        line, self.rest = self.rest.split(b"\0", 1)
        message = json.loads(line)
        if message.get("method") == "Runtime.exceptionThrown":
            self.errors.append(message["params"]["exceptionDetails"].get("exception", {}).get("description", "an error"))
        if message.get("method") == "Log.entryAdded" and message["params"]["entry"]["level"] == "error":
            self.errors.append(message["params"]["entry"]["text"])
        return message

    def ask(self, method, **params):
        self.last += 1
        message = {"id": self.last, "method": method, "params": params} | ({"sessionId": self.session} if self.session else {})
        os.write(self.tells, json.dumps(message).encode() + b"\0")
        while (answer := self.hear()).get("id") != self.last:
            pass
        if "error" in answer:
            raise RuntimeError(f"{method}: {answer['error']}")
        return answer["result"]

    def open(self, path, address=""):
        """Opens a page and waits until it stands."""
        self.errors = []
        self.ask("Page.navigate", url="about:blank")
        self.ask("Page.navigate", url=f"file://{path}{address}")
        while self.value("document.readyState + location.protocol") != "completefile:":
            pass
        self.settle()

    def value(self, script):
        """What a script gives; a promise is waited for."""
        answer = self.ask("Runtime.evaluate", expression=script, returnByValue=True, awaitPromise=True)
        if "exceptionDetails" in answer:
            self.errors.append(answer["exceptionDetails"]["exception"].get("description", "an error"))
        return answer["result"].get("value")

    def settle(self):
        self.value("new Promise((done) => requestAnimationFrame(() => requestAnimationFrame(() => done(1))))")

    def key(self, name):
        for kind in ("keyDown", "keyUp"):
            self.ask("Input.dispatchKeyEvent", type=kind, key=name, code=name)
        self.settle()

    def size(self, width, height):
        self.ask("Emulation.setDeviceMetricsOverride", width=width, height=height, deviceScaleFactor=1, mobile=False)

    def scheme(self, name):
        self.ask("Emulation.setEmulatedMedia", features=[{"name": "prefers-color-scheme", "value": name}])

    def picture(self, path):
        self.settle()
        with open(path, "wb") as file:
            file.write(base64.b64decode(self.ask("Page.captureScreenshot", format="png")["data"]))

    def paper(self):
        """The page as it is printed."""
        return base64.b64decode(self.ask("Page.printToPDF", printBackground=True)["data"])

    def close(self):
        self.ask("Browser.close")
        self.process.wait()
        os.close(self.hears)
        os.close(self.tells)
        self.room.cleanup()
