"""A Chromium without a window, spoken to over a pipe; it ends with the `with` in which it began."""
import base64
import json
import os
import select
import shutil
import signal
import subprocess
import tempfile
import time

SECONDS = 60


class BrowserFault(Exception):
    """The browser doesn't answer, or answers a fault."""


class Browser:
    def __init__(self, width=1280, height=900):
        self.size = width, height
        self.asked, self.last, self.events = [], 0, []

    def __enter__(self):
        self.folder = tempfile.mkdtemp()
        to_browser, self.into = os.pipe()
        self.out, from_browser = os.pipe()

        def take_pipes():
            # The browser reads at 3 and writes at 4; both ends are first moved out of their way.
            one, two = os.dup(to_browser), os.dup(from_browser)
            os.dup2(one, 3)
            os.dup2(two, 4)

        words = ["chromium", "--headless=new", "--no-sandbox", "--disable-gpu", "--disable-dev-shm-usage", "--remote-debugging-pipe",
                 "--hide-scrollbars", "--no-first-run", "--disable-background-networking", "--disable-component-update", "--disable-sync",
                 "--renderer-process-limit=1", f"--user-data-dir={self.folder}", f"--window-size={self.size[0]},{self.size[1]}"]
        self.process = subprocess.Popen(words, preexec_fn=take_pipes, close_fds=False, start_new_session=True,
                                        stdin=subprocess.DEVNULL, stdout=subprocess.DEVNULL, stderr=subprocess.DEVNULL)
        os.close(to_browser)
        os.close(from_browser)
        self.read = b""
        target = self.ask("Target.createTarget", url="about:blank")["targetId"]
        self.session = None
        self.session = self.ask("Target.attachToTarget", targetId=target, flatten=True)["sessionId"]
        for domain in ("Page", "Runtime", "Network", "Log"):
            self.ask(f"{domain}.enable")
        self.resize(*self.size)
        return self

    def __exit__(self, *_):
        try:
            os.killpg(self.process.pid, signal.SIGKILL)
        except ProcessLookupError:
            pass
        self.process.wait(10)
        os.close(self.into)
        os.close(self.out)
        shutil.rmtree(self.folder, ignore_errors=True)

    session = None

    def ask(self, method, **params):
        self.last += 1
        message = {"id": self.last, "method": method, "params": params}
        if self.session:
            message["sessionId"] = self.session
        os.write(self.into, json.dumps(message).encode() + b"\0")
        return self.answer(lambda it: it.get("id") == self.last)

    def answer(self, is_wanted, seconds=SECONDS):
        end = time.monotonic() + seconds
        while True:
            while b"\0" in self.read:
                one, _, self.read = self.read.partition(b"\0")
                message = json.loads(one)
                if "method" in message:
                    self.events.append(message)
                if is_wanted(message):
                    if "error" in message:
                        raise BrowserFault(message["error"]["message"])
                    return message.get("result", message)
            if not select.select([self.out], [], [], max(0, end - time.monotonic()))[0]:
                raise BrowserFault(f"no answer in {seconds} seconds")
            got = os.read(self.out, 1 << 20)
            if not got:
                raise BrowserFault("the browser has ended")
            self.read += got

    def open(self, path):
        """Opens a file; the seconds until it is drawn, and what it asked for or did wrong."""
        self.events.clear()
        begun = time.monotonic()
        self.ask("Page.navigate", url="file://" + os.path.abspath(path))
        if not any(it["method"] == "Page.loadEventFired" for it in self.events):
            self.answer(lambda it: it.get("method") == "Page.loadEventFired")
        self.frame()
        return time.monotonic() - begun

    def frame(self):
        """Waits until what is to be drawn is drawn."""
        self.value("new Promise((done) => requestAnimationFrame(() => requestAnimationFrame(() => done(1))))")

    def faults(self):
        """What went wrong since the page was opened, and what it asked for but itself."""
        told = []
        for event in self.events:
            params = event["params"]
            if event["method"] == "Runtime.exceptionThrown":
                details = params["exceptionDetails"]
                told.append("error: " + details.get("exception", {}).get("description", details["text"]))
            elif event["method"] == "Log.entryAdded" and params["entry"]["level"] in ("error", "warning"):
                told.append(f"log: {params['entry']['text']}")
            elif event["method"] == "Network.requestWillBeSent" and params.get("type") != "Document":
                told.append(f"asks for {params['request']['url'][:80]}")
        return told

    def value(self, code):
        found = self.ask("Runtime.evaluate", expression=code, returnByValue=True, awaitPromise=True)
        if "exceptionDetails" in found:
            details = found["exceptionDetails"]
            raise BrowserFault(details.get("exception", {}).get("description", details["text"]))
        return found["result"].get("value")

    def resize(self, width, height, is_phone=False):
        self.ask("Emulation.setDeviceMetricsOverride", width=width, height=height, deviceScaleFactor=1, mobile=is_phone)

    def media(self, media="", scheme="light"):
        self.ask("Emulation.setEmulatedMedia", media=media, features=[{"name": "prefers-color-scheme", "value": scheme}])

    def press(self, key, text=""):
        extra = {"text": text} if text else {}
        self.ask("Input.dispatchKeyEvent", type="keyDown", key=key, **extra)
        self.ask("Input.dispatchKeyEvent", type="keyUp", key=key)

    def picture(self, path, clip=None):
        extra = {"clip": {**clip, "scale": 1}} if clip else {}
        data = self.ask("Page.captureScreenshot", format="png", **extra)["data"]
        with open(path, "wb") as file:
            file.write(base64.b64decode(data))

    def printed(self):
        return base64.b64decode(self.ask("Page.printToPDF", printBackground=True)["data"])
