"""Chromium, driven through its debugging pipe: pages, what is typed there, and whatever they report."""
import base64
import json
import os
import select
import shutil
import subprocess
import tempfile
import time

NAMES = ("chromium", "chromium-browser", "google-chrome")
KEYS = {"Enter": 13, "Tab": 9, "Escape": 27, " ": 32, "ArrowRight": 39, "ArrowLeft": 37, "ArrowUp": 38, "ArrowDown": 40, "PageUp": 33, "PageDown": 34,
        "Home": 36, "End": 35}
# what a page keeps of what is said of it: whether it is loaded, and the contexts of its own script and of its frames' scripts
PAGE_EVENTS = ("Page.loadEventFired", "Runtime.executionContextCreated", "Runtime.executionContextsCleared")
MODIFIERS = {"Alt": 1, "Ctrl": 2, "Shift": 8}


def find_browser():
    return next((path for path in map(shutil.which, NAMES) if path), None)


class WentElsewhere(RuntimeError):
    """A page that was asked was opened anew before it answered."""


class Browser:
    """A Chromium without a window. Its network is off: a page that asks for anything has it in `reports`."""

    def __init__(self, path=None, scrollbars=False):
        self.profile = tempfile.TemporaryDirectory()
        here, theirs = os.pipe(), os.pipe()
        words = [path or find_browser(), "--headless", "--no-sandbox", "--disable-gpu", "--no-first-run", f"--hide-scrollbars={str(not scrollbars).lower()}",
                 "--disable-dev-shm-usage", "--disable-component-update", "--disable-background-networking",
                 # (a trial follows more links in a second than a person)
                 "--disable-ipc-flooding-protection",
                 f"--user-data-dir={self.profile.name}", "--remote-debugging-pipe", "about:blank"]
        shell = f'exec "$@" 3<&{here[0]} 4>&{theirs[1]}'
        self.process = subprocess.Popen(["bash", "-c", shell, "browser", *words], pass_fds=(here[0], theirs[1]), stderr=subprocess.DEVNULL)
        os.close(here[0])
        os.close(theirs[1])
        self.to, self.out = here[1], theirs[0]
        self.rest, self.count, self.answers, self.reports, self.frames, self.pages = b"", 0, {}, [], [], {}

    def __enter__(self):
        return self

    def __exit__(self, *_):
        self.close()

    def close(self):
        try:
            self.send("Browser.close")
            self.process.wait(10)
        except (subprocess.TimeoutExpired, OSError, RuntimeError):
            self.process.kill()
            self.process.wait()
        os.close(self.to)
        os.close(self.out)
        self.profile.cleanup()

    def receive(self, seconds):
        """Takes what Chromium has written, if it writes within so many seconds."""
        if not select.select([self.out], [], [], seconds)[0]:
            return
        data = os.read(self.out, 1 << 20)
        if not data:
            raise RuntimeError("the browser ended")
        *whole, self.rest = (self.rest + data).split(b"\0")
        for message in map(json.loads, whole):
            if "id" in message:
                self.answers[message["id"]] = message
            else:
                self.take(message)

    def take(self, message):
        method, values = message["method"], message.get("params", {})
        session = message.get("sessionId")
        if method == "Target.attachedToTarget":
            self.prepare(values["sessionId"], values["targetInfo"]["type"])
        elif session in self.pages and method in PAGE_EVENTS:
            self.pages[session].hear(method, values)
        elif method == "Runtime.exceptionThrown":
            details = values["exceptionDetails"]
            self.reports.append(details.get("exception", {}).get("description", details["text"]))
        elif method == "Log.entryAdded" and values["entry"]["level"] in ("error", "warning"):
            self.reports.append(values["entry"]["text"])
        elif method == "Runtime.consoleAPICalled":
            self.reports.append("console: " + " ".join(str(each.get("value")) for each in values["args"]))
        elif method == "Network.requestWillBeSent" and not values["request"]["url"].startswith(("file:", "blob:", "data:")):
            self.reports.append("asks for " + values["request"]["url"][:200])
        elif method == "Page.javascriptDialogOpening":
            self.reports.append("a dialog: " + values["message"])
            self.post("Page.handleJavaScriptDialog", session, accept=True)

    def prepare(self, session, kind):
        if kind == "iframe":
            self.frames.append(Page(self, session, None))
        for method in ("Runtime.enable", "Log.enable", "Network.enable", *(("Page.enable",) if kind in ("page", "iframe") else ())):
            self.post(method, session)
        self.post("Target.setAutoAttach", session, autoAttach=True, waitForDebuggerOnStart=False, flatten=True)
        self.post("Network.emulateNetworkConditions", session, offline=True, latency=0, downloadThroughput=0, uploadThroughput=0)

    def post(self, method, session=None, **values):
        self.count += 1
        message = {"id": self.count, "method": method, "params": values, **({"sessionId": session} if session else {})}
        data = json.dumps(message).encode() + b"\0"
        while data:
            # (Chromium may have to be read from before it takes more)
            _, is_free, _ = select.select([], [self.to], [], 0)
            if is_free:
                data = data[os.write(self.to, data[:65536]):]
            else:
                self.receive(0.01)
        return self.count

    def send(self, method, session=None, seconds=60, **values):
        number, end = self.post(method, session, **values), time.monotonic() + seconds
        while number not in self.answers:
            if time.monotonic() > end:
                raise RuntimeError(f"{method}: no answer within {seconds} s")
            self.receive(0.5)
        answer = self.answers.pop(number)
        if "error" in answer:
            said = answer["error"]["message"]
            raise (WentElsewhere if "navigated" in said else RuntimeError)(f"{method}: {said}")
        return answer.get("result", {})

    def blank(self):
        """A page with nothing on it."""
        target = self.send("Target.createTarget", url="about:blank")["targetId"]
        session = self.send("Target.attachToTarget", targetId=target, flatten=True)["sessionId"]
        page = self.pages[session] = Page(self, session, target)
        self.prepare(session, "page")
        return page

    def open(self, address, width=1280, height=800, is_dark=False):
        page = self.blank()
        page.size(width, height, is_dark)
        self.send("Page.navigate", page.session, url=address)
        page.wait("document.documentElement && document.URL !== 'about:blank' && document.readyState === 'complete'")
        return page


class Page:
    def __init__(self, browser, session, target):
        self.browser, self.session, self.target, self.is_loaded, self.contexts = browser, session, target, False, []

    def hear(self, method, values):
        if method == "Page.loadEventFired":
            self.is_loaded = True
        elif method == "Runtime.executionContextCreated":
            self.contexts.append(values["context"]["id"])
        else:
            self.contexts = []

    def size(self, width, height, is_dark=False):
        self.browser.send("Emulation.setDeviceMetricsOverride", self.session, width=width, height=height, deviceScaleFactor=1, mobile=False)
        self.browser.send("Emulation.setEmulatedMedia", self.session,
                          features=[{"name": "prefers-color-scheme", "value": "dark" if is_dark else "light"}])

    def go(self, address, seconds=60):
        """Opens an address in the page, and answers when it is loaded."""
        self.is_loaded, end = False, time.monotonic() + seconds
        self.browser.send("Page.navigate", self.session, url=address)
        while not self.is_loaded:
            if time.monotonic() > end:
                raise RuntimeError(f"{address} is not loaded within {seconds} s")
            self.browser.receive(0.5)

    def ask(self, expression, seconds=60):
        """The value of a JavaScript expression."""
        answer = self.browser.send("Runtime.evaluate", self.session, seconds, expression=expression, returnByValue=True, awaitPromise=True)
        if "exceptionDetails" in answer:
            raise RuntimeError(f"{expression[:200]}: {answer['exceptionDetails'].get('exception', {}).get('description')}")
        return answer["result"].get("value")

    def wait(self, expression, seconds=20):
        """Waits until an expression is true, and answers its value."""
        end = time.monotonic() + seconds
        while True:
            try:
                value = self.ask(expression)
            except WentElsewhere:
                value = None
            if value:
                return value
            if time.monotonic() > end:
                raise RuntimeError(f"within {seconds} s it does not become true: {expression}")
            self.browser.receive(0.03)

    def key(self, name, *modifiers):
        number = sum(MODIFIERS[each] for each in modifiers)
        code = KEYS.get(name) or ord(name.upper())
        for kind in ("rawKeyDown", "keyUp"):
            self.browser.send("Input.dispatchKeyEvent", self.session, type=kind, key=name, modifiers=number, windowsVirtualKeyCode=code,
                              code=name if name in KEYS else ("Digit" if name.isdigit() else "Key") + name.upper())

    def type(self, text):
        """Puts a text where the cursor stands, as an input method does."""
        self.browser.send("Input.insertText", self.session, text=text)

    def picture(self, path):
        data = self.browser.send("Page.captureScreenshot", self.session, format="png")["data"]
        with open(path, "wb") as file:
            file.write(base64.b64decode(data))

    def close(self):
        self.browser.send("Target.closeTarget", targetId=self.target)
