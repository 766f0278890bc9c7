"""WebKit (WebKitGTK's MiniBrowser), driven by WebDriver over a socket of this computer: the same words as browser.py has for Chromium."""
import base64
import http.client
import json
import os
import shutil
import socket
import subprocess
import tempfile
import time
from pathlib import Path

from driver import DrivenPage

# (the driver names no browser of its own on every system)
BROWSERS = ("/usr/lib/*/webkit2gtk-4.1/MiniBrowser", "/usr/libexec/webkit2gtk-4.1/MiniBrowser", "/usr/lib/*/webkitgtk-6.0/MiniBrowser")
SCREEN = "3840x2160x24"


def find_webkit():
    """The browser, where it, its driver and a display without a screen are here."""
    browser = next((str(path) for pattern in BROWSERS for path in Path("/").glob(pattern[1:])), None)
    return browser if shutil.which("WebKitWebDriver") and shutil.which("Xvfb") else None


class WebKit:
    """A WebKit on a display of its own. What its console says is in `reports`."""

    def __init__(self, is_dark=False):
        self.folder = tempfile.TemporaryDirectory(ignore_cleanup_errors=True)
        self.console, self.heard, self.processes = Path(self.folder.name) / "console", 0, []
        try:
            self.begin(is_dark)
        except BaseException:
            self.end()
            raise

    def begin(self, is_dark):
        folder = Path(self.folder.name)
        here, theirs = os.pipe()
        self.processes.append(subprocess.Popen(["Xvfb", "-displayfd", str(theirs), "-screen", "0", SCREEN, "-nolisten", "tcp"], pass_fds=(theirs,), stderr=subprocess.DEVNULL))
        os.close(theirs)
        with os.fdopen(here) as told:
            display = ":" + told.readline().strip()
        # the browser's console goes into a file
        started = folder / "browser"
        started.write_text(f'#!/bin/sh\nexec {find_webkit()} --enable-write-console-messages-to-stdout=true "$@" >>{self.console} 2>/dev/null\n')
        started.chmod(0o755)
        theme = "Adwaita:dark" if is_dark else "Adwaita"
        environment = {**os.environ, "DISPLAY": display, "HOME": str(folder), "XDG_RUNTIME_DIR": str(folder), "GTK_THEME": theme, "GDK_BACKEND": "x11",
                       "NO_AT_BRIDGE": "1", "LIBGL_ALWAYS_SOFTWARE": "1", "WEBKIT_DISABLE_DMABUF_RENDERER": "1"}
        self.port = free_port()
        self.processes.append(subprocess.Popen(["WebKitWebDriver", f"--port={self.port}"], env=environment, stdout=subprocess.DEVNULL, stderr=subprocess.DEVNULL))
        options = {"binary": str(started), "args": ["--automation"]}
        session = self.send("POST", "/session", seconds=60, capabilities={"alwaysMatch": {"webkitgtk:browserOptions": options}})
        self.session = "/session/" + session["sessionId"]
        self.first = self.current = self.send("GET", self.session + "/window")
        self.send("POST", self.session + "/timeouts", script=300000, pageLoad=60000)

    def __enter__(self):
        return self

    def __exit__(self, *_):
        try:
            self.send("DELETE", self.session)
        except (OSError, RuntimeError):
            pass
        self.end()

    def end(self):
        for process in reversed(self.processes):
            process.terminate()
            process.wait()
        self.folder.cleanup()

    def send(self, method, path, seconds=0, **values):
        """A command of the driver; within so many seconds it may have to be started first."""
        until = time.monotonic() + seconds
        while True:
            connection = http.client.HTTPConnection("127.0.0.1", self.port, timeout=400)
            try:
                connection.request(method, path, json.dumps(values) if method == "POST" else None, {"Content-Type": "application/json"})
                answer = json.loads(connection.getresponse().read())["value"]
                break
            except ConnectionRefusedError:
                if time.monotonic() > until:
                    raise
                time.sleep(0.05)
            finally:
                connection.close()
        if isinstance(answer, dict) and "error" in answer:
            raise RuntimeError(f"{path.split('/')[-1]}: {answer['message'] or answer['error']}")
        return answer

    @property
    def reports(self):
        """What the console said: errors, warnings, and what the page's policy refused."""
        return self.console.read_text(errors="replace").splitlines() if self.console.exists() else []

    @property
    def frames(self):
        return [self.page.frame()]

    def turn_to(self, handle):
        if self.current != handle:
            self.send("POST", self.session + "/window", handle=handle)
            self.current = handle

    def open(self, address, width=1280, height=800):
        # (a window is drawn, a tab behind another is not)
        handle = self.send("POST", self.session + "/window/new", type="window")["handle"]
        self.page = WebKitPage(self, handle)
        self.page.size(width, height)
        self.page.command("POST", "/url", url=address)
        return self.page


class WebKitPage(DrivenPage):
    def __init__(self, browser, handle, frame=None):
        self.browser, self.handle, self.frame_of = browser, handle, frame

    def command(self, method, path, **values):
        self.browser.turn_to(self.handle)
        return self.browser.send(method, self.browser.session + path, **values)

    def size(self, width, height):
        """Sizes the window so that the page in it is so wide and high."""
        bars = self.ask("[outerWidth - innerWidth, outerHeight - innerHeight]")
        self.command("POST", "/window/rect", width=width + bars[0], height=height + bars[1])

    def ask(self, expression):
        """The value of an expression, waited for; statements, which are none to WebKit, have no value."""
        try:
            return self.evaluate(f"return (\n{expression}\n);")
        except RuntimeError as error:
            if "Unexpected" not in str(error):
                raise RuntimeError(f"{expression[:200]}: {error}") from None
        return self.evaluate(expression)

    def evaluate(self, script):
        if self.frame_of is None:
            return self.command("POST", "/execute/sync", script=script, args=[])
        found = self.command("POST", "/element", using="css selector", value=self.frame_of)
        self.command("POST", "/frame", id=found)
        try:
            return self.command("POST", "/execute/sync", script=script, args=[])
        finally:
            self.command("POST", "/frame", id=None)

    def frame(self, selector="iframe"):
        return WebKitPage(self.browser, self.handle, selector)

    def act(self, actions):
        self.command("POST", "/actions", actions=actions)

    def picture(self, path):
        Path(path).write_bytes(base64.b64decode(self.command("GET", "/screenshot")))

    def close(self):
        self.command("DELETE", "/window")
        self.browser.turn_to(self.browser.first)


def free_port():
    """A port that nobody listens at."""
    with socket.socket() as one:
        one.bind(("127.0.0.1", 0))
        return one.getsockname()[1]
