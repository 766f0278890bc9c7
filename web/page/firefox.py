"""Firefox, driven by WebDriver BiDi over a socket of this computer: the same words as browser.py has for Chromium."""
import base64
import json
import os
import re
import shutil
import socket
import struct
import subprocess
import tempfile
import time
from pathlib import Path

from driver import DrivenPage

EVENTS = ["log.entryAdded", "network.beforeRequestSent"]
# what the page's policy refused is said on the console
VIOLATIONS = "() => addEventListener('securitypolicyviolation', (event) => console.error('refused by the policy: ' + event.violatedDirective))"


def find_firefox():
    return next((path for path in map(shutil.which, ("firefox-esr", "firefox")) if path), None)


class Socket:
    """A WebSocket (RFC 6455): texts in both directions."""

    def __init__(self, port):
        self.socket, self.rest = socket.create_connection(("127.0.0.1", port), 300), b""
        key = base64.b64encode(os.urandom(16)).decode()
        self.socket.sendall((f"GET /session HTTP/1.1\r\nHost: 127.0.0.1:{port}\r\nUpgrade: websocket\r\nConnection: Upgrade\r\n"
                             f"Sec-WebSocket-Key: {key}\r\nSec-WebSocket-Version: 13\r\n\r\n").encode())
        while b"\r\n\r\n" not in self.rest:
            self.rest += self.socket.recv(65536)
        self.rest = self.rest.partition(b"\r\n\r\n")[2]

    def send(self, text):
        data = text.encode()
        length = len(data)
        size = bytes([0x80 | length]) if length < 126 else b"\xfe" + struct.pack(">H", length) if length < 65536 else b"\xff" + struct.pack(">Q", length)
        mask = os.urandom(4)
        hidden = int.from_bytes(data, "big") ^ int.from_bytes((mask * (length // 4 + 1))[:length], "big")
        self.socket.sendall(b"\x81" + size + mask + hidden.to_bytes(length, "big"))

    def take(self, count):
        while len(self.rest) < count:
            data = self.socket.recv(1 << 20)
            if not data:
                raise RuntimeError("the browser ended")
            self.rest += data
        taken, self.rest = self.rest[:count], self.rest[count:]
        return taken

    def receive(self):
        whole = b""
        while True:
            first, second = self.take(2)
            size = second & 127
            size = struct.unpack(">H", self.take(2))[0] if size == 126 else struct.unpack(">Q", self.take(8))[0] if size == 127 else size
            whole += self.take(size)
            if first & 0x80:
                return whole.decode()


class Firefox:
    """A Firefox without a window, with these preferences."""

    def __init__(self, is_dark=False, **preferences):
        self.profile = tempfile.TemporaryDirectory(ignore_cleanup_errors=True)
        folder, written = Path(self.profile.name), {"layout.css.prefers-color-scheme.content-override": 0 if is_dark else 1, **preferences}
        (folder / "user.js").write_text("".join(f"user_pref({json.dumps(name)}, {json.dumps(value)});\n" for name, value in written.items()))
        words = [find_firefox(), "--headless", "--no-remote", "--profile", self.profile.name, "--remote-debugging-port=0", "about:blank"]
        # (into a file: a pipe that nobody reads would stop a browser that has much to say)
        self.said = folder / "said"
        with self.said.open("w") as said:
            self.process = subprocess.Popen(words, stdout=subprocess.DEVNULL, stderr=said)
        try:
            self.begin()
        except BaseException:
            self.process.kill()
            raise

    def begin(self):
        self.socket, self.count, self.reports = Socket(self.port()), 0, []
        self.send("session.new", capabilities={})
        self.send("session.subscribe", events=EVENTS)
        self.send("script.addPreloadScript", functionDeclaration=VIOLATIONS)

    def port(self, seconds=60):
        """The port that it says it listens at."""
        end = time.monotonic() + seconds
        while not (found := re.search(r"BiDi listening on ws://127.0.0.1:(\d+)", self.said.read_text(errors="replace"))):
            if time.monotonic() > end or self.process.poll() is not None:
                raise RuntimeError(f"Firefox does not begin within {seconds} s: {self.said.read_text(errors='replace')[-500:]}")
            time.sleep(0.05)
        return int(found[1])

    def __enter__(self):
        return self

    def __exit__(self, *_):
        self.process.terminate()
        self.process.wait()
        self.profile.cleanup()

    def send(self, method, **values):
        self.count += 1
        self.socket.send(json.dumps({"id": self.count, "method": method, "params": values}))
        while True:
            message = json.loads(self.socket.receive())
            if message.get("id") == self.count:
                if message["type"] == "error":
                    raise RuntimeError(f"{method}: {message['message']}")
                return message["result"]
            self.take(message.get("method"), message.get("params", {}))

    def take(self, method, values):
        if method == "log.entryAdded" and values["level"] in ("error", "warn"):
            self.reports.append(values["text"])
        elif method == "network.beforeRequestSent" and not values["request"]["url"].startswith(("file:", "blob:", "data:", "about:")):
            self.reports.append("asks for " + values["request"]["url"][:200])

    @property
    def frames(self):
        tree = self.send("browsingContext.getTree")["contexts"]
        return [FirefoxPage(self, child["context"]) for page in tree for child in page["children"] or ()]

    def open(self, address, width=1280, height=800):
        context = self.send("browsingContext.create", type="tab")["context"]
        self.send("browsingContext.setViewport", context=context, viewport={"width": width, "height": height})
        self.send("browsingContext.navigate", context=context, url=address, wait="complete")
        return FirefoxPage(self, context)


class FirefoxPage(DrivenPage):
    def __init__(self, browser, context):
        self.browser, self.context = browser, context

    def ask(self, expression):
        answer = self.browser.send("script.evaluate", expression=expression, target={"context": self.context}, awaitPromise=True)
        if answer["type"] == "exception":
            raise RuntimeError(f"{expression[:200]}: {answer['exceptionDetails']['text']}")
        return plain(answer["result"])

    def act(self, actions):
        self.browser.send("input.performActions", context=self.context, actions=actions)

    def picture(self, path):
        Path(path).write_bytes(base64.b64decode(self.browser.send("browsingContext.captureScreenshot", context=self.context)["data"]))

    def printed(self, path, **words):
        """Writes the page as it is printed into a file."""
        Path(path).write_bytes(base64.b64decode(self.browser.send("browsingContext.print", context=self.context, **words)["data"]))

    def close(self):
        self.browser.send("browsingContext.close", context=self.context)


def plain(value):
    """A value of BiDi as one of Python."""
    if value["type"] == "array":
        return [plain(each) for each in value.get("value", ())]
    return value.get("value")
