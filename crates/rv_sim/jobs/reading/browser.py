"""One page of a headless Chromium, as web/page/browser.py drives it, for all pages that are looked at."""
import importlib.util
from pathlib import Path

DRIVER = Path(__file__).resolve().parents[4] / "web/page/browser.py"


def driver():
    spec = importlib.util.spec_from_file_location("web_page_browser", DRIVER)
    module = importlib.util.module_from_spec(spec)
    spec.loader.exec_module(module)
    return module


chromium = driver()
found = chromium.find_browser
WentElsewhere = chromium.WentElsewhere


class Browser:
    """A running browser with one page of its own."""

    def __init__(self, path):
        self.browser = chromium.Browser(path, scrollbars=True)
        self.page = self.browser.blank()
        self.size, self.tell = self.page.size, self.page.ask

    def close(self):
        self.browser.close()

    @property
    def console(self):
        """What the page reported since it was opened: messages, exceptions, requests."""
        return self.browser.reports

    def call(self, method, **words):
        return self.browser.send(method, self.page.session, **words)

    def open(self, address):
        """Opens an address as if for the first time, and answers when it is loaded."""
        for each in ("about:blank", address):
            self.browser.reports.clear()
            self.page.go(each)

    def tell_frames(self, expression):
        """The values of an expression in the frames of the page, in the order in which they were loaded; none of a page that is left just now."""
        try:
            self.tell("0")  # (what came of frames is heard with its answer)
            answers = [self.call("Runtime.evaluate", expression=expression, returnByValue=True, contextId=each) for each in self.page.contexts[1:]]
        except RuntimeError:
            return []
        return [each["result"].get("value") for each in answers]

    def press(self, *keys):
        """Presses keys, one after the other: a named one, or one that types itself."""
        for key in keys:
            code = chromium.KEYS.get(key, ord(key.upper()) if len(key) == 1 and key.isalnum() else 0)
            text = {"text": "\r" if key == "Enter" else key} if len(key) == 1 or key == "Enter" else {}
            self.call("Input.dispatchKeyEvent", type="keyDown" if text else "rawKeyDown", key=key, windowsVirtualKeyCode=code, **text)
            self.call("Input.dispatchKeyEvent", type="keyUp", key=key, windowsVirtualKeyCode=code)

    def point(self, x, y):
        self.call("Input.dispatchMouseEvent", type="mouseMoved", x=x, y=y)
