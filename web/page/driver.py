"""What pages that are driven by one of the W3C's protocols have in common, whether by WebDriver (webkit.py) or by WebDriver BiDi (firefox.py)."""
import json
import time

KEYS = {"Enter": "\ue007", "Tab": "\ue004", "Escape": "\ue00c", "ArrowLeft": "\ue012", "ArrowUp": "\ue013", "ArrowRight": "\ue014", "ArrowDown": "\ue015",
        "PageUp": "\ue00e", "PageDown": "\ue00f", "End": "\ue010", "Home": "\ue011", "Ctrl": "\ue009", "Alt": "\ue00a", "Shift": "\ue008"}


class DrivenPage:
    """A page whose `ask` answers an expression's value, and whose `act` does a list of actions of an input."""

    def wait(self, expression, seconds=20):
        """Waits until an expression is true, and answers its value."""
        end = time.monotonic() + seconds
        while True:
            value = self.ask(expression)
            if value:
                return value
            if time.monotonic() > end:
                raise RuntimeError(f"within {seconds} s it does not become true: {expression}")
            time.sleep(0.03)

    def key(self, name, *modifiers):
        pressed = [*(KEYS[each] for each in modifiers), KEYS.get(name, name)]
        actions = [{"type": "keyDown", "value": each} for each in pressed] + [{"type": "keyUp", "value": each} for each in reversed(pressed)]
        self.act([{"type": "key", "id": "keys", "actions": actions}])

    def type(self, text):
        self.ask(f"document.execCommand('insertText', false, {json.dumps(text)})")
