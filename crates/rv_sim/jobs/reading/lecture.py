"""A lecture by keyboard alone: ten stops, a quiz of ten questions, two runs side by side, and one of them again."""
import time
from urllib.parse import quote

from .keys import Keys
from .pair import open_beside, settled
from .shown import READ_CURSOR

READ_STOP = """({ stop: document.getElementById("stop").hidden ? "" : document.getElementById("stop").textContent, cycle: Number(document.getElementById("cycle").value),
  followed: [...document.querySelectorAll("#picture-labels .followed")].map((each) => Number(each.textContent.match(/\\d+/)[0])) })"""
READ_QUIZ = """["question", "verdict"].map((id) => document.getElementById(id).textContent)"""
COUNT = 10
# the questions that are answered wrong
MISTAKES = (2, 5, 8)


def compare_lecture(browser, one, other, stops):
    """The stops are cycles with the number of an instruction and a sentence; the pages are those of two runs."""
    wrong, (facts, page), (_, beside) = [], one, other

    def same(what, shown, known):
        if shown != known:
            wrong.append(f"a lecture by keyboard: {what}: the page has {shown!r}, not {known!r}")

    browser.size(1280, 720)
    same("stops that it needs", len(stops) >= COUNT, True)
    go_through_stops(browser, page, stops[:COUNT], same)
    do_quiz(browser, Keys(browser, facts, page.as_uri(), same), same)
    go_beside(browser, page, beside, same)
    same("console", browser.console, [])
    return wrong


def go_through_stops(browser, page, stops, same):
    notes = "|".join(f"{cycle} #{number} {sentence}" for cycle, number, sentence in stops)
    browser.open(f"{page.as_uri()}#notes={quote(notes)}")
    last = len(stops) - 1
    # (a full stop after the last stop leaves it)
    for key, k in [*((".", k) for k in range(len(stops))), (".", last), *((",", k) for k in range(last - 1, -1, -1)), (".", 1)]:
        browser.press(key)
        cycle, number, sentence = stops[k]
        same(f"stop {k + 1}", browser.tell(READ_STOP), {"stop": f"{k + 1} of {len(stops)}, cycle {cycle}: {sentence}", "cycle": cycle, "followed": [number]})


def do_quiz(browser, keys, same):
    at, right = 2, 0
    browser.press("Escape", "g", str(at), "Enter", "q")
    for k in range(COUNT):
        question, _ = browser.tell(READ_QUIZ)
        answer = keys.answer(question, at + k + 1)
        browser.press(*("99999" if k in MISTAKES else answer), "Enter")
        right += k not in MISTAKES
        _, verdict = browser.tell(READ_QUIZ)
        said = f"No: {answer}." if k in MISTAKES else "Right."
        same(f"verdict on question {k + 1}", verdict, f"{said} {right} of {k + 1} right. Enter: the next cycle.")
        browser.press("Enter")
        same(f"cycle after question {k + 1}", browser.tell(READ_CURSOR)["cycle"], str(at + k + 1))
    browser.press("Escape")
    same("what the quiz came to", browser.tell(READ_CURSOR)["following"], f"Quiz: {right} of {COUNT} right.")


def go_beside(browser, page, beside, same):
    """The other run is typed, both are stepped, and each leads; at the end this one stands alone, where it was."""
    browser.press("g", "4", "Enter")
    wait_for_address(browser, "cycle=4")
    open_beside(browser, beside.name)
    for keys, cycle in (((), 4), (("ArrowRight", "ArrowRight"), 6), (("3", "PageDown"), 16), (("3", "ArrowLeft"), 15)):
        browser.press(*keys)
        same(f"cycles side by side after {' '.join(keys)}", [each["cycle"] for each in settled(browser, [page.name, beside.name], [cycle] * 2)], [cycle] * 2)
    browser.press("1")
    same("one run again", alone(browser), [page.name, "15"])


def wait_for_address(browser, text):
    """The address follows the cursor a moment later, and the two runs begin where it says."""
    until = time.monotonic() + 3
    while text not in browser.tell("location.hash") and time.monotonic() < until:
        time.sleep(0.05)


def alone(browser):
    """The name and the cycle of the page, as soon as it stands without frames."""
    until = time.monotonic() + 5
    while True:
        try:
            found = browser.tell("document.getElementById('sides').children.length === 0 && document.documentElement.dataset.opened"
                                 " ? [location.pathname.split('/').pop(), document.getElementById('cycle').value] : null")
        except RuntimeError:
            found = None  # (it is being loaded)
        if found or time.monotonic() > until:
            return found
        time.sleep(0.05)
