"""Two runs side by side: one cursor for both, by cycle or by retired instructions, and marks where they differ."""
import time

from reading.browser import WentElsewhere

READ_FRAME = r"""({ name: location.pathname.split("/").pop(), cycle: Number(document.documentElement.dataset.cycle), facts: Object.fromEntries([...document.querySelectorAll("[data-fact], [data-entry]")].map((each) => each.dataset.entry === undefined ? [each.dataset.fact, each.textContent]
    : ["entry " + each.dataset.entry, [each.querySelector(".pc"), ...[...each.cells].slice(3)].map((cell) => cell.textContent).join(" ")])),
  differs: [...document.querySelectorAll(".differs")].map((each) => each.dataset.fact || "entry " + each.dataset.entry), panels: [...document.querySelectorAll("[data-panel]:not([hidden]) h2")].map((each) => each.textContent) })"""


def marked_wrong(frames):
    """What is marked and does not differ, or differs and is not marked: a register, a CSR, a count, a row of the reorder buffer."""
    wrong = []
    for each, other in (frames, frames[::-1]) if len(frames) == 2 else ():
        known = {name for name, text in each["facts"].items() if other["facts"].get(name, "00000000") != text}
        wrong += sorted(known ^ set(each["differs"]))
    return wrong


def settled(browser, names, wanted):
    """The frames in the order of their names, when they stand where they should with the marks that they should have, or what they show after three seconds."""
    until = time.monotonic() + 3
    while True:
        frames = sorted((each for each in browser.tell_frames(READ_FRAME) if each), key=lambda each: names.index(each["name"]))
        if ([each["cycle"] for each in frames] == wanted and not marked_wrong(frames)) or time.monotonic() > until:
            return frames
        time.sleep(0.02)


def open_beside(browser, name):
    """Types the other run's name, and answers when both stand there."""
    browser.press("2", *name, "Enter")
    until = time.monotonic() + 3
    while len(browser.tell_frames("0")) < 2 and time.monotonic() < until:
        time.sleep(0.05)


def retired(run, at):
    return sum(kind == "R" and when <= at for kind, when in run.steps)


def note_beside(browser):
    """What is said of two runs, when something is said of each, or what stands there after ten seconds."""
    until = time.monotonic() + 10
    while True:
        # (there is none while the page is opened anew)
        try:
            note = browser.tell("document.getElementById('pair-note')?.textContent") or ""
        except WentElsewhere:
            note = ""
        if "|" in note or time.monotonic() > until:
            return note
        time.sleep(0.05)


def by_retired(facts, others, cycle):
    """The first cycle in which the other run has as many retired instructions as one has after a cycle."""
    wanted = retired(facts, cycle)
    return next(at for at in range(-1, others.lines.last + 1) if retired(others, at) >= wanted)


def compare_pair(browser, one, other):
    wrong = []

    def same(what, shown, known):
        if shown != known:
            wrong.append(f"two runs side by side: {what}: the page has {shown!r}, not {known!r}")

    (facts, page), (others, beside) = one, other
    browser.size(1920, 1080)
    browser.open(f"{page.as_uri()}#cycle=20")
    open_beside(browser, beside.name)
    # 2 turns from cycles to retired instructions and back, and 3 goes to the other run, which leads from then on
    for keys, wanted in (((), [20, 20]), (("ArrowRight",), [21, 21]), (("PageDown",), [31, 31]), (("2",), [31, by_retired(facts, others, 31)]),
                         (("PageUp",), [21, by_retired(facts, others, 21)]), (("2",), [21, 21]), (("3", "ArrowRight"), [22, 22])):
        browser.press(*keys)
        frames = settled(browser, [page.name, beside.name], wanted)
        same(f"cycles after {' '.join(keys)}", [each["cycle"] for each in frames], wanted)
        same("marks", marked_wrong(frames), [])
        same("panels", [each["panels"] for each in frames], [["Pipeline", "Reorder buffer", "Counts", "Registers"]] * 2)
    same("console", browser.console, [])
    for name in ("none.html", "%zz.html", "http://["):
        browser.open(f"{page.as_uri()}#cycle=20")
        browser.press("2", *name, "Enter")
        same(f"what is said of {name}", note_beside(browser), f"cycle 20, {retired(facts, 20)} retired | {name} is no page of a run; 1: this run alone")
    return wrong
