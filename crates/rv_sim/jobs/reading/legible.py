"""Each text of a page is dark enough on its ground, light and dark, whatever is shown; each button has a name in words; what scrolls can be
scrolled by keys; and in a window as narrow as a telephone no text is too small, and the page no wider."""
import sys

from reading import browser as browsers

sys.path.insert(0, str(browsers.DRIVER.parent))
from scenes import FAINT, UNREACHED  # noqa: E402

SHOWN = ("0", "turn('path')", "turn('path'), turn('textbook')", "turn('textbook'), showKeys(), showSwitches()", "turnQuiz()")
NAMELESS = "[...document.querySelectorAll('button:not(.tag)')].filter((each) => !/[a-z]{3}/.test(each.getAttribute('aria-label') || each.textContent)).map((each) => each.outerHTML).join()"
SMALLEST = """Math.min(...[...document.querySelectorAll('body *')].filter((each) => each.getClientRects().length && !each.closest('.unseen')
  && [...each.childNodes].some((child) => child.nodeType === 3 && child.data.trim() !== '')).map((each) => parseFloat(getComputedStyle(each).fontSize)))"""
WIDTHS = (380, 1280)


def compare_legible(browser, facts, page):
    """What is not so of a page, in its last cycle but one."""
    wrong, cycle = [], facts.lines.last - 1
    for is_dark in (False, True):
        browser.size(WIDTHS[1], 800, is_dark)
        browser.open(f"{page.as_uri()}#cycle={cycle}")
        for act in SHOWN:
            browser.tell(f"{act}; follow(view.line.in_flight[0]); 0")
            faint, unreached = browser.tell(FAINT), browser.tell(UNREACHED)
            wrong += [f"{page.stem}, {act}, {'dark' if is_dark else 'light'}: too faint: {faint}"] if faint else []
            wrong += [f"{page.stem}, {act}: no key scrolls {unreached}"] if unreached else []
    nameless = browser.tell(NAMELESS)
    wrong += [f"{page.stem}: buttons without a name: {nameless}"] if nameless else []
    browser.size(WIDTHS[0], 800)
    browser.open(f"{page.as_uri()}#cycle={cycle}")
    smallest, width, unreached = browser.tell(SMALLEST), browser.tell("document.documentElement.scrollWidth"), browser.tell(UNREACHED)
    wrong += [f"{page.stem}, {WIDTHS[0]} wide: no key scrolls {unreached}"] if unreached else []
    wrong += [f"{page.stem}, {WIDTHS[0]} wide: type of {smallest} pixels"] if smallest < 8 else []
    wrong += [f"{page.stem}, {WIDTHS[0]} wide: the page is {width} wide"] if width > WIDTHS[0] else []
    return wrong


def compare_index(browser, path):
    """What is not so of the index of pages: its texts are legible, light and dark, its tables have heads, and a telephone's window is wide enough."""
    wrong = []
    for is_dark in (False, True):
        browser.size(WIDTHS[0], 800, is_dark)
        browser.open(path.as_uri())
        faint = browser.tell(FAINT)
        wrong += [f"the index, {'dark' if is_dark else 'light'}: too faint: {faint[:200]}"] if faint else []
    headless = browser.tell("[...document.querySelectorAll('table')].filter((each) => !each.querySelector('th[scope=col]') || each.querySelector('tr > td:first-child')).length")
    wrong += [f"the index: {headless} tables without heads"] if headless else []
    width = browser.tell("document.documentElement.scrollWidth")
    return wrong + ([f"the index, {WIDTHS[0]} wide: the page is {width} wide"] if width > WIDTHS[0] else [])
