"""The page of a run that ended before the window: a sentence says so, and nothing else is there to be pressed or read."""
import subprocess

KNOWN = "rv_sim The run ended after 3 cycles (breakpoint), before cycle 999."


def compare_ended(browser, program, scratch):
    page = scratch / "ended.html"
    page.write_bytes(subprocess.run([program, "page", "--from", "999"], input=b"ebreak\n", stdout=subprocess.PIPE, check=True).stdout)
    browser.size(1280, 720)
    browser.open(page.as_uri())
    shown = " ".join(browser.tell("document.body.innerText").split())
    return [] if (shown, browser.console) == (KNOWN, []) else [f"a run that ended before its page: the page has {shown!r}, not {KNOWN!r}; {browser.console}"]
