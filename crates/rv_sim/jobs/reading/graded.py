"""What examples/grading/grade --pages makes: a page that opens at the cycle that gave the first wrong register its value."""
import json
import os
import re
import subprocess

# a submission, and the register that it leaves wrong
NAME, REGISTER, WRONG = "unsigned", 10, 0xFFFFFFFD


def compare_graded(browser, grading, program, folder):
    ran = subprocess.run([grading / "grade", "--pages", folder, grading / "largest.toml", grading / "submissions"], env={**os.environ, "RV_SIM": str(program)},
                         stdout=subprocess.PIPE, stderr=subprocess.STDOUT, text=True)
    if ran.returncode:
        return [f"grade --pages: {ran.stdout.strip()}"]
    page = folder / f"{NAME}.s.html"
    browser.size(1280, 720)
    browser.open(page.as_uri())
    shown = int(browser.tell("byId('cycle').value"))
    lines = map(json.loads, re.search(r'(?s)<script type="application/json" id="run">(.*?)</script>', page.read_text())[1].strip().split("\n"))
    values = {each["cycle"]: each["state"]["registers"][REGISTER] for each in lines if "cycle" in each}
    right = values.get(shown) == WRONG != values.get(shown - 1) and set(list(values.values())[shown - min(values):]) == {WRONG}
    return [] if right and browser.console == [] else [f"grade --pages: the page of {NAME} opens at cycle {shown}; {browser.console}"]
