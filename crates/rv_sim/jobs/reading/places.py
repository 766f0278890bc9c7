"""The pipeline picture: its letters beside the log's, and where they stand."""
import re

from .panels import STAGES

WORDS = {"F": "fetch", "D": "dispatch", "I": "issue", "=": "execution", "~": "wait for the bus", "B": "broadcast", ".": "wait", "C": "retirement",
         "T": "trap", "x": "squash"}


def near(one, other):
    return abs(one - other) < 1.5


def compare_picture(facts, page, cycle, same):
    picture, log, window = page["picture"], facts.log, facts.lines
    if not picture["rows"]:
        return same("rows of the picture", 0, "some")
    if len(picture["labels"]) != len(picture["rows"]) or not all("label" in row for row in picture["rows"]):
        return same("rows with a label beside each", len(picture["labels"]), len(picture["rows"]))
    same("labels at the left", [each["left"] for each in picture["labels"] if not near(each["left"], picture["left"])], [])
    lefts, wrong, colours, tips = {}, [], [], []
    for row in picture["rows"]:
        number = int(re.match(r"#(\d+)", row["label"])[1])
        each = log[number]
        compare_label(window, each, row, same)
        for cell in row["cells"]:
            at = int(re.search(r"in cycle (\d+)", cell["tip"], re.I)[1])
            lefts.setdefault(at, set()).add(round(cell["left"], 1))
            wrong += [(number, at, cell["text"])] * (cell["text"] != each.letter(at))
            colours += [(number, at, cell["kind"])] * (cell["kind"] != "cell " + STAGES[each.letter(at)])
            tips += [cell["tip"]] * (cell["tip"] != f"#{number} in cycle {at}: {WORDS[each.letter(at)]}")
    same("letters of the picture by number and cycle", wrong, [])
    same("colours of letters by number and cycle", colours, [])
    same("tips of letters", tips[:3], [])
    same("letters of a cycle below each other", [at for at, places in lefts.items() if max(places) - min(places) > 1], [])
    compare_columns(picture, lefts, cycle, same)
    compare_rows(picture, log, same)
    compare_flying(facts, picture, cycle, same)
    compare_notes(facts, page, same)


def compare_label(window, each, row, same):
    statement = " ".join(window.statements.get(each.pc, each.text).split())
    whole, short = f"#{each.number} {each.pc:08x} {statement}", f"#{each.number} {statement}"
    same(f"label of #{each.number}", row["label"] if row["label"] in (whole, short) else row["label"], whole if row["label"] == whole else short)
    same(f"tip of #{each.number}", " ".join(row["tip"].split()), f"{each.pc:08x} {statement}")
    same(f"whether #{each.number} retires", ("gone" in row["marks"], "trap" in row["marks"]), (each.left is not None and each.left <= window.last and each.end == "x", each.left is not None and each.end == "T"))


def compare_columns(picture, lefts, cycle, same):
    """The columns stand in order, one beside the other; the cursor and the heads stand over theirs."""
    order = sorted(lefts)
    if len(order) > 1:
        first, last = order[0], order[-1]
        width = (min(lefts[last]) - min(lefts[first])) / (last - first)
        same("columns beside each other", [at for at in order if not near(min(lefts[at]), min(lefts[first]) + (at - first) * width)], [])
        same("width of a column", width > 5, True)
        heads = [(head["text"], head["left"]) for head in picture["heads"][1:]]
        same("heads", [text for text, left in heads if text.lstrip("!").isdigit() and not near(left, min(lefts[first]) + (int(text.lstrip("!")) - first) * width)], [])
    now = [head for head in picture["heads"] if "now" in head["kind"]]
    same("head of the cursor", [head["text"].lstrip("!") for head in now], [str(cycle)])
    same("cursor", picture["hasCursor"], True)
    if cycle in lefts:
        same("place of the cursor", near(picture["cursor"]["left"], min(lefts[cycle])), True)
    if now:
        same("place of the cursor's head", near(now[0]["left"], picture["cursor"]["left"]), True)
        same("cursor in view", picture["left"] <= picture["cursor"]["left"] and picture["cursor"]["right"] <= picture["right"] + 1, True)


def compare_rows(picture, log, same):
    numbers = [int(re.match(r"#(\d+)", row["label"])[1]) for row in picture["rows"]]
    tops = [row["top"] for row in picture["rows"]]
    same("rows in order of fetch", numbers, sorted(numbers))
    height = picture["rows"][0]["height"]
    same("rows below each other", [number for k, number in enumerate(numbers) if not near(tops[k], tops[0] + k * height)], [])
    same("rows without a gap", numbers, list(range(numbers[0], numbers[0] + len(numbers))) if numbers else [])


def compare_flying(facts, picture, cycle, same):
    """Each instruction in flight that fits is inside the panel's box, the oldest first, with its letter of the cycle."""
    flying = [each.number for each in facts.flying(cycle)]
    rows = {int(re.match(r"#(\d+)", row["label"])[1]): row for row in picture["rows"]}
    inside = [number for number in flying if number in rows and rows[number]["top"] >= picture["under"] - 1 and rows[number]["bottom"] <= picture["bottom"] + 1]
    height = picture["rows"][0]["height"]
    fits = int((picture["bottom"] - picture["under"] + 1) // height)
    # (what was squashed between them has its rows too)
    room = flying if flying and flying[-1] - flying[0] < fits else [number for number in flying if number - flying[0] < fits - 1]
    same("instructions in flight in view", [number for number in inside if number in room], room)
    if fits < 5:
        same("rows that the picture has room for", fits, "five or more")
    without = [number for number in inside if not any(cell["tip"].startswith(f"#{number} in cycle {cycle}:") for cell in rows[number]["cells"])]
    same("instructions in flight without a letter", without, [])


def compare_notes(facts, page, same):
    window = facts.lines
    fetched = [each for each in facts.log.values() if each.stages["F"] <= window.last and (each.left is None or each.left >= window.first)]
    same("picture's note", page["notes"]["picture-note"], f"{len(fetched)} instruction{'s' * (len(fetched) != 1)} fetched in cycles {window.first} to {window.last}")
    same("legend", [[letter, f"{letter} {WORDS[letter]}", STAGES[letter]] for letter in WORDS] + [["!", "! interrupt", "interrupt"]], page["legend"])
