"""The critical path on a page: the table of causes beside the command `path`, whose lines of the program the second reader counts too; waits,
marks and keys beside examples/python/path, a second reader of the rules, which has the run from its beginning."""
import importlib.util
import json
import re
import time
from importlib.machinery import SourceFileLoader
from pathlib import Path

SCRIPT = Path(__file__).resolve().parents[4] / "examples/python/path"
ENDS = ("before the first event", "after the last step")
HEADING = "The lines of the program with the most cycles on the path:\n"
# (the letters of the marks, by the beginnings and ends of the causes' names)
LETTERS = (("r", r"refill"), ("b", r".*bus full"), ("n", r".* full"), ("u", r".* busy"), ("o", r"operand|address"), ("e", r"execution"),
           ("l", r"load"), ("p", r"port|lines"), ("c", r"commit|drain"), ("f", r"fetch|dispatch|front"), ("i", r"until the interrupt"), ("-", r""))
LEGEND = {"r": "refill", "f": "front end", "n": "no room", "o": "operand", "u": "unit busy", "e": "execution", "l": "load", "p": "port",
          "b": "bus full", "c": "commit", "i": "until an interrupt", "-": "no cause"}
NAMES = {"lines": "write-back"}
STAGES = ("fetch", "dispatch", "issue", "broadcast", "lines", "commit", "drain")
STAMPS = {"fetch": "fetched", "dispatch": "dispatched", "issue": "issued", "broadcast": "broadcast", "drain": "drained", "lines": "writing_back"}
LETTERS_OF = {"fetch": "F", "dispatch": "D", "issue": "I", "broadcast": "B", "commit": "C", "trap": "T"}
# how many events the key back goes through
BACK = 15
# the panels that are left out while the path is followed by its key, so that a step is soon drawn: what is said of an event stands above them
LEFT_OUT = "source,fetch,predictor,stores,pipeline,waits,path,rob,stations,units,bus,csrs,counts,registers,cache,accesses,memory"

READ_PATH = r"""(() => {
  const text = (each) => each.textContent.replace(/\u00a0/g, " ").replace(/\s+/g, " ").trim(), byName = (id) => document.getElementById(id);
  const rows = (id) => [...byName(id).rows].filter((row) => !row.classList.contains("free")).map((row) => [...row.cells].map(text));
  const box = (each) => { const { left, right, top, bottom } = each.getBoundingClientRect(); return [left, right, top, bottom]; };
  const all = (what, made) => [...document.querySelectorAll(what)].map(made), topOf = (each) => Math.round(each.getBoundingClientRect().top);
  // the label of a row is that which stands beside it
  const numbers = new Map(all("#picture-labels > .label", (each) => [topOf(each), Number(each.textContent.match(/\d+/)[0])]));
  const numberOf = (row) => [0, -1, 1].map((by) => numbers.get(topOf(row) + by)).find((each) => each !== undefined);
  const cell = (row, each) => ({ number: numberOf(row), cycle: Number(each.title.match(/in cycle (\d+)/)[1]), box: box(each),
    said: each.title.split("; on the critical path: ")[1], outline: getComputedStyle(each).outlineStyle });
  const colour = (each, what) => getComputedStyle(each)[what];
  return {
    causes: rows("causes"), bars: all("#causes .bar", (each) => each.style.width), waits: rows("waits"),
    notes: ["path-note", "path-words"].map((id) => text(byName(id))),
    cells: all("#picture-rows > .row", (row) => [...row.querySelectorAll(".cell")].map((each) => cell(row, each))).flat(),
    shown: ["waits", "path", "csrs", "rob"].map((name) => !document.querySelector(`[data-panel=${name}]`).hidden), checked: byName("path").checked,
    heads: all("#picture-heads .cause", (each) => ({ text: text(each), tip: each.title, box: box(each), colour: colour(each, "backgroundColor") })),
    lines: all("#picture-path path", (each) => ({ box: box(each), colour: colour(each, "stroke") })),
    legend: all("#legend .badge", (each) => [text(each), text(each.parentNode), colour(each, "backgroundColor")]),
  };
})()"""

# Presses a key until it leads no further: cycle, instruction and what is said after each press.
WALK = r"""((key, most) => {
  const found = [], at = () => {
    const said = document.getElementById("following").textContent, number = /^The [a-z-]+ of #([0-9]+) /.exec(said);
    return [Number(document.getElementById("cycle").value), number && Number(number[1]), said];
  };
  for (let k = 0; k < most; k += 1) {
    document.body.dispatchEvent(new KeyboardEvent("keydown", { key, bubbles: true, cancelable: true }));
    const now = at();
    if (found.length && now.join() === found[found.length - 1].join()) return found;
    found.push(now);
  }
  return found;
})"""


def script():
    loader = SourceFileLoader("critical_path", str(SCRIPT))
    module = importlib.util.module_from_spec(importlib.util.spec_from_loader("critical_path", loader))
    loader.exec_module(module)
    return module


rules = script()


def letter_of(cause):
    return next(letter for letter, name in LETTERS if re.match(name, cause))


def printed_lines(text):
    """The lines as the program prints them: the address, the cycles, and those of the three greatest causes."""
    for block in re.findall(r"(?m)^[0-9a-f]{8}, .*\n(?:  .*\n)+", text):
        total, *causes = [int(count) for count in re.findall(r"(?m)\d+(?= \d+\.\d %$)", block)]
        yield int(block[:8], 16), total, sorted(causes, reverse=True)


class Known:
    """What is known of the path to the last step of a page."""

    def __init__(self, facts, lines, printed):
        self.first, self.last = facts.first, lines[-1]["cycles"] - 1
        self.run = rules.Run(lines)
        self.path, self.printed = rules.Path(self.run), printed
        self.steps = self.steps_to(self.path.ends())
        self.causes = {event: cause for event, _, cause, *_ in self.steps}

    def at(self, event):
        return self.path.at(event)

    def steps_to(self, event):
        """The steps that lead to an event within the page, each with the cycles from which and to which it is on account of its cause."""
        found = []
        while event is not None and self.at(event) >= self.first:
            before = self.path.before(event)
            if before is None:
                break
            found.append((event, *before, max(0, self.at(event) - self.at(before[0]))))
            event = before[0]
        found.reverse()
        steps = [(*step[:2], cause) for step, (_, cause, _) in zip(found, self.path.refilled(found))]
        return [(event, before, cause, max(self.first, self.at(before)), self.at(event)) for event, before, cause in steps]

    def cause_of(self, event):
        if event not in self.causes:
            steps = self.steps_to(event)
            self.causes[event] = steps[-1][2] if steps and steps[-1][0] == event else None
        return self.causes[event]

    def shares(self):
        """The cycles of each cause, of the greatest first, and then of the run's ends."""
        cycles = {cause: 0 for cause in ENDS}
        for _, _, cause, begin, end in self.steps:
            cycles[cause] = cycles.get(cause, 0) + end - begin
        last = self.steps[-1][4] if self.steps else self.first
        cycles[ENDS[1]] = self.last + 1 - last
        begin = self.steps[0][3] if self.steps else last
        cycles[ENDS[0]] = begin - self.first
        return cycles


def number_of(event):
    return None if event[0] == "interrupt" else event[1].number


def name_of(event):
    kind, word = event
    return "trap" if kind == "commit" and word.trapped else NAMES.get(kind, kind)


def words_of(event, number):
    if event[0] == "interrupt":
        return "the interrupt"
    return f"its {name_of(event)}" if number_of(event) == number else f"the {name_of(event)} of #{number_of(event)}"


def counted(count, name):
    return f"{count} {name}{'' if count == 1 else 's'}"


def sentence_of(known, event):
    """What is said of an event, and of the one that it waited for."""
    words, before = words_of(event, None), known.path.before(event)
    said = f"{words[0].upper()}{words[1:]} in cycle {known.at(event)}: "
    if before is None:
        return said + "the first event of the run."
    return (said + f"it waited last for {words_of(before[0], number_of(event))} in cycle {known.at(before[0])}: {known.cause_of(event)}, "
            f"{counted(known.at(event) - known.at(before[0]), 'cycle')}.")


def percent(cycles, total):
    tenths = (2000 * cycles + total) // (2 * total) if total else 0
    return f"{tenths // 10}.{tenths % 10}%" if total else "-"


class PathCheck:
    def __init__(self, browser, known, same):
        self.browser, self.known, self.same = browser, known, same
        self.first, self.last, self.steps = known.first, known.last, known.steps

    def turn_to(self, address):
        """Goes to another address of the page that is open."""
        self.browser.tell(f"new Promise((done) => {{ addEventListener('hashchange', () => setTimeout(done), {{ once: true }}); location.hash = '{address}'; }})")

    def table(self):
        """The table of causes: as the program prints it, where the page has the run from its first cycle, and as the second reader counts it."""
        self.browser.size(1280, 720)
        self.turn_to(f"cycle={self.last}&path")
        shown, total = self.browser.tell(READ_PATH), self.last + 1 - self.first
        rows, cycles = shown["causes"], self.known.shares()
        self.same("cycles of all causes", sum(int(row[2]) for row in rows), total)
        known = {cause: count for cause, count in cycles.items() if count or cause in ENDS}
        self.same("causes by the second reader", {row[1]: int(row[2]) for row in rows}, known)
        self.same("shares of the causes", [row[3] for row in rows], [percent(int(row[2]), total) for row in rows])
        bars = [float(bar.rstrip("%") or 0) for bar in shown["bars"]]
        self.same("bars of the causes", bars, [float(row[3].rstrip("%-") or 0) for row in rows])
        self.same("letters of the causes", [row[0] for row in rows], [letter_of(row[1]) for row in rows])
        self.same("order of the causes", [row[1:3] for row in rows[-2:]], [[cause, str(cycles[cause])] for cause in ENDS])
        counts = [int(row[2]) for row in rows[:-2]]
        self.same("the greatest cause first", counts, sorted(counts, reverse=True))
        if self.first == 0:
            said = [f"cycles {total}", *(f"{cause} {count} {share.rstrip('%')} %" for _, cause, count, share, *_ in rows[-2:] + rows[:-2])]
            causes, _, lines = self.known.printed.partition(HEADING)
            self.same("what the command path prints", said, causes.splitlines())
            most = rules.most_of(rules.words_of(self.known.path.steps()[1]))
            wanted = [(address, counts.total(), sorted(counts.values(), reverse=True)[:3]) for address, counts in most]
            self.same("lines that the command path prints", list(printed_lines(lines)), wanted)
        end = self.known.path.ends()
        inside = end is not None and self.known.at(end) >= self.first
        note = f"to {words_of(end, None)} in {self.known.at(end)}" if inside else "no step here"
        words = f"The page begins with cycle {self.first}: the path is counted from there, and what came before is not known."
        self.same("notes of the path", shown["notes"][:2], [note, words if self.first else ""])
        self.same("panels of the path", (shown["shown"], shown["checked"]), ([True, True, False, False], True))
        self.marks(shown)
        return shown

    def marks(self, shown):
        """Rings, lines and letters in the picture."""
        on = {}
        for event, _, cause, _, end in self.steps:
            if number_of(event) is not None:
                on.setdefault((number_of(event), end), []).append((event, cause))
        marked = [(cell["number"], cell["cycle"]) for cell in shown["cells"] if cell["outline"] == "solid"]
        start = {(number_of(before), self.known.at(before)) for _, before, *_ in self.steps[:1] if self.first == 0 and number_of(before) is not None}
        known = [(cell["number"], cell["cycle"]) for cell in shown["cells"] if (cell["number"], cell["cycle"]) in {*on, *start}]
        self.same("rings of events on the path", marked, known)
        said = {(cell["number"], cell["cycle"]): cell["said"] for cell in shown["cells"] if cell.get("said")}
        for place in [place for place in marked if place in on]:
            # (a store that retires may begin to drain in the same cycle, and the letter there is that of the commit)
            event, cause = on[place][0]
            words = f"{name_of(event)} waited last for {words_of(self.known.path.before(event)[0], place[0])}: {cause}"
            self.same(f"tip of the event of #{place[0]} in cycle {place[1]}", said.get(place), words)
        colours = {letter: colour for letter, _, colour in shown["legend"]}
        causes = {cycle: cause for _, _, cause, begin, end in self.steps for cycle in range(begin, end)}
        lefts = {cell["cycle"]: cell["box"][0] for cell in shown["cells"]}
        for head in shown["heads"]:
            cycle, cause = re.match(r"cycle (\d+): ([^,]+(?:, or faulted)?)", head["tip"]).groups()
            wanted = causes.get(int(cycle), ENDS[1] if not self.steps or int(cycle) >= self.steps[-1][4] else ENDS[0])
            self.same(f"cause of cycle {cycle}", (head["text"], cause, head["colour"]), (letter_of(wanted), wanted, colours.get(letter_of(wanted))))
            if int(cycle) in lefts and abs(lefts[int(cycle)] - head["box"][0]) > 1.5:
                self.same(f"place of the cause of cycle {cycle}", head["box"][0], lefts[int(cycle)])
        self.same("columns with a cause", {int(re.match(r"cycle (\d+)", head["tip"])[1]) for head in shown["heads"]} >= set(lefts), True)
        letters = {letter_of(cause) for cause, cycles in self.known.shares().items() if cycles}
        words = [[letter, f"{letter} {LEGEND[letter]}"] for letter in LEGEND if letter in letters]
        self.same("legend of the causes", [item[:2] for item in shown["legend"]], words)
        self.lines(shown, colours)

    def lines(self, shown, colours):
        """A line goes from each event to the one that waited for it, in the colour of the cause."""
        boxes = {(cell["number"], cell["cycle"]): cell["box"] for cell in shown["cells"]}
        drawn = [(line["colour"], *line["box"]) for line in shown["lines"]]
        for event, before, cause, begin, end in self.steps:
            places = [(number_of(before), begin), (number_of(event), end)]
            if self.known.at(before) < self.first or not all(place in boxes for place in places) or letter_of(cause) not in colours:
                continue
            (left, wide, _, low), (right, _, _, high) = (boxes[place] for place in places)
            half = (wide - left) / 2
            wanted = (min(left, right) + half, max(left, right) + half, min(low, high), max(low, high))
            alike = [line[1:] for line in drawn if line[0] == colours[letter_of(cause)]]
            near = any(all(abs(one - other) < 4 for one, other in zip(line, wanted)) for line in alike)
            self.same(f"line from {places[0]} to {places[1]}: {cause}", near, True)

    def waits(self, numbers):
        """The events of a followed instruction, and what each waited for."""
        for number in numbers:
            word = self.known.run.words[number]
            events = [(kind, word) for kind in STAGES if self.has(kind, word)]
            rows = self.rows_of(number, len(events))
            known = [(LETTERS_OF.get(name_of(event), name_of(event)), str(self.known.at(event))) for event in events]
            self.same(f"events of #{number}", [(row[0], row[1]) for row in rows], known)
            for row, event in zip(rows, events):
                before = self.known.path.before(event)
                if self.known.at(event) < self.first:
                    self.same(f"wait of #{number}'s {event[0]}", row[2:5], ["not on this page", "", ""])
                elif before is None:
                    self.same(f"wait of #{number}'s {event[0]}", row[2:5], ["nothing: the first event", "", ""])
                elif self.known.at(before[0]) >= self.first or number_of(before[0]) in (number, None):
                    cause, since = self.known.cause_of(event), self.known.at(before[0])
                    words = [f"{words_of(before[0], number)} in {since}", f"{letter_of(cause)} {cause}", str(self.known.at(event) - since)]
                    self.same(f"wait of #{number}'s {event[0]}", row[2:5], words)
                self.same(f"whether #{number}'s {event[0]} is on the path", row[5], "on" if self.is_on(event) else "")

    def rows_of(self, number, count):
        """What the panel says of a followed instruction, as soon as it has so many rows, or what it says after three seconds."""
        until = time.monotonic() + 3
        while True:
            self.browser.tell(f"follow({number})")
            rows = self.browser.tell(READ_PATH)["waits"]
            if len(rows) == count or time.monotonic() > until:
                return rows
            time.sleep(0.05)

    def telling(self):
        """Instructions whose events waited for what those of others did not."""
        found, seen = [], set()
        for number, word in sorted(self.known.run.words.items()):
            events = [(kind, word) for kind in STAGES if self.has(kind, word) and self.first <= self.known.at((kind, word)) <= self.last]
            causes = {(event[0], before[1]) for event in events for before in [self.known.path.before(event)] if before}
            if causes - seen and word.pc is not None:
                found.append(number)
                seen |= causes
        return found

    def has(self, kind, word):
        if kind == "commit":
            return word.commit is not None
        at = getattr(word, STAMPS[kind], None)
        return at is not None and (kind not in ("drain", "lines") or at >= self.first)

    def is_on(self, event):
        return any(event in step[:2] for step in self.steps) and self.known.at(event) >= self.first

    def walk(self):
        """The key, from the last step of the page back to its first event, and forward again; the cycles of all waits add up to the run's."""
        self.turn_to(f"cycle={self.last}&path&without={LEFT_OUT}")
        self.browser.press("Escape", "End")
        back = self.browser.tell(f"{WALK}('e', {len(self.steps) + 5})")
        events = [step[0] for step in reversed(self.steps)]
        if self.steps and self.known.at(self.steps[0][1]) >= self.first:
            events.append(self.steps[0][1])
        known = [(self.known.at(event), number_of(event)) for event in events]
        self.same("events that the key goes through", [(cycle, number) for cycle, number, _ in back], known)
        for (_, _, said), event in zip(back, events):
            if self.known.path.before(event) is None or self.known.at(self.known.path.before(event)[0]) >= self.first:
                self.same("what is said of an event", said[:len(sentence_of(self.known, event))], sentence_of(self.known, event))
        cycles = [re.match(r"[^:]+: it waited last for [^:]*: .*?, (\d+) cycles?\.", said) for _, _, said in back]
        total = sum(int(found[1]) for found in cycles if found)
        if self.first == 0 and self.steps:
            ends = self.last + 1 - self.known.at(events[0]) + self.known.at(events[-1])
            self.same("cycles of all waits that the key goes through", total + ends, self.last + 1)
        forth, again = self.browser.tell(f"{WALK}('E', {BACK})"), known[:-1][::-1][:BACK]
        self.same("events that the key back goes through", [(cycle, number) for cycle, number, _ in forth[:len(again)]], again)

    def elsewhere(self):
        """From an event that is not on the path: the key goes to what it waited for, and the key back to it again."""
        words = [word for word in self.known.run.words.values() if word.issued is not None and self.first < word.issued <= self.last]
        for event in [("issue", word) for word in words if not self.is_on(("issue", word))][-3:]:
            before, _ = self.known.path.before(event)
            if self.known.at(before) < self.first:
                continue
            self.browser.tell(f"follow({number_of(event)}); go({self.known.at(event)} - run.first + 1)")
            (cycle, number, said), *_ = self.browser.tell(f"{WALK}('e', 1)")
            self.same("event to which the key goes from one elsewhere", (cycle, number), (self.known.at(before), number_of(before)))
            (cycle, number, said), *_ = self.browser.tell(f"{WALK}('E', 1)")
            self.same("event to which the key back goes", (cycle, number), (self.known.at(event), number_of(event)))
            self.same("what is said of it", said[:len(sentence_of(self.known, event))], sentence_of(self.known, event))


def known_of(facts, job):
    """What is known of the path on the page of a job."""
    count = str(facts.first + facts.window)
    lines = [json.loads(line) for line in facts.run(job, "states", "--from", "0", "--cycles", count).splitlines()]
    for before, line in zip(lines, lines[1:]):
        if "address" in line and "line" in line:
            line.setdefault("text", before.get("text", ""))
    return Known(facts, lines, facts.run(job, "path", "--limit", count) if facts.first == 0 else "")


def with_early_recovery(job):
    """A job with early recovery, or None where it has that."""
    if re.search(r"(?m)^\s*recovery", job.description):
        return None if '"early"' in job.description else job.text(job.description.replace('"commit"', '"early"'))
    return job.text('recovery = "early"\n' + job.description)


def paths_of(facts, page):
    """What is known of the path on a job's page, and on that of the job with early recovery, which is made beside it."""
    def run(job, command):
        return facts.run(job, command, "--from", str(facts.first), "--cycles", str(facts.window))

    found, early = [(known_of(facts, facts.job.text()), page)], with_early_recovery(facts.job)
    # (where no branch is mended early, the page is the same but for the name of the recovery)
    if early is not None and run(early, "states").splitlines()[1:] != run(facts.job.text(), "states").splitlines()[1:]:
        beside = page.with_name(f"{page.stem}-early.html")
        beside.write_text(run(early, "page"))
        found.append((known_of(facts, early), beside))
    return found


def compare_paths(browser, paths, same):
    """The path of the page that is open, and that of the page with early recovery, which is followed where it goes elsewhere."""
    for k, (known, page) in enumerate(paths):
        if k > 0 or not browser.tell(f"location.href.startsWith({page.as_uri()!r})"):
            browser.open(page.as_uri())
        check = PathCheck(browser, known, same)
        check.table()
        check.waits(check.telling()[-6:] if k == 0 else check.telling()[-2:])
        if k == 0 or len(known.steps) != len(paths[0][0].steps):
            check.walk()
            check.elsewhere()
