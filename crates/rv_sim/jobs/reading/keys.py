"""Keys and jumps: where they go, and what they show, beside log, trace and states."""
import re
from xml.etree import ElementTree

from .panels import Panels, texts, word
from .shown import READ, READ_CURSOR


class Keys:
    def __init__(self, browser, facts, page, same):
        self.browser, self.facts, self.page, self.same = browser, facts, page, same
        self.window, self.log = facts.lines, facts.log
        self.first, self.last = self.window.first, self.window.last

    def compare(self):
        self.browser.size(1280, 720)
        self.browser.open(f"{self.page}#cycle={self.first}")
        self.steps()
        self.jumps()
        self.typed()
        self.tip()
        self.hidden()
        self.textbook()
        self.long_tables()
        self.explained()
        self.breakpoint()
        self.switches()
        self.saved()
        self.stops()
        self.quiz()

    def cursor(self):
        return self.browser.tell(READ_CURSOR)

    def after(self, what, key, known):
        self.browser.press(*([key] if isinstance(key, str) else key))
        self.same(what, self.cursor()["cycle"], str(known))

    def clip(self, cycle):
        return max(self.first - 1, min(self.last, cycle))

    def steps(self):
        """What each key of the cursor does."""
        at = self.first
        for key, on in (("ArrowRight", 1), ("PageDown", 10), ("ArrowLeft", -1), ("PageUp", -10), ("End", 10 ** 9), ("ArrowRight", 1), ("Home", -10 ** 9), ("ArrowRight", 1)):
            at = self.clip(at + on)
            self.after(f"key {key}", key, at)

    def happens(self):
        """The cycles in which something happens that a key goes to."""
        cycles = range(self.first, self.last + 1)
        ended = {end: {each.left for each in self.log.values() if each.end == end and each.left is not None} for end in "CT"}
        accesses = self.window.accesses
        return {
            "r": [at for at in cycles if at in ended["C"]], "t": [at for at in cycles if at in ended["T"]],
            "i": [at for at in cycles if ("N", at) in self.facts.steps], "w": [at for at in cycles if self.window.mispredicted(at) is not None],
            "s": [at for at in cycles if "stall" in self.window.at[at]], "c": [each["cycle"] for each in accesses],
            "m": [each["cycle"] for each in accesses if self.window.outcome(each["cost"]).startswith("miss")],
            "x": [at for at in cycles if any("register" in each for each in self.window.at[at]["ended"])], "y": [at for at in cycles if self.window.stored(at)],
        }

    def jumps(self):
        middle = (self.first + self.last) // 2
        self.browser.press("Escape")
        for key, known in self.happens().items():
            self.browser.tell(f"go({middle} - run.first + 1)")
            after, before = [at for at in known if at > middle], [at for at in known if at < middle]
            self.after(f"key {key} in cycle {middle}", key, after[0] if after else middle)
            if not after:
                self.same(f"what key {key} says", bool(re.match(r"No .* after this cycle\.$", self.cursor()["following"])), True)
            self.browser.tell(f"go({middle} - run.first + 1)")
            self.after(f"key {key.upper()} in cycle {middle}", key.upper(), before[-1] if before else middle)

    def typed(self):
        """A cycle and an address that are typed; the keys are the cursor's again after Enter."""
        wanted = min(self.first + 7, self.last - 1)
        self.after("typed cycle", ["g", *str(wanted), "Enter"], wanted)
        self.after("key after a typed cycle", "ArrowRight", wanted + 1)
        for text, known in ((f"{wanted}.5", wanted), (str(10 ** 6), self.last), ("-", self.last)):
            self.after(f"typed cycle {text}", ["g", *text, "Enter"], known)
            self.same(f"box of the cycle after {text}", self.browser.tell("document.getElementById('cycle').value"), str(known))
        pc = self.log[min(self.log)].pc
        later = sorted({each.stages["F"] for each in self.log.values() if each.pc == pc and self.first <= each.stages["F"] <= self.last})
        self.browser.tell(f"go({wanted} - run.first + 1)")
        known = next((at for at in later if at > wanted), later[0] if later else wanted)
        self.after("typed address", ["d", *word(pc), "Enter"], known)
        written = {}
        for at in range(self.first, self.last + 1):
            for each in self.window.at[at]["ended"]:
                if each.get("register"):
                    written.setdefault(each["register"], []).append(at)
        for register, cycles in list(written.items())[:2]:
            self.browser.tell(f"go({self.first} - run.first + 1)")
            known = next((at for at in cycles if at > self.first), self.first)
            self.after(f"typed x{register}", ["d", *f"x{register}", "Enter"], known)
            self.after("key after a typed register", "ArrowLeft", self.clip(known - 1))
        self.browser.tell("view.register = 0; view.address = undefined")

    def tip(self):
        """The tip of a point says for what the instruction waits."""
        from .sentences import Sentences
        for cycle in range(self.first + 3, self.last):
            waiting = [each for each in self.facts.flying(cycle) if each.letter(cycle) == "."]
            if not waiting:
                continue
            number = waiting[0].number
            self.browser.tell(f"go({cycle} - run.first + 1)")
            place = self.browser.tell(f"(() => {{ const box = document.querySelector('#picture-rows [data-number=\"{number}\"] [data-cycle=\"{cycle}\"]').getBoundingClientRect(); return [box.left + 4, box.top + 4]; }})()")
            self.browser.point(1, 1)
            self.browser.point(*place)
            tip = self.browser.tell(f"document.querySelector('#picture-rows [data-number=\"{number}\"] [data-cycle=\"{cycle}\"]').title")
            return self.same("tip of a point", " ".join(tip.split()), f"In cycle {cycle}: " + " ".join(Sentences(self.facts, cycle).of(number).split()))

    def hidden(self):
        """Without what was squashed the picture has the rows of the others."""
        self.browser.press("h")
        shown = self.browser.tell(READ)["picture"]["rows"]
        self.browser.press("h")
        numbers = [int(re.match(r"#(\d+)", row["label"])[1]) for row in shown]
        kept = [number for number, each in sorted(self.log.items()) if not (each.left is not None and each.left <= self.window.last and each.end == "x")]
        kept = [number for number in kept if self.log[number].pc in self.window.statements or self.log[number].left is not None]
        self.same("rows without what was squashed", numbers, [number for number in kept if numbers and numbers[0] <= number <= numbers[-1]])

    def textbook(self):
        """Tomasulo's tables."""
        cycle = (self.first + self.last) // 2
        self.browser.tell(f"go({cycle} - run.first + 1)")
        self.browser.press("o")
        page = self.browser.tell(READ)
        self.browser.press("o")
        panels = Panels(self.facts, page, cycle, self.same)
        size, machine = panels.machine["rob"], panels.machine

        def entry_name(sequence):
            return f"ROB{sequence % size + 1}"

        def either(entry, name, member):
            operand = entry.get(name, {})
            return "" if member not in operand else word(operand["value"]) if member == "value" else entry_name(operand["producer"])

        rows = []
        for kind in ("alu", "mul", "div", "mem"):
            for k, (_, entry) in enumerate(panels.waiting(kind)):
                code, offset = entry["word"], ""
                if code & 0x7f == 3:
                    offset = str((code >> 20) - (code >> 31 << 12))
                elif code & 0x7f == 0x23:
                    offset = str((code >> 25 << 5 | code >> 7 & 31) - (code >> 31 << 12))
                rows.append([f"{kind}{k + 1}", "yes", self.window.statement(entry).split()[0], *(either(entry, name, member) for member in ("value", "producer")
                             for name in ("first", "second")), entry_name(entry["sequence"]), offset])
        self.same("stations as in the textbook", texts(page["tables"]["waiting"]), rows)
        free = sum(max(0, min(machine[kind]["stations"], 4) - len(panels.waiting(kind))) for kind in ("alu", "mul", "div", "mem"))
        self.same("free stations", sum("free" in row["marks"] for row in page["tables"]["waiting"]), free)
        writers = {entry["target"]: entry_name(entry["sequence"]) for entry in panels.buffer if entry.get("target")}
        shown = {row["cells"][k]["text"]: row["cells"][k + 1]["text"] for row in page["tables"]["results"] for k in range(0, 16, 2)}
        self.same("register result status", shown, {f"x{k}": writers.get(k, "") for k in range(32)})
        self.status(page, panels, cycle, entry_name)

    def long_tables(self):
        """Of a long table the rows in view are there, wherever it is scrolled."""
        cycle = max(range(self.first, self.last + 1), key=lambda at: len(self.window.at[at]["state"]["reorder_buffer"]))
        self.browser.tell(f"go({cycle} - run.first + 1)")
        for part in (0.5, 1, 0.2, 0):
            self.browser.tell(f"""(() => {{
              for (const id of ["rob", "stations"]) {{ const box = document.getElementById(id).closest(".scroll"); box.scrollTop = {part} * (box.scrollHeight - box.clientHeight); }}
              return new Promise((done) => requestAnimationFrame(() => requestAnimationFrame(() => done(0))));
            }})()""")
            panels = Panels(self.facts, self.browser.tell(READ), cycle, self.same)
            panels.reorder_buffer()
            panels.stations()

    def status(self, page, panels, cycle, entry_name):
        entered = {number: entry_name(entry["sequence"]) for number, entry in panels.entries}
        for row in texts(page["tables"]["status"]):
            number = int(row[1][1:])
            each = self.log[number]
            issued, cost = each.at("X", cycle), dict(panels.entries).get(number, {}).get("cost", each.cost)
            run = "" if issued is None else str(issued) if cost is None or issued + cost > cycle else f"{issued}\u2013{issued + cost - 1}"
            left = "" if each.left is None or each.left > cycle else str(each.left) if each.end == "C" else {"T": "trapped", "x": "squashed"}[each.end]
            known = [entered.get(number, ""), f"#{number}", " ".join(self.window.statements.get(each.pc, each.text).split()), str(each.stages["D"]), run,
                     "" if each.at("B", cycle) is None else str(each.at("B", cycle)), left]
            self.same(f"status of #{number}", row, known)
        shown = [int(row[1][1:]) for row in texts(page["tables"]["status"])]
        self.same("entries without a status", [number for number in entered if number not in shown], [])

    def breakpoint(self):
        """A breakpoint stands at the followed instruction, and B goes to where one of its place retires next."""
        retired = sorted((each.left, each.pc, each.number) for each in self.log.values() if each.end == "C" and self.first + 1 < each.left <= self.last)
        if not retired:
            return
        _, pc, number = retired[len(retired) // 2]
        self.browser.tell(f"go(1); follow({number})")
        self.browser.press("b")
        self.after("breakpoint", "B", next(left for left, at, _ in retired if at == pc))
        marked = self.browser.tell("[...document.querySelectorAll('#source .stops')].map((row) => row.dataset.address)")
        self.same("marks of breakpoints", [int(address) for address in marked], [pc] if pc in self.window.statements and marked else [])
        self.browser.press("b", "Escape")

    def switches(self):
        """Panels are left out and type is made larger by keys."""
        titles = "[...document.querySelectorAll('[data-panel]:not([hidden]) h2')].map((each) => each.textContent)"
        before = self.browser.tell(titles)
        self.browser.press("p", " ", "p")
        self.same("panels without the first", self.browser.tell(titles), before[1:])
        self.browser.press("p", " ", "p")
        self.same("panels with it again", self.browser.tell(titles), before)
        size = "parseFloat(getComputedStyle(document.documentElement).fontSize)"
        was = self.browser.tell(size)
        self.browser.press("]", "]")
        self.same("larger type", round(self.browser.tell(size) / was, 2), 1.32)
        self.browser.press("0")
        self.same("type as at first", self.browser.tell(size), was)

    def explained(self):
        """The accesses of a whole run are those that `explain` counts: of loads that retired, and drains."""
        if self.first > 0 or not self.window.stop or self.window.stop["stop"] == "limit":
            return
        text = self.facts.run(self.facts.job.text(), "explain")
        counts = [int(each) for name in ("loads", "drains") for each in re.search(rf"(?m)^{name}: (\d+), of them (\d+) .*?, (\d+) ", text).groups()]
        misses = {"load": 0, "drain": 0}
        for each in self.window.accesses:
            left = self.log[each["number"]]
            if left.end == "C" and self.window.outcome(each["cost"]).startswith("miss"):
                misses[each["what"]] += 1
        self.same("misses that explain counts", [misses["load"], misses["drain"]], [counts[2], counts[5]])

    def saved(self):
        """A panel that is saved is an SVG of its texts, with a title and a description of the whole."""
        seen = self.browser.tell(READ)
        root = ElementTree.fromstring(self.browser.tell("svgOf(document.querySelector('[data-panel=pipeline]'))"))
        kind = "{http://www.w3.org/2000/svg}"
        self.same("title of what is saved", root.findtext(f"{kind}title"), f"Pipeline of {seen['title'].split(':')[0]} after cycle {seen['cycle']}")
        self.same("description of what is saved", root.findtext(f"{kind}desc"), f"{seen['notes']['machine']}. {seen['notes']['happened']}")
        texts_of = [" ".join(text.text.split()) for text in root.iter(f"{kind}text")]
        inside = [row for row in seen["picture"]["rows"] if row["top"] > seen["picture"]["under"] and row["bottom"] < seen["picture"]["bottom"]]
        self.same("rows that are not saved", [row["label"] for row in inside if row["label"] not in texts_of], [])

    def stops(self):
        """A script of stops is gone through by keys."""
        at = [self.first + k * (self.last - self.first) // 4 for k in range(1, 4)]
        number = min(self.log)
        self.browser.open(f"{self.page}#notes={at[0]} %23{number} One.|{at[1]} Two.|{at[2]} Three.")
        for key, k in ((".", 0), (".", 1), (",", 0), (".", 1), (".", 2), (".", 2)):
            self.after(f"stop {k + 1}", key, at[k])
            self.same("sentence of the stop", self.browser.tell("document.getElementById('stop').textContent"), f"{k + 1} of 3, cycle {at[k]}: {['One.', 'Two.', 'Three.'][k]}")

    def quiz(self):
        """The quiz asks what the next cycle does, hides it, and counts."""
        self.browser.press("Escape")
        cycle = min(self.first + 4, self.last - 3)
        self.browser.tell(f"go({cycle} - run.first + 1)")
        self.browser.press("q")
        right = 0
        for k in range(3):
            at = cycle + k + 1
            question = self.browser.tell("document.getElementById('question').textContent")
            rows = self.browser.tell(READ)["picture"]["rows"]
            lefts = [cell["tip"] for row in rows for cell in row["cells"]]
            self.same("rows that the quiz hides", [row["label"] for row in rows if self.log[int(re.match(r"#(\d+)", row["label"])[1])].stages["F"] >= at], [])
            self.same("cycles that the quiz hides", [tip for tip in lefts if int(re.search(r"cycle (\d+)", tip)[1]) >= at], [])
            answer = self.answer(question, at)
            self.browser.press(*(answer if k != 1 else "99999"), "Enter")
            right += k != 1
            verdict = self.browser.tell("document.getElementById('verdict').textContent")
            self.same(f"verdict on {question}", (verdict.startswith("Right"), f"{right} of {k + 1} right" in verdict, k != 1 or answer in verdict), (k != 1, True, True))
            self.after("cycle after a question", "Enter", at)
        self.browser.press("Escape")

    def answer(self, question, at):
        for stage, verb in (("X", "issue in"), ("B", "are broadcast in"), ("D", "are dispatched in"), ("F", "are fetched in")):
            if f"{verb} cycle {at}?" in question:
                return " ".join(str(each.number) for each in sorted(self.log.values(), key=lambda each: each.number) if each.stages.get(stage) == at) or "none"
        if f"retire in cycle {at}?" in question:
            return " ".join(str(number) for number, each in sorted(self.log.items()) if each.left == at and each.end == "C") or "none"
        found = re.match(r"What does x(\d+) hold after cycle (\d+)\?", question)
        self.same("question", bool(found) and int(found[2]) == at, True)
        return word(self.window.at[at]["state"]["registers"][int(found[1])]) if found else "none"
