"""The sentences on a cycle and on a followed instruction, made from log, trace and states."""
import re

from .panels import CAUSES, word

REASONS = {"fetch": "the fetch buffer is empty", "serial": "a serialising instruction is in flight", "rob": "the reorder buffer is full", "store": "the store queue is full"}


def listed(words):
    return "".join(words) if len(words) < 2 else ", ".join(words[:-1]) + " and " + words[-1]


def tags(numbers):
    """Numbers of instructions, in order: three or more that follow each other by the first and the last of them."""
    words = []
    while numbers:
        count = next(k for k in range(len(numbers), 0, -1) if numbers[k - 1] == numbers[0] + k - 1)
        words += [f"#{numbers[0]} to #{numbers[count - 1]}"] if count > 2 else [f"#{number}" for number in numbers[:count]]
        numbers = numbers[count:]
    return listed(words)


def counted(count, name):
    return f"{count} {name}{'' if count == 1 else 's'}"


class Sentences:
    def __init__(self, facts, cycle):
        self.facts, self.cycle, self.log, self.window = facts, cycle, facts.log, facts.lines
        self.line = self.window.at[cycle]
        self.state, self.numbers = self.line["state"], self.line["numbers"]
        self.buffer = self.state["reorder_buffer"]

    def called(self, number):
        each = self.log[number]
        statement = " ".join(self.window.statements.get(each.pc, each.text).split())[:32]
        return f"#{number} {statement}"

    def all(self, stage):
        return sorted(number for number, each in self.log.items() if each.stages.get(stage) == self.cycle)

    def written(self, number):
        found = re.match(r"retired, (x\d+) \(\w+\) = ([0-9a-f]{8})", self.log[number].said)
        return f" ({found[1]}={found[2]})" if found else ""

    def ended(self, end):
        return sorted(number for number, each in self.log.items() if each.left == self.cycle and each.end == end)

    def stall(self):
        reason = self.line["stall"]
        if reason == "fetch":
            return REASONS[reason]
        number = self.numbers[len(self.buffer)]
        if reason == "station":
            kind = kind_of(self.state["fetch_buffer"][0].get("word", 0))
            size = self.window.machine[kind]["stations"]
            why = f"the {counted(size, 'station')} of {kind} {'is taken' if size == 1 else 'are full'}"
        else:
            why = REASONS[reason]
        return f"{why} ({self.called(number)} waits)"

    def of_cycle(self):
        parts = []
        for step in self.facts.trace.splitlines():
            found = re.match(r"N ([0-9a-f]{8}) ([0-9a-f]{8}) C(\d+)", step)
            if found and int(found[3]) == self.cycle:
                parts.append(f"the {CAUSES[int(found[2], 16)]} is taken before {found[1]}: everything in flight is squashed")
        retired, squashed = self.ended("C"), self.ended("x")
        if retired:
            parts.append(listed([f"#{number}{self.written(number)}" for number in retired]) + (" retire" if len(retired) > 1 else " retires"))
        for number in self.ended("T"):
            cause = next(each["cause"] for each in self.line["ended"] if each["number"] == number)
            parts.append(f"{self.called(number)} traps: {CAUSES[cause]}")
        wrong = self.window.mispredicted(self.cycle)
        if wrong is not None:
            parts.append(f"the prediction after {self.called(wrong)} was wrong")
        if squashed:
            parts.append(counted(len(squashed), "instruction") + (" are" if len(squashed) > 1 else " is") + " squashed")
        for each in self.window.accesses:
            if each["cycle"] == self.cycle:
                parts.append(f"the {each['what']} of #{each['number']} accesses the cache at {word(each['address'])}")
        if self.all("X"):
            parts.append(tags(self.all("X")) + (" issue" if len(self.all("X")) > 1 else " issues"))
        if self.all("B"):
            parts.append("broadcast of " + tags(self.all("B")))
        if self.all("D"):
            parts.append("dispatch of " + tags(self.all("D")))
        elif "stall" in self.line:
            parts.append("nothing is dispatched, since " + self.stall())
        if self.all("F"):
            parts.append("fetch of " + tags(self.all("F")))
        text = f"Cycle {self.cycle}: " + ("; ".join(parts) + "." if parts else "nothing happens.")
        if self.cycle == self.window.last and self.window.stop:
            stop = self.window.stop["stop"]
            text += " The page ends here." if stop == "limit" else f" The run ends: {stop}."
        return " ".join(text.split())

    def of(self, number):
        """What an instruction does, without what follows it on the page: its producers and consumers."""
        each, name = self.log[number], self.called(number) + " "
        if each.stages["F"] > self.cycle:
            return f"{name}will be fetched in cycle {each.stages['F']}."
        if each.left is not None and each.left <= self.cycle:
            return name + self.end(number)
        k = self.numbers.index(number)
        if k >= len(self.buffer):
            return name + self.fetched(k - len(self.buffer))
        entry = self.buffer[k]
        if "issued" not in entry and "kind" in entry:
            return name + self.in_station(entry, k)
        if "issued" in entry and "finished" not in entry:
            end = entry["issued"] + entry["cost"]
            if end <= self.cycle:
                return f"{name}waits for the common data bus since cycle {end}: older results went first."
            return f"{name}executes since cycle {entry['issued']}; its result can be broadcast in cycle {end}."
        return name + self.at_the_head(entry, k)

    def end(self, number):
        each = self.log[number]
        if each.end == "C":
            return f"retired in cycle {each.left}{self.written(number)}."
        if each.end == "T":
            ended = next(one for one in self.window.at[each.left]["ended"] if one["number"] == number)
            return f"trapped in cycle {each.left}: {CAUSES[ended['cause']]}."
        return f"was squashed in cycle {each.left}: it never takes effect."

    def fetched(self, older):
        if older:
            return f"waits in the fetch buffer for the dispatch of {counted(older, 'older word')}."
        if self.line.get("stall", "fetch") != "fetch":
            return f"waits for its dispatch, since {self.stall()}."
        return f"can be dispatched in cycle {self.cycle + 1}."

    def doing(self, number):
        entry = self.buffer[self.numbers.index(number)]
        if "issued" not in entry:
            return "waits itself"
        end = entry["issued"] + entry["cost"]
        return "waits for the bus" if end <= self.cycle else f"executes until cycle {end}"

    def in_station(self, entry, k):
        operands = [entry[name] for name in ("first", "second") if name in entry]
        missing = [each for each in operands if "producer" in each]
        if missing:
            waits = []
            for each in missing:
                producer = self.window.number(each["producer"], self.cycle)
                waits.append(f"x{each['register']} of {self.called(producer)}, which {self.doing(producer)}")
            return f"waits in a station for {listed(waits)}."
        is_load = entry.get("word", 0) & 0x7f == 3
        stores = [j for j in range(k) if self.buffer[j].get("word", 0) & 0x7f == 0x23 and "finished" not in self.buffer[j]] if is_load else []
        if stores:
            return f"has its operands, and waits for the older store {self.called(self.numbers[stores[0]])}, whose address is not known."
        if is_load and self.state["port_free"] > self.cycle + 1:
            return f"has its operands, and may wait for the port of the cache, which is busy until cycle {self.state['port_free']}."
        busy = [unit["since"] + unit["cycles"] for unit in self.state["units"][entry["kind"]] if unit["since"] + unit["cycles"] > self.cycle + 1]
        if len(busy) >= self.window.machine[entry["kind"]]["units"]:
            return f"has its operands, and waits for a unit: one is free in cycle {min(busy)}."
        ready = sum(each.get("kind") == entry["kind"] and "issued" not in each and not any("producer" in each.get(name, {}) for name in ("first", "second"))
                    for each in self.buffer[:k])
        more = f" where a unit is left after {counted(ready, 'older one')} of its kind." if ready else "."
        return f"has its operands, and can issue in cycle {self.cycle + 1}{more}"

    def at_the_head(self, entry, k):
        head, after = "the head of the reorder buffer", self.cycle + 1
        older = f"{k} older {'instruction is' if k == 1 else 'instructions are'} in front of it, first {self.called(self.numbers[0])}."
        if "finished" not in entry:
            if k:
                return f"is executed at its commit, when it is {head}: {older}"
            if entry.get("word", 0) & 0x707f == 0x100f and (self.state["port_free"] > after or self.state["store_queue"]):
                return f"is {head}, and waits until the retired stores are in the cache and it is written back."
            return f"is {head}, and can be executed in cycle {after}."
        end = f"trap ({CAUSES[entry['cause']]})" if "cause" in entry else "retire"
        return f"is done, and can {end} when it is {head}: {older}" if k else f"is done, and can {end} in cycle {after}."

    def relatives(self, number):
        """The producers of an instruction: the youngest older ones in flight at its dispatch that write what it reads."""
        dispatched = self.log[number].stages.get("D")
        if dispatched is None or dispatched > self.window.last or self.log[number].left == dispatched:
            return []
        line = self.window.at.get(max(dispatched, self.window.first - 1))
        if number not in line["numbers"]:
            return []
        k, found = line["numbers"].index(number), []
        buffer = line["state"]["reorder_buffer"]
        for name in ("first", "second"):
            register = buffer[k].get(name, {}).get("register", 0)
            writers = [line["numbers"][j] for j in range(k) if register and buffer[j].get("target") == register]
            if writers and writers[-1] not in [one for one, _ in found]:
                found.append((writers[-1], register))
        return found


def kind_of(code):
    if code & 0x7f in (0x03, 0x23):
        return "mem"
    if code & 0x7f == 0x33 and code >> 25 == 1:
        return "mul" if code >> 12 & 7 < 4 else "div"
    return "alu"


def compare_sentences(facts, page, cycle, same):
    same("sentence on the cycle", page["notes"]["happened"], Sentences(facts, cycle).of_cycle())


def compare_followed(facts, page, cycle, number, same):
    """The sentence on a followed instruction, its marks, and the lines from its producers."""
    sentences, log = Sentences(facts, cycle), facts.log
    shown = page["notes"]["following"]
    text, _, relatives = shown.partition(" Producers: ")
    if not relatives:
        text, _, consumers = shown.partition(" Consumers: ")
        relatives = ". Consumers: " + consumers if consumers else ""
    same(f"sentence on #{number}", text, " ".join(sentences.of(number).split()))
    known = sentences.relatives(number)
    said = [(int(one), int(register)) for one, register in re.findall(r"#(\d+) \(x(\d+)\)", relatives.split("Consumers:")[0])]
    same(f"producers of #{number}", said, known)
    consumers = sorted(other for other in log if number in [one for one, _ in sentences.relatives(other)])
    same(f"consumers of #{number}", [int(one) for one in re.findall(r"#(\d+)", relatives.split("Consumers:")[1])] if "Consumers:" in relatives else [], consumers[:6])
    compare_marks(facts, page, number, [one for one, _ in known], consumers, same)


def compare_marks(facts, page, number, producers, consumers, same):
    for id, at in (("rob", 1), ("fetch", 0), ("stations", 1), ("stores", 0), ("bus", 1)):
        for row in page["tables"][id]:
            found = re.fullmatch(r"#(\d+)", row["cells"][at]["text"]) if len(row["cells"]) > at else None
            if found:
                one = int(found[1])
                same(f"marks of #{one} in {id}", [name in row["marks"] for name in ("followed", "producing", "consuming")], [one == number, one in producers, one in consumers])
    for row in page["picture"]["rows"]:
        one = int(re.match(r"#(\d+)", row["label"])[1])
        same(f"marks of #{one} in the picture", [name in row["marks"] for name in ("followed", "producing", "consuming")], [one == number, one in producers, one in consumers])
    drawn = [one for one in producers if facts.log[one].stages.get("B") is not None and facts.log[one].stages["B"] <= facts.lines.last]
    same("lines from producers", sorted(page["picture"]["arrows"]), sorted(drawn))
