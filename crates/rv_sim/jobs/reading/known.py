"""What the program says of a job elsewhere than on its page: its log, trace, reports, states, and the one-at-a-time machine."""
import json
import re
import subprocess
from functools import cached_property, lru_cache

from reading.predictor import lessons

MEMORY_WORDS = 32


class Job:
    """A job in its parts: the description, the arrivals (cycle, line, level) and the assembly."""

    def __init__(self, path, machine):
        text = path.read_text()
        parts = re.split(r"(?m)^%%\r?\n", text, maxsplit=2) if re.search(r"(?m)^%%\r?$", text) else ["", text]
        self.name = path.name + (f" on {machine.name}" if machine else "")
        self.description = (machine.read_text() if machine else "") + parts[0]
        self.arrivals = parts[1] if len(parts) == 3 else ""
        self.assembly = parts[-1]

    def text(self, description=None, arrivals=None):
        """The job, or it with another description or other arrivals."""
        parts = (description or self.description, arrivals or self.arrivals, self.assembly)
        return "\n%%\n".join(parts)

    def arrivals_by_step(self, steps_before):
        """The arrivals as the one-at-a-time machine counts them: after how many steps."""
        return re.sub(r"(?m)^(\s*cycle\s*=\s*)(\d+)", lambda found: found[1] + str(steps_before(int(found[2]))), self.arrivals)


class Instruction:
    """What the log says of a fetched instruction: the cycle in which each stage began, and how it ended."""

    def __init__(self, number):
        self.number, self.stages, self.left, self.end, self.cost, self.pc, self.text, self.said = number, {}, None, "x", None, 0, "", ""

    def letter(self, cycle):
        """The picture's letter in a cycle."""
        began = {at: name for name, at in self.stages.items() if at <= cycle}
        if self.left == cycle:
            return self.end
        if cycle in began:
            last = max((name for name, at in self.stages.items() if at == cycle), key="FDXWBC".index)
            return {"X": "I", "W": "~"}.get(last, last)
        if "B" in began.values():
            return "."
        if "W" in began.values():
            return "~"
        return "=" if "X" in began.values() else "."

    def at(self, stage, cycle):
        """The cycle in which a stage began, where it has by then."""
        began = self.stages.get(stage)
        return began if began is not None and began <= cycle else None

    def is_store(self):
        return re.search(r"(^|[:\s])s[bhw]\s", self.text) is not None


def log_of(text):
    """Each instruction of a log by its number."""
    cycle, found = 0, {}
    for line in text.splitlines():
        fields = line.split("\t")
        if fields[0] == "C":
            cycle += int(fields[1])
        elif fields[0] == "I":
            found[int(fields[1])] = Instruction(int(fields[1]))
        elif fields[0] == "L":
            each = found[int(fields[1])]
            if fields[2] == "0":
                each.pc, each.text = int(fields[3][:8], 16), fields[3][10:]
            else:
                each.end = {"retired": "C", "trapped": "T"}.get(re.split(r"\W", fields[3])[0], "x")
                each.said = fields[3]
                cost = re.search(r"cost (\d+)", fields[3])
                each.cost = int(cost[1]) if cost else None
        elif fields[0] == "S":
            found[int(fields[1])].stages[fields[3]] = cycle
        elif fields[0] == "R":
            # (the line stands after the cycle has passed)
            found[int(fields[1])].left = cycle - 1
    return found


def report_of(text):
    """The lines of a report by their first words."""
    report = {}
    for line in text.splitlines():
        words = line.split()
        if words and words[0] not in ("R", "T", "N"):
            report[" ".join(words[:-1])] = words[-1]
    return report


def unlabelled(text):
    """A statement without the labels in front of it, with single blanks, as a reader sees it."""
    return " ".join(re.sub(r"^([A-Za-z_.$][\w.$]*|[0-9]+):\s*(?=\S)", "", text.strip()).split())


class Facts:
    """What the program says of a job elsewhere than on its page."""

    def __init__(self, program, job, first, cycles):
        self.program, self.job, self.first, self.window = program, job, first, cycles

    def run(self, job, *words):
        ran = subprocess.run([self.program, *words], input=job, stdout=subprocess.PIPE, text=True)
        if ran.returncode not in (0, 3):
            raise RuntimeError(f"{' '.join(words)}: status {ran.returncode}")
        return ran.stdout

    @cached_property
    def log(self):
        return log_of(self.run(self.job.text(), "log"))

    @cached_property
    def trace(self):
        return self.run(self.job.text(), "run", "--trace")

    @cached_property
    def steps(self):
        """The kind and cycle of each step of the trace."""
        return [(line[0], int(re.search(r" C(\d+)( |$)", line)[1])) for line in self.trace.splitlines() if re.match(r"[RTN] ", line)]

    @cached_property
    def cycles(self):
        return int(report_of(self.trace)["cycles"])

    @cached_property
    def lessons(self):
        return lessons(self.trace)

    @cached_property
    def lines(self):
        """The lines of the window's states: the machine, the statements by address, the line of each cycle, and why the run ended."""
        return Window(self.run(self.job.text(), "states", "--from", str(self.first), "--cycles", str(self.window)))

    def steps_before(self, cycle):
        return sum(1 for _, each in self.steps if each < cycle)

    def flying(self, cycle):
        return [each for each in self.log.values() if each.stages["F"] <= cycle and (each.left is None or each.left > cycle)]

    def reference(self, cycle, address):
        """The one-at-a-time machine after the steps up to a cycle."""
        arrivals = self.job.arrivals_by_step(self.steps_before)
        memory = f"report.dump_address = {address}\nreport.dump_words = {MEMORY_WORDS}\n"
        description = re.sub(r"(?m)^\s*(report\.|dump_|\[report\]).*$", "", self.job.description)
        count = self.steps_before(cycle + 1)
        return report_of(self.run(self.job.text(memory + description, arrivals), "reference", "--limit", str(count))) if count else None

    @lru_cache
    def run_up_to(self, cycle):
        return report_of(self.run(self.job.text(), "run", "--limit", str(cycle + 1)))

    @lru_cache
    def storage(self, cycle):
        """After a cycle, the lines of each set of the cache (address, whether dirty), and the words of memory (word, whether stale)."""
        lines = self.run(self.job.text(), "states", "--from", str(cycle + 1), "--cycles", "1").splitlines()
        size, sets, words = json.loads(lines[0])["machine"]["cache"]["line"], {}, {}
        for line in map(json.loads, lines):
            if "set" in line:
                sets[line["set"]] = [f"{each['line'] * size:08x}" + "*" * each["dirty"] for each in line["lines"]]
            elif "memory" in line:
                words[line["memory"]] = (f"{line['word']:08x}", line["stale"])
        return sets, words


class Window:
    """The lines of `states`, each cycle's with the numbers of what is in flight."""

    def __init__(self, text):
        self.machine, self.statements, self.listing, self.at, self.stop, self.accesses = None, {}, [], {}, None, []
        self.lines = [json.loads(line) for line in text.splitlines()]
        for line in self.lines:
            if "machine" in line:
                self.machine, self.first = line["machine"], line["first"]
            elif "line" in line:
                # a line's text stands at the first of its words alone
                line.setdefault("text", self.listing[-1]["text"] if self.listing else None)
                self.listing.append(line)
                self.statements[line["address"]] = unlabelled(line["text"])
            elif "state" in line:
                line["numbers"] = [each["number"] for each in line["instructions"] if "end" not in each]
                line["ended"] = [each for each in line["instructions"] if "end" in each]
                self.at[line.get("cycle", self.first - 1)] = line
            elif "stop" in line:
                self.stop = line
        self.last = max(self.at)
        self.numbered = {}
        for cycle in range(self.first, self.last + 1):
            self.note_access(cycle)

    def statement(self, entry):
        pc = entry["pc"]
        return self.statements.get(pc) or (f"{entry['word']:08x}" if "word" in entry else "-")

    def number(self, sequence, cycle):
        """The number of the instruction with a sequence number in a cycle's line, or of the last one that had it."""
        buffer = self.at[cycle]["state"]["reorder_buffer"]
        for k, entry in enumerate(buffer):
            if entry["sequence"] == sequence:
                return self.at[cycle]["numbers"][k]
        return self.numbered.get(sequence)

    def note_access(self, cycle):
        """The access of the cache that began in a cycle: the port is busy from then on."""
        line, before = self.at[cycle], self.at[cycle - 1]
        for k, entry in enumerate(before["state"]["reorder_buffer"]):
            if any(each["number"] == before["numbers"][k] and each["end"] == "retired" for each in line["ended"]):
                self.numbered[entry["sequence"]] = before["numbers"][k]
        port = line["state"]["port_free"]
        if port <= cycle or port == before["state"]["port_free"]:
            return
        draining = [store for store in line["state"]["store_queue"] if store["state"] == "draining"]
        was = [store["sequence"] for store in before["state"]["store_queue"] if store["state"] == "draining"]
        if draining and draining[0]["sequence"] not in was:
            number, address, what = self.number(draining[0]["sequence"], cycle), draining[0]["address"], "drain"
        else:
            started = [(number, entry) for number, entry in zip(line["numbers"], line["state"]["reorder_buffer"])
                       if entry.get("issued") == cycle and entry.get("word", 0) & 0x7f == 3 and cycle + entry["cost"] == port]
            started = [(number, self.address(number, entry, before)) for number, entry in started
                       if not self.is_forwarded(self.address(number, entry, before), entry, line)]
            if not started:
                return
            (number, address), what = started[0], "load"
        self.accesses.append({"cycle": cycle, "number": number, "address": address, "what": what, "cost": port - cycle})

    @staticmethod
    def address(number, entry, before):
        was = before["state"]["reorder_buffer"][before["numbers"].index(number)]
        offset = entry["word"] >> 20
        return (was["first"]["value"] + offset - (offset >> 11 << 12)) & 0xffffffff

    @staticmethod
    def is_forwarded(address, entry, line):
        stored = set()
        for store in line["state"]["store_queue"]:
            if store["sequence"] < entry["sequence"] and "bytes" in store:
                stored |= set(range(store["address"], store["address"] + len(store["bytes"])))
        return all(at in stored for at in range(address, address + (1 << (entry["word"] >> 12 & 3))))

    def outcome(self, cost):
        cache = self.machine["cache"]
        if cost == cache["hit"] and cache["miss"] + cache["write_back"] > 0:
            return "hit"
        if cost == cache["hit"] + cache["miss"]:
            return "miss" if cache["miss"] else "hit or miss"
        return "miss, write-back"

    def stored(self, cycle):
        """The words that stores write which retired in a cycle."""
        def retired(line):
            return {store["sequence"]: store for store in line["state"]["store_queue"] if store["state"] in ("committed", "draining")}
        new = retired(self.at[cycle])
        if cycle - 1 in self.at:
            for sequence in retired(self.at[cycle - 1]):
                new.pop(sequence, None)
        return {at - at % 4 for store in new.values() for at in range(store["address"], store["address"] + len(store["bytes"]))}

    def mispredicted(self, cycle):
        """The instruction whose wrong prediction was mended in a cycle, or None."""
        line, before = self.at[cycle], self.at[cycle - 1]
        then = dict(zip(before["numbers"], before["state"]["reorder_buffer"]))
        for number, entry in zip(line["numbers"], line["state"]["reorder_buffer"]):
            if entry.get("finished") == cycle and "issued" in entry and number in then and then[number]["predicted"] != entry["predicted"]:
                return number
        retired = [each["number"] for each in line["ended"] if each["end"] == "retired"]
        last = then.get(retired[-1]) if retired else None
        return retired[-1] if last and "next_pc" in last and last["next_pc"] != last["predicted"] else None

    def features(self, cycle):
        """What is worth a look in a cycle, by names."""
        line, found = self.at[cycle], set()
        state, buffer = line["state"], line["state"]["reorder_buffer"]
        found.add("stall " + line.get("stall", "none"))
        found |= {each["end"] for each in line["ended"]} | {each["step"] for each in line["steps"]} | {store["state"] for store in state["store_queue"]}
        found |= {f"{each['what']}, {self.outcome(each['cost'])}" for each in self.accesses if each["cycle"] == cycle}
        running = [each["issued"] + each["cost"] - cycle for each in buffer if "issued" in each and "finished" not in each]
        found |= {"waits for the bus" for left in running if left < 0} | {"waits from now on" for left in running if left == 0} | {"ready next" for left in running if left == 1}
        found |= {f"{each['kind']} waits for {'two' if 'producer' in each.get('second', {}) else 'one'}" for each in buffer if "kind" in each and "issued" not in each
                  and "producer" in {**each.get("first", {}), **each.get("second", {})}}
        found |= {f"fault {each['cause']}" for each in buffer if "cause" in each} | {"jumps" for each in buffer + state["fetch_buffer"] if each["predicted"] != each["pc"] + 4}
        found |= {name for name in ("halted", "software", "timer", "external") if state[name]} | {name for name in state["csrs"] if state["csrs"][name] != self.at[cycle - 1]["state"]["csrs"][name]}
        if state["port_free"] > cycle:
            found.add(f"port busy for {min(2, state['port_free'] - cycle)}")
        if self.mispredicted(cycle) is not None:
            found.add("wrong prediction")
        found |= {f"learned with counter {each['counter']}" for each in line.get("learned", ())} | {"learned a target" for each in line.get("learned", ()) if "target" in each}
        return found
