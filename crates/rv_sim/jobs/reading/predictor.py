"""A model of the branch predictors of their own, taught by a trace, and what states and page say of them beside it."""
import re

BRANCH, JALR, JAL = 0x63, 0x67, 0x6f


def signed(value, bits):
    return value - (value >> bits - 1 << bits)


def is_branch(word):
    return word & 0x7f == BRANCH and word >> 12 & 7 not in (2, 3)


def is_jalr(word):
    return word & 0x7f == JALR and word >> 12 & 7 == 0


def uses_tables(word):
    return is_branch(word) or is_jalr(word)


def branch_target(pc, word):
    offset = (word >> 31) << 12 | (word >> 7 & 1) << 11 | (word >> 25 & 0x3f) << 5 | (word >> 8 & 15) << 1
    return (pc + signed(offset, 13)) % 2 ** 32


def jump_target(pc, word):
    offset = (word >> 31) << 20 | (word >> 12 & 0xff) << 12 | (word >> 20 & 1) << 11 | (word >> 21 & 0x3ff) << 1
    return (pc + signed(offset, 21)) % 2 ** 32


class Model:
    """A predictor after some lessons."""

    def __init__(self, kind, entries):
        self.kind, self.entries, self.counters, self.targets = kind, entries, {}, {}

    def has_tables(self):
        return self.kind == "bimodal"

    def place(self, pc):
        return pc // 4 % self.entries

    def counter(self, place):
        return self.counters.get(place, 1)

    def at(self, place):
        """What the tables hold at a place, as the lines say it."""
        target = self.targets.get(place)
        return {"place": place, "counter": self.counter(place), **({} if target is None else {"target": target})}

    def known(self):
        """The places that are not as at first."""
        return [place for place in range(self.entries) if self.counter(place) != 1 or place in self.targets]

    def learn(self, pc, word, following):
        """Learns of a retired instruction; answers the place that it uses, or None."""
        if not self.has_tables() or not uses_tables(word):
            return None
        place = self.place(pc)
        if is_jalr(word):
            self.targets[place] = following
        else:
            way = 1 if following != (pc + 4) % 2 ** 32 else -1
            self.counters[place] = max(0, min(3, self.counter(place) + way))
        return place

    def answer(self, pc, word):
        following = (pc + 4) % 2 ** 32
        if word & 0x7f == JAL:
            return jump_target(pc, word)
        if is_branch(word):
            taken = {"not_taken": False, "backward_taken": word >> 31 == 1, "bimodal": self.counter(self.place(pc)) >= 2}[self.kind]
            return branch_target(pc, word) if taken else following
        return self.targets.get(self.place(pc), following) if is_jalr(word) and self.has_tables() else following


def lessons(trace):
    """The lessons of a trace: the cycle, pc and word of each retired instruction, and where the program went on."""
    steps = [line.split() for line in trace.splitlines() if re.match(r"[RTN] ", line)]
    # (of the last instruction the report's pc says where the program goes on)
    last = re.search(r"(?m)^pc ([0-9a-f]{8})$", trace)
    following = [int(step[1], 16) for step in steps[1:]] + [int(last[1], 16) if last else 0]
    return [(int(re.search(r" C(\d+)( |$)", " ".join(step))[1]), int(step[1], 16), int(step[2], 16), pc) for step, pc in zip(steps, following) if step[0] == "R"]


def compare_states(lines, taught, same):
    """Compares what lines of states say of the predictor with a model that a trace's lessons teach. Answers how many cycles there were."""
    machine, cycles = lines[0]["machine"], [line for line in lines if "cycle" in line]
    model = Model(machine["predictor"]["kind"], machine["predictor"]["entries"])
    waiting = list(taught)

    def learn(cycle):
        places = []
        while waiting and waiting[0][0] <= cycle:
            place = model.learn(*waiting.pop(0)[1:])
            places += [] if place is None else [place]
        return places

    learn(lines[0]["first"] - 1)
    same("the predictor's places before the window", [line for line in lines if "place" in line], [model.at(place) for place in model.known()])
    for line in cycles:
        cycle, places = line["cycle"], learn(line["cycle"])
        same(f"learned in cycle {cycle}", line.get("learned"), [model.at(place) for place in places] if model.has_tables() else None)
        words = [each for each in line["state"]["fetch_buffer"] if each["fetched"] == cycle and "word" in each]
        answers = [{"pc": each["pc"], **({"place": model.place(each["pc"])} if model.has_tables() else {}), "answer": model.answer(each["pc"], each["word"])} for each in words]
        same(f"asked in cycle {cycle}", line.get("asked"), answers)
        same(f"predictions of cycle {cycle}", [each["predicted"] for each in words], [each["answer"] // 4 * 4 for each in answers])
    return len(cycles)
