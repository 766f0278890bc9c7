"""The panels' texts and marks beside log, report, states, the one-at-a-time machine and a model of the predictor."""
from reading.known import unlabelled
from reading.predictor import Model, uses_tables

KINDS = ("alu", "mul", "div", "mem")
CAUSES = {0: "instruction address misaligned", 1: "instruction access fault", 2: "illegal instruction", 3: "breakpoint", 4: "load address misaligned",
          5: "load access fault", 6: "store address misaligned", 7: "store access fault", 11: "environment call", 0x80000003: "software interrupt",
          0x80000007: "timer interrupt", 0x8000000b: "external interrupt"}
STAGES = {"F": "f", "D": "d", "I": "i", "=": "e", "~": "r", "B": "b", "C": "c", "T": "t", "x": "x", ".": "w"}


def word(value):
    return f"{value:08x}"


def texts(rows):
    """The texts of the rows that are not left free."""
    return [[cell["text"] for cell in row["cells"]] for row in rows if "free" not in row["marks"]]


class Panels:
    """What the panels should show of a cycle, and whether a page shows that."""

    def __init__(self, facts, page, cycle, same):
        self.facts, self.page, self.cycle, self.same = facts, page, cycle, same
        self.window = facts.lines
        self.line = self.window.at[cycle]
        self.state, self.numbers = self.line["state"], self.line["numbers"]
        self.buffer = self.state["reorder_buffer"]
        self.entries = list(zip(self.numbers, self.buffer))
        self.tables, self.notes, self.machine = page["tables"], page["notes"], self.window.machine

    def drawn(self, id, rows):
        """The rows of a long table that are in the document: without gaps all of them."""
        gaps = self.page["gaps"][id]
        self.same(f"gap in view of {id}", gaps["seen"], False)
        self.same(f"rows of {id} with those left out", gaps["above"] + len(self.tables[id]) + gaps["below"] >= len(rows), True)
        return rows[gaps["above"]:len(rows) - gaps["below"]]

    def placed(self, id, at, rows):
        """Rows of statements after their addresses, as they are known, without the addresses that the page leaves off for want of room."""
        shown = [row["cells"] for row in self.tables[id] if "free" not in row["marks"]]
        self.same(f"statements and addresses of {id}", [fault for cells in shown if len(cells) > at for fault in cells[at]["faults"]], [])
        left_off = [len(cells) > at and cells[at]["text"] == "" for cells in shown]
        self.same(f"tips of statements of {id}", [" ".join(cells[at + 1]["tip"].split()) for cells in shown if len(cells) > at + 1], [f"{row[at]} {row[at + 1]}" for row in rows])
        return [row[:at] + [""] + row[at + 1:] if is_left else row for row, is_left in zip(rows, left_off)] + rows[len(left_off):]

    def compare(self):
        for check in (self.front, self.reorder_buffer, self.stations, self.units, self.bus, self.stores, self.registers, self.csrs, self.counts,
                      self.reference, self.cache, self.accesses, self.memory, self.source, self.predictor):
            check()

    def number(self, sequence):
        return self.window.number(sequence, self.cycle)

    def running(self):
        return [(number, entry, entry["issued"] + entry["cost"]) for number, entry in self.entries if "issued" in entry and "finished" not in entry]

    @staticmethod
    def then(entry):
        """Where an instruction is predicted to go on, where that is not the next word."""
        return "" if entry["predicted"] == (entry["pc"] + 4) % 2 ** 32 else "\u2192" + word(entry["predicted"])

    def front(self):
        buffer, known = self.state["fetch_buffer"], self.numbers[len(self.buffer):]
        rows = [[f"#{number}", word(each["pc"]), self.window.statement(each), self.then(each)] for number, each in zip(known, buffer)]
        self.same("fetch buffer", texts(self.tables["fetch"]), self.placed("fetch", 1, rows))
        self.same("fetch buffer's note", self.notes["fetch-note"], f"{len(buffer)} of {self.machine['fetch_buffer']}, " +
                  ("halted" if self.state["halted"] else f"next {word(self.state['next_fetch'])}"))
        self.same("the log's fetch buffer", known, [each.number for each in self.facts.flying(self.cycle) if each.at("D", self.cycle) is None])

    def reorder_buffer(self):
        rows, last = [], len(self.buffer) - 1
        for k, (number, entry) in enumerate(self.entries):
            each = self.facts.log[number]
            stamps = [each.at(stage, self.cycle) for stage in "DXB"]
            shown = ["-" if stamp is None else str(stamp) for stamp in stamps]
            if stamps[1] is not None and stamps[2] is None:
                shown[2] = f"\u2192{entry['issued'] + entry['cost']}"
            ends = "+".join(["head"] * (k == 0) + ["tail"] * (k == last))
            target = f"x{entry['target']}=" + (word(entry["value"]) if "value" in entry else "?") if entry.get("target") else ""
            result = CAUSES[entry["cause"]] if "cause" in entry else target + self.then(entry) or "-"
            rows.append([ends, f"#{number}", f"{each.pc:08x}", self.window.statement(entry), each.letter(self.cycle), *shown, result])
        known, count = self.drawn("rob", rows), len(rows)
        rows = self.placed("rob", 2, known)
        self.same("reorder buffer", texts(self.tables["rob"]), rows)
        self.same("stages' colours", [row["cells"][4]["kind"] for row in self.tables["rob"] if len(row["cells"]) == 9], ["cell " + STAGES[row[4]] for row in rows])
        self.same("faults' marks", ["fault" in row["cells"][8]["marks"] for row in self.tables["rob"] if len(row["cells"]) == 9],
                  self.drawn("rob", ["cause" in entry for entry in self.buffer]))
        self.same("reorder buffer's note", self.notes["rob-note"], f"{count} of {self.machine['rob']}, tail at the bottom")

    def waiting(self, kind):
        return [(number, entry) for number, entry in self.entries if entry.get("kind") == kind and "issued" not in entry]

    def operand(self, operand):
        name = f"x{operand['register']}"
        return f"{name}={word(operand['value'])}" if "value" in operand else f"{name}\u2190#{self.number(operand['producer'])}"

    def stations(self):
        rows, counts = [], []
        for kind in KINDS:
            waiting, size = self.waiting(kind), self.machine[kind]["stations"]
            for number, entry in waiting:
                operands = [self.operand(entry[name]) for name in ("first", "second") if name in entry]
                rows.append([kind, f"#{number}", self.window.statement(entry), " ".join(operands)])
            # (of each kind four are shown, though they are free)
            rows += [None] * (min(size, 4) - len(waiting))
            counts.append(f"{kind} {len(waiting)}/{size}")
        drawn = self.drawn("stations", rows)
        self.same("stations", texts(self.tables["stations"]), [row for row in drawn if row])
        self.same("free stations", sum("free" in row["marks"] for row in self.tables["stations"]), drawn.count(None))
        self.same("stations' note", self.notes["stations-note"], " ".join(counts))
        log = self.facts.log
        waited = [each.number for each in self.facts.flying(self.cycle) if each.at("D", self.cycle) is not None and each.at("X", self.cycle) is None]
        # (whether an instruction that was squashed before its issue would have had one, the log does not say)
        self.same("the log's stations", sorted(int(row[1][1:]) for row in rows if row and "X" in log[int(row[1][1:])].stages),
                  [number for number in waited if "X" in log[number].stages])

    def units(self):
        rows = []
        for kind in KINDS:
            held = sum(unit["since"] + unit["cycles"] > self.cycle for unit in self.state["units"][kind])
            under = [f"#{number}\u2192{end}" for number, entry, end in self.running() if entry["kind"] == kind and end > self.cycle]
            rows.append([kind, f"{held}/{self.machine[kind]['units']}", " ".join(under)])
        port, began = self.state["port_free"], [each for each in self.window.accesses if each["cycle"] == self.cycle]
        what = [f"{each['what']} #{each['number']} {word(each['address'])}" for each in began]
        rows.append(["port", "busy" if port > self.cycle + 1 else "free", " ".join([f"\u2192{port}"] * (port > self.cycle) + what)])
        self.same("units and port", texts(self.tables["units"]), rows)

    def bus(self):
        rows = []
        for each in sorted(self.facts.log.values(), key=lambda each: each.number):
            if each.stages.get("B") == self.cycle:
                entry = dict(self.entries).get(each.number, {})
                has = entry.get("target") and "value" in entry
                rows.append(["B", f"#{each.number}", f"x{entry['target']}={word(entry['value'])}" if has else self.window.statements.get(each.pc, each.text)])
        for number, _, ready in self.running():
            if ready <= self.cycle:
                rows.append(["~", f"#{number}", f"waits since {ready}"])
            elif ready == self.cycle + 1:
                rows.append(["", f"#{number}", f"ready in {ready}"])
        self.same("bus", texts(self.tables["bus"]), rows)
        self.same("bus's note", self.notes["bus-note"], f"of width {self.machine['bus_width']}")

    def stores(self):
        log, queue = self.facts.log, self.state["store_queue"]
        flying = [each.number for each in self.facts.flying(self.cycle) if each.is_store() and each.at("D", self.cycle) is not None]
        retired = [each.number for each in log.values() if each.is_store() and each.end == "C" and each.left <= self.cycle]
        # (the log's label names a store by its statement; a statement that stands for two words may hide one)
        own = [self.number(store["sequence"]) for store in queue]
        count = len(queue) - len(flying)
        self.same("the log's stores", own, retired[len(retired) - count:] + flying if count else flying)
        rows = [[f"#{number}" if number is not None else "-", store["state"], word(store["address"]) if "address" in store else "",
                 " ".join(f"{byte:02x}" for byte in store.get("bytes", ()))] for number, store in zip(own, queue)]
        self.same("store queue", texts(self.tables["stores"]), rows)
        self.same("store queue's note", self.notes["stores-note"], f"{len(queue)} of {self.machine['store_queue']}")

    def registers(self):
        writers = {entry["target"]: f"#{number}" for number, entry in self.entries if entry.get("target")}
        values, old = self.state["registers"], self.window.at.get(self.cycle - 1, self.line)["state"]["registers"]
        rows = [[text for k in (row, row + 16) for text in (f"x{k}", word(values[k]), writers.get(k, ""))] for row in range(16)]
        self.same("registers", texts(self.tables["registers"]), rows)
        changed = [k for k in range(32) if values[k] != old[k]]
        cells = {int(row["cells"][at]["text"][1:]): row["cells"][at + 1] for row in self.tables["registers"] for at in (0, 3)}
        self.same("changed registers", [k for k in range(32) if "changed" in cells[k]["marks"]], changed)

    def csrs(self):
        values, old = self.state["csrs"], self.window.at.get(self.cycle - 1, self.line)["state"]["csrs"]
        names = [name for name in values if values[name] or old[name]]
        rows = [[name, word(values[name]), CAUSES.get(values[name], f"cause {word(values[name])}") if name == "mcause" and values[name] else ""] for name in names]
        self.same("CSRs", texts(self.tables["csrs"]), rows)
        marked = [row["cells"][0]["text"] for row in self.tables["csrs"] if "free" not in row["marks"] and "changed" in row["cells"][1]["marks"]]
        self.same("changed CSRs", marked, [name for name in names if values[name] != old[name]])
        self.same("lines", self.notes["csrs-note"], ", ".join(f"{name} line high" for name in ("software", "timer", "external") if self.state[name]))

    def counts(self):
        report, here = self.facts.run_up_to(self.cycle), " here" if self.window.first > 0 else ""
        steps = [kind for kind, at in self.facts.steps if self.window.first <= at <= self.cycle]
        self.same("counts", self.page["counted"], [f"cycles {report['cycles']}", f"retired {report['retired']}", f"traps{here} {steps.count('T')}",
                                                   f"interrupts{here} {steps.count('N')}"])
        if not here:
            self.same("the report's traps and interrupts", [str(steps.count(kind)) for kind in "TN"], [report["traps"], report["interrupts"]])
        self.same("CPI", self.notes["counts-note"], "CPI " + report["cpi"] if report["retired"] != "0" else "CPI -")
        total = max(1, int(report["cycles"]))
        names = [name for name in report if name == "busy" or name.startswith("stall ")]
        shares = [f"{int(1000 * int(report[name]) / total + 0.5) / 10:.1f}%" for name in names]
        rows = texts(self.tables["counts"])
        self.same("cycles by what they did", [row[:2] for row in rows], [[name, report[name]] for name in names])
        self.same("shares", [row[2] for row in rows if abs(float(row[2][:-1]) - 100 * int(row[1]) / total) > 0.051], [])
        self.same("bars", [[float(width[:-1]) for width in row["widths"]] for row in self.tables["counts"]], [[float(row[2][:-1])] for row in rows])
        self.same("names in the stack", [[name, said, is_cut] for name, width, said, is_cut in self.page["stack"] if is_cut or said != (name if float(width[:-1]) > 2.6 * len(name) else "")], [])
        self.same("stack", [[name, float(width[:-1])] for name, width, *_ in self.page["stack"]],
                  [[name.split()[-1], float(row[2][:-1])] for name, row in zip(names, rows) if report[name] != "0"])
        self.same("number of shares", len(rows), len(shares))

    def reference(self):
        address = self.window.listing[0]["address"] if self.window.listing else self.machine["ram_base"]
        reference = self.facts.reference(self.cycle, address)
        cells = {row["cells"][at]["text"]: row["cells"][at + 1]["text"] for row in self.tables["registers"] for at in (0, 3)}
        if reference is None:
            return self.same("registers at first", cells, {f"x{register}": "00000000" for register in range(32)})
        self.same("the one-at-a-time machine's registers", cells, {f"x{register}": reference[f"x{register}"] for register in range(32)})
        self.same("pc", self.notes["source-note"], f"> {reference['pc']} is next to retire")
        shown = {row["cells"][0]["text"]: row["cells"][1]["text"] for row in self.tables["csrs"] if "free" not in row["marks"]}
        self.same("the one-at-a-time machine's CSRs", shown, {name: reference.get(name, value) for name, value in shown.items()})

    def cache(self):
        sets, _ = self.facts.storage(self.cycle)
        before, _ = self.facts.storage(self.cycle - 1) if self.cycle > self.window.first else (sets, None)
        rows = [row for row in self.tables["cache"] if "free" not in row["marks"]]
        shown = {int(row["cells"][0]["text"]): [cell["text"] for cell in row["cells"][1:] if cell["text"] != "-"] for row in rows}
        self.same("sets of the cache", {at: lines for at, lines in shown.items() if lines}, sets)
        size, began = self.machine["cache"]["line"], [each["address"] for each in self.window.accesses if each["cycle"] == self.cycle]
        touched = [cell["text"].rstrip("*") for row in rows for cell in row["cells"][1:] if "touched" in cell["marks"]]
        self.same("touched lines", touched, [word(address - address % size) for address in began])
        marked = {int(row["cells"][0]["text"]) for row in rows if "changed" in row["marks"]}
        self.same("sets that changed without a mark", [at for at in sets if before.get(at) != sets[at] and at not in marked and began], [])
        self.same("marked sets without an access", bool(marked) and not began and before == sets, False)
        misses = {each["address"] // size * size: each for each in self.window.accesses if each["cycle"] <= self.cycle and self.window.outcome(each["cost"]).startswith("miss")}
        for cell in (cell for row in rows for cell in row["cells"][1:] if cell["text"] != "-"):
            by = misses.get(int(cell["text"].rstrip("*"), 16))
            is_said = (f"brought by #{by['number']} in cycle {by['cycle']}" in cell["tip"]) if by else "brought by" not in cell["tip"]
            self.same(f"who brought line {cell['text']}", (cell["tip"], is_said), (cell["tip"], True))
        dirty = [cell["text"] for row in rows for cell in row["cells"][1:] if ("dirty" in cell["marks"]) != cell["text"].endswith("*")]
        self.same("lines whose form does not say whether they are dirty", dirty, [])

    def accesses(self):
        known, log = [each for each in self.window.accesses if each["cycle"] <= self.cycle], self.facts.log
        rows, hits = [], 0
        for each in known:
            outcome, left = self.window.outcome(each["cost"]), log[each["number"]]
            hits += not outcome.startswith("miss")
            gone = left.left is not None and left.left <= self.window.last
            end = {"C": "retires", "T": "traps", "x": "squashed"}[left.end] if gone else ""
            rows.append([str(each["cycle"]), f"#{each['number']}", each["what"], word(each["address"]), outcome, str(each["cost"]), end])
        self.same("accesses", texts(self.tables["accesses"]), rows[::-1][:40])
        self.same("hits", self.notes["accesses-note"], f"hits {hits} of {len(rows)}, {int(1000 * hits / len(rows) + 0.5) / 10:.1f}%" if rows else "none yet")
        marked = [row["cells"][0]["text"] for row in self.tables["accesses"] if "changed" in row["marks"]]
        self.same("the access of this cycle", marked, [str(each["cycle"]) for each in known if each["cycle"] == self.cycle])
        missed = [row["cells"][4]["text"] for row in self.tables["accesses"] if "free" not in row["marks"] and "missed" in row["cells"][4]["marks"]]
        self.same("marked misses", missed, [row[4] for row in rows[::-1][:40] if row[4].startswith("miss")])

    def predictor(self):
        kind, entries = self.machine["predictor"]["kind"], self.machine["predictor"]["entries"]
        model = Model(kind, entries)
        for cycle, pc, word_there, following in self.facts.lessons:
            if cycle <= self.cycle:
                model.learn(pc, word_there, following)
        self.same("predictor's note", self.notes["predictor-note"], kind + (f" {entries}" if model.has_tables() else ""))
        known, rows = self.numbers[len(self.buffer):], []
        for number, each in zip(known, self.state["fetch_buffer"]):
            if each["fetched"] != self.cycle or "word" not in each:
                continue
            answer, uses = model.answer(each["pc"], each["word"]), model.has_tables() and uses_tables(each["word"])
            place = str(model.place(each["pc"])) if uses else ""
            said = "next" if answer == (each["pc"] + 4) % 2 ** 32 else "\u2192" + word(answer)
            rows.append([f"#{number}", word(each["pc"]), place, said + ("" if uses or not model.has_tables() else ", no table")])
        self.same("words that the predictor was asked of", texts(self.tables["asked"]), rows)
        if not model.has_tables():
            return self.same("tables of a predictor without any", self.tables["tables"], [])
        _, words = self.facts.storage(self.cycle)
        sharers = {}
        for each in self.window.listing:
            if uses_tables(int(words.get(each["address"], ("0", False))[0], 16)):
                sharers.setdefault(model.place(each["address"]), []).append(word(each["address"]))
        places = sorted({*sharers, *model.known()})
        shown = [row for row in self.tables["tables"] if "free" not in row["marks"]]
        held = [model.at(place) for place in places]
        self.same("the predictor's tables", texts(shown), [
            [str(each["place"]), str(each["counter"]), "taken" if each["counter"] >= 2 else "not", word(each["target"]) if "target" in each else "-",
             " ".join(sharers.get(each["place"], []))] for each in held])
        taught = {model.place(pc) for cycle, pc, word_there, _ in self.facts.lessons if cycle == self.cycle and uses_tables(word_there)}
        marked = [int(row["cells"][0]["text"]) for row in shown if "changed" in row["marks"]]
        self.same("places that were taught", marked, sorted(taught))
        self.same("places that were asked", [int(row["cells"][0]["text"]) for row in shown if "touched" in row["marks"]], sorted({int(row[2]) for row in rows if row[2]}))

    def memory(self):
        _, words = self.facts.storage(self.cycle)
        stored, seen = self.window.stored(self.cycle), set()
        for row in self.page["memory"]:
            base = int(row["parts"][0]["text"], 16)
            self.same(f"address in memory {row['parts'][0]['text']}", len(row["parts"][0]["text"]), 8)
            for k, cell in enumerate(row["parts"][1:]):
                at = base + 4 * k
                seen.add(at)
                value, stale = words.get(at, ("00000000", False))
                self.same(f"memory at {at:08x}", (cell["text"], "stale" in cell["marks"], "changed" in cell["marks"]), (value, stale, at in stored))
        tops = [row["top"] for row in self.page["memory"]]
        bases = [int(row["parts"][0]["text"], 16) for row in self.page["memory"]]
        self.same("order of memory", bases, [base for _, base in sorted(zip(tops, bases))])
        self.same("rows of memory in order of addresses", bases, sorted(bases))
        if not seen:
            self.same("words of memory that were compared", 0, "some")

    def source(self):
        flying = {}
        for number in self.numbers:
            flying.setdefault(self.facts.log[number].pc, []).append(number)
        known = {each["address"]: each for each in self.window.listing}
        for row in self.page["source"]:
            line, mark, tags, pc, text = row["parts"]
            address, here = int(row["tip"][:8], 16), []
            self.same("address in source", pc["text"] or word(address), word(address))
            self.same(f"statements and addresses of the source at {address:08x}", pc["faults"], [])
            for number in flying.get(address, [])[:4]:
                here.append(self.facts.log[number].letter(self.cycle))
            more = len(flying.get(address, [])) - 4
            whole = " ".join(known[address]["text"].replace("\u00a0", " ").split())
            # (without its label it is left where there is no room for that)
            said = text["text"] if text["text"] == unlabelled(whole) and pc["text"] == "" else whole
            self.same(f"source at {address:08x}", (line["text"], mark["text"] == ">", tags["parts"], tags["text"], text["text"], "flying" in row["marks"]),
                      (str(known[address]["line"]), address == self.state["pc"], here, "".join(here) + (f"+{more}" if more > 0 else ""), said, address in flying))
        pcs = [int(row["tip"][:8], 16) for row in self.page["source"]]
        self.same("lines of the source in order", pcs, [each["address"] for each in self.window.listing if each["address"] in pcs])
        order = [row["top"] for row in self.page["source"]]
        self.same("order of the source", order, sorted(order))
        if known and not self.page["source"]:
            self.same("lines of the source", 0, "some")
