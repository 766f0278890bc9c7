"""Why the instructions in flight stay there, read from the hardware's states: from what each has before a cycle and after it."""
import re
from collections import Counter

WAITS = {
    "operands": "operands", "address": "a store's address", "alu": "an alu unit", "mul": "a mul unit", "div": "a div unit", "mem": "a mem unit",
    "port": "the port", "bus": "the bus", "retirement": "retirement",
}
LINES = {"execution": "in execution", **{name: f"waiting for {what}" for name, what in WAITS.items()}}
ORDER = ("operands", "address", "alu", "mul", "div", "mem", "port", "execution", "bus", "retirement")


class Impossible(Exception):
    """An instruction waits that has all it needs."""


def stays_in(lines):
    """How many cycles instructions stayed in flight for each reason, and in how many the oldest in wait for an operand awaited that of each pc."""
    machine = lines[0]["machine"]
    stays, awaited, before = Counter(), Counter(), next(line["state"] for line in lines if "start" in line)
    for line in lines:
        if "cycle" in line:
            older, oldest = {entry["sequence"]: entry for entry in before["reorder_buffer"]}, None
            for entry in line["state"]["reorder_buffer"]:
                if entry["dispatched"] < line["cycle"]:
                    reason, pc = reason_of(machine, line["cycle"], older, before, line["state"], entry)
                    stays[reason] += 1
                    oldest = pc if oldest is None else oldest
            if oldest is not None:
                awaited[oldest] += 1
            before = line["state"]
    return stays, awaited


def reason_of(machine, cycle, older, before, after, entry):
    """The reason of an entry, and of one that waits for an operand the pc that gives it."""
    if "kind" not in entry:
        return "retirement", None
    if "issued" in entry:
        if entry.get("finished", cycle) < cycle:
            return "retirement", None
        return ("bus" if "finished" not in entry and entry["issued"] + entry["cost"] <= cycle else "execution"), None
    # As the issue phase met it: it was dispatched before, and no result came since the cycle before.
    for name in ("first", "second"):
        producer = older[entry["sequence"]].get(name, {}).get("producer")
        if producer is not None:
            return "operands", older[producer]["pc"]
    is_load = entry["word"] & 127 == 3
    if is_load and any(store["state"] == "waiting" and store["sequence"] < entry["sequence"] for store in before["store_queue"]):
        return "address", None
    held = sum(start["since"] <= cycle < start["since"] + start["cycles"] for start in after["units"][entry["kind"]])
    if held >= machine[entry["kind"]]["units"]:
        return entry["kind"], None
    if not is_load or after["port_free"] <= cycle:
        raise Impossible(f"{entry} in cycle {cycle}")
    return "port", None


def compare_stays(lines, text, share, same):
    """The lines of an explanation: the greatest wait, the reasons with their shares, and the line that was awaited most."""
    stays, awaited = stays_in(lines)
    every = sum(stays.values())
    waits = [(stays[name], WAITS[name].replace("a store's", "an older store's")) for name in ORDER if name in WAITS]
    two = [(count, what) for count, what in sorted(waits, key=lambda wait: -wait[0])[:2] if count]
    listed = ", ".join(f"{count} waiting for {what} ({share(count, every)[1]}%)" for count, what in two)
    printed = re.findall(r"^cycles of instructions in flight: (\d+), of them (.*)$", text, re.M)
    same("greatest waits", printed, [(str(every), listed)] if two else [])
    same("cycles in flight", re.findall(r"^Where the (\d+) cycles of instructions in flight went:$", text, re.M), [str(every)] if every else [])
    printed = re.findall(r"^(waiting for [a-z' ]*[a-z]|in execution) +(\d+) +(\d+\.\d)%  (#*)$", text, re.M)
    same("stays", printed, [(LINES[name], *share(stays[name], every)) for name in ORDER if stays[name]])
    loads = r"(?: \(its loads: hits (\d+)(?:, of them forwarded (\d+))?, misses (\d+), write-backs (\d+)\))?"
    printed = re.findall(rf"^Awaited most, for (\d+) of (\d+) cycles{loads}: ([0-9a-f]{{8}})(?:, line (\d+))?", text, re.M)
    return awaited, printed
