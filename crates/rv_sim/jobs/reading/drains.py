"""The drains of a run by their stores, read from the hardware's states."""
import re

# A line that stood at the head, with its drains, if any began.
LINE = r"^([0-9a-f]{8}), .*\n +\d+ +\d+\.\d%  #*\n(?: +its loads: .*\n)?(?: +its stores: hits (\d+), misses (\d+), write-backs (\d+)\n)?"

# The sentence on the line that stood there longest.
LONGEST = (r"^Longest at the head .*? cycles(?: \(its loads: [^)]*\))?(?: \(its stores: hits (\d+), misses (\d+), write-backs (\d+)\))?"
           r"(?: \(its branches [^)]*\))?: ([0-9a-f]{8}),")


def drains_in(lines):
    """The pc of each drain's store, and what it costs. A store is known by its number in the reorder buffer."""
    pcs, under_way = {}, None
    for line in lines:
        if "state" not in line:
            continue
        pcs.update((entry["sequence"], entry["pc"]) for entry in line["state"]["reorder_buffer"])
        draining = [store["sequence"] for store in line["state"]["store_queue"][:1] if store["state"] == "draining"]
        if "cycle" in line and draining and draining != under_way:
            yield pcs[draining[0]], line["state"]["port_free"] - line["cycle"]
        under_way = draining


def compare_drains(lines, text, same):
    """The hits, misses and write-backs of the stores of each line at the head, and of the one that stood there longest."""
    cache, drains = lines[0]["machine"]["cache"], [*drains_in(lines)]
    printed, read = re.findall(LINE, text, re.M), []
    printed += [(pc, *counts) for *counts, pc in re.findall(LONGEST, text, re.M)]
    for pc, *_ in printed:
        costs = [cost for store, cost in drains if store == int(pc, 16)]
        missed = [cost for cost in costs if cost != cache["hit"]]
        counts = len(costs) - len(missed), len(missed), sum(cost > cache["hit"] + cache["miss"] for cost in missed)
        read.append((pc, *map(str, counts)) if costs else (pc, "", "", ""))
    same("stores at the head", printed, read)
