"""Which machine and which run: the page's line and the title of its tab."""
from .panels import KINDS


def counted(count, name):
    return f"{count} {name}{'' if count == 1 else 's'}"


def compare_machine(facts, page, same):
    machine, window = facts.lines.machine, facts.lines
    cache, predictor = machine["cache"], machine["predictor"]
    name = page["notes"]["machine"].split(" ")[0]
    parts = [
        f"fetch {machine['fetch_width']}, dispatch {machine['dispatch_width']}, commit {machine['commit_width']}, bus {machine['bus_width']}",
        f"reorder buffer {machine['rob']}, fetch buffer {machine['fetch_buffer']}, store queue {machine['store_queue']}",
        *(f"{kind} {counted(machine[kind]['units'], 'unit')}, {counted(machine[kind]['stations'], 'station')}, latency {machine[kind]['latency']}" +
          ("" if machine[kind]["pipelined"] else ", not pipelined") for kind in KINDS),
        f"forward {machine['forward']}",
        f"cache {cache['sets']}\u00d7{cache['ways']}\u00d7{cache['line']} bytes, hit {cache['hit']}, miss {cache['miss']}, write-back {cache['write_back']}",
        f"predictor {predictor['kind']}" + (f" {predictor['entries']}" if "entries" in predictor else "") + f", recovery {machine['recovery']}",
    ]
    same("machine", page["notes"]["machine"], f"{name} " + "; ".join(parts))
    same("title", page["title"], f"{name}: width {machine['fetch_width']}, reorder buffer {machine['rob']}, {predictor['kind']}")
    same("name of the run", name, page["title"].split(":")[0])
    same("range", page["notes"]["range"], f"of {window.first} to {window.last}")
    same("panels", page["titles"], ["Source", "Fetch buffer", "Predictor", "Store queue", "Pipeline", "Reorder buffer", "Stations", "Units and port", "Common data bus",
                                    "CSRs", "Counts", "Registers", "Cache", "Accesses", "Memory"])
