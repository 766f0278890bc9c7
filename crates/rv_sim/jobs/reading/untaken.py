"""The interrupt lines that are high at the end of a run and were never taken, read from the hardware's states."""
import re

# The lines, the one that comes first before the others, each with its bit in mie and mip.
LINES = (("external", "MEIE", 11), ("software", "MSIE", 3), ("timer", "MTIE", 7))


def untaken_in(lines):
    """A sentence for each such line: from which cycle it is high, and what stands in its way."""
    since, taken, csrs = {}, {name: [] for name, _, _ in LINES}, {}
    for line in lines:
        if "cycle" not in line:
            continue
        csrs = line["state"]["csrs"]
        for name, _, code in LINES:
            if line["state"][name]:
                since.setdefault(name, line["cycle"])
            else:
                since.pop(name, None)
            taken[name] += [line["cycle"] for step in line["steps"] if step["step"] == "interrupt" and step["cause"] == 2**31 + code]
    for place, (name, bit, code) in enumerate(LINES):
        if name in since and not taken[name]:
            is_enabled, is_global = csrs["mie"] >> code & 1, csrs["mstatus"] >> 3 & 1
            is_passed = any(cycle >= since[name] for higher, _, _ in LINES[:place] for cycle in taken[higher])
            clear = [*(["mstatus.MIE"] if not is_global else []), *([f"mie.{bit}"] if not is_enabled else [])]
            why = f"{' and '.join(clear)} {'are' if clear[1:] else 'is'} 0" if clear else "it is due"
            if is_enabled and is_passed:
                why = f"a higher one was taken, and {why}"
            yield f"The {name} line is high from cycle {since[name]} on, and was never taken: {why}"


def compare_untaken(lines, text, same):
    same("lines never taken", re.findall(r"^The \w+ line is high from .*$", text, re.M), [*untaken_in(lines)])
