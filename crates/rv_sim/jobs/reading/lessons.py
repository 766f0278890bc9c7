"""What examples/lessons/pages makes: the pages, the figures of the index, and the stops."""
import re
import subprocess

from .known import report_of

WORDS = {"F": "fetch", "D": "dispatch", "I": "issue", "=": "execut", "~": "bus", "B": "broadcast", ".": "wait", "C": "retire", "T": "trap", "x": "squash"}


def compare_lessons(lessons, program, folder, known):
    """The index has the figures of each run, and each page is that of the run but for its stops."""
    ran = subprocess.run([lessons / "pages", folder, program], stdout=subprocess.PIPE, stderr=subprocess.STDOUT, text=True)
    if ran.returncode:
        return [f"lessons' pages: {ran.stdout.strip()}"]
    rows = re.findall(r'<th scope="row"><a href="([\w-]+)\.html">\1</a></th><td>(\d+)</td><td>([\d.-]+)</td><td>(\d*)</td>', (folder / "index.html").read_text())
    stops = stops_of(lessons / "stops")
    wrong = [f"lessons' pages: {name} is not in the index" for name in {*stops} - {row[0] for row in rows}]
    for name, cycles, cpi, count in rows:
        facts, page, _ = known[name]
        report = report_of(facts.trace)
        if (cycles, cpi, count) != (report["cycles"], report["cpi"], str(len(stops.get(name, ())) or "")):
            wrong.append(f"lessons' pages: the index says of {name}: {cycles} cycles, CPI {cpi}, {count} stops")
        made = re.sub(r'(?s)(<script type="text/plain" id="notes">).*?(</script>)', r"\1\2", (folder / f"{name}.html").read_text())
        if facts.first == 0 and made != page.read_text():
            wrong.append(f"lessons' pages: that of {name} is another one")
    return wrong if rows else ["lessons' pages: the index has no run"]


def stops_of(path):
    """The stops of each job: cycle, number of the followed instruction, sentence."""
    found = {}
    for line in path.read_text().splitlines():
        if not line.startswith("#"):
            name, cycle, number, sentence = re.fullmatch(r"([\w-]+) (\d+) #(\d+) (.+)", line).groups()
            found.setdefault(name, []).append((int(cycle), int(number), sentence))
    return found


def compare_stops(stops, known):
    """In the cycle of each stop its instruction is in the stage that the sentence names."""
    wrong = [f"stops: no job {name}" for name in stops if name not in known and len(known) > 5]
    for name, cycle, number, sentence in [(name, *each) for name in stops if name in known for each in stops[name]]:
        each = known[name].log.get(number)
        in_flight = each is not None and each.stages["F"] <= cycle and (each.left is None or cycle <= each.left)
        if not in_flight or WORDS[each.letter(cycle)] not in sentence:
            wrong.append(f"stops: {name} {cycle} #{number} {sentence}: the instruction is in stage {each.letter(cycle) if in_flight else 'none'}")
    return wrong
