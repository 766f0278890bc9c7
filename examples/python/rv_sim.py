"""Runs rv_sim from Python and gives what it prints as objects. One file, of the standard library alone.

    import rv_sim
    run = rv_sim.run("li a0, 5\\nebreak\\n", {"rob": 4}, trace=True)
    run.stop, run.cycles, run.registers["a0"], run.steps[0].commit
    run.frame(hexadecimal=True)                             # the trace for pandas
    rv_sim.profile(text), rv_sim.states(text, cycles=20)    # rows, and the hardware's states, as dictionaries
    rv_sim.path(text), rv_sim.sensitivity(text)             # what holds the run back, and which key of the machine would help

The program is the one that the environment variable RV_SIM names, else `rv_sim` on the path, else the one of the repository that this
file stands in. A description is a TOML text or a dictionary of keys; arrivals are a TOML text.
"""
import argparse
import errno
import json
import os
import re
import shutil
import signal
import subprocess
import sys
import tomllib
from dataclasses import dataclass, field
from pathlib import Path

ABI = ("zero ra sp gp tp t0 t1 t2 s0 s1 a0 a1 a2 a3 a4 a5 a6 a7 s2 s3 s4 s5 s6 s7 s8 s9 s10 s11 t3 t4 t5 t6").split()
# Why a cycle dispatched nothing.
STALLS = ("fetch", "serial", "rob", "station", "store")
MOST_MACHINES = 64
# Columns of tables that are texts, and those that the program prints as eight hexadecimal digits.
TEXTS = {"statement", "name", "stop", "kind"}
HEXADECIMAL = {"address", "pc", "word", "value", "cause"}
MOST_SHOWN = 4
# What the output of a command begins with.
BEGINNINGS = {"run": ("R ", "T ", "N ", "stop "), "check": ("ok ",), "explain": ("",), "profile": ("address\t",), "path": ("cycles ",),
              "compare": ("number\t",), "sensitivity": ("key\t",), "states": ("{",)}


class Failed(Exception):
    """The program refused the job or failed: its line, its exit status, and what `explain` shows of a refused job: line, caret and expectation."""

    def __init__(self, line, status, shown=()):
        super().__init__("\n".join([line, *shown]))
        self.line, self.status, self.shown = line, status, list(shown)


def register_number(name):
    """The number of a register, by its name: x10 or a0; a KeyError where no register has it."""
    names = {f"x{number}": number for number in range(32)} | {each: number for number, each in enumerate(ABI)} | {"fp": 8}
    if name not in names:
        raise KeyError(f"no register has the name {name}")
    return names[name]


@dataclass
class Step:
    """A line of the trace. `kind` is R (retired), T (trap) or N (interrupt); cycles are None where there is none."""
    kind: str
    pc: int
    commit: int
    word: int = None
    fetch: int = None
    dispatch: int = None
    issue: int = None
    broadcast: int = None
    register: int = None
    value: int = None
    cause: int = None


class Registers(list):
    """The 32 registers, by number or by name: registers[10], registers["x10"], registers["a0"]."""

    def __getitem__(self, which):
        return super().__getitem__(register_number(which) if isinstance(which, str) else which)


@dataclass
class Run:
    """A report. `counts` has its counts by their names; memory the dumped words by address, None outside RAM."""
    stop: str = ""
    stale_pc: int = None
    counts: dict = field(default_factory=dict)
    pc: int = 0
    registers: Registers = field(default_factory=Registers)
    csrs: dict = field(default_factory=dict)
    memory: dict = field(default_factory=dict)
    steps: list = field(default_factory=list)

    @property
    def cycles(self):
        return self.counts["cycles"]

    @property
    def retired(self):
        return self.counts["retired"]

    @property
    def cpi(self):
        return self.cycles / self.retired if self.retired else None

    def frame(self, hexadecimal=False):
        """The trace as a table of pandas, which must be installed; see `frame`."""
        return frame([vars(it) for it in self.steps], hexadecimal, list(Step.__dataclass_fields__))


def frame(rows, hexadecimal=False, columns=None):
    """Rows as a table of pandas, which must be installed: numbers as whole numbers where all are, with pandas.NA for None. Addresses, words
    and causes as eight hexadecimal digits on request, as the program prints them."""
    import pandas
    table = pandas.DataFrame(rows, columns=columns)
    for name in table.columns:
        if hexadecimal and is_word(name):
            table[name] = table[name].map(lambda it: pandas.NA if pandas.isna(it) else f"{int(it):08x}").astype("string")
        elif name in ("cpi", "ipc") or name.endswith("_mean"):
            table[name] = table[name].astype("Float64")
        elif name in TEXTS or holds(table[name], str):
            table[name] = table[name].astype("string")
        elif not holds(table[name], (dict, list)):
            table[name] = table[name].astype("Int64")
    return table


def holds(column, kinds):
    """Whether a column has a value of one of these kinds."""
    return any(isinstance(it, kinds) for it in column)


def program():
    """The path of the program."""
    return os.environ.get("RV_SIM") or shutil.which("rv_sim") or str(Path(__file__).resolve().parents[2] / "rv_sim")


def flat(description):
    """A description's keys with dots, as a dictionary; from a TOML text or a dictionary."""
    if isinstance(description, str):
        # (a byte order mark may stand before a description, and tomllib takes none)
        description = tomllib.loads(description.removeprefix("\ufeff"))
    keys = {}
    for key, value in (description or {}).items():
        inner = flat(value) if isinstance(value, dict) else {"": value}
        keys.update({f"{key}.{name}".rstrip("."): it for name, it in inner.items()})
    return keys


def toml(description):
    """A description as a text."""
    if isinstance(description, str):
        return description
    # A boolean, a number or a word is written alike in JSON and in TOML. A date, which no key takes, is written as a word.
    return "".join(f"{key} = {json.dumps(value, default=str)}\n" for key, value in flat(description).items())


def job(assembly, description=None, arrivals=None):
    """A job's text. An assembly that is a job already, with a line %%, goes with no description."""
    if arrivals is not None:
        return f"{toml(description or {})}\n%%\n{arrivals}\n%%\n{assembly}"
    return assembly if description is None else f"{toml(description)}\n%%\n{assembly}"


def started(words, text):
    try:
        return subprocess.run([program(), *map(str, words)], input=text.encode(errors="surrogateescape"), capture_output=True, check=False)
    except OSError as fault:
        raise Failed(f"error: no program is at {program()}: {fault.strerror}", 1) from None


def call(words, text):
    """Runs the program with these words and this input, and gives what it prints."""
    done = started(words, text)
    if done.returncode not in (0, 3):
        shown = refusal(text) if done.returncode == 1 and words[0] != "compare" else []
        raise Failed(fault_line(done.stderr), done.returncode, shown)
    text = done.stdout.decode(errors="replace")
    if not text or not text.startswith(BEGINNINGS.get(words[0], "")):
        raise Failed(f"error: {program()} prints what rv_sim does not: is it another program?", 1)
    return text


def fault_line(said):
    """The line of a fault among what the program, or the script that calls it, wrote on standard error."""
    lines = said.decode(errors="replace").strip().splitlines() or [""]
    return next((it for it in lines if it.startswith("error: ")), lines[0])


def refusal(text):
    """The lines of `explain` about a job that is refused: the line at fault with a caret below it, and what was expected."""
    done = started(["explain", "--limit", "1"], text)
    return done.stdout.decode(errors="replace").splitlines() if done.returncode == 1 else []


def limit_words(limit):
    return [] if limit is None else ["--limit", limit]


def run(assembly, description=None, *, arrivals=None, limit=None, trace=False):
    """Runs a program on the core. With `trace` the result has its steps."""
    return read_report(call(["run", *["--trace"] * trace, *limit_words(limit)], job(assembly, description, arrivals)))


def explain(assembly, description=None, *, arrivals=None, limit=None):
    """The lines of `explain`."""
    return call(["explain", *limit_words(limit)], job(assembly, description, arrivals)).splitlines()


def profile(assembly, description=None, *, arrivals=None, limit=None, path=False):
    """The rows of `profile`, as dictionaries: numbers as numbers, None where the table has a hyphen or nothing; the statement is a text.
    With `path` they have the cycles on the critical path too."""
    return numbers(read_table(call(["profile", *["--path"] * path, *limit_words(limit)], job(assembly, description, arrivals))))


PATH_LINES = "The lines of the program with the most cycles on the path:"


def path_texts(assembly, description, arrivals, limit):
    """What `path` prints: the lines of the causes, and those of the lines of the program."""
    printed = call(["path", *limit_words(limit)], job(assembly, description, arrivals)).splitlines()
    end = printed.index(PATH_LINES) if PATH_LINES in printed else len(printed)
    return printed[1:end], printed[end + 1:]


def shares(lines):
    """The cycles of each name, of lines of a name, its cycles and its share."""
    found = (re.fullmatch(r" *(.*) (\d+) (?:\d+\.\d|-) %", line).groups() for line in lines)
    return {name: int(cycles) for name, cycles in found}


def path(assembly, description=None, *, arrivals=None, limit=None):
    """How many cycles of the run each cause has on its critical path, by the names that `path` prints, in its order. They add up to the
    cycles of the run."""
    return shares(path_texts(assembly, description, arrivals, limit)[0])


def path_lines(assembly, description=None, *, arrivals=None, limit=None):
    """The lines of the program with the most cycles on the critical path, most first, as dictionaries: address, line and text (None where
    no line of the program stands at the address), cycles, and the cycles of its greatest causes by their names."""
    rows = []
    for line in path_texts(assembly, description, arrivals, limit)[1]:
        found = re.fullmatch(r"([0-9a-f]{8}), (?:line (\d+): (.*)|which no line of the program fills)", line)
        if found:
            rows.append({"address": int(found[1], 16), "line": found[2] and int(found[2]), "text": found[3], "causes": {}})
        else:
            rows[-1]["causes"] |= shares([line])
    return [{**row, "cycles": row["causes"].pop("cycles")} for row in rows]


def sensitivity(assembly, description=None, *, arrivals=None, limit=None, also=None):
    """The rows of `sensitivity`, as dictionaries: the machine as it is, and those with one key changed, that with the fewest cycles first.
    `also` has values of one's own by their keys, four at most. What was changed, and from what to what, are texts."""
    words = [*limit_words(limit), *(it for key, value in (also or {}).items() for it in ("--also", setting(key, value)))]
    rows = read_table(call(["sensitivity", *words], job(assembly, description, arrivals)))
    return [{**row, "cycles": int(row["cycles"]), "change": int(row["change"])} for row in rows]


def setting(key, value):
    """A value for a key, as --also takes it: True and False as a description writes them."""
    return f"{key}={str(value).lower() if isinstance(value, bool) else value}"


def states(assembly, description=None, *, arrivals=None, first=None, cycles=None):
    """The lines of `states`, as dictionaries (docs/STATES.md): the hardware in `cycles` cycles from `first` on. Each word of a source line
    has the line's text here."""
    words = [*(["--from", first] if first is not None else []), *(["--cycles", cycles] if cycles is not None else [])]
    lines = [json.loads(it) for it in call(["states", *words], job(assembly, description, arrivals)).splitlines()]
    before = None
    for line in lines:
        if "address" in line:
            before = line.setdefault("text", before)
    return lines


def compare(assembly, descriptions, *, limit=None, show=()):
    """The rows of `compare`, as dictionaries: one for each description, of which there may be any number. `show` has up to four registers
    (a0 or x10) and addresses of words, whose values at the end stand in columns of their names, and `places`, for those of what became of
    the places for dispatch."""
    rows, words = [], [*limit_words(limit), *(it for name in show for it in ("--show", name))]
    for i in range(0, len(descriptions), MOST_MACHINES):
        block = descriptions[i:i + MOST_MACHINES]
        text = "".join(f"{toml(it)}\n%%\n" for it in block) + assembly
        if len(re.findall(r"(?m)^%%\r?$", text)) != len(block):
            raise ValueError("a line %% stands in the assembly or in a description")
        try:
            rows += numbers(read_table(call(["compare", *words], text)))
        except Failed as fault:
            which = re.match(r"error: .*description (\d+)", fault.line)
            if not which:
                raise
            number = int(which[1])
            line = fault.line.replace(f"description {number}", f"description {i + number}", 1)
            raise Failed(line, fault.status, refusal(job(assembly, block[number - 1]))) from None
    return [{**row, "number": i} for i, row in enumerate(rows, 1)]


def numbers(rows):
    """The rows of a table with its numbers as numbers, addresses too."""
    return [{name: number(name, text) for name, text in row.items()} for row in rows]


def is_word(name):
    """Whether a column has words in hexadecimal digits."""
    return name in HEXADECIMAL or name in ABI or name.startswith("0x")


def number(name, text):
    if name in TEXTS:
        return text
    if not text.strip("-"):
        return None
    return int(text, 16) if is_word(name) else float(text) if "." in text else int(text)


def plain(text):
    """A text as a cell of a table or one line: what does not print, in whatever script, is escaped."""
    return "".join(it if it.isprintable() and it != "\\" else escaped(it) for it in text)


def escaped(letter):
    # A byte of a file's name that is no UTF-8 comes as a surrogate.
    return f"\\x{ord(letter) - 0xDC00:02x}" if "\udc80" <= letter <= "\udcff" else letter.encode("unicode_escape").decode()


def read_table(text):
    """A table with tabs, as dictionaries by the names in its first line."""
    names, *rows = [line.split("\t") for line in text.splitlines()]
    return [dict(zip(names, row)) for row in rows]


def read_report(text):
    """A report, with or without its trace."""
    run = Run()
    for line in text.splitlines():
        first, *rest = line.split()
        if first in "RTN" and len(rest) > 2:
            run.steps.append(read_step(first, rest))
        elif first == "stop":
            run.stop, run.stale_pc = rest[0], int(rest[1], 16) if len(rest) > 1 else None
        elif first == "m":
            run.memory[int(rest[0], 16)] = None if rest[1].startswith("-") else int(rest[1], 16)
        elif re.fullmatch(r"x\d+", first):
            run.registers.append(int(rest[0], 16))
        elif first == "stall":
            run.counts[f"stall {rest[0]}"] = int(rest[1])
        elif first == "cpi":
            pass
        elif first == "pc":
            run.pc = int(rest[0], 16)
        elif run.registers:
            run.csrs[first] = int(rest[0], 16)
        else:
            run.counts[first] = int(rest[0])
    return run


def read_step(kind, cells):
    step = Step(kind, int(cells[0], 16), None)
    names = {"F": "fetch", "D": "dispatch", "I": "issue", "B": "broadcast", "C": "commit"}
    for cell in cells[2:]:
        if found := re.fullmatch(r"([FDIBC])(\d+|-)", cell):
            setattr(step, names[found[1]], None if found[2] == "-" else int(found[2]))
        elif found := re.fullmatch(r"x(\d+)=([0-9a-f]{8})", cell):
            step.register, step.value = int(found[1]), int(found[2], 16)
    if kind == "R":
        step.word = int(cells[1], 16)
    else:
        step.cause = int(cells[1], 16)
        step.value = int(cells[2], 16) if kind == "T" else None
    return step


def end(number, _):
    """Ends a script on SIGTERM or SIGHUP, as Ctrl-C does: what it made for itself is removed."""
    sys.exit(128 + number)


def interruptible(main):
    """The status of a script's main function; Ctrl-C, a reader that left, and an input or output that fails end it with no traceback."""
    for number in (signal.SIGTERM, signal.SIGHUP):
        if signal.getsignal(number) == signal.SIG_DFL:
            signal.signal(number, end)
    try:
        if sys.stdout is None:
            raise OSError(errno.EBADF, os.strerror(errno.EBADF))
        # (in any locale, and a file's name with bytes that are none as it is)
        sys.stdout.reconfigure(encoding="utf-8", errors="surrogateescape")
        status = main()
        sys.stdout.flush()
        return status
    except KeyboardInterrupt:
        return 130
    except OSError as fault:
        if sys.stdout is not None:
            # What is not yet written goes nowhere.
            os.dup2(os.open(os.devnull, os.O_WRONLY), sys.stdout.fileno())
        if isinstance(fault, BrokenPipeError):
            return 141
        print(f"{Path(sys.argv[0]).name}: {fault.filename or 'standard input or output'}: {fault.strerror}", file=sys.stderr)
        return 4


def named(word):
    """A path among a script's words. An empty word, as of a variable that is not set, names no file, and not the folder that one stands in."""
    if not word:
        raise argparse.ArgumentTypeError("a file's name is empty")
    return Path(word)


def read_job():
    """The job on a script's standard input."""
    if sys.stdin is None:
        raise OSError(errno.EBADF, os.strerror(errno.EBADF))
    if sys.stdin.isatty():
        name = Path(sys.argv[0]).name
        print(f"{name}: reads standard input; end it with Ctrl-D, or: {name} < FILE", file=sys.stderr)
    return sys.stdin.buffer.read().decode(errors="surrogateescape")


def tell(script, fault):
    """Says on standard error what was refused, as the program does, and what `explain` shows of it. The script's status."""
    print(f"{script}: {fault.line or f'status {fault.status}'}", *fault.shown, sep="\n", file=sys.stderr)
    return fault.status if fault.status > 0 else 1
