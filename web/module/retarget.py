#!/usr/bin/env python3
"""retarget.py IN.ll OUT.ll  writes the text of the program's LLVM module, as rattle made it for x86-64, for WebAssembly of 32 bits.

A pointer keeps its eight bytes in memory, and has four in hand: where one is loaded or stored, an i64 is, and a constant pointer is followed
by four bytes of 0. So each size and each offset is the one that was proved, and usize has 64 bits. Beside it the triple, the data layout
and what names the other processor change, and `main` is exported as `rv_main`.

Each instruction that touches memory has one of the forms below. Any other is a fault, which names its line: status 1, and nothing is written.
"""
import re
import sys

LAYOUT = "e-m:e-p:32:32-p10:8:8-p20:8:8-i64:64-i128:128-n32:64-S128-ni:1:10:20"
TRIPLE = "wasm32-unknown-unknown"
SIZES = {"i1": 1, "i8": 1, "i16": 2, "i32": 4, "i64": 8, "i128": 16, "float": 4, "double": 8, "ptr": 8}
# what an attribute group says of the other processor, or asks of a sanitizer
OF_X86 = re.compile(r' (?:sanitize_address|sanitize_thread|"(?:probe-stack|stack-probe-size|target-cpu|target-features|frame-pointer)"="[^"]*")')
POINTER = r'(?:%[\w.]+|@[\w.]+|@"[^"]*"|null|getelementptr \(i8, ptr @[\w.]+, i64 \d+\))'
HINTS = r"(?:, ![a-z_.]+ !\d+)*"
LOAD = re.compile(rf"  (\S+) = load (.+?), ptr ({POINTER}), align (\d+){HINTS}\n")
STORE = re.compile(rf"  store ptr ({POINTER}), ptr ({POINTER}), align (\d+){HINTS}\n")
STORED = re.compile(rf"  store (?:i\d+|double|float|<\d+ x i\d+>|\{{ [^}}]* \}}) .+, ptr {POINTER}, align \d+{HINTS}\n")
ALLOCA = re.compile(r"  (\S+) = alloca (ptr|i\d+|double|float|\[\d+ x i8\]|<\d+ x i\d+>), align (\d+)\n")
STEP = re.compile(r"  \S+ = getelementptr (?:inbounds |nuw |nusw )*i8, ptr ")
ADDRESS = re.compile(rf"  (\S+) = ptrtoaddr ptr ({POINTER}) to i64\n")
CONSTANT = re.compile(r'(@[\w.]+ = private (?:unnamed_addr )?constant )(<\{.*?\}>) (<\{.*\}>)(, align \d+)\n')
PART = re.compile(rf'c"[^"]*"|\bptr {POINTER}')
OTHER_MEMORY = re.compile(r"\b(?:atomicrmw|cmpxchg|fence|va_arg|volatile|atomic|addrspacecast)\b")
BY_MEMORY = re.compile(r"\b(?:byval|sret|inalloca|preallocated|elementtype)\(")
OF_A_PROCESSOR = re.compile(r"@llvm\.(?:x86|aarch64|arm)\.")


class Unknown(Exception):
    """What this script does not know."""


class Retargeted:
    """The lines of a module, each for the other processor."""

    def __init__(self):
        self.names = 0

    def fresh(self):
        """A name that nothing has: rattle's have no such beginning."""
        self.names += 1
        return f"%wasm.{self.names}"

    def field(self, kind, place, align):
        """The lines that load one field, and its name."""
        value = self.fresh()
        if kind != "ptr":
            return [f"  {value} = load {kind}, ptr {place}, align {align}"], value
        word = self.fresh()
        return [f"  {word} = load i64, ptr {place}, align {align}", f"  {value} = inttoptr i64 {word} to ptr"], value

    def load(self, line):
        found = LOAD.fullmatch(line)
        if not found:
            raise Unknown("a load of another form")
        to, kind, place, align = found.groups()
        if kind == "ptr":
            word = self.fresh()
            return f"  {word} = load i64, ptr {place}, align {align}\n  {to} = inttoptr i64 {word} to ptr\n"
        if "ptr" not in kind:
            return line
        fields = re.fullmatch(r"\{ (.*) \}", kind)
        fields = fields[1].split(", ") if fields else []
        if not fields or any(field not in SIZES for field in fields):
            raise Unknown(f"a load of {kind}")
        lines, at, whole = [], 0, "poison"
        for number, field in enumerate(fields):
            at = -(-at // SIZES[field]) * SIZES[field]
            where = self.fresh()
            loaded, value = self.field(field, where, min(SIZES[field], int(align)))
            next_whole = to if number + 1 == len(fields) else self.fresh()
            lines += [f"  {where} = getelementptr i8, ptr {place}, i64 {at}", *loaded]
            lines.append(f"  {next_whole} = insertvalue {kind} {whole}, {field} {value}, {number}")
            whole, at = next_whole, at + SIZES[field]
        return "\n".join(lines) + "\n"

    def store(self, line):
        found = STORE.fullmatch(line)
        if not found:
            if not STORED.fullmatch(line) or re.match(r"  store \{[^}]*\bptr\b", line):
                raise Unknown("a store of another form")
            return line
        value, place, align = found.groups()
        word = self.fresh()
        return f"  {word} = ptrtoint ptr {value} to i64\n  store i64 {word}, ptr {place}, align {align}\n"

    def alloca(self, line):
        found = ALLOCA.fullmatch(line)
        if not found:
            raise Unknown("an alloca of another form")
        return f"  {found[1]} = alloca i64, align {found[3]}\n" if found[2] == "ptr" else line

    def instruction(self, line):
        if OTHER_MEMORY.search(line) and not line.lstrip().startswith(("call", "%")) or BY_MEMORY.search(line):
            raise Unknown("an access of memory of another form")
        word = re.match(r"  (?:\S+ = )?(\w+)", line)
        match word[1] if word else "":
            case "load":
                return self.load(line)
            case "store":
                return self.store(line)
            case "alloca":
                return self.alloca(line)
            case "ptrtoaddr":
                found = ADDRESS.fullmatch(line)
                if not found:
                    raise Unknown("an address of another form")
                return f"  {found[1]} = ptrtoint ptr {found[2]} to i64\n"
            case "getelementptr":
                if not STEP.match(line):
                    raise Unknown("a step that is not by bytes")
            case "atomicrmw" | "cmpxchg" | "fence" | "va_arg" | "addrspacecast":
                raise Unknown("an access of memory of another form")
        return line

    def constant(self, line):
        found = CONSTANT.fullmatch(line)
        if not found:
            if " constant " not in line or re.search(r"\bptr\b", re.sub(r'c"[^"]*"', "", line)):
                raise Unknown("a global of another form")
            return line
        head, kind, value, tail = found.groups()
        pointers = len(re.findall(r"\bptr\b", kind))
        value, written = re.subn(PART, lambda part: part[0] if part[0][0] == "c" else f"{part[0]}, i32 0", value)
        if pointers != len(re.findall(r", i32 0(?=,| \}>)", value)) or re.search(r"<\{.*<\{", kind):
            raise Unknown("a constant of another form")
        return head + re.sub(r"\bptr\b", "ptr, i32", kind) + " " + value + tail + "\n"

    def line(self, line):
        if line.startswith("  "):
            return self.instruction(line)
        if line.startswith("@"):
            return self.constant(line)
        if line.startswith("target datalayout"):
            return f'target datalayout = "{LAYOUT}"\n'
        if line.startswith("target triple"):
            return f'target triple = "{TRIPLE}"\n'
        if line.startswith("attributes "):
            return re.sub(r"\{ *\}", '{ "plain" }', OF_X86.sub("", line))  # (a group may not be empty)
        if line.startswith("define ") and "@main(" in line:
            return line.replace("@main(", "@rv_main(")
        if OF_A_PROCESSOR.search(line) or BY_MEMORY.search(line):
            raise Unknown("what only another processor has")
        return line


def retargeted(path):
    """The lines of a module for WebAssembly, or why there are none."""
    module, written = Retargeted(), []
    with open(path, encoding="utf-8") as lines:
        for number, line in enumerate(lines, 1):
            try:
                written.append(module.line(line))
            except Unknown as unknown:
                raise Unknown(f"{path}:{number}: {unknown}: {line.strip()[:120]}") from None
    text = "".join(written)
    if text.count("define i32 @rv_main()") != 1:
        raise Unknown(f"{path} has no entry 'define i32 @main()'")
    return text


def main():
    if len(sys.argv) != 3:
        print("usage: retarget.py IN.ll OUT.ll", file=sys.stderr)
        return 2
    try:
        text = retargeted(sys.argv[1])
        with open(sys.argv[2], "w", encoding="utf-8") as out:
            out.write(text)
    except (OSError, Unknown) as fault:
        print(f"retarget: {fault}", file=sys.stderr)
        return 1
    except UnicodeDecodeError:
        print(f"retarget: {sys.argv[1]}: no UTF-8 text", file=sys.stderr)
        return 1
    return 0


if __name__ == "__main__":
    sys.exit(main())
