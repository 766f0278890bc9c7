"""Random jobs, some with mistakes: descriptions, arrivals and programs. The same seed gives the same jobs."""
import random

KEYS = {
    "fetch_width": (1, 8), "dispatch_width": (1, 8), "commit_width": (1, 8), "bus_width": (1, 8), "fetch_buffer": (1, 32), "rob": (1, 64),
    "store_queue": (1, 16), "forward": (1, 8), "alu.stations": (1, 16), "alu.units": (1, 8), "alu.latency": (1, 8), "mul.latency": (1, 8),
    "div.latency": (1, 32), "div.units": (1, 8), "mem.stations": (1, 16), "mem.units": (1, 8), "mem.latency": (1, 8), "cache.hit": (1, 4),
    "cache.ways": (1, 8), "cache.miss": (0, 40), "cache.write_back": (0, 40), "predictor.entries": (1, 64), "report.dump_words": (0, 32),
}
WORDS = {"recovery": ("commit", "early"), "predictor.kind": ("not_taken", "backward_taken", "bimodal")}
POWERS = {"cache.sets": 9, "cache.line": 6}
THREE = "add sub and or xor sll srl sra slt sltu mul mulh mulhu mulhsu div divu rem remu sh1add sh2add sh3add".split()
BY_NUMBER = "addi andi ori xori slti sltiu".split()
BRANCHES = "beq bne blt bge bltu bgeu".split()
LOADS = "lw lh lhu lb lbu".split()
STORES = "sw sh sb".split()
CSRS = "mstatus mie mtvec mscratch mepc mcause mtval mip mcycle minstret 0x7c0".split()
# lines that no job may have, of a program and of a description
WRONG = ["addq x1, x2", "add x1, x2", "addi x1, x0, 5000", "lw x1, 4(x32)", "j nowhere", ".word 0x1ffffffff", "x: x: nop", "\taddi x1 , x0 , '", ".bytes 3",
         "li x40, 1", "beq x1, x2, 3", ".align 40", "addi x1, x0, \u00e9", "la x1", "csrrw x1, mtvecs, x2"]
WRONG_KEYS = ["rob = 0", "robs = 4", "rob = ", "recovery = 'late'", "[cache]\nways = \"two\"", "fetch_width = 9", "cache.sets = 3", "alu = 1", "= 3", "rob = 1\nrob = 2"]


def register(chance):
    return f"x{chance.randrange(5, 16)}"


def statement(chance, labels):
    here = lambda: register(chance)
    kind = chance.randrange(12)
    if kind < 3:
        return f"{chance.choice(THREE)} {here()}, {here()}, {here()}"
    if kind < 5:
        return f"{chance.choice(BY_NUMBER)} {here()}, {here()}, {chance.randrange(-2048, 2048)}"
    if kind < 7:
        name = chance.choice(LOADS)
        return f"{name} {here()}, {chance.randrange(0, 64) & (-4 if name == 'lw' or chance.random() < 0.9 else -1)}(x8)"
    if kind < 8:
        return f"{chance.choice(STORES)} {here()}, {chance.randrange(0, 64, 4)}(x8)"
    if kind < 10:
        return f"{chance.choice(BRANCHES)} {here()}, {here()}, l{chance.randrange(labels)}"
    return chance.choice([
        f"li {here()}, {chance.randrange(-2**31, 2**32)}", f"csrr {here()}, {chance.choice(CSRS)}", f"csrw {chance.choice(CSRS)}, {here()}", "fence", "fence.i",
        f"jal x1, l{chance.randrange(labels)}", "ecall", "wfi", "nop", f".word {chance.randrange(2**32)}", f"jalr x0, {here()}",
    ])


def program(chance):
    labels = chance.randrange(1, 8)
    lines = ["la x8, data", "li x9, 7"]
    for label in range(labels):
        lines.append(f"l{label}:")
        lines += ["  " + statement(chance, labels) for _ in range(chance.randrange(1, 9))]
    lines += ["ebreak", ".data", "data:", *(f".word {chance.randrange(2**32)}" for _ in range(16))]
    if chance.random() < 0.2:
        lines.insert(chance.randrange(len(lines)), chance.choice(WRONG))
    return "\n".join(lines) + "\n"


def description(chance):
    lines = [f"{key} = {chance.randint(*KEYS[key])}" for key in chance.sample(sorted(KEYS), chance.randrange(8))]
    lines += [f'{key} = "{chance.choice(WORDS[key])}"' for key in WORDS if chance.random() < 0.5]
    lines += [f"{key} = {4 << chance.randrange(POWERS[key]) if key == 'cache.line' else 1 << chance.randrange(POWERS[key])}" for key in POWERS if chance.random() < 0.3]
    if chance.random() < 0.1:
        lines.append(chance.choice(WRONG_KEYS))
    return "\n".join(lines) + "\n"


def arrivals(chance):
    entries, cycle = [], 0
    for _ in range(chance.randrange(1, 6)):
        cycle += chance.randrange(60)
        entries.append(f'[[arrival]]\ncycle = {cycle}\nline = "{chance.choice(["software", "timer", "external"])}"\nlevel = {chance.choice([0, 1])}\n')
    return "".join(entries)


def jobs(count, seed=1):
    """So many jobs, as bytes."""
    chance = random.Random(seed)
    for _ in range(count):
        parts = [program(chance)]
        if chance.random() < 0.8:
            parts.insert(0, description(chance))
            if chance.random() < 0.3:
                parts.insert(1, arrivals(chance))
        yield "%%\n".join(parts).encode()
