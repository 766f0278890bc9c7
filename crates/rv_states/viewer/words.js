// Words, names, and the sentences on a cycle and on an instruction.

const abiNames = ("zero ra sp gp tp t0 t1 t2 s0 s1 a0 a1 a2 a3 a4 a5 a6 a7 s2 s3 s4 s5 s6 s7 s8 s9 s10 s11 t3 t4 t5 t6").split(" ");
const kinds = ["alu", "mul", "div", "mem"];
const stallWords = {
  fetch: "the fetch buffer is empty", serial: "a serialising instruction is in flight", rob: "the reorder buffer is full",
  station: "its stations are full", store: "the store queue is full",
};
const letterWords = {
  F: "fetch", D: "dispatch", I: "issue", "=": "execution", "~": "wait for the bus", B: "broadcast", ".": "wait", C: "retirement",
  T: "trap", x: "squash",
};
const causeWords = {
  0: "instruction address misaligned", 1: "instruction access fault", 2: "illegal instruction", 3: "breakpoint", 4: "load address misaligned",
  5: "load access fault", 6: "store address misaligned", 7: "store access fault", 11: "environment call",
  0x80000003: "software interrupt", 0x80000007: "timer interrupt", 0x8000000b: "external interrupt",
};

function hex(word) { return word.toString(16).padStart(8, "0"); }
function registerName(register) { return settings.abi ? abiNames[register] : "x" + register; }
function causeName(cause) { return causeWords[cause] || "cause " + hex(cause); }
function listed(words) { return words.length < 2 ? words.join("") : words.slice(0, -1).join(", ") + " and " + words[words.length - 1]; }
// Numbers of instructions: three or more that follow each other by the first and the last of them.
function numbered(numbers) {
  const runs = [];
  for (const number of numbers) {
    const last = runs[runs.length - 1];
    if (last && last[last.length - 1] === number - 1) last.push(number); else runs.push([number]);
  }
  return listed(runs.flatMap((run) => run.length < 3 ? run.map((number) => "#" + number) : "#" + run[0] + " to #" + run[run.length - 1]));
}
function counted(number, word) { return number + " " + word + (number === 1 ? "" : "s"); }
// A part of all in percent, to the nearest tenth, half of one upwards, as the program has it.
function percent(part, all) { return (Math.floor((2000 * part + all) / (2 * all)) / 10).toFixed(1); }

// An instruction by its number and statement.
function called(run, number) {
  const instruction = run.table[number];
  return instruction ? "#" + number + " " + run.statement(instruction).replace(/\s+/g, " ").slice(0, 32) : "#" + number;
}

function writtenBy(written) { return written ? " (" + registerName(written.register) + "=" + hex(written.value) + ")" : ""; }

// Why a cycle dispatched nothing, and which instruction waited.
function stallSentence(run, here) {
  if (here.stalled === undefined) return stallWords[here.stall];
  const kind = kindOf(run.table[here.stalled].word), full = counted(run.machine[kind].stations, "station") + " of " + kind;
  return (here.stall === "station" ? "the " + full + (run.machine[kind].stations === 1 ? " is taken" : " are full") : stallWords[here.stall]) +
    " (" + called(run, here.stalled) + " waits)";
}

// What happened in the cycle before a place.
function cycleSentence(run, place) {
  const here = run.places[place];
  if (place === 0) return run.first === 0 ? "The hardware before the first cycle." : "The hardware before cycle " + run.first + ".";
  const parts = [];
  for (const interrupt of here.interrupts) {
    parts.push("the " + causeName(interrupt.cause) + " is taken before " + hex(interrupt.pc) + ": everything in flight is squashed");
  }
  const ends = (end) => here.ended.filter((each) => each.end === end);
  const retired = ends("retired"), squashed = ends("squashed");
  if (retired.length) {
    parts.push(listed(retired.map((each) => "#" + each.number + writtenBy(each.written))) + (retired.length > 1 ? " retire" : " retires"));
  }
  for (const each of ends("trapped")) parts.push(called(run, each.number) + " traps: " + causeName(each.cause));
  if (here.wrong !== undefined) parts.push("the prediction after " + called(run, here.wrong) + " was wrong");
  if (squashed.length) parts.push(counted(squashed.length, "instruction") + (squashed.length > 1 ? " are" : " is") + " squashed");
  if (here.access) parts.push("the " + here.access.what + " of #" + here.access.number + " accesses the cache at " + hex(here.access.address));
  const phases = here.phases;
  if (phases.issue.length) parts.push(numbered(phases.issue) + (phases.issue.length > 1 ? " issue" : " issues"));
  if (phases.broadcast.length) parts.push("broadcast of " + numbered(phases.broadcast));
  if (phases.dispatch.length) parts.push("dispatch of " + numbered(phases.dispatch));
  else if (here.stall) parts.push("nothing is dispatched, since " + stallSentence(run, here));
  if (phases.fetch.length) parts.push("fetch of " + numbered(phases.fetch));
  const text = parts.length ? parts.join("; ") + "." : "nothing happens.";
  if (!run.stop || place < run.places.length - 1) return "Cycle " + here.cycle + ": " + text;
  return "Cycle " + here.cycle + ": " + text + (run.stop.stop === "limit" ? " The page ends here." : " The run ends: " + run.stop.stop + ".");
}

// What an instruction is doing after the cycle before a place, and what it waits for.
function instructionSentence(run, number, place) {
  const instruction = run.table[number], cycle = run.cycleOf(place);
  const name = called(run, number) + " ";
  if (instruction.fetched > cycle) return name + "will be fetched in cycle " + instruction.fetched + ".";
  if (instruction.left <= cycle) return name + endSentence(instruction);
  const line = run.at(place), k = line.in_flight.indexOf(number), buffer = line.state.reorder_buffer;
  if (k < 0) return name + "left the hardware.";
  if (k >= buffer.length) return name + fetchedSentence(run, line, place, k - buffer.length);
  const entry = buffer[k];
  if (entry.issued === undefined && entry.kind) return name + stationSentence(run, line, place, entry, k);
  if (entry.issued !== undefined && entry.broadcast === undefined) return name + executionSentence(run, entry, cycle);
  return name + headSentence(run, line, entry, k);
}

function endSentence(instruction) {
  const cycle = " in cycle " + instruction.left;
  if (instruction.end === "retired") return "retired" + cycle + writtenBy(instruction.written) + ".";
  if (instruction.end === "trapped") return "trapped" + cycle + ": " + causeName(instruction.cause) + ".";
  return "was squashed" + cycle + ": it never takes effect.";
}

function fetchedSentence(run, line, place, older) {
  const here = run.places[place];
  if (older > 0) return "waits in the fetch buffer for the dispatch of " + counted(older, "older word") + ".";
  return here.stall && here.stall !== "fetch" ? "waits for its dispatch, since " + stallSentence(run, here) + "."
    : "can be dispatched in cycle " + (run.cycleOf(place) + 1) + ".";
}

function stationSentence(run, line, place, entry, k) {
  const buffer = line.state.reorder_buffer, cycle = run.cycleOf(place);
  const missing = entry.operands.filter((operand) => operand.producer !== undefined);
  if (missing.length) {
    return "waits in a station for " + listed(missing.map((operand) => {
      const producer = run.numberOf(operand.producer, line);
      return registerName(operand.register) + " of " + called(run, producer) + ", which " + doing(run, producer, line, cycle);
    })) + ".";
  }
  const store = isLoad(entry.word) && buffer.findIndex((each, j) => j < k && isStore(each.word) && each.broadcast === undefined);
  if (store !== false && store >= 0) {
    return "has its operands, and waits for the older store " + called(run, line.in_flight[store]) + ", whose address is not known.";
  }
  if (isLoad(entry.word) && line.state.port_free > cycle + 1) {
    return "has its operands, and may wait for the port of the cache, which is busy until cycle " + line.state.port_free + ".";
  }
  const busy = line.state.units[entry.kind].filter((unit) => unit.since + unit.cycles > cycle + 1);
  if (busy.length >= run.machine[entry.kind].units) {
    return "has its operands, and waits for a unit: one is free in cycle " + Math.min(...busy.map((unit) => unit.since + unit.cycles)) + ".";
  }
  const isReady = (each) => each.kind === entry.kind && each.issued === undefined && each.operands.every((operand) => operand.value !== undefined);
  const older = buffer.slice(0, k).filter(isReady);
  return "has its operands, and can issue in cycle " + (cycle + 1) +
    (older.length ? " where a unit is left after " + counted(older.length, "older one") + " of its kind." : ".");
}

// What a producer is doing, in a word.
function doing(run, number, line, cycle) {
  const entry = line.state.reorder_buffer[line.in_flight.indexOf(number)];
  if (!entry || entry.issued === undefined) return "waits itself";
  return entry.issued + entry.cost <= cycle ? "waits for the bus" : "executes until cycle " + (entry.issued + entry.cost);
}

function executionSentence(run, entry, cycle) {
  const end = entry.issued + entry.cost;
  if (end <= cycle) return "waits for the common data bus since cycle " + end + ": older results went first.";
  return "executes since cycle " + entry.issued + "; its result can be broadcast in cycle " + end + ".";
}

function headSentence(run, line, entry, k) {
  const head = "the head of the reorder buffer", next = line.cycle + 1;
  const older = k + " older " + (k === 1 ? "instruction is" : "instructions are") + " in front of it, first " + called(run, line.in_flight[0]);
  if (entry.finished === undefined) {
    if (k > 0) return "is executed at its commit, when it is " + head + ": " + older + ".";
    const writes = isFenceI(entry.word) && (line.state.port_free > next || line.state.store_queue.length > 0);
    return "is " + head + (writes ? ", and waits until the retired stores are in the cache and it is written back." : ", and can be executed in cycle " + next + ".");
  }
  const end = entry.fault ? "trap (" + causeName(entry.fault.cause) + ")" : "retire";
  return k > 0 ? "is done, and can " + end + " when it is " + head + ": " + older + "." : "is done, and can " + end + " in cycle " + next + ".";
}
