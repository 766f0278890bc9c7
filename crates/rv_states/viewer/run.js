// The run: what the lines of `./rv_sim states` say, and what follows from them.
// A place is a state of the window: place 0 is the hardware before its first cycle, place n the hardware after its nth cycle.

// Values that change at some places only: for each key its values, each with the place from which on it holds.
class Changes {
  constructor() { this.all = new Map(); }

  put(key, place, value) {
    let changes = this.all.get(key);
    if (!changes) this.all.set(key, changes = []);
    changes.push({ place, value });
  }

  // The last change of a key up to a place, or undefined.
  at(key, place) {
    const changes = this.all.get(key) || [];
    let low = 0, high = changes.length;
    while (low < high) {
      const middle = (low + high) >> 1;
      if (changes[middle].place <= place) low = middle + 1; else high = middle;
    }
    return changes[low - 1];
  }

  last(key) { const changes = this.all.get(key); return changes && changes[changes.length - 1].value; }

  keys() { return [...this.all.keys()].sort((a, b) => a - b); }
}

class Run {
  constructor(text) {
    this.texts = text.trim().split("\n");
    const header = JSON.parse(this.texts[0]);
    this.machine = header.machine;
    this.first = header.first;
    this.listing = [];           // the words that come from source lines, by address
    this.statements = new Map(); // their texts, by address
    this.words = new Changes();  // memory as programs see it, by address
    this.stale = new Changes();  // places at which a store made a word stale
    this.cleaned = [];           // places at which FENCE.I retired
    this.rewritten = [];         // places at which a store changed a word of the program
    this.sets = new Changes();   // the lines of each cache set
    this.predicted = new Changes(); // what the predictor's tables hold at each place that is not as at first
    this.table = [];             // each instruction by its number
    this.accesses = [];          // the accesses of the cache, in order
    this.places = [];            // what happened in the cycle before each place, and where its line stands
    this.stop = null;
    this.replays = false;        // whether the sets follow from accesses, since the lines do not tell them
    this.replayFits = true;      // and whether what these cost fits them
    this.kept = new Map();       // states that were read lately
    this.numbers = new Map();    // the number of each retired instruction, by its sequence number
    let before = null;
    this.texts.forEach((line, index) => {
      if (index === 0 || line === "") return;
      const value = readLine(line);
      if (value.state) { this.readPlace(value, before, index); before = value; }
      else this.readOther(value);
    });
    this.last = this.first + this.places.length - 2;
    this.firstNumber = Math.max(0, this.table.findIndex((each) => each !== undefined));
    this.countSteps();
    this.memoryRows = [...new Set(this.words.keys().map((address) => address - address % 16))];
    this.lineOf = new Map(this.listing.map((each, k) => [each.address, k]));
    this.usedSets = this.sets.keys();
  }

  readOther(value) {
    if (value.line !== undefined) {
      // A line's text stands at the first of its words alone.
      value.text ??= this.listing.at(-1).text;
      this.listing.push(value);
      this.statements.set(value.address, unlabelled(value.text.trim()));
    } else if (value.memory !== undefined) {
      this.words.put(value.memory, 0, value.word);
      if (value.stale) this.stale.put(value.memory, 0, true);
    } else if (value.set !== undefined) this.sets.put(value.set, 0, value.lines);
    else if (value.place !== undefined) this.predicted.put(value.place, 0, value);
    else if (value.stop) this.stop = value;
  }

  // A cycle's line, or that of the start.
  readPlace(value, before, index) {
    const place = this.places.length, { cycle, state } = value;
    this.readInstructions(value, place);
    value.ended.forEach((ended) => this.readEnd(ended, cycle, before));
    const here = {
      index, cycle, ended: value.ended, interrupts: (value.steps || []).filter((step) => step.step === "interrupt"),
      stall: value.stall, phases: this.phasesIn(value), stored: before ? storedIn(state, before.state) : [], fetchedBefore: this.table.length,
      room: roomIn(state), oldest: state.reorder_buffer.length ? value.in_flight[0] : undefined,
      changedSets: (value.sets || []).map((each) => each.set), head: state.reorder_buffer.length ? state.reorder_buffer[0].sequence : undefined,
      learned: value.learned || [], asked: this.askedIn(value),
    };
    if (value.stall && value.stall !== "fetch") here.stalled = value.in_flight[state.reorder_buffer.length];
    this.places.push(here);
    for (const each of here.learned) this.predicted.put(each.place, place, each);
    here.wrong = wronglyPredicted(here, value, before);
    if (here.wrong !== undefined) this.table[here.wrong].wrong = cycle;
    for (const store of here.stored) this.readStore(store, place);
    if (here.ended.some((each) => each.end === "retired" && isFenceI(each.word))) this.cleaned.push(place);
    here.access = accessIn(this, here, value, before);
    if (here.access) this.accesses.push(here.access);
    if (value.sets) for (const each of value.sets) this.sets.put(each.set, place, each.lines);
    else replay(this, here, value, before, place);
  }

  // The words that a line's cycle fetched and the predictor was asked of, with what it answered: they are the youngest in flight.
  askedIn(value) {
    const words = value.state.fetch_buffer.map((each, k) => ({ ...each, number: value.in_flight[value.state.reorder_buffer.length + k] }));
    return (value.asked || []).map((each) => {
      const { word, number } = words.filter((other) => other.pc === each.pc && other.fetched === value.cycle).pop();
      return { ...each, word, number };
    });
  }

  // Which instructions did a phase in a line's cycle, in order of fetch.
  phasesIn(value) {
    const numbers = value.instructions.map((each) => each.number);
    const did = (stamp) => numbers.filter((number) => value.cycle !== undefined && this.table[number][stamp] === value.cycle);
    return { fetch: did("fetched"), dispatch: did("dispatched"), issue: did("issued"), broadcast: did("broadcast") };
  }

  // How many instructions have retired up to each place, and how many traps and interrupts came in the window. Sequence numbers count
  // retired instructions, so the head's tells how many retired before the window.
  countSteps() {
    let retired = 0, traps = 0, interrupts = 0;
    for (const here of this.places) {
      retired += here.ended.filter((each) => each.end === "retired").length;
      traps += here.ended.filter((each) => each.end === "trapped").length;
      interrupts += here.interrupts.length;
      Object.assign(here, { retired, traps, interrupted: interrupts });
    }
    const known = this.places.find((here) => here.head !== undefined);
    const before = known ? known.head - known.retired : 0;
    for (const here of this.places) here.retired += before;
  }

  readInstructions(value, place) {
    const buffer = value.state.reorder_buffer, all = buffer.concat(value.state.fetch_buffer);
    value.in_flight.forEach((number, k) => {
      const entry = all[k];
      const { pc, word, fetched, predicted } = entry;
      const known = this.table[number] || (this.table[number] = { number, pc, word, fetched, predicted, producers: [], consumers: [] });
      if (k >= buffer.length) return;
      if (known.dispatched === undefined) {
        known.dispatched = entry.dispatched;
        known.kind = entry.kind;
        known.target = entry.target;
        for (const operand of entry.operands) this.connect(known, operand.register, value.in_flight, buffer, k);
      }
      for (const member of ["issued", "cost", "broadcast", "value", "fault"]) if (entry[member] !== undefined) known[member] = entry[member];
    });
  }

  // The producer of an operand is the youngest older instruction in flight that writes the register.
  connect(consumer, register, numbers, buffer, place) {
    for (let k = place - 1; k >= 0 && register !== 0; k -= 1) {
      if (buffer[k].target !== register) continue;
      const producer = this.table[numbers[k]];
      if (consumer.producers.some((each) => each.number === producer.number)) return;
      consumer.producers.push({ register, number: producer.number });
      producer.consumers.push(consumer.number);
      return;
    }
  }

  readEnd(ended, cycle, before) {
    const known = this.table[ended.number] || (this.table[ended.number] = { producers: [], consumers: [] });
    Object.assign(known, ended, { left: cycle });
    const k = before && ended.end === "retired" ? before.in_flight.indexOf(ended.number) : -1;
    if (k >= 0) this.numbers.set(before.state.reorder_buffer[k].sequence, ended.number);
  }

  readStore(store, place) {
    store.bytes.forEach((byte, k) => {
      const address = store.address + k, word = address - address % 4, shift = 8 * (address % 4);
      const old = this.words.last(word) || 0;
      this.words.put(word, place, ((old & ~(255 << shift)) | (byte << shift)) >>> 0);
      this.stale.put(word, place, true);
      if (this.statements.has(word)) this.rewritten.push(place);
    });
  }

  // The line of a place, whole.
  at(place) {
    let value = this.kept.get(place);
    if (!value) {
      if (this.kept.size > 200) this.kept.clear();
      this.kept.set(place, value = readLine(this.texts[this.places[place].index]));
    }
    return value;
  }

  cycleOf(place) { return this.first - 1 + place; }

  statement(instruction) {
    const text = this.statements.get(instruction.pc);
    if (text !== undefined) return text;
    return instruction.word === undefined ? "-" : hex(instruction.word);
  }

  // Whether an instruction was fetched in vain: it was squashed, or it is no word of the program and never retired.
  isGone(instruction) {
    return instruction.end === "squashed" || (instruction.end === undefined && !this.statements.has(instruction.pc));
  }

  wordAt(address, place) { const change = this.words.at(address, place); return change ? change.value : 0; }

  isStale(address, place) {
    const stored = this.stale.at(address, place);
    return Boolean(stored) && !this.cleaned.some((clean) => clean >= stored.place && clean <= place);
  }

  isStored(address, place) {
    return this.places[place].stored.some((store) => store.address < address + 4 && address < store.address + store.bytes.length);
  }

  // The number of the instruction with a sequence number in the state of a place.
  numberOf(sequence, line) {
    const head = line.state.reorder_buffer[0];
    const k = head ? sequence - head.sequence : -1;
    return k >= 0 && k < line.state.reorder_buffer.length ? line.in_flight[k] : this.numbers.get(sequence);
  }
}

// A statement without the labels in front of it: where it stands, its address or its line says already.
function unlabelled(text) { return text.replace(/^([A-Za-z_.$][\w.$]*|[0-9]+):\s*(?=\S)/, ""); }

const isFenceI = (word) => word !== undefined && (word & 0x707f) === 0x100f;
const isLoad = (word) => word !== undefined && (word & 0x7f) === 0x03;
const isStore = (word) => word !== undefined && (word & 0x7f) === 0x23;
const isSerial = (word) => word !== undefined && ((word & 0x7f) === 0x73 || isFenceI(word));
const isRetired = (store) => store.state === "committed" || store.state === "draining";

// The kind of unit that a word uses.
function kindOf(word) {
  if (isLoad(word) || isStore(word)) return "mem";
  const isMul = (word & 0x7f) === 0x33 && word >>> 25 === 1;
  return isMul ? ((word >>> 12) & 7) < 4 ? "mul" : "div" : "alu";
}

// A line. That of a place gets in_flight and ended, its instructions apart, and what an instruction of the reorder buffer waits for and
// has come to: operands, broadcast, fault.
function readLine(text) {
  const value = JSON.parse(text);
  if (!value.state) return value;
  value.in_flight = value.instructions.filter((each) => each.end === undefined).map((each) => each.number);
  value.ended = value.instructions.filter((each) => each.end !== undefined);
  for (const entry of value.state.reorder_buffer) {
    entry.operands = [entry.first, entry.second].filter((operand) => operand !== undefined);
    if (entry.issued !== undefined) entry.broadcast = entry.finished;
    if (entry.cause !== undefined) entry.fault = { cause: entry.cause, value: entry.mtval };
  }
  for (const each of value.ended) if (each.register !== undefined) each.written = { register: each.register, value: each.value };
  return value;
}

// The stores that retired between two states: programs see their bytes from now on.
function storedIn(state, before) {
  const old = before.store_queue.filter(isRetired).map((store) => store.sequence);
  return state.store_queue.filter((store) => isRetired(store) && !old.includes(store.sequence));
}

// The instruction whose wrong prediction was mended in a cycle: a retired jump or branch that went on elsewhere than predicted, or, with
// early recovery, one whose prediction changed at its broadcast.
function wronglyPredicted(here, value, before) {
  if (!before) return undefined;
  const entryIn = (line, number) => line.state.reorder_buffer[line.in_flight.indexOf(number)];
  const early = here.phases.broadcast.find((number) => {
    const old = entryIn(before, number), now = entryIn(value, number);
    return old && now && old.predicted !== now.predicted;
  });
  if (early !== undefined) return early;
  const retired = here.ended.filter((ended) => ended.end === "retired").pop();
  const entry = retired && entryIn(before, retired.number);
  return entry && entry.next_pc !== undefined && entry.next_pc !== entry.predicted ? retired.number : undefined;
}

// The letter of an instruction in a cycle, as in pictures: nothing before its fetch and after its end.
function letterOf(instruction, cycle) {
  const { fetched, dispatched, issued, cost, broadcast, left, end } = instruction;
  if (cycle < fetched || cycle > left) return "";
  if (cycle === left) return { retired: "C", trapped: "T", squashed: "x" }[end];
  if (cycle === broadcast) return "B";
  if (cycle === issued) return "I";
  if (cycle === dispatched) return "D";
  if (cycle === fetched) return "F";
  if (issued < cycle && !(broadcast < cycle)) return issued + cost <= cycle ? "~" : "=";
  return ".";
}
