// Tomasulo's tables as the textbook prints them, of the same cycle: instruction status, reservation stations, register result status. There
// an instruction issues where it is dispatched here, and writes its result where it is broadcast. A producer is an entry of the reorder
// buffer, by its place: entries are used in turn.

function entryName(run, sequence) { return "ROB" + (sequence % run.machine.rob + 1); }

function mnemonic(run, instruction) { return run.statement(instruction).split(/\s/)[0]; }

// The offset of a load or store, which is all of its address that is known before its operands are.
function offsetOf(word) {
  if (isLoad(word)) return word >> 20;
  return isStore(word) ? ((word >> 25) << 5) | ((word >> 7) & 31) : undefined;
}

function showTextbook(view) {
  showStatus(view);
  showStationTable(view);
  showResultStatus(view);
}

function showStatus({ run, line, place }) {
  const cycle = run.cycleOf(place), buffer = line.state.reorder_buffer, entered = line.in_flight.slice(0, buffer.length);
  const last = entered.length ? entered[entered.length - 1] : run.places[place].fetchedBefore - 1;
  const oldest = entered.length ? entered[0] : last;
  const shown = run.table.slice(Math.max(run.firstNumber, oldest - 6), last + 1).filter((each) => each.dispatched <= cycle && !(hidesGone() && run.isGone(each)));
  const upTo = (at) => at !== undefined && at <= cycle ? at : "";
  fill("status", shown.map((each) => {
    const k = entered.indexOf(each.number), done = each.issued + each.cost <= cycle ? each.issued + "\u2013" + (each.issued + each.cost - 1) : upTo(each.issued);
    const left = each.left <= cycle ? (each.end === "retired" ? each.left : each.end) : "";
    return row({ "data-number": each.number }, k < 0 ? "" : entryName(run, buffer[k].sequence), tag(each.number), wide(run.statement(each)), each.dispatched, done, upTo(each.broadcast), left);
  }), 8, 7);
}

function showStationTable({ run, line }) {
  const rows = [];
  for (const kind of kinds) {
    const waiting = entriesOf(line).filter(({ entry }) => entry.kind === kind && entry.issued === undefined), size = run.machine[kind].stations;
    waiting.forEach(({ entry, number }, k) => {
      const value = (operand) => operand && operand.value !== undefined ? hex(operand.value) : "";
      const producer = (operand) => operand && operand.producer !== undefined ? entryName(run, operand.producer) : "";
      const offset = offsetOf(entry.word);
      rows.push(row({ "data-number": number }, heading(kind + (k + 1)), "yes", mnemonic(run, entry), value(entry.first), value(entry.second),
        producer(entry.first), producer(entry.second), entryName(run, entry.sequence), offset === undefined ? "" : offset));
    });
    for (let k = waiting.length; k < Math.min(size, 4); k += 1) rows.push(element("tr", { class: "free" }, heading(kind + (k + 1)), element("td", {}, "no"), element("td", { colspan: 7 })));
  }
  fill("waiting", rows, 0, 9);
}

function showResultStatus({ run, line }) {
  const producers = new Map();
  for (const entry of line.state.reorder_buffer) if (entry.target) producers.set(entry.target, entryName(run, entry.sequence));
  const rows = [];
  for (let from = 0; from < 32; from += 8) {
    const registers = [...Array(8).keys()].map((k) => from + k);
    rows.push(element("tr", {}, registers.flatMap((register) => [heading(registerName(register)), element("td", {}, producers.get(register) || "")])));
  }
  fill("results", rows, 4, 16);
}
