// The hardware after a cycle, panel by panel.

// The instructions of the reorder buffer with their numbers, and whether one is on its way to the bus.
function entriesOf(line) { return line.state.reorder_buffer.map((entry, k) => ({ entry, number: line.in_flight[k] })); }
function isRunning(entry) { return entry.issued !== undefined && entry.broadcast === undefined; }
function isJump(entry) { return entry.predicted !== ((entry.pc + 4) >>> 0); }

// A line of the program: its label is left off after its address, where the statement has no room beside it.
function labelled(text) {
  const statement = unlabelled(text), label = text.slice(0, text.length - statement.length).trim();
  return label ? element("div", { class: "placed" }, span("name", label), span("text", statement)) : span("text", statement);
}

function showSource(view) {
  const { run, place, line } = view, cycle = run.cycleOf(place), flying = new Map();
  line.in_flight.forEach((number) => {
    const pc = run.table[number].pc;
    flying.set(pc, (flying.get(pc) || []).concat(number));
  });
  const rowAt = (k) => {
    const { address, line: of, text } = run.listing[k], numbers = flying.get(address) || [];
    const tags = numbers.slice(0, 4).map((number) => {
      const letter = letterOf(run.table[number], cycle);
      return tag(number, letter, "#" + number + ": " + letterWords[letter]);
    });
    if (numbers.length > 4) tags.push("+" + (numbers.length - 4));
    const stale = run.isStale(address, place), stops = view.breakpoints.has(address);
    const title = hex(address) + ": " + hex(run.wordAt(address, place)) + (stale ? ", stale" : "") + (stops ? ", breakpoint" : "");
    return element("div", { class: words("row", numbers.length && "flying", stale && "stale", stops && "stops"), "data-address": address, title: title + "\n" + text.trim() },
      span("line", of), span("mark", address === line.state.pc ? ">" : stops ? "*" : "\u00a0"), element("span", { class: "tags" }, ...tags),
      element("div", { class: "placed" }, span("pc", hex(address)), labelled(text.trim())));
  };
  note("source-note", "> " + hex(line.state.pc) + " is next to retire");
  lists.source = { count: run.listing.length, rowAt };
  drawList("source");
}

function showFetch(view) {
  const { run, line } = view, buffer = line.state.fetch_buffer, from = line.state.reorder_buffer.length, size = run.machine.fetch_buffer;
  note("fetch-note", buffer.length + " of " + size + (line.state.halted ? ", halted" : ", next " + hex(line.state.next_fetch)));
  fill("fetch", buffer.map((word, k) => {
    const number = line.in_flight[from + k];
    return row({ "data-number": number }, tag(number), placed(word.pc, run.statement(word)), isJump(word) ? "\u2192" + hex(word.predicted) : "");
  }), Math.min(size, 8), 3);
}

function showReorderBuffer(view) {
  const { run, line } = view, buffer = line.state.reorder_buffer, size = run.machine.rob;
  note("rob-note", buffer.length + " of " + size + ", tail at the bottom");
  fillLong("rob", buffer.length, (k) => entryRow(view, k), Math.min(size, 16), 8);
}

// What an entry of the reorder buffer is shown to have come to: stage, cycles of dispatch, issue and broadcast, result.
function entryParts({ run, line, place }, k) {
  const entry = line.state.reorder_buffer[k], stamp = (value) => value === undefined ? "-" : value;
  const target = entry.target ? registerName(entry.target) + "=" + (entry.value === undefined ? "?" : hex(entry.value)) : "";
  const result = entry.fault ? causeName(entry.fault.cause) : target + (isJump(entry) ? "\u2192" + hex(entry.predicted) : "") || "-";
  const finish = isRunning(entry) ? "\u2192" + (entry.issued + entry.cost) : stamp(entry.broadcast);
  return [letterOf(run.table[line.in_flight[k]], run.cycleOf(place)), entry.dispatched, stamp(entry.issued), finish, result];
}

// The same as a fact of two runs: that of its sequence number.
function entryFact(view, k) {
  const entry = view.line.state.reorder_buffer[k];
  return ["entry " + entry.sequence, [hex(entry.pc), ...entryParts(view, k)].join(" ")];
}

function entryRow(view, k) {
  const { run, line } = view, buffer = line.state.reorder_buffer, entry = buffer[k], number = line.in_flight[k];
  const [letter, dispatched, issued, finish, result] = entryParts(view, k);
  const ends = (k === 0 ? "head" : "") + (k === buffer.length - 1 ? (k === 0 ? "+tail" : "tail") : "");
  const title = "fetched in cycle " + entry.fetched + ", sequence number " + entry.sequence;
  return row({ "data-number": number, "data-entry": entry.sequence, title }, heading(ends), tag(number), placed(entry.pc, run.statement(entry)),
    element("td", { class: "cell " + cellClass(letter), title: letterWords[letter] }, letter), dispatched, issued, finish,
    element("td", { class: entry.fault ? "fault" : "", title: "predicted to go on at " + hex(entry.predicted) }, result));
}

function showStations(view) {
  const { run, line } = view, rows = [], counts = [];
  for (const kind of kinds) {
    const waiting = entriesOf(line).filter(({ entry }) => entry.kind === kind && entry.issued === undefined);
    const size = run.machine[kind].stations;
    counts.push(kind + " " + waiting.length + "/" + size);
    for (const each of waiting) rows.push({ kind, ...each });
    for (let k = waiting.length; k < Math.min(size, 4); k += 1) rows.push({ kind });
  }
  note("stations-note", counts.join(" "));
  fillLong("stations", rows.length, (k) => stationRow(view, rows[k]), Math.min(12, rows.length), 4);
}

function stationRow(view, { kind, entry, number }) {
  if (!entry) return element("tr", { class: "free" }, element("td", {}, kind), element("td", { colspan: 3 }));
  return row({ "data-number": number }, kind, tag(number), wide(view.run.statement(entry)),
    element("td", {}, ...entry.operands.flatMap((operand) => operandOf(view, operand))));
}

function operandOf(view, operand) {
  const name = registerName(operand.register);
  if (operand.producer === undefined) return [span("operand", name + "=" + hex(operand.value)), " "];
  return [element("span", { class: "operand waits" }, name + "\u2190", tag(view.run.numberOf(operand.producer, view.line))), " "];
}

function showUnits(view) {
  const { run, line, place } = view, cycle = run.cycleOf(place), machine = run.machine;
  const rows = kinds.map((kind) => {
    const held = line.state.units[kind].filter((unit) => unit.since + unit.cycles > cycle).length;
    const under = entriesOf(line).filter(({ entry }) => entry.kind === kind && isRunning(entry) && entry.issued + entry.cost > cycle);
    return row({}, heading(kind), held + "/" + machine[kind].units, wide(...under.flatMap(({ entry, number }) => {
      const end = entry.issued + entry.cost;
      return [tag(number, "#" + number + "\u2192" + end, "executes until cycle " + end), " "];
    })));
  });
  const port = line.state.port_free, access = run.places[place].access;
  const began = access ? [access.what + " ", tag(access.number), " " + hex(access.address)] : [];
  rows.push(row({}, heading("port"), port > cycle + 1 ? "busy" : "free", wide(port > cycle ? "\u2192" + port + " " : "", ...began)));
  fill("units", rows, 5, 3);
}

function showBus(view) {
  const { run, line, place } = view, cycle = run.cycleOf(place), now = run.places[place].phases.broadcast;
  const rows = now.map((number) => {
    const { target, value } = run.table[number];
    const result = target && value !== undefined ? registerName(target) + "=" + hex(value) : run.statement(run.table[number]);
    return row({ "data-number": number }, "B", tag(number), wide(result));
  });
  while (rows.length < Math.min(run.machine.bus_width, 2)) rows.push(row({ class: "free" }, "B", "", ""));
  for (const { entry, number } of entriesOf(line)) {
    const ready = entry.issued + entry.cost;
    if (!isRunning(entry) || ready > cycle + 1) continue;
    rows.push(row({ "data-number": number }, ready <= cycle ? "~" : "", tag(number), wide((ready <= cycle ? "waits since " : "ready in ") + ready)));
  }
  note("bus-note", "of width " + run.machine.bus_width);
  fill("bus", rows, 5, 3);
}

function showStores(view) {
  const { run, line } = view, queue = line.state.store_queue, size = run.machine.store_queue;
  note("stores-note", queue.length + " of " + size);
  fill("stores", queue.map((store) => {
    const number = run.numberOf(store.sequence, line);
    const bytes = store.bytes ? store.bytes.map((byte) => byte.toString(16).padStart(2, "0")).join(" ") : "";
    return row({ "data-number": number }, tag(number), store.state, store.address === undefined ? "" : hex(store.address), bytes);
  }), Math.min(size, 8), 4);
}

function showRegisters(view) {
  const { line, before } = view, producers = new Map(), rows = [];
  line.state.reorder_buffer.forEach((entry, k) => { if (entry.target) producers.set(entry.target, line.in_flight[k]); });
  const cells = line.state.registers.map((value, register) => {
    const changed = before && before.state.registers[register] !== value, producer = producers.get(register);
    return [heading(registerName(register)), element("td", { "data-fact": "x" + register, ...markChange(changed) }, hex(value)),
      element("td", {}, producer === undefined ? "" : tag(producer, undefined, "#" + producer + " in flight writes " + registerName(register)))];
  });
  for (let k = 0; k < 16; k += 1) rows.push(element("tr", {}, ...cells[k], ...cells[k + 16]));
  draw("registers", rows);
}

function showCsrs(view) {
  const { line, before } = view;
  const shown = Object.entries(line.state.csrs).filter(([name, value]) => value !== 0 || (before && before.state.csrs[name] !== 0));
  const rows = shown.map(([name, value]) => {
    const changed = before && before.state.csrs[name] !== value;
    return row({}, heading(name), element("td", { "data-fact": name, ...markChange(changed) }, hex(value)), wide(name === "mcause" && value !== 0 ? causeName(value) : ""));
  });
  note("csrs-note", ["software", "timer", "external"].filter((name) => line.state[name]).map((name) => name + " line high").join(", "));
  fill("csrs", rows, 6, 3);
}

function showMemory(view) {
  const { run, place } = view;
  const rowAt = (k) => {
    const address = run.memoryRows[k], four = [0, 4, 8, 12].map((offset) => {
      const at = address + offset, stale = run.isStale(at, place);
      const title = hex(at) + (stale ? ": stale until fence.i" : "");
      return span(words("word", run.isStored(at, place) && "changed", stale && "stale"), hex(run.wordAt(at, place)), { title });
    });
    return element("div", { class: "row" }, span("pc", hex(address)), ...four);
  };
  lists.memory = { count: run.memoryRows.length, rowAt };
  drawList("memory");
}

function showCounts(view) {
  const { run, line, place } = view, counts = line.counts, here = run.places[place];
  const parts = ["busy", ...Object.keys(stallWords)].map((name) => [name, counts[name]]);
  const cpi = here.retired ? (Math.floor(1000 * counts.cycles / here.retired) / 1000).toFixed(3) : "-";
  note("counts-note", "CPI " + cpi);
  const numbers = { cycles: counts.cycles, retired: here.retired, traps: here.traps, interrupts: here.interrupted };
  draw("counted", Object.entries(numbers).map(([name, value]) => element("span", { "data-fact": name },
    name + (run.first > 0 && name !== "cycles" && name !== "retired" ? " here " : " ") + value)));
  const total = Math.max(1, counts.cycles), share = (value) => percent(value, total);
  // (a part too narrow for its name has it in its tip)
  draw("stack", parts.filter(([, value]) => value > 0).map(([name, value]) =>
    element("span", { class: "part " + name, style: "width:" + share(value) + "%", title: name + ": " + share(value) + "% of the cycles" }, share(value) > 2.6 * name.length ? name : "")));
  fill("counts", parts.map(([name, value]) => row({}, heading(name === "busy" ? name : "stall " + name), element("td", { "data-fact": name }, value),
    share(value) + "%", wide(span("bar " + name, "", { style: "width:" + share(value) + "%" })))), 6, 4);
}

// The places of the followed instruction, its producers and its consumers. Where none is followed, marks that stand are looked for alone.
const marks = ["followed", "producing", "consuming"];
function markFollowed(view, box) {
  const followed = view.run.table[view.followed], kinds = new Map();
  if (followed) {
    for (const number of followed.consumers) kinds.set(number, "consuming");
    for (const { number } of followed.producers) kinds.set(number, "producing");
    kinds.set(view.followed, "followed");
  }
  const looked = followed ? "[data-number]" : marks.map((name) => "[data-number]." + name).join();
  for (const each of (box || document).querySelectorAll(looked)) {
    const kind = kinds.get(Number(each.dataset.number));
    for (const name of marks) each.classList.toggle(name, name === kind);
  }
}

const panels = {
  fetch: showFetch, predictor: showPredictor, rob: showReorderBuffer, textbook: showTextbook, stations: showStations, units: showUnits, bus: showBus,
  stores: showStores, registers: showRegisters, csrs: showCsrs, cache: showCache, accesses: showAccesses, counts: showCounts,
  waits: showWaits, path: showPath,
};
// These are drawn though they are left out, since their texts are compared where two runs stand side by side.
const compared = ["registers", "csrs", "counts"];

// The panels are filled first, since how high they are says how much room the lists and the picture have.
function showAll(view) {
  for (const [name, show] of Object.entries(panels)) if (compared.includes(name) || !byId("h-" + name).closest(".panel").hidden) show(view);
  measure();
  scrollAll(view);
  for (const show of [showSource, showMemory, drawPicture]) show(view);
}
