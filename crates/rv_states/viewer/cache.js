// The data cache: which line a cycle touched, which lines each set holds, and what each access cost.

// The access of the cache that began in a cycle: a store's drain, or a load that did not get all its bytes from stores.
function accessIn(run, here, value, before) {
  const port = value.state.port_free;
  if (!before || port <= value.cycle || port === before.state.port_free) return undefined;
  const size = run.machine.cache.line;
  const made = (number, address, what) => ({ number, address, what, line: (address - address % size) / size, cost: port - value.cycle,
    outcome: outcomeOf(run, port - value.cycle), place: run.places.length - 1, cycle: value.cycle });
  const oldest = value.state.store_queue[0], was = oldest && before.state.store_queue.find((store) => store.sequence === oldest.sequence);
  const drains = oldest && oldest.state === "draining" && !(was && was.state === "draining");
  if (drains) return made(run.numberOf(oldest.sequence, value), oldest.address, "drain");
  for (const number of here.phases.issue) {
    const load = run.table[number];
    if (!isLoad(load.word) || load.issued + load.cost !== port) continue;
    const address = addressOf(load, before);
    if (address !== undefined && !isForwarded(load, address, value)) return made(number, address, "load");
  }
  return undefined;
}

// The address of a load whose operands are known in a line: its base register and the offset in its word.
function addressOf(load, line) {
  const entry = line.state.reorder_buffer[line.in_flight.indexOf(load.number)], offset = load.word >> 20;
  const base = entry && entry.operands.find((operand) => operand.value !== undefined);
  return base && (base.value + offset) >>> 0;
}

// All bytes of a load come from older stores.
function isForwarded(load, address, line) {
  const k = line.in_flight.indexOf(load.number), width = 1 << ((load.word >>> 12) & 3);
  const sequence = line.state.reorder_buffer[k].sequence;
  const older = line.state.store_queue.filter((store) => store.sequence < sequence && store.bytes);
  for (let at = address; at < address + width; at += 1) {
    if (!older.some((store) => store.address <= at && at < store.address + store.bytes.length)) return false;
  }
  return true;
}

// Where the lines do not say how the sets change, an access does: its line comes to the front of its set, a set that is full drops its last
// line, and a write-back leaves all lines clean. What the access cost says whether that is right; where it does not fit, nothing is shown.
function replay(run, here, value, before, place) {
  run.replays = run.replays || place > 0;
  const { sets, ways, hit, miss, write_back } = run.machine.cache;
  if (here.access) {
    const { line, what, cost } = here.access, set = line % sets, old = run.sets.last(set) || [];
    const held = old.find((each) => each.line === line), dropped = !held && old.length >= ways ? old[old.length - 1] : undefined;
    const rest = old.filter((each) => each !== held && each !== dropped);
    if (cost !== hit + (held ? 0 : miss) + (dropped && dropped.dirty ? write_back : 0)) run.replayFits = false;
    const by = held ? held.by : { number: here.access.number, cycle: value.cycle };
    run.sets.put(set, place, [{ line, by, dirty: what === "drain" || Boolean(held && held.dirty) }, ...rest]);
    here.changedSets = [set];
  } else if (before && isFenceI((before.state.reorder_buffer[0] || {}).word) && value.state.port_free !== before.state.port_free) {
    for (const set of run.sets.keys()) run.sets.put(set, place, run.sets.last(set).map((each) => ({ ...each, dirty: false })));
  }
}

// An access in a word: what it cost says whether its line was there.
function outcomeOf(run, cost) {
  const { hit, miss, write_back } = run.machine.cache;
  if (cost === hit && (miss > 0 || write_back > 0)) return "hit";
  if (cost === hit + miss) return miss > 0 ? "miss" : "hit or miss";
  return cost === hit + miss + write_back ? "miss, write-back" : "cost " + cost;
}

function isMiss(access) { return access !== undefined && access.outcome.startsWith("miss"); }

function showCache(view) {
  const { run, place } = view, { sets, ways, line } = run.machine.cache, touched = run.places[place].access, changed = run.places[place].changedSets;
  const shown = sets <= 4 ? [...Array(sets).keys()] : run.usedSets, rows = [];
  for (const set of shown) {
    const lines = run.replayFits ? (run.sets.at(set, place) || { value: [] }).value : [];
    if (sets > 4 && lines.length === 0) continue;
    const cells = [];
    for (let way = 0; way < Math.min(ways, Math.max(lines.length, 2)); way += 1) {
      const held = lines[way], is = held && touched && touched.line === held.line, by = held && held.by;
      const title = held && (is ? "touched in this cycle; " : "") + (held.dirty ? "dirty: differs from RAM" : "clean") +
        (by ? "; brought by #" + by.number + " in cycle " + by.cycle : "");
      const data = { class: words(is && "touched", held && held.dirty && "dirty"), title };
      cells.push(element("td", data, held ? hex(held.line * line) + (held.dirty ? "*" : "") : "-"));
    }
    rows.push(element("tr", { class: changed.includes(set) ? "changed" : "" }, heading(set), ...cells));
  }
  const size = (run.replays ? "replayed; " : "") + [sets, ways, line].join("\u00d7") + " bytes; * dirty";
  note("cache-note", run.replayFits ? size : "not known: the costs do not fit");
  fill("cache", rows, Math.min(sets, 4), 3);
}

// The accesses up to the cursor, the last one first.
function showAccesses(view) {
  const { run, place } = view, until = run.accesses.filter((access) => access.place <= place);
  const hits = until.filter((access) => !isMiss(access)).length;
  note("accesses-note", until.length ? "hits " + hits + " of " + until.length + ", " + percent(hits, until.length) + "%" : "none yet");
  const cycle = run.cycleOf(place), ends = { retired: "retires", squashed: "squashed", trapped: "traps" };
  fill("accesses", until.slice(-40).reverse().map((access) => {
    const { left, end } = run.table[access.number] || {}, known = end !== undefined && (left <= cycle || !settings.quiz);
    return row({ "data-number": access.number, key: access.place, class: access.place === place ? "changed" : "" }, access.cycle, tag(access.number), access.what, hex(access.address),
      element("td", { class: isMiss(access) ? "missed" : "" }, access.outcome), access.cost, known ? ends[end] : "");
  }), 4, 7);
}
