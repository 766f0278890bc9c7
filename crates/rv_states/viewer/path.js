// The critical path, by the rules of `./rv_sim path`. An event of a run (a fetch, dispatch, issue, broadcast or commit of an instruction, the
// start of its drain or of its write-back of lines, an interrupt) waited last for one other event: what stood in its way in the cycle before, or
// the stage before where nothing did. Walking back so from the last step that the page shows, each cycle is on account of exactly one cause
// (Fields, Rubin and Bodik, "Focusing processor policies via critical-path prediction", ISCA 2001).

// The stamp of an instruction that says when an event came.
const stamps = { fetch: "fetched", dispatch: "dispatched", issue: "issued", broadcast: "broadcast", commit: "left" };

// What executes at its commit, after which everything younger is fetched anew: CSR instructions, mret and fence.i.
function isSerialising(word) { return isFenceI(word) || word === 0x30200073 || ((word & 0x7f) === 0x73 && (word & 0x3000) !== 0); }

// How full the hardware is between two cycles, and until when its port is held.
function roomIn({ reorder_buffer: buffer, store_queue: stores, port_free: port }) {
  const waiting = { alu: 0, mul: 0, div: 0, mem: 0 };
  for (const entry of buffer) if (entry.kind && entry.issued === undefined) waiting[entry.kind] += 1;
  return { buffered: buffer.length, waiting, stores: stores.length, port };
}

class CriticalPath {
  constructor(run) {
    this.run = run;
    this.events = new Map(); // each event once, by its name
    this.port = new Map();   // the event from which on the port was held, by the cycle in which it was idle again
    this.drains = new Map(); // the same, of drains alone
    this.units = new Map();  // the oldest issue that held a unit which is not pipelined, by its kind and the cycle in which it was free again
    this.starts = new Map(); // the start of a drain or of a write-back of lines, by the instruction's number
    this.seeStart();
    this.seePort();
    this.seeUnits();
  }

  // An event by its kind, its instruction's number and its cycle. One before the page has neither number nor cycle where they are not known.
  event(kind, number, at) {
    const cycle = at === undefined && this.run.table[number] ? this.run.table[number][stamps[kind]] : at, name = [kind, number, cycle].join(" ");
    if (!this.events.has(name)) this.events.set(name, { name, kind, number, at: cycle });
    return this.events.get(name);
  }

  isShown(event) { return event.at >= this.run.first; }
  isFence(number) { return number !== undefined && isFenceI(this.run.table[number].word); }

  // A cycle of the page, and which instructions retired or trapped in it. Of the cycle before the page the room alone is known.
  here(cycle) { return this.run.places[cycle - this.run.first + 1]; }
  left(cycle) { return this.here(cycle).ended.filter((each) => each.end !== "squashed").map((each) => each.number); }

  // What held port and units when the page begins.
  seeStart() {
    const { state, in_flight } = this.run.at(0), { port_free: until, store_queue: stores, reorder_buffer: [head] } = state;
    const load = in_flight.find((number) => this.isLoadUntil(number, until)), isDrain = stores.some((store) => store.state === "draining");
    const isCleaning = head !== undefined && isFenceI(head.word) && stores.length === 0;
    const others = isCleaning ? this.event("lines", in_flight[0]) : this.event("issue", load);
    const event = isDrain ? this.event("drain") : others;
    if (this.run.first > 0) this.port.set(until, event);
    if (isDrain) this.drains.set(until, event);
    const held = kinds.flatMap((kind) => state.units[kind].map((unit) => ({ kind, ...unit })));
    for (const { kind, since, cycles } of held) this.units.set(kind + (since + cycles), this.event("issue", undefined, since));
  }

  // The port is taken in a cycle after which it is held, until another one than before: by a drain, a load, or the lines that a fence.i writes back.
  // A load that is squashed in the cycle of its issue, which no line shows, has no event.
  seePort() {
    const { places } = this.run;
    for (let place = 1; place < places.length; place += 1) {
      const { cycle, room, access, phases, oldest } = places[place], until = room.port, isDrain = access !== undefined && access.what === "drain";
      if (until <= cycle || until === places[place - 1].room.port) continue;
      const load = isDrain ? undefined : phases.issue.find((number) => this.isLoadUntil(number, until));
      if (!isDrain && load === undefined && !this.isFence(oldest)) continue;
      const event = load !== undefined ? this.event("issue", load) : this.event(isDrain ? "drain" : "lines", isDrain ? access.number : oldest, cycle);
      this.port.set(until, event);
      if (isDrain) this.drains.set(until, event);
      if (event.kind !== "issue") this.starts.set(event.number, event);
    }
  }

  isLoadUntil(number, cycle) { const { word, issued, cost } = this.run.table[number]; return isLoad(word) && issued + cost === cycle; }

  seeUnits() {
    const issued = this.run.table.filter((each) => each && each.issued !== undefined);
    for (const { number, kind, issued: since, cost } of issued.reverse()) this.units.set(kind + (since + cost), this.event("issue", number));
  }

  // The event that one waited for last, and the cause: none of a run's first event, and of events before the page.
  before(event) {
    if (event.wait === undefined) event.wait = this.isShown(event) ? this[event.kind](event, this.run.table[event.number]) || null : null;
    return event.wait;
  }

  after(event, cause) { return { event, cause }; }
  // No rule says for what. That comes in a page's first cycle alone, where the one before it is not shown.
  otherwise(at, event) { return at > this.run.first ? this.after(event, "another cause") : undefined; }

  // The event that sent the fetch elsewhere in a cycle, if one did.
  redirection(cycle) {
    const { interrupts, wrong, ended } = this.here(cycle), last = ended.filter((each) => each.end !== "squashed").pop();
    if (interrupts.length) return this.after(this.event("interrupt", undefined, cycle), "refill: interrupt");
    if (last && last.end === "trapped") return this.after(this.event("commit", last.number), "refill: trap");
    if (last && isSerialising(last.word)) return this.after(this.event("commit", last.number), "refill: serialising instruction");
    if (wrong === undefined) return undefined;
    return this.after(this.event(last && last.number === wrong ? "commit" : "broadcast", wrong), "refill: wrong prediction");
  }

  fetch({ number, at }) {
    const { table, machine } = this.run, last = table[number - 1], room = table[number - machine.fetch_buffer];
    const anew = this.here(at).phases.fetch[0] === number && this.redirection(at);
    if (anew) return anew;
    if (!last) return undefined;
    const lastFetch = this.event("fetch", number - 1), isNext = last.fetched === at - 1;
    if (last.fetched === at) return this.after(lastFetch, "fetch in order");
    if (isNext && this.here(at - 1).phases.fetch.length === machine.fetch_width) return this.after(lastFetch, "fetch width");
    if (isNext && last.predicted !== (last.pc + 4) >>> 0) return this.after(lastFetch, "fetch ends at a predicted jump");
    if (room && room.dispatched === at) return this.after(this.event("dispatch", room.number), "fetch buffer full");
    return this.otherwise(at, lastFetch);
  }

  dispatch({ number, at }, it) {
    const { table, machine } = this.run, last = table[number - 1] || {}, { room, phases } = this.here(at - 1);
    if (it.fetched === at - 1) return this.after(this.event("fetch", number), "front end");
    if (last.dispatched === at) return this.after(this.event("dispatch", number - 1), "dispatch in order");
    const isWide = phases.dispatch.length === machine.dispatch_width;
    if (last.dispatched === at - 1 && isWide) return this.after(this.event("dispatch", number - 1), "dispatch width");
    return this.roomAt(at, it.kind, room) || this.otherwise(at, this.event("fetch", number));
  }

  // The event that made room for a dispatch in a cycle, where the hardware was full in the one before.
  roomAt(at, kind, { buffered, waiting, stores }) {
    const { table, machine } = this.run, [left] = this.left(at), issued = this.here(at).phases.issue.find((number) => table[number].kind === kind);
    if (buffered === machine.rob && left !== undefined) return this.after(this.event("commit", left), "reorder buffer full");
    const isFull = kind !== undefined && waiting[kind] === machine[kind].stations;
    if (isFull && issued !== undefined) return this.after(this.event("issue", issued), kind + " stations full");
    return stores === machine.store_queue && this.drains.has(at) ? this.after(this.drains.get(at), "store queue full") : undefined;
  }

  issue({ number, at }, it) {
    const { table } = this.run, { phases } = this.here(at - 1);
    if (it.dispatched === at - 1) return this.after(this.event("dispatch", number), "dispatch to issue");
    const producer = it.producers.find((each) => table[each.number].broadcast === at - 1);
    if (producer) return this.after(this.event("broadcast", producer.number), "operand");
    const store = phases.broadcast.find((each) => isStore(table[each].word) && each < number);
    if (isLoad(it.word) && store !== undefined) return this.after(this.event("broadcast", store), "address of an older store");
    const unit = this.unitUntil(it.kind, at);
    return unit ? this.after(unit, it.kind + " units busy") : this.portUntil(at) || this.otherwise(at, this.event("dispatch", number));
  }

  // The issue by which the units of a kind were held until a cycle: of pipelined ones the last that began in the cycle before.
  unitUntil(kind, at) {
    const { pipelined, units } = this.run.machine[kind], began = this.here(at - 1).phases.issue.filter((each) => this.run.table[each].kind === kind);
    if (!pipelined) return this.units.get(kind + at);
    return began.length === units ? this.event("issue", began[units - 1]) : undefined;
  }

  // The event from which on the port was held until a cycle.
  portUntil(at) {
    const event = this.port.get(at);
    return event && this.after(event, { drain: "port: a store", issue: "port: a load", lines: "port: lines written back" }[event.kind]);
  }

  broadcast({ number, at }, it) {
    const issue = this.event("issue", number), went = this.here(at - 1).phases.broadcast;
    if (it.issued + it.cost === at) return this.after(issue, this.execution(it, issue, at));
    if (went.length === this.run.machine.bus_width) return this.after(this.event("broadcast", went[went.length - 1]), "common data bus full");
    return this.otherwise(at, issue);
  }

  execution(it, issue, at) {
    if (!isLoad(it.word)) return "execution: " + it.kind;
    if (this.port.get(at) !== issue) return "load: forwarded, or faulted";
    return it.cost === this.run.machine.cache.hit ? "load: hit" : "load: miss";
  }

  commit({ number, at }, it) {
    const done = this.event(it.broadcast === undefined ? "dispatch" : "broadcast", number), left = this.left(at), place = left.indexOf(number);
    if (done.at === at - 1) return this.after(done, "commit");
    if (place > 0) return this.after(this.event("commit", left[place - 1]), "commit in order");
    const held = this.port.get(at), isOwn = held !== undefined && held.kind === "lines" && held.number === number;
    const ofFence = () => isOwn ? this.after(held, "lines written back") : this.afterStores(at);
    return (isFenceI(it.word) ? ofFence() : this.afterLeft(at, this.run.machine.commit_width)) || this.otherwise(at, done);
  }

  // The last that left in the cycle before.
  afterLeft(at, width) {
    const went = this.left(at - 1), cause = went.length === width ? "commit width" : "commit in order";
    return went.length ? this.after(this.event("commit", went[went.length - 1]), cause) : undefined;
  }

  // What a fence.i waits for: the older stores, which leave the queue after the commit of a cycle, the port, and before both to be the oldest.
  afterStores(at) {
    const drain = this.drains.get(at - 1);
    return drain ? this.after(drain, "port: a store") : this.portUntil(at) || this.afterLeft(at);
  }

  lines({ number, at }, it) {
    const left = this.left(at), dispatch = this.event("dispatch", number);
    if (it.dispatched === at - 1) return this.after(dispatch, "commit");
    if (left.length) return this.after(this.event("commit", left[left.length - 1]), "commit in order");
    return this.afterStores(at) || this.otherwise(at, dispatch);
  }

  drain({ number, at }, it) {
    if (it && it.left === at) return this.after(this.event("commit", number), "drain");
    return this.portUntil(at) || (it && this.otherwise(at, this.event("commit", number)));
  }

  interrupt({ at }) {
    const last = this.lastStep(at - 1);
    return last ? this.after(last, "until the interrupt") : this.run.first > 0 ? this.after(this.event("commit"), "until the interrupt") : undefined;
  }

  // The last step up to a cycle: a retirement, a trap or an interrupt.
  lastStep(until) {
    for (let cycle = until; cycle >= this.run.first; cycle -= 1) {
      const left = this.left(cycle);
      if (left.length) return this.event("commit", left[left.length - 1]);
      if (this.here(cycle).interrupts.length) return this.event("interrupt", undefined, cycle);
    }
    return undefined;
  }
}
