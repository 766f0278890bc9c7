// The account of a page: the critical path to the last step that it shows, and the one cause that each of its cycles is on account of.

// The causes of `./rv_sim path`, in its order, by the sorts in which they are marked; those at the end have no cycles.
const causeSorts = {
  "refill: wrong prediction": "refill", "refill: trap": "refill", "refill: interrupt": "refill", "refill: serialising instruction": "refill",
  "fetch width": "front", "fetch ends at a predicted jump": "front", "front end": "front", "dispatch width": "front", "store queue full": "room",
  "dispatch to issue": "front", operand: "operand", "address of an older store": "operand",
  "alu units busy": "unit", "mul units busy": "unit", "div units busy": "unit", "mem units busy": "unit",
  "port: a store": "port", "port: a load": "port", "port: lines written back": "port",
  "execution: alu": "execution", "execution: mul": "execution", "execution: div": "execution", "execution: mem": "execution",
  "load: forwarded, or faulted": "load", "load: hit": "load", "load: miss": "load", "common data bus full": "bus",
  commit: "commit", "commit in order": "commit", "commit width": "commit", "lines written back": "port", "until the interrupt": "interrupt",
  "another cause": "rest",
  "fetch in order": "front", "dispatch in order": "front", "fetch buffer full": "room", "reorder buffer full": "room",
  "alu stations full": "room", "mul stations full": "room", "div stations full": "room", "mem stations full": "room", drain: "commit",
};

// Each sort has a letter, so that its marks are told apart without their colours.
const sorts = {
  refill: ["r", "refill"], front: ["f", "front end"], room: ["n", "no room"], operand: ["o", "operand"], unit: ["u", "unit busy"],
  execution: ["e", "execution"], load: ["l", "load"], port: ["p", "port"], bus: ["b", "bus full"], commit: ["c", "commit"],
  interrupt: ["i", "until an interrupt"], rest: ["-", "no cause"],
};

const beforeFirst = "before the first event", afterLast = "after the last step";
function sortOf(cause) { return causeSorts[cause] || "rest"; }

class Account {
  constructor(run) {
    this.run = run;
    this.path = new CriticalPath(run);
    this.end = this.path.lastStep(run.last);
    this.steps = this.stepsTo(this.end);
    this.spans = this.spansOf();
    this.shares = this.sharesOf();
    this.marked = new Set(this.steps.map(({ event }) => event.name));
    // (of a store that drains in the cycle of its commit the letter is that of the commit)
    this.cells = new Map([...this.steps].reverse().map((step) => [step.event.number + " " + step.to, step]));
  }

  // The path from its first event to the last one, which it waited for and why: a step of the path begins in the cycle of the event that was
  // waited for, or with the page.
  stepsTo(end) {
    const { path } = this, { first } = this.run, found = [];
    for (let event = end; event && path.isShown(event);) {
      const wait = path.before(event), from = wait && path.isShown(wait.event) ? wait.event.at : first;
      found.push({ event, wait, from, to: event.at, cause: wait ? this.causeOf(event) : beforeFirst });
      event = wait && wait.event;
    }
    return found.reverse();
  }

  // The cause of the cycles between an event and the one that it waited for: where the fetch began anew, that of it, up to the first issue or
  // commit after it.
  causeOf(event) {
    const { event: other, cause } = this.path.before(event);
    return (event.kind !== "lines" && this.refillTo(other)) || cause;
  }

  // Why the fetch began anew before an event, where no instruction issued or left since.
  refillTo(event) {
    const passed = [];
    let found = "", at = event;
    while (at.kind === "fetch" || at.kind === "dispatch") {
      const wait = this.path.before(at);
      if (at.refill !== undefined) { found = at.refill; break; }
      passed.push(at);
      if (wait && wait.cause.startsWith("refill")) found = wait.cause;
      if (!wait || found) break;
      at = wait.event;
    }
    for (const each of passed.reverse()) {
      if (found && this.goesOnBetween(at.at, each.at)) found = "";
      each.refill = found;
      at = each;
    }
    return found;
  }

  // Whether an instruction issued or left in the cycles after one up to another.
  goesOnBetween(from, to) {
    for (let cycle = from + 1; cycle <= to; cycle += 1) if (this.path.here(cycle).phases.issue.length || this.path.left(cycle).length) return true;
    return false;
  }

  // The cycles of the page from the first to the last, each with the step that it belongs to; after the last step there is none.
  spansOf() {
    const { first, last } = this.run, found = Array(last + 1 - first);
    for (const step of this.steps) found.fill(step, step.from - first, step.to - first);
    return found;
  }

  // How many cycles each cause has, the greatest first, and at the end those before the first event and after the last step.
  sharesOf() {
    const cycles = new Map([...Object.keys(causeSorts), beforeFirst, afterLast].map((cause) => [cause, 0]));
    for (let k = 0; k < this.spans.length; k += 1) {
      const cause = this.spans[k] ? this.spans[k].cause : afterLast;
      cycles.set(cause, cycles.get(cause) + 1);
    }
    const all = [...cycles].map(([cause, count]) => ({ cause, cycles: count })), isEnd = ({ cause }) => cause === beforeFirst || cause === afterLast;
    return [...all.filter((each) => !isEnd(each) && each.cycles > 0).sort((a, b) => b.cycles - a.cycles), ...all.filter(isEnd)];
  }

  // The step of a cycle.
  stepIn(cycle) { return this.spans[cycle - this.run.first]; }

  // The last event of the path up to a cycle, and the one of it that waited for an event.
  eventUpTo(cycle) { return (this.steps.filter((each) => each.to <= cycle).pop() || {}).event; }
  eventAfter(event) { return (this.steps.find((each) => each.wait && each.wait.event === event) || {}).event; }
}
