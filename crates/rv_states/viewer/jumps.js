// Jumps: to the next cycle, or the one before, in which something happens; to an address, a register; and breakpoints.

const tests = {
  retirement: (here) => here.ended.some((each) => each.end === "retired"),
  wrong: (here) => here.wrong !== undefined,
  trap: (here) => here.ended.some((each) => each.end === "trapped"),
  interrupt: (here) => here.interrupts.length > 0,
  stall: (here) => here.stall !== undefined,
  access: (here) => here.access !== undefined,
  miss: (here) => isMiss(here.access),
  register: (here) => here.ended.some((each) => each.written && (chosenRegister() || each.written.register) === each.written.register),
  stored: (here) => here.stored.some((store) => view.address === undefined || (store.address <= view.address + 3 && view.address < store.address + store.bytes.length)),
  breakpoint: (here) => here.ended.some((each) => each.end === "retired" && view.breakpoints.has(each.pc)),
};

const testNames = {
  wrong: () => "wrong prediction", register: () => "write of " + (chosenRegister() ? registerName(chosenRegister()) : "a register"),
  stored: () => "store" + (view.address === undefined ? "" : " to " + hex(view.address)), breakpoint: () => "breakpoint that retires",
  access: () => "access of the cache", miss: () => "miss of the cache",
};

// The register that was typed, else that of the followed instruction.
function chosenRegister() {
  const followed = run.table[view.followed];
  return view.register || (followed && followed.target) || 0;
}

function jump(what, way) {
  const test = tests[what] || ((here) => here.stall === what);
  for (let place = view.place + way; place > 0 && place <= lastPlace; place += way) if (test(run.places[place])) return go(place);
  say("No " + (testNames[what] ? testNames[what]() : tests[what] ? what : "stall " + what) + (way > 0 ? " after" : " before") + " this cycle.");
}

function registerCalled(text) {
  const named = abiNames.indexOf(text === "fp" ? "s0" : text);
  if (named >= 0) return named;
  return /^x([12]?[0-9]|3[01])$/.test(text) ? Number(text.slice(1)) : undefined;
}

// A register's name: the next cycle that writes it. An address: the next cycle that fetches it, and its place in source and memory.
function goToTyped(text) {
  const register = registerCalled(text.toLowerCase());
  if (register === undefined) return goToAddress(text);
  view.register = register;
  jump("register", 1);
}

function goToAddress(text) {
  const address = /^(0x)?[0-9a-f]{1,8}$/i.test(text) ? parseInt(text.replace(/^0x/i, ""), 16) : -1;
  if (address < 0) return say("An address has up to eight hexadecimal digits, and a register a name such as x5 or t0.");
  view.address = address;
  for (let k = 1; k <= lastPlace; k += 1) {
    const place = (view.place + k - 1) % lastPlace + 1;
    const found = run.places[place].phases.fetch.find((number) => run.table[number].pc === address);
    if (found !== undefined) { view.followed = found; return go(place); }
  }
  show();
  say("No cycle of this page fetches " + hex(address) + ".");
}

// Sets a breakpoint where the followed instruction stands, or takes it away. Play stops where such an instruction retires.
function turnBreakpoint() {
  const followed = run.table[view.followed], at = followed ? followed.pc : view.address;
  if (at === undefined) return say("A breakpoint stands at the followed instruction: press j, or type an address.");
  const had = view.breakpoints.delete(at);
  if (!had) view.breakpoints.add(at);
  show();
  say("Breakpoint " + (had ? "taken from " : "at ") + hex(at) + ". Play stops there, and B goes to where it retires next.");
}
