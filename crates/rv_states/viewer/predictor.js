// The branch predictor: what it knows after a cycle, and what it answered of the words that the cycle fetched.

// Branches and JALR alone are looked up in the tables, and change them.
function usesTables(word) {
  const code = word & 0x7f, form = (word >>> 12) & 7;
  return (code === 0x63 && form !== 2 && form !== 3) || (code === 0x67 && form === 0);
}

// The place of a pc in the tables, where there are tables: instructions with one place share its counter and its target.
function placeOf(run, pc) {
  const { kind, entries } = run.machine.predictor;
  return kind === "bimodal" ? (pc >>> 2) % entries : undefined;
}

// What a place of the tables holds: of one that is as at first the lines say nothing.
function knownAt(run, at, place) {
  const change = run.predicted.at(at, place);
  return change ? change.value : { counter: 1 };
}

// The branches and JALR of the program by their places. They are looked up anew where a store changed a word of the program.
function sharersOf(run, place) {
  const changes = run.rewritten.filter((each) => each <= place).length;
  if (run.sharers && run.sharers.changes === changes) return run.sharers.found;
  const found = new Map();
  for (const { address } of run.listing) {
    if (!usesTables(run.wordAt(address, place))) continue;
    const at = placeOf(run, address);
    found.set(at, (found.get(at) || []).concat(address));
  }
  run.sharers = { changes, found };
  return found;
}

// The place of the instruction that is followed, where the tables are looked up for it.
function followedPlace(view) {
  const { run, followed } = view, instruction = followed === undefined ? undefined : run.table[followed];
  return instruction && usesTables(instruction.word) ? placeOf(run, instruction.pc) : undefined;
}

function showPredictor(view) {
  const { kind, entries } = view.run.machine.predictor, followed = followedPlace(view);
  note("predictor-note", kind + (kind === "bimodal" ? " " + entries : "") + (followed === undefined ? "" : "; #" + view.followed + ": place " + followed));
  showAsked(view);
  showTables(view, followed);
}

// The words that the cycle fetched: for each its place, and where the predictor says that the program goes on.
function showAsked(view) {
  const { run, place } = view;
  fill("asked", run.places[place].asked.map((each) => {
    const used = usesTables(each.word), answer = each.answer === ((each.pc + 4) >>> 0) ? "next" : "\u2192" + hex(each.answer);
    return row({ "data-number": each.number }, tag(each.number), hex(each.pc), used && each.place !== undefined ? each.place : "",
      wide(answer + (used || each.place === undefined ? "" : ", no table")));
  }), 2, 4);
}

function showTables(view, followed) {
  const { run, place } = view;
  byId("tables").parentNode.hidden = run.machine.predictor.kind !== "bimodal";
  if (byId("tables").parentNode.hidden) return;
  const sharers = sharersOf(run, place), taught = new Set(run.places[place].learned.map((each) => each.place));
  const asked = new Set(run.places[place].asked.filter((each) => usesTables(each.word)).map((each) => each.place));
  const isKnown = (at) => knownAt(run, at, place).counter !== 1 || knownAt(run, at, place).target !== undefined;
  const shown = [...new Set([...sharers.keys(), ...run.predicted.keys()])].filter((at) => sharers.has(at) || isKnown(at)).sort((a, b) => a - b);
  fill("tables", shown.map((at) => {
    const { counter, target } = knownAt(run, at, place), pcs = sharers.get(at) || [];
    const title = "counter " + counter + ": a branch is predicted " + (counter >= 2 ? "taken" : "not taken") + (pcs.length > 1 ? "; shared by " + listed(pcs.map(hex)) : "") +
      (taught.has(at) ? "; taught in this cycle" : "") + (asked.has(at) ? "; asked in this cycle" : "");
    return element("tr", { key: at, class: words(taught.has(at) && "changed", at === followed && "followed", asked.has(at) && "touched"), title },
      heading(at), element("td", {}, counter), element("td", {}, counter >= 2 ? "taken" : "not"), element("td", {}, target === undefined ? "-" : hex(target)),
      wide(pcs.map(hex).join(" ")));
  }), 2, 5);
}
