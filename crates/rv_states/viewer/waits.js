// What the page says of the critical path: for what each event of the followed instruction waited last, the causes of all cycles, and the keys
// that go from an event to the one that it waited for, and back.

// In the quiz the path would say what comes.
function showsPath() { return settings.path && !settings.quiz; }

// It is worked out when it is asked for first.
function account() { return view.account || (view.account = new Account(run)); }

const eventNames = { lines: "write-back" };
const eventLetters = { fetch: "F", dispatch: "D", issue: "I", broadcast: "B", commit: "C", trap: "T" };
function eventName({ kind, number }) {
  const isTrap = kind === "commit" && number !== undefined && run.table[number].end === "trapped";
  return isTrap ? "trap" : eventNames[kind] || kind;
}

// The events of an instruction that the page knows, in their order.
function eventsOf(number) {
  const { path } = account(), it = run.table[number], start = path.starts.get(number), isLines = start !== undefined && start.kind === "lines";
  const stages = ["fetch", "dispatch", "issue", "broadcast"].map((kind) => path.event(kind, number));
  const end = it.end === "retired" || it.end === "trapped" ? [path.event("commit", number)] : [];
  const all = isLines ? [...stages, start, ...end] : [...stages, ...end, start];
  return all.filter((event) => event !== undefined && event.at !== undefined);
}

// An event as one of an instruction speaks of it: as its own, or by the number of the other instruction.
function eventWords(event, number) {
  const { kind, number: its } = event;
  if (kind === "interrupt") return "the interrupt";
  if (its === undefined) return kind === "commit" ? "an earlier step" : "an earlier " + eventName(event);
  return its === number ? "its " + eventName(event) : "the " + eventName(event) + " of #" + its;
}

function cyclesOf(event, wait) { return wait.event.at === undefined ? undefined : event.at - wait.event.at; }

// For what an event waited last, in a sentence.
function eventSentence(event) {
  const words = eventWords(event), wait = account().path.before(event), isFirst = event.at >= run.first && run.first === 0;
  const said = words[0].toUpperCase() + words.slice(1) + " in cycle " + event.at + ": ";
  if (!wait) return said + (isFirst ? "the first event of the run." : "what it waited for came before this page.");
  const cycles = cyclesOf(event, wait), since = wait.event.at === undefined ? " before this page" : " in cycle " + wait.event.at;
  const count = cycles === undefined ? "." : ", " + counted(cycles, "cycle") + ".";
  return said + "it waited last for " + eventWords(wait.event, event.number) + since + ": " + account().causeOf(event) + count;
}

function badge(cause) {
  const sort = sortOf(cause), [letter, words] = sorts[sort];
  return element("b", { class: "badge sort-" + sort, title: words }, letter);
}

// A row for each event of the followed instruction.
function showWaits(view) {
  const it = run.table[view.followed];
  note("waits-note", it ? called(run, view.followed) : "follow an instruction: a click on it, or j");
  fill("waits", it ? eventsOf(view.followed).map((event) => waitRow(event)) : [], 6, 6);
}

function waitRow(event) {
  const { path, marked } = account(), wait = path.before(event), isOn = marked.has(event.name), name = eventName(event), letter = eventLetters[name];
  const head = element("th", { scope: "row", class: letter ? "cell " + cellClass(letter) : "", title: name }, letter || name);
  const on = element("td", { title: isOn ? "on the critical path" : "not on the critical path" }, isOn ? "on" : "");
  if (!wait) return row({}, head, event.at, wide(event.at > 0 ? "not on this page" : "nothing: the first event"), "", "", on);
  const cause = account().causeOf(event), cycles = cyclesOf(event, wait), { event: other } = wait;
  const words = eventWords(other, event.number) + (other.at === undefined ? "" : " in " + other.at);
  const button = element("button", { class: "tag", type: "button", "data-event": event.name, title: "go there (e): " + words, tabindex: -1 }, words);
  const why = element("td", {}, badge(cause), " " + cause), count = cycles === undefined ? "" : cycles;
  return row({ class: isOn ? "on-path" : "" }, head, event.at, wide(path.isShown(other) ? button : words), why, count, on);
}

// How many of the page's cycles each cause has.
function showPath() {
  const { end, shares } = account(), all = run.last + 1 - run.first;
  note("path-note", end === undefined ? "no step here" : "to " + eventWords(end) + " in " + end.at);
  const from = "The page begins with cycle " + run.first + ": the path is counted from there, and what came before is not known.";
  note("path-words", run.first > 0 ? from : "");
  const share = (cycles) => all === 0 ? "-" : percent(cycles, all) + "%";
  fill("causes", shares.map(({ cause, cycles }) => row({}, element("td", {}, badge(cause)), heading(cause), cycles, share(cycles),
    wide(span("bar sort-" + sortOf(cause), "", { style: "width:" + share(cycles) })))), 6, 5);
}

// The event at which the reader is: the one that a key went to, else the last one of the followed instruction up to the cursor.
function eventNow() {
  const cycle = run.cycleOf(view.place), { event, followed } = view;
  if (event && event.at === cycle && event.number === followed) return event;
  Object.assign(view, { event: undefined, trail: [] });
  const known = followed === undefined ? [] : eventsOf(followed).filter((each) => each.at <= cycle);
  return known.sort((a, b) => a.at - b.at).pop();
}

// What a key went to, in words.
function toldEvent() {
  const now = view.event && eventNow();
  return now && now === view.event ? eventSentence(now) + " " : "";
}

function goToEvent(event) {
  view.event = event;
  view.followed = event.number;
  go(event.at - run.first + 1);
}

// Goes to the event that an event waited for last.
function goBefore(event) {
  const { path } = account(), wait = path.before(event);
  view.event = event;
  if (!wait || !path.isShown(wait.event)) return showFollowed();
  view.trail = [...(view.trail || []), event];
  goToEvent(wait.event);
}

// The key there: where no instruction is followed, first to the last event of the path up to the cursor.
function stepBefore() {
  const now = eventNow(), last = account().eventUpTo(run.cycleOf(view.place));
  if (now) return goBefore(now);
  if (last) return goToEvent(last);
  say("No event of the critical path comes up to this cycle.");
}

// And back: to the event from which the reader came, else to that of the path which waited for this one.
function stepAfter() {
  const now = eventNow(), back = (view.trail || []).pop() || (now && account().eventAfter(now));
  if (back) return goToEvent(back);
  say("No event waited for this one on the critical path.");
}

// A click on what an event waited for.
function goFromRow(name) {
  eventNow();
  goBefore(account().path.events.get(name));
}
