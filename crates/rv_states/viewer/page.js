// The cursor: buttons, keys, the address of the page, and play.

const settings = { abi: false, speed: 2, size: 1, hide: false, textbook: false, path: false, quiz: false, without: new Set() };
const switches = ["abi", "hide", "textbook", "path"];
const run = new Run(byId("run").textContent);
const view = { run, place: 0, followed: undefined, address: undefined, register: 0, breakpoints: new Set(), line: undefined, before: undefined };
const lastPlace = run.places.length - 1;
let playing = null, writing = null;

function show() {
  const began = performance.now();
  view.line = run.at(view.place);
  view.before = view.place > 0 ? run.at(view.place - 1) : undefined;
  const cycle = run.cycleOf(view.place);
  document.documentElement.dataset.cycle = cycle;
  byId("slider").value = cycle;
  byId("slider").setAttribute("aria-valuetext", view.place === 0 ? "before the first cycle" : "cycle " + cycle);
  if (document.activeElement !== byId("cycle")) byId("cycle").value = cycle;
  note("happened", cycleSentence(run, view.place));
  showAll(view);
  showFollowed();
  document.documentElement.dataset.drawn = (performance.now() - began).toFixed(1);
}

function showFollowed() {
  const followed = view.followed;
  const told = toldEvent(), ask = told ? "" : "Follow an instruction: click on it, or press j.";
  say(told + (followed === undefined ? ask : instructionSentence(run, followed, view.place) + relatives(followed)));
  markFollowed(view);
  drawArrows(view);
}

function relatives(number) {
  const { producers } = run.table[number], isKnown = (each) => !settings.quiz || run.table[each].dispatched <= run.cycleOf(view.place);
  const consumers = run.table[number].consumers.filter(isKnown);
  const some = (numbers) => listed(numbers.slice(0, 6).map((each) => "#" + each));
  const from = producers.map((each) => "#" + each.number + " (" + registerName(each.register) + ")");
  return (from.length ? " Producers: " + listed(from) + "." : "") + (consumers.length ? " Consumers: " + some(consumers) + "." : "");
}

// Goes to a place; the page around a frame asks for one without being told so as if it were the reader's wish.
function go(place, asked) {
  view.place = Math.max(0, Math.min(lastPlace, place));
  show();
  if (settings.quiz) ask();
  tell(asked);
  clearTimeout(writing);
  writing = setTimeout(writeAddress, 200);
}

// Goes to a cycle that was typed: a fraction is cut off, and what is no number leaves the cursor where it is. The box has the cycle then.
function goToCycle(text) {
  if (text !== "") go(Math.trunc(Number(text)) - run.first + 1);
  byId("cycle").value = run.cycleOf(view.place);
}

// The cursor's cycle, the followed instruction and what is shown stand in the page's address, so that a lecture can point to them.
function addressWords() {
  const words = new URLSearchParams(location.hash.slice(1));
  for (const name of ["cycle", "follow", ...switches, "size", "without", "address"]) words.delete(name);
  words.set("cycle", run.cycleOf(view.place));
  if (view.followed !== undefined) words.set("follow", view.followed);
  for (const name of switches) if (settings[name]) words.set(name, "");
  if (settings.size !== 1) words.set("size", settings.size);
  if (settings.without.size) words.set("without", [...settings.without].join(","));
  return words.toString().replace(/=(?=&|$)/g, "");
}

// A browser that was asked too often refuses for a while (WebKit after 100 times in 10 seconds): then it is asked again a second later.
function writeAddress() {
  clearTimeout(writing);
  try { history.replaceState(null, "", "#" + addressWords()); } catch { writing = setTimeout(writeAddress, 1000); }
}

// Opens another run beside this one, which stays at its cursor.
function openBeside(name) {
  writeAddress();
  location.hash = addressWords() + "&beside=" + encodeURIComponent(name);
}

function readAddress() {
  const words = new URLSearchParams(location.hash.slice(1));
  if (besideName()) return location.reload();
  const number = (name) => /^-?[0-9]+$/.test(words.get(name) || "") ? Number(words.get(name)) : undefined;
  const cycle = number("cycle"), followed = number("follow"), at = words.get("address"), size = Number(words.get("size"));
  view.followed = run.table[followed] ? followed : undefined;
  view.address = at && /^[0-9a-f]{1,8}$/i.test(at) ? parseInt(at, 16) : undefined;
  for (const name of switches) settings[name] = words.has(name);
  if (size > 0) sizeType(size);
  settings.without = new Set((words.get("without") || (framed ? framedWithout : "")).split(",").filter((name) => panelNames().includes(name)));
  lecture.stops = readStops(words.get("notes") || byId("notes").textContent);
  findStop(cycle, view.followed);
  view.place = Math.max(0, Math.min(lastPlace, cycle === undefined ? 1 : cycle - run.first + 1));
  settle();
}

// Beside another run there is room for a few panels.
const framedWithout = "source,fetch,predictor,stores,stations,units,bus,csrs,cache,accesses,memory";

// After a change of what is shown.
function settle() {
  for (const name of switches) byId(name).checked = settings[name];
  showPanels();
  showLegend();
  drawSwitches();
  sizePicture(run);
  show();
  tell(true);
}

function turn(name) {
  settings[name] = !settings[name];
  settle();
  writeAddress();
}

function resize(factor) { sizeType(factor === 1 ? 1 : settings.size * factor); settle(); writeAddress(); say("Size of type: " + Math.round(100 * settings.size) + "%."); }

function say(text) { note("following", text); }

function follow(number) {
  view.followed = run.table[number] ? number : undefined;
  if (showsPath()) showWaits(view);
  scrollPicture(view);
  drawPicture(view);
  showPredictor(view);
  showFollowed();
  writeAddress();
}

function followNext(way) {
  const numbers = view.line.in_flight;
  if (view.followed === undefined && numbers.length) return follow(numbers[way > 0 ? 0 : numbers.length - 1]);
  if (view.followed === undefined) return follow(Math.max(run.firstNumber, run.places[view.place].fetchedBefore - 1));
  const last = settings.quiz ? run.places[view.place].fetchedBefore : run.table.length;
  follow(Math.max(run.firstNumber, Math.min(last - 1, view.followed + way)));
}

function isStopped() { return view.place === lastPlace || (view.breakpoints.size > 0 && tests.breakpoint(run.places[view.place])); }

function play(on) {
  clearInterval(playing);
  playing = on ? setInterval(() => { if (view.place < lastPlace) go(view.place + 1); if (isStopped()) play(false); }, 1000 / settings.speed) : null;
  byId("play").setAttribute("aria-pressed", String(Boolean(on)));
  note("play", on ? "pause" : "play");
}

function openPart(id, button) {
  const text = byId(id);
  text.hidden = !text.hidden;
  byId(button).setAttribute("aria-expanded", String(!text.hidden));
  show();
}
function showKeys() { openPart("keys", "help"); }
function showSwitches() {
  openPart("switches", "panels");
  if (!byId("switches").hidden) byId("switches").querySelector("input").focus();
}

function speed(factor) {
  settings.speed = Math.max(0.5, Math.min(32, settings.speed * factor));
  if (playing) play(true);
  say(settings.speed + " cycles a second.");
}

const steps = {
  first: () => go(0), back: () => go(view.place - 1), on: () => go(view.place + 1), last: () => go(lastPlace),
  previous: () => jump(byId("what").value, -1), next: () => jump(byId("what").value, 1),
};

const keys = {
  ArrowLeft: steps.back, ArrowRight: steps.on, Home: steps.first, End: steps.last,
  PageUp: () => go(view.place - 10), PageDown: () => go(view.place + 10),
  " ": () => play(!playing), "+": () => speed(2), "-": () => speed(0.5), n: steps.next, N: steps.previous,
  j: () => followNext(1), k: () => followNext(-1), Escape: () => follow(undefined), "?": showKeys,
  a: () => turn("abi"), h: () => turn("hide"), o: () => turn("textbook"), g: () => byId("cycle").select(), d: () => byId("address").select(),
  "]": () => resize(1.15), "[": () => resize(1 / 1.15), "0": () => resize(1), p: showSwitches,
  b: turnBreakpoint, B: () => jump("breakpoint", 1), l: () => turn("path"), e: stepBefore, E: stepAfter,
  ".": () => goToStop(1), ",": () => goToStop(-1), q: turnQuiz,
  v: () => save(false), V: () => save(true), "2": turnPair, "3": () => tellPair("other"), "1": () => tellPair("alone"),
};
for (const [key, what] of Object.entries({ r: "retirement", w: "wrong", t: "trap", i: "interrupt", s: "stall", c: "access", m: "miss", x: "register", y: "stored" })) {
  keys[key] = () => jump(what, 1);
  keys[key.toUpperCase()] = () => jump(what, -1);
}

function onKey(event) {
  const { tagName, type, id } = event.target;
  const typing = (tagName === "INPUT" && type !== "checkbox") || tagName === "SELECT", isWritten = typing && type !== "range";
  if (event.ctrlKey || event.altKey || event.metaKey) return;
  if (id === "answer" && event.key === "Enter") { event.preventDefault(); return answer(); }
  if (id === "answer" && event.key === "Escape") return turnQuiz();
  // Enter takes what was typed, and gives the keys back to the cursor.
  if (isWritten && event.key === "Enter") { event.target.blur(); return; }
  if (isWritten && event.key !== "Escape") return;
  if (event.key === " " && (tagName === "BUTTON" || tagName === "INPUT")) return;
  if (typing || event.key === "Escape") document.activeElement.blur();
  const act = keys[event.key];
  if (!act) return;
  event.preventDefault();
  act();
}

function onClick(event) {
  const [step, head, instruction, waited] = ["step", "go", "number", "event"].map((name) => event.target.closest("[data-" + name + "]"));
  if (step) steps[step.dataset.step]();
  else if (waited) goFromRow(waited.dataset.event);
  else if (head) go(Number(head.dataset.go) - run.first + 1);
  else if (instruction) follow(Number(instruction.dataset.number));
}

function onSwitch(event) {
  const name = event.target.dataset.switch;
  if (!name) return;
  if (event.target.checked) settings.without.delete(name); else settings.without.add(name);
  showPanels();
  show();
  writeAddress();
}

// Where the run ended before the window, there is nothing to step through, and the panels have nothing to show.
function showNothing() {
  const { cycles, stop } = run.stop;
  byId("tools").hidden = true;
  document.querySelector("main").hidden = true;
  note("happened", "The run ended after " + counted(cycles, "cycle") + " (" + stop + "), before cycle " + run.first + ".");
}

function listen() {
  document.addEventListener("keydown", onKey);
  document.addEventListener("click", onClick);
  byId("switches").addEventListener("change", onSwitch);
  byId("slider").addEventListener("input", (event) => go(Number(event.target.value) - run.first + 1));
  byId("cycle").addEventListener("change", (event) => goToCycle(event.target.value));
  byId("address").addEventListener("change", (event) => goToTyped(event.target.value.trim()));
  for (const name of switches) byId(name).addEventListener("change", () => turn(name));
  byId("play").addEventListener("click", () => play(!playing));
  byId("help").addEventListener("click", showKeys);
  byId("panels").addEventListener("click", showSwitches);
  byId("other").addEventListener("change", (event) => openBeside(event.target.value.trim()));
  byId("picture").addEventListener("pointerover", (event) => { if (event.target.dataset.cycle && event.target.textContent === ".") tellWait(view, event.target); });
  for (const id of scrolled) byId(id).addEventListener("scroll", () => requestAnimationFrame(() => redraw(id)));
  for (const id of Object.keys(tops)) boxOf(id).addEventListener("scroll", () => requestAnimationFrame(() => redrawLong(id)));
  window.addEventListener("hashchange", readAddress);
  window.addEventListener("resize", show);
  window.addEventListener("beforeprint", () => layOutForPrint(view));
  window.addEventListener("afterprint", show);
  window.addEventListener("message", hear);
}

// After the reader scrolled a list or the picture.
function redraw(id) {
  const { scrollTop: top, scrollLeft: left } = byId(id);
  if (top === measures[id].top && left === measures[id].left) return;
  Object.assign(measures[id], { top, left });
  if (id === "picture") drawPicture(view); else drawList(id);
  markFollowed(view, byId(id));
}

function redrawLong(id) {
  tops[id] = boxOf(id).scrollTop;
  (id === "rob" ? showReorderBuffer : showStations)(view);
  markFollowed(view, byId(id));
  markDifferences();
}

function start() {
  document.documentElement.classList.toggle("framed", framed);
  listen();
  for (const id of ["slider", "cycle"]) { byId(id).min = run.first - 1; byId(id).max = run.last; }
  note("range", "of " + run.first + " to " + run.last);
  showMachine(run);
  sizeList("source", run.listing.length);
  sizeList("memory", run.memoryRows.length);
  readAddress();
  document.documentElement.dataset.opened = performance.now().toFixed(0);
}

if (besideName()) startPair(besideName()); else if (run.places.length === 0) showNothing(); else start();
