// The page as a whole: its editors, tabs, buttons and keys, and how it begins.
let EXAMPLES = {}, COMPARISONS = new Set(), KEYS = [], currentView = VIEWS[0], form;
const editors = {};

const jobNow = () => ({ description: editors.description.text, arrivals: editors.arrivals.text, assembly: editors.assembly.text });

const changedSoon = later(150, () => run(true));

function jobChanged() {
  refuse("");
  isWritten = false;
  checker.stop();
  setStale(true);
  form.read(editors.description.text);
  byId("arrivals-note").textContent = editors.arrivals.text.trim() === "" ? "none" : "";
  changedSoon();
  writeAddress();
}

// Puts a job into the editors, and runs it.
function setJob(job, machines) {
  for (const part of PARTS) editors[part].text = job[part];
  if (machines !== undefined) editors.machines.text = machines;
  form.read(job.description);
  byId("arrivals").open = job.arrivals.trim() !== "";
  byId("arrivals-note").textContent = job.arrivals.trim() === "" ? "none" : "";
  writeAddress();
  run();
}

const exampleOf = (name) => (COMPARISONS.has(name) ? cutComparison(EXAMPLES[name]) : { job: cut(EXAMPLES[name]), machines: "" });

function isUnchanged(name, job) {
  const { job: own, machines } = exampleOf(name);
  return sameJob(own, job) && machines === furtherText();
}

function loadExample(name) {
  if (name.startsWith("machines/")) return setJob({ ...jobNow(), description: EXAMPLES[name] });
  const { job, machines } = exampleOf(name);
  forget();
  exampleName = name;
  byId("examples").value = name;
  if (COMPARISONS.has(name)) chooseView("compare", true);
  setJob(job, machines);
}

const FIRST = "lessons/prediction-bimodal";

// At an address without a job the one that stands here is shown as the address says; without an address the page is as it is opened.
function goOn() {
  if (addressed === "") return loadExample(FIRST);
  writeAddress();
  run();
}

const TITLES = [["lessons/", "Lessons"], ["", "Programs"], ["explain/", "Why a run is slow, or dead"], ["c/", "Kernels from C"]];

function listExamples() {
  for (const [folder, title] of TITLES) {
    const group = element("optgroup", { label: title });
    for (const name of Object.keys(EXAMPLES)) {
      if (folder === "" ? !name.includes("/") : name.startsWith(folder)) group.append(new Option(name.slice(folder.length) + (COMPARISONS.has(name) ? " (comparison)" : ""), name));
    }
    byId("examples").append(group);
  }
  for (const name of Object.keys(EXAMPLES).filter((each) => each.startsWith("machines/"))) byId("machine").add(new Option(name.slice(9), name));
}

function setWide(on) {
  if (on && byId("job").contains(document.activeElement)) byId("show-job").focus(); // (what is hidden loses the focus)
  document.querySelector("main").classList.toggle("wide", on);
  byId("show-job").setAttribute("aria-pressed", String(!on));
  Object.values(editors).forEach((editor) => editor.draw());
}

function chooseView(name, isEarly) {
  isWalking = false;
  if (currentView.name === "steps" && name !== "steps") { seenCycle = undefined; followed = ""; marksPath = false; }
  currentView = viewNamed(name);
  markTab(name);
  setWide(name === "steps");
  byId("machines-part").hidden = name !== "compare";
  editors.machines.draw();
  showTools(currentView, () => { writeAddress(); showView(); }, saveView);
  clearShown();
  if (!isEarly) { writeAddress(); showView(); }
}

// A tab that a person chooses: in a narrow window what it shows stands at the window's end or past it, and one is led there.
function openTab(name) {
  chooseView(name);
  byId("tab-" + name).focus();
  if (isFarDown(byId("shown"))) byId("tabs").scrollIntoView();
}

// Ctrl+Enter, and with Alt a tab's number or J.
function shortcut(key) {
  if (key === "Enter") return runAndShow();
  if (/^j$/i.test(key)) return setWide(!document.querySelector("main").classList.contains("wide"));
  const view = VIEWS[(Number(key) + 9) % 10];
  if (view) openTab(view.name);
}

function setForm(on) {
  byId("form").hidden = !on;
  editors.description.root.hidden = on;
  byId("as-form").setAttribute("aria-pressed", String(on));
  byId("as-text").setAttribute("aria-pressed", String(!on));
  editors.description.draw();
}

function writeKey(key, value) {
  const text = editors.description.text, row = form.fields.get(key).row;
  const isDefault = value === undefined || String(value) === String(row.default);
  const without = isDefault ? withoutKey(text, key) : text;
  editors.description.text = !isDefault ? withKey(text, key, value) : without === text && readToml(text).values.has(key) ? withKey(text, key, row.default) : without;
  jobChanged();
}

function takeLimit(cycles) {
  if (byId("summary").contains(document.activeElement)) byId("limit").focus(); // (the summary's buttons go)
  byId("limit").value = cycles;
  writeAddress();
  run();
}

function stop() {
  turn += 1;
  runner.stop();
  checker.stop();
  setBusy(false);
  say("Stopped; nothing of the run is left.");
}

function goToFault(part) {
  const [fault] = editors[part].faults.values(), isForm = part === "description" && !byId("form").hidden, field = isForm && byId("form").querySelector("[aria-invalid=true]");
  if (field) return field.focus();
  if (isForm) setForm(false);
  if (fault) editors[part].goTo(fault.line, fault.from);
}

const isFarDown = (part) => part.getBoundingClientRect().top > 0.6 * innerHeight;

// In a narrow window the result stands below the job: who presses the button or its key is led there, or to the fault.
async function runAndShow() {
  const running = run();
  if (isFarDown(byId("result"))) byId("result").scrollIntoView();
  await running;
  PARTS.map((part) => byId("fault-" + part)).find((box) => !box.hidden)?.scrollIntoView({ block: "center" });
}

// An editor draws the lines that are seen: on paper each part stands whole, arrivals that are folded and machines to compare too.
function printParts() {
  const printed = (name, textContent) => element(name, { className: "printed", textContent });
  for (const { root, text, area } of PARTS.map((part) => editors[part])) {
    const folded = root.closest("details:not([open])");
    if (!folded || text.trim() !== "") (folded || root).after(printed("pre", text || area.placeholder));
  }
  if (currentView.name === "compare" && furtherText() !== "") byId("shown").after(printed("h3", "Further machines"), printed("pre", furtherText()));
}

function listen() {
  byId("run").onclick = runAndShow;
  byId("stop").onclick = stop;
  byId("limit").onchange = () => takeLimit(limit());
  byId("share").onclick = copyLink;
  byId("save").onclick = () => save((exampleName.split("/").pop() || "program") + ".job", joined(jobNow()));
  byId("open").onclick = () => byId("file").click();
  byId("file").onchange = () => { if (byId("file").files[0]) openFile(byId("file").files[0]); byId("file").value = ""; };
  byId("examples").onchange = () => { refuse(""); if (byId("examples").value) { another(); loadExample(byId("examples").value); } else writeAddress(); };
  byId("machine").onchange = () => { const name = byId("machine").value; byId("machine").selectedIndex = 0; another(); loadExample(name); };
  ["examples", "machine", "add-machine"].map(byId).forEach(openByArrows);
  byId("show-job").onclick = () => shortcut("j");
  byId("as-form").onclick = () => setForm(true);
  byId("as-text").onclick = () => setForm(false);
  byId("dark").onclick = turnColours;
  systemIsDark.onchange = showColours;
  byId("help").onclick = () => byId("about").showModal();
  byId("close").onclick = () => byId("about").close();
  for (const part of PARTS) {
    byId("fault-" + part).onclick = () => goToFault(part);
    byId("fault-" + part).onkeydown = (event) => { if (event.key === "Enter" && !event.ctrlKey) { event.preventDefault(); goToFault(part); } };
  }
  byId("arrivals").addEventListener("toggle", () => editors.arrivals.draw());
  addEventListener("beforeprint", printParts);
  addEventListener("afterprint", () => document.querySelectorAll(".printed").forEach((each) => each.remove()));
  for (const [target, name] of [[globalThis, "pagehide"], [document, "visibilitychange"]]) target.addEventListener(name, keepLeft);
  addEventListener("hashchange", async () => { if (location.hash !== addressed && !await readAddress()) goOn(); });
  // (from one job that the address does not hold to another one)
  addEventListener("popstate", () => { if (location.hash === TOO_LONG && addressed === TOO_LONG) readAddress(); });
  // (a job that the address does not hold would be lost)
  addEventListener("beforeunload", (event) => { if (addressed === TOO_LONG) { event.preventDefault(); event.returnValue = true; } });
  addEventListener("keydown", (event) => {
    const key = event.ctrlKey && event.key === "Enter" ? event.key : keyWithAlt(event);
    if (key && !byId("about").open) { event.preventDefault(); shortcut(key); }
  });
  addEventListener("dragover", (event) => { if ([...event.dataTransfer.types].includes("Files")) event.preventDefault(); });
  addEventListener("drop", (event) => { if (event.dataTransfer.files.length > 0) { event.preventDefault(); openFile(event.dataTransfer.files[0]); } });
}

// Why this browser cannot run the page; nothing where it can.
function missing() {
  const needed = { WebAssembly: "WebAssembly", Worker: "workers", DecompressionStream: "DecompressionStream", ResizeObserver: "ResizeObserver", BigInt: "BigInt" };
  const lacks = Object.keys(needed).find((name) => !(name in globalThis));
  return lacks === undefined ? "" : "This browser cannot run the simulator: it has no " + needed[lacks] + ". Chromium 103, Firefox 113, Safari 16.4 and later have it.";
}

async function start() {
  const why = missing();
  if (why !== "") return say(why, true);
  let module;
  try {
    const own = JSON.parse(textOf(await unpacked(byId("examples-packed").textContent, 1 << 25)));
    [EXAMPLES, COMPARISONS, KEYS] = [own.examples, new Set(own.comparisons), own.keys];
    module = await WebAssembly.compile(await unpacked(byId("module").textContent, 1 << 27));
  } catch (error) { return say("This browser cannot run the simulator: " + error, true); }
  runner = new Caller(module);
  checker = new Caller(module);
  for (const part of PARTS) editors[part] = new Editor(byId("edit-" + part), part === "assembly" ? assemblyWords : tomlWords, jobChanged);
  editors.machines = new Editor(byId("edit-machines"), machinesWords, jobChanged);
  form = new MachineForm(byId("form"), KEYS, writeKey);
  listExamples();
  makeComparison();
  makeTabs(openTab);
  showColours();
  chooseView("report", true);
  listen();
  if (!takeLeft() && !await readAddress()) loadExample(FIRST);
  document.documentElement.dataset.ready = performance.now().toFixed(0);
}

start();
