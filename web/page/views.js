// The tabs. A command of the program is one line here: its words, what stands above it, how it is shown, and the name of its file.
const FROM = { name: "from", label: "from cycle", least: 0, most: 999999, value: 0 };
const cycles = (most, value) => ({ name: "cycles", label: "cycles", least: 1, most, value });
const RETIRED = { name: "retired", label: "without squashed rows", isSwitch: true, value: false };
const TEXT = { name: "text", label: "as text", isSwitch: true, value: false };
const FIGURES = { name: "figures", label: "figures after a crash too", isSwitch: true, value: false };
// (in the address path is the viewer's)
const PATH = { name: "path", key: "critical", label: "critical path", isSwitch: true, value: false };

const KONATA = "For the pipeline viewer Konata: save it, and open the file there.";
const ONE_AT_A_TIME = "The same program on the machine that takes one instruction after the other; limit and arrivals count steps.";
const CRITICAL = "Each event waited last for one other event: walking back from the last one, each cycle of the run has one cause.";
const IN_STEPS = { title: "Show it in Steps", act: showPathInSteps };
const NEIGHBOURS = "The job on machines that differ from its own in one key; the change is in thousandths of the cycles.";
const TRACE = "R retired, T trap, N interrupt; F, D, I, B, C: the cycles of fetch, dispatch, issue, broadcast and commit.";

const VIEWS = [
  { name: "report", title: "Report", command: "run", limit: true, show: showReport, file: "report.txt" },
  { name: "steps", title: "Steps", command: "page", options: [FROM, cycles(10000, 200)], show: showPage, file: "run.html" },
  { name: "picture", title: "Picture", command: "picture", options: [FROM, cycles(1000, 60), RETIRED, TEXT, PATH], show: showPicture, file: "picture.svg" },
  { name: "change", title: "Before and after", command: "run", limit: true, show: showChange, file: "report.txt" },
  { name: "compare", title: "Compare", command: "compare", limit: true, input: comparedInput, refused: refusedMachine, show: showComparison, file: "compare.tsv" },
  { name: "explain", title: "Explain", command: "explain", options: [FIGURES, PATH], limit: true, show: showSentences, file: "explain.txt" },
  { name: "profile", title: "Profile", command: "profile", options: [PATH], limit: true, show: showTable, file: "profile.tsv" },
  { name: "path", title: "Path", command: "path", limit: true, show: showSentences, file: "path.txt", note: CRITICAL, also: IN_STEPS },
  { name: "sensitivity", title: "What would help", command: "sensitivity", limit: true, show: showTable, file: "sensitivity.tsv", note: NEIGHBOURS },
  { name: "trace", title: "Trace", command: "run", words: ["--trace"], limit: true, show: showText, file: "trace.txt", note: TRACE },
  { name: "log", title: "Log", command: "log", limit: true, show: showText, file: "run.kanata", note: KONATA },
  { name: "reference", title: "Reference", command: "reference", limit: true, show: showText, file: "reference.txt", note: ONE_AT_A_TIME },
];
const viewNamed = (name) => VIEWS.find((view) => view.name === name);

// The chosen options of the views, by key: those of the same key are shared.
const chosen = {};

function optionOf(view, option) {
  const key = option.name === "cycles" ? view.name + "-cycles" : option.key || option.name;
  return { key, value: key in chosen ? chosen[key] : option.value };
}

function wordsOf(view) {
  const words = [view.command, ...(view.words || [])];
  for (const option of view.options || []) {
    const { value } = optionOf(view, option);
    if (option.isSwitch ? value : true) words.push("--" + option.name, ...(option.isSwitch ? [] : [String(value)]));
  }
  return view.limit ? [...words, "--limit", String(limit())] : words;
}

// The whole number that is meant, or the nearest that may stand there: a field of numbers takes 1e3, -5 and 2.5 too.
function whole(text, least, most, otherwise) {
  const number = text.trim() === "" ? NaN : Math.trunc(Number(text));
  return Number.isFinite(number) ? Math.max(least, Math.min(most, number)) : otherwise;
}

const MOST_CYCLES = 1000000;
const limit = () => whole(byId("limit").value, 1, MOST_CYCLES, 100000);

const fileOf = (view) => (view.name === "picture" && chosen.text ? "picture.txt" : view.file);

// The fields above a view: its options, its note, and the button that saves what the program printed.
function showTools(view, changed, saved) {
  const tools = byId("tools");
  tools.replaceChildren();
  for (const option of view.options || []) {
    const { key, value } = optionOf(view, option);
    const field = option.isSwitch ? element("input", { type: "checkbox", checked: value }) : element("input", { type: "number", min: option.least, max: option.most, value });
    field.onchange = () => {
      chosen[key] = option.isSwitch ? field.checked : whole(field.value, option.least, option.most, option.value);
      if (!option.isSwitch) field.value = chosen[key];
      changed();
    };
    tools.append(element("label", {}, ...(option.isSwitch ? [field, " " + option.label] : [option.label + " ", field])));
  }
  if (view.note) tools.append(element("span", { className: "note", textContent: view.note }));
  if (view.also) tools.append(element("button", { type: "button", id: "also", textContent: view.also.title, onclick: view.also.act }));
  tools.append(element("button", { type: "button", id: "save-view", textContent: "Save " + view.file.replace(".svg", ""), onclick: saved }));
}

// The tabs, as a list in which the arrow keys move; who walks there goes on, past the viewer too.
let isWalking = false;
function makeTabs(choose) {
  for (const view of VIEWS) {
    const tab = element("button", { type: "button", id: "tab-" + view.name, textContent: view.title, role: "tab", "aria-controls": "shown", onclick: () => choose(view.name) });
    byId("tabs").append(tab);
  }
  byId("tabs").addEventListener("keydown", (event) => {
    const tabs = [...byId("tabs").children], at = tabs.indexOf(document.activeElement);
    const to = { ArrowRight: at + 1, ArrowLeft: at - 1, Home: 0, End: tabs.length - 1 }[event.key];
    if (to === undefined || at < 0) return;
    event.preventDefault();
    const tab = tabs[(to + tabs.length) % tabs.length];
    tab.focus();
    tab.click();
    isWalking = true;
  });
}

function markTab(name) {
  for (const tab of byId("tabs").children) {
    const isChosen = tab.id === "tab-" + name;
    tab.setAttribute("aria-selected", String(isChosen));
    tab.tabIndex = isChosen ? 0 : -1;
    if (isChosen) { byId("tabs").scrollLeft = tab.offsetLeft - byId("tabs").offsetLeft - byId("tabs").clientWidth / 3; byId("shown").setAttribute("aria-labelledby", tab.id); }
  }
}
