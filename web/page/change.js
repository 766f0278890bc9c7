// Change one number, see it again: the run before a change beside the run after it. A run is { job, report }.
const runs = { before: undefined, now: undefined, isKept: false };

function remember(job, report) {
  const { now, isKept } = runs;
  if (now && !sameJob(now.job, job) && !(isKept && runs.before)) runs.before = now;
  runs.now = { job, report };
}

// Another job is no change of the one before, unless its run is kept.
function forget() { if (!runs.isKept) Object.assign(runs, { before: undefined, now: undefined }); }

const cyclesOf = (run) => Number(countsOf(run.report).get("cycles"));
const signed = (number) => (number > 0 ? "+" : number < 0 ? "\u2212" : "\u00b1") + grouped(Math.abs(number));

// The line that stands in the first text alone, or how many such lines there are.
function ownLines(lines, others) {
  const all = new Set(others), own = lines.filter((line) => !all.has(line));
  return own.length === 1 && own[0].trim() !== "" ? own[0].trim().replace(/\s+/g, " ") : counted(own.length, "line") + " of its own";
}

// The keys whose values differ, and what else differs, as rows of three cells.
function changedParts(before, now) {
  const old = valuesOf(before.job.description, KEYS), rows = [];
  for (const [key, value] of valuesOf(now.job.description, KEYS)) if (old.get(key) !== value) rows.push([key, old.get(key), value]);
  for (const part of ["arrivals", "assembly"]) {
    if (before.job[part] === now.job[part]) continue;
    const was = before.job[part].split("\n"), is = now.job[part].split("\n");
    rows.push([part === "assembly" ? "program" : part, ownLines(was, is), ownLines(is, was)]);
  }
  return rows;
}

function rowsOf(before, now) {
  const old = countsOf(before.report), rows = [];
  for (const [name, value] of countsOf(now.report)) rows.push([name, old.get(name), value, Number(value) - Number(old.get(name))]);
  return rows;
}

function changeText() {
  const { before, now } = runs;
  if (!before || !now) return "";
  const from = cyclesOf(before), to = cyclesOf(now);
  const words = ([key, was, is]) => (key === "program" || key === "arrivals" ? key : key + " " + was + " \u2192 " + is);
  const what = changedParts(before, now).slice(0, 3).map(words).join(", ");
  return grouped(from) + " \u2192 " + counted(to, "cycle") + " (" + signed(to - from) + ")" + (what ? ": " + what : "");
}

// A table with a caption and names at the front of its rows; a cell is a text or an element.
function sheet(heads, rows, caption) {
  const head = (text) => element("th", { scope: "col", className: /^(before|after|cycles)$/.test(text) ? "figure" : "", textContent: text });
  const cell = (held) => (held instanceof Node ? element("td", {}, held) : element("td", { className: isFigure(String(held)) ? "figure" : "words", textContent: held }));
  const row = ([name, ...cells]) => element("tr", {}, element("th", { scope: "row", textContent: name }), ...cells.map(cell));
  return element("table", { className: "sheet" }, element("caption", { textContent: caption }),
    element("thead", {}, element("tr", {}, ...heads.map(head))), element("tbody", {}, ...rows.map(row)));
}

// Counts of which less is neither better nor worse by itself: a core that waits more is less busy.
const UNJUDGED = ["retired", "traps", "interrupts", "busy"];

// By how much a count changed, with a bar; nothing where it did not, or is no number.
function changedBy(name, by, most) {
  if (!Number.isFinite(by) || by === 0) return "";
  const text = name === "cpi" ? (by > 0 ? "+" : "\u2212") + Math.abs(by).toFixed(3) : signed(by);
  const bar = element("span", { className: "bar" + (UNJUDGED.includes(name) ? "" : by < 0 ? " less" : " more"), style: "width: calc(" + (Math.abs(by) / most).toFixed(4) + " * var(--longest))" });
  return element("span", { className: "by" }, bar, text);
}

function changeTables({ before, now }) {
  const parts = changedParts(before, now), rows = rowsOf(before, now);
  const most = Math.max(1, ...rows.map(([, , , by]) => (Number.isFinite(by) ? Math.abs(by) : 0)));
  const counts = rows.map(([name, was, is, by]) => [name, was, is, changedBy(name, by, most)]);
  return element("div", { className: "beside" },
    sheet(["", "before", "after"], parts.length ? parts : [["nothing", "", ""]], "What was changed"),
    sheet(["", "before", "after", "by"], counts, "What it came to"));
}

function changeButtons({ before, isKept }) {
  const kept = element("input", { type: "checkbox", id: "keep", checked: isKept, onchange: () => { runs.isKept = kept.checked; } });
  const back = element("button", { type: "button", textContent: "Take the job before back", onclick: () => { another(); setJob(before.job); } });
  return element("p", { className: "line" }, element("label", {}, kept, " keep the first run for further changes"), " ", back);
}

async function showPictures({ before, now }, to) {
  const command = wordsOf(viewNamed("picture")).filter((word) => word !== "--text");
  for (const [name, run] of [["before", before], ["after", now]]) {
    const made = await runner.call(command, joined(run.job)), words = "the pipeline " + name;
    if (made.status !== 0 || !to.isConnected) return;
    const scroll = element("div", { className: "scroll", tabIndex: 0, role: "region", "aria-label": words }, picture(made.output, words));
    to.append(element("figure", {}, element("figcaption", { textContent: "The pipeline " + name }), scroll));
  }
}

const NO_CHANGE = "Run a job, change a number of the machine or a line of the program, and run again: here both runs stand side by side.";

async function showChange() {
  const shown = byId("shown"), title = (textContent) => element("h3", { textContent });
  if (!runs.before) return shown.append(element("p", { className: "note", textContent: NO_CHANGE }));
  const both = element("div", { className: "beside pictures" });
  shown.append(changeButtons(runs), changeTables(runs), title("Before"), cycleBar(countsOf(runs.before.report)),
    title("After"), cycleBar(countsOf(runs.now.report)), both);
  await showPictures({ ...runs }, both);
}
