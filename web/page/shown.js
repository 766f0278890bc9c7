// How an output is shown: as the program prints it, or as a drawing of it. A long one is shown in part; saved, it is whole.
const MOST_LINES = 3000, MOST_ROWS = 1000;
let pictures = [];

// A name for a blob that lives until the next is shown.
function urlOf(bytes, type) {
  const url = URL.createObjectURL(new Blob([bytes], { type }));
  pictures.push(url);
  return url;
}

function clearShown() {
  pictures.forEach((url) => URL.revokeObjectURL(url));
  pictures = [];
  if (byId("shown").contains(document.activeElement)) byId("shown").focus({ preventScroll: true });
  byId("shown").replaceChildren();
}

// The first lines of a text, and how many more there are.
function firstLines(bytes, most) {
  let at = 0, lines = 0;
  while (lines < most && at < bytes.length) { const next = bytes.indexOf(10, at); at = next < 0 ? bytes.length : next + 1; lines += 1; }
  const rest = at < bytes.length ? bytes.subarray(at).reduce((sum, byte) => sum + (byte === 10), 0) : 0;
  return { text: textOf(bytes.subarray(0, at)), rest };
}

function restNote(rest) {
  return rest === 0 ? "" : element("p", { className: "note", textContent: counted(rest, "line") + " more: save it to have them all." });
}

function showText({ output }) {
  const { text, rest } = firstLines(output, MOST_LINES);
  byId("shown").append(element("pre", { textContent: text }), restNote(rest));
}

// Sentences, whose lines are as long as they need: they go on below where the window ends. A line of the program that they name leads to it.
function showSentences({ output }) {
  const { text, rest } = firstLines(output, MOST_LINES), words = text.split(/^(.*?\b[0-9a-f]{8}, )line (\d+)(?=: )/m);
  const sentences = words.map((each, at) => (at % 3 === 2 ? lineButton(each, "line " + each) : each));
  byId("shown").append(element("pre", { className: "sentences" }, ...sentences), restNote(rest));
}

const isOfCycles = (name) => name === "busy" || name.startsWith("stall ");

// A part of all in percent, to the nearest tenth, half of one upwards, as `explain` has it.
function percent(part, all) { return (Math.floor((2000 * part + all) / (2 * all)) / 10).toFixed(1); }

// Where the cycles of a run went, as a bar.
function cycleBar(counts) {
  const total = Number(counts.get("cycles")) || 1, bar = element("div", { className: "cycle-bar", role: "img" }), words = [];
  for (const [name, value] of counts) {
    const count = Number(value);
    if (!isOfCycles(name) || count === 0) continue;
    const share = (100 * count) / total;
    words.push(name + " " + count);
    const shown = share > 12 ? name + " " + count : share > 4 ? count : "", title = name + ": " + counted(count, "cycle") + ", " + percent(count, total) + " %";
    bar.append(element("span", { className: name.replace("stall ", ""), textContent: shown, title, style: "width: " + share + "%" }));
  }
  bar.setAttribute("aria-label", "Where the cycles went: " + words.join(", "));
  return bar;
}

// The names of x0 to x31 in the calling convention.
const ABI = "zero ra sp gp tp t0 t1 t2 s0 s1 a0 a1 a2 a3 a4 a5 a6 a7 s2 s3 s4 s5 s6 s7 s8 s9 s10 s11 t3 t4 t5 t6".split(" ");

// The state, with the other name of each register beside its line. That is drawn, and no part of the text. What is zero is quiet.
function stateOf(text) {
  const lines = text.split("\n").map((line) => {
    const number = (/^x(\d+) /.exec(line) || [])[1];
    return element("span", { className: / 0{8}$/.test(line) ? "zero" : "", textContent: line, ...(number ? { "data-abi": ABI[number] } : {}) });
  });
  return element("pre", { className: "state" }, ...lines.flatMap((line, at) => (at === 0 ? [line] : ["\n", line])));
}

// The counts first, and the registers and memory in columns.
function showReport({ output }) {
  const text = textOf(output), at = text.search(/^pc /m), end = text.search(/^m [0-9a-f]{8} /m);
  if (at < 0) return showText({ output });
  const state = text.slice(at, end < 0 ? undefined : end);
  byId("shown").append(
    element("h3", { textContent: "Where the cycles went" }), cycleBar(countsOf(text)),
    element("div", { className: "report" }, element("pre", { textContent: text.slice(0, at) }), stateOf(state)));
  if (end >= 0) byId("shown").append(element("h3", { textContent: "Memory" }), element("pre", { className: "state", textContent: text.slice(end) }));
}

// The columns that name a row: one stays at the left edge when its table is scrolled to the side.
const ROW_NAMES = ["statement", "key", "name"];

// Columns that hold nothing but figures stand at the right, with their names.
function tableOf(lines, cellOf) {
  const rows = lines.slice(1).map((line) => line.split("\t"));
  const kinds = lines[0].split("\t").map((_, at) => (rows.every((cells) => isFigure(cells[at] || "")) ? "figure" : "words"));
  const named = lines[0].split("\t").findIndex((name) => ROW_NAMES.includes(name));
  const nameOf = (name, at) => element("th", { scope: "col", className: kinds[at], textContent: name.replace(/_/g, " ") });
  const head = element("tr", {}, ...lines[0].split("\t").map(nameOf));
  const body = rows.map((cells) => element("tr", {}, ...cells.map((cell, at) => cellOf(cell, at, kinds[at]))));
  for (const row of body) row.cells[named]?.setAttribute("role", "rowheader");
  for (const row of [head, ...body]) if (row.cells[named]) row.cells[named].dataset.stays = "";
  const table = element("table", { className: "sheet" }, element("thead", {}, head), element("tbody", {}, ...body));
  return element("div", { className: "scroll", tabIndex: 0, role: "region", "aria-label": currentView.title + ", table" }, table);
}

const PICTURE = "A row for each fetched instruction, a column for each cycle: F fetch, D dispatch, I issue, B broadcast, C commit";
const isFigure = (text) => /^[-+\u2212\u00b1]?[\d.,]*$|^[0-9a-f]{8}$/.test(text);

function lineButton(line, textContent = line) {
  const onclick = () => goToLine(Number(line));
  return element("button", { type: "button", className: "link", textContent, title: "to this line of the program", onclick });
}

// A table with a tab between two cells. The last column of a profile, the cycles at the head, has a bar; a line's number leads to it.
function showTable({ output }) {
  const { text, rest } = firstLines(output, MOST_ROWS), lines = text.trimEnd().split("\n");
  const names = lines[0].split("\t"), head = names.indexOf("head"), line = names.indexOf("line");
  const most = Math.max(1, ...lines.slice(1).map((row) => Number(row.split("\t")[head]) || 0));
  const table = tableOf(lines, (cell, column, className) => {
    const made = element("td", { className });
    made.append(column === line && cell !== "" ? lineButton(cell) : cell);
    const length = (4 * Number(cell)) / most;
    if (column === head) made.append(element("span", { className: "bar", style: "width: " + length + "rem; margin-right: " + (4 - length) + "rem" }));
    return made;
  });
  byId("shown").append(table, restNote(rest));
}

function goToLine(line) {
  setWide(false);
  editors.assembly.goTo(line);
}

// A picture for paper, in parts of some rows, since a sheet may end between two alone. The program begins each row with the line ROW. (One of
// more letters than these nobody could read on paper: it is whole there.)
const ROW = /^(?=<g class='(?:open|done|trap|out|stale)' transform='translate\(0 \d+\)')/m, HIGH = 18, ABOVE = 76, MOST_PARTED = 1 << 22;
function partsOf(text) {
  if (text.length > MOST_PARTED) return [];
  const tail = /(?:^<g class='v' .*\n)*^<\/g>\n<\/svg>\s*$/m.exec(text)[0], [begin, ...rows] = text.slice(0, -tail.length).split(ROW);
  const [, wide, high] = /^<svg [^>]*width='(\d+)' height='(\d+)'/.exec(begin).map(Number), each = Math.ceil(wide / (8 * HIGH)), parts = [];
  // (a row ends above the numbers of cycles that stand again in front of some)
  const endOf = (row) => ABOVE + Number(/\(0 (\d+)\)/.exec(row)[1]) + HIGH;
  for (let at = 0, top = 0, end; at === 0 || at < rows.length; at += each, top = end) {
    end = at + each < rows.length ? endOf(rows[at + each - 1]) : high;
    const part = begin.replace(/^<svg [^>]*>/, `<svg xmlns='http://www.w3.org/2000/svg' width='${wide}' height='${end - top}' viewBox='0 ${top} ${wide} ${end - top}'>`);
    parts.push(part + rows.slice(at, at + each).join("") + tail);
  }
  return parts;
}

// A picture in the colours of the day, and in those of the night, of which the style sheet shows one: WebKit tells no picture which it is.
function picture(bytes, words) {
  const text = textOf(bytes), [ofDay, ofNight] = ["not all", "all"].map((when) => text.replace("@media (prefers-color-scheme:dark)", "@media " + when));
  const drawn = (className, svg, alt = words) => element("img", { className, src: urlOf(svg, "image/svg+xml"), alt });
  const parts = partsOf(ofDay).map((part, at) => drawn("", part, at === 0 ? words : ""));
  return element("div", {}, drawn("day", ofDay), drawn("night", ofNight), ...(parts.length ? [element("div", { className: "paper" }, ...parts)] : []));
}

function showPicture({ output, errors }) {
  const note = textOf(errors).trim();
  if (note) byId("shown").append(element("p", { className: "note", textContent: note }));
  if (chosen.text) return showText({ output });
  const scroll = element("div", { className: "scroll picture", tabIndex: 0, role: "region", "aria-label": "picture of the pipeline" });
  scroll.append(picture(output, PICTURE));
  byId("shown").append(scroll);
}
