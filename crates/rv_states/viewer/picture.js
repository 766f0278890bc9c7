// The pipeline picture: a row for each fetched instruction, a column for each cycle. Only the part that is in view is in the document; the
// labels and the cycles' numbers stay in view. Measures in rem.

const picture = { row: 1.25, column: 1.05, label: 19 };

// The instructions that have a row, and the row of each: all, or those that were not fetched in vain.
const pictured = { numbers: [], rows: new Map() };

// The quiz would tell by it what will be squashed.
function hidesGone() { return settings.hide && !settings.quiz; }

function sizePicture(run) {
  const all = run.table.filter((each) => each !== undefined), shown = hidesGone() ? all.filter((each) => !run.isGone(each)) : all;
  pictured.numbers = shown.map((each) => each.number);
  pictured.rows = new Map(pictured.numbers.map((number, k) => [number, k]));
  byId("picture-space").style.width = picture.label + run.places.length * picture.column + "rem";
  byId("picture-space").style.height = (shown.length + 1 + headRows()) * picture.row + "rem";
  byId("picture").classList.toggle("with-path", showsPath());
  note("picture-note", counted(all.length, "instruction") + " fetched in cycles " + run.first + " to " + run.last +
    (all.length > shown.length ? ", " + (all.length - shown.length) + " hidden" : ""));
}

// The heads are the cycles, and with the critical path the cause of each.
function headRows() { return showsPath() ? 2 : 1; }

// The row of the first instruction that is not older than a number.
function rowFrom(number) {
  const k = pictured.numbers.findIndex((each) => each >= number);
  return k < 0 ? pictured.numbers.length : k;
}

// Scrolls to the cursor's column, and to the rows of what is in flight: all of them where they fit, else as many of the oldest as do; and to
// that of the followed instruction.
function scrollPicture(view) {
  const { run, place, line } = view, rem = measures.rem, width = picture.column * rem, height = picture.row * rem;
  let { top, left, width: wide, height: high } = measures.picture;
  wide -= picture.label * rem;
  const column = Math.max(place - 1, 0) * width;
  if (column < left + 3 * width || column + 4 * width > left + wide) left = Math.max(0, Math.floor((column - wide * 0.7) / width) * width);
  const flying = line.in_flight.map((number) => pictured.rows.get(number)).filter((k) => k !== undefined);
  const beside = Math.max(0, rowFrom(run.places[place].fetchedBefore) - 1);
  const first = flying.length ? flying[0] : Math.max(0, beside - 2), last = flying.length ? flying[flying.length - 1] : beside;
  // A row stands below the heads, which stay at the top of the box.
  const see = (first, last) => {
    const least = Math.ceil(last + 1 + headRows() - high / height) * height, most = first * height;
    if (top < least) top = least;
    if (top > most) top = most;
  };
  see(first, last);
  // The followed one is seen before others, while it is in flight and where it has just left.
  const followed = run.table[view.followed], its = pictured.rows.get(view.followed), cycle = run.cycleOf(place);
  const isPresent = its !== undefined && followed.fetched <= cycle && !(followed.left < cycle), isEvent = view.event && view.event.at === cycle;
  if (isPresent || (its !== undefined && isEvent && view.event.number === view.followed)) see(its, its);
  scrollBox("picture", Math.max(0, top), left);
}

function columnAt(column) { return picture.label + column * picture.column + "rem"; }

function drawPicture(view) {
  const { run } = view, { top, left, width: wide, height: high } = measures.picture;
  const height = picture.row * measures.rem, width = picture.column * measures.rem, last = settings.quiz ? view.place - 1 : run.places.length - 2;
  const firstRow = Math.max(0, Math.floor(top / height) - 4), lastRow = Math.ceil((top + high) / height) + 4;
  const firstColumn = Math.max(0, Math.floor(left / width) - 4), lastColumn = Math.min(last, Math.ceil((left + wide - picture.label * measures.rem) / width) + 4);
  const shown = pictured.numbers.slice(firstRow, lastRow + 1).filter((number) => !settings.quiz || run.table[number].fetched <= run.cycleOf(view.place));
  const rows = pictureRows(view, shown, firstRow, firstColumn, lastColumn);
  draw("picture-labels", rows.map((each) => each.label));
  draw("picture-rows", rows.map((each) => each.row));
  const heads = [element("div", { class: "corner" }, "instruction")];
  for (let column = firstColumn; column <= lastColumn; column += 1) {
    const cycle = run.first + column, now = column === view.place - 1, interrupt = run.places[column + 1].interrupts.length > 0;
    if (!now && !interrupt && (cycle % 5 !== 0 || Math.abs(column - view.place + 1) < 4)) continue;
    if (!now && column * width < left) continue; // (it would stand half under the labels)
    const title = "cycle " + cycle + (interrupt ? ": interrupt" : "");
    const text = (interrupt ? "!" : "") + (now || !interrupt ? cycle : "");
    const kinds = words("head", interrupt && "interrupt", now && "now");
    heads.push(element("div", { class: kinds, "data-go": cycle, style: "left:" + columnAt(column), title }, text));
  }
  draw("picture-heads", showsPath() ? [...heads, ...causeHeads(run, firstColumn, lastColumn)] : heads);
  draw("picture-path", showsPath() ? pathLines(run, firstRow, lastRow, firstColumn, lastColumn) : []);
  byId("picture-cursor").style.left = columnAt(view.place - 1);
  byId("picture-cursor").hidden = view.place === 0;
}

// What a label has room for, in characters: the address is left off where it would cut the statement. (A browser may draw letters wider.)
const mostRoom = 30;
function labelRoom() { return Math.min(mostRoom, Math.floor(18.5 * measures.rem / measures.letter)); }
function labelOf(number, pc, statement) {
  const gap = "\u00a0".repeat(Math.max(1, 5 - String(number).length));
  const whole = "#" + number + gap + hex(pc) + " " + statement;
  return whole.length <= labelRoom() || statement === hex(pc) ? whole : "#" + number + gap + statement;
}

// The rows as they were drawn last, by their numbers: one that is as it was is not described anew.
let drawnBefore = new Map();
function pictureRows(view, numbers, firstRow, firstColumn, lastColumn) {
  const { run } = view, now = run.cycleOf(view.place), drawn = new Map();
  numbers.forEach((number, k) => {
    const instruction = run.table[number], { fetched, left } = instruction;
    const end = left !== undefined && (!settings.quiz || left <= now) ? instruction.end : undefined;
    const from = Math.max(fetched, run.first + firstColumn), to = Math.min(left === undefined ? run.last : left, run.first + lastColumn);
    const sign = [firstRow + k, from, to, end, showsPath(), labelRoom()].join(), before = drawnBefore.get(number);
    drawn.set(number, before && before.sign === sign ? before : { sign, ...pictureRow(run, instruction, firstRow + k, from, to, end) });
  });
  drawnBefore = drawn;
  return [...drawn.values()];
}

// A row: its label, which stands in a box of its own, since one box that stays in view costs a step less than many; and its cells, which
// stand beside each other from the first that is drawn.
function pictureRow(run, instruction, k, from, to, end) {
  const { number, pc } = instruction, cells = [];
  for (let cycle = from; cycle <= to; cycle += 1) {
    const letter = letterOf(instruction, cycle), step = pathMark(number, cycle);
    const title = "#" + number + " in cycle " + cycle + ": " + letterWords[letter] + (step ? "; on the critical path: " + stepWords(step) : "");
    const kind = "cell " + cellClass(letter) + (step ? " on-path sort-" + sortOf(step.cause) : "");
    cells.push(span(kind, letter, { key: cycle, role: "cell", title, "data-cycle": cycle }));
  }
  const statement = run.statement(instruction).replace(/\s+/g, " "), id = "label-" + number, label = labelOf(number, pc, statement);
  return {
    label: element("div", { class: words("label", { squashed: "gone", trapped: "trap" }[end]), key: number, id, role: "rowheader", "data-number": number,
      title: hex(pc) + " " + statement, style: "top:" + k * picture.row + "rem;" + (smaller(label, labelRoom()) || "") }, label),
    row: element("div", { class: "row", key: number, role: "row", "aria-owns": id, "data-number": number,
      style: "top:" + (k + headRows()) * picture.row + "rem;padding-left:" + columnAt(from - run.first) }, ...cells),
  };
}

// A cell's tip says for what an instruction waits, worked out when the cell is pointed at.
function tellWait(view, cell) {
  const number = Number(cell.parentNode.dataset.number), cycle = Number(cell.dataset.cycle);
  cell.title = "In cycle " + cycle + ": " + instructionSentence(view.run, number, cycle - view.run.first + 1);
}

// Lines from the broadcasts of the followed instruction's producers to its issue.
function drawArrows(view) {
  const { run } = view, followed = run.table[view.followed], row = pictured.rows.get(view.followed), lines = [];
  const cycle = run.cycleOf(view.place), isKnown = (at) => at !== undefined && (!settings.quiz || at <= cycle);
  for (const { number } of row === undefined ? [] : followed.producers) {
    const from = pictured.rows.get(number), { broadcast } = run.table[number];
    if (from === undefined || !isKnown(broadcast)) continue;
    const to = isKnown(followed.issued) ? followed.issued : Math.max(broadcast + 1, Math.min(cycle, run.last));
    const x = (at) => picture.label + (at - run.first + 0.5) * picture.column, y = (k) => (k + headRows() + 0.5) * picture.row;
    lines.push(element("path", { class: "arrow", d: "M" + x(broadcast) + " " + (y(from) + 0.5) + " L" + x(to) + " " + (y(row) - 0.5), "data-from": number }));
  }
  const size = [byId("picture-space").style.width, byId("picture-space").style.height].map(parseFloat);
  draw("picture-arrows", lines.length ? [element("svg", { viewBox: "0 0 " + size.join(" "), style: "width:" + size[0] + "rem;height:" + size[1] + "rem" }, ...lines)] : []);
}

function showLegend() {
  const item = (kind, letter, word) => element("span", {}, element("b", { class: kind }, letter), " " + word);
  const items = Object.entries(letterWords).map(([letter, word]) => item(cellClass(letter), letter, word));
  draw("legend", [...items, item("interrupt", "!", "interrupt"), ...(showsPath() ? pathLegend() : [])]);
}

function cellClass(letter) {
  return { F: "f", D: "d", I: "i", "=": "e", "~": "r", B: "b", C: "c", T: "t", x: "x", ".": "w" }[letter];
}
