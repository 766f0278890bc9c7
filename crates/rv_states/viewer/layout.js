// The layout: what is measured of it, what is scrolled into view, the size of type, and which panels are shown.

// The layout is measured once a step, when the panels are filled: reading it between changes would lay the page out each time.
const measures = { rem: 11, letter: 6.6 };
const scrolled = ["source", "memory", "picture"];
function measure() {
  measures.rem = parseFloat(getComputedStyle(document.documentElement).fontSize);
  measures.letter = byId("letters").getBoundingClientRect().width / byId("letters").textContent.length;
  for (const id of scrolled) {
    const box = byId(id);
    measures[id] = { width: box.clientWidth, height: box.clientHeight, top: box.scrollTop, left: box.scrollLeft };
  }
}
function scrollBox(id, top, left) {
  const box = byId(id);
  if (top !== measures[id].top) box.scrollTop = top;
  if (left !== measures[id].left) box.scrollLeft = left;
  Object.assign(measures[id], { top: box.scrollTop, left: box.scrollLeft });
}

// On paper nothing is scrolled: what was, is moved there as far; and a sheet has room for more rows than a window.
function layOutForPrint(view) {
  for (const id of scrolled) {
    byId(id).style.setProperty("--down", measures[id].top / measures.rem);
    byId(id).style.setProperty("--along", measures[id].left / measures.rem);
    measures[id].height += 30 * measures.rem;
  }
  for (const show of [showSource, showMemory, drawPicture]) show(view);
  markFollowed(view);
}

// A list of which only the rows in view are in the document: it is scrolled first, where a row is wanted, and drawn with the rest.
const lists = {};
function scrollList(id, wanted) {
  const height = 1.25 * measures.rem, { top, height: high } = measures[id];
  if (wanted >= 0 && (wanted * height < top || (wanted + 2) * height > top + high)) scrollBox(id, Math.max(0, Math.floor(wanted - high / height / 3) * height), 0);
}
function drawList(id) {
  const { count, rowAt } = lists[id], { top, height: high } = measures[id], height = 1.25 * measures.rem, rows = [];
  const from = Math.max(0, Math.floor(top / height) - 4), to = Math.min(count - 1, Math.ceil((top + high) / height) + 4);
  for (let k = from; k <= to; k += 1) {
    const made = rowAt(k);
    Object.assign(made, { key: k, attributes: { ...made.attributes, style: "top:" + 1.25 * k + "rem" } });
    rows.push(made);
  }
  bringChildren(byId(id).firstElementChild, rows);
}
function sizeList(id, count) { byId(id).firstElementChild.style.height = 1.25 * count + "rem"; }

// A table that may be long: past so many rows only those in view are in the document, between gaps as high as the others.
const longest = 40, drawnRows = 28, tops = { rob: 0, stations: 0 };
function boxOf(id) { return byId(id).closest(".scroll"); }
function fillLong(id, count, rowAt, least, columns) {
  const height = rowHeights[id], isLong = count > longest;
  const from = isLong ? Math.max(0, Math.min(count - drawnRows, Math.floor(tops[id] / (height * measures.rem)) - 4)) : 0, to = isLong ? from + drawnRows : count;
  const gap = (name, rows) => rows > 0 ? [element("tr", { key: name, class: "gap", style: "height:" + rows * height + "rem" }, element("td", { colspan: columns }))] : [];
  const rows = [];
  for (let k = from; k < to; k += 1) rows.push(rowAt(k));
  fill(id, [...gap("above", from), ...rows, ...gap("below", count - to)], least, columns);
}
const rowHeights = { rob: 1.25, stations: 1.1 };

// Scrolls to what a view wants to be seen, before the lists and the picture are drawn.
function scrollAll(view) {
  const { run, place, line } = view, stored = run.places[place].stored[0];
  const first = line.in_flight.length ? run.table[line.in_flight[0]].pc : line.state.pc;
  scrollList("source", run.lineOf.get(view.address !== undefined ? view.address : first));
  const wanted = view.address !== undefined ? view.address : stored && stored.address;
  scrollList("memory", wanted === undefined ? -1 : run.memoryRows.indexOf(wanted - wanted % 16));
  scrollPicture(view);
}

// The size of type: 1 is that at which all panels are in view.
function sizeType(factor) {
  settings.size = Math.min(4, Math.max(0.5, Math.round(100 * factor) / 100));
  document.documentElement.style.setProperty("--size", settings.size);
}

// The panels that a switch brings, and those that make room for them.
function isLeftOut(name) {
  const brought = { textbook: settings.textbook, waits: showsPath(), path: showsPath() };
  const left = { rob: settings.textbook || showsPath(), stations: settings.textbook, csrs: showsPath() };
  return name in brought ? !brought[name] : Boolean(left[name]);
}

// The panels by name, and those that are left out. A column without a panel gives its room to the others.
function panelNames() { return [...document.querySelectorAll("[data-panel]")].map((each) => each.dataset.panel); }
function showPanels() {
  for (const each of document.querySelectorAll("[data-panel]")) {
    const name = each.dataset.panel;
    each.hidden = isLeftOut(name) || settings.without.has(name);
  }
  for (const each of document.querySelectorAll(".column")) each.hidden = !each.querySelector(".panel:not([hidden])");
}
function drawSwitches() {
  draw("switches", panelNames().map((name) => element("label", {},
    element("input", { type: "checkbox", "data-switch": name, checked: !settings.without.has(name) }), " " + name)));
}
