// The critical path through the picture: a ring around each event on it, a line from event to event, and above them the cause of each cycle.

// The step of the path that ends with an instruction's event in a cycle.
function pathMark(number, cycle) { return showsPath() ? account().cells.get(number + " " + cycle) : undefined; }

function stepWords({ event, wait, cause }) {
  if (!wait) return "the first event";
  return eventName(event) + " waited last for " + eventWords(wait.event, event.number) + ": " + cause;
}

// The cause of each cycle that is drawn, by its letter.
function causeHeads(run, firstColumn, lastColumn) {
  const heads = [element("div", { class: "corner", key: "causes" }, "critical path")];
  for (let column = firstColumn; column <= lastColumn; column += 1) {
    const cycle = run.first + column, step = account().stepIn(cycle), cause = step ? step.cause : afterLast, sort = sortOf(cause);
    const title = "cycle " + cycle + ": " + cause + (step && step.event.number !== undefined ? ", #" + step.event.number : "");
    const place = { key: cycle, "data-go": cycle, style: "left:" + columnAt(column), title };
    heads.push(element("div", { class: "cause badge sort-" + sort, ...place }, sorts[sort][0]));
  }
  return heads;
}

// The row of an event; an interrupt and a hidden instruction have none.
function rowOf(event) { return pictured.rows.get(event.number); }

// A line for each step that is in view, below the letters: in the cycle of the event that was waited for to the row of the one that waited, and
// along to it. Of a step between a row and none, as of an interrupt, the row's part is drawn.
function pathLines(run, firstRow, lastRow, firstColumn, lastColumn) {
  if (lastColumn < firstColumn) return []; // (the panel is left out)
  const first = run.first + firstColumn, last = run.first + lastColumn, lines = [];
  const wide = (lastColumn - firstColumn + 1) * picture.column, high = (lastRow - firstRow + 1) * picture.row;
  const x = (cycle) => ((cycle - first + 0.5) * picture.column).toFixed(2), y = (k) => ((k - firstRow + 0.92) * picture.row).toFixed(2);
  for (const { event, wait, from, to, cause } of account().steps) {
    if (to < first || from > last || !wait) continue;
    const own = rowOf(event), other = account().path.isShown(wait.event) ? rowOf(wait.event) : undefined;
    const end = own === undefined ? other : own, start = other === undefined ? own : other;
    if (end === undefined || Math.max(start, end) < firstRow || Math.min(start, end) > lastRow) continue;
    lines.push(element("path", { class: "step sort-" + sortOf(cause), d: "M" + x(from) + " " + y(start) + "V" + y(end) + "H" + x(to) }));
  }
  const top = (firstRow + headRows()) * picture.row, place = "left:" + columnAt(firstColumn) + ";top:" + top + "rem;width:" + wide + "rem;height:" + high + "rem";
  return [element("svg", { viewBox: "0 0 " + wide + " " + high, style: place }, ...lines)];
}

// The sorts of causes that the page's cycles have.
function pathLegend() {
  const known = new Set(account().shares.filter(({ cycles }) => cycles > 0).map(({ cause }) => sortOf(cause)));
  const item = (key, kind, letter, word) => element("span", { key }, element("b", { class: kind }, letter), " " + word);
  const own = Object.entries(sorts).filter(([sort]) => known.has(sort)), badges = own.map(([sort, [letter, word]]) => item(sort, "badge sort-" + sort, letter, word));
  return [item("event", "on-path", "F", "on the critical path, which waited for"), ...badges];
}
