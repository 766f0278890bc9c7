// What is drawn. An element is described by a plain object, and the document is brought to the description: a step changes only what differs.
// All text of a program goes into text nodes, never into markup.

function byId(id) { return document.getElementById(id); }

// The description of an element. An attribute that is undefined or false is left out, and a child that is no description is text. Among the
// children of one parent an element with a key stays the same element wherever it comes to stand.
function element(tag, attributes, ...children) {
  const { key, ...others } = attributes;
  return { tag, key, attributes: others, children: children.flat().filter((child) => child !== undefined && child !== "") };
}

const drawings = ["svg", "path", "defs", "marker"];

function put(node, name, value) {
  if (value === undefined || value === false) node.removeAttribute(name);
  else if (name === "style") node.style.cssText = value;
  else node.setAttribute(name, value === true ? "" : value);
}

function make(wanted) {
  if (!wanted.tag) return document.createTextNode(wanted);
  const made = drawings.includes(wanted.tag) ? document.createElementNS("http://www.w3.org/2000/svg", wanted.tag) : document.createElement(wanted.tag);
  made.drawn = { tag: wanted.tag, key: wanted.key, attributes: {}, children: [] };
  bring(made, wanted);
  return made;
}

// What an element was drawn from says what differs: the document is asked for nothing, and told that alone.
function bring(node, wanted) {
  if (node.drawn === wanted) return;
  if (!wanted.tag) { if (node.data !== String(wanted)) node.data = wanted; return; }
  const old = node.drawn.attributes, now = wanted.attributes;
  for (const name in old) if (!(name in now)) put(node, name, undefined);
  for (const name in now) if (now[name] !== old[name]) put(node, name, now[name]);
  node.drawn = wanted;
  bringChildren(node, wanted.children);
}

function isAlike(one, other) { return one.tag === other.tag && one.key === other.key; }

function isKind(node, wanted) {
  if (!node) return false;
  if (!wanted.tag) return node.nodeType === Node.TEXT_NODE;
  return Boolean(node.drawn) && node.drawn.tag === wanted.tag && node.drawn.key === undefined;
}

function bringChildren(box, wanted) {
  const held = box.held || [];
  box.held = wanted;
  if (held.length !== wanted.length || !wanted.every((each, k) => isAlike(each, held[k]))) return arrange(box, wanted);
  let node = box.firstChild;
  wanted.forEach((each, k) => {
    if (each !== held[k]) bring(node, each);
    node = node.nextSibling;
  });
}

// Brings the children in their order: some are new, some have gone.
function arrange(box, wanted) {
  const keys = new Set(wanted.map((each) => each.key).filter((key) => key !== undefined)), kept = new Map();
  for (const node of [...box.childNodes]) {
    const key = node.drawn && node.drawn.key;
    if (key === undefined) continue;
    if (keys.has(key)) kept.set(key, node); else node.remove();
  }
  let next = box.firstChild;
  for (const each of wanted) {
    let node = each.key === undefined ? (isKind(next, each) ? next : undefined) : kept.get(each.key);
    kept.delete(each.key);
    if (node) bring(node, each); else node = make(each);
    if (node === next) next = next.nextSibling; else box.insertBefore(node, next);
  }
  while (next) {
    const gone = next;
    next = next.nextSibling;
    gone.remove();
  }
}

function draw(id, ...children) { bringChildren(byId(id), children.flat()); }

// A row of a table, which an instruction's number tells from the others; its heading; and the cell that takes the room that is left.
function row(attributes, ...cells) {
  const isCell = (cell) => cell && (cell.tag === "td" || cell.tag === "th");
  return element("tr", { key: attributes["data-number"], ...attributes }, ...cells.map((cell) => isCell(cell) ? cell : element("td", {}, cell)));
}
function heading(text) { return element("th", { scope: "row" }, text); }
function wide(...children) { return element("td", { class: "wide" }, ...children); }
// A statement after its address, which is left off where it would cut the statement. One that has no room alone is smaller.
function placed(pc, statement) {
  return element("td", { class: "wide", title: hex(pc) + " " + statement },
    element("div", { class: "placed" }, span("pc", hex(pc)), span("text", statement, { style: smaller(statement, 22) })));
}
function smaller(text, room) { return text.length > room ? "font-size:" + Math.max(0.7, room / text.length).toFixed(2) + "em" : undefined; }
function span(kind, text, attributes) { return element("span", { class: kind, ...attributes }, text); }
function words(...kinds) { return kinds.filter((kind) => kind).join(" "); }

// A button that follows an instruction.
function tag(number, text, title) {
  if (number === undefined) return element("span", {}, "-");
  return element("button", { class: "tag", type: "button", "data-number": number, title, tabindex: -1 }, text || "#" + number);
}

// Fills a table with rows, and with as many empty ones as make it so long.
function fill(id, rows, least, columns) {
  while (rows.length < least) rows.push(element("tr", { class: "free" }, element("td", { colspan: columns }, "\u00a0")));
  draw(id, rows);
}

function note(id, text) { if (byId(id).textContent !== text) byId(id).textContent = text; }
function markChange(changed) { return changed ? { class: "changed", title: "changed in this cycle" } : {}; }
