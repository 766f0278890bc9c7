// Two runs side by side: this page and another in two frames, with one cursor. Where one goes the other follows, to the same cycle or to
// as many retired instructions. The frames and the page around them speak by messages, since files are of different origins.

const framed = window.parent !== window && new URLSearchParams(location.hash.slice(1)).has("side");

// What the page shows that may differ: texts, and what entries of the reorder buffer have come to.
function factsOf(view) {
  const facts = Object.fromEntries(view.line.state.reorder_buffer.map((_, k) => entryFact(view, k)));
  for (const each of document.querySelectorAll("[data-fact]")) facts[each.dataset.fact] = each.textContent;
  return facts;
}

// What a frame tells the page around it: where it stands, and what it shows that may differ.
function tell(asked) {
  if (!framed) return;
  window.parent.postMessage({
    rv_sim: "shown", asked: Boolean(asked), cycle: run.cycleOf(view.place), retired: run.places[view.place].retired, first: run.first, last: run.last,
    facts: factsOf(view),
  }, "*");
}

function tellPair(wish) { if (framed) window.parent.postMessage({ rv_sim: wish }, "*"); }

// Marks what differs from the other run.
let othersFacts = null;
function markDifferences() {
  if (!othersFacts) return;
  const facts = factsOf(view);
  for (const each of document.querySelectorAll("[data-fact], [data-entry]")) {
    const name = each.dataset.fact || "entry " + each.dataset.entry, other = othersFacts[name];
    each.classList.toggle("differs", (other === undefined ? "00000000" : other) !== facts[name]);
  }
}

// The first place with as many retired instructions, else the last one before it.
function placeOfRetired(retired) {
  const place = run.places.findIndex((here) => here.retired >= retired);
  return place < 0 ? lastPlace : place;
}

function hear(event) {
  const said = event.data;
  if (event.source !== window.parent || !said || typeof said !== "object") return;
  if (said.rv_sim === "go" && Number.isInteger(said.cycle)) go(said.cycle - run.first + 1, true);
  if (said.rv_sim === "retired" && Number.isInteger(said.retired)) go(placeOfRetired(said.retired), true);
  if (said.rv_sim === "differ" && said.facts && typeof said.facts === "object") { othersFacts = said.facts; markDifferences(); }
}

// The page around the frames.
const pair = { frames: [], shown: [], byRetired: false, missing: "" };

function besideName() { return framed ? null : new URLSearchParams(location.hash.slice(1)).get("beside"); }

function frameOf(address, title) {
  const frame = document.createElement("iframe");
  Object.assign(frame, { src: address, title });
  return frame;
}

// The address of the page that was typed, and its name; what is no address is no page.
function pageNamed(typed) {
  try {
    const { href, pathname } = new URL(typed.split("#")[0], location.href), name = pathname.split("/").pop();
    return { href, name: /%(?![0-9a-f]{2})/i.test(name) ? name : decodeURIComponent(name) };
  } catch {
    pair.missing = typed;
    return { href: "about:blank", name: typed };
  }
}

function startPair(other) {
  const words = new URLSearchParams(location.hash.slice(1));
  words.delete("beside");
  words.set("side", "");
  const own = location.href.split("#")[0] + "#" + words, that = pageNamed(other);
  document.body.className = "pair";
  pair.frames = [frameOf(own, "this run"), frameOf(that.href + "#" + words, "the other run")];
  // A page of a run has said where it stands by the time it is loaded.
  pair.frames[1].addEventListener("load", () => setTimeout(() => { pair.missing = that.name; showNote(); }, 500));
  byId("sides").replaceChildren(...pair.frames);
  byId("pair").hidden = false;
  document.title = runName() + " beside " + that.name;
  window.addEventListener("message", hearFrame);
  window.addEventListener("hashchange", () => location.reload());
  byId("pair-slider").addEventListener("input", (event) => pair.frames.forEach((frame) => frame.contentWindow.postMessage({ rv_sim: "go", cycle: Number(event.target.value) }, "*")));
  byId("pair-by").addEventListener("change", (event) => { pair.byRetired = event.target.checked; followLeader(0); });
  pair.frames[0].addEventListener("load", () => pair.frames[0].contentWindow.focus());
}

function showNote() {
  const words = pair.shown.filter((each) => each !== undefined).map((each) => "cycle " + each.cycle + ", " + each.retired + " retired");
  if (pair.missing && !pair.shown[1]) words.push(pair.missing + " is no page of a run; 1: this run alone");
  byId("pair-note").textContent = words.join(" | ");
}

function followLeader(k) {
  const { cycle, retired } = pair.shown[k] || {};
  if (cycle === undefined) return;
  pair.frames[1 - k].contentWindow.postMessage(pair.byRetired ? { rv_sim: "retired", retired } : { rv_sim: "go", cycle }, "*");
}

function hearFrame(event) {
  const k = pair.frames.findIndex((frame) => frame.contentWindow === event.source), said = event.data;
  if (k < 0 || !said || typeof said !== "object") return;
  if (said.rv_sim === "turn") { pair.byRetired = byId("pair-by").checked = !pair.byRetired; return followLeader(k); }
  if (said.rv_sim === "other") return pair.frames[1 - k].contentWindow.focus();
  if (said.rv_sim === "alone") return showAlone(k);
  if (said.rv_sim !== "shown") return;
  pair.shown[k] = said;
  if (!said.asked) followLeader(k);
  const both = pair.shown.filter((each) => each !== undefined), slider = byId("pair-slider");
  Object.assign(slider, { min: Math.min(...both.map((each) => each.first)) - 1, max: Math.max(...both.map((each) => each.last)) });
  slider.value = said.cycle;
  showNote();
  if (both.length === 2) pair.frames.forEach((frame, j) => frame.contentWindow.postMessage({ rv_sim: "differ", facts: pair.shown[1 - j].facts }, "*"));
}

// One of the two without the other, where it stands.
function showAlone(k) {
  const [file, hash] = pair.frames[k].src.split("#"), words = new URLSearchParams(hash);
  words.delete("side");
  if (pair.shown[k]) words.set("cycle", pair.shown[k].cycle);
  location.href = file + "#" + words;
}

// In a frame: by cycle or by retired instructions. In a page alone: asks for the other page.
function turnPair() {
  if (framed) return tellPair("turn");
  byId("beside").hidden = false;
  byId("other").focus();
}
