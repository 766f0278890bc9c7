// The page to step through a run, as `page` prints it, in a frame that has no rights of this page: its scripts run apart, and say by a
// message where they stand. TELL and TOUCH stand before them; they are no part of what is saved.
const TELL = byId("tell").textContent;
// (a finger needs more room than a mouse: WCAG 2.2, 2.5.8)
const TOUCH = "<style>@media (pointer: coarse) { header :is(button, select, label, input:not([type=checkbox])) { min-width: 24px; min-height: 24px; }"
  + " header label { display: inline-flex; align-items: center; gap: 0.3rem; } }</style>";
let followed = "";
let seenCycle;
let marksPath = false;

// The viewer's critical path.
function showPathInSteps() {
  marksPath = true;
  chooseView("steps");
}

function showPage({ output }) {
  const html = textOf(output), head = html.indexOf("<head>") + "<head>".length;
  const url = urlOf(html.slice(0, head) + "<script>" + TELL + "</" + "script>" + TOUCH + html.slice(head), "text/html");
  // (a word alone would be a place of the viewer, to which the browser scrolls)
  const place = [seenCycle === undefined ? "" : "cycle=" + seenCycle, followed === "" ? "" : "follow=" + followed, marksPath ? "path=" : ""].filter(Boolean).join("&");
  const frame = element("iframe", { title: "the run, cycle by cycle: the arrow keys step; ? has all keys", sandbox: "allow-scripts allow-downloads", id: "stepper", src: url + (place ? "#" + place : "") });
  frame.onload = () => { showColours(); if (!isWalking && [document.body, byId("tab-steps"), byId("shown")].includes(document.activeElement)) frame.focus(); };
  byId("shown").append(frame);
}

addEventListener("message", (event) => {
  const frame = byId("stepper"), told = event.data;
  if (!frame || event.source !== frame.contentWindow || !told || typeof told !== "object") return;
  if (told.file instanceof File) return openFile(told.file);
  if (told.beside === true) return say("Two runs stand side by side in pages that are saved: save run.html of each, and press 2 there.");
  if (/^-?\d{1,7}$/.test(told.cycle)) seenCycle = told.cycle;
  const place = String(told.place).slice(0, 200);
  if (told.place !== undefined) followed = (/follow=(\d{1,9})/.exec(place) || ["", ""])[1];
  // (the viewer writes its address a moment after it is opened)
  if (place.includes("cycle=")) marksPath = /[#&]path(&|$)/.test(place);
  if (/^(Enter|[\d0jJ])$/.test(told.key)) shortcut(told.key);
  else writeAddress();
});
