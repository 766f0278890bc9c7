addEventListener("keydown", (event) => {
  const key = event.ctrlKey && event.key === "Enter" ? event.key : keyWithAlt(event);
  if (key) { event.preventDefault(); parent.postMessage({ key }, "*"); }
});
// (a frame of the page may open no other page, so that no run can stand beside this one here)
addEventListener("keydown", (event) => {
  const { key, ctrlKey, altKey, metaKey, target } = event, isWritten = target.matches?.("select, input:not([type=range], [type=checkbox])");
  if (key === "2" && !ctrlKey && !altKey && !metaKey && !isWritten) { event.stopPropagation(); parent.postMessage({ beside: true }, "*"); }
}, true);
// (a file that is dropped here is the page's, as anywhere in it)
addEventListener("dragover", (event) => { if ([...event.dataTransfer.types].includes("Files")) event.preventDefault(); });
addEventListener("drop", (event) => {
  const [file] = event.dataTransfer.files;
  if (file) { event.preventDefault(); parent.postMessage({ file }, "*"); }
});
// (the colours that were chosen for the page)
addEventListener("message", ({ source, data }) => { if (source === parent && typeof data?.colours === "string") paint(data.colours); });
let told = "";
setInterval(() => {
  const cycle = document.documentElement.dataset.cycle, place = location.hash, now = cycle + place;
  if (cycle !== undefined && now !== told) { told = now; parent.postMessage({ cycle, place }, "*"); }
}, 200);
