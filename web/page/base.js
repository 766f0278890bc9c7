// Small words that all the other files use. What comes from a job or from the program is put into the page as text, never as markup.
const byId = (id) => document.getElementById(id);

// element("td", { textContent: "5" }, child, ..): an element with these properties and children; a property in dashes is an attribute.
function element(name, properties, ...children) {
  const made = document.createElement(name);
  for (const [key, value] of Object.entries(properties || {})) {
    if (key.includes("-") || key === "role" || key === "for") made.setAttribute(key, value);
    else made[key] = value;
  }
  made.append(...children);
  return made;
}

const counted = (count, noun) => grouped(count) + " " + noun + (count === 1 ? "" : "s");
const grouped = (number) => String(number).replace(/\B(?=(\d{3})+$)/g, ",");
const bytesOf = (text) => new TextEncoder().encode(text);
const textOf = (bytes) => new TextDecoder().decode(bytes);

// later(ms, act): a call that waits until it was not called again for so long
function later(ms, act) {
  let timer;
  return () => { clearTimeout(timer); timer = setTimeout(act, ms); };
}

// The arrow keys open a list that acts on what is chosen in it: where it is closed, each of them would choose, and act, at once.
function openByArrows(list) {
  list.addEventListener("keydown", (event) => {
    if (event.altKey || !/^Arrow(Up|Down)$/.test(event.key) || !list.showPicker) return;
    event.preventDefault();
    try { list.showPicker(); } catch { /* it stays closed */ }
  });
}

// save(name, bytes): hands a file to the one who looks at the page
function save(name, bytes) {
  const url = URL.createObjectURL(new Blob([bytes], { type: "application/octet-stream" }));
  element("a", { href: url, download: name }).click();
  setTimeout(() => URL.revokeObjectURL(url), 10000);
}

// What was refused stays to be read until the job is changed; so does a note.
function refuse(text, isNote = false) {
  byId("refused").textContent = text;
  byId("refused").classList.toggle("note", isNote);
}

const note = (text) => refuse(text, true);

// What the page says of itself: one line, read aloud.
function say(text, isFault) {
  byId("status").textContent = text;
  byId("status").classList.toggle("fault", Boolean(isFault));
}
