// Light or dark: as the system is, until one presses the button for the other one. That is kept for all jobs, and stands in no address.
const KEPT_COLOURS = "rv_sim colours", systemIsDark = matchMedia("(prefers-color-scheme: dark)");
let ownColours = "";

const isDark = () => (ownColours === "" ? systemIsDark.matches : ownColours === "dark");

function turnColours() {
  const turned = isDark() ? "light" : "dark";
  ownColours = (turned === "dark") === systemIsDark.matches ? "" : turned;
  try { if (ownColours) localStorage.setItem(KEPT_COLOURS, ownColours); else localStorage.removeItem(KEPT_COLOURS); } catch { /* until the page is left */ }
  showColours();
}

function showColours() {
  paint(ownColours);
  byId("dark").setAttribute("aria-pressed", String(isDark()));
  byId("stepper")?.contentWindow.postMessage({ colours: ownColours }, "*");
}

// (before anything of the page is seen)
try { ownColours = (/^(light|dark)$/.exec(localStorage.getItem(KEPT_COLOURS)) || [""])[0]; } catch { /* a browser may have no store for a page */ }
paint(ownColours);
