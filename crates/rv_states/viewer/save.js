// A panel, or the page, as a picture for a slide: an SVG of rectangles and texts that stand where the browser has them, or a PNG of it.

function svgText(text) { return text.replace(/[\u0000- ]+/g, " ").replace(/[&<>"]/g, (sign) => "&#" + sign.charCodeAt(0) + ";"); }
function svgBox(box) { return `x="${box.left.toFixed(2)}" y="${box.top.toFixed(2)}" width="${box.width.toFixed(2)}" height="${box.height.toFixed(2)}"`; }
function isSeen(colour) { return colour !== "transparent" && !/, 0\)$/.test(colour); }

// The lines of a text node, each with its box.
function linesOf(node) {
  const found = [], range = document.createRange();
  for (const word of node.data.matchAll(/\S+/g)) {
    range.setStart(node, word.index);
    range.setEnd(node, word.index + word[0].length);
    const box = range.getBoundingClientRect(), last = found[found.length - 1];
    if (box.width === 0) continue;
    if (last && Math.abs(last.top - box.top) < 2) Object.assign(last, { text: node.data.slice(last.from, word.index + word[0].length), width: box.right - last.left });
    else found.push({ text: word[0], from: word.index, left: box.left, top: box.top, width: box.width, height: box.height });
  }
  return found;
}

function drawnText(node, style) {
  const kind = `font-size="${parseFloat(style.fontSize)}" font-weight="${style.fontWeight}" font-style="${style.fontStyle}" fill="${style.color}"`;
  return linesOf(node).map((line) => `<text x="${line.left.toFixed(2)}" y="${(line.top + 0.8 * line.height).toFixed(2)}" ` +
    `textLength="${line.width.toFixed(2)}" lengthAdjust="spacingAndGlyphs" xml:space="preserve" ${kind}>${svgText(line.text)}</text>`).join("");
}

function drawnBox(style, box, hasOutline) {
  let text = isSeen(style.backgroundColor) ? `<rect ${svgBox(box)} fill="${style.backgroundColor}"/>` : "";
  const line = (x1, y1, x2, y2, width, colour) => `<line x1="${x1}" y1="${y1}" x2="${x2}" y2="${y2}" stroke="${colour}" stroke-width="${width}"/>`;
  const [top, right, bottom, left] = ["Top", "Right", "Bottom", "Left"].map((side) => style["border" + side + "Style"] === "none" ? 0 : parseFloat(style["border" + side + "Width"]));
  if (top) text += line(box.left, box.top + top / 2, box.right, box.top + top / 2, top, style.borderTopColor);
  if (bottom) text += line(box.left, box.bottom - bottom / 2, box.right, box.bottom - bottom / 2, bottom, style.borderBottomColor);
  if (left) text += line(box.left + left / 2, box.top, box.left + left / 2, box.bottom, left, style.borderLeftColor);
  if (right) text += line(box.right - right / 2, box.top, box.right - right / 2, box.bottom, right, style.borderRightColor);
  if (hasOutline && style.outlineStyle !== "none" && parseFloat(style.outlineWidth) > 0) {
    text += `<rect ${svgBox(box)} fill="none" stroke="${style.outlineColor}" stroke-width="${style.outlineWidth}"${style.outlineStyle === "solid" ? "" : ' stroke-dasharray="3 2"'}/>`;
  }
  return text;
}

function drawnElement(each) {
  if (each.tagName === "svg") return drawnLines(each);
  const style = getComputedStyle(each), box = each.getBoundingClientRect();
  const isEmpty = (box.width === 0 || box.height === 0) && !each.firstElementChild;
  if (style.display === "none" || style.visibility === "hidden" || isEmpty) return "";
  const layer = (child) => child.nodeType === 1 ? parseInt(getComputedStyle(child).zIndex, 10) || 0 : 0;
  const children = [...each.childNodes].sort((a, b) => layer(a) - layer(b));
  const inside = children.map((child) => child.nodeType === 3 ? drawnText(child, style) : child.nodeType === 1 ? drawnElement(child) : "").join("");
  const clipped = style.overflowX === "visible" ? inside
    : inside && `<svg ${svgBox(box)} viewBox="${[box.left, box.top, box.width, box.height].join(" ")}">${inside}</svg>`;
  return drawnBox(style, box, each !== document.activeElement) + clipped;
}

// The lines from producers and along the critical path are drawn already.
function drawnLines(svg) {
  const box = svg.getBoundingClientRect();
  const drawn = (path, { stroke, strokeWidth }) => `<path d="${path.getAttribute("d")}" fill="none" stroke="${stroke}" stroke-width="${parseFloat(strokeWidth)}"/>`;
  const paths = [...svg.querySelectorAll("path")].map((path) => drawn(path, getComputedStyle(path)));
  return `<svg ${svgBox(box)} viewBox="${svg.getAttribute("viewBox")}">${paths.join("")}</svg>`;
}

function savedName(each) { return runName() + "-" + (each.dataset.panel || "page") + "-" + run.cycleOf(view.place); }

function svgOf(each) {
  const box = each.getBoundingClientRect(), style = getComputedStyle(document.body);
  const title = (each.dataset.panel ? each.querySelector("h2").textContent : "The page") + " of " + runName() + " after cycle " + run.cycleOf(view.place);
  return `<svg xmlns="http://www.w3.org/2000/svg" width="${box.width}" height="${box.height}" viewBox="${[box.left, box.top, box.width, box.height].join(" ")}" ` +
    `font-family="${svgText(style.fontFamily)}" role="img"><title>${svgText(title)}</title><desc>${svgText(byId("machine").textContent + ". " + byId("happened").textContent)}</desc>` +
    `<rect ${svgBox(box)} fill="${style.backgroundColor}"/>${drawnElement(each)}</svg>`;
}

function give(blob, name) {
  const link = document.createElement("a");
  link.href = URL.createObjectURL(blob);
  link.download = name;
  link.click();
  setTimeout(() => URL.revokeObjectURL(link.href), 10000);
  say("Saved as " + name + ".");
}

// Saves the panel that has the focus, else the page.
function save(asImage) {
  const each = document.activeElement.closest("[data-panel]") || document.body, name = savedName(each), svg = svgOf(each);
  if (!asImage) return give(new Blob([svg], { type: "image/svg+xml" }), name + ".svg");
  const image = new Image(), canvas = document.createElement("canvas");
  image.onload = () => {
    Object.assign(canvas, { width: 2 * image.width, height: 2 * image.height });
    canvas.getContext("2d").drawImage(image, 0, 0, canvas.width, canvas.height);
    canvas.toBlob((blob) => give(blob, name + ".png"), "image/png");
  };
  image.onerror = () => say("This browser makes no PNG of it; v saves an SVG.");
  image.src = "data:image/svg+xml;charset=utf-8," + encodeURIComponent(svg);
}
