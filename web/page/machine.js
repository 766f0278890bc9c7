// The machine as a form: a row for each key of a description, with its range, default and meaning, as docs/MACHINE.md has them. What is
// typed there is written into the text, and what stands in the text is shown there.
const GROUPS = [
  ["Memory", /^r[ao]m_/], ["Widths", /_width$/], ["Buffers and recovery", /^[a-z_]+$/],
  ["Units", /^(alu|mul|div|mem)\./], ["Cache", /^cache\./], ["Predictor", /^predictor\./], ["Words of memory in the report", /^report\./],
];

class MachineForm {
  // keys: rows of docs/MACHINE.md; write(key, value) is called with a value, or undefined for the default
  constructor(root, keys, write) {
    this.fields = new Map();
    const left = new Set(keys);
    for (const [title, pattern] of GROUPS) {
      const own = [...left].filter((row) => pattern.test(row.key));
      own.forEach((row) => left.delete(row));
      const group = element("fieldset", {}, element("legend", { textContent: title }));
      group.append(...(title === "Units" ? [this.grid(own, write)] : own.map((row) => this.row(row, write))));
      root.append(group);
    }
  }

  // Rows of one kind each, and columns of what each kind has.
  grid(rows, write) {
    const kinds = [...new Set(rows.map((row) => row.key.split(".")[0]))], names = [...new Set(rows.map((row) => row.key.split(".")[1]))];
    const heads = names.map((name) => {
      const row = rows.find((each) => each.key.endsWith("." + name));
      return element("th", { scope: "col", textContent: name, title: row.meaning + "; " + row.range });
    });
    const table = element("table", {}, element("thead", {}, element("tr", {}, element("td"), ...heads)));
    const body = table.appendChild(element("tbody"));
    for (const kind of kinds) {
      const cells = names.map((name) => element("td", {}, this.field(rows.find((row) => row.key === kind + "." + name), write)));
      body.append(element("tr", {}, element("th", { scope: "row", textContent: kind }), ...cells));
    }
    const note = (name) => { const row = rows.find((each) => each.key.endsWith("." + name)); return name + ": " + row.meaning + " (" + row.range + ")"; };
    const notes = names.map(note);
    return element("div", { className: "grid" }, table, element("p", { className: "meaning", textContent: notes.join(". ") + "." }));
  }

  row(row, write) {
    const field = this.field(row, write);
    const label = element("label", { textContent: row.key, for: field.id });
    const meaning = element("p", { className: "meaning", id: field.id + "-means", textContent: row.meaning + ". " + row.range + "; by default " + row.default + "." });
    field.setAttribute("aria-describedby", meaning.id);
    return element("div", { className: "row" }, label, field, meaning);
  }

  field(row, write) {
    const id = "key-" + row.key.replace(".", "-"), label = row.key + ", by default " + row.default;
    let field;
    if (row.choices) {
      field = element("select", { id, "aria-label": label, title: label });
      for (const choice of row.choices) field.append(element("option", { textContent: choice, value: choice }));
    } else {
      field = element("input", { id, "aria-label": label, title: label + "; " + row.range, type: row.isHex ? "text" : "number", spellcheck: false });
      if (!row.isHex) Object.assign(field, { min: row.least, max: row.most, step: row.multiple || 1 });
    }
    field.dataset.key = row.key;
    const event = row.choices ? "change" : "input";
    field.addEventListener(event, () => write(row.key, this.typed(row, field.value)));
    // (one that is left empty has the default)
    if (!row.choices) field.addEventListener("blur", () => { if (field.value.trim() === "") field.value = row.default; });
    this.fields.set(row.key, { field, row });
    return field;
  }

  // The value to write: undefined where the field is empty. What is no value is written as it is, and the program refuses it.
  typed(row, text) {
    if (text.trim() === "") return undefined;
    if (row.isBoolean) return text === "true";
    return row.choices && !row.isNumber ? text : row.isHex ? text.trim() : Number(text);
  }

  // Shows the values of a text.
  read(text) {
    const { values } = readToml(text);
    for (const [key, { field, row }] of this.fields) {
      const found = values.get(key), value = found ? found.value : row.default;
      const shown = row.isHex && typeof value === "number" ? "0x" + value.toString(16) : String(value);
      if (document.activeElement !== field || field.tagName === "SELECT") {
        if (row.choices && !row.choices.includes(shown)) field.selectedIndex = -1; else field.value = shown;
      }
      field.classList.toggle("changed", shown !== String(row.default));
    }
  }
}

// The values of a description by key, with defaults where the text has none.
function valuesOf(text, keys) {
  const { values } = readToml(text);
  return new Map(keys.map((row) => [row.key, String(values.has(row.key) ? values.get(row.key).value : row.default)]));
}
