"""What a reader sees of a page: texts, places and marks, read in the browser."""

READ = r"""(() => {
  const text = (each) => each.textContent.replace(/\u00a0/g, " ").replace(/\s+/g, " ").trim();
  const box = (each) => { const { left, top, right, bottom, width, height } = each.getBoundingClientRect(); return { left, top, right, bottom, width, height }; };
  const marks = ["changed", "stale", "followed", "producing", "consuming", "touched", "dirty", "flying", "gone", "trap", "free", "fault", "missed"];
  const marksOf = (each) => marks.filter((name) => each.classList.contains(name));
  const cell = (each) => ({ text: text(each), marks: marksOf(each), head: each.tagName === "TH", kind: each.className, tip: each.title });
  // a statement after its address, or its label, which is out of sight where there is no room for both: without need, or with the statement cut, it
  // is a fault
  const placed = (line, tip) => {
    const [first, statement] = line.children, isSeen = box(first).top < box(line).bottom - 2, inner = statement.matches(".placed") && placed(statement, "");
    const wanted = inner ? inner[2] : statement.scrollWidth, room = line.clientWidth - wanted, needed = box(first).width + parseFloat(getComputedStyle(line).columnGap);
    const faults = [!isSeen && room > needed + 1 && "left off without need", isSeen && box(statement).top > box(first).top + 2 && "a statement out of sight",
      !inner && statement.scrollWidth > statement.clientWidth && statement.clientWidth < line.clientWidth - 1 && "a statement cut"].filter(Boolean);
    const said = inner ? { ...inner[1], text: [inner[0].text, inner[1].text].filter(Boolean).join(" ") } : cell(statement);
    return [{ ...cell(first), text: isSeen ? text(first) : "", faults: [...faults, ...(inner ? inner[0].faults : [])] }, { ...said, tip }, wanted + needed];
  };
  const cells = (row) => [...row.cells].flatMap((each) => each.querySelector(".placed") ? placed(each.querySelector(".placed"), each.title).slice(0, 2) : [cell(each)]);
  const all = (id) => [...document.querySelectorAll(`#${id} > tr`)], isGap = (row) => row.className === "gap";
  const rows = (id) => all(id).filter((row) => !isGap(row)).map((row) => ({ cells: cells(row), marks: marksOf(row),
    widths: [...row.querySelectorAll(".bar")].map((bar) => bar.style.width) }));
  const tables = {};
  for (const id of ["fetch", "stores", "rob", "stations", "units", "bus", "csrs", "counts", "registers", "cache", "accesses", "asked", "tables", "status", "waiting", "results"]) tables[id] = rows(id);
  // of a long table: how many rows are left out above and below, and whether what is in view is there
  const gaps = {};
  for (const id of ["rob", "stations"]) {
    const height = Math.max(1, box(all(id).find((row) => !isGap(row)) || document.body).height), edge = box(document.getElementById(id).closest(".scroll"));
    const left = all(id).filter(isGap), isAbove = (row) => row === all(id)[0], count = (some) => some.reduce((sum, row) => sum + Math.round(box(row).height / height), 0);
    gaps[id] = { above: count(left.filter(isAbove)), below: count(left.filter((row) => !isAbove(row))), seen: left.some((row) => box(row).bottom > edge.top + 2 * height && box(row).top < edge.bottom - 1) };
  }
  const notes = {};
  for (const each of document.querySelectorAll(".note, #machine, #happened, #following, #range, #stop, #question, #verdict")) if (each.id) notes[each.id] = text(each);
  const list = (id) => [...document.querySelectorAll(`#${id} .row`)].map((row) => ({ ...box(row), marks: marksOf(row), stops: row.classList.contains("stops"),
    tip: row.title, parts: [...row.children].flatMap((each) => each.matches(".placed") ? placed(each, row.title).slice(0, 2) : [{ ...cell(each), parts: [...each.children].map(text) }]) }));
  const view = document.getElementById("picture"), edge = box(view), heads = document.getElementById("picture-heads");
  const labels = [...document.querySelectorAll("#picture-labels > .label")].map((each) => ({ ...box(each), label: text(each), tip: each.title, marks: marksOf(each) }));
  // the label of a row is that which stands beside it
  const labelled = (row) => { const found = labels.filter((each) => Math.abs(each.top - row.top) < 2)[0]; return { ...row, ...(found && { label: found.label, tip: found.tip, marks: found.marks }) }; };
  const picture = {
    left: edge.left, top: edge.top, right: edge.left + view.clientWidth, bottom: edge.top + view.clientHeight, heads: [...heads.children].map((each) => ({ text: text(each), ...box(each), kind: each.className })),
    under: box(heads).bottom, cursor: box(document.getElementById("picture-cursor")), hasCursor: !document.getElementById("picture-cursor").hidden,
    labels: labels.map(({ left, right }) => ({ left, right })),
    rows: [...document.querySelectorAll("#picture-rows > .row")].map((row) => ({ ...labelled(box(row)),
      cells: [...row.querySelectorAll(".cell")].map((each) => ({ text: text(each), tip: each.title, left: box(each).left, kind: each.className })) })),
    arrows: [...document.querySelectorAll("#picture-arrows path")].map((each) => Number(each.dataset.from)),
  };
  return {
    tables, gaps, notes, picture, title: document.title, source: list("source"), memory: list("memory"), cycle: document.getElementById("cycle").value, slider: document.getElementById("slider").value,
    counted: [...document.querySelectorAll("#counted span")].map(text), stack: [...document.querySelectorAll("#stack .part")].map((each) => [each.title.split(":")[0], each.style.width, text(each), each.scrollWidth > each.clientWidth]),
    legend: [...document.querySelectorAll("#legend > span")].map((each) => [text(each.querySelector("b")), text(each), each.querySelector("b").className]),
    titles: [...document.querySelectorAll("[data-panel]:not([hidden]) h2")].map(text), width: document.documentElement.scrollWidth - innerWidth, heights: document.documentElement.scrollHeight - innerHeight,
  };
})()"""

# What the answers to keys are read from: it is short, since it is asked after each key.
READ_CURSOR = r"""({ cycle: document.getElementById("cycle").value, following: document.getElementById("following").textContent,
  happened: document.getElementById("happened").textContent, focus: document.activeElement.id || document.activeElement.tagName })"""
