// The transaction: the undo log, who waits for whom, and what calls hold.
"use strict";

// The records of all calls, oldest first.
function recordsOf(state) {
  return items(state ?? {}, "undo").flatMap(([[process], records]) =>
    Object.entries(records).map(([number, record]) => ({ ...record, process, number: Number(number) }))
      .sort((a, b) => a.number - b.number));
}

const isSameRecord = (a, b) => a.process === b.process && a.number === b.number && same([a.what, a.of, a.to], [b.what, b.of, b.to]);

// The records that are gone since the moment before.
function goneRecords(state, before) {
  const now = recordsOf(state);
  return recordsOf(before).filter(old => !now.some(record => isSameRecord(record, old)));
}

function recordItem(record, kind) {
  const { words } = recordWords(record);
  return make("li", { class: kind, "data-record": `${record.process},${record.number}` },
    make("i", {}, `${record.process}.${record.level}`), make("span", {}, words));
}

function showUndo(state, before, isDrop) {
  const now = recordsOf(state), gone = goneRecords(state, before);
  const kind = isDrop ? "put" : "kept";
  const lists = [];
  if (gone.length) lists.push(make("ol", { class: "log" }, [...gone].reverse().map(record => recordItem(record, kind))));
  if (now.length) lists.push(make("ol", { class: "log" }, [...now].reverse().map(record => recordItem(record, ""))));
  if (!lists.length) lists.push(none("Empty: a drop would put nothing back."));
  else if (now.length) lists.push(make("p", { class: "hint" }, `A drop puts back ${now.length === 1 ? "this value" : `these ${now.length} values`}, the newest first.`));
  else if (gone.length) lists.push(make("p", { class: "hint" }, isDrop ? "The drop put these values back, the newest first." : "The call came to its end: what it changed stays."));
  fill("undo", lists);
  return isDrop ? gone : [];
}

function showHolds(state, before) {
  const rows = items(state, "holds").flatMap(([[process], objects]) => Object.entries(objects).map(([object, [mode, level]]) =>
    make("tr", {}, make("td", {}, chip(process)), make("td", { class: `mono ${mark([mode, level], before?.holds?.[process]?.[object])}` }, object),
      make("td", {}, mode), make("td", {}, `level ${level}`))));
  fill("holds", rows.length ? make("table", { class: "rows" }, rows) : none("No call in a graft holds anything."));
}

// The processes that wait or are waited for, on a circle, with an arrow for each wait.
function showWaits(state) {
  const waits = items(state, "calls").filter(([, call]) => call.waits).map(([[process], call]) => ({ process, ...call.waits }));
  const running = new Set(items(state, "levels").map(([[process]]) => process));
  const nodes = [...new Set([...waits.flatMap(wait => [wait.process, wait.held_by]), ...running])].sort((a, b) => a - b);
  if (!nodes.length) {
    fill("waits", none("Nobody waits."));
    return;
  }
  const width = 320, height = nodes.length > 1 ? 190 : 90, cx = width / 2, cy = height / 2;
  const at = new Map(nodes.map((process, i) => {
    const angle = nodes.length === 2 ? Math.PI * (1 - i) : 2 * Math.PI * i / nodes.length - Math.PI / 2;
    return [process, nodes.length === 1 ? [cx, cy] : [cx + (width / 2 - 50) * Math.cos(angle), cy + (nodes.length === 2 ? 0 : (height / 2 - 32) * Math.sin(angle))]];
  }));
  const svg = draw("svg", { viewBox: `0 0 ${width} ${height}`, role: "img", "aria-label": waits.length
    ? waits.map(wait => `process ${wait.process} waits for ${wait.for}, which process ${wait.held_by} has, ${wait.ticks} ticks`).join("; ") : "nobody waits" });
  svg.append(draw("defs", {}, draw("marker", { id: "head", viewBox: "0 0 10 10", refX: 9, refY: 5, markerWidth: 7, markerHeight: 7, orient: "auto-start-reverse" }, draw("path", { d: "M0 0 10 5 0 10z" }))));
  for (const wait of waits) {
    const [x, y] = at.get(wait.process), [u, v] = at.get(wait.held_by);
    if (wait.process === wait.held_by) {
      svg.append(draw("path", { d: `M${x + 16} ${y - 16}c40 -40 40 40 6 22`, "marker-end": "url(#head)" }));
      svg.append(labelAt(x + 60, y - 30, wait));
      continue;
    }
    const length = Math.hypot(u - x, v - y), dx = (u - x) / length, dy = (v - y) / length, bend = 14;
    const mx = (x + u) / 2 - dy * bend, my = (y + v) / 2 + dx * bend;
    svg.append(draw("path", { d: `M${x + dx * 26} ${y + dy * 26}Q${mx} ${my} ${u - dx * 28} ${v - dy * 28}`, "marker-end": "url(#head)" }));
    svg.append(labelAt(mx - dy * 8, my + dx * 12 + 4, wait));
  }
  for (const [process, [x, y]] of at) {
    svg.append(draw("circle", { cx: x, cy: y, r: 23, class: `node ${running.has(process) ? "running" : ""}`, style: `stroke: var(--p${process % 8})` }));
    const words = draw("text", { x, y: y + 1 });
    words.textContent = String(process);
    const below = draw("text", { x, y: y + 13, class: "small" });
    below.textContent = running.has(process) ? "in graft" : "";
    svg.append(words, below);
  }
  fill("waits", svg, waits.length ? null : make("p", { class: "hint" }, "Nobody waits."));
}

function labelAt(x, y, wait) {
  const label = draw("text", { x, y, class: "label" });
  label.textContent = `${wait.for}, ${wait.ticks} ${wait.ticks === 1 ? "tick" : "ticks"}`;
  return label;
}
