// The timeline: a lane for each process over all moments, with its calls, levels, waits and drops.
"use strict";

const LANE = 12, GAP = 3, NAMES = 26;

// Stretches of moments with the same word, where it isn't empty.
function stretches(words) {
  const result = [];
  words.forEach((word, i) => {
    const last = result.at(-1);
    if (last && last.word === word && last.to === i) last.to = i + 1;
    else if (word) result.push({ word, from: i, to: i + 1 });
  });
  return result;
}

function doingOf(state, p) {
  const call = state.calls?.[p];
  if (call?.waits) return "waits";
  const levels = Object.keys(state.levels ?? {}).filter(key => key.split(",")[0] === String(p)).length;
  return levels ? `level ${levels}` : call ? "call" : "";
}

// The process whose graft a written line says was dropped: that of the call with this number, at the moment before.
function droppedBy(trace, i) {
  const processes = [];
  for (const line of trace.moments[i].wrote ?? []) {
    const found = /^(\d+) drop /.exec(line.text);
    if (!found) continue;
    const calls = Object.entries(trace.states[i - 1]?.calls ?? {});
    const process = calls.find(([, call]) => call.event === Number(found[1]))?.[0] ?? trace.moments[i].instruction?.process ?? 0;
    processes.push(Number(process));
  }
  return processes;
}

function makeTimeline(trace) {
  const count = trace.moments.length;
  const processes = [...new Set(trace.states.flatMap(state => Object.keys(state.processes ?? {}).map(Number)))].sort((a, b) => a - b);
  const height = Math.max(1, processes.length) * (LANE + GAP);
  const svg = draw("svg", { viewBox: `0 0 ${count} ${height}`, preserveAspectRatio: "none", height, role: "img", "aria-label": "Timeline of the run" });
  processes.forEach((p, lane) => {
    const y = lane * (LANE + GAP);
    svg.append(draw("rect", { class: "lane", x: 0, y, width: count, height: LANE }));
    for (const { word, from, to } of stretches(trace.states.map(state => doingOf(state, p)))) {
      const kind = word.split(" ")[0], deep = Number(word.split(" ")[1] ?? 1);
      const inset = kind === "level" ? 1.5 * (4 - deep) : kind === "call" ? 4 : 3;
      svg.append(draw("rect", { class: kind, x: from, y: y + inset / 2, width: to - from, height: LANE - inset }));
    }
  });
  trace.moments.forEach((moment, i) => {
    if (moment.kind !== "drop") return;
    for (const p of droppedBy(trace, i)) {
      const y = Math.max(0, processes.indexOf(p)) * (LANE + GAP);
      svg.append(draw("line", { class: "dropped", x1: i + .5, x2: i + .5, y1: y - 1, y2: y + LANE + 1 }));
    }
  });
  const cursor = draw("rect", { class: "cursor", x: 0, y: -3, width: 1, height: height + 3, opacity: .55, id: "cursor" });
  svg.append(cursor);
  svg.addEventListener("click", event => {
    const box = svg.getBoundingClientRect();
    go(Math.floor((event.clientX - box.left) / box.width * count));
  });
  const legend = make("p", { class: "legend" }, [["call", "call in flight"], ["graft", "in a graft"], ["wait", "waits"], ["drop", "dropped"]].map(([name, words]) =>
    make("span", {}, make("i", { style: `background: var(--${name})` }), words)), processes.length ? make("span", {}, `lanes: process ${processes.join(", ")}, from above`) : null);
  fill("timeline", svg, legend);
}

function showTimeline(at, count) {
  byId("cursor").setAttribute("x", at);
  byId("cursor").setAttribute("width", Math.max(1, count / 300));
  // On a narrow screen the timeline is wider than that, and scrolls to the moment.
  const box = byId("timeline"), wide = box.scrollWidth;
  if (wide > box.clientWidth) box.scrollLeft = (at + .5) / count * wide - box.clientWidth / 2;
}
