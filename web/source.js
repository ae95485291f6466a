// The lab file, and what the kernel wrote.
"use strict";

function makeSource(trace) {
  fill("source", trace.head.lines.map((line, i) =>
    make("li", { "data-line": i + 1 }, make("i", {}, String(i + 1)), line || " ")));
}

function showSource(trace, moment) {
  const list = byId("source");
  for (const item of list.querySelectorAll(".here, .graft")) {
    item.classList.remove("here", "graft");
    item.removeAttribute("aria-current");
  }
  const here = list.children[moment.line - 1];
  if (here) {
    here.classList.add("here");
    here.setAttribute("aria-current", "step");
  }
  const line = moment.instruction?.line;
  const graft = line ? list.children[line - 1] : null;
  if (graft) graft.classList.add("graft");
  bringIntoSight(list, graft ?? here);
}

// The lines that were written up to each moment: at most so many are shown.
const SHOWN = 200;

function wroteUpTo(trace, at) {
  const lines = [];
  for (let i = at; i >= 0 && lines.length < SHOWN; i--) {
    const moment = trace.moments[i];
    if (moment.more) lines.push({ text: `and ${moment.more} more`, here: i === at });
    for (const line of [...(moment.wrote ?? [])].reverse()) lines.push({ ...line, here: i === at });
  }
  return lines.slice(0, SHOWN).reverse();
}

function showWrote(trace, at) {
  const lines = wroteUpTo(trace, at);
  if (at === trace.moments.length - 1) {
    for (const line of trace.end?.wrote ?? []) lines.push({ ...line, here: true });
  }
  fill("wrote", lines.length ? lines.map(line => make("li",
    { class: `${line.here ? "here" : ""} ${/^\d+ drop /.test(line.text) ? "dropped" : ""}` },
    make("b", {}, line.text), line.words ? make("span", {}, line.words) : null)) : make("li", { class: "none" }, "nothing yet"));
  byId("wrote").scrollTop = byId("wrote").scrollHeight;
}
