// Going from moment to moment, by buttons, slider and keys.
"use strict";

const trace = readTrace(byId("trace").textContent);
let at = 0, dropped = false, timer = null;

// What happens at a moment, in words.
function said(moment) {
  const taken = moment.instruction, line = trace.head.lines[moment.line - 1]?.trim() ?? "";
  const written = (moment.wrote ?? []).map(line => line.words ?? "").filter(words => words);
  const first = taken
    ? `process ${taken.process}, level ${taken.level}, instruction ${taken.number}: ${withNames(trace, taken.text) ?? "?"}`
    : `line ${moment.line}: ${line.replace(/\s*#.*$/, "").replace(/\s+=\s.*$/, "")}`;
  return { first, rest: written.length && moment.kind !== "instruction" ? ` — ${written.join("; ")}` : "" };
}

function flyBack(gone, places) {
  if (matchMedia("(prefers-reduced-motion: reduce)").matches) return;
  gone.forEach((record, i) => {
    const from = places.get(`${record.process},${record.number}`), { words, place } = recordWords(record);
    const target = document.querySelector(`[data-place="${place}"]`)?.getBoundingClientRect();
    if (!from || !target) return;
    const ghost = make("div", { class: "flying" }, words.replace(/^.* to /, ""));
    document.body.append(ghost);
    ghost.animate([{ transform: `translate(${from.left}px, ${from.top}px)`, opacity: 1 }, { transform: `translate(${target.left}px, ${target.top}px)`, opacity: .2 }],
      { duration: 700, delay: 120 * i, easing: "cubic-bezier(.3, .1, .3, 1)", fill: "both" }).finished.then(() => ghost.remove(), () => ghost.remove());
  });
}

function showPanes(state, before, isDrop, fly) {
  const places = new Map([...byId("undo").querySelectorAll("[data-record]")].map(item => [item.dataset.record, item.getBoundingClientRect()]));
  showGraft(trace, at, state, before);
  const gone = showUndo(state, before, isDrop);
  showWaits(state);
  showHolds(state, before);
  showProcesses(state, before);
  showCache(state, before);
  showFiles(state, before);
  showGrafts(trace, state, before);
  showOthers(state, before);
  for (const record of gone) {
    for (const element of document.querySelectorAll(`[data-place="${recordWords(record).place}"]`)) element.classList.add("put-back");
  }
  if (fly) flyBack(gone, places);
}

function showHead(moment) {
  const { first, rest } = said(moment);
  const isLast = at === trace.moments.length - 1, ended = isLast && trace.end?.kind === "refused";
  byId("kind").className = `kind ${dropped ? "drop" : moment.kind}`;
  fill("kind", dropped ? "dropped here" : moment.kind);
  fill("said", dropped ? "If the graft were dropped here, before its next instruction: this would be the state. What changed is marked."
    : [make("b", {}, first), rest, ended ? ` — then line ${trace.end.line} is refused: ${trace.end.wrote?.[0]?.words ?? ""}` : ""]);
  fill("count", `${moment.at} of ${trace.moments.at(-1).at}`);
  byId("live").textContent = dropped ? "State after a drop here" : `Moment ${moment.at}. ${first}${rest}`;
  const canDrop = trace.drops.has(moment.at);
  byId("drophere").disabled = !canDrop;
  byId("drophere").hidden = !trace.drops.size;
  byId("drophere").setAttribute("aria-pressed", String(dropped));
  byId("todrop").disabled = !trace.moments.some((other, i) => i > at && other.kind === "drop");
  byId("back").disabled = byId("first").disabled = at === 0;
  byId("next").disabled = byId("last").disabled = isLast;
  document.body.classList.toggle("dropped", dropped);
}

function show(fly = false) {
  const moment = trace.moments[at], state = trace.states[at], before = at ? trace.states[at - 1] : undefined;
  if (dropped && !trace.drops.has(moment.at)) dropped = false;
  showHead(moment);
  byId("at").value = at + 1;
  showTimeline(at, trace.moments.length);
  showSource(trace, moment);
  showWrote(trace, at);
  if (dropped) showPanes(merged(state, trace.drops.get(moment.at).changed ?? {}), state, true, fly);
  else showPanes(state, before, moment.kind === "drop", fly);
}

function address() {
  try {
    history.replaceState(null, "", `?at=${trace.moments[at].at}`);
  } catch { /* a page that may not change its address shows the moment all the same */ }
}

function go(to, fly = false) {
  const next = Math.max(0, Math.min(trace.moments.length - 1, to));
  if (next !== at) {
    dropped = false;
    chosenLevel = null;
  }
  at = next;
  show(fly);
  address();
}

// The first moment of the line after this one, or of this line, or of the one before.
function goLine(step) {
  const line = trace.moments[at].line;
  let i = at;
  if (step > 0) {
    while (i < trace.moments.length - 1 && trace.moments[i].line === line) i++;
    return go(i);
  }
  const starts = i => i === 0 || trace.moments[i - 1].line !== trace.moments[i].line;
  do i--; while (i > 0 && !starts(i));
  go(i);
}

function goDrop() {
  const found = trace.moments.findIndex((moment, i) => i > at && moment.kind === "drop");
  if (found >= 0) go(found, true);
}

function stop() {
  clearInterval(timer);
  timer = null;
  byId("play").classList.remove("playing");
  byId("play").setAttribute("aria-label", "Play");
}

function play() {
  if (timer) return stop();
  if (at === trace.moments.length - 1) go(0);
  byId("play").classList.add("playing");
  byId("play").setAttribute("aria-label", "Stop");
  timer = setInterval(() => at === trace.moments.length - 1 ? stop() : go(at + 1, true), 700);
}

function dropHere() {
  if (!trace.drops.has(trace.moments[at].at)) return;
  stop();
  dropped = !dropped;
  show(dropped);
}

const KEYS = {
  ArrowRight: () => go(at + 1, true), ArrowLeft: () => go(at - 1), ArrowDown: () => goLine(1), ArrowUp: () => goLine(-1),
  Home: () => go(0), End: () => go(trace.moments.length - 1), " ": play, d: goDrop, x: dropHere,
};

function begin() {
  document.title = `${trace.head.file}: a run of the kernel`;
  fill("file", trace.head.file);
  makeSource(trace);
  if (!trace.moments.length) {
    fill("said", `The run has no moment that is shown; its status is ${trace.end?.status}.`);
    return;
  }
  byId("at").max = trace.moments.length;
  makeTimeline(trace);
  const clicks = { first: () => go(0), back: () => go(at - 1), next: () => go(at + 1, true), last: () => go(trace.moments.length - 1), play, todrop: goDrop, drophere: dropHere };
  for (const [id, action] of Object.entries(clicks)) byId(id).addEventListener("click", action);
  byId("at").addEventListener("input", event => go(Number(event.target.value) - 1));
  addEventListener("keydown", event => {
    if (event.ctrlKey || event.metaKey || event.altKey) return;
    if (event.key === " " && event.target.closest("button, a, summary")) return;
    if (event.target.closest("[tabindex='0']") && /^(ArrowUp|ArrowDown|Home|End)$/.test(event.key) && event.shiftKey) return;
    const action = KEYS[event.key];
    if (!action) return;
    event.preventDefault();
    action();
  });
  const wanted = Number(new URLSearchParams(location.search).get("at"));
  at = Math.max(0, trace.moments.findIndex(moment => moment.at === wanted));
  show();
}

begin();
