// The kernel: processes and queue, cache, files, grafts, and the rest.
"use strict";

const AMOUNTS = ["steps", "records", "locks"];
const KINDS = ["read-ahead", "eviction", "scheduling"];
const POLICIES = [["none", "sequential", "next"], ["least recently used", "by mark"], ["round robin", "by nice"]];
const POINT = point => point < 4 ? `${point} read-ahead of descriptor ${point}` : point === 4 ? "4 eviction" : point === 5 ? "5 scheduling"
  : point < 14 ? `${point} port ${point - 6}` : point === 14 ? "14 reading of a stream" : "15 writing to a stream";
const group = n => String(n).replace(/\B(?=(\d{3})+$)/g, " ");

function amountRows(process, old) {
  return make("table", { class: "rows" },
    make("tr", {}, make("th", {}, ""), AMOUNTS.map(kind => make("th", {}, kind))),
    ["has", "spent"].map(what => make("tr", {}, make("th", { scope: "row" }, what),
      process[what].map((n, i) => make("td", { class: old ? mark(n, old[what][i]) : "" }, group(n))))));
}

function processCard(state, before, p, process) {
  const old = before?.processes?.[p], call = state.calls?.[p], levels = items(state, "levels").filter(([[q]]) => q === p);
  const doing = call?.waits ? `waits for ${call.waits.for}` : levels.length ? `in a graft, level ${levels.length}` : call ? "call in flight" : "";
  return make("div", { class: "process", style: hue(p) },
    make("h3", {}, `process ${p}`,
      make("small", { "data-place": `nice:${p}` }, "nice ", make("b", { class: old ? mark(process.nice, old.nice) : "" }, String(process.nice))),
      make("small", {}, "slices ", make("b", { class: old ? mark(process.slices, old.slices) : "" }, String(process.slices))),
      doing ? make("small", {}, doing) : null),
    make("div", { class: "cells", role: "group", "aria-label": `cells of process ${p}` }, process.cells.map((value, k) =>
      make("span", { class: old ? mark(value, old.cells[k]) : "", "data-place": `cell:${p},${k}`, title: `cell ${k}: ${value}` }, make("i", {}, String(k)), String(value)))),
    amountRows(process, old));
}

function showProcesses(state, before) {
  const queue = state.kernel?.queue ?? [];
  const chips = queue.flatMap((p, i) => i ? [make("span", { class: "arrow", "aria-hidden": "true" }, "›"), chip(p)] : [chip(p)]);
  fill("queue", queue.length ? [make("span", { class: "hint", style: "margin: 0" }, "front "), ...chips,
    make("span", { class: "hint", style: "margin: 0" }, `clock ${state.kernel.clock}`)] : none("Not booted yet."));
  fill("processes", items(state, "processes").map(([[p], process]) => processCard(state, before, p, process)));
}

function showCache(state, before) {
  const order = state.kernel?.cache ?? [];
  fill("cache", order.length ? order.map(f => {
    const frame = state.frames[f], old = before?.frames?.[f];
    const fresh = before && (!old || old.block !== frame.block);
    return make("div", { class: `frame ${fresh ? "changed" : ""}`, style: hue(frame.owner), title: `frame ${f}: block ${frame.block} of process ${frame.owner}${frame.dirty ? ", dirty" : ""}, mark ${frame.mark}` },
      make("b", {}, `block ${frame.block}`), make("i", {}, `frame ${f}`), make("br"), make("i", {}, `process ${frame.owner}`), make("br"),
      make("span", { class: old ? mark(frame.mark, old.mark) : "", "data-place": `mark:${f}` }, make("i", {}, "mark "), String(frame.mark)),
      frame.dirty ? make("span", { class: "dirty", role: "img", "aria-label": "dirty" }) : null);
  }) : none("No frame is in use."));
}

function table(heads, rows) {
  return make("div", { class: "scroll" }, make("table", { class: "rows" }, make("thead", {}, make("tr", {}, heads.map(head => make("th", {}, head)))), make("tbody", {}, rows)));
}

function showFiles(state, before) {
  const rows = items(state, "files").map(([[p, fd], file, key]) => {
    const old = before?.files?.[key];
    return make("tr", {}, make("td", {}, chip(p)), make("td", {}, String(fd)), make("td", { class: "mono" }, file.name),
      make("td", { class: old ? mark(file.next, old.next) : "" }, String(file.next)),
      make("td", { class: old ? mark(file.window, old.window) : "", "data-place": `window:${key}` }, String(file.window)),
      make("td", { class: old ? mark(file.sequential, old.sequential) : "" }, file.sequential ? "yes" : "no"),
      make("td", {}, file.ahead[1] ? `${file.ahead[1]} from ${file.ahead[0]}` : "–"));
  });
  byId("p-files").hidden = !rows.length;
  fill("files", table(["", "fd", "name", "next", "window", "in order", "ahead"], rows));
}

function showGrafts(trace, state, before) {
  const rows = items(state, "grafts").map(([[p, point], graft, key]) => {
    const old = before?.grafts?.[key], found = state.images?.[graft.slot];
    return make("tr", {}, make("td", {}, chip(p)), make("td", {}, POINT(point)),
      make("td", { class: `mono ${before && !old ? "changed" : ""}` }, found?.graft ?? `slot ${graft.slot}`), make("td", {}, group(graft.limit)),
      make("td", {}, graft.billed ? "its process" : "itself"), make("td", { class: old ? mark(graft.has, old.has) : "" }, graft.has.map(group).join(" · ")),
      make("td", { "data-place": `segment:${key}` }, graft.kept ? "kept" : "–"));
  });
  byId("p-grafts").hidden = !rows.length;
  fill("grafts", table(["", "point", "graft", "limit", "who pays", "has", "segment"], rows));
}

function showOthers(state, before) {
  const policies = items(state, "policies").map(([[kind], policy]) => {
    const old = before?.policies?.[kind];
    return make("tr", {}, make("td", {}, KINDS[kind] ?? String(kind)), make("td", { class: old ? mark(policy.chosen, old.chosen) : "" }, POLICIES[kind]?.[policy.chosen] ?? String(policy.chosen)),
      make("td", { class: old ? mark(policy.parameter, old.parameter) : "", "data-place": `parameter:${kind}` }, policy.parameter === undefined ? "" : `parameter ${policy.parameter}`));
  });
  const locks = items(state, "locks").map(([[u], p]) => make("tr", {}, make("td", { class: before ? mark(p, before.locks?.[u]) : "" }, `user lock ${u}`), make("td", {}, chip(p))));
  const handlers = items(state, "handlers").map(([[port], list]) => make("tr", {}, make("td", {}, `port ${port}`), make("td", {}, list.map(p => chip(p)))));
  const images = items(state, "images").map(([[slot], image]) => make("tr", {}, make("td", {}, `slot ${slot}`), make("td", { class: "mono" }, image.graft ?? "–"),
    make("td", {}, `${image.instructions} instructions`), make("td", {}, image.keeps ? "keeps its segment" : image.raw ? "as written" : "")));
  const kept = items(state, "kept").map(([[p, point], rows]) => make("tr", {}, make("td", {}, `process ${p}, point ${point}`),
    make("td", { class: "mono" }, Object.entries(rows).slice(0, 8).map(([place, bytes]) => `${place}: ${bytes}`).join("  "))));
  const parts = [["Policies", policies], ["User locks", locks], ["Handlers", handlers], ["Images", images], ["Kept segments", kept]].filter(([, rows]) => rows.length);
  fill("others", parts.length ? parts.flatMap(([title, rows]) => [make("h3", {}, title), make("table", { class: "rows" }, rows)]) : none("Not booted yet."));
}
