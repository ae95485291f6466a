// Tries a page against its trace: steps through all moments by keys, and compares the panes with the state that the trace tells. What it
// finds goes to the page that holds this one in a frame.
"use strict";

{
  const faults = [];
  const merge = (value, patch) => {
    if (patch === null || typeof patch !== "object" || Array.isArray(patch)) return patch;
    const result = value && typeof value === "object" ? structuredClone(value) : {};
    for (const key of Object.keys(patch)) {
      if (patch[key] === null) delete result[key];
      else result[key] = merge(result[key], patch[key]);
    }
    return result;
  };
  const text = selector => document.querySelector(selector)?.textContent ?? null;
  const texts = selector => [...document.querySelectorAll(selector)].map(element => element.textContent);
  const press = key => document.body.dispatchEvent(new KeyboardEvent("keydown", { key, bubbles: true, cancelable: true }));
  const told = text("#trace").split("\n").filter(line => line).map(line => JSON.parse(line));
  const moments = told.filter(object => object.at !== undefined);
  const compare = (where, what, shown, wanted) => {
    if (JSON.stringify(shown) !== JSON.stringify(wanted)) faults.push(`${where}: ${what}: ${JSON.stringify(shown)}, not ${JSON.stringify(wanted)}`);
  };

  const look = (moment, state) => {
    const where = `moment ${moment.at}`;
    compare(where, "its number", text("#count"), `${moment.at} of ${moments.at(-1).at}`);
    compare(where, "its line", texts("#source li.here i").map(Number), [moment.line]);
    compare(where, "its kind", text("#kind"), moment.kind);
    const written = texts("#wrote li.here b");
    compare(where, "what was written", written.slice(0, (moment.wrote ?? []).length), (moment.wrote ?? []).map(line => line.text));
    compare(where, "the queue", texts("#queue .chip"), (state.kernel?.queue ?? []).map(p => `process ${p}`));
    compare(where, "the cells", texts("#processes .cells span").map(cell => cell.slice(1)), Object.entries(state.processes ?? {})
      .sort(([a], [b]) => a - b).flatMap(([, process]) => process.cells.map(String)));
    compare(where, "the cache", texts("#cache .frame b"), (state.kernel?.cache ?? []).map(f => `block ${state.frames[f].block}`));
    compare(where, "dirty frames", document.querySelectorAll("#cache .dirty").length, Object.values(state.frames ?? {}).filter(frame => frame.dirty).length);
    compare(where, "open files", document.querySelectorAll("#files tbody tr").length, Object.keys(state.files ?? {}).length);
    compare(where, "grafts", document.querySelectorAll("#grafts tbody tr").length, Object.keys(state.grafts ?? {}).length);
    compare(where, "records", document.querySelectorAll("#undo li:not(.put):not(.kept)").length,
      Object.values(state.undo ?? {}).reduce((sum, records) => sum + Object.keys(records).length, 0));
    compare(where, "waits", document.querySelectorAll("#waits .label").length, Object.values(state.calls ?? {}).filter(call => call.waits).length);
    compare(where, "locks", document.querySelectorAll("#holds tr").length, Object.values(state.holds ?? {}).reduce((sum, objects) => sum + Object.keys(objects).length, 0));
    const taken = moment.instruction, key = taken && `${taken.process},${taken.level}`;
    if (taken && state.registers?.[key]) compare(where, "registers", texts("#registers dd"), Object.values(state.registers[key]).map(String));
    if (taken && taken.place !== null && text("#graftname")) compare(where, "the instruction", texts("#code tr.here td.run").length, 1);
  };

  // What a drop here leaves: its cells, records and grafts.
  const tryDrop = (drop, state) => {
    const left = merge(state, drop.changed), where = `a drop behind moment ${drop.after}`;
    press("x");
    compare(where, "the button", byId("drophere").getAttribute("aria-pressed"), "true");
    compare(where, "the cells", texts("#processes .cells span").map(cell => cell.slice(1)), Object.entries(left.processes)
      .sort(([a], [b]) => a - b).flatMap(([, process]) => process.cells.map(String)));
    compare(where, "grafts", document.querySelectorAll("#grafts tbody tr").length, Object.keys(left.grafts ?? {}).length);
    compare(where, "records", document.querySelectorAll("#undo li:not(.put):not(.kept)").length,
      Object.values(left.undo ?? {}).reduce((sum, records) => sum + Object.keys(records).length, 0));
    press("x");
  };

  const tryAll = () => {
    let state = {};
    press("Home");
    moments.forEach((moment, i) => {
      state = merge(state, moment.changed ?? {});
      if (i) press("ArrowRight");
      look(moment, state);
      const drop = told.find(object => object.after === moment.at);
      if (drop) tryDrop(drop, state);
    });
    const drops = moments.filter(moment => moment.kind === "drop");
    press("Home");
    for (const drop of drops.filter(moment => moment !== moments[0])) {
      press("d");
      compare("the key d", "the drop", text("#count"), `${drop.at} of ${moments.at(-1).at}`);
    }
    press("Home");
    const lines = moments.filter((moment, i) => i && moments[i - 1].line !== moment.line);
    for (const moment of lines) {
      press("ArrowDown");
      compare("the key down", "the line", text("#count"), `${moment.at} of ${moments.at(-1).at}`);
    }
    press("ArrowUp");
    press("End");
    compare("the key End", "the moment", text("#count"), `${moments.at(-1).at} of ${moments.at(-1).at}`);
    press("ArrowLeft");
    compare("the key left", "the moment", text("#count"), `${(moments.at(-2) ?? moments.at(-1)).at} of ${moments.at(-1).at}`);
    press(" ");
    compare("the key space", "the button", byId("play").getAttribute("aria-label"), "Stop");
    press(" ");
    compare("the key space again", "the button", byId("play").getAttribute("aria-label"), "Play");
  };

  addEventListener("load", () => {
    try {
      if (moments.length) tryAll();
      if (document.documentElement.scrollWidth > innerWidth) faults.push(`the page is wider than ${innerWidth}`);
    } catch (fault) {
      faults.push(String(fault.stack ?? fault));
    }
    parent.postMessage({ name: document.title, moments: moments.length, faults: faults.slice(0, 5) }, "*");
  });
}
