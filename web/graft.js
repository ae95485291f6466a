// The graft that runs: its levels, its code in both forms, registers, variables and segment.
"use strict";

const NOTE = "No graft runs now.";

function makeCode(trace, graft, raw) {
  const rows = [];
  let before = -1;
  const code = raw || !graft.boxed.length ? graft.plain.map((instr, i) => ({ text: instr.text, of: i })) : graft.boxed;
  code.forEach((instr, i) => {
    const first = instr.of !== before, plain = graft.plain[instr.of];
    before = instr.of;
    rows.push(make("tr", { class: first ? "first" : "", "data-place": i },
      make("td", { class: "n" }, first ? String(instr.of) : ""),
      make("td", { class: "written" }, first ? withNames(trace, plain.text) : ""),
      make("td", { class: "n" }, String(i)),
      make("td", { class: /^andi r14|^or r14/.test(instr.text) ? "run mask" : "run" }, withNames(trace, instr.text))));
  });
  return make("table", {},
    make("thead", {}, make("tr", {}, make("th", { colspan: 2 }, "as written"), make("th", { colspan: 2 }, raw ? "as it runs" : "in the sandbox"))),
    make("tbody", {}, rows));
}

let shownCode = null;

function showCode(trace, state, moment, level) {
  const found = level && graftOf(trace, state, level.slot);
  fill("graftname", found ? found.graft.name : level ? `at point ${level.graft[1]}` : "");
  const name = found ? `${found.graft.name} ${found.raw}` : level ? "?" : "";
  if (name !== shownCode) {
    fill("code", found ? makeCode(trace, found.graft, found.raw) : none(level ? "The file doesn't name this image." : NOTE));
    shownCode = name;
  }
  for (const row of byId("code").querySelectorAll(".here, .next")) row.classList.remove("here", "next");
  if (!found) return;
  const taken = moment.instruction;
  const isThis = taken && level.key === `${taken.process},${taken.level}`;
  const rows = byId("code").querySelector("tbody").children;
  const here = isThis && taken.place !== null ? rows[taken.place] : null;
  const next = level.next !== null && level.next !== undefined && level.live ? rows[level.next] : null;
  if (next) next.classList.add("next");
  if (here) here.classList.add("here");
  bringIntoSight(byId("code"), here ?? next);
}

function showRegisters(registers, before) {
  byId("p-registers").hidden = !registers;
  if (!registers) return;
  fill("registers", Object.entries(registers).map(([name, value]) =>
    make("div", { class: `${value === 0 ? "zero" : ""} ${before ? mark(value, before[name]) : ""}`, title: `0x${value.toString(16)}` },
      make("dt", {}, name), make("dd", {}, String(value)))));
}

// The first seven variables are r7 to r13, the others words of the segment.
const variableOf = (registers, rows, i) => i < 7 ? registers?.[`r${7 + i}`] ?? 0 : wordAt(rows, 4 * i);

function showVariables(found, registers, rows, before) {
  const names = found?.graft.variables ?? [];
  byId("p-variables").hidden = !names.length;
  fill("variables", names.map((name, i) => {
    const value = variableOf(registers, rows, i), old = before && variableOf(before.registers, before.rows, i);
    return make("div", { class: before && old !== value ? "changed" : "" }, make("dt", {}, name), make("dd", {}, String(value)));
  }));
}

function showMemory(level, rows, before) {
  byId("p-memory").hidden = !level;
  const places = new Set([...Object.keys(rows ?? {}), ...Object.keys(before ?? {})].map(Number));
  if (level && !places.size) {
    fill("memory", none("All 4,096 bytes are zero."));
    return;
  }
  const zeros = "0".repeat(32);
  fill("memory", [...places].sort((a, b) => a - b).map(place => {
    const now = rows?.[place] ?? zeros, old = before?.[place] ?? zeros;
    const bytes = [...Array(16).keys()].map(i => {
      const byte = now.substr(2 * i, 2), changed = before !== undefined && byte !== old.substr(2 * i, 2);
      return make("span", { class: `${changed ? "changed" : ""} ${byte === "00" ? "zero" : ""}` }, byte);
    });
    const text = [...Array(16).keys()].map(i => parseInt(now.substr(2 * i, 2), 16)).map(b => b > 31 && b < 127 ? String.fromCharCode(b) : ".").join("");
    const spaced = bytes.flatMap((byte, i) => i ? [" ", byte] : [byte]);
    return make("div", {}, make("i", {}, String(place)), make("span", {}, spaced), make("em", {}, text));
  }));
}

// The level that is shown: the chosen one, else that of the instruction, else one that was dropped, else the innermost of a call.
let chosenLevel = null;

function levelShown(state, before, moment) {
  const levels = items(state, "levels").map(([numbers, value, key]) => ({ ...value, key, process: numbers[0], level: numbers[1], live: true }));
  const taken = moment.instruction && `${moment.instruction.process},${moment.instruction.level}`;
  for (const [[process, level], value, key] of items(before ?? {}, "levels")) {
    const isGone = !levels.some(level => level.key === key) && (key === taken || moment.kind === "drop");
    if (isGone) levels.push({ ...value, key, process, level, live: false });
  }
  const chosen = levels.find(level => level.key === chosenLevel);
  const shown = chosen ?? levels.find(level => level.key === taken)
    ?? levels.find(level => !level.live) ?? levels.at(-1) ?? null;
  return { levels, shown };
}

function showGraft(trace, at, state, before) {
  const moment = trace.moments[at];
  const { levels, shown } = levelShown(state, before, moment);
  fill("levels", levels.length > 1 || levels.some(level => !level.live) ? levels.map(level => {
    const button = make("button", { type: "button", role: "tab", "aria-selected": String(level === shown) },
      `process ${level.process}, level ${level.level}${level.live ? "" : " (ended)"}`);
    button.addEventListener("click", () => { chosenLevel = level.key; show(); });
    return button;
  }) : []);
  showCode(trace, shown && !shown.live ? before : state, moment, shown);
  const key = shown?.key, from = shown && !shown.live ? before : state;
  const wasThere = before?.levels?.[key];
  const old = shown?.live && wasThere && wasThere.taken <= shown.taken ? before : null;
  showRegisters(key && from.registers?.[key], old?.registers?.[key]);
  const found = shown && graftOf(trace, from, shown.slot);
  showVariables(found, from.registers?.[key], from.memory?.[key], old ? { registers: old.registers?.[key], rows: old.memory?.[key] ?? {} } : undefined);
  showMemory(shown, from.memory?.[key], old ? old.memory?.[key] ?? {} : undefined);
}
