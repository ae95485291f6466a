// The trace: its head, its moments, its end, and the state at each moment.
"use strict";

// A merge patch (RFC 7386) applied to a value, which stays as it is.
function merged(value, patch) {
  if (patch === null || typeof patch !== "object" || Array.isArray(patch)) return patch;
  const result = value && typeof value === "object" && !Array.isArray(value) ? { ...value } : {};
  for (const [key, part] of Object.entries(patch)) {
    if (part === null) delete result[key];
    else result[key] = merged(result[key], part);
  }
  return result;
}

function readTrace(text) {
  const objects = text.split("\n").filter(line => line).map(line => JSON.parse(line));
  const head = objects.shift();
  const moments = objects.filter(object => object.at !== undefined);
  const end = objects.find(object => object.status !== undefined) ?? null;
  const drops = new Map(objects.filter(object => object.after !== undefined).map(object => [object.after, object]));
  const states = [];
  let state = {};
  for (const moment of moments) {
    state = merged(state, moment.changed ?? {});
    states.push(state);
  }
  return { head, moments, end, drops, states };
}

// The items of a section, as pairs of a list of numbers and a value, in the order of the numbers.
function items(state, section) {
  return Object.entries(state[section] ?? {})
    .map(([key, value]) => [key.split(",").map(Number), value, key])
    .sort(([a], [b]) => a[0] - b[0] || (a[1] ?? 0) - (b[1] ?? 0));
}

// The word at a place of a segment, as rows of sixteen bytes have it, the lowest byte first.
function wordAt(rows, place) {
  const row = (rows ?? {})[String(place - place % 16)] ?? "0".repeat(32);
  const bytes = [3, 2, 1, 0].map(i => row.substr(2 * (place % 16 + i), 2));
  return parseInt(bytes.join(""), 16);
}

// The graft of the file that the image of a slot was made of, and whether it runs as it was written.
function graftOf(trace, state, slot) {
  const image = state.images?.[slot];
  const graft = image && trace.head.grafts.find(graft => graft.name === image.graft);
  return graft ? { graft, raw: image.raw } : null;
}

// The text of an instruction, with the name of what it calls.
function withNames(trace, text) {
  return text?.replace(/^call (\d+)$/, (all, id) => trace.head.callables?.[id] ? `call ${trace.head.callables[id]}` : all);
}

// What a record puts back, in words, and the name of the place where it stands on the page.
function recordWords(record) {
  const [a, b] = record.of;
  switch (record.what) {
    case "cell": return { words: `cell ${b} of process ${a} to ${record.to}`, place: `cell:${a},${b}` };
    case "nice": return { words: `nice of process ${a} to ${record.to}`, place: `nice:${a}` };
    case "window": return { words: `window of descriptor ${b} of process ${a} to ${record.to}`, place: `window:${a},${b}` };
    case "mark": return { words: `mark of frame ${a} to ${record.to}`, place: `mark:${a}` };
    case "parameter": return { words: `parameter ${b} of the policy of kind ${a} to ${record.to}`, place: `parameter:${a}` };
    default: return { words: `the segment kept at point ${b} of process ${a}`, place: `segment:${a},${b}` };
  }
}
