// Making elements.
"use strict";

const byId = id => document.getElementById(id);

// An element with attributes and children, which are elements, texts, or lists of them.
function make(name, attributes = {}, ...children) {
  const element = document.createElement(name);
  for (const [key, value] of Object.entries(attributes)) {
    if (value === true) element.setAttribute(key, "");
    else if (value !== false && value !== null && value !== undefined) element.setAttribute(key, value);
  }
  element.append(...children.flat().filter(child => child !== null && child !== undefined && child !== false));
  return element;
}

// The same of SVG.
function draw(name, attributes = {}, ...children) {
  const element = document.createElementNS("http://www.w3.org/2000/svg", name);
  for (const [key, value] of Object.entries(attributes)) element.setAttribute(key, value);
  element.append(...children.flat());
  return element;
}

function fill(id, ...children) {
  byId(id).replaceChildren(...children.flat().filter(child => child));
}

const none = text => make("p", { class: "none" }, text);
const hue = process => `--hue: var(--p${process % 8})`;
const chip = process => make("span", { class: "chip", style: hue(process) }, `process ${process}`);
const same = (a, b) => JSON.stringify(a) === JSON.stringify(b);
const mark = (a, b) => a !== undefined && b !== undefined && !same(a, b) ? "changed" : a !== undefined && b === undefined ? "changed" : "";

// Scrolls a child of a scrolling element into sight, and nothing else.
function bringIntoSight(box, child) {
  if (!child) return;
  const top = child.offsetTop - box.offsetTop, bottom = top + child.offsetHeight;
  if (top < box.scrollTop + 8) box.scrollTop = Math.max(0, top - box.clientHeight / 3);
  else if (bottom > box.scrollTop + box.clientHeight - 8) box.scrollTop = bottom - box.clientHeight * 2 / 3;
}
