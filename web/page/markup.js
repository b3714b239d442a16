"use strict";
// Texts of a page: html`..` escapes each value that is put in, unless it is Markup itself. The drawings of plans/look.js are, as they escape their own.

class Markup {
  constructor(text) {
    this.text = text;
  }
}

function marked(value) {
  if (value instanceof Markup) return value.text;
  if (Array.isArray(value)) return value.map(marked).join("");
  return value === null || value === undefined || value === false ? "" : escaped(value);
}

const html = (parts, ...values) => new Markup(parts.map((part, i) => (i ? marked(values[i - 1]) : "") + part).join(""));
const drawn = text => new Markup(text);
const byId = id => document.getElementById(id);

// Shows markup in an element. One that has it already is left alone, so what has the focus keeps it.
function fill(id, markup) {
  const element = byId(id), text = marked(markup);
  if (element.shown === text) return;
  const focused = element.contains(document.activeElement) ? document.activeElement.dataset : null;
  element.innerHTML = text;
  element.shown = text;
  if (focused) focusAgain(element, focused);
}

// The button that had the focus before an element was filled anew gets it again.
function focusAgain(element, data) {
  const names = Object.entries(data).map(([name, value]) => `[data-${name.replace(/[A-Z]/g, letter => `-${letter.toLowerCase()}`)}="${CSS.escape(value)}"]`).join("");
  if (names) element.querySelector(names)?.focus();
}
