"use strict";
// What the scripts of pages share: elements, screens, and what is copied.

const byId = (id) => document.getElementById(id);

/** A text as it is shown: of control characters, and of those that turn a text round, a sign is seen. */
const visible = (text) => text.replace(/[\0-\x1f]/g, (it) => String.fromCharCode(0x2400 + it.charCodeAt(0))).replace(/[\x7f-\x9f\u202a-\u202e\u2066-\u2069]/g, "\u2421");

/** An element with a class, a text or parts. Texts of the page's data come in as text alone. */
function make(tag, className, ...parts) {
  const it = document.createElement(tag);
  if (className) it.className = className;
  it.append(...parts.filter((part) => part !== null && part !== undefined).map((part) => (typeof part === "string" ? visible(part) : part)));
  return it;
}

/** A part of a drawing. */
function draw(tag, attributes, ...parts) {
  const it = document.createElementNS("http://www.w3.org/2000/svg", tag);
  Object.entries(attributes).forEach(([name, value]) => it.setAttribute(name, value));
  it.append(...parts);
  return it;
}

const PAGE_ROW = /^(\d\d)\|(.*)$/;

/** The rows of a page of 24 lines, blank ones too. */
function rowsOf(lines) {
  const rows = Array(24).fill("");
  for (const line of lines) {
    const row = PAGE_ROW.exec(line);
    if (row) rows[Number(row[1]) - 1] = row[2];
  }
  return rows;
}

/** Copies a text. */
async function toClipboard(text) {
  try {
    await navigator.clipboard.writeText(text);
  } catch {
    const area = make("textarea");
    area.value = text;
    document.body.append(area);
    area.select();
    document.execCommand("copy");
    area.remove();
  }
}

