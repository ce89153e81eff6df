// The page of a film: the state after each event is worked out once, and shown for the event that is chosen.

// ---- the films and their states

/** The lines that a change makes of those before it: all of them, or some by their places. */
function changed(before, change) {
  if (Array.isArray(change)) return change;
  const lines = before.slice();
  for (const [at, line] of Object.entries(change)) lines[Number(at)] = line;
  return lines;
}

/** The state after each event, the one before the first in front: what is shown under each name. */
function statesOf(film) {
  let state = { shown: film.before, ran: {} };
  const states = [state];
  for (const event of film.events) {
    const shown = { ...state.shown };
    for (const [key, change] of Object.entries(event.changes)) {
      const lines = changed(shown[key] || [], change);
      if (lines.length) shown[key] = lines;
      else delete shown[key];
    }
    const ran = event.ran ? { ...state.ran, [event.terminal]: event.ran } : state.ran;
    state = { shown, ran };
    states.push(state);
  }
  return states;
}

const KINDS = [
  ["abended", /^TURN \S+ (Abended|TookExit)/],
  ["waiting", / Waiting$/],
  ["attach", / Attached$/],
  ["ended", / Ended$/],
  ["stopped", / (ToEdf|Held|Started|Closed|Altered)$/],
];

/** The kind of an event, by which it is coloured: an event after which EDF has stopped the task anew is a stop. */
function kindOf(film, at) {
  const event = film.data.events[at];
  const found = KINDS.find(([, answer]) => answer.test(event.answer));
  return found ? found[0] : event.changes[`display ${event.terminal}`]?.length === 0 ? "" : event.changes[`display ${event.terminal}`] ? "stopped" : "";
}

const NOTHING = [];

class Film {
  constructor(data) {
    this.data = data;
    this.states = statesOf(data);
    this.found = new WeakMap();
    this.opened = new Set(); // lines whose registers are shown, each with its source's name
    for (const it of Object.values(data.sources)) it.lines = data.script.slice(it.first - 1, it.first - 1 + it.count);
  }
  get length() {
    return this.data.events.length;
  }
  /** The event that is shown. */
  get at() {
    return this.eventAt(view.at);
  }
  /** The event at a step: of two films, whose events are paired by their keys, each has its own. */
  eventAt(step) {
    return Math.min(view.steps ? view.steps[step][view.films.indexOf(this)] : step, this.length - 1);
  }
  /** The step at which an event is shown. */
  stepOf(at) {
    return view.steps ? view.steps.findIndex((pair) => pair[view.films.indexOf(this)] === at) : at;
  }
  /** The lines that stand under a name after the event at a place; at -1 before the first. */
  lines(at, key) {
    return this.states[Math.min(at, this.length - 1) + 1]?.shown[key] || NOTHING;
  }
  /** What the task of each terminal that has one waits for: nothing, or something, of which the owner is known or not. */
  tasks(at) {
    const lines = this.lines(at, "tasks");
    if (!this.found.has(lines)) {
      const live = lines.filter((line) => !line.endsWith(" NO TASK"));
      this.found.set(lines, new Map(live.map((line) => [line.split(" ")[1], / WAITING FOR (?:.* OWNER (?<owner>\S+)$)?/.exec(line)])));
    }
    return this.found.get(lines);
  }
  owner(at, terminal) {
    const owner = this.tasks(at).get(terminal)?.groups.owner;
    return this.data.terminals.includes(owner) ? owner : null;
  }
  names(at, word) {
    const shown = this.states[Math.min(at, this.length - 1) + 1].shown;
    return Object.keys(shown).filter((key) => key.startsWith(`${word} `)).sort((one, other) => one.localeCompare(other, "en", { numeric: true }));
  }
}

// ---- values that questions are asked of

/** The digits of the bytes that a look at storage shows; hyphens where none are. */
function digitsOf(lines) {
  return lines.map((line) => (/^> [0-9A-F]{6}  /.test(line) ? line.slice(10, 45).replaceAll(" ", "") : "")).join("");
}

function registersOf(lines) {
  return lines.filter((line) => /^> R\d\d /.test(line)).flatMap((line) => line.slice(6).split(" "));
}

/** What a question is about, as a text that differs where it has changed. */
const VALUES = {
  row: (film, at, item) => rowsOf(film.lines(at, item.key))[item.row],
  register: (film, at, item) => registersOf(film.lines(at, item.key))[item.number] || "",
  field: (film, at, item) => digitsOf(film.lines(at, item.key)).substr(2 * item.offset, 2 * item.length),
  whole: (film, at, item) => film.lines(at, item.key).join("\n"),
};

const valueOf = (film, at, item) => VALUES[item.type](film, at, item);

/** The place of the event that changed an item last, at or before a place; or next, after it. None: -1. */
function changedAt(film, item, from, step) {
  for (let at = from; at >= 0 && at < film.length; at += step) {
    if (film.lines(at, item.key) !== film.lines(at - 1, item.key) && valueOf(film, at, item) !== valueOf(film, at - 1, item)) return at;
  }
  return -1;
}

// ---- characters of bytes

const CODES = new Map();
for (const [first, text] of [[0x81, "abcdefghi"], [0x91, "jklmnopqr"], [0xa2, "stuvwxyz"], [0xc1, "ABCDEFGHI"], [0xd1, "JKLMNOPQR"],
  [0xe2, "STUVWXYZ"], [0xf0, "0123456789"], [0x4b, ".<(+|"], [0x50, "&"], [0x5a, "!$*);"], [0x60, "-/"], [0x6b, ",%_>?"],
  [0x7a, ":#@'=\""], [0x40, " "]]) {
  [...text].forEach((it, k) => CODES.set(first + k, it));
}
const characters = (digits) => (digits.match(/../g) || []).map((it) => CODES.get(parseInt(it, 16)) ?? ".").join("");

/** A field's value by the letter of its type, as FIELDS has it: a number of F and H, of packed digits, of zoned ones in C; else none. */
function worded(type, digits) {
  if (digits.includes("-") || !digits) return "";
  if (type === "F" || type === "H") {
    const bits = 4 * digits.length;
    return bits <= 32 ? String(bits === 32 ? parseInt(digits, 16) | 0 : (parseInt(digits, 16) << (32 - bits)) >> (32 - bits)) : "";
  }
  if (type === "P" && /^[0-9]+[A-F]$/.test(digits)) return (/[BD]$/.test(digits) ? "-" : "") + String(BigInt(digits.slice(0, -1) || "0"));
  if (type === "C" && digits.length <= 32 && /^(F[0-9])*[A-F][0-9]$/.test(digits)) {
    return `zoned ${/[BD].$/.test(digits) ? "-" : ""}${BigInt(digits.replace(/.(.)/g, "$1"))}`;
  }
  return "";
}

// ---- what is seen

const view = { films: [], steps: null, at: 0, item: null, script: [], list: 0 }; // list: which list of moves of the script's ORDERS is shown, from 1; else 0

function card(title, ...parts) {
  const it = make("section", "card", make("h2", "", title), ...parts);
  it.setAttribute("aria-label", title);
  return it;
}

/** A line or row that can be asked who changed it: by a click, and by Enter at what stands for it, itself or a part of it. */
function asked(element, film, item, key = element) {
  element.classList.add("asked");
  key.tabIndex = 0;
  if (key.tagName !== "H2") key.setAttribute("role", "button");
  element.title = "Who changed it? (click)";
  const choose = () => {
    view.item = { film, item };
    show();
    focusSaid(0);
  };
  element.addEventListener("click", choose);
  key.addEventListener("keydown", (event) => {
    if (event.key !== "Enter") return;
    event.preventDefault();
    choose();
  });
  return element;
}

/** A part of a row, which stands for it where it is asked: in a table a row and a cell keep their own roles. */
const asking = (text) => make("span", "ask", text);

const isNew = (film, item) => valueOf(film, film.at, item) !== valueOf(film, film.at - 1, item);

/** A screen of 24 rows of 80 columns; that of the event's terminal is framed. */
function screenCard(film, key, title, own) {
  const screen = make("div", "screen");
  rowsOf(film.lines(film.at, key)).forEach((text, row) => {
    const item = { type: "row", key, row };
    const line = make("span", isNew(film, item) ? "row new" : "row", text || " ");
    line.setAttribute("aria-label", `Row ${row + 1}: ${text || "blank"}`);
    screen.append(asked(line, film, item));
  });
  const isEmpty = rowsOf(film.lines(film.at, key)).every((text) => !text);
  if (isEmpty) screen.classList.add("empty");
  const it = card(isEmpty ? `${title}, empty` : title, screen);
  if (own) it.classList.add("own");
  return it;
}

// a row of bytes, of storage or of an item: where, digits, and characters
const STORAGE = /^> ([0-9A-F]{6}  (?=.{35}  )|[0-9A-F]{4} (?=.{35} '))([0-9A-F-][0-9A-F -]{34})(  | ')(.{1,16}?)('?)$/;

/** A row of bytes as digits and characters, of which those are marked that aren't as before; null, where a line is none. */
function bytesRow(line, before) {
  const [found, old] = [STORAGE.exec(line), STORAGE.exec(before || "")];
  const digits = found?.[2].replaceAll(" ", "");
  if (!digits) return null;
  const text = found[3] === "  " ? found[4] + found[5] : found[4];
  if (digits.length !== 2 * text.length) return null;
  const was = old && old[1] === found[1] ? old[2].replaceAll(" ", "") : digits;
  const [blanks, end] = [" ".repeat(35 - found[2].trimEnd().length), found[3] === "  " ? "" : "'"];
  return make("span", "row", found[1], ...digitsMarked(digits, was), `${blanks}${found[3]}`, ...charactersMarked(text, digits, was), end);
}

/** Rows of some lines; of storage rows that are as the one above, and as before, there is one for all. */
function folded(lines, before, shown) {
  const rows = [];
  for (let at = 0; at < lines.length; at += 1) {
    const bytes = STORAGE.exec(lines[at])?.[2];
    let end = at + 1;
    while (bytes && end < lines.length && lines[end] === before[end] && STORAGE.exec(lines[end])?.[2] === bytes) end += 1;
    rows.push(shown(lines[at], at));
    if (end > at + 2) {
      const [from, to] = [at + 1, end - 1].map((k) => lines[k].slice(2, 8));
      rows.push(make("span", "row same", `${from} to ${to}: as above`));
      at = end - 1;
    }
  }
  return rows;
}

/** The places of bytes that aren't as before, in rows: from each, up to each. */
function differences(digits, was) {
  const found = [];
  for (let at = 0; at < digits.length / 2; at += 1) {
    if (digits.substr(2 * at, 2) === was.substr(2 * at, 2)) continue;
    const last = found[found.length - 1];
    if (last && last[1] === at) last[1] += 1;
    else found.push([at, at + 1]);
  }
  return found;
}

/** A text with marks on what stands for bytes that aren't as before; `text` gives the text of some bytes. */
function marked(count, ranges, text) {
  const ends = [...ranges.flat(), count];
  return [0, ...ends.slice(0, -1)].map((from, k) => {
    const shown = text(from, ends[k]);
    return k % 2 ? make("span", "new", shown) : shown;
  }).filter(Boolean);
}

/** Digits in groups of eight; a blank before a group goes with what is in front of it. */
const isGroup = (at) => at % 4 === 0 && at > 0;
const grouped = (digits, from, to) => digits.slice(2 * from, 2 * to).replace(/../g, (it, at) => (isGroup(from + at / 2) ? ` ${it}` : it));
const digitsMarked = (digits, was) => marked(digits.length / 2, differences(digits, was), (from, to) => grouped(digits, from, to));
const charactersMarked = (text, digits, was) => marked(text.length, differences(digits, was), (from, to) => text.slice(from, to));

/** The lines of a look, each without its mark; those that have changed are marked. */
function looked(film, key, isWanted = () => true) {
  const [lines, before] = [film.at, film.at - 1].map((at) => film.lines(at, key).filter(isWanted));
  const shown = (line, at) => bytesRow(line, before[at]) || make("span", before[at] === line ? "row" : "row new", line.replace(/^> /, ""));
  return make("pre", lines.some((line) => STORAGE.test(line)) ? "lines bytes" : "lines", ...folded(lines, before, shown));
}

function linesCard(film, key, title) {
  if (!film.lines(film.at, key).length) return null;
  const it = card(title, looked(film, key));
  asked(it.firstChild, film, { type: "whole", key });
  return it;
}

/** The storage under a name, which a click shows. */
function raw(film, key, isOpen = false) {
  const details = make("details", "", make("summary", "", "Storage"), looked(film, key));
  details.open = isOpen;
  return details;
}

/** Scrolls a part of the page, and not the page, so that an element in it is seen. */
function middle(part, element) {
  const top = element ? element.getBoundingClientRect().top - part.getBoundingClientRect().top + part.scrollTop : 0;
  if (top < part.scrollTop || top > part.scrollTop + part.clientHeight - 30) part.scrollTop = top - part.clientHeight / 2;
}

/** The same of an element among others whose heights aren't known before they are seen: now, and when they are. */
function settled(part, element) {
  middle(part, element);
  for (const time of [0, 60]) setTimeout(() => element.getAttribute("aria-current") && middle(part, element), time);
}

/** The lines of a statement: it goes on while column 72 isn't blank. */
function endOf(lines, line) {
  let end = line;
  while (end < lines.length && (lines[end - 1][71] || " ") !== " ") end += 1;
  return end;
}

/** What is said of a statement that wasn't run up to the event, or in all of the film; nothing of others. */
function unrun(film, source, line) {
  const first = source.runs?.[line];
  if (first === undefined || first < 0) return "";
  return first === 0 ? "never" : first > film.data.leftOut + film.at + 1 ? "later" : "";
}

/** With what an event's turn first came to lines: of each the condition code and the registers, and which of these weren't so at the line before. */
function arrivalsOf(event) {
  const found = new Map();
  let [registers, before] = [Array(16).fill("00000000"), 0];
  for (const [line, code, change] of event.arrivals || []) {
    registers = registers.map((it, number) => change[number] ?? it);
    found.set(line, { line, code, registers, before, changed: before ? Object.keys(change).map(Number) : [] });
    before = line;
  }
  return found;
}

/** The registers and the condition code of an arrival at a line. */
function arrivalBox(arrival, numberOf) {
  const marked = arrival.changed.length ? `; marked: not as at line ${numberOf(arrival.before)}` : "";
  const said = `The first time that this turn comes to line ${numberOf(arrival.line)}: CC ${arrival.code}${marked}`;
  const registers = arrival.registers.map((it, number) => {
    const text = `R${String(number).padStart(2, "0")} ${it}`;
    return make("span", arrival.changed.includes(number) ? "new" : "", text);
  });
  return make("span", "arrival", make("span", "said", said), ...registers);
}

/** A row of the source to which the turn came: a click or Enter shows with what registers, and hides them. Those of a line that were shown are
 * shown at other events too. Returns what stands under the statement. */
function arrivalUnder(film, source, row, arrival, numberOf) {
  const name = `${source.name} ${arrival.line}`;
  const box = arrivalBox(arrival, numberOf);
  const put = () => {
    box.hidden = !film.opened.has(name);
    row.setAttribute("aria-expanded", String(!box.hidden));
  };
  const change = () => {
    if (!film.opened.delete(name)) film.opened.add(name);
    put();
  };
  row.classList.add("asked");
  row.tabIndex = 0;
  row.setAttribute("role", "button");
  row.title = "With what registers? (click)";
  row.addEventListener("click", change);
  row.addEventListener("keydown", (event) => event.key === "Enter" && change());
  put();
  return box;
}

/** The source at which a task is: what comes next, or is due, is marked; what this half-turn surely did is tinted, and what wasn't run so far, or
 * never, in other colours. A row to which the turn came has its registers under it. */
function sourceCard(film, terminal) {
  const event = film.data.events[film.at];
  const ran = film.states[film.at + 1]?.ran[terminal];
  const source = ran && film.data.sources[ran[0]];
  if (!source || !source.lines.length) return null;
  const text = make("pre", "source lines");
  const passed = (event?.terminal === terminal && event.passed) || [];
  const isOf = (first, line) => line >= first && line <= endOf(source.lines, first);
  const numberOf = (line) => source.from?.[line - 1] || String(line);
  const width = Math.max(5, ...(source.from || []).map((it) => it.length));
  const arrivals = event?.terminal === terminal ? arrivalsOf(event) : new Map();
  const under = new Map(); // the registers that stand under a row: the last one of a statement
  source.lines.forEach((line, at) => {
    const kind = event?.ran && isOf(ran[1], at + 1) ? "row here" : passed.concat(event?.ran ? [] : ran[1]).some((it) => isOf(it, at + 1)) ? "row ran" : "row";
    const missed = unrun(film, source, at + 1);
    const mark = { never: "-", later: "." }[missed] || " ";
    const row = make("span", `${kind} ${missed}`.trim(), `${numberOf(at + 1).padStart(width)}${mark} ${line.slice(0, 72)}`);
    const arrival = arrivals.get(at + 1);
    if (arrival) under.set(endOf(source.lines, at + 1), arrivalUnder(film, source, row, arrival, numberOf));
    text.append(row, ...(under.has(at + 1) ? [under.get(at + 1)] : []));
  });
  setTimeout(() => middle(text, text.querySelector(".here") || text.querySelector(".ran")), 0);
  const what = !event?.ran ? ", where the task was last" : / Abended /.test(event.answer) ? ", where the task abended" : "";
  return card(`Source ${source.name}, line ${numberOf(ran[1])}${what}`, text);
}

const HEADS = ["Field", "Offset", "Bytes and characters", "Value"];
const IN_ROW = 8; // bytes, so that they and their characters stand in a row on a phone too

/** Bytes, so many in a row, with their characters beside them; those that aren't as before are marked. */
function bytesOf(bytes, was) {
  const rows = bytes.match(new RegExp(`.{1,${2 * IN_ROW}}`, "g")) || [];
  return make("span", "bytes", ...rows.map((digits, k) => {
    const old = was.substr(2 * IN_ROW * k, digits.length).padEnd(digits.length, "-");
    const filled = " ".repeat(2 * IN_ROW + 1 - digits.length - (digits.length > 8 ? 1 : 0));
    return make("span", "row", ...digitsMarked(digits, old), `${filled} '`, ...charactersMarked(characters(digits), digits, old), "'");
  }));
}

/** A row of heads, each of which is that of its column. */
function headsOf(names) {
  return make("tr", "", ...names.map((name) => {
    const it = make("th", "", name);
    it.scope = "col";
    return it;
  }));
}

/** A table of fields by their names; those that aren't in what is shown of their storage are left out. */
function fieldsTable(film, fields, key) {
  const digits = digitsOf(film.lines(film.at, key));
  const table = make("table", "", headsOf(HEADS));
  for (const it of fields) {
    const bytes = digits.substr(2 * it.offset, 2 * it.length);
    if (bytes.length < 2 * it.length) continue;
    const item = { type: "field", key, offset: it.offset, length: it.length, name: it.name };
    const was = digitsOf(film.lines(film.at - 1, key)).substr(2 * it.offset, 2 * it.length) || bytes;
    const name = asking(it.name);
    const head = make("th", "", name);
    head.scope = "row";
    const cells = [it.offset.toString(16).toUpperCase().padStart(4, "0"), bytesOf(bytes, was), worded(it.type, bytes)];
    table.append(asked(make("tr", isNew(film, item) ? "has-new" : "", head, ...cells.map((part) => make("td", "", part))), film, item, name));
  }
  return table;
}

function sourceOfLevel(film, terminal, level) {
  const line = film.lines(film.at, `task ${terminal}`).find((it) => it.startsWith(`> LEVEL ${String(level).padStart(2, "0")} PROGRAM `));
  return film.data.sources[line?.split(" ")[4]];
}

function fieldsCard(film, terminal, key) {
  const level = Number(key.split(" ")[2]);
  const source = sourceOfLevel(film, terminal, level);
  if (!source?.fields.length) return card(`DFHEISTG of level ${level}`, raw(film, key, true));
  return card(`Fields of ${source.name}, level ${level} at ${terminal}`, fieldsTable(film, source.fields, key), raw(film, key));
}

/** Where the fields are that have names at a terminal: those of each level's DFHEISTG, of areas, and of the CWA. */
function placesOf(film, terminal) {
  const found = [];
  const add = (key, fields) => {
    const base = /^> ([0-9A-F]{6})  /.exec(film.lines(film.at, key)[0] || "");
    if (base) found.push(...fields.map((it) => ({ name: it.name, at: parseInt(base[1], 16) + it.offset, length: it.length })));
  };
  for (const key of film.names(film.at, `storage ${terminal}`).reverse()) add(key, sourceOfLevel(film, terminal, Number(key.split(" ")[2]))?.fields || []);
  add("cwa", sourceOfCwa(film, terminal)?.cwa || []);
  const named = film.lines(film.at, `fields ${terminal}`).map((line) => NAMED.exec(line)).filter(Boolean);
  return found.concat(named.map(([, name, at, length]) => ({ name, at: parseInt(at, 16), length: Number(length) })));
}

const CHANGES = /^> CHANGES ([0-9A-F]{6}) (\d+) FROM (\S+) TO (\S+)(?: FIELD \S+)?$/;

/** What the next turn of a terminal would do now: its answer, and the bytes that it would change, with the names of the fields there. */
function aheadCard(film, terminal) {
  const [first, ...rows] = film.lines(film.at, `ahead ${terminal}`).filter((line) => !/^> INSTRUCTIONS? /.test(line));
  if (!first) return null;
  const places = placesOf(film, terminal);
  const namesIn = (at, length) => new Set(places.filter((it) => it.at < at + length && at < it.at + it.length).map((it) => it.name));
  const spaced = (digits) => digits.replace(/.{8}(?=.)/g, "$& ");
  const table = make("table", "ahead", headsOf(["Bytes", "Fields", "Now", "Then"]));
  for (const found of rows.map((row) => CHANGES.exec(row)).filter(Boolean)) {
    const names = [...namesIn(parseInt(found[1], 16), Number(found[2]))].join(" ");
    table.append(make("tr", "", ...[`${found[1]} ${found[2]}`, names, spaced(found[3]), spaced(found[4])].map((text, k) => make("td", k ? "long" : "", text))));
  }
  const details = make("details", "", make("summary", "", `${rows.length} ${rows.length === 1 ? "row" : "rows"} of bytes`), table);
  return card(`The next turn at ${terminal} would be answered ${first.split(" ").slice(3).join(" ")}`, rows.length ? details : null);
}

const NAMED = /^> FIELD \S+ '(.+)' AT ([0-9A-F]{6}) LENGTH (\d+) /;

/** An area, with the fields that a base register in use has there. */
function areaCard(film, terminal, key) {
  const [, , area] = key.split(" ");
  const it = linesCard(film, key, `Area ${area} of ${terminal}`);
  const types = film.data.sources[film.states[film.at + 1]?.ran[terminal]?.[0]]?.types || {};
  const named = film.lines(film.at, `fields ${terminal}`).map((line) => NAMED.exec(line)).filter((found) => found && types[found[1]]);
  const fields = named.map(([, name, at, length]) => ({ name, offset: parseInt(at, 16) - parseInt(area, 16), length: Number(length), type: types[name] }));
  const table = fieldsTable(film, fields.filter((field) => field.offset >= 0), key);
  if (table.rows.length > 1) it.append(table);
  return it;
}

/** A queue: its items in characters; and of each that isn't all characters the bytes, which are asked by themselves. */
function queueCard(film, key) {
  const name = key.slice(6);
  const it = linesCard(film, key, `Queue ${name}`);
  for (const line of film.lines(film.at, key).filter((it) => /^> ITEM \d+ LENGTH (?:\d+ .*\.|\d{3,} )/.test(it))) {
    const number = line.split(" ")[2];
    const item = `item ${name} ${number}`;
    const question = { type: "whole", key: item };
    if (!film.lines(film.at, item).length) continue;
    const before = film.lines(film.at - 1, item).slice(1);
    const rows = film.lines(film.at, item).slice(1).map((line, k) => bytesRow(line, before[k]) || make("span", "row", line.replace(/^> /, "")));
    it.append(asked(make("pre", "lines bytes item", make("span", "row", `ITEM ${number}`), ...rows), film, question));
  }
  return it;
}

/** The CWA, by the names that the program at a terminal has for it, or else another program. */
function sourceOfCwa(film, terminal) {
  const sources = [film.data.sources[film.states[film.at + 1]?.ran[terminal]?.[0]], ...Object.values(film.data.sources)];
  return sources.find((it) => it?.cwa.length);
}

function cwaCard(film, terminal) {
  const source = sourceOfCwa(film, terminal);
  if (!film.lines(film.at, "cwa").length) return null;
  if (!source) return card("CWA", raw(film, "cwa"));
  return card(`Fields of the CWA, as ${source.name} has them`, fieldsTable(film, source.cwa, "cwa"), raw(film, "cwa"));
}

function registersCard(film, terminal) {
  const key = `task ${terminal}`;
  const registers = registersOf(film.lines(film.at, key));
  if (!registers.length) return null;
  const table = make("table");
  for (let row = 0; row < 4; row += 1) {
    const cells = [0, 1, 2, 3].map((column) => {
      const number = 4 * row + column;
      const item = { type: "register", key, number };
      const name = asking(`R${String(number).padStart(2, "0")} ${registers[number]}`);
      return asked(make("td", isNew(film, item) ? "new" : "", name), film, item, name);
    });
    table.append(make("tr", "", ...cells));
  }
  return card(`Task at ${terminal}`, table, looked(film, key, (line) => !/^> R\d\d /.test(line)));
}

/** Who waits for whom: an arrow from each waiting terminal to the owner of what it waits for. */
function waitsCard(film) {
  const it = linesCard(film, "tasks", "Tasks");
  const names = film.data.terminals;
  const waits = names.map((name) => [name, film.owner(film.at, name)]).filter(([, owner]) => owner);
  if (!it || !waits.length) return it;
  const label = waits.map(([waiter, owner]) => `${waiter} waits for ${owner}`).join(", ");
  const svg = draw("svg", { class: "waits", width: 90 * names.length, height: 70, viewBox: `0 0 ${90 * names.length} 70`, role: "img", "aria-label": label });
  const x = (name) => 40 + 90 * names.indexOf(name);
  svg.append(...names.map((name) => draw("text", { x: x(name) - 16, y: 38 }, name)));
  for (const [from, to] of waits.map(([waiter, owner]) => [x(waiter), x(owner)])) {
    const [y, bend] = from < to ? [24, 2] : [46, 68];
    svg.append(draw("path", { class: "wait", d: `M ${from} ${y} Q ${(from + to) / 2} ${bend} ${to} ${y}`, "marker-end": "url(#tip)" }));
  }
  it.append(svg);
  return it;
}

/** The cards of a film at the event that is chosen, by their areas: what is seen at its terminal; its program; data; other screens. */
function cardsOf(film) {
  const terminals = film.data.terminals;
  const terminal = film.data.events[Math.min(film.at, film.length - 1)]?.terminal || terminals[0];
  const has = (key) => film.lines(film.at, key).length;
  const lines = (key, title) => linesCard(film, key, title);
  const seen = [terminal && screenCard(film, `screen ${terminal}`, `Screen of ${terminal}`, true), has(`display ${terminal}`) && screenCard(film, `display ${terminal}`, `EDF at ${terminal}`)];
  const program = [lines(`abend ${terminal}`, `Last abend at ${terminal}`), lines(`command ${terminal}`, `Command that is due at ${terminal}`), sourceCard(film, terminal),
    aheadCard(film, terminal)];
  const fields = film.names(film.at, `storage ${terminal}`).reverse().map((key) => fieldsCard(film, terminal, key));
  const queues = film.names(film.at, "queue").map((key) => queueCard(film, key));
  const gotten = film.names(film.at, `area ${terminal}`).map((key) => areaCard(film, terminal, key));
  const data = [...fields, ...gotten, registersCard(film, terminal), waitsCard(film), lines("resources", "Resources"), cwaCard(film, terminal),
    lines("queues", "Queues"), ...queues];
  const others = terminals.filter((it) => it !== terminal).flatMap((it) => [screenCard(film, `screen ${it}`, `Screen of ${it}`),
    has(`display ${it}`) && screenCard(film, `display ${it}`, `EDF at ${it}`)]);
  const areas = { [seen[1] ? "seen both" : "seen"]: seen, program, data, others };
  return Object.entries(areas).map(([area, cards]) => make("div", area, ...cards.filter(Boolean)));
}

// ---- every order: what the script's ORDERS found

/** The lists of moves that have a film, of all searches of the films of the script. */
const listsOf = () => view.script.flatMap((film) => film.data.searches).flatMap((it) => it.lists).filter((it) => it.film);

/** What a search found, as a table: of each outcome what is seen, with what the others lack marked, and a way to its film. */
function searchCard(search) {
  const parts = (line, ranges) => ranges.flatMap(([from, to], k) => [line.slice(k ? ranges[k - 1][1] : 0, from), make("mark", "", line.slice(from, to))]);
  const withMarks = (line, ranges) => make("span", ranges.length ? "row new" : "row", ...parts(line, ranges),
    line.slice(ranges.length ? ranges[ranges.length - 1][1] : 0));
  const rows = search.lists.map((list) => {
    const seen = make("pre", "lines", ...list.seen.map((line, k) => withMarks(line, list.marks[k])));
    const button = make("button", "", "Its film");
    button.disabled = !list.film;
    button.addEventListener("click", () => enter(1 + listsOf().indexOf(list)));
    const moves = make("pre", "lines", ...list.moves.map((line) => make("span", "row", line)));
    return make("tr", "", make("td", "", list.what), make("td", "long", seen), make("td", "", moves, list.moves.length ? button : null));
  });
  const states = search.most === null ? `${search.states} states` : `more than ${search.most} states, so there may be other outcomes`;
  const heads = headsOf(["Outcome", "What is seen", "By these lines"]);
  const it = card(`Every order from line ${search.line} on: ${states}`, make("table", "orders", heads, ...rows));
  it.tabIndex = -1;
  return it;
}

/** Shows the film of a list of moves, or, by 0, that of the script again. */
function enter(number, at = 0) {
  const list = number ? listsOf()[number - 1] : null;
  if (number && !list) return;
  [view.list, view.item] = [number, null];
  view.films = list ? [new Film(list.film)] : view.script;
  view.steps = list ? null : view.films[0].data.pairs?.steps || null;
  mount();
  go(at);
}

// ---- the time line

/** How wide a lane is, in pixels. */
const laneOf = (film) => (film.data.terminals.length > 6 ? 8 : 13);

/** The lanes at an event: a line for each terminal with a task, broken while that waits; a dot at the event's; an arrow to who is waited for. */
function lanesOf(film, at, terminal) {
  const [names, lane] = [film.data.terminals, laneOf(film)];
  const x = (name) => 8 + lane * names.indexOf(name);
  const svg = draw("svg", { class: "lanes", width: 4 + lane * names.length, height: "100%", "aria-hidden": "true" });
  for (const [name, wait] of film.tasks(at)) svg.append(draw("line", { class: wait ? "lane waits" : "lane", x1: x(name), x2: x(name), y1: 0, y2: "100%" }));
  if (names.includes(terminal)) svg.append(draw("circle", { cx: x(terminal), cy: 9, r: lane > 8 ? 4 : 3 }));
  const owner = film.owner(at, terminal);
  if (owner && owner !== terminal) {
    const [from, to, way] = [x(terminal), x(owner), Math.sign(x(owner) - x(terminal))];
    svg.append(draw("path", { class: "wait", d: `M ${from} 9 H ${to} m ${-4 * way} -3 l ${4 * way} 3 l ${-4 * way} 3` }));
  }
  return svg;
}

const LONGEST_NOTE = 200; // characters of a comment that are shown; a pointer on it shows all

function noteOf(text) {
  const it = make("li", "note", text.length > LONGEST_NOTE ? `${text.slice(0, LONGEST_NOTE)} ..` : text);
  if (text.length > LONGEST_NOTE) it.title = visible(text);
  return it;
}

/** The command that is due at a terminal after an event, by its words up to the first argument; none: an empty text. */
function commandAt(film, at, terminal) {
  const found = /^> ([A-Z][A-Z ]*)(?:\(|$)/.exec(film.lines(at, `command ${terminal}`)[0] || "");
  return found && found[1] !== "COMMAND" ? found[1] : "";
}

/** Where the task of a terminal is after an event, as ", line 8"; where that isn't known, an empty text. */
const lineAt = (film, at, terminal) => (film.states[at + 1]?.ran[terminal] ? `, line ${film.states[at + 1].ran[terminal][1]}` : "");

/** What a turn did: the command and its line, and its condition; or up to which command its instructions ran. */
function turnSaid(film, at, answer) {
  const { terminal } = film.data.events[at];
  const [word, ...rest] = answer.split(" ");
  const due = commandAt(film, at - 1, terminal);
  const said = word === "Performed" ? rest.join(" ") : word === "TookLabel" ? `${rest.join(" ")}, its label` : answer;
  if (due && !["Held", "Idle", "NoSuchTerminal"].includes(word)) return `${due}${lineAt(film, at - 1, terminal)}: ${said}`;
  const next = commandAt(film, at, terminal);
  if (word === "AtCommand" && next) return `to ${next}${lineAt(film, at, terminal)}`;
  return word === "Abended" ? `${lineAt(film, at, terminal).replace(/^, /, "")}: ${said}`.replace(/^: /, "") : said;
}

/** An event as the time line has it: its line, what a turn did, and its answer. */
function saidOf(film, at) {
  const event = film.data.events[at];
  const answer = event.answer.startsWith(event.text.split(" ").slice(0, 2).join(" ")) ? event.answer.split(" ").slice(2).join(" ") : event.answer;
  const said = event.text.startsWith("TURN ") ? turnSaid(film, at, answer) : answer;
  const owner = film.owner(at, event.terminal);
  return `${event.text}: ${said}${!owner ? "" : answer === "Waiting" ? ` for ${owner}` : `, waits for ${owner}`}`;
}

/** The arrows up and down go from button to button of a time line, which is one stop of the Tab key. */
function walk(list, event) {
  const way = { ArrowUp: -1, ArrowDown: 1 }[event.key];
  if (!way) return;
  const buttons = [...list.querySelectorAll("button")];
  const next = buttons[buttons.indexOf(document.activeElement) + way];
  event.preventDefault();
  if (!next) return;
  next.focus({ preventScroll: true });
  if (!next.classList.contains("search")) next.click();
}

function timeLine(film) {
  const list = make("ol");
  const asked = (at) => (film.data.searches || []).filter((it) => it.before === at).map((search) => {
    const count = search.lists.filter((it) => it.what.startsWith("outcome ")).length;
    const button = make("button", "event search", `ORDERS, line ${search.line}: ${count} ${count === 1 ? "outcome" : "outcomes"}`);
    button.tabIndex = -1;
    button.addEventListener("click", () => {
      const it = film.searches[film.data.searches.indexOf(search)];
      it.scrollIntoView({ block: "center" });
      it.focus({ preventScroll: true });
    });
    return make("li", "note", button);
  });
  film.buttons = film.data.events.map((event, at) => {
    const button = make("button", `event ${kindOf(film, at)}`, lanesOf(film, at, event.terminal), make("span", "what", saidOf(film, at)));
    button.type = "button";
    button.tabIndex = -1;
    button.style.paddingLeft = `${10 + laneOf(film) * film.data.terminals.length}px`;
    button.addEventListener("click", () => go(film.stepOf(at)));
    list.append(...asked(at), ...(event.comments || []).map(noteOf), make("li", "", button));
    return button;
  });
  list.append(...asked(film.length));
  list.addEventListener("keydown", (event) => walk(list, event));
  const fault = film.data.fault;
  if (fault) list.append(make("li", "note fault", `Line ${fault[0]}: ${fault[1]}: ${film.data.script[fault[0] - 1] || ""}`));
  const heads = film.data.terminals.map((it) => make("span", "", it));
  const it = make("nav", laneOf(film) > 8 ? "time" : "time narrow", make("div", "heads", ...heads), list);
  it.setAttribute("aria-label", "Time line");
  return it;
}

// ---- going about

const length = () => (view.steps ? view.steps.length : Math.max(...view.films.map((film) => film.length)));

function go(at) {
  if (!length()) return void (byId("said").textContent = byId("at").textContent = "no event");
  view.at = Math.max(0, Math.min(at, length() - 1));
  history.replaceState(null, "", `#${view.list ? `o${view.list}` : ""}e${view.at + 1}`);
  show();
}

function itemName(item) {
  return item.name || { row: `row ${item.row + 1} of the ${item.key}`, register: `register ${item.number}`, whole: item.key }[item.type];
}

/** The buttons that lead to the events which changed the chosen item. */
function changesOf() {
  const { film, item } = view.item;
  const before = changedAt(film, item, Math.min(film.at, film.length - 1), -1);
  const next = changedAt(film, item, film.at + 1, 1);
  const button = (text, at, place) => {
    const it = make("button", "", text);
    it.disabled = at < 0;
    it.addEventListener("click", () => {
      go(film.stepOf(at));
      focusSaid(place);
    });
    return it;
  };
  const said = (at) => (at < 0 ? "none" : `event ${at + 1}, ${saidOf(film, at)}`);
  const earlier = before === film.at ? changedAt(film, item, film.at - 1, -1) : before;
  return make("span", "changed", `${itemName(item)} changed by: `, button(`< ${said(earlier)}`, earlier, 0),
    before === film.at ? make("strong", "", "this event") : null, button(`${said(next)} >`, next, 1));
}

/** Gives one of these buttons the focus, or the other one, so that Enter goes on from event to event. */
function focusSaid(place) {
  const buttons = [...byId("said").querySelectorAll("button")];
  [buttons[place], ...buttons].find((it) => it && !it.disabled)?.focus();
}

function show() {
  const at = view.at;
  byId("at").textContent = `${view.steps ? "step" : "event"} ${at + 1} of ${length()}`;
  byId("slide").value = String(at);
  view.films.forEach((film) => {
    film.current?.removeAttribute("aria-current");
    if (film.current) film.current.tabIndex = -1;
    const hadFocus = film.current && film.current === document.activeElement;
    film.current = film.buttons[film.at];
    film.current?.setAttribute("aria-current", "true");
    if (film.current) film.current.tabIndex = 0;
    if (hadFocus) film.current.focus({ preventScroll: true });
    if (film.current) settled(film.current.closest(".time"), film.current);
    const open = [...film.views.querySelectorAll("details[open]")].length > 0;
    film.views.replaceChildren(...cardsOf(film));
    if (open) film.views.querySelectorAll("details").forEach((it) => (it.open = true));
  });
  byId("said").classList.toggle("hint", !view.item);
  byId("said").replaceChildren(view.item ? changesOf() : "Click a field, a register, a queue or a row of a screen to see which event changed it.");
}

/** Whether an event has a text, in its line, its answer or its comments; after `screen:` whether it brings it to a screen. */
function hasText(film, at, text) {
  const onScreen = /^SCREEN: */.exec(text);
  const wanted = onScreen ? text.slice(onScreen[0].length) : text;
  const event = film.data.events[at];
  const isNewOn = (key) => film.lines(at, key) !== film.lines(at - 1, key) && rowsOf(film.lines(at, key)).join("\n").toUpperCase().includes(wanted);
  if (onScreen) return film.names(at, "screen").some(isNewOn);
  return [event.text, event.answer, saidOf(film, at), ...(event.comments || [])].some((it) => it.toUpperCase().includes(wanted));
}

/** Goes to the next event that has a text, in one of the films; after the last one comes the first. */
function find(text) {
  for (let step = 1; step <= length(); step += 1) {
    const at = (view.at + step) % length();
    if (view.films.some((film) => film.stepOf(film.eventAt(at)) === at && hasText(film, film.eventAt(at), text.toUpperCase()))) return go(at);
  }
  byId("said").textContent = `Nothing has ${text}`;
}

/** The lines of a script that lead to an event: those before its line, and the line, of a RUN as many turns. */
function scriptTo(film, at) {
  const event = film.data.events[at];
  const lines = film.data.script.slice(0, event.line - 1);
  if (event.turn) return [...lines, `RUN ${event.terminal} ${event.turn}`];
  const isBlock = /^(SOURCE|IMAGE) /.test(film.data.script[event.line - 1]);
  const end = isBlock ? film.data.script.findIndex((line, k) => k >= event.line && line.trimEnd() === "/*") : event.line - 1;
  return film.data.script.slice(0, end + 1);
}

async function copy() {
  if (!view.films[0].length) return void (byId("said").textContent = "no event");
  await toClipboard(`${scriptTo(view.films[0], view.films[0].at).join("\n")}\n`);
  byId("said").textContent = "Copied.";
}

const KEYS = {
  ArrowLeft: () => go(view.at - 1),
  ArrowRight: () => go(view.at + 1),
  PageUp: () => go(view.at - 10),
  PageDown: () => go(view.at + 10),
  Home: () => go(0),
  End: () => go(length() - 1),
  "/": () => byId("find").focus(),
  c: () => copy(),
};

/** The list of moves and the event to which the address leads; none: null. */
function linked() {
  const found = /^#(?:o(\d+))?e(\d+)$/.exec(location.hash);
  return found && { list: Number(found[1] || 0), at: Number(found[2]) - 1 };
}

/** Puts the films into the page. */
function mount() {
  byId("name").textContent = view.films.map((film) => film.data.name + (film.data.leftOut && !view.list ? ` (the last ${film.length} events)` : "")).join(" and ");
  document.title = byId("name").textContent;
  document.body.classList.toggle("two", view.films.length > 1);
  byId("script").hidden = !view.list;
  byId("main").replaceChildren();
  for (const film of view.films) {
    film.views = make("div", "views");
    film.searches = (film.data.searches || []).map(searchCard);
    byId("main").append(make("div", "film", timeLine(film), make("div", "right", ...film.searches, film.views)));
  }
  byId("slide").max = String(Math.max(0, length() - 1));
}

function begin() {
  view.script = view.films = JSON.parse(byId("data").textContent).map((data) => new Film(data));
  const pairs = view.films[0].data.pairs;
  view.steps = pairs ? pairs.steps : null;
  mount();
  byId("script").addEventListener("click", () => enter(0));
  byId("slide").addEventListener("input", (event) => go(Number(event.target.value)));
  byId("first").addEventListener("click", KEYS.Home);
  byId("last").addEventListener("click", KEYS.End);
  byId("back").addEventListener("click", KEYS.ArrowLeft);
  byId("on").addEventListener("click", KEYS.ArrowRight);
  byId("copy").addEventListener("click", copy);
  byId("find").addEventListener("keydown", (event) => event.key === "Enter" && find(event.target.value));
  document.addEventListener("keydown", (event) => {
    if (event.target.tagName === "INPUT" && event.target.type === "search") return event.key === "Escape" && event.target.blur();
    if (event.ctrlKey || event.altKey || event.metaKey || !KEYS[event.key]) return;
    event.preventDefault();
    KEYS[event.key]();
  });
  if (pairs?.marked) view.films.forEach((film, k) => film.buttons[pairs.marked[k]].classList.add("differs"));
  const to = linked();
  if (to && to.list) enter(to.list, to.at);
  else if (length()) go(to ? to.at : pairs?.differs ?? 0);
  else go(0);
}

window.addEventListener("hashchange", () => {
  const to = linked();
  if (to && to.list !== view.list) enter(to.list, to.at);
  else if (to && to.at !== view.at) go(to.at);
});
begin();
