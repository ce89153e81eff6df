// The page of a map: each screen small, by levels, with arrows between them; one that is chosen is large, with its states, lists and keys.

const view = { data: null, screens: [], cards: [], pairs: [], rows: [], at: 0, state: 0, hasAll: false, isOpen: false };

// ---- the data

/** The lines of a state's list: those of the state from which it goes on, and its own. */
function listOf(number) {
  const state = view.data.states[number - 1];
  return state.from ? [...listOf(state.from), ...state.lines] : state.lines;
}

/** A key's number as it is shown: without the terminal where there is one alone. */
function keyText(number) {
  const [, terminal, ...rest] = view.data.keys[number - 1].split(" ");
  return view.data.terminals.length === 1 ? rest.join(" ") : `${terminal} ${rest.join(" ")}`;
}

/** A list's keys as they are shown. */
const keysOf = (lines) => lines.filter((line) => line.startsWith("KEY ")).map((line) => line.split(" ").slice(view.data.terminals.length === 1 ? 2 : 1).join(" "));

const screenOf = (state) => view.data.states[state - 1].screen;

/** A screen's text, by parts: of each terminal the rows, and the other lines. */
function partsOf(text) {
  const parts = { pages: [], others: [] };
  for (const line of text) {
    const page = /^(?:SCREEN|DISPLAY) (\S+)(?: \d)?$/.exec(line);
    if (page) parts.pages.push({ terminal: page[1], lines: [] });
    else if (PAGE_ROW.test(line) && parts.pages.length) parts.pages[parts.pages.length - 1].lines.push(line);
    else parts.others.push(line);
  }
  return parts;
}

const kindOf = (incidents) => (incidents.some((it) => it.startsWith("ABENDS ")) ? "abends" : incidents.length ? "refused" : "");

/** Between two screens: each pair once, with the keys that lead there, and the worst that comes of one. */
function pairsOf() {
  const found = new Map();
  view.data.states.forEach((state, at) => {
    for (const [key, to, incidents = []] of state.arrows) {
      const target = to ? screenOf(to) : 0;
      const name = `${state.screen} ${target}`;
      if (!found.has(name)) found.set(name, { from: state.screen, to: target, keys: new Map(), kind: "", isFirst: false });
      const pair = found.get(name);
      const kind = kindOf(incidents);
      if (!pair.keys.has(key) || kind === "abends") pair.keys.set(key, { state: at + 1, kind, incidents });
      if (kind === "abends" || (kind && !pair.kind)) pair.kind = kind;
    }
  });
  for (const screen of view.data.screens) {
    const before = view.data.states[screen.states[0] - 1].from;
    const pair = before && found.get(`${screenOf(before)} ${screen.number}`);
    if (pair) pair.isFirst = true;
  }
  return [...found.values()];
}

/** Lines, one below the other. */
const linesOf = (className, lines) => make("div", className, ...lines.map((line) => make("span", "line", line)));

const countOf = (count, name) => `${count} ${name}${count === 1 ? "" : "s"}`;

/** Some keys in a few words. */
const named = (keys) => (keys.length > 2 ? `${keyText(keys[0])} and ${keys.length - 1} more` : keys.map(keyText).join(", "));

// ---- small screens

/** How many columns and rows small screens have: those that some screen uses, and not too few. */
function extent() {
  let [columns, rows] = [40, 6];
  for (const screen of view.screens) {
    for (const page of screen.parts.pages) {
      rowsOf(page.lines).forEach((text, at) => {
        if (text.trim()) [columns, rows] = [Math.max(columns, text.trimEnd().length), Math.max(rows, at + 1)];
      });
    }
  }
  return [Math.min(80, columns + 1), Math.min(24, rows + 1)];
}

const [WIDE, HIGH] = [6.1, 12]; // a character of a small screen

function small(page, [columns, rows]) {
  const isAlone = view.data.terminals.length < 2;
  if (!isAlone && !rowsOf(page.lines).some((text) => text.trim())) return make("small", "page", `${page.terminal}: empty`);
  const lines = rowsOf(page.lines).slice(0, rows).map((text, at) => {
    const line = draw("text", { x: 3, y: HIGH * (at + 1) - 1 });
    line.textContent = visible(text.trimEnd().slice(0, columns));
    return line;
  });
  const svg = draw("svg", { class: "small", viewBox: `0 0 ${columns * WIDE + 6} ${rows * HIGH + 4}`, "aria-hidden": "true" }, ...lines.filter((it) => it.textContent));
  return isAlone ? svg : make("span", "page", make("small", "", page.terminal), svg);
}

/** What is said of a screen's arrows: abends, refused keys, keys that stay, and those that lead to what isn't written. */
function badgesOf(number) {
  const out = view.pairs.filter((pair) => pair.from === number);
  const codes = new Set(out.flatMap((pair) => [...pair.keys.values()].flatMap((it) => it.incidents)).filter((it) => it.startsWith("ABENDS ")).map((it) => it.split(" ")[2]));
  const refused = out.flatMap((pair) => [...pair.keys.values()]).filter((it) => it.kind === "refused").length;
  const badge = (className, text) => make("span", `badge ${className}`, text);
  return [
    codes.size ? badge("abends", [...codes].join(" ")) : null,
    refused ? badge("refused", `${refused} refused`) : null,
    out.some((pair) => pair.to === 0) ? badge("more", "goes on") : null,
    view.screens[number - 1].running ? badge("running", "STILL RUNNING") : null,
  ];
}

function cardOf(screen, size) {
  const before = view.data.states[screen.states[0] - 1];
  const by = before.from ? `${keysOf(before.lines).join(", ")}` : "the beginning";
  const waits = screen.parts.others.filter((line) => line !== "STILL RUNNING").map((line) => line.replace(/^(\S+) \S+ LEVEL \d+ WAITING FOR /, "$1 waits for "));
  const badges = badgesOf(screen.number).filter(Boolean);
  const it = make("button", "screen-card", make("span", "caption", make("strong", "", String(screen.number)), make("span", "by", by)),
    badges.length ? make("span", "badges", ...badges) : null, ...screen.parts.pages.map((page) => small(page, size)), waits.length ? linesOf("waits", waits) : null);
  it.type = "button";
  it.id = `s${screen.number}`;
  it.setAttribute("aria-label", `Screen ${screen.number}, by ${by}: ${visible(screen.title) || "nothing on it"}`);
  it.addEventListener("click", () => open(screen.number, 0));
  it.addEventListener("focus", () => view.isOpen || choose(screen.number - 1)); // not the focus that a dialog gives back
  return it;
}

function mount() {
  const size = extent();
  const levels = new Map();
  for (const screen of view.screens) levels.set(screen.level, [...(levels.get(screen.level) || []), screen]);
  view.svg = draw("svg", { id: "arrows", "aria-hidden": "true" });
  byId("map").replaceChildren(view.svg);
  for (const [level, screens] of [...levels].sort((one, other) => one[0] - other[0])) {
    const cards = screens.map((screen) => (view.cards[screen.number - 1] = cardOf(screen, size)));
    byId("map").append(make("section", "level", make("h2", "", level ? `By ${countOf(level, "key")}` : "The beginning"), make("div", "row", ...cards)));
  }
}

// ---- arrows

/** Where a card is in the map. */
function boxOf(number) {
  const [map, card] = [byId("map").getBoundingClientRect(), view.cards[number - 1].getBoundingClientRect()];
  const [left, top, width] = [card.left - map.left, card.top - map.top, card.width];
  return { left, top, right: left + width, bottom: top + card.height, x: left + width / 2, width };
}

const GUTTER = 6; // from a card, where arrows pass other rows

/** Whether a row of cards stands between two heights. */
const isRowBetween = (above, below) => view.rows.some((row) => row.top > above - 2 && row.bottom < below + 2);

/** The way of an arrow between two cards, down, up, or beside, and where it ends: past other rows it goes between the cards. */
function wayOf(from, to) {
  const near = Math.max(-1, Math.min(1, (to.x - from.x) / 400));
  if (to.top >= from.bottom - 1) {
    const [begin, gutter] = [from.x + near * from.width * 0.3, to.left - GUTTER];
    if (isRowBetween(from.bottom, to.top)) {
      const x = gutter + 30;
      return { x, d: `M ${begin} ${from.bottom} C ${begin} ${from.bottom + 16}, ${gutter} ${from.bottom + 2}, ${gutter} ${from.bottom + 26} V ${to.top - 22} `
        + `Q ${gutter} ${to.top - 12}, ${x - 14} ${to.top - 12} Q ${x} ${to.top - 12}, ${x} ${to.top - 2}` };
    }
    const [x, bend] = [to.x - near * to.width * 0.2, Math.max(16, (to.top - from.bottom) / 2)];
    return { x, d: `M ${begin} ${from.bottom} C ${begin} ${from.bottom + bend}, ${x} ${to.top - bend}, ${x} ${to.top - 2}` };
  }
  if (to.bottom <= from.top + 1) {
    const [begin, gutter] = [from.right - from.width * 0.2, to.right + GUTTER];
    if (isRowBetween(to.bottom, from.top)) {
      const x = gutter - 26;
      return { x, d: `M ${begin} ${from.top} C ${begin} ${from.top - 16}, ${gutter} ${from.top - 2}, ${gutter} ${from.top - 26} V ${to.bottom + 22} `
        + `Q ${gutter} ${to.bottom + 12}, ${x + 12} ${to.bottom + 12} Q ${x} ${to.bottom + 12}, ${x} ${to.bottom + 2}` };
    }
    const [x, bend] = [to.right - to.width * 0.2, Math.max(16, (from.top - to.bottom) / 2)];
    return { x, d: `M ${begin} ${from.top} C ${begin} ${from.top - bend}, ${x} ${to.bottom + bend}, ${x} ${to.bottom + 2}` };
  }
  const [side, low] = [Math.sign(to.x - from.x), Math.max(from.bottom, to.bottom) + 22];
  const [begin, x] = [from.x + side * from.width * 0.2, to.x - side * to.width * 0.2];
  return { x, d: `M ${begin} ${from.bottom} C ${begin} ${low}, ${x} ${low}, ${x} ${to.bottom + 2}` };
}

/** Where an arrow's label stands: at its end, beside the card to which it leads. */
const placeOf = (from, to, x) => [x, to.top >= from.bottom - 1 ? to.top - 20 : to.bottom + 19];

function labelOf(pair, [x, y]) {
  const text = visible(named([...pair.keys.keys()]));
  const shown = text.length > 34 ? `${text.slice(0, 32)} ..` : text;
  const label = draw("g", { class: `label ${pair.kind}` }, draw("rect", { x: x - shown.length * 3.4 - 4, y: y - 9, width: shown.length * 6.8 + 8, height: 17, rx: 3 }));
  const words = draw("text", { x, y: y + 3.5, "text-anchor": "middle" });
  words.textContent = shown;
  label.append(words);
  return label;
}

/** The rows of cards, each from its top to its bottom. */
function rowsIn(boxes) {
  const rows = new Map();
  for (const box of boxes) rows.set(Math.round(box.top), { top: box.top, bottom: Math.max(box.bottom, rows.get(Math.round(box.top))?.bottom || 0) });
  return [...rows.values()];
}

/** The arrows: faint ones, and on top of them those of the screen that is chosen, with their keys. */
function drawArrows() {
  const map = byId("map");
  view.svg.setAttribute("width", String(map.clientWidth));
  view.svg.setAttribute("height", String(map.scrollHeight));
  const own = view.at + 1;
  const ways = view.pairs.filter((pair) => pair.to && pair.to !== pair.from).map((pair) => ({ pair, isOwn: pair.from === own || pair.to === own }))
    .filter(({ pair, isOwn }) => isOwn || pair.isFirst || view.hasAll);
  const boxes = view.screens.map((screen) => boxOf(screen.number));
  view.rows = rowsIn(boxes);
  const box = (number) => boxes[number - 1];
  const kinds = ["", "abends", "refused", "own"];
  const tips = kinds.map((kind) => draw("marker", { id: `tip${kind}`, viewBox: "0 0 8 8", refX: 7, refY: 4, markerUnits: "userSpaceOnUse", markerWidth: 9, markerHeight: 9, orient: "auto" },
    draw("path", { d: "M 0 0 L 8 4 L 0 8 z", class: `tip ${kind}` })));
  const drawn = ways.map((it) => ({ ...it, way: wayOf(box(it.pair.from), box(it.pair.to)) }));
  const paths = drawn.sort((one, other) => one.isOwn - other.isOwn).map(({ pair, isOwn, way }) => draw("path", {
    d: way.d, class: `way ${pair.kind} ${isOwn ? "own" : pair.isFirst ? "first" : ""}`,
    "marker-end": `url(#tip${pair.kind || (isOwn ? "own" : "")})` }));
  const labels = drawn.filter(({ pair }) => pair.from === own).map(({ pair, way }) => labelOf(pair, placeOf(box(pair.from), box(pair.to), way.x)));
  view.svg.replaceChildren(draw("defs", {}, ...tips), ...paths, ...labels);
}

// ---- what is chosen

function choose(at) {
  view.cards[view.at]?.removeAttribute("aria-current");
  if (view.cards[view.at]) view.cards[view.at].tabIndex = -1;
  view.at = Math.max(0, Math.min(at, view.screens.length - 1));
  const card = view.cards[view.at];
  card.setAttribute("aria-current", "true");
  card.tabIndex = 0;
  const out = view.pairs.filter((pair) => pair.from === view.at + 1);
  const stay = out.find((pair) => pair.to === pair.from);
  const count = new Set(out.flatMap((pair) => [...pair.keys.keys()])).size;
  byId("at").textContent = `screen ${view.at + 1} of ${view.screens.length}`;
  byId("said").textContent = `${countOf(view.screens[view.at].states.length, "state")}; from here ${countOf(count, "key")}${stay ? `, ${stay.keys.size} of them stay` : ""}. `
    + "Enter or a click shows it large.";
  drawArrows();
}

/** Goes to a screen: in the map, or, where one is large, there. */
function go(at) {
  const to = Math.max(0, Math.min(at, view.screens.length - 1));
  if (view.isOpen) return open(to + 1, 0);
  view.cards[to].focus();
  choose(to);
}

/** The card that is next above or below. */
function beside(way) {
  const here = boxOf(view.at + 1);
  const found = view.screens.map((screen) => ({ at: screen.number - 1, box: boxOf(screen.number) })).filter(({ box }) => way * (box.top - here.top) > 8);
  found.sort((one, other) => way * (one.box.top - other.box.top) || Math.abs(one.box.x - here.x) - Math.abs(other.box.x - here.x));
  if (found.length) go(found[0].at);
}

// ---- a large screen

const button = (text, does, className = "") => {
  const it = make("button", className, text);
  it.type = "button";
  it.addEventListener("click", does);
  return it;
};

function largeOf(page) {
  const rows = rowsOf(page.lines);
  const isEmpty = !rows.some((text) => text.trim());
  if (isEmpty && view.data.terminals.length > 1) return make("p", "faint", `${page.terminal}: nothing is on this screen`);
  const screen = make("div", isEmpty ? "screen empty" : "screen", ...rows.map((text) => make("span", "row", text || " ")));
  screen.setAttribute("role", "img");
  screen.setAttribute("aria-label", rows.filter((text) => text.trim()).join("; ") || "nothing is on this screen");
  return make("div", "", view.data.terminals.length > 1 ? make("h3", "", page.terminal) : null, screen);
}

/** The script that leads to a state, or to an abend: what is done first, and the list. */
const scriptOf = (lines) => [...view.data.script, ...lines, ""].join("\n");

function saved(name, lines) {
  const link = make("a", "", name);
  link.href = URL.createObjectURL(new Blob([scriptOf(lines)], { type: "text/plain" }));
  link.download = name;
  link.click();
  setTimeout(() => URL.revokeObjectURL(link.href), 1000);
}

/** Buttons for a list: its script copied or saved, and how its film is made. */
function listButtons(lines, name) {
  const copy = button("Copy script", async () => {
    await toClipboard(scriptOf(lines));
    copy.textContent = "Copied";
    setTimeout(() => (copy.textContent = "Copy script"), 1500);
  }, "copy");
  return make("div", "buttons", copy, button("Save script", () => saved(name, lines)), make("code", "", `cics-film ${name} --open`));
}

/** How a state is come to; where numbers of tasks show, no script leads there. */
function leadCard(number) {
  const { listDiffers, keysDiffer } = view.data.states[number - 1];
  const lines = listOf(number);
  const keys = keysOf(lines);
  const differ = keysDiffer ? make("p", "faint", "With numbers of tasks that count on, a key does something else here (NUMBERS SHOW BY KEYS).") : null;
  if (listDiffers) {
    const why = "With numbers of tasks that count on, its keys do something else, so it has no script (NUMBERS SHOW).";
    return make("section", "", make("h3", "", "By no script"), make("p", "faint", why), differ);
  }
  return make("section", "", make("h3", "", keys.length ? `By ${countOf(keys.length, "key")}` : "By no key"),
    keys.length ? make("ol", "keys", ...keys.map((key) => make("li", "", key))) : null, differ, listButtons(lines, `state-${number}.script`));
}

/** The keys that lead from a state to the same state, with the same incidents, together. */
function outOf(number) {
  const found = new Map();
  for (const [key, to, incidents = []] of view.data.states[number - 1].arrows) {
    const name = JSON.stringify([to ? to : 0, incidents]);
    if (!found.has(name)) found.set(name, { to, incidents, keys: [] });
    found.get(name).keys.push(key);
  }
  return [...found.values()];
}

/** Where an abend is: by the state and key at which it was looked at, or another state of the same screen. */
function abendsAt(number, out) {
  const screen = screenOf(number);
  const isOf = (it) => out.keys.includes(it.key) && out.incidents.includes(it.what) && screenOf(it.state) === screen;
  return view.data.abends.filter(isOf);
}

function abendBox(it, number) {
  const where = it.where ? `${it.what.split(" ")[2]} at ${it.where}` : it.what;
  const box = make("details", "abend", make("summary", "", it.state === number ? where : `${where} (in state ${it.state})`), linesOf("lines", it.cause));
  if (it.moves.length) box.append(listButtons([...it.moves, `ABEND ${it.what.split(" ")[1]}`], `abend-${it.state}-${it.key}.script`));
  return box;
}

function outRow(out, number) {
  const to = out.to ? screenOf(out.to) : 0;
  const same = out.to === number ? "stays" : to === screenOf(number) ? `another state of it, ${out.to}` : `screen ${to}`;
  const way = to ? button(same, () => open(to, out.to), "to") : make("span", "to", "goes on");
  way.disabled = out.to === number;
  const kind = kindOf(out.incidents);
  const said = out.incidents.filter((line) => line.startsWith("ANSWERS ")).map((line) => make("span", "answer", line.split(" ")[2]));
  return make("li", kind, linesOf("keys", out.keys.map(keyText)), make("span", "leads", way, ...said, ...abendsAt(number, out).map((it) => abendBox(it, number))));
}

function outCard(number) {
  const rows = outOf(number).map((out) => outRow(out, number));
  const running = view.screens[screenOf(number) - 1].running;
  const none = running ? "STILL RUNNING: it doesn't come to rest, so no key is pressed there." : "No key can be pressed there.";
  return make("section", "", make("h3", "", "Keys from here"), rows.length ? make("ul", "out", ...rows) : make("p", "", none));
}

/** The states that share a screen: one of them is chosen. */
function statesCard(screen, number) {
  if (screen.states.length < 2) return null;
  const chips = screen.states.map((it) => {
    const chip = button(String(it), () => open(screen.number, it), "chip");
    chip.setAttribute("aria-pressed", String(it === number));
    return chip;
  });
  return make("section", "", make("h3", "", `${screen.states.length} states show it`), make("div", "chips", ...chips));
}

function inCard(number) {
  const from = view.pairs.filter((pair) => pair.to === number && pair.from !== number);
  if (!from.length) return null;
  return make("section", "", make("h3", "", "From"), make("div", "chips", ...from.map((pair) => button(`screen ${pair.from}: ${named([...pair.keys.keys()])}`, () => open(pair.from, 0), "chip"))));
}

/** Shows a screen large, with one of its states; by 0 the first. */
function open(number, state) {
  const screen = view.screens[number - 1];
  choose(number - 1);
  view.state = screen.states.includes(state) ? state : screen.states[0];
  const others = screen.parts.others.filter((line) => line !== "STILL RUNNING");
  const close = button("Close", shut, "close");
  close.title = "Back to the map (Escape)";
  const head = make("div", "head", make("h2", "", `Screen ${number} of ${view.screens.length}${screen.states.length > 1 ? `, state ${view.state}` : ""}`),
    button("<", () => open(Math.max(1, number - 1), 0)), button(">", () => open(Math.min(view.screens.length, number + 1), 0)), close);
  const seen = make("div", "seen", ...screen.parts.pages.map(largeOf), screen.running ? make("p", "running", "STILL RUNNING") : null,
    others.length ? linesOf("lines", others) : null);
  const told = make("div", "told", leadCard(view.state), statesCard(screen, view.state), outCard(view.state), inCard(number));
  byId("large").replaceChildren(head, make("div", "both", seen, told));
  if (!view.isOpen) byId("large").showModal();
  view.isOpen = true;
  byId("large").scrollTop = 0;
  close.focus({ preventScroll: true });
  history.replaceState(null, "", `#s${number}.${view.state}`);
}

function shut() {
  if (view.isOpen) byId("large").close();
  view.isOpen = false;
  history.replaceState(null, "", "#");
  view.cards[view.at].focus();
}

// ---- about the whole

function aboutOf() {
  const parts = view.data.said.map((it) => make("p", "", it));
  if (view.data.proposed) {
    const lines = Object.entries(view.data.proposed).flatMap(([why, keys]) => [`* ${why}`, ...keys]);
    parts.push(make("details", "", make("summary", "", "The keys that are proposed, as --keys takes them"), linesOf("lines", lines)));
  }
  const count = view.data.abends.length;
  if (count) {
    const list = view.data.abends.map((it) => make("li", "", button(`screen ${screenOf(it.state)}, ${keyText(it.key)}`, () => open(screenOf(it.state), it.state), "to"), " ",
      it.where ? `${it.what.split(" ")[2]} at ${it.where}` : it.what));
    parts.push(make("details", "abend", make("summary", "", countOf(count, "abend")), make("ul", "", ...list)));
    parts[parts.length - 1].open = count < 6;
  }
  byId("about").replaceChildren(...parts);
}

/** Goes to the next screen that has a text, or to which a key with it leads; after the last one comes the first. */
function find(text) {
  const wanted = text.toUpperCase();
  for (let step = 1; step <= view.screens.length; step += 1) {
    const screen = view.screens[(view.at + step) % view.screens.length];
    const keys = screen.states.flatMap((it) => keysOf(view.data.states[it - 1].lines));
    if ([...screen.text, ...keys].some((line) => line.toUpperCase().includes(wanted))) {
      choose(screen.number - 1);
      view.cards[view.at].scrollIntoView({ block: "center" });
      return;
    }
  }
  byId("said").textContent = `Nothing has ${text}`;
}

function all() {
  view.hasAll = !view.hasAll;
  byId("all").setAttribute("aria-pressed", String(view.hasAll));
  drawArrows();
}

const KEYS = {
  ArrowLeft: () => go(view.at - 1),
  ArrowRight: () => go(view.at + 1),
  ArrowUp: () => !view.isOpen && beside(-1),
  ArrowDown: () => !view.isOpen && beside(1),
  Home: () => go(0),
  End: () => go(view.screens.length - 1),
  "/": () => byId("find").focus(),
  a: all,
  c: () => view.isOpen && byId("large").querySelector(".copy").click(),
  Escape: () => view.isOpen && shut(), // the dialog's own close tells it later, when the focus is already where it was before
};
const IN_LARGE = ["ArrowLeft", "ArrowRight", "Home", "End", "c", "Escape"];

function pressed(event) {
  if (event.target.tagName === "INPUT") return event.key === "Escape" && event.target.blur();
  if (event.ctrlKey || event.altKey || event.metaKey || !KEYS[event.key] || (view.isOpen && !IN_LARGE.includes(event.key))) return;
  event.preventDefault();
  KEYS[event.key]();
}

/** The screen and the state to which the address leads. */
function linked() {
  const found = /^#s(\d+)(?:\.(\d+))?$/.exec(location.hash);
  if (found && Number(found[1]) >= 1 && Number(found[1]) <= view.screens.length) open(Number(found[1]), Number(found[2] || 0));
}

function begin() {
  view.data = JSON.parse(byId("data").textContent);
  view.screens = view.data.screens.map((screen) => ({ ...screen, parts: partsOf(screen.text) }));
  view.pairs = pairsOf();
  view.hasAll = view.pairs.length <= 24;
  byId("all").setAttribute("aria-pressed", String(view.hasAll));
  byId("name").textContent = document.title = `${view.data.name}: ${countOf(view.screens.length, "screen")} that keys reach`;
  aboutOf();
  mount();
  choose(0);
  for (const [id, key] of [["first", "Home"], ["back", "ArrowLeft"], ["on", "ArrowRight"], ["last", "End"], ["all", "a"]]) byId(id).addEventListener("click", KEYS[key]);
  byId("find").addEventListener("keydown", (event) => event.key === "Enter" && find(event.target.value));
  byId("large").addEventListener("close", () => view.isOpen && shut());
  document.addEventListener("keydown", pressed);
  window.addEventListener("resize", drawArrows);
  window.addEventListener("hashchange", linked);
  linked();
}

begin();
