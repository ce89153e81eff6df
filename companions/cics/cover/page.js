"use strict";
// The places at which something was missed, one after the other, by buttons and by keys.
const missed = [...document.querySelectorAll("a.missed")];
let at = -1;

function go(to) {
  if (!missed.length) return;
  at = Math.max(0, Math.min(missed.length - 1, to));
  const link = missed[at];
  location.replace(link.getAttribute("href"));
  document.getElementById("at").textContent = `${at + 1} of ${missed.length}: ${link.closest("section").querySelector("h2").textContent} ${link.textContent}`;
}

const moves = { first: () => go(0), back: () => go(at - 1), on: () => go(at + 1), last: () => go(missed.length - 1) };
const keys = { Home: "first", ArrowLeft: "back", ArrowRight: "on", End: "last" };
for (const [name, move] of Object.entries(moves)) document.getElementById(name).addEventListener("click", move);
missed.forEach((link, number) => link.addEventListener("click", (event) => { event.preventDefault(); go(number); }));
document.addEventListener("keydown", (event) => {
  if (!keys[event.key] || event.ctrlKey || event.metaKey || event.altKey || event.shiftKey) return;
  event.preventDefault();
  moves[keys[event.key]]();
});
