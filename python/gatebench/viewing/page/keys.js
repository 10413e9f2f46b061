// All that the keyboard does.
import { hold, inTurn, nudge, redo, reload, save, switchOther, switchVersions, toEdge, toggle, undo } from "./actions.js";
import { clear } from "./banner.js";
import { changed, chosenRow, hide, model } from "./model.js";
import { showOrigins } from "./net.js";
import { nextKind, writeRule } from "./rules.js";
import { fit, scroll, zoom } from "./scale.js";

const focus = (id) => document.getElementById(id).focus();

function choose(way) {
  model.chosen = Math.max(0, Math.min(model.rows.length - 1, model.chosen + way));
  document.getElementById("names").children[model.chosen]?.scrollIntoView({ block: "nearest" });
  changed();
}

function setCursor(name) {
  model.cursors[name] = Math.round(model.pointer ?? model.start + model.span / 2);
  changed();
}

function swap() {
  model.cursors = { a: model.cursors.b, b: model.cursors.a };
  changed();
}

const why = inTurn(async () => {
  if (chosenRow() && model.cursors.a !== null) await showOrigins(chosenRow().bits, model.cursors.a);
});

const middle = () => model.pointer ?? model.cursors.a ?? undefined;

export const KEYS = [
  ["ArrowLeft", "scroll back", () => scroll(-0.1)],
  ["ArrowRight", "scroll on", () => scroll(0.1)],
  ["PageUp", "a window back", () => scroll(-0.9)],
  ["PageDown", "a window on", () => scroll(0.9)],
  ["+", "zoom in (also ctrl and the wheel)", () => zoom(0.7, middle())],
  ["-", "zoom out", () => zoom(1 / 0.7, middle())],
  ["0", "all of the run", fit],
  ["ArrowUp", "the row above", () => choose(-1)],
  ["ArrowDown", "the row below", () => choose(1)],
  ["Delete", "hide the row", () => hide(model.chosen)],
  ["a", "cursor A to the pointer", () => setCursor("a")],
  ["b", "cursor B to the pointer (also shift and a click)", () => setCursor("b")],
  ["x", "exchange the cursors", swap],
  ["n", "cursor A to the next edge", () => toEdge(1)],
  ["p", "cursor A to the edge before", () => toEdge(-1)],
  ["[", "the stimulus point at A one earlier", () => nudge(-1)],
  ["]", "the stimulus point at A one later", () => nudge(1)],
  ["t", "the input is the other value from A on", toggle],
  ["w", "what made the edge at A, and what it led to", why],
  ["u", "undo", undo],
  ["r", "redo", redo],
  ["h", "hold this version", hold],
  ["v", "the next version behind", switchOther],
  ["e", "the two versions switched", switchVersions],
  ["l", "read the design again", () => reload("read again")],
  ["s", "save as expectations", () => save("expectations", "expectations")],
  ["y", "save as Python", () => save("python", "session.py")],
  ["d", "the delays of the chosen net, then the arrow keys", () => document.querySelector("#net input")?.focus()],
  ["g", "a rule for the chosen row", writeRule],
  ["k", "the next kind of rule", nextKind],
  ["/", "search nets", () => focus("search")],
  [":", "write a command", () => focus("command")],
  ["?", "these keys", () => document.getElementById("help").showModal()],
];

export function listen() {
  const help = document.getElementById("help");
  help.innerHTML = `<table>${KEYS.map(([key, text]) => `<tr><td><kbd>${key}</kbd></td><td>${text}</td></tr>`).join("")}</table>`;
  document.addEventListener("keydown", (event) => {
    if (event.key === "Escape") {
      clear();
      document.getElementById("stage").focus();
    }
    if (event.target.matches?.("input, select") || help.open) return;
    const letter = event.key.toLowerCase();
    if (event.ctrlKey || event.metaKey) {
      if (letter !== "z" && letter !== "y") return;
      event.preventDefault();
      return letter === "y" || event.shiftKey ? redo() : undo();
    }
    const found = KEYS.find(([key]) => key === event.key || (key === "+" && event.key === "="));
    if (!found || event.altKey) return;
    event.preventDefault();
    found[2]();
  });
}
