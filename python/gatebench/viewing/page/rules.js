// The rules that rows have to keep: which there are, what breaks them, and a form that makes one for the chosen row.
import { addRule, dropRule } from "./actions.js";
import { goTo } from "./lists.js";
import { chosenRow, model } from "./model.js";
import { table } from "./table.js";

const box = (id) => document.getElementById(id);

const nextRow = () => model.rows[model.chosen + 1] ?? model.rows[0];

function clock() {
  const { inputs } = model.design;
  return inputs.find((it) => /cl(oc)?k|^ck|^c$/i.test(it)) ?? inputs[0] ?? "clk";
}

// Each kind by the server's name for it, what it is called, what is written beside it, and what stands there first.
const KINDS = [
  ["no-pulse", "no pulse under", "time units", () => "5"],
  ["stable", "stays from, to", "two moments", () => `${model.cursors.a ?? 0} ${model.cursors.b ?? model.state.horizon}`],
  ["setup-hold", "setup and hold round", "a clock, how long before its edges and behind, and fall for falling edges", () => `${clock()} 1 1`],
  ["one-hot", "one-hot with", "the other nets", () => (chosenRow()?.bits.length > 1 ? "" : nextRow()?.name ?? "")],
  ["equal", "equals", "another row, and moments or every N", () => `${nextRow()?.name ?? ""} ${model.cursors.a ?? "every 10"}`],
];

const form = document.createElement("form");
const kinds = document.createElement("select");
const words = document.createElement("input");
const lists = document.createElement("div");

function begin() {
  kinds.id = "rule-kind";
  kinds.title = "the kind of rule (k)";
  kinds.append(...KINDS.map(([kind, text]) => new Option(text, kind)));
  words.id = "rule-words";
  words.spellcheck = false;
  words.autocomplete = "off";
  form.append(kinds, " ", words, " ", Object.assign(document.createElement("button"), { textContent: "on this row" }));
  kinds.addEventListener("change", fill);
  form.addEventListener("submit", (event) => {
    event.preventDefault();
    if (chosenRow()) addRule(kinds.value, chosenRow().bits, words.value);
  });
  box("rules").replaceChildren(form, lists);
  fill();
}

function fill() {
  const [, , hint, first] = KINDS[kinds.selectedIndex];
  words.title = hint;
  words.value = first();
}

// Leads to what is written beside the kind, which is made anew where the kind needs rows or cursors.
export function writeRule() {
  if (kinds.selectedIndex) fill();
  words.focus();
  words.select();
}

export function nextKind() {
  kinds.selectedIndex = (kinds.selectedIndex + 1) % KINDS.length;
  fill();
}

export function showRules() {
  if (!form.isConnected) begin();
  const { rules, broken, broken_count: count } = model.state;
  box("rule-count").textContent = count ? `${count} broken` : "";
  box("rule-count").className = count ? "bad" : "";
  const kept = rules.map((it, place) => ({ cells: ["", it.net, it.said, "✕"], go: () => dropRule(place, it.said) }));
  const found = broken.map((it) => ({ cells: [it.time, it.nets.join(" "), it.message], go: () => goTo(it.nets[0], it.time), kind: "bad" }));
  lists.replaceChildren(table(kept), table(found));
}
