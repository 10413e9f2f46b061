// The chosen net: the gates that drive it with their delays, which can be changed, what made an edge and what it led to.
import { ask } from "./server.js";
import { attempt, editInDrag, endDrag, newDrag } from "./actions.js";
import { changed, chosenRow, model } from "./model.js";
import { goTo } from "./lists.js";
import { note, table } from "./table.js";

const box = document.getElementById("net");
const title = document.getElementById("net-name");

let asked = "";
let asks = 0;

const key = () => `${chosenRow()?.name} ${model.state.undo} ${model.state.redo} ${model.state.nets}`;

// Whether this answer is to the last question: what was asked before is shown no more.
async function answerTo(question) {
  const mine = ++asks;
  const found = await question();
  return mine === asks ? found : null;
}

// A delay as a field: typing, the arrow keys and dragging it to the side change it at once.
function field(gate, name) {
  const input = document.createElement("input");
  Object.assign(input, { type: "number", min: 1, value: gate[name] });
  input.dataset.delay = `${gate.name} ${name}`;
  let drag = null;
  input.addEventListener("focus", () => (drag = newDrag()));
  input.addEventListener("input", () => send(gate, name, input.value, drag));
  input.addEventListener("change", endDrag);
  pullable(input);
  const label = document.createElement("label");
  label.append(`${name} `, input);
  return label;
}

let sending = false;
let next = null;

// One edit at a time: of what comes meanwhile the last one is sent.
async function send(gate, name, value, drag) {
  next = [gate, name, value, drag];
  if (sending) return;
  sending = true;
  while (next) {
    const [of, which, text, id] = next;
    next = null;
    const delays = { ...of, [which]: text };
    const fall = delays.off === null ? delays.fall : `${delays.fall}/${delays.off}`;
    if ((await editInDrag([`delay ${of.name} ${delays.rise} ${fall}`], id)) !== null) of[which] = Number(text);
  }
  sending = false;
}

function pullable(input) {
  let from = null;
  input.addEventListener("pointerdown", (event) => (from = { x: event.clientX, value: Number(input.value) }));
  input.addEventListener("pointermove", (event) => {
    if (!from || Math.abs(event.clientX - from.x) < 4) return;
    input.setPointerCapture(event.pointerId);
    const value = Math.max(1, from.value + Math.round((event.clientX - from.x) / 6));
    if (value === Number(input.value)) return;
    input.value = value;
    input.dispatchEvent(new Event("input"));
  });
  input.addEventListener("pointerup", () => {
    if (from && Number(input.value) !== from.value) input.dispatchEvent(new Event("change"));
    from = null;
  });
}

function driver(gate) {
  const made = document.createElement("div");
  made.className = "gate";
  const fields = ["rise", "fall", ...(gate.off === null ? [] : ["off"])].map((it) => field(gate, it));
  const line = document.createElement("div");
  line.textContent = `${gate.name} ${gate.kind} (${gate.inputs.join(", ")})`;
  made.append(line, ...fields);
  return made;
}

// What drives the chosen row, asked for again when it or the version is another.
export function showNet() {
  const row = chosenRow();
  if (key() === asked || box.contains(document.activeElement)) return;
  asked = key();
  mark([]);
  if (!row) return box.replaceChildren();
  attempt(async () => {
    const found = await answerTo(() => ask("net", { net: row.bits[0] }));
    if (found) fill(found, row);
  });
}

function fill({ net, drivers, readers }, row) {
  title.textContent = row.name;
  const parts = drivers.map(driver);
  if (!drivers.length) parts.push(note(model.design.unread || (row.bits.length > 1 ? `of ${net}: an input` : "an input: drag its edges")));
  const names = [...new Set(readers.map((it) => it.output))].slice(0, 12);
  if (names.length) parts.push(note(`read for ${names.join(", ")}`));
  box.replaceChildren(...parts);
}

const ENDS = {
  stimulus: (net, time) => `${net} has a stimulus point at ${time}: here it begins.`,
  beginning: (net) => `${net} has no point at 0: here it begins.`,
  constants: () => "It begins at 0, with a gate that reads constants alone.",
  "": () => "The way goes on behind the last bold line.",
};

// A change in a list, which leads to it and to what made it.
const line = ({ time, net, value, gate, followed }) => ({
  cells: [time, net, `to ${value}, through ${gate}`],
  go: () => follow(net, time),
  kind: followed ? "followed" : "",
});

// What made an edge, back to the stimulus, and what it led to.
export const showOrigins = (bits, time) =>
  attempt(async () => {
    asked = key();
    const found = await answerTo(() => ask("origins", { bits, time }));
    if (!found?.net) return;
    title.textContent = `${found.net} at ${time}`;
    const followed = [found, ...found.way.filter((it) => it.followed)];
    const last = followed.at(-1);
    mark(followed);
    const way = [note("made by"), table(found.way.map(line)), note(ENDS[found.end](last.net, last.time))];
    box.replaceChildren(...found.drivers.map(driver), ...(found.way.length ? way : way.slice(2)), ...ledTo(found.effects));
  });

function ledTo(effects) {
  if (!effects) return [note("Many gates read it: this program doesn't say what it led to.")];
  const { count, changes } = effects;
  if (!count) return [note("It led to nothing.")];
  return [note("led to"), table(changes.map(line)), ...(count > changes.length ? [note(`and ${count - changes.length} more`)] : [])];
}

// The waves show where these changes are.
function mark(changes) {
  if (!changes.length && !model.way.length) return;
  model.way = changes.map(({ net, time }) => ({ net, time }));
  changed();
}

function follow(net, time) {
  goTo(net, time);
  showOrigins([net], time);
}
