// What a person does: each is a command to the server, whose new state is then shown.
import { ask } from "./server.js";
import { tell, tellFailure } from "./banner.js";
import { changed, chosenRow, isInput, model, rowNamed } from "./model.js";
import { reveal } from "./scale.js";

let afterStep = () => {};

export const whenStepped = (listener) => (afterStep = listener);

export async function attempt(work) {
  try {
    return await work();
  } catch (failure) {
    tellFailure(failure);
    return null;
  }
}

// Shows a state; where the nets are others, the design is asked again.
export async function take(state) {
  const isOther = state.nets !== model.state.nets;
  model.state = state;
  if (isOther) {
    model.design = await ask("design");
    model.state = model.design.state;
    model.rows = model.rows.map((it) => rowNamed(it.name)).filter(Boolean);
  }
  changed();
}

const step = (name, body) =>
  attempt(async () => {
    await take(await ask(name, body));
    afterStep();
  });

let drags = 0;

// A name for a drag that no other has, also of this page before it was loaded again.
export const newDrag = () => `drag ${performance.timeOrigin} ${++drags}`;

// The part of a drag: no list is asked for until it ends.
export const editInDrag = (edits, drag) => attempt(async () => take(await ask("edit", { edits, drag })));
export const endDrag = () => afterStep();

let turn = Promise.resolve();

// What a key does when it is held down: each waits for the one before, which it builds upon.
export const inTurn = (work) => (...given) => (turn = turn.catch(() => {}).then(() => work(...given)));

export const edit = (edits) => step("edit", { edits });
export const undo = inTurn(() => step("undo"));
export const redo = inTurn(() => step("redo"));
export const addRule = (kind, bits, words) => step("rule", { kind, bits, words });
export const dropRule = (place, said) => step("drop_rule", { place, said });

export const command = (line) =>
  attempt(async () => {
    const { lines, state } = await ask("command", { line });
    await take(state);
    afterStep();
    return lines;
  });

export const free = (name) => command(`free ${name}`);

export async function hold() {
  const name = prompt("Hold this version under the name", `v${model.state.held.length + 1}`);
  if (name && (await command(`hold ${name}`))) tell(`held as ${name}`);
}

// The next version to be drawn behind.
export function switchOther() {
  const all = ["before", ...model.state.held, ""];
  model.other = all[(all.indexOf(model.other) + 1) % all.length];
  changed();
}

// Which of the two versions stands in front.
export function switchVersions() {
  model.isSwitched = !model.isSwitched;
  changed();
}

export const reload = (why) =>
  attempt(async () => {
    const { refused } = await ask("reload");
    await take({ ...(await ask("design")).state, nets: "" });
    model.other = "before";
    afterStep();
    tell(refused.length ? `${why}; refused now: ${refused.join("; ")}` : `${why}; behind each wave is the one of before`);
  });

// Moves a cursor to the next or the last change of the chosen row.
export const toEdge = inTurn((way) =>
  attempt(async () => {
    const row = chosenRow();
    if (!row) return;
    const { time } = await ask("edge", { bits: row.bits, time: model.cursors.a ?? (way > 0 ? 0 : model.state.horizon + 1), step: way });
    if (time === null) return;
    model.cursors.a = time;
    reveal(time);
  }));

// Moves the stimulus point of the chosen row at the cursor a.
export const nudge = inTurn((way) =>
  attempt(async () => {
    const row = chosenRow();
    const from = model.cursors.a;
    if (!row || from === null) return;
    const { points, least, most } = await ask("movable", { bits: row.bits, time: from });
    if (!points.length) return tell(`${row.name} has no stimulus point at ${from}`);
    const to = Math.min(most, Math.max(least, from + way));
    await edit(moved(points, from, to));
    model.cursors.a = to;
  }));

export const moved = (points, from, to) =>
  points.flatMap(([net, value]) => [`unstim ${net} ${from}`, `stim ${net} ${to} ${value}`]);

// Gives the chosen input the other value from the cursor a on.
export const toggle = inTurn(() =>
  attempt(async () => {
    const row = chosenRow();
    const time = model.cursors.a;
    if (!row || time === null || row.bits.length > 1 || !isInput(row)) return tell("choose an input, and set the cursor a");
    const [value] = await command(`value ${row.name} ${time}`);
    await edit([`stim ${row.name} ${time} ${value === "1" ? 0 : 1}`]);
  }));

export const save = (form, name) =>
  attempt(async () => {
    const { text } = await ask("save", { form, nets: [...new Set(model.rows.flatMap((it) => it.bits))] });
    const link = document.createElement("a");
    link.href = URL.createObjectURL(new Blob([text], { type: "text/plain" }));
    link.download = name;
    link.click();
    URL.revokeObjectURL(link.href);
  });
