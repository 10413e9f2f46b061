// The lists at the right: what the last step changed, versions and the log.
import { ask } from "./server.js";
import { attempt, free } from "./actions.js";
import { changed, model, show } from "./model.js";
import { reveal } from "./scale.js";
import { note, table } from "./table.js";

const box = (id) => document.getElementById(id);

// Shows a net, and sets the cursor a to a moment of it.
export function goTo(net, time) {
  const vector = model.rows.find((it) => it.bits.includes(net));
  show(vector ? vector.name : net);
  model.cursors.a = time;
  reveal(time);
}

// Where the list took longer, in milliseconds, it is made when a person asks for it.
const PATIENCE = 1500;

let isSlow = false;

// The list of changed nets is asked for once a step has ended. It reads both versions whole.
export function showChanged() {
  if (!isSlow) return listChanged();
  const button = Object.assign(document.createElement("button"), { textContent: "list what changed" });
  button.addEventListener("click", listChanged);
  box("changed-count").textContent = "";
  box("changed").replaceChildren(button);
}

const listChanged = () =>
  attempt(async () => {
    const since = performance.now();
    const { count, changes } = await ask("changes");
    isSlow = performance.now() - since > PATIENCE;
    box("changed-count").textContent = count === 1 ? "1 net" : `${count} nets`;
    const rows = changes.map((it) => ({
      cells: [it.time, it.net, `${it.before ?? "none"} → ${it.after ?? "none"}`],
      go: () => goTo(it.net, it.time),
    }));
    box("changed").replaceChildren(table(rows));
    if (count > changes.length) box("changed").append(note(`and ${count - changes.length} more`));
  });

export function showVersions() {
  const { held, before } = model.state;
  const lines = held.map((name) => ({ cells: ["", name, "✕"], go: () => free(name) }));
  box("versions").replaceChildren(table(lines), note(held.length ? "" : "h holds the present version"));
  const options = [...(before ? ["before"] : []), ...held, ""];
  box("other").replaceChildren(...options.map((it) => new Option(it || "nothing", it, false, it === model.other)));
}

export function showLog() {
  const key = `${model.state.version} ${model.state.log.length} ${model.state.log.at(-1)}`;
  if (box("log").dataset.key === key) return;
  box("log").dataset.key = key;
  box("log").replaceChildren(...model.state.log.map((it) => Object.assign(document.createElement("li"), { textContent: it })));
  box("log").scrollTop = box("log").scrollHeight;
}

box("other").addEventListener("change", (event) => {
  model.other = event.target.value;
  changed();
});
