// Brings the page up, and watches the program, the file of the design and what other pages do.
import { ask } from "./server.js";
import { attempt, command, hold, redo, reload, save, take, undo, whenStepped } from "./actions.js";
import { clear, tellFailure, whenRestarted } from "./banner.js";
import { listen } from "./keys.js";
import { showChanged, showLog, showVersions } from "./lists.js";
import { changed, model, rowNamed, whenChanged } from "./model.js";
import { showNames } from "./names.js";
import { showNet, showOrigins } from "./net.js";
import { whenEdgeClicked } from "./pointer.js";
import { showRules } from "./rules.js";
import { fit } from "./scale.js";
import { paint, place } from "./stage.js";
import { showTree } from "./tree.js";
import { isFresh, known, whenFailed } from "./windows.js";

const byId = (id) => document.getElementById(id);

// How many rows are shown first, and how often the file is looked at, in milliseconds.
const FIRST_ROWS = 24;
const PERIOD = 1000;

function showHead() {
  byId("undo").disabled = model.state.undo === null;
  byId("redo").disabled = model.state.redo === null;
  const { a, b } = model.cursors;
  const parts = [model.isSwitched && `${model.other || "nothing"} in front`, a !== null && `A ${a}`, b !== null && `B ${b}`, a !== null && b !== null && `B − A ${b - a}`].filter(Boolean);
  byId("cursors").textContent = `${parts.join("   ")}   (${model.design.unit})`;
}

let drawn = "";

// Lists are drawn where what they show is another: a scroll draws the waves alone.
function draw() {
  paint();
  showHead();
  showNames();
  showTree();
  const key = JSON.stringify([model.state, model.other]);
  if (key !== drawn) {
    drawn = key;
    showRules();
    showVersions();
    showLog();
  }
  showNet();
  keep();
}

const KEPT = ["start", "span", "cursors", "other"];

// A page that is loaded again shows the same rows in the same window.
function keep() {
  const kept = Object.fromEntries(KEPT.map((it) => [it, model[it]]));
  sessionStorage.setItem("view", JSON.stringify({ ...kept, rows: model.rows.map((it) => it.name) }));
}

// All nets of a small design, the ports of a large one.
function firstRows() {
  const { rows, inputs, outputs } = model.design;
  if (rows.length <= FIRST_ROWS) return [...rows];
  const ports = new Set([...inputs, ...outputs]);
  const found = rows.filter((it) => ports.has(it.bits[0]));
  return (found.length ? found : rows).slice(0, FIRST_ROWS);
}

function restore() {
  const kept = JSON.parse(sessionStorage.getItem("view") ?? "null");
  const rows = kept?.rows.map(rowNamed).filter(Boolean);
  model.rows = rows?.length ? rows : firstRows();
  if (rows?.length) for (const it of KEPT) model[it] = kept[it];
  else fit();
}

async function watch() {
  try {
    const { stale, version } = await ask("status");
    if (stale) await reload("the design's file has changed");
    else if (version !== model.state.version) await take((await ask("design")).state);
  } catch (failure) {
    tellFailure(failure);
  }
  setTimeout(watch, PERIOD);
}

byId("undo").addEventListener("click", undo);
byId("redo").addEventListener("click", redo);
byId("fit").addEventListener("click", fit);
byId("hold").addEventListener("click", hold);
byId("save-expectations").addEventListener("click", () => save("expectations", "expectations"));
byId("save-python").addEventListener("click", () => save("python", "session.py"));
byId("help-button").addEventListener("click", () => byId("help").showModal());
byId("stage").addEventListener("scroll", changed);
new ResizeObserver(changed).observe(byId("stage"));

byId("command").addEventListener("keydown", async (event) => {
  if (event.key !== "Enter" || !event.target.value.trim()) return;
  const lines = await command(event.target.value.trim());
  byId("answer").textContent = lines ? lines.join("   ") || "ok" : "refused";
  if (lines) event.target.value = "";
});

whenChanged(draw);
whenFailed(tellFailure);
whenStepped(() => {
  clear();
  showChanged();
});
whenEdgeClicked(showOrigins);
whenRestarted(() => reload("the program was started again"));
listen();

// What tests in a browser ask.
window.view = { model, place, known, isFresh, paint };

attempt(async () => {
  model.design = await ask("design");
  model.state = model.design.state;
  byId("design").textContent = model.design.name.split("/").pop();
  document.title = `${byId("design").textContent} – gatebench`;
  restore();
  changed();
  showChanged();
  byId("stage").focus();
  watch();
});
