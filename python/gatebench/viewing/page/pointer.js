// The pointer on the waves: drags edges of inputs, scrolls, sets cursors, asks what made an edge.
import { ask } from "./server.js";
import { attempt, editInDrag, endDrag, moved, newDrag } from "./actions.js";
import { changed, isInput, model } from "./model.js";
import { scroll, setWindow, zoom } from "./scale.js";
import { canvas, momentAt, place, rowAt, width } from "./stage.js";
import { known } from "./windows.js";

// How near the pointer has to be to an edge, in pixels.
const NEAR = 6;

let showOrigins = () => {};
export const whenEdgeClicked = (listener) => (showOrigins = listener);

let grip = null;

// The edge of a row that is next to a place, as its moment; null where none is near.
function edgeAt(row, x) {
  const times = (known(row)?.now ?? []).slice(1).map(([time]) => time);
  const gap = (time) => Math.abs(place(time) - x);
  const best = times.reduce((found, it) => (found === null || gap(it) < gap(found) ? it : found), null);
  return best !== null && gap(best) <= NEAR ? best : null;
}

function under(event) {
  const row = model.rows[rowAt(event.offsetY)];
  return { row, edge: row ? edgeAt(row, event.offsetX) : null };
}

canvas.addEventListener("pointerdown", (event) => {
  if (event.button !== 0) return;
  canvas.setPointerCapture(event.pointerId);
  const { row, edge } = under(event);
  if (row) model.chosen = model.rows.indexOf(row);
  grip = { row, edge, x: event.offsetX, start: model.start, isMoved: false, points: null };
  if (row && edge !== null && isInput(row)) grab(grip);
  changed();
});

// What can be dragged: the points of the row at its edge.
function grab(held) {
  held.name = newDrag();
  held.asked = attempt(async () => Object.assign(held, await ask("movable", { bits: held.row.bits, time: held.edge })));
}

canvas.addEventListener("pointermove", (event) => {
  model.pointer = momentAt(event.offsetX);
  if (!grip) {
    const { row, edge } = under(event);
    canvas.style.cursor = edge === null ? "crosshair" : isInput(row) ? "ew-resize" : "pointer";
    return;
  }
  grip.isMoved ||= Math.abs(event.offsetX - grip.x) > 2;
  if (!grip.isMoved) return;
  if (grip.name) {
    grip.to = Math.round(momentAt(event.offsetX));
    grip.work = pull(grip);
  } else {
    setWindow(grip.start - ((event.offsetX - grip.x) / width()) * model.span, model.span);
  }
});

// Sends where the edge is now, one edit at a time: what comes meanwhile is sent together.
async function pull(held) {
  if (held.isBusy) return held.work;
  held.isBusy = true;
  await held.asked;
  while (held.points?.length && held.sent !== held.to) {
    held.sent = held.to;
    const to = Math.min(held.most, Math.max(held.least, held.to));
    if ((await editInDrag(moved(held.points, held.edge, to), held.name)) === null) break;
    model.cursors.a = to;
    changed();
  }
  held.isBusy = false;
}

canvas.addEventListener("pointerup", async (event) => {
  const held = grip;
  grip = null;
  if (!held) return;
  if (held.isMoved && held.name) {
    await held.work;
    endDrag();
  } else if (!held.isMoved) {
    click(held, event);
  }
});

function click(held, event) {
  const moment = held.edge ?? Math.min(model.state.horizon, Math.max(0, Math.round(momentAt(held.x))));
  model.cursors[event.shiftKey ? "b" : "a"] = moment;
  if (held.edge !== null && !event.shiftKey) showOrigins(held.row.bits, held.edge);
  changed();
}

canvas.addEventListener("wheel", (event) => {
  if (event.ctrlKey || event.metaKey || event.altKey) {
    zoom(Math.exp(event.deltaY / 300), momentAt(event.offsetX));
  } else if (event.shiftKey || Math.abs(event.deltaX) > Math.abs(event.deltaY)) {
    scroll((event.deltaX || event.deltaY) / width());
  } else {
    return;
  }
  event.preventDefault();
}, { passive: false });

canvas.addEventListener("pointerleave", () => (model.pointer = null));
