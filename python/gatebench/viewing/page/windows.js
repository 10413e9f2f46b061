// The windows that the server has answered: three times as wide as what is seen, so that scrolling seldom waits.
import { ask } from "./server.js";
import { changed, model } from "./model.js";

let have = null;
let isAsking = false;
let onFailure = () => {};

export const whenFailed = (listener) => (onFailure = listener);

const key = (row) => row.bits.join(" ");

// What is known of a row: its spans now, those of the other version, and where they differ.
export const known = (row) => have?.rows.get(key(row));

// Whether what is drawn is that of the present version.
export const isFresh = () => have !== null && isFor(wanted(1), have);

function wanted(width) {
  const end = Math.ceil(model.start + model.span);
  return {
    start: Math.max(0, Math.floor(model.start - model.span)),
    end: Math.min(model.state.horizon, Math.ceil(end + model.span)),
    parts: Math.max(3, Math.round(3 * width)),
    version: model.state.version,
    other: model.other,
  };
}

function isFor(want, had) {
  return want.version === had.version && want.other === had.other && model.rows.every((it) => had.rows.has(key(it)));
}

function serves(want, had) {
  const last = Math.min(model.state.horizon, Math.floor(model.start + model.span));
  const isCovered = had.start <= model.start && had.end >= last;
  const pace = (it) => (it.end - it.start + 1) / it.parts;
  const isFine = pace(had) <= Math.max(1, pace(want) * 1.3) && pace(had) * 4 >= Math.min(1, pace(want));
  return isFor(want, had) && isCovered && isFine;
}

// Asks for what is missing of the window that is `width` pixels wide; one question at a time.
export async function want(width) {
  const now = wanted(width);
  if (isAsking || !model.rows.length || (have && serves(now, have))) return;
  isAsking = true;
  const rows = [...model.rows];
  try {
    const answer = await ask("windows", { ...now, rows: rows.map((it) => it.bits) });
    have = { ...now, rows: new Map(rows.map((it, place) => [key(it), answer.rows[place]])) };
    changed();
  } catch (failure) {
    onFailure(failure);
  } finally {
    isAsking = false;
  }
}
