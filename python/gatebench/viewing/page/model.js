// What the page shows, and those that want to know when it changes.
export const model = {
  design: { name: "", unit: "", rows: [], inputs: [] },
  state: { horizon: 1, version: "", held: [], log: [], rules: [], broken: [] },
  // The rows that are shown, each with its name and its nets; the chosen one by its place.
  rows: [],
  chosen: 0,
  // The window: its first moment and how many time units it shows.
  start: 0,
  span: 100,
  cursors: { a: null, b: null },
  // The version that is drawn behind, or in front where the two are switched.
  other: "before",
  isSwitched: false,
  // The changes on the way back from an edge that is shown.
  way: [],
  pointer: null,
};

const listeners = [];

export function whenChanged(listener) {
  listeners.push(listener);
}

let isAsked = false;

// All listeners draw once before the next picture, however many changes there were.
export function changed() {
  if (isAsked) return;
  isAsked = true;
  requestAnimationFrame(() => {
    isAsked = false;
    for (const it of listeners) it();
  });
}

export const isInput = (row) => row.bits.every((it) => model.design.inputs.includes(it));

export const chosenRow = () => model.rows[model.chosen];

// The row with a name: one of the design's, or a bit of a vector by itself; null where there is none.
export function rowNamed(name) {
  const isBit = () => model.design.rows.some((it) => it.bits.includes(name));
  return model.design.rows.find((it) => it.name === name) ?? (isBit() ? { name, bits: [name] } : null);
}

export function show(name) {
  const place = model.rows.findIndex((it) => it.name === name);
  const row = rowNamed(name);
  if (place >= 0) {
    model.chosen = place;
  } else if (row) {
    model.rows.push(row);
    model.chosen = model.rows.length - 1;
  }
  changed();
}

export function hide(place) {
  model.rows.splice(place, 1);
  model.chosen = Math.max(0, Math.min(model.chosen, model.rows.length - 1));
  changed();
}
