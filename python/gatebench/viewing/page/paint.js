// Draws a row: its wave, the one of another version behind it, and where the two differ.
export const ROW = 30;
export const AXIS = 30;
const TOP = 6;
const HEIGHT = 18;

const INK = { wave: "#0a7f3f", ghost: "#8c959f", x: "#cf222e", z: "#b35900", differs: "#fff1b8", text: "#24292f", many: "#7fc29b" };
const LEVEL = { 1: TOP, 0: TOP + HEIGHT, z: TOP + HEIGHT / 2 };

let hatch = null;

function hatching(context) {
  if (hatch) return hatch;
  const tile = new OffscreenCanvas(6, 6);
  const pen = tile.getContext("2d");
  pen.fillStyle = "#fff1f0";
  pen.fillRect(0, 0, 6, 6);
  pen.strokeStyle = "#e5737b";
  pen.beginPath();
  for (const shift of [-6, 0, 6]) {
    pen.moveTo(shift, 6);
    pen.lineTo(shift + 6, 0);
  }
  pen.stroke();
  hatch = context.createPattern(tile, "repeat");
  return hatch;
}

// The spans of a row that can be seen, as pixels: from, to and value, with the value before.
function* seen(spans, place, end, width) {
  for (let at = 0; at < spans.length; at++) {
    const [time, value] = spans[at];
    const from = place(time);
    const to = place(at + 1 < spans.length ? spans[at + 1][0] : end);
    if (to < 0 || to <= from) continue;
    if (from > width) return;
    yield { from: Math.max(-2, from), to: Math.min(width + 2, to), value, before: at ? spans[at - 1][1] : null };
  }
}

function levels(context, found, ink) {
  context.strokeStyle = ink;
  context.lineWidth = 1.5;
  context.beginPath();
  for (const { from, to, value, before } of found) {
    if (!(value in LEVEL)) continue;
    const joins = before in LEVEL;
    context.moveTo(from, joins ? LEVEL[before] : LEVEL[value]);
    context.lineTo(from, LEVEL[value]);
    if (value !== "z") context.lineTo(to, LEVEL[value]);
  }
  context.stroke();
}

function fields(context, found, isGhost) {
  for (const { from, to, value } of found) {
    const width = Math.max(1, to - from);
    if (value === "*") {
      context.fillStyle = isGhost ? "#d8dee4" : INK.many;
      context.fillRect(from, TOP, width, HEIGHT);
    } else if (value === "x") {
      context.fillStyle = isGhost ? "transparent" : hatching(context);
      context.strokeStyle = isGhost ? INK.ghost : INK.x;
      context.lineWidth = 1;
      context.fillRect(from, TOP, width, HEIGHT);
      context.strokeRect(from, TOP, width, HEIGHT);
    } else if (value === "z") {
      context.strokeStyle = isGhost ? INK.ghost : INK.z;
      context.setLineDash([5, 3]);
      context.beginPath();
      context.moveTo(from, LEVEL.z);
      context.lineTo(to, LEVEL.z);
      context.stroke();
      context.setLineDash([]);
    }
  }
}

// A vector: a box for each value, with the number in it where there is room.
function boxes(context, found, isGhost) {
  context.font = "12px ui-monospace, 'DejaVu Sans Mono', monospace";
  context.textBaseline = "middle";
  context.lineWidth = 1.3;
  for (const { from, to, value } of found) {
    const isUnknown = /[xz]/.test(value);
    context.strokeStyle = isGhost ? INK.ghost : isUnknown ? INK.x : INK.wave;
    const slope = Math.min(3, (to - from) / 2);
    if (value === "*") {
      fields(context, [{ from, to, value }], isGhost);
      continue;
    }
    context.beginPath();
    context.moveTo(from, TOP + HEIGHT / 2);
    context.lineTo(from + slope, TOP);
    context.lineTo(to - slope, TOP);
    context.lineTo(to, TOP + HEIGHT / 2);
    context.lineTo(to - slope, TOP + HEIGHT);
    context.lineTo(from + slope, TOP + HEIGHT);
    context.closePath();
    if (isUnknown && !isGhost) {
      context.fillStyle = "#fff1f0";
      context.fill();
    }
    context.stroke();
    if (!isGhost) number(context, value, Math.max(from, 0) + 6, to - 4);
  }
}

function number(context, value, from, to) {
  const room = Math.floor((to - from) / 7.3);
  if (room < 1) return;
  context.fillStyle = INK.text;
  context.fillText(value.length <= room ? value : room > 2 ? `${value.slice(0, room - 1)}…` : "", from, TOP + HEIGHT / 2 + 1);
}

function wave(context, row, spans, scale, isGhost) {
  const found = [...seen(spans, scale.place, scale.end, scale.width)];
  if (row.bits.length > 1) {
    boxes(context, found, isGhost);
  } else {
    fields(context, found, isGhost);
    levels(context, found, isGhost ? INK.ghost : INK.wave);
  }
}

// `scale` has where a moment stands, the end of the run, the width, and whether the other version stands in front.
export function paintRow(context, row, known, scale) {
  context.fillStyle = INK.differs;
  for (const [from, to] of known.shades ?? []) {
    const left = scale.place(from);
    context.fillRect(left, 2, Math.max(1.5, scale.place(to) - left), ROW - 4);
  }
  const other = known.other?.length ? known.other : null;
  const [front, behind] = scale.isSwitched && other ? [other, known.now] : [known.now, other];
  if (behind) wave(context, row, behind, scale, true);
  wave(context, row, front, scale, false);
}

// A point on an edge that lies on the way which is shown.
export function paintStep(context, at) {
  context.fillStyle = "#0969da";
  context.beginPath();
  context.arc(at, TOP + HEIGHT / 2, 4, 0, 2 * Math.PI);
  context.fill();
}

// A red mark below a moment at which a rule is broken.
export function paintMark(context, at) {
  context.fillStyle = INK.x;
  context.beginPath();
  context.moveTo(at, ROW - 7);
  context.lineTo(at - 5, ROW - 0.5);
  context.lineTo(at + 5, ROW - 0.5);
  context.fill();
}
