// The canvas: axis, rows and cursors, drawn from what the server has answered.
import { model } from "./model.js";
import { AXIS, ROW, paintMark, paintRow, paintStep } from "./paint.js";
import { roundStep } from "./scale.js";
import { known, want } from "./windows.js";

const stage = document.getElementById("stage");
const names = document.getElementById("names");
export const canvas = document.getElementById("waves");
const context = canvas.getContext("2d");
const FONT = "11px ui-monospace, 'DejaVu Sans Mono', monospace";

export const width = () => canvas.clientWidth;
export const place = (moment) => ((moment - model.start) / model.span) * width();
export const momentAt = (x) => model.start + (x / width()) * model.span;
export const rowAt = (y) => (y < AXIS ? -1 : Math.floor((y - AXIS + stage.scrollTop) / ROW));

function fitCanvas() {
  const wide = stage.clientWidth - names.offsetWidth;
  const high = stage.clientHeight;
  const ratio = devicePixelRatio;
  if (canvas.clientWidth !== wide || canvas.clientHeight !== high || canvas.width !== Math.round(wide * ratio)) {
    canvas.style.width = `${wide}px`;
    canvas.style.height = `${high}px`;
    canvas.width = Math.round(wide * ratio);
    canvas.height = Math.round(high * ratio);
  }
  context.setTransform(ratio, 0, 0, ratio, 0, 0);
  context.clearRect(0, 0, wide, high);
  return { wide, high };
}

function paintAxis(wide, high) {
  const step = roundStep(Math.max(1, (80 / wide) * model.span));
  context.font = FONT;
  context.textAlign = "center";
  context.textBaseline = "alphabetic";
  for (let at = Math.ceil(model.start / step) * step; at <= model.start + model.span; at += step) {
    const x = Math.round(place(at)) + 0.5;
    context.strokeStyle = "#e6eaef";
    line(x, AXIS - 8, high);
    context.fillStyle = "#57606a";
    const half = context.measureText(String(at)).width / 2 + 3;
    context.fillText(String(at), Math.min(wide - half, Math.max(half, x)), 16);
  }
  context.textAlign = "left";
  const end = place(model.state.horizon + 1);
  context.fillStyle = "#f6f8fa";
  if (end < wide) context.fillRect(end, AXIS, wide - end, high);
}

function line(x, from, to) {
  context.beginPath();
  context.moveTo(x, from);
  context.lineTo(x, to);
  context.stroke();
}

function paintRows(wide, high) {
  const first = Math.floor(stage.scrollTop / ROW);
  const last = Math.min(model.rows.length, first + Math.ceil(high / ROW) + 1);
  const scale = { place, end: model.state.horizon + 1, width: wide, isSwitched: model.isSwitched };
  context.save();
  context.beginPath();
  context.rect(0, AXIS, wide, high);
  context.clip();
  for (let at = first; at < last; at++) {
    const row = model.rows[at];
    context.save();
    context.translate(0, AXIS + at * ROW - stage.scrollTop);
    if (at === model.chosen) {
      context.fillStyle = "rgba(221, 244, 255, 0.45)";
      context.fillRect(0, 0, wide, ROW);
    }
    const found = known(row);
    if (found) paintRow(context, row, found, scale);
    for (const it of model.way) if (row.bits.includes(it.net)) paintStep(context, place(it.time));
    for (const it of model.state.broken) if (it.nets.some((net) => row.bits.includes(net))) paintMark(context, place(it.time));
    context.restore();
  }
  context.restore();
}

const CURSORS = { a: "#0969da", b: "#8250df" };

function paintCursors(high) {
  for (const [name, ink] of Object.entries(CURSORS)) {
    const moment = model.cursors[name];
    if (moment === null) continue;
    const x = Math.round(place(moment)) + 0.5;
    context.strokeStyle = context.fillStyle = ink;
    context.lineWidth = 1;
    line(x, 20, high);
    context.fillRect(x - 7, 18, 14, 11);
    context.fillStyle = "#fff";
    context.font = "9px sans-serif";
    context.textAlign = "center";
    context.fillText(name.toUpperCase(), x, 27);
    context.textAlign = "left";
  }
}

export function paint() {
  const { wide, high } = fitCanvas();
  paintAxis(wide, high);
  paintRows(wide, high);
  paintCursors(high);
  want(wide);
}
