// The window on time: zoom and scroll, within 0 to the horizon.
import { changed, model } from "./model.js";

const LEAST = 4;

export function setWindow(start, span) {
  const most = model.state.horizon + 1;
  model.span = Math.min(most, Math.max(Math.min(LEAST, most), span));
  model.start = Math.min(most - model.span, Math.max(0, start));
  changed();
}

export const fit = () => setWindow(0, model.state.horizon + 1);

export const scroll = (part) => setWindow(model.start + part * model.span, model.span);

// Zooms so that the moment stays where it is.
export function zoom(factor, moment = model.start + model.span / 2) {
  const span = Math.min(model.state.horizon + 1, Math.max(LEAST, model.span * factor));
  setWindow(moment - ((moment - model.start) * span) / model.span, span);
}

// Brings a moment into sight.
export function reveal(moment) {
  if (moment < model.start || moment >= model.start + model.span) setWindow(moment - model.span / 2, model.span);
  changed();
}

// The least of 1, 2, 5, 10, 20, 50, .. that is not below.
export function roundStep(least) {
  for (let step = 1; ; step *= 10) {
    for (const factor of [1, 2, 5]) if (step * factor >= least) return step * factor;
  }
}
