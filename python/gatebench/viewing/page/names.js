// The names of the rows, with their values at the cursor a.
import { changed, hide, isInput, model } from "./model.js";
import { known } from "./windows.js";

const box = document.getElementById("names");

let drawn = "";

function valueAt(row, moment) {
  const found = (known(row)?.now ?? []).filter(([time]) => time <= moment);
  return found.length ? found[found.length - 1][1] : "";
}

function cell({ row, value }, place) {
  const one = document.createElement("div");
  one.className = [place === model.chosen && "chosen", isInput(row) && "input"].filter(Boolean).join(" ");
  one.title = row.bits.length > 1 ? `${row.name}: ${row.bits[0]} .. ${row.bits.at(-1)}` : row.name;
  const name = document.createElement("span");
  const text = document.createElement("bdi");
  text.textContent = row.name;
  name.append(text);
  const shown = document.createElement("em");
  shown.textContent = value;
  one.append(name, shown);
  one.addEventListener("click", () => {
    model.chosen = place;
    changed();
  });
  one.addEventListener("dblclick", () => hide(place));
  return one;
}

// Made again where something of it is another, and not for each picture of a scroll.
export function showNames() {
  const { a } = model.cursors;
  const cells = model.rows.map((row) => ({ row, value: a === null ? "" : valueAt(row, a) }));
  const key = JSON.stringify([model.chosen, model.state.nets, cells.map(({ row, value }) => [row.name, value])]);
  if (key === drawn) return;
  drawn = key;
  box.replaceChildren(...cells.map(cell));
}
