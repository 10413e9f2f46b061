// The scopes of the design with their nets, and those whose names have what is searched.
import { hide, model, show } from "./model.js";

const box = document.getElementById("tree");
const search = document.getElementById("search");

// More is found by a longer word.
const MOST = 400;

let drawn = "";

function leaf(row, label) {
  const button = document.createElement("button");
  const place = model.rows.findIndex((it) => it.name === row.name);
  button.className = place >= 0 ? "leaf shown" : "leaf";
  button.textContent = label;
  if (row.bits.length > 1) {
    const bits = document.createElement("i");
    bits.textContent = ` [${row.bits.length}]`;
    button.append(bits);
  }
  button.addEventListener("click", () => (place >= 0 ? hide(place) : show(row.name)));
  return button;
}

function scopes(rows) {
  const top = { rows: [], inner: new Map() };
  for (const row of rows) {
    const parts = row.name.split(".");
    const label = parts.pop();
    let at = top;
    for (const part of parts) {
      if (!at.inner.has(part)) at.inner.set(part, { rows: [], inner: new Map() });
      at = at.inner.get(part);
    }
    at.rows.push([row, label]);
  }
  return top;
}

function nodes({ rows, inner }) {
  const found = rows.map(([row, label]) => leaf(row, label));
  for (const [name, scope] of inner) {
    const details = document.createElement("details");
    const summary = document.createElement("summary");
    summary.textContent = name;
    details.append(summary);
    // A closed scope is drawn when it is opened.
    details.addEventListener("toggle", () => details.open && details.childElementCount === 1 && details.append(...nodes(scope)));
    found.push(details);
  }
  return found;
}

export function showTree() {
  const sought = search.value.toLowerCase();
  const key = JSON.stringify([sought, model.state.nets, model.rows.map((it) => it.name)]);
  if (key === drawn) return;
  const isOther = !drawn || JSON.parse(drawn)[1] !== model.state.nets || JSON.parse(drawn)[0] !== sought;
  drawn = key;
  const found = sought ? model.design.rows.filter((it) => it.name.toLowerCase().includes(sought)) : [];
  if (sought) {
    box.replaceChildren(...found.slice(0, MOST).map((it) => leaf(it, it.name)));
    if (found.length > MOST) box.append(`and ${found.length - MOST} more`);
  } else if (isOther || !box.querySelector("details[open]")) {
    box.replaceChildren(...nodes(scopes(model.design.rows)));
  }
}

search.addEventListener("input", showTree);
search.addEventListener("keydown", (event) => {
  if (event.key === "Enter") box.querySelector(".leaf:not(.shown)")?.click();
});
