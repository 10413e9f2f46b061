// Tables of the right side, whose lines lead to a moment.
export function table(rows) {
  const made = document.createElement("table");
  for (const { cells, go, kind } of rows) {
    const line = made.insertRow();
    for (const cell of cells) line.insertCell().textContent = cell;
    if (kind) line.classList.add(kind);
    if (go) {
      line.classList.add("go");
      line.tabIndex = 0;
      line.addEventListener("click", go);
      line.addEventListener("keydown", (event) => event.key === "Enter" && go());
    }
  }
  const box = document.createElement("div");
  box.className = "scroll";
  box.append(made);
  return box;
}

export function note(text) {
  const made = document.createElement("p");
  made.className = "note";
  made.textContent = text;
  return made;
}
