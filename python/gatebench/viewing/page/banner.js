// The line below the head that says what was refused, what ended and what was reloaded.
import { ENDED, Failure } from "./server.js";

const banner = document.getElementById("banner");
let isEnd = false;
let reload = () => {};

export const whenRestarted = (listener) => (reload = listener);

function fill(kind, ...parts) {
  banner.className = kind;
  banner.replaceChildren(...parts);
  banner.hidden = false;
}

function closing() {
  const button = document.createElement("button");
  button.textContent = "Close";
  button.addEventListener("click", clear);
  return button;
}

export function clear() {
  if (!isEnd) banner.hidden = true;
}

export function tell(text) {
  if (!isEnd) fill("calm", text, closing());
}

// Lines of a text with the marks below them.
const lines = (shown) => (shown.length ? [Object.assign(document.createElement("pre"), { textContent: shown.join("\n") })] : []);

// What was refused: the line at fault, and what helps.
export function tellFailure(failure) {
  if (!(failure instanceof Failure)) throw failure;
  if (failure.status === ENDED) return tellEnd(failure.message);
  if (isEnd) return;
  const { command, message } = failure.said;
  const code = document.createElement("code");
  code.textContent = command ?? "";
  const [first, ...shown] = message.split("\n");
  const why = first.replace(/^no (\d+ \w+): .*?( \(edit \d+ of the batch\))?: /, "($1) ");
  fill("", command ? "Refused, and nothing changed: " : "", code, command ? ` ${why}` : first, closing(), ...lines(shown));
}

function tellEnd(message) {
  if (isEnd) return;
  isEnd = true;
  const button = document.createElement("button");
  button.id = "restart";
  button.textContent = "Start it again";
  button.addEventListener("click", () => {
    isEnd = false;
    clear();
    reload();
  });
  fill("", `${message}. What was done is in the log, and is done again when you `, button);
}
