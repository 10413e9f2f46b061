// Questions and commands to the server behind the page. An answer that is no success is thrown.
export class Failure extends Error {
  constructor(status, said) {
    super(said.message);
    this.status = status;
    this.said = said;
  }
}

export const ENDED = 503;
export const GONE = 0;

export async function ask(name, body = {}) {
  let answer;
  try {
    answer = await fetch(`ask/${name}`, {
      method: "POST",
      headers: { "Content-Type": "application/json" },
      body: JSON.stringify(body),
    });
  } catch {
    throw new Failure(GONE, { message: "the server of this page has ended: start `gatebench view` again" });
  }
  const said = await answer.json();
  if (!answer.ok) throw new Failure(answer.status, said);
  return said;
}
