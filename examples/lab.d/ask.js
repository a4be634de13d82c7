// What is asked of the server, one question after another.
import { lab, page, tellResult } from "./state.js";

// the server takes so many bytes of a question
const MOST_ASKED = 4 << 20;

export async function post(name, asked) {
  const body = new Blob([JSON.stringify({ page, ...asked })]);
  if (body.size > MOST_ASKED) throw new Error("The page has more than 4 MiB of programs and schedule.");
  const answer = await fetch(name, { method: "POST", headers: { "Content-Type": "application/json" }, body });
  const text = await answer.text();
  if (!answer.ok) throw new Error(text.trim());
  return JSON.parse(text);
}

// An answer, after those of the questions before.
export function ask(name, asked) {
  lab.asked++;
  lab.waiting++;
  drawBusy();
  const answer = lab.last.then(() => post(name, asked));
  const done = () => {
    lab.waiting--;
    drawBusy();
  };
  lab.last = answer.then(done, done);
  return answer;
}

function drawBusy() {
  at("lab-stop").disabled = lab.waiting === 0;
  document.body.dataset.asked = lab.asked;
  document.body.dataset.waiting = lab.waiting;
}

// Asks, and hands on the answer; what goes wrong is told. Nothing comes back then.
export async function asked(name, given, busy) {
  if (busy) tellResult(busy, false);
  try {
    return await ask(name, given);
  } catch (error) {
    tellResult(error instanceof TypeError ? "The server doesn't answer: it has ended." : `Not done: ${error.message}`, true);
    return null;
  }
}
