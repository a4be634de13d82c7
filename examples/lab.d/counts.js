// The table of counts of a run.
import { asked } from "./ask.js";
import { hasFailed, hasResult, isAsked } from "./results.js";
import { setup, tellResult } from "./state.js";
import { tellBad, tellFields, tellMachine } from "./told.js";

export function cellsOf(kind, words) {
  const row = element("tr");
  row.append(...words.map((word) => element(kind, "", String(word))));
  return row;
}

const numeral = (word) => (/^\d+$/.test(word) ? number(Number(word)) : word);
const named = (word) => word.replaceAll("-", " ");

// How a process ended, by its status.
function endedBy(status) {
  return status % 256 === 0 ? `code ${status / 256}` : `signal ${status}: ${LINES.signals[status] || "unknown"}`;
}

// The counts of the processes: a row for each count, a column for each process, and the sum.
function processRows(rows) {
  const pids = [...new Set(rows.map(([, pid]) => pid))];
  const counts = [...new Set(rows.map(([, , count]) => count))].filter((count) => count !== "ended");
  const of = (pid, count) => rows.find(([, one, other]) => one === pid && other === count)?.[3];
  const body = counts.map((count) => {
    const values = pids.map((pid) => of(pid, count) ?? "");
    const sum = values.reduce((all, value) => all + Number(value), 0);
    return [named(count), ...values.map(numeral), number(sum)];
  });
  const ended = ["ended by", ...pids.map((pid) => (of(pid, "ended") === undefined ? "not ended" : endedBy(Number(of(pid, "ended"))))), ""];
  return { head: ["each process", ...pids, "all"], body: [...body, ended] };
}

function tableOf({ head, body }) {
  return [
    cellsOf("th", head),
    ...body.map(([name, ...values]) => {
      const row = cellsOf("td", values);
      row.prepend(element("th", "", name));
      return row;
    }),
  ];
}

export async function count() {
  tellMachine("", "");
  if (tellFields()) return;
  const given = setup();
  isAsked("stats");
  const answer = await asked("stats", given, "Counting ..");
  if (!answer?.rows) {
    hasFailed("stats");
    return answer && tellResult(tellBad(answer), true);
  }
  at("lab-stats-part").hidden = false;
  at("lab-stats-part").open = true;
  const processes = answer.rows.filter(([what]) => what === "process");
  const whole = answer.rows.filter(([what]) => what !== "process");
  at("lab-stats-table").replaceChildren(...tableOf(processRows(processes)));
  at("lab-stats-whole").replaceChildren(
    ...tableOf({ head: ["the whole", "count"], body: whole.map((row) => [row.slice(0, -1).map(named).join(" "), numeral(row.at(-1))]) }),
  );
  hasResult("stats", given);
  tellResult("Counted.", false);
}
