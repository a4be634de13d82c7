// The results on the page: of each it is told of what it is, and one that is not of what the page has now is grey.
import { lab, setup } from "./state.js";

// Of each result the elements that are grey with it.
const PARTS = { transcript: ["lab-transcript-part", "lab-picture"], plot: ["lab-plot-part"], stats: ["lab-stats-part"] };

const results = {};

// What of a setup makes a difference to its run: its words, its schedule, and the programs that its images name.
function keyOf(given) {
  const names = given.images.split(/\s+/).map((word) => word.replace(/^=/, ""));
  return JSON.stringify({ ...given, images: given.images.trim().split(/\s+/), programs: names.map((name) => [name, given.programs[name] ?? null]) });
}

// A setup in words.
export function wordsOf({ images, frames, swap, limit, schedule }) {
  const lines = schedule.split("\n").length - 1;
  const told = lines === 0 ? "empty schedule" : `schedule of ${many(lines, "line")}`;
  const numeral = (word) => (/^\d+$/.test(word.trim()) ? number(Number(word)) : word.trim());
  return `${images.trim()}: ${numeral(frames)} frames, ${numeral(swap)} blocks of swap, limit ${numeral(limit)}, ${told}`;
}

// Says that a result is here, of this setup.
export function hasResult(name, given) {
  results[name] = { key: keyOf(given), asked: false, failed: false };
  at(`lab-${name}-of`).textContent = wordsOf(given);
  drawStale();
}

// Says that a result is asked for anew: until it is here the one that is shown is an older one.
export function isAsked(name) {
  if (results[name]) results[name].asked = true;
  drawStale();
}

// Says that what was asked for anew has failed, so that the result that is here is an older one.
export function hasFailed(name) {
  if (results[name]) Object.assign(results[name], { asked: false, failed: true });
  drawStale();
}

export function dropResult(name) {
  delete results[name];
  drawStale();
}

const CHANGED = "Not of what stands above: that has changed since.";
const wordsOfStale = ({ asked, failed }) => (asked ? "Of a run before: a new one is being made." : failed ? "Of a run before: the last one failed." : CHANGED);

// Marks each result that is not of what the page has now.
export function drawStale() {
  if (lab.programs.length === 0) return;
  const key = keyOf(setup());
  for (const [name, ids] of Object.entries(PARTS)) {
    const result = results[name];
    const stale = result !== undefined && (result.asked || result.failed || result.key !== key);
    for (const id of ids) at(id).classList.toggle("stale", stale);
    at(`lab-${name}-stale`).hidden = !stale;
    at(`lab-${name}-stale`).textContent = stale ? wordsOfStale(result) : "";
  }
}
