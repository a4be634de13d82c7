// A run, its transcript, and its film piece by piece.
import { ask, asked } from "./ask.js";
import { bringLine, mark, schedule, source, tellEditor } from "./editor.js";
import { drawMachine, imagesOf, listingsOf } from "./registers.js";
import { checkNoMore } from "./programs.js";
import { dropResult, hasFailed, hasResult, isAsked } from "./results.js";
import { lab, setup, tellResult } from "./state.js";
import { tellBad, tellFields, tellMachine } from "./told.js";

const LINE = 22;
// a run that took so many milliseconds is not made again, for what is free and held along it, without being asked
const SOON = 4000;
// so many processes that a signal ended are told of
const MOST_SIGNALS = 3;

// How many steps are asked for at a time: as many as a film of so many frames may have.
function stepsOf(frames) {
  const [, most] = lab.beginning.steps.find(([size]) => Number(frames) <= size);
  return most;
}

// Which processes a signal ended, in words; of many the first ones.
function signalWords(signals) {
  const told = signals.slice(0, MOST_SIGNALS).map(([pid, status]) => ` ${endedWords(pid, status)}`);
  const more = signals.length > MOST_SIGNALS ? ` So were ${many(signals.length - MOST_SIGNALS, "other")}.` : "";
  return told.join("") + more;
}

// How a run ended, in words.
function endingWords(answer, limit) {
  const ran = many(answer.ran, "instruction");
  if (answer.left.length === 0) return `Over: each process has ended, after ${ran}.`;
  const left = `${answer.left.length === 1 ? "process" : "processes"} ${listed(answer.left)} ${answer.left.length === 1 ? "hasn't" : "haven't"} ended`;
  return answer.ran >= limit ? `Cut by its limit: ${ran} ran, and ${left}.` : `Over: no process can step, and ${left}, after ${ran}.`;
}

// What is told of a run that has a transcript.
function toldOf(answer, lines, limit) {
  if (answer.cut || answer.status !== 0) return tellBad(answer);
  const short = answer.short ? " The transcript is long: its beginning is shown." : "";
  return `${many(lines.length, "line")}. ${endingWords(answer, limit)}${signalWords(answer.signals)}${short}`;
}

export async function run() {
  stop();
  tellMachine("", "");
  tellEditor(schedule, 0, "");
  checkNoMore();
  if (tellFields()) return hasFailed("transcript");
  const given = setup();
  const begun = performance.now();
  isAsked("transcript");
  const answer = await asked("run", given, "Running ..");
  if (!answer) return hasFailed("transcript");
  if (answer.transcript === undefined) return failed(tellBad(answer));
  tellEditor(source, 0, "");
  const lines = answer.transcript.split("\n").slice(0, -1);
  const ended = answer.status !== 0 || answer.cut;
  const told = toldOf(answer, lines, Number(given.limit));
  if (ended && lines.length > 0 && lines[lines.length - 1].startsWith("vmrun: ")) lines.pop();
  tellResult(told, Boolean(ended));
  if (lines.length === 0) return hasFailed("transcript");
  const course = { numbers: Int32Array.from({ length: lines.length + 1 }, (_, index) => index), letters: `.${lines.map(eventOf).join("")}` };
  Object.assign(course, { counted: [], frames: Number(given.frames), blocks: Number(given.swap) });
  lab.run = { given, lines, told, bad: Boolean(ended), from: 0, to: -1, now: 0, read: null, course, whole: answer.lines };
  Object.assign(lab.run, { listings: listingsOf(answer.listings), images: imagesOf(given.images, lines) });
  showTranscript(true);
  hasResult("transcript", given);
  at("lab-transcript-count").textContent = many(lines.length, "line");
  at("lab-course").hidden = true;
  await goTo(0);
  drawLines(true);
  bringRun();
  at("lab-transcript").focus({ preventScroll: true });
  if (performance.now() - begun < SOON) countCourse(lab.run);
  else at("lab-course").hidden = false;
}

// Brings the run in sight: from the line with what is told of it, or, where a plot or counts are open between, from the transcript.
function bringRun() {
  const between = ["lab-plot-part", "lab-stats-part", "lab-meaning"].some((id) => at(id).open && !at(id).hidden);
  at(between ? "lab-shown" : "lab-runs").scrollIntoView();
}

function failed(words) {
  tellResult(words, true);
  hasFailed("transcript");
}

// Has what is free and held along the whole run, for the chart.
export async function countCourse(run) {
  at("lab-course").hidden = true;
  let answer;
  try {
    answer = await ask("course", { ...run.given, last: run.lines.length });
  } catch {
    return;
  }
  if (lab.run !== run || !answer.counted) return;
  run.course.counted = answer.counted;
  setCourse(run.course);
  drawCourseNow(film.now);
}

// Has the film of the steps around this one, unless it is there.
async function piece(step, by) {
  const { run } = lab;
  if (step >= run.from && step <= run.to) return true;
  const most = stepsOf(run.given.frames);
  const before = by < 0 ? most - 2 : Math.floor(most / 8);
  const first = Math.max(0, Math.min(step - before, run.lines.length - most));
  const last = Math.min(run.lines.length, first + most);
  const pid = at("process").value;
  const answer = await asked("film", { ...run.given, first, last }, `Steps ${number(first)} to ${number(last)} are asked for ..`);
  if (!answer || lab.run !== run) return false;
  if (answer.film === undefined) {
    tellResult(`No picture of these steps: ${tellBad(answer)}`, true);
    return false;
  }
  tellResult(run.told, run.bad);
  open(answer.film, run.course);
  if (run.course.counted.length === 0) setCourse({ ...run.course, counted: courseOf(film.read).counted });
  findTurns(film.read, run.lines.slice(0, Math.max(0, first - 1)).findLast((line) => "et".includes(line[0])));
  film.read.earlier = run.lines.slice(0, Math.max(0, first - 1)).filter((line) => line.startsWith("o ")).map(writeOf);
  if ([...at("process").options].some((option) => option.value === pid)) at("process").value = pid;
  Object.assign(run, { from: first, to: last, read: film.read });
  return true;
}

export async function goTo(step, by = 1) {
  const to = Math.max(0, Math.min(lab.run.lines.length, step));
  if (await piece(to, by)) show(to - lab.run.from);
}

// One step more of Play, over the end of what is here; whether there is one.
export async function goBeyond() {
  if (!lab.run || lab.run.now >= lab.run.lines.length) return false;
  const to = lab.run.now + 1;
  await goTo(to);
  return lab.run !== null && lab.run.now === to;
}

// Lines of a transcript among which one of a kind may be.
export const MAY = {
  fault: (line) => FAULTS.includes(line[0]),
  hands: (line) => line.startsWith("H "),
  write: (line) => "HP".includes(line[0]),
  process: (line) => FAULTS.includes(line[0]) || line.split(" ")[1] === at("process").value,
};

// Seeks the next step of a kind: among those that are there, and then in the rest of the transcript.
export async function seekOn(kind, by) {
  seek(kind, by);
  if (at("jumped").textContent === "") return;
  const none = at("jumped").textContent;
  const began = lab.run.now;
  for (let step = by > 0 ? lab.run.to + 1 : lab.run.from - 1; step > 0 && step <= lab.run.lines.length; step += by) {
    if (!MAY[kind](lab.run.lines[step - 1])) continue;
    if (!(await piece(step, by))) return;
    if (SOUGHT[kind][1](step - lab.run.from)) return show(step - lab.run.from);
  }
  await goTo(began);
  at("jumped").textContent = none;
}

// The next event of the whole run's course, or the one before.
export function seekEventOn(by) {
  const step = nextEvent(lab.run.now, by);
  if (step === null) at("jumped").textContent = `no event ${by > 0 ? "after" : "before"} this step`;
  else goTo(step, by);
}

export function showTranscript(is) {
  at("lab-transcript-part").hidden = !is;
  at("lab-shown").classList.toggle("beside", is);
}

// The lines of the transcript that are in sight. All others would only cost time.
export function drawLines(center) {
  const { lines, now } = lab.run;
  const box = at("lab-transcript");
  at("lab-lines").style.height = `${lines.length * LINE}px`;
  const top = (now - 1) * LINE;
  const hidden = top < box.scrollTop || top + LINE > box.scrollTop + box.clientHeight;
  if (center && hidden) box.scrollTop = Math.max(0, top - box.clientHeight / 2);
  const first = Math.max(0, Math.floor(box.scrollTop / LINE) - 5);
  const last = Math.min(lines.length, first + Math.ceil(box.clientHeight / LINE) + 10);
  const shown = Array.from({ length: Math.max(0, last - first) }, (_, index) => drawLine(first + index + 1));
  at("lab-lines").replaceChildren(...shown);
  if (now > first && now <= last) box.setAttribute("aria-activedescendant", `lab-line-${now}`);
  else box.removeAttribute("aria-activedescendant");
}

// A line with its number; beside the bytes that a process writes stands their text.
function drawLine(step) {
  const text = lab.run.lines[step - 1];
  const line = element("div");
  line.id = `lab-line-${step}`;
  line.dataset.line = step;
  line.style.top = `${(step - 1) * LINE}px`;
  line.setAttribute("role", "option");
  line.setAttribute("aria-selected", String(step === lab.run.now));
  line.setAttribute("aria-posinset", step);
  line.setAttribute("aria-setsize", lab.run.lines.length);
  line.append(element("span", "", String(step)), element("b", "", text));
  if (text.startsWith("o ")) line.append(element("i", "", charactersOf(writeOf(text).hex.slice(0, 400))));
  return line;
}

// What of the page hangs on the step that the viewer shows. A film that was opened by itself has no transcript beside it.
export function drawStep() {
  if (!lab.run || !film.read) return;
  if (film.read !== lab.run.read) {
    lab.run = null;
    dropResult("transcript");
    at("lab-course").hidden = true;
    return showTranscript(false);
  }
  lab.run.now = film.now.step.number;
  const { now, lines, from, to } = lab.run;
  drawLines(true);
  mark(schedule, "now", film.now.step.event);
  for (const id of ["first", "before"]) at(id).disabled = now === 0;
  for (const id of ["next", "last"]) at(id).disabled = now === lines.length;
  Object.assign(at("slider"), { max: lines.length, value: now });
  at("where").textContent = `step ${number(now)} of ${number(lines.length)}`;
  at("lab-earlier").disabled = from === 0;
  at("lab-later").disabled = to === lines.length;
  at("lab-part").hidden = from === 0 && to === lines.length;
  at("lab-part-said").textContent = `Pictures ${number(from)} to ${number(to)} are here.`;
  const line = drawMachine(film.now);
  mark(source, "now", line);
  if (line > 0 && document.activeElement !== source.text) bringLine(source, line);
}
