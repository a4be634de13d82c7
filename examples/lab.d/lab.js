// The lab page: what is written is sent to the server, which asks the program; what comes back is drawn. The picture of a step is
// the viewer's, whose script stands before this one.
import { post } from "./ask.js";
import { drawCard } from "./card.js";
import { count } from "./counts.js";
import { numberLines, schedule, source, tellEditor, textOf, watchLength } from "./editor.js";
import { goBack, keep, keepNow, loadFile, loadKept, remember, saveAll, saveProgram } from "./kept.js";
import { drawLessons } from "./lessons.js";
import { plot, watchPlot } from "./plot.js";
import { addProgram, changed, checkScheduleSoon, chooseProgram, closeProgram, load } from "./programs.js";
import { drawStale } from "./results.js";
import { countCourse, drawLines, drawStep, goBeyond, goTo, MAY, run, seekEventOn, seekOn } from "./run.js";
import { ended, FIELDS, FIRST, lab, tellResult } from "./state.js";
import { tellMachine } from "./told.js";

const MOVES = { ArrowLeft: -1, ArrowRight: 1, PageUp: -10, PageDown: 10, Home: -Infinity, End: Infinity };
const BUTTONS = { first: -Infinity, before: -1, next: 1, last: Infinity };
const KINDS = { f: "fault", h: "hands", w: "write", p: "process" };
// so long after the slider moved to where no picture is that is asked for, in milliseconds
const SLID = 200;

// The step that a move leads to, where its picture isn't here.
function beyond(by) {
  if (!lab.run || lab.run.to < 0) return null;
  const step = Math.max(0, Math.min(lab.run.lines.length, lab.run.now + by));
  return step < lab.run.from || step > lab.run.to ? step : null;
}

// Whether the picture is that of a run of this page.
const shows = () => lab.run !== null && film.read === lab.run.read;

function take(event) {
  event.preventDefault();
  event.stopImmediatePropagation();
}

// The keys that are the page's. All others are the viewer's.
function pressed(event) {
  if (event.ctrlKey && event.key === "Enter") {
    take(event);
    return run();
  }
  if (event.ctrlKey || event.altKey || event.metaKey || event.target.closest("input:not([type=range]), textarea, select, [role=tab]")) return;
  if (event.target.id === "lab-transcript" && ["ArrowUp", "ArrowDown"].includes(event.key)) {
    take(event);
    return goTo(lab.run.now + (event.key === "ArrowUp" ? -1 : 1), event.key === "ArrowUp" ? -1 : 1);
  }
  const key = event.key.length === 1 ? event.key.toLowerCase() : event.key;
  if (key === "e") {
    take(event);
    return source.text.focus();
  }
  const scrolls = event.target.closest(".scroll");
  const step = key in MOVES && !(scrolls && !key.startsWith("Arrow")) ? beyond(MOVES[key]) : null;
  if (step !== null) {
    take(event);
    return goTo(step, MOVES[key]);
  }
  if (!shows() || scrolls) return;
  if (key in KINDS || key === "n") take(event);
  if (key in KINDS) seekOn(KINDS[key], event.shiftKey ? -1 : 1);
  else if (key === "n") seekEventOn(event.shiftKey ? -1 : 1);
}

// The buttons and the chart of the viewer, where they lead out of its film.
function clicked(event) {
  if (!shows()) return;
  if (event.target.closest("#course-chart")) {
    take(event);
    return goTo(courseTarget(event));
  }
  const button = event.target.closest("button");
  if (!button) return;
  const step = button.id in BUTTONS ? beyond(BUTTONS[button.id]) : null;
  if (step !== null) {
    take(event);
    return goTo(step, BUTTONS[button.id]);
  }
  const kind = button.id.endsWith("-next") ? button.id.slice(0, -"-next".length) : "";
  const by = event.shiftKey ? -1 : 1;
  if (!(kind in MAY) && kind !== "event") return;
  take(event);
  if (kind === "event") seekEventOn(by);
  else seekOn(kind, by);
}

// The slider goes over the whole run.
let slid = 0;
function slides(event) {
  if (event.target.id !== "slider" || !shows()) return;
  take(event);
  const step = Number(at("slider").value);
  clearTimeout(slid);
  if (step >= lab.run.from && step <= lab.run.to) return goTo(step);
  at("where").textContent = `step ${number(step)} of ${number(lab.run.lines.length)}`;
  slid = setTimeout(() => goTo(step), SLID);
}

window.addEventListener("keydown", pressed, true);
window.addEventListener("click", clicked, true);
window.addEventListener("input", slides, true);
window.addEventListener(
  "drop",
  (event) => {
    take(event);
    document.body.classList.remove("over");
    if (event.dataTransfer.files.length > 0) loadFile(event.dataTransfer.files[0]);
  },
  true,
);
window.addEventListener("pagehide", keepNow);
film.beyond = goBeyond;

// Another tab by the arrows, as lists of tabs have it.
at("lab-tabs").addEventListener("keydown", (event) => {
  const by = { ArrowLeft: -1, ArrowRight: 1 }[event.key];
  if (!by) return;
  take(event);
  chooseProgram((lab.current + by + lab.programs.length) % lab.programs.length);
  at("lab-tabs").children[lab.current].focus();
});

function changedSchedule() {
  tellEditor(schedule, 0, "");
  numberLines(schedule);
  checkScheduleSoon();
  keep();
  drawStale();
}

lab.schedule = () => textOf(schedule);
source.text.addEventListener("input", changed);
schedule.text.addEventListener("input", changedSchedule);
watchLength(source, changed);
watchLength(schedule, changedSchedule);
// A last line gets its end where the writer leaves the text.
for (const editor of [source, schedule])
  editor.text.addEventListener("change", () => {
    if (editor.text.readOnly || editor.text.value === ended(editor.text.value)) return;
    editor.text.value = ended(editor.text.value);
    editor.text.dispatchEvent(new Event("input", { bubbles: true }));
  });
for (const field of FIELDS)
  at(`lab-${field}`).addEventListener("input", () => {
    tellMachine("", "");
    keep();
    drawStale();
  });
at("lab-run").addEventListener("click", run);
at("lab-stop").addEventListener("click", () => post("stop", {}));
at("lab-faults").addEventListener("click", plot);
at("lab-stats").addEventListener("click", count);
at("lab-course").addEventListener("click", () => lab.run && countCourse(lab.run));
at("lab-save").addEventListener("click", saveAll);
at("lab-save-source").addEventListener("click", saveProgram);
at("lab-back").addEventListener("click", goBack);
at("lab-new").addEventListener("click", () => {
  remember();
  loadFirst();
});
at("lab-add").addEventListener("change", () => addProgram(at("lab-add").value));
at("lab-close").addEventListener("click", closeProgram);
at("lab-earlier").addEventListener("click", () => goTo(lab.run.from - 1, -1));
at("lab-later").addEventListener("click", () => goTo(lab.run.to + 1));
at("lab-transcript").addEventListener("scroll", () => lab.run && drawLines(false));
at("lab-transcript").addEventListener("click", (event) => {
  const line = event.target.closest("[data-line]");
  if (line) goTo(Number(line.dataset.line));
});
at("lab-load").addEventListener("change", () => {
  const [file] = at("lab-load").files;
  if (file) loadFile(file).then(() => (at("lab-load").value = ""));
});
new ResizeObserver(() => lab.run && drawLines(true)).observe(at("lab-transcript"));
watchPlot();
// The viewer says by this attribute that it has drawn a step.
new MutationObserver(drawStep).observe(document.body, { attributes: true, attributeFilter: ["data-step"] });

const loadFirst = () => load({ frames: "64", swap: "256", limit: "100", images: "mine", schedule: "", programs: [{ name: "mine", kind: "source", text: FIRST }] });

async function begin() {
  lab.beginning = await (await fetch("beginning")).json();
  at("lab-stats").hidden = !lab.beginning.stats;
  at("lab-bounds").textContent = `A run is ended after ${lab.beginning.seconds} seconds.`;
  drawLessons();
  drawCard();
  if (await loadKept()) tellResult("What this page had before is here again.", false);
  else loadFirst();
  document.body.dataset.ready = "yes";
}

begin();
