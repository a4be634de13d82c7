// ---- What the user does. ----

function refuse(error) {
  at("fault").hidden = false;
  at("fault").textContent = error instanceof BadFilm ? error.message : `The film can't be shown: ${error.message}`;
}

function show(index) {
  const steps = film.read.steps;
  const to = Math.max(0, Math.min(steps.length - 1, index));
  try {
    const now = film.now && film.index === to && film.now.step === steps[to] ? film.now : stateOf(film.read, to);
    const before = to > 0 && steps[to - 1].number + 1 === steps[to].number ? stateOf(film.read, to - 1) : null;
    Object.assign(film, { index: to, now, before });
    draw();
    at("fault").hidden = true;
    at("jumped").textContent = "";
  } catch (error) {
    stop();
    refuse(error);
  }
}

// Shows a film, in place of another one. Along the slider stands its course, or that of a longer run of which it is a piece.
function open(text, course = null) {
  try {
    film.read = readFilm(text);
    film.now = null;
    cells = [];
    at("words").textContent = film.read.words;
    at("notes").replaceChildren(...film.read.notes.map((note) => element("p", "", note)));
    at("notes").hidden = film.read.notes.length === 0;
    setCourse(course || courseOf(film.read));
    at("process").replaceChildren(...film.read.pids.map((pid) => element("option", "", String(pid))));
    at("empty").hidden = true;
    at("shown").hidden = false;
    drawCourse();
    show(0);
  } catch (error) {
    stop();
    refuse(error);
  }
}

function choose(frame) {
  if (!film.now || !Number.isInteger(frame)) return;
  film.chosen = Math.max(1, Math.min(film.now.frames.length, frame));
  drawFrames(film.now, film.before);
  drawChosen(film.now);
}

// The kinds of steps that can be sought, with their names.
const SOUGHT = {
  fault: ["fault", (index) => film.read.steps[index].line !== "" && FAULTS.includes(film.read.steps[index].line[0])],
  // a kernel without hands tells the parts of their moves
  hands: ["move of the hands", (index) => /^[HEWF] /.test(film.read.steps[index].line)],
  write: ["write", (index) => beganWrite(film.read, index)],
  process: ["entry of this process", (index) => processOf(film.read, index) === Number(at("process").value)],
};

// Goes to the next step of a kind, or to the one before; says so where there is none.
function seek(kind, by) {
  const [name, fits] = SOUGHT[kind];
  const steps = film.read.steps.length;
  let index = film.index + by;
  while (index >= 0 && index < steps && !fits(index)) index += by;
  if (index >= 0 && index < steps) show(index);
  else at("jumped").textContent = `no ${name} ${by > 0 ? "after" : "before"} this step`;
}

function stop() {
  if (film.playing === 0) return;
  clearTimeout(film.playing);
  film.playing = 0;
  at("play").textContent = "Play";
  at("play").setAttribute("aria-pressed", "false");
  at("entry").setAttribute("aria-live", "polite");
}

function play() {
  if (film.playing !== 0) return stop();
  at("entry").setAttribute("aria-live", "off");
  at("play").textContent = "Pause";
  at("play").setAttribute("aria-pressed", "true");
  const go = async () => {
    const last = film.index === film.read.steps.length - 1;
    const went = !last ? (show(film.index + 1), true) : film.beyond !== null && (await film.beyond());
    if (film.playing === 0) return;
    if (!went) return stop();
    film.playing = setTimeout(go, 1000 / Number(at("speed").value));
  };
  film.playing = setTimeout(go, 1000 / Number(at("speed").value));
}

// Goes to the next event of the course, or to the one before.
function seekEvent(by) {
  const step = nextEvent(film.now.step.number, by);
  if (step === null) at("jumped").textContent = `no event ${by > 0 ? "after" : "before"} this step`;
  else goToStep(step);
}

// Goes to the step of this number, or to the one before it where the film hasn't it.
function goToStep(step) {
  const { steps } = film.read;
  show(Math.max(0, steps.findLastIndex((it) => it.number <= step)));
}

const KEYS = {
  ArrowLeft: () => show(film.index - 1),
  ArrowRight: () => show(film.index + 1),
  PageUp: () => show(film.index - 10),
  PageDown: () => show(film.index + 10),
  Home: () => show(0),
  End: () => show(film.read.steps.length - 1),
  ArrowUp: () => choose(film.chosen - 1),
  ArrowDown: () => choose(film.chosen + 1),
  " ": play,
  f: (by) => seek("fault", by),
  h: (by) => seek("hands", by),
  w: (by) => seek("write", by),
  p: (by) => seek("process", by),
  n: (by) => seekEvent(by),
};

// Whether a key is for the field, the button or the region that has the focus, and not for the film.
function keeps(target, key) {
  const field = target.closest("textarea, select, input:not([type=range], [type=file])");
  if (key === "o") return field !== null;
  const types = field && (field.tagName === "TEXTAREA" || !["PageUp", "PageDown"].includes(key));
  const presses = key === " " && target.closest("button, summary, a, input[type=file]");
  const scrolls = target.closest(".scroll") && !["ArrowLeft", "ArrowRight"].includes(key);
  return Boolean(types || presses || scrolls);
}

document.addEventListener("keydown", (event) => {
  if (event.ctrlKey || event.altKey || event.metaKey) return;
  const key = event.key.length === 1 ? event.key.toLowerCase() : event.key;
  if (keeps(event.target, key)) return;
  if (key === "o") return at("file").click();
  if (!film.read || !Object.hasOwn(KEYS, key)) return;
  event.preventDefault();
  KEYS[key](event.shiftKey ? -1 : 1);
});
for (const kind of Object.keys(SOUGHT)) at(`${kind}-next`).addEventListener("click", (event) => seek(kind, event.shiftKey ? -1 : 1));
at("slider").addEventListener("input", () => show(Number(at("slider").value)));
at("frame").addEventListener("input", () => at("frame").value !== "" && choose(Number(at("frame").value)));
at("first").addEventListener("click", () => show(0));
at("before").addEventListener("click", () => show(film.index - 1));
at("next").addEventListener("click", () => show(film.index + 1));
at("last").addEventListener("click", () => show(film.read.steps.length - 1));
at("play").addEventListener("click", play);
at("event-next").addEventListener("click", (event) => seekEvent(event.shiftKey ? -1 : 1));
at("course-chart").addEventListener("click", (event) => goToStep(courseTarget(event)));
at("clock").addEventListener("click", (event) => choose(clockFrame(event) ?? NaN));
at("frames").addEventListener("click", (event) => {
  const cell = event.target.closest(".cell");
  if (cell) choose(Number(cell.dataset.frame));
});
// At another width other words have room.
new ResizeObserver(([{ contentRect }]) => {
  if (!film.now || Math.floor(contentRect.width) === chart.width) return;
  drawCourse();
  drawCourseNow(film.now);
}).observe(at("course-chart"));
let widthOf = 0;
new ResizeObserver(([{ contentRect }]) => {
  if (!film.now || contentRect.width === widthOf) return;
  widthOf = contentRect.width;
  fitCells();
  drawSwap(film.now);
}).observe(at("columns"));
async function openFile(file) {
  try {
    if (file.size > MOST.bytes) throw new BadFilm(`The film has more than ${number(MOST.bytes)} bytes: make one with fewer steps, or with --every.`);
    const text = await file.text();
    stop();
    open(text);
  } catch (error) {
    refuse(error);
  }
}
at("file").addEventListener("change", () => {
  const [file] = at("file").files;
  if (file) openFile(file).then(() => (at("file").value = ""));
});
document.addEventListener("dragover", (event) => {
  event.preventDefault();
  document.body.classList.add("over");
});
document.addEventListener("dragleave", () => document.body.classList.remove("over"));
document.addEventListener("drop", (event) => {
  event.preventDefault();
  document.body.classList.remove("over");
  if (event.dataTransfer.files.length > 0) openFile(event.dataTransfer.files[0]);
});
// A page has the film that was put into it. This one itself opens with a film of its own, and tells below it how to make another;
// the lab's has none, and with the words `?empty` after its address there is none either.
const embedded = at("embedded").textContent;
const opening = at("opening");
if (embedded.startsWith("film ")) open(embedded);
else if (opening && location.search !== "?empty") {
  open(opening.textContent);
  at("empty").hidden = false;
}
