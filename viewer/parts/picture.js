// ---- What is drawn. ----

const spaceClass = (n) => `space-${1 + ((n - 1) % 8)}`;
const imageClass = (n) => `image-${1 + ((n - 1) % 4)}`;

// The classes of a page: the colour of its space or image, and its segment.
function pageClasses(page) {
  return [page.segment === "x" ? imageClass(page.owner) : spaceClass(page.owner), SEGMENTS[page.segment]];
}

function holderClasses(owner) {
  const [kind, n] = owner.split(" ");
  if (kind === "free") return ["free"];
  if (kind === "u") return ["upage"];
  return [kind === "x" ? imageClass(Number(n)) : spaceClass(Number(n)), SEGMENTS[kind]];
}

// `beyond` is what has more steps where a film's are at their end, as the lab has.
const film = { read: null, index: 0, before: null, now: null, chosen: 1, playing: 0, beyond: null };
// How many bytes of what a process writes are shown at most.
const MOST_WRITTEN = 2000;

let cells = [];
let drawn = [];
let letterWidth = 0.6;

function element(name, classes, text) {
  const it = document.createElement(name);
  if (classes) it.className = classes;
  if (text !== undefined) it.textContent = text;
  return it;
}

// Up to so many frames each has its words in its cell.
const WORDED = 256;

// How many columns of cells there may be, and in rem how large their words; the first that has room for all words is taken.
const COLUMNS = [16, 12, 8, 6, 4, 3, 2];
const SIZES = [0.78, 0.72, 0.66];

// Finds columns and size for the cells, so that no word of theirs is cut at the width that there is.
function fitCells() {
  const grid = at("frames");
  if (cells.length > WORDED) return grid.style.setProperty("--columns", 64);
  const rem = parseFloat(getComputedStyle(document.documentElement).fontSize);
  const letters = (many, size) => many * letterWidth * size * rem;
  const needs = (size) => {
    const first = letters(0.87 * (String(cells.length).length + 2), size) + 3 + 4 + 15;
    return Math.max(letters(film.read.widest, size), letters(0.87 * "free 256".length, size), first) + 2 * (3 + 2) + 1;
  };
  const fits = COLUMNS.flatMap((columns) => SIZES.map((size) => [columns, size]));
  const [columns, size] = fits.find(([columns, size]) => (grid.clientWidth - 3 * (columns - 1)) / columns >= needs(size)) || [1, 0.78];
  grid.style.setProperty("--columns", columns);
  grid.style.setProperty("--size", `${size}rem`);
}

// How wide a letter of the cells is, by the size of its font.
function findLetterWidth() {
  const probe = element("span", "mono", "0".repeat(100));
  probe.style.cssText = "position: absolute; visibility: hidden; font-size: 100px; white-space: nowrap; font-weight: 600";
  document.body.append(probe);
  letterWidth = probe.getBoundingClientRect().width / 10000;
  probe.remove();
}

// Makes a cell for each frame.
function makeCells(frames) {
  const grid = at("frames");
  grid.className = frames <= 128 ? "few" : frames <= WORDED ? "many" : "most";
  cells = [];
  drawn = [];
  for (let frame = 1; frame <= frames; frame++) {
    const cell = element("div", "cell");
    cell.dataset.frame = frame;
    cells.push(cell);
  }
  grid.replaceChildren(...cells);
  findLetterWidth();
  fitCells();
  at("frame").max = frames;
  film.chosen = Math.min(film.chosen, frames);
}

const MARKS = { free: (frame) => `free ${frame.place}`, valid: () => "", invalid: () => "invalid", read: (frame) => `\u25bc ${frame.transfer}`, write: (frame) => `\u25b2 ${frame.transfer}` };

// Draws a frame, unless it is drawn so.
function drawFrame(frame, state, before, small) {
  const cell = cells[frame.frame - 1];
  // its place on the free list and the number of its transfer change with those of others
  const altered = before !== null && before.frames[frame.frame - 1].state !== frame.state;
  const front = state.front === frame.frame;
  const back = state.back === frame.frame;
  const how = `${frame.line}|${altered}|${front}|${back}|${film.chosen === frame.frame}`;
  if (drawn[frame.frame - 1] === how) return;
  drawn[frame.frame - 1] = how;
  const classes = ["cell", frame.kind];
  if (frame.page !== null) classes.push(...pageClasses(frame.page), "held");
  if (frame.dirty) classes.push("dirty");
  if (altered) classes.push("altered");
  if (front) classes.push("front");
  if (back) classes.push("back");
  if (film.chosen === frame.frame) classes.push("chosen");
  cell.className = classes.join(" ");
  cell.title = `frame ${frame.frame}: ${frameWords(frame)}`;
  if (small) return;
  const parts = [element("span", "n", String(frame.frame)), element("span", "p", frame.page === null ? "" : frame.page.name), element("span", "k", MARKS[frame.kind](frame))];
  if (front || back) parts[0].append(element("span", "hand", front && back ? "FB" : front ? "F" : "B"));
  cell.replaceChildren(...parts);
}

function drawFrames(state, before) {
  if (cells.length !== state.frames.length) makeCells(state.frames.length);
  const small = state.frames.length > WORDED;
  for (const frame of state.frames) drawFrame(frame, state, before, small);
  const count = (kind) => state.frames.filter((frame) => frame.kind === kind).length;
  const dirty = state.frames.filter((frame) => frame.dirty).length;
  const counts = `${number(count("free"))} free, ${number(count("valid"))} valid, ${number(count("invalid"))} invalid, ${number(count("read") + count("write"))} in transfers; ${number(dirty)} dirty; front hand at ${state.front}, back hand at ${state.back}`;
  at("counts").textContent = small ? `${counts}; 64 in a row` : counts;
  at("frames").setAttribute("aria-label", `${number(state.frames.length)} frames: ${counts}`);
  at("frames").dataset.front = state.front;
  at("frames").dataset.back = state.back;
}

function drawChosen(state) {
  const frame = state.frames[film.chosen - 1];
  const hands = [state.front === frame.frame ? "the front hand is here" : "", state.back === frame.frame ? "the back hand is here" : ""].filter((it) => it !== "");
  at("frame").value = film.chosen;
  at("said").textContent = [frameWords(frame), ...hands].join("; ");
}

// Gives a list so many items, of which each is drawn anew.
function drawItems(list, items, make) {
  list.replaceChildren(...items.map(make));
}

function drawFree(state) {
  const free = state.frames.filter((frame) => frame.kind === "free").sort((a, b) => a.place - b.place);
  drawItems(at("free"), free, (frame) => {
    const chip = element("li", "chip", String(frame.frame));
    if (frame.page !== null) {
      chip.classList.add("held", ...pageClasses(frame.page));
      chip.title = `it still holds ${pageWords(frame.page)}`;
      if (state.frames.length <= 128) chip.textContent = `${frame.frame}: ${frame.page.name}`;
    }
    chip.dataset.frame = frame.frame;
    return chip;
  });
  at("free-count").textContent = free.length === 0 ? "no frame is free" : `${many(free.length, "frame")}, the next one first`;
}

function drawRing(state) {
  drawItems(at("ring"), state.transfers, (transfer) => {
    const item = element("li");
    const what = transfer.errand === "write" ? "a write to swap" : `a read from ${transfer.errand === "swap" ? "swap" : "the file"}, ${transfer.page.name} is wanted`;
    item.append(element("div", "", `${transfer.number}: ${what}`));
    item.dataset.transfer = transfer.number;
    item.dataset.errand = transfer.errand;
    if (transfer.page !== null) item.dataset.page = transfer.page.name;
    const parts = element("div", "chips");
    for (const part of transfer.parts) {
      const chip = element("span", `chip owned ${pageClasses(part.page).join(" ")}`, `${part.page.name} in ${part.frame}${part.block === null ? "" : `, block ${part.block}`}`);
      chip.dataset.page = part.page.name;
      chip.dataset.frame = part.frame;
      if (part.block !== null) chip.dataset.block = part.block;
      parts.append(chip);
    }
    item.append(parts);
    return item;
  });
  at("ring-count").textContent = state.transfers.length === 0 ? "none" : `${state.transfers.length} of at most 16, the oldest first`;
}

function drawProcesses(state) {
  drawItems(at("processes"), state.processes, (process) => {
    const asleep = process.asleep ? ", asleep" : "";
    const words = { in: `in, space ${process.sid}${asleep}`, out: `out, space ${process.sid}${asleep}`, lent: `lent space ${process.sid} to process ${process.child}`, ended: `ended, status ${process.status}` };
    const chip = element("li", "chip", `${process.pid}: ${words[process.kind]}`);
    if (process.kind === "in" || process.kind === "out") chip.classList.add("owned", spaceClass(process.sid));
    chip.dataset.pid = process.pid;
    chip.dataset.kind = process.kind;
    return chip;
  });
}

function drawDue(state) {
  at("due-section").hidden = state.due.length === 0;
  drawItems(at("due"), state.due, (due) => {
    const chip = element("li", `chip owned ${pageClasses(due.page).join(" ")}`, due.page.name + (due.from ? ` from ${due.from.name}` : ""));
    chip.dataset.page = due.page.name;
    if (due.from) chip.dataset.from = due.from.name;
    return chip;
  });
}

// The swap area in rows of 1,024 blocks, which nothing that is held crosses.
function drawSwap(state) {
  const size = state.swap.reduce((sum, piece) => sum + piece.length, 0);
  const wide = Math.min(1024, size);
  const rows = [];
  const count = Math.ceil(size / wide);
  const rem = parseFloat(getComputedStyle(document.documentElement).fontSize);
  const room = (blocks) => (blocks / wide) * (at("swap").clientWidth - 2) - 6;
  for (let n = 0; n < count; n++) rows.push(element("div", "row"));
  for (const piece of state.swap) {
    let start = piece.start;
    const end = piece.start + piece.length;
    while (start < end) {
      const row = Math.floor(start / wide);
      const stop = Math.min(end, (row + 1) * wide);
      const extent = element("div", `extent ${holderClasses(piece.owner).join(" ")}`);
      extent.style.left = `${(100 * (start - row * wide)) / wide}%`;
      extent.style.width = `${(100 * (stop - start)) / wide}%`;
      extent.dataset.start = start;
      extent.dataset.length = stop - start;
      extent.dataset.owner = piece.owner;
      extent.title = `blocks ${start} to ${stop - 1}: ${ownerWords(piece.owner)}`;
      if (count <= 4 && room(stop - start) >= piece.owner.length * letterWidth * 0.72 * rem) extent.textContent = piece.owner;
      rows[row].append(extent);
      start = stop;
    }
  }
  const held = state.swap.reduce((sum, piece) => sum + (piece.owner === "free" ? 0 : piece.length), 0);
  const said = `${number(held)} of ${number(size)} blocks held`;
  at("swap").className = count <= 4 ? "" : count <= 16 ? "many" : "most";
  at("swap").replaceChildren(...rows);
  at("swap").setAttribute("aria-label", `swap area: ${said}`);
  at("blocks").textContent = count > 1 ? `${said}; a row has 1,024` : said;
}

// The legend: the states, and the owners of this step.
const STATES = [
  ["valid data space-1", "valid: it may be used"],
  ["invalid data space-1", "invalid: a touch reclaims it"],
  ["free held data space-1", "free, and still holds a page"],
  ["free", "free, with no page"],
  ["read data space-1", "\u25bc and its transfer: being read into"],
  ["write data space-1", "\u25b2 and its transfer: being written out"],
  ["valid data space-1 dirty", "dirty: swap hasn't its bytes"],
  ["free front", "front hand (F)"],
  ["free back", "back hand (B)"],
  ["free altered", "changed by this entry"],
];

function drawLegend(state) {
  const owners = new Map();
  const add = (page) => owners.set(`${page.segment} ${page.owner}`, page);
  for (const frame of state.frames) if (frame.page !== null) add(frame.page);
  const keys = STATES.map(([classes, words]) => [classes, words]);
  for (const page of [...owners.values()].sort((a, b) => (a.segment === "x") - (b.segment === "x") || a.owner - b.owner || (a.segment < b.segment ? -1 : 1)))
    keys.push([`valid ${pageClasses(page).join(" ")}`, `${page.segment} ${page.owner}: ${SEGMENTS[page.segment]} of ${page.segment === "x" ? "image" : "space"} ${page.owner}`]);
  keys.push(["upage", "u: u page of a process, on swap alone"]);
  const name = keys.map(([, words]) => words).join();
  if (at("legend").dataset.name === name) return;
  at("legend").dataset.name = name;
  drawItems(at("legend"), keys, ([classes, words]) => {
    const item = element("li");
    const key = element("span", `cell key ${classes === "upage" ? "valid upage" : classes}`);
    key.setAttribute("aria-hidden", "true");
    item.append(key, element("span", "", words));
    return item;
  });
}

// Where in the schedule a step is.
function whereabouts(step) {
  if (step.event > 0) {
    const line = film.read.schedule[step.event];
    return `in line ${step.event} of the schedule${line === undefined ? "" : `, ${line}`}`;
  }
  if (step.turn > 0) return film.read.schedule.length > 0 ? `after the schedule, in a turn of process ${step.turn}` : `in a turn of process ${step.turn}`;
  return "";
}

// What processes have written up to this step, each as text; of much the end. A film that begins late knows only what its steps write.
function drawWritten() {
  const texts = new Map();
  const after = film.read.writes.findIndex(({ index }) => index > film.index);
  const written = [...film.read.earlier, ...film.read.writes.slice(0, after < 0 ? undefined : after)];
  for (const { pid, hex } of written.reverse()) {
    const text = texts.get(pid) || "";
    if (text.length < 2 * MOST_WRITTEN) texts.set(pid, `${hex}${text}`.slice(-2 * MOST_WRITTEN));
  }
  at("written-section").hidden = texts.size === 0;
  drawItems(at("written"), [...texts].sort(([a], [b]) => a - b), ([pid, hex]) => {
    const item = element("li");
    item.dataset.pid = pid;
    item.append(element("span", "", `process ${pid}`), element("pre", "", charactersOf(hex, true)));
    return item;
  });
}

function draw() {
  const { now, before } = film;
  const step = now.step;
  const steps = film.read.steps;
  at("line").textContent = step.line === "" ? "start" : step.line;
  at("sched").textContent = whereabouts(step);
  at("told").textContent = tell(before, now) + (now.over ? ` ${overWords(now.processes, film.read.limit)}` : "");
  at("slider").max = steps.length - 1;
  at("slider").value = film.index;
  at("slider").setAttribute("aria-valuetext", `step ${step.number}: ${at("line").textContent}`);
  const [from, to] = [steps[0], steps[steps.length - 1]].map((it) => number(it.number));
  at("where").textContent = from === "0" ? `step ${number(step.number)} of ${to}` : `step ${number(step.number)}, from ${from} to ${to}`;
  for (const id of ["first", "before"]) at(id).disabled = film.index === 0;
  for (const id of ["next", "last"]) at(id).disabled = film.index === steps.length - 1;
  drawFrames(now, before);
  drawChosen(now);
  drawFree(now);
  drawRing(now);
  drawProcesses(now);
  drawDue(now);
  drawSwap(now);
  drawLegend(now);
  drawClock(now);
  drawCourseNow(now);
  drawWritten();
  at("text").textContent = `step ${step.number} ${step.line}\n${now.lines}`;
  document.body.dataset.step = step.number;
}
