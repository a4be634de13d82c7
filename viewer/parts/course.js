// ---- The course of a run: what happened when, drawn along the slider. ----

// The kinds of faults, in the order in which their bars stand on each other: the letter of their line, and their name.
const FAULT_KINDS = [
  ["Z", "filled"],
  ["G", "read"],
  ["C", "copied"],
  ["R", "reclaimed"],
];

// The rows of events below: a name, and the letters that `eventOf` gives.
const TRACKS = [
  ["hands", "H"],
  ["evictions", "EWF"],
  ["out and in", "POI"],
  ["calls", "c"],
  ["output", "o"],
  ["ends", "x"],
  ["schedule", "e"],
];

// The calls of which a row tells: fork, execve, vfork and wait.
const TOLD_CALLS = ["2", "59", "66", "84"];

// The letter of a line, as the course has it. Of the calls only those that make, change or wait for processes have one.
const eventOf = (line) => (line[0] === "c" && !TOLD_CALLS.includes(line.split(" ")[2]) ? "." : line[0] || ".");

// A film's states are counted at so many of its steps at most, and of so many characters in all.
const MOST_COUNTED = { steps: 400, characters: 8 << 20 };

// How many frames are free in a step, and how many blocks of swap are held, by its lines.
function countedOf(film, step) {
  const lines = film.text.slice(step.from, step.to);
  const free = (lines.match(/^frame \d+ free /gm) || []).length;
  let held = film.blocks;
  for (const [, blocks] of lines.matchAll(/^swap \d+ (\d{1,7}) free$/gm)) held -= Number(blocks);
  return [step.number, free, held];
}

// The course of a film: the numbers of its steps and their letters, and what is counted at some of them.
function courseOf(film) {
  const { steps } = film;
  const many = Math.max(2, Math.min(MOST_COUNTED.steps, Math.floor((MOST_COUNTED.characters * steps.length) / film.text.length)));
  const stride = Math.ceil(steps.length / many);
  const counted = steps.filter((_, index) => index % stride === 0 || index === steps.length - 1).map((step) => countedOf(film, step));
  return {
    numbers: steps.map((step) => step.number),
    letters: steps.map((step) => eventOf(step.line)).join(""),
    counted,
    frames: film.frames,
    blocks: film.blocks,
  };
}

// The drawing's measures, in points: the bars of faults, the lines of what is free and held, a row of events, and the room between.
const COURSE = { bars: 40, levels: 40, row: 11, gap: 5, bin: 4 };

const chart = { course: null, width: 0, first: 0, last: 1, rows: [] };

function shape(name, attributes, text) {
  const it = document.createElementNS("http://www.w3.org/2000/svg", name);
  for (const [key, value] of Object.entries(attributes)) it.setAttribute(key, value);
  if (text !== undefined) it.textContent = text;
  return it;
}

// Where a step stands from left to right, and which step stands at a place.
const courseX = (step) => (chart.last === chart.first ? 0 : ((step - chart.first) / (chart.last - chart.first)) * chart.width);
const courseStep = (x) => Math.round(chart.first + (Math.max(0, Math.min(chart.width, x)) / chart.width) * (chart.last - chart.first));

// Of each bin, a few points wide, how many faults of each kind it has.
function faultBins({ numbers, letters }) {
  const bins = Array.from({ length: Math.ceil(chart.width / COURSE.bin) + 1 }, () => FAULT_KINDS.map(() => 0));
  for (let index = 0; index < letters.length; index++) {
    const kind = FAULT_KINDS.findIndex(([letter]) => letter === letters[index]);
    if (kind >= 0) bins[Math.floor(courseX(numbers[index]) / COURSE.bin)][kind]++;
  }
  return bins;
}

// The bars of faults, the kinds on each other: a path for each kind.
function drawBars(svg, course) {
  const bins = faultBins(course);
  const sum = (bin) => bin.reduce((all, one) => all + one, 0);
  const most = bins.reduce((high, bin) => Math.max(high, sum(bin)), 1);
  FAULT_KINDS.forEach(([letter, name], kind) => {
    let path = "";
    bins.forEach((bin, place) => {
      if (bin[kind] === 0) return;
      const below = bin.slice(0, kind).reduce((all, one) => all + one, 0);
      const [bottom, high] = [COURSE.bars * (1 - below / most), (COURSE.bars * bin[kind]) / most];
      path += `M${place * COURSE.bin} ${bottom.toFixed(1)}h${COURSE.bin - 1}v${(-high).toFixed(1)}h${1 - COURSE.bin}z`;
    });
    const bars = shape("path", { class: `bars fault-${letter}`, d: path });
    bars.append(shape("title", {}, `faults: ${name}`));
    svg.append(bars);
  });
}

// A line of what is counted, as steps: it holds until the next one.
function levelPath(counted, place, most, top) {
  const points = counted.map((row) => [courseX(row[0]).toFixed(1), (top + COURSE.levels * (1 - row[place] / Math.max(1, most))).toFixed(1)]);
  return points.map(([x, y], index) => (index === 0 ? `M${x} ${y}` : `H${x}V${y}`)).join("") + `H${chart.width}`;
}

// The row of each kind of events that there is: a stroke for each of its events.
function drawTracks(svg, course, top) {
  chart.rows = TRACKS.map(([name, letters]) => {
    const places = [];
    for (let index = 0; index < course.letters.length; index++) if (letters.includes(course.letters[index])) places.push(index);
    return { name, places };
  }).filter(({ places }) => places.length > 0);
  chart.rows.forEach((row, number) => {
    row.top = top + number * COURSE.row;
    const strokes = new Set(row.places.map((place) => Math.round(courseX(course.numbers[place]) * 2) / 2));
    svg.append(shape("rect", { class: "track", x: 0, y: row.top, width: chart.width, height: COURSE.row - 2 }));
    const path = [...strokes].map((x) => `M${x} ${row.top}v${COURSE.row - 2}`).join("");
    const events = shape("path", { class: "events", d: path });
    events.dataset.name = row.name;
    events.dataset.many = row.places.length;
    svg.append(events);
  });
}

// Names beside the chart, each as high as what it names.
function drawNames() {
  const names = [["faults", COURSE.bars + COURSE.gap], ["free, held", COURSE.levels + COURSE.gap], ...chart.rows.map(({ name }) => [name, COURSE.row])];
  at("course-names").replaceChildren(
    ...names.map(([name, height]) => {
      const it = element("li", "", name);
      it.style.height = `${height}px`;
      return it;
    }),
  );
}

function drawCourse() {
  const { course } = chart;
  chart.width = Math.floor(at("course-chart").clientWidth);
  if (!course || chart.width < 20) return;
  [chart.first, chart.last] = [course.numbers[0], course.numbers[course.numbers.length - 1]];
  const top = COURSE.bars + COURSE.gap;
  const svg = shape("svg", { width: chart.width, "aria-hidden": "true" });
  drawBars(svg, course);
  svg.append(shape("path", { class: "base", d: `M0 ${COURSE.bars + 0.5}H${chart.width}M0 ${top + COURSE.levels + 0.5}H${chart.width}` }));
  svg.append(shape("path", { class: "level held", d: levelPath(course.counted, 2, course.blocks, top) }));
  svg.append(shape("path", { class: "level free", d: levelPath(course.counted, 1, course.frames, top) }));
  drawTracks(svg, course, top + COURSE.levels + COURSE.gap);
  const height = top + COURSE.levels + COURSE.gap + chart.rows.length * COURSE.row;
  svg.setAttribute("height", height);
  svg.append(shape("line", { class: "now", y1: 0, y2: height }));
  at("course-chart").replaceChildren(svg);
  at("course-chart").setAttribute("aria-label", courseWords(course));
  drawNames();
}

// The course in words, for who doesn't see it.
function courseWords({ letters, counted, frames, blocks }) {
  const faults = FAULT_KINDS.map(([letter, name]) => `${number(letters.split(letter).length - 1)} ${name}`).join(", ");
  const least = counted.reduce((few, [, free]) => Math.min(few, free), frames);
  const most = counted.reduce((high, [, , held]) => Math.max(high, held), 0);
  const events = chart.rows.map(({ name, places }) => `${name} ${number(places.length)}`).join(", ");
  return `steps ${number(chart.first)} to ${number(chart.last)}. Faults: ${faults}. At least ${number(least)} of ${number(frames)} frames free, at most ${number(most)} of ${number(blocks)} blocks held. Events: ${events || "none"}.`;
}

// The line at the step that is shown, and what is free and held there.
function drawCourseNow(state) {
  const line = at("course-chart").querySelector(".now");
  if (line) for (const side of ["x1", "x2"]) line.setAttribute(side, courseX(state.step.number).toFixed(1));
  const free = state.frames.filter((frame) => frame.kind === "free").length;
  const held = state.swap.reduce((sum, piece) => sum + (piece.owner === "free" ? 0 : piece.length), 0);
  at("course-free").textContent = `${number(free)} of ${number(state.frames.length)} frames free`;
  at("course-held").textContent = `${number(held)} of ${number(state.blocks)} blocks of swap held`;
}

function setCourse(course) {
  chart.course = course;
  drawCourse();
}

// The step that a click leads to: in a row of events the nearest of them, else the step below the pointer.
function courseTarget(event) {
  const box = at("course-chart").getBoundingClientRect();
  const [x, y] = [event.clientX - box.left, event.clientY - box.top];
  const step = courseStep(x);
  const row = chart.rows.find(({ top }) => y >= top - 1 && y < top + COURSE.row - 1);
  if (!row) return step;
  const { numbers } = chart.course;
  return row.places.map((place) => numbers[place]).reduce((best, it) => (Math.abs(it - step) < Math.abs(best - step) ? it : best));
}

// The step of the next event of any row after a step, or before it; none where there is none.
function nextEvent(from, by) {
  const steps = chart.rows.filter(({ name }) => name !== "output").flatMap(({ places }) => places.map((place) => chart.course.numbers[place]));
  const beyond = steps.filter((step) => (by > 0 ? step > from : step < from));
  if (beyond.length === 0) return null;
  return beyond.reduce((best, it) => (by > 0 ? Math.min(best, it) : Math.max(best, it)));
}
