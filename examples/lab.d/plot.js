// The plot of page faults by page frames.
import { asked } from "./ask.js";
import { cellsOf } from "./counts.js";
import { hasFailed, hasResult, isAsked } from "./results.js";
import { setup, tellResult } from "./state.js";
import { tellBad, tellFields, tellMachine } from "./told.js";

// Each line has a name, its words, its value in a row, and the form of its marks, around 0 0. By the marks lines tell apart without their
// colours, and where they lie on each other: those of one line stand beside those of the others.
const LINES = [
  ["fifo", "FIFO", (row) => row.fifo, "M-4 -4h8v8h-8z"],
  ["clock", "clock", (row) => row.clock, "M0 -5L5 4H-5z"],
  ["hands", "two hands", (row) => row.hands, "M0 5L5 -4H-5z"],
  ["lru", "LRU", (row) => row.lru, "M-4.5 0a4.5 4.5 0 1 0 9 0a4.5 4.5 0 1 0 -9 0z"],
  ["least", "the fewest of any (OPT)", (row) => row.least, "M0 -5.5L5.5 0L0 5.5L-5.5 0z"],
  ["own", "the run, with its reclaims", (row) => (row.bare === undefined ? undefined : row.bare + row.reclaims), "M-4 -4L4 4M4 -4L-4 4"],
  ["bare", "the run, without them", (row) => row.bare, "M-5 0H5M0 -5V5"],
];
// how far marks of two lines are apart, in points
const APART = 17;

const PLOT = { width: 760, height: 360, left: 78, right: 14, top: 14, bottom: 44 };
let faults = null;
let plotWidth = 0;

// Some six round numbers from 0 to the most.
function ticks(most) {
  const rough = Math.max(1, most / 6);
  const power = 10 ** Math.floor(Math.log10(rough));
  const step = [1, 2, 2.5, 5, 10].map((it) => it * power).find((it) => it >= rough && Number.isInteger(it));
  return Array.from({ length: Math.floor(most / step) + 1 }, (_, index) => index * step);
}

function drawAxes(svg, x, y, wide, high) {
  const { width, height, left, right, top, bottom } = PLOT;
  for (const tick of ticks(high)) {
    svg.append(shape("line", { class: "grid", x1: left, x2: width - right, y1: y(tick), y2: y(tick) }));
    svg.append(shape("text", { x: left - 6, y: y(tick) + 4, "text-anchor": "end" }, number(tick)));
  }
  for (const tick of ticks(wide)) svg.append(shape("text", { x: x(tick), y: height - bottom + 18, "text-anchor": "middle" }, number(tick)));
  svg.append(shape("path", { class: "axis", d: `M${left} ${top}V${height - bottom}H${width - right}` }));
  svg.append(shape("text", { class: "name", x: (left + width - right) / 2, y: height - 6, "text-anchor": "middle" }, "page frames"));
  const middle = (top + height - bottom) / 2;
  svg.append(shape("text", { class: "name", x: 14, y: middle, "text-anchor": "middle", transform: `rotate(-90 14 ${middle})` }, "page faults"));
}

// The mark of a line at a place.
function markOf(kind, x, y) {
  const [, , , form] = LINES.find(([name]) => name === kind);
  return shape("path", { class: `lab-mark lab-${kind}`, d: form, transform: `translate(${x.toFixed(1)} ${y.toFixed(1)})` });
}

// The place of a line above this x, between the two points beside it.
function placeAt(points, x) {
  const next = points.findIndex(([there]) => there >= x);
  const [[x1, y1], [x2, y2]] = [points[Math.max(0, next - 1)], points[next]];
  return x2 === x1 ? [x1, y1] : [x, y1 + ((y2 - y1) * (x - x1)) / (x2 - x1)];
}

// The places of the marks of a line, those of a further line beside them. A line that is too short for any has one at each of its ends.
function marksOf(points, index, right) {
  if (points.length === 0) return [];
  const [first, last] = [points[0][0], points[points.length - 1][0]];
  const marks = [];
  for (let x = PLOT.left + APART * (index + 0.5); x <= Math.min(last, right); x += APART * LINES.length) if (x >= first) marks.push(placeAt(points, x));
  return marks.length > 0 ? marks : [points[0], points[points.length - 1]];
}

// What a line means, beside a piece of it.
function legendOf([kind, words]) {
  const it = element("li", "", "");
  const svg = shape("svg", { width: 36, height: 14, "aria-hidden": "true" });
  svg.append(shape("polyline", { class: `lab-${kind}`, points: "0,7 36,7" }), markOf(kind, 18, 7));
  it.append(svg, words);
  return it;
}

// The faults at each size of memory, as wide as there is room. The smallest sizes stand in the table alone, where there are more: there
// nearly every reference is a fault.
export function drawPlot() {
  const { rows, frames: own } = faults;
  PLOT.width = Math.max(280, Math.floor(at("lab-plot").clientWidth));
  plotWidth = PLOT.width;
  const { width, height, left, right, top, bottom } = PLOT;
  const shown = rows.filter(({ frames }) => frames > 2 || rows.length < 8);
  const lines = LINES.map(([kind, words, value]) => [kind, words, shown.map((row) => [row.frames, value(row)]).filter(([, many]) => many !== undefined)]);
  const points = lines.flatMap(([, , points]) => points);
  const wide = points.reduce((most, [frames]) => Math.max(most, frames), 1);
  const high = points.reduce((most, [, faults]) => Math.max(most, faults), 1);
  const x = (frames) => left + (frames / wide) * (width - left - right);
  const y = (faults) => height - bottom - (faults / high) * (height - top - bottom);
  const svg = shape("svg", { width, height, role: "img", "aria-labelledby": "lab-plot-title lab-plot-of" });
  drawAxes(svg, x, y, wide, high);
  if (own <= wide) svg.append(shape("line", { class: "here", x1: x(own), x2: x(own), y1: top, y2: height - bottom }));
  const drawn = lines.map(([kind, , points]) => [kind, points.map(([frames, faults]) => [x(frames), y(faults)])]);
  for (const [kind, points] of drawn)
    svg.append(shape("polyline", { class: `lab-${kind}`, points: points.map(([x, y]) => `${x.toFixed(1)},${y.toFixed(1)}`).join(" ") }));
  drawn.forEach(([kind, points], index) => svg.append(...marksOf(points, index, width - right).map(([x, y]) => markOf(kind, x, y))));
  at("lab-plot").replaceChildren(svg);
  at("lab-plot-legend").replaceChildren(...lines.map(legendOf));
  const cells = rows.map((row) => cellsOf("td", [row.frames, ...LINES.map(([, , value]) => value(row) ?? "")]));
  at("lab-plot-table").replaceChildren(cellsOf("th", ["frames", ...LINES.map(([, words]) => words)]), ...cells);
}

// What the faults are counted of.
function partWords({ cut, references, pages }) {
  const sizes = cut ? " Time was up: fewer sizes than otherwise." : "";
  return `${many(references, "reference")} to ${many(pages, "page")}. A policy brings in one page at a time; a read of the run may bring neighbours along, so it may have fewer faults.${sizes}`;
}

export async function plot() {
  tellMachine("", "");
  if (tellFields()) return;
  const given = setup();
  isAsked("plot");
  const answer = await asked("faults", given, "Counting faults at each size of memory ..");
  if (!answer?.rows) {
    hasFailed("plot");
    return answer && tellResult(tellBad(answer), true);
  }
  at("lab-plot-part").hidden = false;
  at("lab-plot-part").open = true;
  faults = { ...answer, frames: Number(given.frames) };
  at("lab-plot-part-said").textContent = partWords(answer);
  drawPlot();
  hasResult("plot", given);
  tellResult("The faults are drawn below.", false);
}

// At another width the plot is drawn anew.
export function watchPlot() {
  new ResizeObserver(([{ contentRect }]) => {
    if (faults && contentRect.width > 0 && Math.floor(contentRect.width) !== plotWidth) drawPlot();
  }).observe(at("lab-plot"));
}
