// The programs of the page, each with a tab.
import { ask } from "./ask.js";
import { fill, numberLines, schedule, source, tellEditor, textOf } from "./editor.js";
import { keep, remember } from "./kept.js";
import { drawStale } from "./results.js";
import { current, FIELDS, FIRST, lab, setup, tellResult } from "./state.js";
import { tellBad, tellMachine, tellSchedule } from "./told.js";

const KINDS = { source: "", c: ".c", image: " (image)" };

// What stands in the editor of a program.
function shownText({ kind, text }) {
  if (kind !== "image") return text;
  return `An image of ${number(Math.floor((text.length * 3) / 4))} bytes, which can be run as it is. Its listing stands below.`;
}

export function drawPrograms() {
  const tabs = lab.programs.map(({ name, kind }, index) => {
    const tab = element("button", "", `${name}${KINDS[kind]}`);
    tab.type = "button";
    tab.setAttribute("role", "tab");
    tab.setAttribute("aria-selected", String(index === lab.current));
    tab.tabIndex = index === lab.current ? 0 : -1;
    tab.addEventListener("click", () => chooseProgram(index));
    return tab;
  });
  at("lab-tabs").replaceChildren(...tabs);
  const free = (name) => !lab.programs.some((program) => program.name === name);
  const names = lab.beginning.names.filter((name) => free(name) && (name in lab.beginning.sources || lab.beginning.own.includes(name)));
  const inC = lab.beginning.own.filter(free).map((name) => new Option(`${name} in C`, `${name}.c`));
  at("lab-add").replaceChildren(new Option("a program", ""), ...names.map((name) => new Option(name, name)), ...inC);
  at("lab-close").disabled = lab.programs.length === 1;
}

export function chooseProgram(index) {
  lab.current = index;
  fill(source, shownText(current()));
  if (current().kind === "image") source.text.readOnly = true;
  tellEditor(source, 0, "");
  at("lab-listing").textContent = "";
  drawPrograms();
  drawStale();
  check();
}

export function addProgram(name) {
  if (!name) return;
  const own = name.replace(/\.c$/, "");
  if (own !== name) lab.programs.push({ name: own, kind: "c", text: lab.beginning.cFirst });
  else lab.programs.push({ name, kind: "source", text: lab.beginning.sources[name] || ".word 0\n" });
  chooseProgram(lab.programs.length - 1);
  keep();
  source.text.focus();
}

export function closeProgram() {
  if (lab.programs.length === 1) return;
  remember();
  lab.programs.splice(lab.current, 1);
  chooseProgram(Math.max(0, lab.current - 1));
  keep();
}

// A program of a file that was loaded gets a name and a tab of its own, and is run where the one that was shown would have been.
export function addLoaded(kind, text) {
  const name = lab.beginning.own.find((own) => !lab.programs.some((program) => program.name === own));
  if (!name) throw new Error(`the page has ${lab.beginning.own.join(", ")} already: close one of them`);
  remember();
  if (at("lab-images").value.trim() === current().name) at("lab-images").value = name;
  lab.programs.push({ name, kind, text });
  chooseProgram(lab.programs.length - 1);
  keep();
  return name;
}

// Puts programs and words into the page, in place of what is there.
export function load(given) {
  lab.programs = given.programs.map((program) => ({ ...program, text: program.text.replaceAll("\r\n", "\n") }));
  for (const field of FIELDS) at(`lab-${field}`).value = given[field];
  fill(schedule, given.schedule);
  tellMachine("", "");
  tellEditor(schedule, 0, "");
  chooseProgram(0);
  keep();
}

// The programs of a row of images that have a source.
function programsOf(images) {
  const names = [...new Set(images.split(" ").map((word) => word.replace("=", "")))];
  const found = names.filter((name) => name in lab.beginning.sources).map((name) => ({ name, kind: "source", text: lab.beginning.sources[name] }));
  return found.length > 0 ? found : [{ name: lab.beginning.own[0], kind: "source", text: FIRST }];
}

export const loadWords = (words) => load({ ...words, programs: words.programs || programsOf(words.images) });

// Makes the image of the program that is being written, and marks what is bad in it.
export async function check() {
  const typed = ++lab.typed;
  const { name, kind, text } = current();
  let answer;
  try {
    answer = await ask("check", { program: name, source: kind === "source" ? text : { [kind]: text } });
  } catch {
    return;
  }
  if (typed !== lab.typed) return;
  if (answer.status === 0 && !answer.cut) {
    tellEditor(source, 0, "");
    at("lab-listing").textContent = answer.listing;
  } else if (answer.status === 125) tellResult(tellBad(answer), true);
  else if (kind === "image") tellEditor(source, 0, `${name} is no image: ${answer.line.replace(/^vmrun: /, "")}`);
  else tellBad(answer);
}

// Marks what is bad in the schedule that is being written.
async function checkSchedule() {
  const typed = ++schedules;
  let answer;
  try {
    answer = await ask("schedule", { schedule: setup().schedule });
  } catch {
    return;
  }
  if (typed === schedules && answer.status === 4 && !answer.cut) tellSchedule(answer);
}

let pause = 0;
let pauseOfSchedule = 0;
let schedules = 0;

export function checkScheduleSoon() {
  checkScheduleNoMore();
  pauseOfSchedule = setTimeout(checkSchedule, 700);
}

function checkScheduleNoMore() {
  clearTimeout(pauseOfSchedule);
  schedules++;
}

function checkSourceNoMore() {
  clearTimeout(pause);
  lab.typed++;
}

// No check that is waited for comes any more.
export function checkNoMore() {
  checkSourceNoMore();
  checkScheduleNoMore();
}

export function changed() {
  if (current().kind === "image") return;
  current().text = textOf(source);
  numberLines(source);
  checkSourceNoMore();
  pause = setTimeout(check, current().kind === "c" ? 1200 : 700);
  keep();
  drawStale();
}
