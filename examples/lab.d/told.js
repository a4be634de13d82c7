// What is wrong: it is told where it stands, and beside the run.
import { lab, current, FIELDS, tellResult } from "./state.js";
import { schedule, source, tellEditor } from "./editor.js";
import { nearest } from "./nearest.js";
import { chooseProgram } from "./programs.js";

// What a field may have, for who has left it empty.
const RANGES = { frames: "64 to 4,096", swap: "256 to 131,072", limit: "1 to 1,000,000", images: "name a program of this page, or an example" };

export function tellMachine(field, words) {
  at("lab-machine-said").textContent = words;
  for (const name of FIELDS) {
    if (name === field) at(`lab-${name}`).setAttribute("aria-invalid", "true");
    else at(`lab-${name}`).removeAttribute("aria-invalid");
  }
}

// The names of images that are neither programs of this page nor examples.
function notFound() {
  const { names, own } = lab.beginning;
  const has = (name) => lab.programs.some((program) => program.name === name) || (names.includes(name) && !own.includes(name));
  const words = at("lab-images").value.split(/\s+/).filter((word) => word !== "");
  return [...new Set(words.map((word) => word.replace(/^=/, "")))].filter((name) => !has(name));
}

// Whether a field is empty, or names what isn't there, which is told.
export function tellFields() {
  const field = FIELDS.find((name) => at(`lab-${name}`).value.trim() === "");
  const names = notFound();
  if (field) tellMachine(field, `${field.toUpperCase()} is empty: ${RANGES[field]}`);
  else if (names.length > 0) tellMachine("images", `no program of this page, and no example, has the ${names.length === 1 ? "name" : "names"} ${names.join(", ")}`);
  else return false;
  tellResult(at("lab-machine-said").textContent, true);
  return true;
}

const CUT = { time: () => `Ended after ${lab.beginning.seconds} seconds.`, output: () => "Ended: it wrote too much.", stopped: () => "Stopped." };

// The lines that the program wrote on standard error, without its name, and without where the launcher says that more is told.
function saidOf(answer) {
  const lines = answer.said.split("\n").filter((line) => line.startsWith("vmrun: ") && !line.startsWith("vmrun: `vmrun --help` "));
  return lines.map((line) => line.slice("vmrun: ".length));
}

// What the program said in this form: what it names, and why it is bad. Else it is the line of the status, and its number.
function reasonOf(answer, form) {
  const lines = saidOf(answer);
  const found = lines.map((line) => line.match(form)).find(Boolean);
  if (found) return [found[1], found[2]];
  const [, line] = answer.line.match(/^vmrun: bad (?:source|schedule) line (\d+)$/) || [];
  return [line || "", lines[lines.length - 1] || answer.line.replace(/^vmrun: /, "")];
}

// What the C compiler said of a program: the line that it names first, and why it is bad.
function reasonOfC(answer) {
  const lines = answer.said.split("\n").filter((line) => line !== "");
  const form = new RegExp(`^(?:cc: )?${answer.program}\\.c(?:, line |:)(\\d+): (?:error: )?(.*)$`);
  // what `cc` says of a complaint of the compiler's stands below that, and says more
  const found = [...lines.filter((line) => line.startsWith("cc: ")), ...lines].map((line) => line.match(form)).find(Boolean);
  return found ? [found[1], found[2]] : ["", (lines[0] || "the compiler ended").replace(/^(cc|vmrun): /, "")];
}

const atLine = (line, why) => (line === "" ? why : `line ${line}: ${why}`);

// A reason of the assembler's, with the mnemonic that may be meant.
export function helped(why) {
  const [, word] = why.match(/^unknown mnemonic (\w+)$/) || [];
  const meant = word && nearest(word, lab.beginning.card.instructions.flatMap(({ forms }) => forms.map(([name]) => name)));
  return meant ? `${why}: is ${meant} meant?` : why;
}

// Tells what is bad where it stands, and returns it in words.
export function tellBad(answer) {
  if (answer.cut) return CUT[answer.cut]();
  if (answer.status === 125) return saidOf(answer).join("; ");
  if (answer.program) return tellSource(answer.program, ...(answer.c ? reasonOfC(answer) : reasonOf(answer, /^line (\d+): (.*)$/)));
  if (answer.status === 4) tellSchedule(answer);
  if (answer.status === 1) {
    const [word, words] = reasonOf(answer, /^(FRAMES|SWAP|LIMIT) (is .*)$/);
    if (word) tellMachine(word.toLowerCase(), `${word} ${words}`);
    else tellMachine("images", words);
  }
  if (answer.status === 11) tellMachine("swap", saidOf(answer).pop() || "");
  return `Status ${answer.status}: ${saidOf(answer).pop() || answer.line.replace(/^vmrun: /, "")}`;
}

// Tells what is bad in the schedule, at its line.
export function tellSchedule(answer) {
  const [line, words] = reasonOf(answer, /^schedule line (\d+): (.*)$/);
  tellEditor(schedule, Number(line), atLine(line, words));
}

// Shows a program that is bad, with its line marked; one that isn't on the page is only told.
function tellSource(name, line, reason) {
  const why = helped(reason);
  const index = lab.programs.findIndex((program) => program.name === name);
  if (index >= 0) {
    if (index !== lab.current) chooseProgram(index);
    tellEditor(source, Number(line), atLine(line, why));
  }
  return `${current().kind === "c" && index >= 0 ? `${name}.c` : name}, ${atLine(line, why)}`;
}
