// What is kept: over a reload of the page and for a later server, in files, and what a load took the place of.
import { post } from "./ask.js";
import { addLoaded, load } from "./programs.js";
import { FIELDS, current, lab, setup, tellResult } from "./state.js";

const PLACE = "lab of vmrun";
const MOST_BACK = 20;
const KINDS = ["source", "c", "image"];

// What the page has, as a file has it: of a program its name and, under its kind, its text.
function written() {
  const { programs: _, ...words } = setup();
  return { lab: 1, ...words, programs: lab.programs.map(({ name, kind, text }) => ({ name, [kind]: text })) };
}

// What a file has, read back; it is judged before anything of the page changes.
function read(text) {
  const given = JSON.parse(text);
  const texts = given && [...FIELDS, "schedule"].every((field) => typeof given[field] === "string");
  const kindOf = (program) => KINDS.find((kind) => typeof program[kind] === "string");
  const known = (program) => program && lab.beginning.names.includes(program.name) && kindOf(program) !== undefined;
  if (!texts || given.lab !== 1 || !Array.isArray(given.programs) || given.programs.length === 0 || !given.programs.every(known)) throw new Error("it is no file of this page");
  return { ...given, programs: given.programs.map((program) => ({ name: program.name, kind: kindOf(program), text: program[kindOf(program)] })) };
}

let pause = 0;
let pauseOfServer = 0;

// Keeps what the page has, in the browser for a reload, and by the server, whose file is there for a server at another address too.
export function keep() {
  clearTimeout(pause);
  clearTimeout(pauseOfServer);
  pause = setTimeout(keepHere, 300);
  pauseOfServer = setTimeout(keepThere, 1000);
}

let told = false;

function tellNotKept(error) {
  if (!told) tellResult(`This work isn't kept for another time, use Save all: ${error.message}`, true);
  told = true;
}

const kept = () => JSON.stringify({ ...written(), at: Date.now() });

// Where the browser keeps nothing, or not so much, the server does.
function keepHere() {
  if (lab.programs.length === 0) return;
  try {
    localStorage.setItem(PLACE, kept());
  } catch {
    localStorage.removeItem(PLACE);
  }
}

async function keepThere() {
  if (lab.programs.length === 0) return;
  try {
    await post("keep", { kept: kept() });
  } catch (error) {
    tellNotKept(error);
  }
}

// As the page is left.
export function keepNow() {
  clearTimeout(pause);
  keepHere();
}

// When a text was kept; nothing where it is none.
function timeOf(text) {
  try {
    return JSON.parse(text)?.at ?? 0;
  } catch {
    return 0;
  }
}

// What is kept in the browser, and what by the server, the newer one first.
async function keptTexts() {
  const texts = [await (await fetch("kept")).text()];
  try {
    texts.push(localStorage.getItem(PLACE) ?? "null");
  } catch {}
  return texts.filter((text) => timeOf(text) > 0).sort((a, b) => timeOf(b) - timeOf(a));
}

// Whether there was work of before, which is put into the page.
export async function loadKept() {
  for (const text of await keptTexts()) {
    try {
      load(read(text));
      return true;
    } catch {}
  }
  return false;
}

// What the page had before loads, the last one last.
const before = [];

export function remember() {
  before.push(written());
  if (before.length > MOST_BACK) before.shift();
  at("lab-back").disabled = false;
}

export function goBack() {
  if (before.length === 0) return;
  load(read(JSON.stringify(before.pop())));
  at("lab-back").disabled = before.length === 0;
  tellResult("What was there before is back.", false);
}

// ---- Files. ----

function save(name, kind, content) {
  const link = element("a");
  link.href = URL.createObjectURL(new Blob([content], { type: kind }));
  link.download = name;
  link.click();
  setTimeout(() => URL.revokeObjectURL(link.href), 10000);
}

export const saveAll = () => save(`${current().name}.lab`, "application/json", JSON.stringify(written(), null, 1) + "\n");

// Saves the program that is shown, as what it is.
export function saveProgram() {
  const { name, kind, text } = current();
  if (kind === "image") return save(name, "application/octet-stream", Uint8Array.from(atob(text), (it) => it.charCodeAt(0)));
  save(`${name}${kind === "c" ? ".c" : ".s"}`, "text/plain", text === "" || text.endsWith("\n") ? text : `${text}\n`);
}

// A file that is larger than this is none of the page's: an image has no more, and in base 64 goes into one question.
const MOST_FILE = 3 << 20;

function base64(bytes) {
  let text = "";
  for (let from = 0; from < bytes.length; from += 8192) text += String.fromCharCode(...bytes.subarray(from, from + 8192));
  return btoa(text);
}

// Loads a file by what it has: a film, what `Save all` wrote, an image, a source of C or of the assembler. None of them takes the place of
// a program of the page, but for what `Save all` wrote, and that can be taken back.
export async function loadFile(file) {
  try {
    const head = await file.slice(0, 5).text();
    if (head === "film ") return await openFile(file);
    if (file.size > MOST_FILE) throw new Error(`it has more than ${number(MOST_FILE)} bytes`);
    const bytes = new Uint8Array(await file.arrayBuffer());
    if (bytes.some((byte) => byte < 9)) {
      const name = addLoaded("image", base64(bytes));
      return tellResult(`${file.name} is loaded: an image, the program ${name}.`, false);
    }
    const text = new TextDecoder().decode(bytes);
    if (text.startsWith("{")) {
      const given = read(text);
      remember();
      load(given);
      return tellResult(`${file.name} is loaded.`, false);
    }
    const name = addLoaded(file.name.endsWith(".c") ? "c" : "source", text.replaceAll("\r\n", "\n"));
    tellResult(`${file.name} is loaded: the program ${name}.`, false);
  } catch (error) {
    tellResult(`${file.name} can't be loaded: ${error.message}`, true);
  }
}
