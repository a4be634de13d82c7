// The registers of each process, its next instruction, and the line of C that it runs.
import { current, lab } from "./state.js";

const NAMES = [...Array.from({ length: 12 }, (_, index) => `r${index}`), "ap", "fp", "sp", "pc"];
const FORKS = ["2", "66"];
const EXECVE = "59";

// A line of a listing that has an instruction: its address in eight digits, a space and the instruction. The last line, `end` and an
// address, has none.
const LISTED = /^([0-9a-f]{8}) ./;

// The lines of each listing by the addresses of their instructions.
export function listingsOf(listings) {
  const byAddress = (listing) => new Map(listing.split("\n").filter((line) => LISTED.test(line)).map((line) => [parseInt(line.match(LISTED)[1], 16), line]));
  return new Map(Object.entries(listings).map(([name, listing]) => [name, byAddress(listing)]));
}

// Of each process which image it runs from which step on, in this order: the first ones those of the words, a child that of its
// parent. After an execve that succeeds the transcript doesn't tell it.
export function imagesOf(words, lines) {
  const images = new Map();
  const imageOf = (pid) => images.get(pid)?.at(-1).image;
  const runs = (pid, step, image) => {
    if (!images.has(pid)) images.set(pid, [{ step, image }]);
    else if (imageOf(pid) !== image) images.get(pid).push({ step, image });
  };
  const first = words.split(/\s+/).filter((word) => word !== "" && !word.startsWith("="));
  first.forEach((image, index) => runs(String(index + 1), 0, image));
  lines.forEach((line, index) => {
    if (line[0] !== "c") return;
    const [, pid, call, carry, r0] = line.split(" ");
    if (carry !== "0") return;
    if (FORKS.includes(call)) runs(r0, index + 1, imageOf(pid));
    if (call === EXECVE) runs(pid, index + 1, undefined);
  });
  return images;
}

const imageOf = (pid) => lab.run.images.get(pid)?.findLast(({ step }) => step <= lab.run.now)?.image;

// The line of the listing at the address that is the process's PC; none where the listing has none, or isn't known.
const nextOf = (pid, pc) => lab.run.listings.get(imageOf(pid))?.get(pc);

// The line of C to which the instruction at an address belongs; 0 where it is none of the program's own file.
function lineOfC(image, pc) {
  const table = lab.run.whole[image];
  return table?.findLast(([address]) => address <= pc)?.[1] ?? 0;
}

// A line of a program of the page.
function textOf(image, line) {
  const given = lab.run.given.programs[image];
  return given?.c?.split("\n")[line - 1]?.trim() ?? "";
}

const wordsOf = (line) => line.split(" ");
const pcOf = (line) => Number(wordsOf(line)[1 + NAMES.length]);

// A process's registers, those that are addresses as a listing writes them.
function drawRegisters(line) {
  const [, pid, ...words] = wordsOf(line);
  const [values, codes] = [words.slice(0, NAMES.length), words.slice(NAMES.length)];
  const it = element("section");
  it.dataset.process = pid;
  const title = element("h3", "", `process ${pid} `);
  title.append(element("span", "lab-codes", codes.length > 0 ? codes.join(" ") : "no codes set"));
  const image = imageOf(pid);
  const next = nextOf(pid, pcOf(line));
  const inC = lineOfC(image, pcOf(line));
  const list = element("dl", "lab-values");
  list.append(
    ...values.map((value, index) => {
      const row = element("div");
      row.append(element("dt", "", NAMES[index]), element("dd", "", index < 12 ? value : `0x${Number(value).toString(16)}`));
      return row;
    }),
  );
  it.append(title, ...(inC > 0 ? [element("p", "lab-c-line mono", `${image}.c:${inC} ${textOf(image, inC)}`)] : []));
  it.append(...(next ? [element("p", "lab-next mono", next)] : []), list);
  return it;
}

// Draws the registers of a state, and gives the line of C that runs next in the program that is shown, or 0. Of several processes of that
// program it is the one whose turn it is, or else the first.
export function drawMachine(state) {
  at("lab-registers").hidden = state.registers.length === 0;
  at("lab-registers-list").replaceChildren(...state.registers.map(drawRegisters));
  const mine = state.registers.filter((line) => imageOf(wordsOf(line)[1]) === current().name);
  const line = mine.find((it) => Number(wordsOf(it)[1]) === state.step.turn) || mine[0];
  const same = current().kind === "c" && lab.run.given.programs[current().name]?.c?.trimEnd() === current().text.trimEnd();
  return line && same ? lineOfC(current().name, pcOf(line)) : 0;
}
