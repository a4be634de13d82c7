// What the page is about, for all of its scripts. The picture of a step is the viewer's, whose script stands before these: its functions
// `open`, `show`, `seek`, `element`, `at`, `shape` and others are used, and its `film`.
export const page = document.querySelector('meta[name="page"]').content;
export const FIELDS = ["frames", "swap", "limit", "images"];

// A program has a name, a kind and a text: a source of the assembler, a source of C, or an image in base 64.
export const FIRST = ".word 0\nmovl $5,r1\nl: sobgtr r1,l\nmoval *$code,r12\nchmk $1\ncode: .long 1\n.long 7\n";

export const lab = { beginning: null, programs: [], current: 0, run: null, last: Promise.resolve(), asked: 0, waiting: 0, typed: 0, schedule: null };

export const current = () => lab.programs[lab.current];

// A text whose last line has an end.
export const ended = (text) => (text === "" || text.endsWith("\n") ? text : `${text}\n`);

// What the server is asked with: programs, words and schedule. Last lines that have no end get one.
export function setup() {
  const given = ({ kind, text }) => (kind === "source" ? ended(text) : { [kind]: kind === "c" ? ended(text) : text });
  const asked = { programs: Object.fromEntries(lab.programs.map((program) => [program.name, given(program)])) };
  for (const field of FIELDS) asked[field] = at(`lab-${field}`).value;
  asked.schedule = ended(lab.schedule());
  return asked;
}

export function tellResult(words, bad) {
  at("lab-result").textContent = words;
  at("lab-result").classList.toggle("bad", bad);
}
