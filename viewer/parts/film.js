// ---- A film as text, and its steps as states. ----

const at = (id) => document.getElementById(id);

class BadFilm extends Error {}

// What a film has at most: bytes, notes, steps, characters of a line and of a step, and items of a list. A machine has at most so many
// frames and blocks.
const MOST = { bytes: 500000000, notes: 100, steps: 250000, line: 4096, step: 8 << 20, items: 65536, frames: 4096, blocks: 131072 };

// A number of a film.
function whole(word, least, most) {
  if (!/^\d{1,10}$/.test(word) || Number(word) < least || Number(word) > most) throw new BadFilm(`No number from ${number(least)} to ${number(most)}: ${String(word).slice(0, 40)}`);
  return Number(word);
}

// A line of a film, which is no longer than one may be.
function lineAt(text, from, to) {
  if (to - from > MOST.line) throw new BadFilm(`A line has more than ${number(MOST.line)} characters: ${text.slice(from, from + 40)} ..`);
  return text.slice(from, to);
}

// The steps of a film stand where their lines begin; a step's own lines are read when it is shown. A film whose lines end in
// CR LF, as some systems make them, is read as if they ended in LF.
function readFilm(given) {
  const text = given.replaceAll("\r\n", "\n");
  if (!text.startsWith("film ")) throw new BadFilm("The first line isn't one of a film: it begins with `film`.");
  if (text.includes("\r")) throw new BadFilm("The film has carriage returns within its lines, so it is no text of a film any more.");
  if (!text.endsWith("\n")) throw new BadFilm("The film is cut off: its last line has no end.");
  const end = text.indexOf("\n");
  const film = { words: lineAt(text, 5, end), text, steps: [], schedule: [] };
  const [frames, blocks] = film.words.split(" ");
  film.frames = whole(frames, 1, MOST.frames);
  film.blocks = whole(blocks, 1, MOST.blocks);
  let place = end;
  while (place >= 0 && text.startsWith("line ", place + 1)) {
    const next = text.indexOf("\n", place + 1);
    const words = lineAt(text, place + 1, next).split(" ");
    film.schedule[whole(words[1], 1, 65536)] = words.slice(2).join(" ");
    place = next;
  }
  film.notes = [];
  while (place >= 0 && text.startsWith("note ", place + 1)) {
    const next = text.indexOf("\n", place + 1);
    film.notes.push(lineAt(text, place + 6, next));
    if (film.notes.length > MOST.notes) throw new BadFilm(`The film has more than ${number(MOST.notes)} notes.`);
    place = next;
  }
  while (place >= 0 && text.startsWith("step ", place + 1)) {
    const from = place + 1;
    const stop = text.indexOf("\n", from);
    const words = lineAt(text, from, stop).split(" ");
    const next = text.indexOf("\nstep ", from);
    film.steps.push({ number: whole(words[1], 0, 1 << 24), line: words.slice(2).join(" "), from: stop + 1, to: next < 0 ? text.length : next + 1 });
    if (film.steps.length > MOST.steps) throw new BadFilm(`The film has more than ${number(MOST.steps)} steps: make one with fewer, or with --every.`);
    place = next;
  }
  if (film.steps.length === 0) throw new BadFilm("The film has no step.");
  const long = film.steps.find((step) => step.to - step.from > MOST.step);
  if (long) throw new BadFilm(`Step ${long.number} has more than ${number(MOST.step)} characters.`);
  stateOf(film, 0);
  stateOf(film, film.steps.length - 1);
  film.widest = 7;
  for (const [, page] of text.matchAll(/^frame \d+ .*?([dsx] \d+ \d+)/gm)) film.widest = Math.max(film.widest, page.length);
  // a trace that was judged has no limit, and there stands a `-`
  film.limit = Number(film.words.split(" ")[2]) || 0;
  film.writes = film.steps.flatMap((step, index) => (/^o \d{1,10} [0-9a-f]+$/.test(step.line) ? [{ index, ...writeOf(step.line) }] : []));
  film.earlier = [];
  film.pids = [...new Set([...text.matchAll(/^process (\d+) /gm)].map(([, pid]) => Number(pid)))].sort((a, b) => a - b);
  findTurns(film);
  return film;
}

// Who writes with a line `o P HEX`, and the bytes.
function writeOf(line) {
  const [, pid, hex] = line.split(" ");
  return { pid: Number(pid), hex };
}

// Finds for each step which line of the schedule it is in, or whose turn: the last one that began. Where the film begins later than
// its run, that may be a line before the film, if it is known.
function findTurns(film, before = "") {
  let event = 0;
  let turn = 0;
  const follow = (line) => {
    const [kind, n] = line.split(" ");
    if (kind === "e") {
      event = Number(n);
      const [what, pid] = (film.schedule[event] || "").split(" ");
      turn = what === "d" ? Number(pid) : 0;
    } else if (kind === "t") {
      event = 0;
      turn = Number(n);
    }
  };
  follow(before);
  for (const step of film.steps) {
    follow(step.line);
    Object.assign(step, { event, turn });
  }
}

// The process of a step: the one that its line names, or for whose instruction a page is served; 0 where it is none's.
function processOf(film, index) {
  const step = film.steps[index];
  const words = step.line.split(" ");
  if ("trogcfsxOI".includes(words[0]) && words[0] !== "") return Number(words[1]);
  if (!FAULTS.includes(words[0]) || words[0] === "") return 0;
  if (step.turn > 0 || words[1] === "x") return step.turn;
  const holder = film.text.slice(step.from, step.to).match(new RegExp(`^process (\\d+) in ${Number(words[2])}( |$)`, "m"));
  return holder ? Number(holder[1]) : 0;
}

// The lines of page faults.
const FAULTS = "ZGCR";

// Whether a write to swap began with a step.
function beganWrite(film, index) {
  if (index === 0 || !"HPW".includes(film.steps[index].line[0])) return false;
  const writes = (step) => (film.text.slice(step.from, step.to).match(/^transfer \d+ write$/gm) || []).length;
  return writes(film.steps[index]) > writes(film.steps[index - 1]);
}

const SEGMENTS = { d: "data", s: "stack", x: "text" };

// The page of three words, as `d 1 14`.
function pageOf(words, place) {
  const [segment, owner, v] = words.slice(place, place + 3);
  if (!(segment in SEGMENTS) || v === undefined) throw new BadFilm(`No page: ${words.join(" ")}`);
  return { segment, owner: whole(owner, 1, 0xffffffff), v: whole(v, 0, 0xffffffff), name: `${segment} ${owner} ${v}` };
}

// What a line says, put into a state.
const READERS = {
  entries(state, words) {
    state.entries = whole(words[1], 0, 1 << 24);
    state.over = words[2] === "end";
  },
  hands(state, words) {
    state.front = whole(words[1], 1, MOST.frames);
    state.back = whole(words[2], 1, MOST.frames);
  },
  frame(state, words, line) {
    const kind = words[2];
    const next = state.frames.length + 1;
    const frame = { frame: whole(words[1], next, next), kind, line, page: null, dirty: false, place: 0, transfer: 0, state: "" };
    if (kind === "free") {
      frame.place = whole(words[3], 1, MOST.frames);
      if (words.length > 4) frame.page = pageOf(words, 4);
    } else if (kind === "valid" || kind === "invalid") {
      frame.page = pageOf(words, 3);
      frame.dirty = words[6] === "dirty";
    } else if (kind === "read" || kind === "write") {
      frame.transfer = whole(words[3], 1, MOST.frames);
      frame.page = pageOf(words, 4);
    } else throw new BadFilm(`No frame: ${line}`);
    frame.state = `${kind} ${frame.page === null ? "" : frame.page.name} ${frame.dirty}`;
    state.frames.push(frame);
  },
  transfer(state, words) {
    const errand = words[2];
    state.transfers.push({ number: whole(words[1], 1, MOST.frames), errand, page: errand === "write" ? null : pageOf(words, 3), parts: [] });
  },
  part(state, words) {
    const block = words.length > 5 ? whole(words[5], 0, MOST.blocks) : null;
    if (state.transfers.length === 0) throw new BadFilm(`A part of no transfer: ${words.join(" ")}`);
    state.transfers[state.transfers.length - 1].parts.push({ page: pageOf(words, 1), frame: whole(words[4], 1, MOST.frames), block });
  },
  process(state, words) {
    const process = { pid: whole(words[1], 1, 0xffffffff), kind: words[2] };
    if (process.kind === "ended") process.status = whole(words[3], 0, 0xffffffff);
    else process.sid = whole(words[3], 1, 0xffffffff);
    if (process.kind === "lent") process.child = whole(words[4], 1, 0xffffffff);
    process.asleep = words[4] === "asleep";
    state.processes.push(process);
  },
  registers(state, words, line) {
    state.registers.push(line);
  },
  due(state, words) {
    state.due.push({ page: pageOf(words, 1), from: words[4] === "from" ? pageOf(words, 5) : null });
  },
  swap(state, words) {
    const start = whole(words[1], state.blocks, state.blocks);
    const piece = { start, length: whole(words[2], 1, MOST.blocks - start), owner: words.slice(3).join(" ") };
    if (!/^(free|[dsxu] \d+)/.test(piece.owner)) throw new BadFilm(`No owner of swap: ${words.join(" ")}`);
    state.swap.push(piece);
    state.blocks += piece.length;
  },
};

function stateOf(film, index) {
  const step = film.steps[index];
  const lines = film.text.slice(step.from, step.to);
  const state = { step, lines, front: 0, back: 0, frames: [], transfers: [], processes: [], registers: [], due: [], swap: [], blocks: 0 };
  for (const line of lines.split("\n")) {
    if (line === "") continue;
    const words = lineAt(line, 0, line.length).split(" ");
    if (!Object.hasOwn(READERS, words[0])) throw new BadFilm(`Step ${step.number}: no line of a film: ${line}`);
    READERS[words[0]](state, words, line);
  }
  if (state.frames.length !== film.frames) throw new BadFilm(`Step ${step.number} is cut off: it has ${number(state.frames.length)} of ${number(film.frames)} frames.`);
  if (state.blocks !== film.blocks) throw new BadFilm(`Step ${step.number} is cut off: its lines of the swap area, which come last, have ${number(state.blocks)} of ${number(film.blocks)} blocks.`);
  const lists = [state.transfers, state.processes, state.registers, state.due, ...state.transfers.map((transfer) => transfer.parts)];
  if (lists.some((list) => list.length > MOST.items)) throw new BadFilm(`Step ${step.number} has a list of more than ${number(MOST.items)} items.`);
  return state;
}
