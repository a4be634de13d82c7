// ---- In words. ----

const number = (n) => n.toLocaleString("en-US");
const many = (n, one, more) => `${number(n)} ${n === 1 ? one : more || one + "s"}`;

function pageWords(page) {
  const owner = page.segment === "x" ? "image" : "space";
  return `${SEGMENTS[page.segment]} page ${page.v} of ${owner} ${page.owner}`;
}

const upper = (text) => text.charAt(0).toUpperCase() + text.slice(1);

// Numbers as `3, 5 and 9`, and a row of three or more as `3 to 6`.
function listed(numbers) {
  const runs = [];
  for (const n of numbers) {
    const last = runs[runs.length - 1];
    if (last && last[1] + 1 === n) last[1] = n;
    else runs.push([n, n]);
  }
  const words = runs.flatMap(([a, b]) => (b - a > 1 ? [`${a} to ${b}`] : b > a ? [`${a}`, `${b}`] : [`${a}`]));
  return words.length > 1 ? `${words.slice(0, -1).join(", ")} and ${words[words.length - 1]}` : words.join("");
}

const framesListed = (frames) => `${frames.length === 1 ? "frame" : "frames"} ${listed(frames)}`;

// Pages of one segment as `data pages 7 to 10 of space 1`.
function pagesListed(pages) {
  if (pages.length === 1) return pageWords(pages[0]);
  const first = pages[0];
  const owner = first.segment === "x" ? "image" : "space";
  const same = pages.every((page) => page.segment === first.segment && page.owner === first.owner);
  if (!same) return many(pages.length, "page");
  return `${SEGMENTS[first.segment]} pages ${listed(pages.map((page) => page.v))} of ${owner} ${first.owner}`;
}

const samePage = (a, b) => a !== null && b !== null && a.name === b.name;
const pageIn = (frame) => `${pageWords(frame.page)} in frame ${frame.frame}`;
const frameOf = (state, page) => state.frames.find((frame) => frame.kind !== "free" && samePage(frame.page, page));

function frameWords(frame) {
  const page = frame.page && pageWords(frame.page);
  switch (frame.kind) {
    case "free":
      return `free, number ${frame.place} on the list` + (page ? `; it still holds ${page}` : "; it holds no page");
    case "valid":
      return `${page}, valid` + (frame.dirty ? " and dirty" : "");
    case "invalid":
      return `${page}, invalid` + (frame.dirty ? " and dirty" : "");
    default:
      return `${page}, in transfer ${frame.transfer}, a ${frame.kind}`;
  }
}

function ownerWords(owner) {
  const [kind, n] = owner.split(" ");
  return { d: `data of space ${n}`, s: `stack of space ${n}`, x: `text of image ${n}`, u: `u page of process ${n}`, free: "free" }[kind];
}

// What became of the pages that free frames still held, where other pages took these.
function pushedOut(before, now) {
  const lost = before.frames.filter((frame, index) => frame.kind === "free" && frame.page !== null && !samePage(frame.page, now.frames[index].page));
  const gone = lost.map((frame) => frame.page).filter((page) => !now.frames.some((frame) => samePage(frame.page, page)));
  if (gone.length === 0) return "";
  return ` ${gone.length === 1 ? "The frame" : "The frames"} still held ${pagesListed(gone)}, which no frame has any more.`;
}

// The pieces of swap that were found or given back.
function swapMoved(before, now) {
  const names = (state) => new Map(state.swap.filter((piece) => piece.owner !== "free").map((piece) => [`${piece.start} ${piece.length} ${piece.owner}`, piece]));
  const [old, fresh] = [names(before), names(now)];
  const blocks = (from, other) => [...from].reduce((sum, [name, piece]) => sum + (other.has(name) ? 0 : piece.length), 0);
  const [found, given] = [blocks(fresh, old), blocks(old, fresh)];
  const parts = [];
  if (found > 0) parts.push(`${many(found, "block")} of swap ${found === 1 ? "was" : "were"} found`);
  if (given > 0) parts.push(`${many(given, "block")} ${given === 1 ? "was" : "were"} given back`);
  return parts.length > 0 ? ` ${upper(parts.join(", "))}.` : "";
}

// The frames that an entry made free.
function freed(before, now) {
  const frames = now.frames.filter((frame, index) => frame.kind === "free" && before.frames[index].kind !== "free");
  return frames.length > 0 ? ` ${upper(framesListed(frames.map((frame) => frame.frame)))} ${frames.length === 1 ? "is" : "are"} free now.` : "";
}

// The pages that an entry made dirty.
function dirtied(before, now) {
  const pages = now.frames.filter((frame, index) => frame.dirty && samePage(frame.page, before.frames[index].page) && !before.frames[index].dirty);
  return pages.length > 0 ? ` ${upper(pagesListed(pages.map((frame) => frame.page)))} ${pages.length === 1 ? "is" : "are"} dirty now.` : "";
}

// A transfer that began with an entry.
function began(before, now) {
  if (now.transfers.length <= before.transfers.length) return "";
  return now.transfers
    .slice(before.transfers.length)
    .map((transfer) => {
      const pages = transfer.parts.map((part) => part.page);
      const frames = framesListed(transfer.parts.map((part) => part.frame));
      if (transfer.errand === "write") return ` A write of ${pagesListed(pages)} began, from ${frames}.`;
      return ` A read of ${pagesListed(pages)} began from ${transfer.errand === "swap" ? "swap" : "the image's file"}, into ${frames}.`;
    })
    .join("");
}

function callWords(words, before, now) {
  const [pid, call, carry, r0, r1] = words.slice(1).map(Number);
  if (carry === 1) return plain("refused", words);
  let text = plain(`call ${call}`, words) || plain("call", words);
  if (call === 59) {
    const process = now.processes.find((it) => it.pid === pid);
    if (process) text = `${text.slice(0, -1)}, in space ${process.sid}.`;
  }
  if (now.due.length > 0) text += ` ${upper(many(now.due.length, "page"))} ${now.due.length === 1 ? "is" : "are"} due to be filled.`;
  if (before) text += freed(before, now) + swapMoved(before, now);
  return text;
}

function endedWords(pid, status) {
  return plain(status % 256 === 0 ? "exited" : "signalled", ["x", `${pid}`, `${status}`]);
}

// Why a run is over: each process has ended, or as many instructions ran as may run; a trace ends where its kernel stopped telling.
function overWords(processes, limit) {
  const left = processes.filter(({ kind }) => kind !== "ended").map(({ pid }) => pid);
  if (left.length === 0) return "The run is over: each process has ended.";
  const names = `${left.length === 1 ? "process" : "processes"} ${listed(left)}`;
  const cut = limit > 0 ? `The run was cut by its limit of ${number(limit)} instructions` : "The trace ends here";
  return `${cut}: ${names} ${left.length === 1 ? "hasn't" : "haven't"} ended.`;
}

// The characters that bytes stand for, of pairs of hexadecimal digits. A byte that is no character of ASCII is told by its number, and a
// line feed too unless lines are wanted.
function charactersOf(hex, lines = false) {
  return hex.replace(/../g, (pair) => {
    const byte = parseInt(pair, 16);
    if (byte === 10) return lines ? "\n" : "\\n";
    if (byte === 9 && lines) return "\t";
    return byte >= 32 && byte < 127 ? String.fromCharCode(byte) : `\\x${pair}`;
  });
}

// A child's page that is filled: from which page, in which frame.
function copyWords(page, frame, before) {
  const due = before && before.due.find((it) => samePage(it.page, page));
  const from = due && due.from && frameOf(before, due.from);
  const whose = from ? `from ${pageIn(from)}, its parent's, ` : due && due.from ? `from ${pageWords(due.from)}, its parent's, ` : "from its parent's page ";
  return `${upper(pageWords(page))} is copied ${whose}${frame ? `into frame ${frame.frame}` : "into a frame of its own"}.`;
}

// What a line of the schedule asks for.
function scheduleWords(line) {
  const [kind, a, b] = line.split(" ");
  switch (kind) {
    case "d":
      return `process ${Number(a)} runs up to ${many(Number(b), "instruction")}, as long as it needn't wait for a page`;
    case "i":
      return "the oldest transfer in flight ends";
    case "h":
      return `the hands move up to ${many(Number(a), "time")}, while fewer than a quarter of the frames are free`;
    case "w":
      return "the swapper has a turn";
    case "m":
      return "the owners of frames and blocks are counted";
    default:
      return "";
  }
}

// Why a line of the schedule does nothing, where that can be seen of the state in which it begins, or of what comes next.
function idleWords(now) {
  const steps = film.read.steps;
  const [kind] = (film.read.schedule[now.step.event] || "").split(" ");
  const free = now.frames.filter((frame) => frame.kind === "free").length;
  if (kind === "i" && now.transfers.length === 0) return " None is in flight, so nothing is done.";
  if (kind === "h" && 4 * free >= now.frames.length) return ` ${upper(many(free, "frame"))} of ${number(now.frames.length)} are free, so they don't move.`;
  if (kind === "w") {
    let at = steps.indexOf(now.step) + 1;
    const from = at;
    while (at < steps.length && !"et".includes(steps[at].line[0])) at++;
    if (at < steps.length && !steps.slice(from, at).some((step) => "POI".includes(step.line[0]))) return " It puts nobody out, and brings nobody in.";
  }
  return "";
}

// What so many moves of the hands did: which pages the front hand swept, and of those that the back hand came to, which are
// written, freed or spared, and why.
function handsWords(before, now, moves) {
  const frames = before.frames.length;
  const passed = (hand) => [...new Set(Array.from({ length: Math.min(moves, frames) }, (_, move) => ((hand - 1 + move) % frames) + 1))];
  const was = (frame) => before.frames[frame - 1];
  const is = (frame) => now.frames[frame - 1];
  const same = (frame) => samePage(was(frame).page, is(frame).page);
  const [front, back] = [passed(before.front), passed(before.back)];
  const parts = [];
  const swept = front.filter((frame) => was(frame).kind === "valid" && is(frame).kind !== "valid" && same(frame));
  if (swept.length > 0) parts.push(`Swept: the front hand made ${swept.length === 1 ? "the page" : "the pages"} in ${framesListed(swept)} invalid.`);
  for (const transfer of now.transfers.slice(before.transfers.length)) {
    const mine = transfer.parts.map((part) => part.frame);
    const found = back.find((frame) => mine.includes(frame));
    const others = transfer.parts.filter((part) => part.frame !== found).map((part) => part.page);
    const first = found ? `the back hand found ${pageIn(is(found))} invalid still, and dirty` : "a dirty page was found invalid still";
    const along = others.length > 0 ? `, and ${pagesListed(others)} beside it, invalid and dirty too` : "";
    parts.push(`Written: ${first}${along}; a write began, from ${framesListed(mine)}.`);
  }
  const gone = back.filter((frame) => is(frame).kind === "free" && was(frame).kind !== "free");
  if (gone.length > 0) parts.push(`Freed: ${gone.length === 1 ? "the page" : "the pages"} in ${framesListed(gone)} ${gone.length === 1 ? "was" : "were"} invalid still, and clean, so with no write.`);
  const spared = back.filter((frame) => was(frame).kind === "valid" && is(frame).kind === "valid");
  if (spared.length > 0) parts.push(`Spared by the back hand: ${spared.length === 1 ? "the page" : "the pages"} in ${framesListed(spared)}, which ${spared.length === 1 ? "is" : "are"} valid, so in use or not swept yet.`);
  const locked = [...front.filter((frame) => was(frame).kind === "valid" && is(frame).kind === "valid" && !back.includes(frame)), ...back.filter((frame) => was(frame).kind === "invalid" && is(frame).kind === "invalid")];
  if (locked.length > 0) parts.push(`Locked by an instruction: ${locked.length === 1 ? "the page" : "the pages"} in ${framesListed(locked)}.`);
  if (parts.length === 0) parts.push("They came to no page that they could take.");
  return `\n${parts.join("\n")}`;
}

// What the entry of a step did, in a sentence or a few. The state before is null where the film hasn't it.
function tell(before, now) {
  const line = now.step.line;
  const words = line.split(" ");
  const [a, b] = [Number(words[1]), Number(words[2])];
  switch (words[0]) {
    case "":
      return "The start: each first process has its space and its swap, no page is filled, and all frames are free.";
    case "e": {
      const asked = film.read.schedule[a];
      return asked === undefined ? plain("e", words) : `Line ${a} of the schedule begins, \`${asked}\`: ${scheduleWords(asked)}.${idleWords(now)}`;
    }
    case "t":
      return plain("t", words);
    case "r":
      return plain("r", words) + (before ? dirtied(before, now) : "");
    case "o":
      return plain("o", words);
    case "g":
      return plain("g", words) + (before ? swapMoved(before, now) : "");
    case "c":
      return callWords(words, before, now);
    case "f":
      return plain("f", words);
    case "s":
      return plain("s", words);
    case "x":
      return endedWords(a, b) + (before ? freed(before, now) + swapMoved(before, now) : "");
    case "Z":
    case "C": {
      const page = pageOf(words, 1);
      const frame = frameOf(now, page);
      if (words[0] === "C") return copyWords(page, frame, before) + (before ? pushedOut(before, now) : "");
      const what = before && before.due.length > 0 ? "is new, with the arguments," : "is filled with zeros";
      return `${upper(pageWords(page))} ${what}${frame ? ` in frame ${frame.frame}` : ""}.` + (before ? pushedOut(before, now) : "");
    }
    case "G": {
      const page = pageOf(words, 1);
      return plain("G", words) + (before ? began(before, now) + pushedOut(before, now) : "");
    }
    case "R": {
      const page = pageOf(words, 1);
      const frame = frameOf(now, page);
      const was = before && frame && before.frames[frame.frame - 1].kind === "free";
      return `${upper(pageWords(page))} is taken back from ${frame ? `frame ${frame.frame}` : "its frame"}, where it still lay` + (was ? "; the frame leaves the free list, and nothing is read." : ".");
    }
    case "H": {
      const text = `The hands made ${many(a, "move")}: the front hand is at frame ${now.front} now, the back hand at frame ${now.back}.`;
      return before ? text + handsWords(before, now, a) : text;
    }
    // the parts of a move of the hands, of a trace by another policy
    case "E": {
      const page = pageOf(words, 1);
      const frame = frameOf(now, page);
      return `${upper(pageWords(page))} is made invalid${frame ? `, and keeps frame ${frame.frame}` : ""}.`;
    }
    case "W": {
      const text = plain("W", words);
      return before ? text + began(before, now) : text;
    }
    case "F": {
      const text = plain("F", words);
      return before ? text + freed(before, now) : text;
    }
    case "P": {
      const page = pageOf(words, 1);
      const process = now.processes.find((it) => it.kind === "in" && it.sid === page.owner);
      const text = `${process ? `Process ${process.pid}` : "A process"} is being put out.`;
      return before ? text + began(before, now) + freed(before, now) : text;
    }
    case "D": {
      if (!before || before.transfers.length === 0) return plain("D", words);
      const transfer = before.transfers[0];
      const pages = transfer.parts.map((part) => part.page);
      if (transfer.errand === "write") return `The oldest transfer ended: ${pagesListed(pages)} ${pages.length === 1 ? "was" : "were"} written.` + freed(before, now);
      const others = pages.filter((page) => !samePage(page, transfer.page));
      const text = `The oldest transfer ended: ${pageWords(transfer.page)} is there, and valid.`;
      return others.length === 0 ? text : `${text} ${upper(pagesListed(others))} came along: invalid, in frames on the free list.`;
    }
    case "O":
      return plain("O", words);
    case "I":
      return plain("I", words);
    case "M":
      return plain("M", words);
    default:
      return "";
  }
}
