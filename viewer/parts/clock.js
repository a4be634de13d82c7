// ---- The frames as the ring that the two hands go round. ----

const CLOCK = { size: 190, outer: 84, inner: 62, hand: 58 };

// How a frame's state is drawn on the ring.
const CLOCK_KINDS = { free: "free", valid: "valid", invalid: "invalid", read: "moving", write: "moving" };

// A place on the ring: after so many of the frames, from the top on and as a clock goes, so far from the middle.
function clockPoint(frame, frames, radius) {
  const angle = (2 * Math.PI * frame) / frames;
  return `${(CLOCK.size / 2 + radius * Math.sin(angle)).toFixed(2)} ${(CLOCK.size / 2 - radius * Math.cos(angle)).toFixed(2)}`;
}

// The piece of the ring of the frames from one up to another, which it hasn't.
function clockPiece(from, to, frames) {
  if (to - from >= frames) return clockPiece(0, frames / 2, frames) + clockPiece(frames / 2, frames, frames);
  const large = to - from > frames / 2 ? 1 : 0;
  const { outer, inner } = CLOCK;
  return `M${clockPoint(from, frames, outer)}A${outer} ${outer} 0 ${large} 1 ${clockPoint(to, frames, outer)}L${clockPoint(to, frames, inner)}A${inner} ${inner} 0 ${large} 0 ${clockPoint(from, frames, inner)}z`;
}

// A hand: a stroke from the middle to its frame, and its letter there.
function clockHand(svg, name, letter, frame, frames) {
  svg.append(shape("path", { class: `clock-${name}`, d: `M${CLOCK.size / 2} ${CLOCK.size / 2}L${clockPoint(frame - 0.5, frames, CLOCK.hand)}` }));
  const [x, y] = clockPoint(frame - 0.5, frames, CLOCK.hand - 14).split(" ");
  svg.append(shape("circle", { class: "clock-letter", cx: x, cy: y, r: 8 }), shape("text", { x, y: Number(y) + 4, "text-anchor": "middle" }, letter));
}

// Frames that stand together in one state are one piece. The names outside are the numbers of every quarter's first frame.
function drawClock(state) {
  const frames = state.frames.length;
  const svg = shape("svg", { viewBox: `0 0 ${CLOCK.size} ${CLOCK.size}`, "aria-hidden": "true" });
  const paths = { free: "", valid: "", invalid: "", moving: "" };
  let from = 0;
  for (let to = 1; to <= frames; to++) {
    const kind = CLOCK_KINDS[state.frames[from].kind];
    if (to < frames && CLOCK_KINDS[state.frames[to].kind] === kind) continue;
    paths[kind] += clockPiece(from, to, frames);
    from = to;
  }
  for (const [kind, path] of Object.entries(paths)) if (path) svg.append(shape("path", { class: `clock-${kind}`, d: path }));
  for (const quarter of [0, 1, 2, 3].filter((it) => frames >= 4 || it === 0)) {
    const [x, y] = clockPoint((quarter * frames) / 4 + 0.5, frames, CLOCK.outer + 7).split(" ");
    svg.append(shape("text", { class: "clock-number", x, y: Number(y) + 3, "text-anchor": "middle" }, String(Math.floor((quarter * frames) / 4) + 1)));
  }
  clockHand(svg, "back", "B", state.back, frames);
  clockHand(svg, "front", "F", state.front, frames);
  const ahead = (state.front - state.back + frames) % frames;
  at("clock").replaceChildren(svg);
  at("clock").setAttribute("aria-label", `front hand at frame ${state.front}, back hand at frame ${state.back}`);
  at("clock-said").textContent = `the front hand ${many(ahead, "frame")} ahead`;
}

// The frame at a place of the ring, or none: in the middle there is none.
function clockFrame(event) {
  const box = at("clock").querySelector("svg").getBoundingClientRect();
  const [x, y] = [event.clientX - box.left - box.width / 2, event.clientY - box.top - box.height / 2];
  if (Math.hypot(x, y) < (CLOCK.inner * box.width) / CLOCK.size - 4) return null;
  const turn = (Math.atan2(x, -y) / (2 * Math.PI) + 1) % 1;
  return Math.min(film.now.frames.length, Math.floor(turn * film.now.frames.length) + 1);
}
