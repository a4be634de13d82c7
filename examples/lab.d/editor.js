// An editor: its lines have numbers, and one of them may be marked.
import { current } from "./state.js";

// So many lines of a text get numbers: no source and no schedule has more lines, but for the one that is too many.
const MOST_NUMBERED = { source: 4097, c: 30000, image: 1, schedule: 65537 };

// A text of more lines isn't put into the field, whose browser would take minutes to lay it out: the field shows how it begins.
const MOST_SHOWN = 5000;
const BEGINNING = 100;

function editorOf(name) {
  const [text, said, go] = [at(`lab-${name}`), at(`lab-${name}-said`), at(`lab-${name}-go`)];
  const editor = { name, text, said, go, numbers: at(`lab-${name}-editor`).querySelector("ol"), lines: 0, bad: 0, now: 0, whole: null };
  editor.text.addEventListener("scroll", () => scrollEditor(editor));
  editor.go.addEventListener("click", () => goToLine(editor, editor.bad));
  return editor;
}

// The text that an editor has.
export const textOf = (editor) => editor.whole ?? editor.text.value;

const linesOf = (text) => text.split("\n").length;

// Gives an editor a text.
export function fill(editor, text) {
  const lines = linesOf(text);
  editor.whole = lines > MOST_SHOWN ? text : null;
  editor.text.readOnly = editor.whole !== null;
  if (editor.whole === null) editor.text.value = text;
  else editor.text.value = `${text.split("\n", BEGINNING).join("\n")}\n.. ${number(lines)} lines are too many to be shown. They are kept as they are. Delete empties this.`;
  numberLines(editor);
}

// A text that is pasted and is too long to be shown, and the keys that empty an editor that has one; `then` is done after it has changed.
export function watchLength(editor, then) {
  editor.text.addEventListener("paste", (event) => {
    const pasted = event.clipboardData.getData("text").replaceAll("\r\n", "\n");
    const { value, selectionStart, selectionEnd } = editor.text;
    const text = editor.whole === null ? value.slice(0, selectionStart) + pasted + value.slice(selectionEnd) : pasted;
    if (linesOf(text) <= MOST_SHOWN && editor.whole === null) return;
    event.preventDefault();
    fill(editor, text);
    then();
  });
  editor.text.addEventListener("keydown", (event) => {
    if (editor.whole === null || !["Backspace", "Delete"].includes(event.key)) return;
    event.preventDefault();
    fill(editor, "");
    then();
  });
}

// How many lines of an editor get numbers.
const mostNumbered = (editor) => MOST_NUMBERED[editor.name === "source" && current() ? current().kind : editor.name];

// The height of a line of an editor, in points.
const lineHeight = (editor) => parseFloat(getComputedStyle(editor.text).lineHeight);

function scrollEditor(editor) {
  editor.numbers.scrollTop = editor.text.scrollTop;
  const padding = parseFloat(getComputedStyle(editor.text).paddingTop);
  const top = editor.bad > 0 ? padding + (editor.bad - 1) * lineHeight(editor) - editor.text.scrollTop : -200;
  editor.text.style.setProperty("--bad-top", `${top}px`);
}

export function numberLines(editor) {
  const lines = Math.min(editor.text.value.split("\n").length, mostNumbered(editor));
  if (lines !== editor.lines) {
    const numbers = document.createDocumentFragment();
    for (let line = 1; line <= lines; line++) numbers.append(element("li", "", String(line)));
    editor.numbers.replaceChildren(numbers);
    editor.lines = lines;
    mark(editor, "now", editor.now);
    mark(editor, "bad", editor.bad);
  }
  scrollEditor(editor);
}

// Marks a line, or none, which is line 0.
export function mark(editor, kind, line) {
  for (const it of editor.numbers.querySelectorAll(`.${kind}`)) it.classList.remove(kind);
  if (line > 0 && line <= editor.numbers.children.length) editor.numbers.children[line - 1].classList.add(kind);
  editor[kind] = line;
  scrollEditor(editor);
}

// Tells what is wrong with a text, and where; with no words, that nothing is.
export function tellEditor(editor, line, words) {
  mark(editor, "bad", line);
  editor.said.textContent = words;
  editor.go.hidden = line === 0;
  if (words) editor.text.setAttribute("aria-invalid", "true");
  else editor.text.removeAttribute("aria-invalid");
}

// Brings a line into sight, with the cursor on it.
function goToLine(editor, line) {
  const lines = editor.text.value.split("\n");
  const place = lines.slice(0, line - 1).reduce((sum, it) => sum + it.length + 1, 0);
  editor.text.focus();
  editor.text.setSelectionRange(place, place + (lines[line - 1] || "").length);
  bringLine(editor, line);
}

// Scrolls an editor so that a line is in sight.
export function bringLine(editor, line) {
  const [height, top] = [lineHeight(editor), (line - 1) * lineHeight(editor)];
  if (top < editor.text.scrollTop || top + 2 * height > editor.text.scrollTop + editor.text.clientHeight) editor.text.scrollTop = Math.max(0, top - 3 * height);
}

export const source = editorOf("source");
export const schedule = editorOf("schedule");
