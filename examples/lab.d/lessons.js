// The examples and the lessons that can be loaded, and the text of a lesson.
import { loadWords } from "./programs.js";
import { remember } from "./kept.js";
import { lab } from "./state.js";

function drawLesson(lesson) {
  at("lab-lesson-text").hidden = !lesson;
  if (!lesson) return;
  at("lab-lesson-title").textContent = `${lesson.section}: ${lesson.title}`;
  const parts = lesson.text.map(([kind, text, name]) => {
    const part = element(kind);
    if (kind === "img") Object.assign(part, { alt: text, src: name });
    else if (kind === "pre") part.textContent = text;
    else part.append(...text.split("`").map((piece, index) => (index % 2 === 1 ? element("code", "", piece) : piece)));
    return part;
  });
  at("lab-lesson-body").replaceChildren(...parts);
  at("lab-lesson-text").open = true;
}

function group(label, options) {
  const it = element("optgroup");
  it.label = label;
  it.append(...options);
  return it;
}

// Puts what a list has chosen into the page. What was there can come back.
function choose(list, other, found, lesson) {
  if (!found) return;
  remember();
  at(other).value = "";
  drawLesson(lesson ? found : null);
  loadWords(found);
}

export function drawLessons() {
  const { examples, lessons, cExamples } = lab.beginning;
  const inC = cExamples.map((row) => ({ ...row, images: lab.beginning.own[0], programs: [{ name: lab.beginning.own[0], kind: "c", text: row.text }] }));
  const rows = [...examples, ...inC];
  at("lab-example").append(
    group("Assembler", examples.map((row, index) => new Option(row.title, index))),
    group("C", inC.map((row, index) => new Option(row.title, examples.length + index))),
  );
  for (const section of new Set(lessons.map((lesson) => lesson.section)))
    at("lab-lesson").append(group(section, lessons.flatMap((lesson, index) => (lesson.section === section ? [new Option(lesson.title, index)] : []))));
  at("lab-example").addEventListener("change", () => choose("lab-example", "lab-lesson", rows[at("lab-example").value], false));
  at("lab-lesson").addEventListener("change", () => choose("lab-lesson", "lab-example", lessons[at("lab-lesson").value], true));
}
