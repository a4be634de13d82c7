// The card of the language: what can be written in a source, and what calls and signals there are.
import { cellsOf } from "./counts.js";
import { lab } from "./state.js";

// A text with its words in backquotes marked.
function marked(name, text) {
  const it = element(name);
  it.append(...text.split("`").map((piece, index) => (index % 2 === 1 ? element("code", "", piece) : piece)));
  return it;
}

function tableOf(title, head, rows) {
  const table = element("table");
  table.append(element("caption", "", title), cellsOf("th", head));
  for (const cells of rows) {
    const row = element("tr");
    row.append(...cells.map((cell) => marked("td", cell)));
    table.append(row);
  }
  return table;
}

// An instruction as it is written: its mnemonic and what its operands are.
const form = ([name, operands]) => `\`${[name, operands.join(", ")].join(" ").trim()}\``;

export function drawCard() {
  const { instructions, parts, operands, calls, errors, signals } = lab.beginning.card;
  const key = element("p", "", "The letters of an operand: it is read (r), written (w) or both (m), its address is taken (a), or it is where a branch goes (b); its size is a byte (b), a word (w) or a longword (l).");
  at("lab-card-body").replaceChildren(
    tableOf("A line of a source", ["part", "text", "example"], parts),
    tableOf("An operand", ["operand", "text", "example"], operands),
    tableOf("Instructions", ["instruction", "does"], instructions.map(({ forms, does }) => [forms.map(form).join("; "), does])),
    key,
    tableOf("System calls, by chmk: the arguments are longwords from r12 + 4 on", ["call", "arguments", "on success", "errors"], calls),
    tableOf("Errors", ["error", "number"], errors),
    tableOf("Signals, which end a process", ["signal", "cause"], signals),
  );
}
