// The mnemonic that was meant, of those that the assembler has.

// What other assemblers call an instruction that has another name here.
const ELSEWHERE = {
  and: "bicl3", b: "brb", br: "brb", bra: "brb", call: "calls", div: "divl3", halt: "chmk", int: "chmk", ja: "bgtru", jb: "bcs", jbe: "blequ",
  jae: "bcc", je: "beql", jz: "beql", jne: "bneq", jnz: "bneq", jg: "bgtr", jl: "blss", jle: "bleq", jge: "bgeq", ble: "bleq", bge: "bgeq",
  bgt: "bgtr", blt: "blss", bne: "bneq", beqz: "beql", bnez: "bneq", lea: "moval", load: "movl", store: "movl", li: "movl", ld: "movl", st: "movl",
  loop: "sobgtr", mul: "mull3", neg: "mnegl", not: "mcoml", or: "bisl3", shl: "ashl", shr: "ashl", sal: "ashl", sar: "ashl", lsl: "ashl",
  sub: "subl3", add: "addl3", syscall: "chmk", svc: "chmk", trap: "chmk", test: "bitl", xor: "xorl3", pop: "movl",
};

// How many letters must be put in, left out, changed or exchanged with the next one to make one word of another.
function distance(one, other) {
  const rows = [Array.from({ length: other.length + 1 }, (_, index) => index)];
  for (let i = 1; i <= one.length; i++) {
    const row = [i];
    for (let j = 1; j <= other.length; j++) {
      row[j] = Math.min(rows[i - 1][j] + 1, row[j - 1] + 1, rows[i - 1][j - 1] + (one[i - 1] === other[j - 1] ? 0 : 1));
      if (i > 1 && j > 1 && one[i - 1] === other[j - 2] && one[i - 2] === other[j - 1]) row[j] = Math.min(row[j], rows[i - 2][j - 2] + 1);
    }
    rows.push(row);
  }
  return rows[one.length][other.length];
}

// The mnemonic that is most like a word, or nothing where none is like it. One that goes on as the word begins comes first, and of several
// the one for longwords.
export function nearest(word, mnemonics) {
  if (Object.hasOwn(ELSEWHERE, word)) return ELSEWHERE[word];
  const longword = (name) => (/l[23]?$/.test(name) ? 0 : 1);
  const begun = word.length >= 2 ? mnemonics.filter((name) => name.startsWith(word)) : [];
  if (begun.length > 0) return begun.sort((a, b) => a.length - b.length || longword(a) - longword(b) || (a < b ? -1 : 1))[0];
  const far = mnemonics.map((name) => [distance(word, name), longword(name), name]).sort(([a, b, c], [d, e, f]) => a - d || b - e || (c < f ? -1 : 1));
  return far[0][0] <= Math.max(1, Math.floor(word.length / 3)) ? far[0][2] : "";
}
