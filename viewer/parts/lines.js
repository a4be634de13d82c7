// ---- What each line of a transcript says by itself. ----

// What stands between the two marks is JSON, which examples/words reads too: the viewer and that script have these words from here.
// In braces stands a word of the line by its number, the first behind the letter being 1: as it is, `n` with its thousands set apart, `n
// NOUN` with a noun in its number, `n NOUN verb` with was or were behind it, `page` the page that begins there, `call`, `error` and
// `signal` its name, `code` a status by 256, `bytes` how many they are, `characters` the characters that they stand for.
const LINES = /* JSON */ {
  "t": "A turn of process {1} begins.",
  "r": "Process {1} ran {2 n instruction}.",
  "o": "Process {1} writes {2 bytes}, `{2 characters}`; the answer to the call comes next.",
  "g": "The stack of process {1} has {2 n page} now.",
  "f": "The swap that process {1} asks for finds no place.",
  "s": "Process {1} sleeps: it waits, and none of its children has ended.",
  "e": "Line {1} of the schedule begins.",
  "exited": "Process {1} exited with code {2 code}.",
  "signalled": "Process {1} was ended by signal {2}, {2 signal}.",
  "refused": "Process {1}'s call {2 call} was refused with error {4}, {4 error}.",
  "call": "Process {1}'s call {2 call} was answered with {4}.",
  "call 2": "Process {1}'s call fork was answered: its child is process {4}, with a copy of the space.",
  "call 4": "Process {1}'s call write was answered: {4 n byte verb} written.",
  "call 59": "Process {1}'s call execve was answered: it runs another image.",
  "call 66": "Process {1}'s call vfork was answered: its child is process {4}, which has the space itself for a time.",
  "call 84": "Process {1}'s call wait was answered: child {4} had ended, with status {5}.",
  "Z": "{1 page} takes a frame, filled with zeros or new with the arguments.",
  "C": "{1 page} is copied from its parent's page, into a frame of its own.",
  "G": "{1 page} is wanted.",
  "R": "{1 page} is taken back from its frame, where it still lay.",
  "H": "The hands made {1 n move}.",
  "E": "{1 page} is made invalid.",
  "W": "{1 page} is written, invalid and dirty.",
  "F": "{1 page} is given up, invalid and clean.",
  "P": "A process is being put out.",
  "D": "The oldest transfer ended.",
  "O": "The registers of process {1} went to its u page: it is out.",
  "I": "The registers of process {1} came back from its u page: it is in.",
  "M": "Counted: {1 n frame} free, {2 n} in use, {3 n} in transfers; {4 n block} of swap held.",
  "calls": {"1": "exit", "2": "fork", "4": "write", "17": "break", "20": "getpid", "59": "execve", "66": "vfork", "84": "wait"},
  "errors": {"2": "ENOENT", "7": "E2BIG", "9": "EBADF", "10": "ECHILD", "11": "EAGAIN", "12": "ENOMEM", "14": "EFAULT"},
  "signals": {
    "4": "an illegal instruction: a reserved opcode or operand",
    "8": "a division by 0",
    "10": "a write to the text",
    "11": "an address outside its space",
    "12": "a system call that there is not"
  }
} /* end */;

const WORDS_OF = {
  n: (word, noun, verb) => (noun ? many(Number(word), noun) + (verb ? (Number(word) === 1 ? " was" : " were") : "") : number(Number(word))),
  call: (word) => LINES.calls[word] || word,
  error: (word) => LINES.errors[word] || "unknown",
  signal: (word) => LINES.signals[word] || "which nothing here explains",
  code: (word) => `${Number(word) / 256}`,
  bytes: (word) => many(word.length / 2, "byte"),
  characters: (word) => charactersOf(word.slice(0, 400)),
};

// What a line says, by its kind and its words; nothing of a kind that there isn't.
function plain(kind, words) {
  const text = LINES[kind] || "";
  return text.replace(/\{(\d) ?(\w*) ?(\w*) ?(\w*)\}/g, (_, at, how, noun, verb) => {
    if (how === "page") return upper(pageWords(pageOf(words, Number(at))));
    const word = words[Number(at)] || "";
    return how ? WORDS_OF[how](word, noun, verb) : word;
  });
}
