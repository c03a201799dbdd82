// Every failure of power in one line, and whether a restart finds the words of before it or of after it.
import { Memory } from "./memory.js";
import { answer, lineOf, restart } from "./trace.js";

// So many operations of one line are tried at most. No line has the operation NEVER.
const MOST = 400, NEVER = 0xffffffff;

// A memory after the lines, with power on, in which no failure is planned any more.
function after(calls, setup, lines) {
  const memory = new Memory(calls, setup);
  for (const line of lines) {
    answer(memory, lineOf(line));
    if (!memory.on) restart(memory);
  }
  memory.armCut(NEVER, 0n);
  memory.armBad(NEVER, 0n);
  return memory;
}

// The words that a restart finds after a line, in which the power fails so; and whether it failed.
function wordsAfter(memory, line, k, g) {
  memory.armCut(k, g);
  answer(memory, lineOf(line));
  return { failed: !memory.on, words: foundWords(memory) };
}

// The words that a restart finds, as one text. It ends the memory.
function foundWords(memory) {
  if (memory.on) memory.cutNow();
  restart(memory);
  const words = [];
  for (let address = 0; address < 32 * memory.setup.pages; address++) words.push(memory.look(address).word);
  memory.close();
  return words.join(" ");
}

// Of each operation of a line after others: which words a restart finds, if that operation leaves the old (g 0) or the new (1).
export function everyCut(calls, setup, earlier, line) {
  const make = () => after(calls, setup, earlier), found = [];
  if (lineOf(line).name === "power") return { alike: true, found };
  const before = foundWords(make()), done = wordsAfter(make(), line, NEVER, 0n).words;
  for (let k = 1; k <= MOST; k++) {
    for (const g of [0n, 1n]) {
      const { failed, words } = wordsAfter(make(), line, k, g);
      if (!failed) return { alike: before === done, found };
      found.push({ k, g, is: words === before ? "before" : words === done ? "after" : "neither" });
    }
  }
  return { alike: before === done, found };
}
