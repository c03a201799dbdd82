// The lines of a trace, and their replies as `envy run` writes them.
import { BAD, BUSY, CLOSED, COUNTERS, DEAD, DONE, FULL, HELD, OFF, RANGE } from "./memory.js";

// How many bits each number of a line has.
const FORMS = {
  load: [32], look: [32], store: [32, 64], begin: [], put: [8, 32, 64], commit: [8], abort: [8], tick: [], power: [],
  cut: [32, 64], bad: [32, 64], stat: [],
};
const TEXTS = { [DONE]: "ok", [RANGE]: "range", [FULL]: "full", [BUSY]: "busy", [CLOSED]: "closed", [BAD]: "fault", [OFF]: "lost" };

export const USUAL = {
  segments: 8, rows: 16, pages: 64, shadows: 16, frames: 8, entries: 4, policy: "greedy", part: 2, limit: 100,
  mark: 8, reserves: 0,
};

// A line as its command and numbers, or null if it asks for nothing.
export function lineOf(text) {
  const [name, ...fields] = text.trim().split(/[ \t]+/);
  if (!name || name.startsWith("#")) return null;
  const form = FORMS[name];
  if (!form) throw new Error(`unknown word ${name}`);
  if (fields.length !== form.length) throw new Error(`${name} takes ${form.length} numbers`);
  const numbers = fields.map((field, i) => {
    if (!/^[0-9]+$/.test(field) || BigInt(field) >= 1n << BigInt(form[i])) throw new Error(`bad number ${field}`);
    return form[i] === 64 ? BigInt(field) : Number(field);
  });
  if ((name === "cut" || name === "bad") && numbers[0] === 0) throw new Error("bad number 0");
  return { name, numbers };
}

// The lines of a trace that ask for something.
export function linesOf(text) {
  return text.split("\n").map((it) => it.trim()).filter(lineOf);
}

// The setup that the first line of a sample names, as `# envy run --pages 7`.
export function setupOf(text) {
  const setup = { ...USUAL };
  const words = (/^# envy run(.*)$/m.exec(text)?.[1] ?? "").trim().split(/ +/);
  for (let i = 0; i + 1 < words.length; i += 2) {
    const name = words[i].slice(2);
    setup[name] = name === "policy" ? words[i + 1] : Number(words[i + 1]);
  }
  if (!words.includes("--mark")) setup.mark = setup.frames;
  return setup;
}

// The counters as `stat` tells them.
export function statOf(counts) {
  const { copies, moves, flushes } = counts;
  const cost = flushes ? (100n * (copies + moves)) / flushes : 0n;
  return `stat ${COUNTERS.map((name) => `${name} ${counts[name]}`).join(" ")} cost ${cost}`;
}

// The reply to a line. After `lost`, and after `power`, which has none, power is off.
export function answer(memory, { name, numbers }) {
  switch (name) {
    case "load":
    case "look": {
      const { code, word } = memory[name](...numbers);
      return code === DONE ? String(word) : TEXTS[code];
    }
    case "begin": {
      const { code, slot } = memory.begin();
      return code === DONE ? `tx ${slot}` : TEXTS[code];
    }
    case "power":
      memory.cutNow();
      return null;
    case "cut":
      memory.armCut(...numbers);
      return "armed";
    case "bad":
      memory.armBad(...numbers);
      return "armed";
    case "stat":
      return statOf(memory.counts());
    default: {
      const { code, slot } = memory[name](...numbers);
      return code === HELD ? `held ${slot}` : TEXTS[code];
    }
  }
}

// Asks for power until the memory is back, and gives the reply.
export function restart(memory) {
  for (;;) {
    const code = memory.revive();
    if (code === DONE) return "restarted";
    if (code === DEAD) throw new Error("power did not return");
  }
}
