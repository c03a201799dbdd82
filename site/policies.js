// Five memories over one load, a policy each.
import { Memory, POLICIES } from "./memory.js";
import { drawSmall } from "./picture.js";
import { answer, lineOf, statOf } from "./trace.js";

const at = (id) => document.getElementById(id);
export const BOARD = {
  segments: 32, rows: 16, pages: 384, shadows: 0, frames: 8, entries: 16, part: 4, limit: 100, mark: 8, reserves: 0,
};

// So many stores over the array, of which the hot pages get their share, with four ticks after each.
export function loadOf(stores, hot, share) {
  const lines = [], hotPages = Math.max(1, Math.floor((BOARD.pages * hot) / 100));
  let drawn = 1;
  const draw = (most) => {
    drawn = (Math.imul(drawn, 1664525) + 1013904223) >>> 0;
    return Math.floor((drawn / 2 ** 32) * most);
  };
  for (let i = 0; i < stores; i++) {
    const page = draw(100) < share ? draw(hotPages) : hotPages + draw(BOARD.pages - hotPages);
    lines.push(`store ${32 * page + draw(32)} ${i}`, "tick", "tick", "tick", "tick");
  }
  return lines;
}

function boxOf(policy) {
  const box = document.createElement("div");
  box.className = "racer";
  box.innerHTML = `<header>${policy}${policy === "hybrid" ? `, part ${BOARD.part}` : ""}</header><canvas></canvas><p>cost <b>0</b></p><p class="more"></p>`;
  return box;
}

function tell({ box, memory }) {
  const counts = memory.counts(), { copies, moves, flushes, erases, swaps } = counts;
  drawSmall(box.querySelector("canvas"), memory.picture());
  box.querySelector("b").textContent = flushes ? String((100n * (copies + moves)) / flushes) : "0";
  box.querySelector(".more").textContent = `${flushes} flushes, ${copies} copies, ${moves} moves, ${erases} erases, ${swaps} swaps`;
}

// Does the lines on each memory, some at a time, and draws between. `still` says whether to go on.
export async function race(calls, lines, still) {
  const parsed = lines.map(lineOf);
  const racers = POLICIES.map((policy) => ({ box: boxOf(policy), policy, memory: new Memory(calls, { ...BOARD, policy }) }));
  at("racers").replaceChildren(...racers.map((it) => it.box));
  for (let done = 0; done < parsed.length && still(); done += 1000) {
    for (const { memory } of racers) parsed.slice(done, done + 1000).forEach((line) => answer(memory, line));
    racers.forEach(tell);
    at("load").textContent = `${Math.min(done + 1000, parsed.length)} of ${parsed.length} lines`;
    await new Promise((after) => setTimeout(after, 0));
  }
  at("stats").textContent = racers.map(({ policy, memory }) => `${policy} ${statOf(memory.counts())}`).join("\n");
  racers.forEach(({ memory }) => memory.close());
}
