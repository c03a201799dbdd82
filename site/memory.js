// The module of proved code, and a memory of its: each method makes one call of c/envy.h.

export const DONE = 0, OFF = 2, RANGE = 3, HELD = 4, FULL = 5, BUSY = 6, CLOSED = 7, BAD = 8, DEAD = 12;
export const POLICIES = ["greedy", "fifo", "locality", "hybrid", "lifetime"];
export const KINDS = ["free", "kept", "shadow", "dead"];
export const JOBS = ["none", "copy", "switch", "erase"];
export const COUNTERS = ["hits", "misses", "flushes", "copies", "moves", "erases", "swaps"];

// What a refused setup breaks, by the answer's number.
const RULES = {
  17: "no policy has this number", 21: "segments: 4 to 4096", 22: "rows: 2 to 65536", 23: "pages: at least 1",
  24: "frames: 2 to 65536", 25: "entries: 1 to 65536", 26: "pages and shadows: at most the rows of all segments less two and those in reserve",
  27: "too many rows", 28: "part: 1 to segments - 1", 29: "limit: at least 1", 30: "mark: 1 to frames",
  58: "reserves: at most segments - 4", 9: "out of memory",
};

// Instantiates the module. It has 64-bit addresses, so a pointer is a BigInt.
export async function loadModule(url) {
  const response = await fetch(url);
  if (!response.ok) throw new Error(`${url}: ${response.status}; site/build makes it`);
  const { instance } = await WebAssembly.instantiate(await response.arrayBuffer(), {});
  return instance.exports;
}

// Handles that no memory uses now, each with room for what its calls read and write.
const places = [];

// A handle is two pointers; answers are written into this much room.
const HANDLE_BYTES = 16, ROOM_BYTES = 64;

function newPlace(calls) {
  const at = calls.envy_page_room(BigInt(HANDLE_BYTES)), room = calls.envy_page_room(BigInt(ROOM_BYTES));
  new Uint8Array(calls.memory.buffer, Number(at), HANDLE_BYTES).fill(0);
  if (calls.envy_new(at) !== DONE) throw new Error("out of memory");
  return { at, room };
}

export class Memory {
  // A memory of zeros over a new board, whose power can return `lives` times.
  constructor(calls, setup, lives = 0xffffffff) {
    this.calls = calls;
    this.setup = setup;
    this.on = true;
    Object.assign(this, places.pop() ?? newPlace(calls));
    this.writeSetup();
    const code = calls.envy_open_sim(this.at, this.room, lives);
    if (code === DONE) return;
    places.push({ at: this.at, room: this.room });
    throw new Error(RULES[code] ?? `refused: ${code}`);
  }

  // What the module's memory holds, anew after each call, which may have let it grow.
  get view() {
    return new DataView(this.calls.memory.buffer);
  }

  writeSetup() {
    const s = this.setup, view = this.view, at = Number(this.room);
    const first = [s.segments, s.rows, s.pages, s.shadows, s.frames, s.entries, POLICIES.indexOf(s.policy), s.part];
    first.forEach((number, i) => view.setUint32(at + 4 * i, number, true));
    view.setBigUint64(at + 32, BigInt(s.limit), true);
    [s.mark, s.reserves, 0].forEach((number, i) => view.setUint32(at + 40 + 4 * i, number, true));
  }

  // Notes whether power failed in a call.
  ended(code) {
    if (code === OFF) this.on = false;
    return code;
  }

  half(i = 0) {
    return this.view.getUint32(Number(this.room) + 4 * i, true);
  }

  word(i = 0) {
    return this.view.getBigUint64(Number(this.room) + 8 * i, true);
  }

  load(address) {
    const code = this.ended(this.calls.envy_load(this.at, address, this.room));
    return { code, word: this.word() };
  }

  look(address) {
    const code = this.ended(this.calls.envy_look(this.at, address, this.room));
    return { code, word: this.word() };
  }

  store(address, word) {
    const code = this.ended(this.calls.envy_store(this.at, address, word, this.room));
    return { code, slot: this.half() };
  }

  begin() {
    const code = this.ended(this.calls.envy_begin(this.at, this.room));
    return { code, slot: this.half() };
  }

  put(slot, address, word) {
    const code = this.ended(this.calls.envy_put(this.at, slot, address, word, this.room));
    return { code, slot: this.half() };
  }

  commit(slot) {
    return { code: this.ended(this.calls.envy_commit(this.at, slot)) };
  }

  abort(slot) {
    return { code: this.ended(this.calls.envy_abort(this.at, slot)) };
  }

  tick() {
    return { code: this.ended(this.calls.envy_tick(this.at, this.room)) };
  }

  armCut(k, g) {
    return this.calls.envy_arm_cut(this.at, k, g);
  }

  armBad(k, g) {
    return this.calls.envy_arm_bad(this.at, k, g);
  }

  cutNow() {
    this.calls.envy_cut_now(this.at);
    this.on = false;
  }

  // Asks for power once. OFF: power failed again, in the restart.
  revive() {
    const code = this.calls.envy_revive(this.at);
    this.on = code === DONE;
    return code;
  }

  counts() {
    this.calls.envy_counters(this.at, this.room);
    return Object.fromEntries(COUNTERS.map((name, i) => [name, this.word(i)]));
  }

  // Ends the memory; its handle serves another one.
  close() {
    this.calls.envy_close(this.at);
    places.push({ at: this.at, room: this.room });
  }

  // What the board holds, if power is on: segments with their rows, positions, pages, frames and the job.
  picture() {
    if (!this.on) return null;
    const { segments, rows, pages, frames } = this.setup;
    const shown = { segments: [], pages: [], frames: new Array(frames).fill(null), job: this.job() };
    for (let segment = 0; segment < segments; segment++) shown.segments.push(this.segment(segment, rows));
    for (let position = 0; position < segments - 1; position++) {
      this.calls.envy_show_position(this.at, position, this.room);
      shown.segments[this.half()].position = position;
    }
    for (let page = 0; page < pages; page++) {
      const found = this.page(page);
      shown.pages.push(found);
      if (found.place === 2) shown.frames[found.at] = page;
    }
    return shown;
  }

  segment(segment, rows) {
    this.calls.envy_show_segment(this.at, segment, this.room);
    const shown = { wear: this.word(), fill: this.half(2), position: null, rows: [] };
    for (let row = segment * rows; row < (segment + 1) * rows; row++) {
      this.calls.envy_show_row(this.at, row, this.room);
      shown.rows.push({ kind: KINDS[this.half(0)], page: this.half(1), slot: this.half(2) });
    }
    return shown;
  }

  page(page) {
    this.calls.envy_show_page(this.at, page, this.room);
    return { place: this.half(0), at: this.half(1), undo: this.half(2), slot: this.half(3), shadow: this.half(4) };
  }

  job() {
    this.calls.envy_show_job(this.at, this.room);
    return { kind: JOBS[this.half(0)], segment: this.half(1) };
  }
}
