// The page: what its buttons do, and what is shown after each line.
import { DEAD, DONE, loadModule, Memory, POLICIES } from "./memory.js";
import { everyCut } from "./cuts.js";
import { draw, drawCuts } from "./picture.js";
import { loadOf, race } from "./policies.js";
import { answer, lineOf, linesOf, restart, setupOf, USUAL } from "./trace.js";

const at = (id) => document.getElementById(id);
const asked = new URLSearchParams(location.search);
let calls, memory, shown, running = 0, failedAgain = false;
let setup = { ...USUAL }, lines = [], next = 0, done = [];

function say(reply) {
  at("replies").append(`${reply}\n`);
  at("replies").scrollTop = at("replies").scrollHeight;
}

function trouble(error) {
  at("trouble").hidden = false;
  at("trouble").textContent = error.message ?? String(error);
  document.body.dataset.ended = "trouble";
}

function refresh() {
  const before = shown, now = memory.picture();
  draw(now, before);
  shown = now ?? before;
  at("restart").disabled = memory.on;
  const off = failedAgain ? "power failed again, in the restart" : "power is off; this is what was last seen";
  at("power").textContent = memory.on ? "power is on" : off;
  failedAgain = false;
  at("power").className = memory.on ? "" : "off";
  at("counters").replaceChildren(...Object.entries(memory.counts()).map(([name, count]) => {
    const line = document.createElement("tr");
    line.innerHTML = `<td>${name}</td><td>${count}</td>`;
    return line;
  }));
  [...at("lines").children].forEach((it, i) => it.classList.toggle("next", i === next));
  at("lines").scrollTop = (at("lines").children[next]?.offsetTop ?? 0) - at("lines").offsetTop - 60;
  const ended = next >= lines.length;
  for (const id of ["step", "run", "all"]) at(id).disabled = ended && memory.on;
}

// Asks for power: once, if the page stops when power fails, so that a failure in the restart is seen too.
function returnPower() {
  if (!at("watch").checked) return say(restart(memory));
  const code = memory.revive();
  if (code === DEAD) throw new Error("power did not return");
  if (code === DONE) say("restarted");
  else failedAgain = true;
}

// Does one line. Where power fails the memory is restarted, unless the page is to stop there.
function obey(text) {
  const line = lineOf(text);
  if (!line) return;
  if (!memory.on && !["cut", "bad", "stat"].includes(line.name)) return returnPower();
  done.push(text);
  const reply = answer(memory, line);
  if (reply !== null) say(reply);
  if (!memory.on && !at("watch").checked) say(restart(memory));
}

function step() {
  if (!memory.on) returnPower();
  else if (next < lines.length) obey(lines[next++]);
}

const goesOn = () => next < lines.length || !memory.on;

// Steps until the end, or until power fails and the page is to stop there. Draws now and then.
async function run(each) {
  const mine = ++running;
  do {
    for (let i = 0; i < each && goesOn(); i++) {
      step();
      if (!memory.on && at("watch").checked) break;
    }
    refresh();
    await new Promise((after) => setTimeout(after, each > 1 ? 0 : 300));
  } while (mine === running && goesOn() && memory.on);
}

function setupFields() {
  const texts = Object.keys(USUAL).map((name) => {
    const choice = POLICIES.map((it) => `<option${it === setup.policy ? " selected" : ""}>${it}</option>`).join("");
    return name === "policy"
      ? `<label>policy <select id="set-policy">${choice}</select></label>`
      : `<label>${name} <input type="number" min="0" id="set-${name}" value="${setup[name]}"></label>`;
  });
  at("setup").innerHTML = texts.join(" ");
}

function make() {
  const made = new Memory(calls, setup);
  running++;
  memory?.close();
  memory = made;
  shown = null;
  next = 0;
  done = [];
  at("replies").textContent = "";
  at("cut-cells").replaceChildren();
  at("trouble").hidden = true;
  refresh();
}

function take(text) {
  setup = setupOf(text);
  lines = linesOf(text);
  at("lines").replaceChildren(...lines.map((text) => Object.assign(document.createElement("li"), { textContent: text })));
  setupFields();
  make();
}

function makeBySetup() {
  for (const name of Object.keys(USUAL)) setup[name] = name === "policy" ? at("set-policy").value : Number(at(`set-${name}`).value);
  make();
}

function byHand(form) {
  const values = { A: at("address").value, W: at("word").value, T: at("slot").value, K: at("k").value, G: at("g").value };
  obey(form.replace(/\b[AWTKG]\b/g, (it) => values[it]));
}

// What each failure of power in the next line of the trace leaves.
function showCuts() {
  const line = lines[next] ?? done.at(-1);
  if (line) drawCuts(line, everyCut(calls, setup, next < lines.length ? done : done.slice(0, -1), line));
}

function showWords(page) {
  if (!memory.on) return;
  const words = [];
  for (let i = 0; i < 32; i++) words.push(memory.look(32 * page + i).word);
  at("words").textContent = `page ${page}: ${words.join(" ")}`;
}

const safely = (what) => async (event) => {
  try {
    at("trouble").hidden = true;
    await what(event);
  } catch (error) {
    trouble(error);
  }
  refresh();
};

const fetched = async (path) => {
  const response = await fetch(path);
  if (!response.ok) throw new Error(`${path}: ${response.status}`);
  return response.text();
};

function show(id) {
  for (const name of ["one", "every"]) at(name).hidden = name !== id;
  at("show-one").classList.toggle("chosen", id === "one");
  at("show-all").classList.toggle("chosen", id === "every");
}

function listen() {
  const clicks = { step, restart: returnPower, cuts: showCuts, again: make, make: makeBySetup, run: () => run(1), all: () => run(500) };
  for (const [id, what] of Object.entries(clicks)) at(id).addEventListener("click", safely(what));
  for (const it of document.querySelectorAll("[data-line]")) it.addEventListener("click", safely(() => byHand(it.dataset.line)));
  at("trace").addEventListener("change", safely(async () => take(await fetched(`examples/${at("trace").value}.trace`))));
  at("file").addEventListener("change", safely(async () => take(await at("file").files[0].text())));
  at("shown").addEventListener("click", (event) => event.target.dataset.page && showWords(Number(event.target.dataset.page)));
  at("show-one").addEventListener("click", () => show("one"));
  at("show-all").addEventListener("click", () => show("every"));
  at("race").addEventListener("click", safely(() => {
    const mine = ++running;
    return race(calls, loadOf(...["stores", "hot", "share"].map((id) => Number(at(id).value))), () => mine === running);
  }));
}

// So many steps, by the button.
async function clickThrough(steps) {
  for (let left = steps; left > 0 && goesOn() && !document.body.dataset.ended; left--) {
    at("step").click();
    await new Promise((after) => setTimeout(after, 0));
  }
}

// What an address asks for: ?trace=NAME, and of it &steps=N or &steps=all by the button, and &cuts=1 by the other one; or
// ?race=PATH, a load of one's own.
async function begin() {
  calls = await loadModule("envy.wasm");
  const names = (await fetched("traces")).trim().split("\n");
  at("trace").innerHTML = names.map((it) => `<option>${it}</option>`).join("");
  at("trace").value = asked.get("trace") ?? names[0];
  listen();
  take(await fetched(`examples/${at("trace").value}.trace`));
  if (asked.has("race")) {
    show("every");
    await race(calls, linesOf(await fetched(asked.get("race"))), () => true);
  }
  at("watch").checked = !asked.has("steps");
  await clickThrough(asked.get("steps") === "all" ? Infinity : Number(asked.get("steps") ?? 0));
  if (asked.has("cuts")) at("cuts").click();
  document.body.dataset.ended ??= "done";
}

begin().catch(trouble);
