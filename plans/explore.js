// The page of a run, and the page of all states in which the reader chooses who steps: what its buttons, keys and links do.
// plans/look.js stands in front of it.

const element = id => document.getElementById(id);
const record = JSON.parse(element("run").textContent), graph = record.graph;
const run = new Run(record);
let at = 0, window_ = 0, playing = null, nodes = [0]; // nodes: in a page of all states, the number of the state after each step
const tell = words => { element("told").textContent = words; };

// --- showing

function saidOf({who, first, small, effect}) {
  const tag = who && `<span class="who${effect ? " effect" : ""}">${escaped(who)}</span>`;
  return `${tag}<span>${escaped(first)}<small>${escaped(small)}</small></span>`;
}
const buttonsOf = c => graph ? `<span class="push"><button data-step="${c}" title="key ${c}" aria-label="step CPU ${c}">step</button>`
  + `<button data-run="${c}" title="shift and key ${c}" aria-label="run CPU ${c} until it blocks">run</button></span>` : "";

function showLanes() {
  const view = lanesOf(run, at, Math.max(300, element("lanes").clientWidth - 40), window_);
  window_ = view.from;
  element("lanes").innerHTML = view.svg;
  element("lanes").firstChild.onclick = event => {
    if (event.offsetX > LEFT) go(Math.floor((event.offsetX - LEFT) / view.each) + view.from + 1);
  };
}
function show() {
  const words = wordsOf(run, at);
  document.title = `${record.plan}, step ${at}`;
  element("count").textContent = `step ${at} of ${run.length}`;
  Object.assign(element("slide"), {max: run.length, value: at});
  element("slide").setAttribute("aria-valuetext", `step ${at}: ${words.who} ${words.first}`);
  element("said").innerHTML = saidOf(words);
  showLanes();
  element("cpus").innerHTML = cpuCards(run, at, buttonsOf);
  element("buffers").innerHTML = bufferCards(run, at);
  element("threads").innerHTML = threadCards(run, at);
  element("order").innerHTML = orderTable(run, at) + quietLine(run, at) + lawList(run, at);
  for (const [id, stops] of [["first", at === 0], ["back", at === 0], ["on", at === run.length], ["last", at === run.length], ["undo", run.length === 0]]) element(id).disabled = stops;
  const link = graph ? `#schedule=${spelling()}&step=${at}` : `#step=${at}`;
  if (location.hash !== link) history.replaceState(null, "", link);
}

function warning() {
  if (record.wrong) {
    const differs = graph || !record.checked ? "" : record.differs === null ? " In this run the proved program prints the same."
      : ` The proved program prints something else from step ${record.differs} on.`;
    return `NOT the proved kernel: here ${record.mistake} (${record.wrong}).${differs}`;
  }
  if (record.checked) return "";
  return "Not compared with the proved program, which is not built here: all of this page is told by plans/kernel.py, a model without a proof.";
}
const PROVED = "of the program mctower, for every plan and every schedule, and not by this page: the calls that took effect have one order, which is a run of first-in first-out buffers; "
  + "each thread stands in one place; no wake-up is lost. docs/PROOF.md has it all.";
const COMPARED = "each thread's place, which CPUs are halted, quiet, each call that took effect with its op and pos, what is left in each buffer.";
const TOLD = "sections, lines of programs, registers, owners, the orders in queues and lines, words of locks, and whether a law holds.";
function proofWords() {
  const told = `<b>Told by plans/kernel.py alone</b>, a program without a proof: ${record.checked && !record.wrong ? TOLD : "all of this page."}`;
  const where = graph ? "in each state, as a shortest schedule reaches it" : "after each step";
  const compared = record.checked && !record.wrong ? `✓ <b>Said by the proved program too</b>, and compared ${where}: ${COMPARED} ` : "";
  return `<p><b>Proved</b> ${PROVED} ${compared}${told}</p>`;
}
function footOf() {
  const keys = "Keys: ← → on and back, with shift by sections, Page Up and Page Down by effects, Home, End, space plays."
    + (graph ? " A digit steps that CPU, shift and a digit runs it until it blocks, Backspace takes a step back, r goes on at random, c copies." : "");
  const lane = "A CPU's lane: <b>+</b> takes a ticket, <b>…</b> looks in vain, light grey enters, dark grey edits and leaves. ● a call takes effect.";
  return `<p>${legendOf(run)}</p><p>${lane} ${keys}</p>${proofWords()}`
    + (graph ? "" : `<p>Schedule: <span class="word">${escaped(record.schedule)}</span></p>`) + (record.note ? `<p>${escaped(record.note).replace(/\n/g, "<br>")}</p>` : "");
}
// What does not change with the step.
function showStill() {
  element("name").textContent = record.plan;
  element("warn").textContent = warning();
  element("ticks").innerHTML = ticksOf(run);
  element("foot").innerHTML = footOf();
}
function showTools() {
  element("tools").hidden = false;
  element("choices").innerHTML = counted(record.cpus).map(c => `<button data-step="${c}" title="key ${c}">CPU ${c}</button>`).join(" ");
  const ends = graph.ends.map(([words, schedule]) => `<option value="${escaped(schedule)}">${escaped(words)}</option>`);
  element("ends").innerHTML = `<option value="">go to …</option>${ends.join("")}`;
}

// --- going forth and back

function go(step) {
  at = Math.max(0, Math.min(run.length, Number(step) || 0));
  show();
}
// Whether a press that goes by steps, sections or effects stops after step k.
function stops(k, by) {
  const {part, entry} = run.step(k);
  return by === "effect" ? entry : by === "section" ? part === "ends" || part === "alone" : true;
}
function move(way, by = document.querySelector("input[name=by]:checked").value) {
  let k = at + way;
  while (k > 0 && k <= run.length && !stops(k, by)) k += way;
  go(k);
}
function play(on) {
  clearInterval(playing);
  playing = on ? setInterval(() => at < run.length ? move(1) : play(false), 900) : null;
  element("play").textContent = on ? "stop" : "play";
}

// --- choosing who steps, in a page that has all states of a plan

function spelling() {
  const items = [];
  for (const [c] of run.steps) {
    const last = items[items.length - 1];
    if (last && last.c === c) last.times++; else items.push({c, times: 1});
  }
  return items.map(({c, times}) => times > 1 ? `${c}*${times}` : `${c}`).join(",");
}
// The CPUs of a schedule's steps; one that the plan has not, or no number, ends it.
function stepsOf(schedule) {
  const steps = schedule.split(",").filter(Boolean).flatMap(item => {
    const [c, times] = item.split("*");
    return Array(Math.max(0, Math.min(100000, Number(times ?? 1) || 0))).fill(Number(c));
  });
  const bad = steps.findIndex(c => !(Number.isInteger(c) && c >= 0 && c < record.cpus));
  if (bad >= 0) tell("the schedule names a CPU that the plan has not");
  return bad < 0 ? steps : steps.slice(0, bad);
}
function cut(count) {
  run.cut(Math.max(0, Math.min(count, run.length)));
  nodes.length = run.length + 1;
}
// One step of a CPU from the last state: along an edge, or a look in vain, or none. Answers whether the page has the state behind it.
function takeStep(c) {
  const node = nodes[nodes.length - 1], edges = graph.edges[node], target = edges[2 * c], section = run.cell(`c${c}.section`, run.length);
  if (target === undefined) return false;
  const isMove = target >= 0;
  run.grow(isMove ? graph.records[edges[2 * c + 1]] : section ? [c, section, "misses", null, []] : [c, "", "", null, []]);
  nodes.push(isMove ? target : node);
  return true;
}
function extend(cpus, from = at) {
  cut(from);
  if (!cpus.every(takeStep)) tell(`this page has no states more than ${graph.depth} steps away`);
}
function halted(c) {
  tell("");
  const state = run.cell(`c${c}.state`, at);
  if (state !== "live") tell(`CPU ${c} is halted: ${state}`);
  return state !== "live";
}
function choose(c) {
  if (halted(c)) return;
  extend([c]);
  settle();
}
// Whether step k of a CPU is one after which it had better not go on: its thread sleeps, it looks in vain, or it has nothing to do.
function isBlocked(k, c) {
  const cell = name => run.cell(`c${c}.${name}`, k), {part} = run.step(k), ran = run.cell(`c${c}.current`, k - 1), free = cell("current") === null && cell("hand") === null;
  return part === "" || part === "misses" || (free && ran !== null) || (free && cell("section") === null && !cell("ready").length);
}
function runOn(c) {
  if (halted(c)) return;
  extend([c]);
  for (let left = 500; left > 0 && !isBlocked(run.length, c) && takeStep(c); left--);
  settle();
}
function shuffled(list) {
  return list.map(one => [Math.random(), one]).sort((x, y) => x[0] - y[0]).map(([, one]) => one);
}
// Random steps in which each CPU comes in each of four rounds.
function goFair() {
  tell("");
  const times = () => 1 + Math.floor(Math.random() * [1, 3, 12, 24][Math.floor(Math.random() * 4)]);
  extend(counted(4).flatMap(() => shuffled(counted(record.cpus)).flatMap(c => Array(times()).fill(c))));
  settle();
}
function settle(step = run.length) {
  element("ticks").innerHTML = ticksOf(run);
  go(step);
}
function undo() {
  tell("");
  cut(run.length - 1);
  settle();
}
function load(schedule, step) {
  tell("");
  extend(stepsOf(schedule), 0);
  settle(step);
}
async function copy() {
  const text = `--schedule '${spelling()}'`;
  try {
    await navigator.clipboard.writeText(text);
    tell(`copied: ${text}`);
  } catch { tell(text); }
}

// --- buttons, keys and links

const PRESSES = {first: () => go(0), back: () => move(-1), on: () => move(1), last: () => go(run.length), play: () => play(!playing), undo, fair: goFair, copy};
for (const [id, act] of Object.entries(PRESSES)) element(id).onclick = act;
element("slide").oninput = event => go(event.target.value);
element("ends").onchange = event => { if (event.target.value) load(event.target.value, Infinity); };
document.addEventListener("click", event => {
  const {step, run: whole, go: target} = event.target.closest("button")?.dataset ?? {};
  if (step) choose(Number(step)); else if (whole) runOn(Number(whole)); else if (target) go(target);
});
const KEYS = {ArrowRight: event => move(1, event.shiftKey ? "section" : undefined), ArrowLeft: event => move(-1, event.shiftKey ? "section" : undefined),
  Home: () => go(0), End: () => go(run.length), PageDown: () => move(1, "effect"), PageUp: () => move(-1, "effect"), " ": () => play(!playing)};
const CHOICE_KEYS = {Backspace: undo, r: goFair, c: copy};
function keyAction(event) {
  const digit = /^Digit(\d)$/.exec(event.code);
  if (graph && digit && Number(digit[1]) < record.cpus) return () => (event.shiftKey ? runOn : choose)(Number(digit[1]));
  const pressed = event.key === " " && event.target.closest("button, select, input[type=radio]"); // space presses what has the focus
  return pressed ? null : KEYS[event.key] || (graph && CHOICE_KEYS[event.key]);
}
document.addEventListener("keydown", event => {
  if (event.ctrlKey || event.metaKey || event.altKey || (event.target.closest("select") && event.key !== "Escape")) return;
  const act = keyAction(event);
  if (!act) return;
  event.preventDefault();
  if (event.key !== " ") play(false);
  act(event);
});
function fromLink() {
  const asked = new URLSearchParams(location.hash.slice(1)), schedule = asked.get("schedule") ?? (run.length ? null : record.schedule);
  if (graph && schedule !== null && schedule !== spelling()) load(schedule, asked.get("step") ?? 0); else go(asked.get("step"));
}
window.addEventListener("hashchange", fromLink);
window.addEventListener("resize", show);
if (graph) showTools();
showStill();
fromLink();
