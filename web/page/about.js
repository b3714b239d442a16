"use strict";
// What the page says of itself: signs and keys, what is proved, what is only compared, and of which sources the program is.

const COMPARED = html`<p>✓ <b>Confirmed by the proved program</b>, here in this page, after this step: each thread's place, which CPUs are halted, quiet, each call
  that took effect with its op and pos, what is left in each buffer. <b>Told by the page's own model alone</b>, which is not proved: sections, lines of programs,
  registers, owners, orders in queues and lines, words of locks, and whether a law holds.</p>`;

const LANES = html`<p>A CPU's lane: <b>+</b> takes a ticket, <b>…</b> spins, light grey enters, dark grey updates and releases. ● a call takes effect.</p>
  <p>A call is six sections of three steps: <b>AcqQ</b> asks for the buffer, <b>Enter</b> draws a position and joins its line, <b>TryPut</b> or
  <b>TryTake</b> puts or takes, <b>SigRecv</b> and <b>SigSend</b> wake the first who waits, <b>RelQ</b> gives the buffer on. After a try in vain <b>Wait</b>
  sleeps. A close has <b>Shut</b> in place of Enter and the try. <b>Pend</b> sends a woken thread to its home CPU, which fetches it by <b>Drain</b>.
  <b>op</b> counts the buffer's effects, <b>pos</b> those of its kind.</p>`;

const KEYS = html`<p>Keys: ← → step, with shift by critical sections; Page Up and Page Down by effects; Home, End; space plays; a digit steps that CPU,
  with shift until it blocks; Backspace undoes; r appends random steps; c copies the schedule, l the link.</p>`;

const NOT_PROVED = [
  "the way from the proved program to WebAssembly: clang, its linker, a small C library (web/libc.c), and a script that makes addresses 32 bits wide (web/lower.py)",
  "this page's own script: what it draws, the model that tells sections and queues, and what it says beside a refusal",
  "the browser",
];

function commitOf({ commit, changed, kit, bytes, sha256 }) {
  const more = changed ? " with changes that were not committed" : "";
  return html`The program is of commit <code>${commit.slice(0, 12)}</code>${more}, built with ${kit}: ${bytes} bytes of WebAssembly,
    SHA-256 <code>${sha256.slice(0, 16)}…</code>.`;
}

const aboutPage = facts => html`
  <p><b>Proved</b>, in Rattle (Rust with contracts), function by function: the program <code>mctower</code>. By its contract, what <code>run</code> prints is the
  trace text and the state lines of the step table's system after these steps; <code>check</code> says yes only to a text that spells a run of first-in first-out
  buffers; a refusal names the first fault. And for every schedule, the calls that took effect have one order, which is a run of first-in first-out buffers: in
  each buffer <b>sent = received ++ left</b>. From step to step that order only grows, by the call that takes effect, so the calls are linearizable by the steps
  of the schedule.</p>
  <p>Nothing is promised of progress, of fairness, of freedom from deadlock, or of time.</p>
  <p><b>Not proved</b>: ${NOT_PROVED.map((one, i) => html`${i ? "; " : ""}${one}`)}.</p>
  <p><b>Compared instead</b>: before a change of the program is merged, this page's module has to print what the program itself prints, on every stored plan behind
  both kinds of lock, on random plans, and on damaged plans, schedules and texts. And in this page, each time a ✓ stands: the model and the program print the same
  text after this step.</p>
  <p>Of a kernel that makes a mistake nothing is proved: it is the model's alone. So is what a search finds.</p>
  <p>${commitOf(facts.program)}</p>`;

// The keys and the instructions of a plan, in the words of the program's own help.
function planHelp(program) {
  const { output, errors } = program.run(["run", "--help"], ""), help = output + errors;
  return /^The keys of a plan[^]*?(?=\n\nA refusal)/m.exec(help)?.[0] ?? help;
}

const footOf = (facts, run) => html`<p>${drawn(legendOf(run))}</p>${LANES}${KEYS}${COMPARED}<p>${commitOf(facts.program)} This page makes no network requests.</p>`;
