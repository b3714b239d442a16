"use strict";
// What a page shows of a run: its states, a sentence on each step, lanes and cards. No function here keeps anything or asks the page:
// each is given the run and the step, and answers text. plans/explore.js and web/tower.html are made with it.

const escaped = text => String(text).replace(/[&<>"]/g, sign => ({"&": "&amp;", "<": "&lt;", ">": "&gt;", '"': "&quot;"})[sign]);
const counted = count => [...Array(count).keys()];

// --- a run: the states that its record tells, by step, from none on
class Run {
  constructor(record) {
    this.record = record;
    this.index = new Map(record.names.map((name, number) => [name, number]));
    const locks = {};
    counted(record.cpus).forEach(c => { locks["pending" + c] = {next: 0, serving: 0, line: []}; });
    record.capacities.forEach((_, b) => { locks["buffer" + b] = {next: 0, serving: 0, line: []}; });
    this.steps = [];
    this.states = [{cells: record.boot, locks, changed: new Set(), effects: 0}];
    record.steps.forEach(step => this.grow(step));
  }

  get length() { return this.steps.length; }
  has(name) { return this.index.has(name); }
  cell(name, at) { return this.states[at].cells[this.index.get(name)]; }
  changed(name, at) { return at > 0 && this.states[at].changed.has(name); }
  lock(name, at) { return this.states[at].locks[name]; }
  place(t, at) { return this.cell(`t${t}.place`, at); }

  // What step `at` did: which CPU, in which section, which part of it, and the entry if a call took effect.
  step(at) {
    const [cpu, section, part, entry] = this.steps[at - 1];
    return {cpu, section, word: section.split(" ")[0], part, entry};
  }

  // Adds a step: CPU, section, part, entry, and the cells that it changed, as number and value in turn.
  grow(step) {
    const last = this.states[this.length], [cpu, , part, entry, changes] = step, changed = new Set(), cells = last.cells.slice();
    for (let i = 0; i < changes.length; i += 2) {
      const value = changes[i + 1]; // of a long queue, what it lost in front and got behind
      cells[changes[i]] = value?.got ? [...cells[changes[i]].slice(value.lost), ...value.got] : value;
      changed.add(this.record.names[changes[i]]);
    }
    this.steps.push(step);
    this.states.push({cells, locks: this.locksAfter(last, cells, cpu, part, changed), changed, effects: last.effects + (entry ? 1 : 0)});
  }

  // The words of the locks follow from who took a ticket and who left.
  locksAfter(last, cells, cpu, part, changed) {
    if (part !== "draws" && part !== "ends") return last.locks;
    const name = (part === "draws" ? cells : last.cells)[this.index.get(`c${cpu}.lock`)], old = last.locks[name];
    if (!old) return last.locks;
    changed.add(name);
    const lock = part === "draws" ? {...old, next: old.next + 1, line: [...old.line, {cpu, ticket: old.next}]}
      : {...old, serving: old.serving + 1, line: old.line.filter(one => one.cpu !== cpu)};
    return {...last.locks, [name]: lock};
  }

  cut(count) { this.steps.length = count; this.states.length = count + 1; }
}

// The place of a thread, as `WaitRecv(0)`, in the parts that a page shows.
function placed(run, place) {
  const [name, number] = place.replace(")", "").split("("), [letter, , , meaning] = run.record.places[name];
  return {name, number, letter, meaning: meaning.replace("N", number)};
}

// --- one step in words

const PURPOSES = {AcqQ: "ask for the buffer", Enter: "join the line", TryPut: "try to put", TryTake: "try to take", Wait: "wait", Join: "join those that wait",
  SigRecv: "signal the first receiver", SigSend: "signal the first sender", RelQ: "give the buffer on", Shut: "close the buffer", Pend: "send a thread home",
  Drain: "fetch who is pending", Yield: "let others run"};
const SIDES = {send: "send", sendm: "send", recv: "receive", recvm: "receive", close: "send"};
const sideOf = line => SIDES[line.split(" ")[0]];
const lockName = lock => lock.startsWith("buffer") ? `the spin lock of buffer ${lock.slice(6)}` : `the spin lock of CPU ${lock.slice(7)}'s pending queue`;
const sleeps = place => /^(Lock|Wait)/.test(place);

// What the words of a step speak of: the thread that acted, the buffer of the section, who was woken, and cells behind and before the step.
function scene(run, at) {
  const {cpu, section} = run.step(at), threads = counted(run.record.threads.length);
  const now = name => run.cell(name, at), before = name => run.cell(name, at - 1);
  const woken = threads.find(t => sleeps(run.place(t, at - 1)) && !sleeps(run.place(t, at)));
  const readied = threads.filter(t => run.place(t, at) !== run.place(t, at - 1) && run.place(t, at).startsWith("Ready"));
  const named = t => run.place(t, at).startsWith("Hand") ? `thread ${t}, now in CPU ${cpu}'s hand` : `thread ${t}`;
  return {run, at, now, before, woken, readied, named, t: before(`c${cpu}.current`), b: section.split(" ")[1]};
}

function failedTry({now, t, b}, line, why) {
  const first = now(`b${b}.${line}`)[0];
  return `thread ${t} tries in vain: ` + (first && first[0] !== t ? `thread ${first[0]} comes first` : `buffer ${b} is ${why}`);
}
function signalled({woken, named}) {
  return woken === undefined ? "signal: nobody to wake" : `signal: wakes ${named(woken)}`;
}

// What the edit of a section did, where no call took effect, by the section's word.
const EDITS = {
  AcqQ: ({now, t, b}) => now(`b${b}.owner`) === t ? `thread ${t} owns buffer ${b} now`
    : `buffer ${b} is thread ${now(`b${b}.owner`)}'s, so thread ${t} sleeps until it is handed over`,
  Enter: ({run, at, now, t, b}) => {
    const side = sideOf(run.record.threads[t].program[run.cell(`t${t}.line`, at)]), own = now(`b${b}.${side}`).find(one => one[0] === t);
    return `thread ${t} draws position ${own[1]} and joins the ${side} line of buffer ${b}`;
  },
  TryPut: seen => failedTry(seen, "send", "full"),
  TryTake: seen => failedTry(seen, "receive", "empty"),
  Wait: ({run, at, t, b, woken, named}) => (sleeps(run.place(t, at)) ? `thread ${t} joins those that wait, gives buffer ${b} on and sleeps, all at once`
    : `thread ${t} gives buffer ${b} on, and does not wait yet`) + (woken === undefined ? "" : `; ${named(woken)} owns it`),
  Join: ({t}) => `thread ${t} joins those that wait and sleeps`,
  SigRecv: signalled,
  SigSend: signalled,
  RelQ: ({now, t, b, woken, named}) => now(`b${b}.owner`) === null
    ? `thread ${t} gives buffer ${b} back: it is free` + (woken === undefined ? "" : `, and ${named(woken)} is woken`)
    : `thread ${t} hands buffer ${b} over to ${named(now(`b${b}.owner`))}`,
  Pend: ({run, b}) => `thread ${b.slice(1)} goes home: it is pending at CPU ${run.record.threads[b.slice(1)].home}`,
  Drain: ({readied}) => readied.length ? `thread ${readied.join(", ")} is ready` : "nobody was pending",
  Yield: ({readied, t}) => `thread ${t} lets others run; ready: thread ${readied.join(", ")}`,
};
const EFFECTS = {
  send: (t, b, message) => `thread ${t} sends ${message} to buffer ${b}`,
  recv: (t, b, message) => `thread ${t} receives ${message} from buffer ${b}`,
  close: (t, b) => `thread ${t} closes buffer ${b}`,
  sendc: (t, b) => `thread ${t}'s send finds buffer ${b} closed`,
  recvc: (t, b) => `thread ${t}'s receive finds buffer ${b} closed and empty`,
};

// A step that is no part of a section: what a CPU does alone.
function aloneInWords({run, at, now, before, t}, {cpu, section}) {
  if (section === "switch") return {first: `runs thread ${now(`c${cpu}.current`)}`, small: "the first that is ready"};
  if (section === "exit") return {first: `thread ${t} has ended`, small: ""};
  const program = run.record.threads[t].program;
  return {first: `thread ${t} does “${program[before(`t${t}.line`)]}”`, small: "a step of its own, with no lock"};
}

// A part of a section, at its lock.
function partInWords(seen, {cpu, word, part, entry}) {
  const {run, at, now, before} = seen, name = (part === "ends" ? before : now)(`c${cpu}.lock`), lock = lockName(name), edits = `edits the block and leaves ${lock}, in one step`;
  if (part === "draws") return {first: `takes ticket ${run.lock(name, at - 1).next} at ${lock}`, small: `to ${PURPOSES[word]}`};
  if (part === "misses") return {first: `looks in vain: CPU ${run.lock(name, at).line[0].cpu} comes first`, small: `at ${lock}`};
  if (part === "enters") return {first: `enters ${lock}`, small: `its ticket is served; now to ${PURPOSES[word]}`};
  if (entry) return {first: EFFECTS[entry[2]](entry[1], entry[3], entry[4]), small: `takes effect: ${edits}`, effect: true};
  return {first: EDITS[word](seen), small: edits};
}

const HALTS = {AllEnded: "all its threads have ended", TraceFull: "its trace is full: enlarge trace in the plan"};

// The words of step `at`: who acts, one sentence on what was done, the mechanics in small, and whether a call took effect.
function wordsOf(run, at) {
  if (at === 0) return {who: "", first: "Before the first step", small: "each thread is ready at its home CPU"};
  const step = run.step(at), who = `CPU ${step.cpu}` + (["", "alone"].includes(step.part) ? "" : ` ${step.word}`);
  if (step.part === "") return {who, first: "takes no step", small: HALTS[run.cell(`c${step.cpu}.state`, at)]};
  const seen = scene(run, at);
  return {who, effect: false, ...(step.part === "alone" ? aloneInWords(seen, step) : partInWords(seen, step))};
}

// --- what is shown where there is much of it: those that the steps up to here changed last

const MOST = {t: 8, c: 6, b: 6};
function near(run, at, letter, count) {
  if (count <= MOST[letter]) return counted(count);
  const found = new Set(), wanted = new RegExp(`^${letter}(\\d+)\\.`);
  for (let k = at; k > 0 && found.size < MOST[letter]; k--) {
    for (const name of run.states[k].changed) {
      const one = wanted.exec(name);
      if (one && found.size < MOST[letter]) found.add(Number(one[1]));
    }
  }
  for (let i = 0; found.size < MOST[letter]; i++) found.add(i);
  return [...found].sort((x, y) => x - y);
}
const rest = (letter, count, word) => count > MOST[letter] ? `<p class="none">and ${count - MOST[letter]} ${word} more, which changed longer ago</p>` : "";

// --- the lanes: where each thread stood, and what each CPU did

const LANE = 24, LEFT = 78;
const svgText = (x, y, words, size, more = "") => `<text x="${x}" y="${y}" font-size="${size}" ${more}>${escaped(words)}</text>`;
const svgBox = (x, y, wide, high, kind, note) => `<rect x="${x}" y="${y}" width="${wide}" height="${high}" class="${kind}"><title>${escaped(note)}</title></rect>`;

// Neighbours with one value: from which step, up to which, and the value.
function spans(read, from, to) {
  const found = [];
  for (let k = from; k < to; k++) {
    const value = read(k), last = found[found.length - 1];
    if (last && last.value === value) last.to = k + 1; else found.push({from: k, to: k + 1, value});
  }
  return found;
}

// Which steps fit into the width, and where each stands. A long run is seen through a window, which moves when the step comes to its edge.
function laneWindow(run, at, width, first) {
  const total = Math.max(1, run.length), each = Math.max(15, Math.min(26, (width - LEFT) / total)), fit = Math.max(1, Math.floor((width - LEFT) / each));
  const half = Math.max(0, Math.min(total - fit, at - Math.floor(fit / 2)));
  const from = total <= fit ? 0 : at <= first + 3 || at >= first + fit - 3 ? half : first;
  return {from, to: Math.min(run.length, from + fit), each, x: k => LEFT + each * (k - from)};
}

function threadLane(run, t, y, {from, to, each, x}) {
  const bars = spans(k => run.place(t, k + 1), from, to).map(span => {
    const {name, number, letter, meaning} = placed(run, span.value), wide = each * (span.to - span.from), short = /Wait|Lock|Hand/.test(name) ? letter + number : letter;
    const words = wide >= 8.5 * meaning.length ? svgText(x(span.from) + 4, y + 16, meaning, 13, `class="on${name}"`)
      : wide >= 9 * short.length ? svgText(x(span.from) + 3, y + 16, short, 13, `class="bold on${name}"`) : "";
    return svgBox(x(span.from), y + 1, wide, LANE - 4, name, `${meaning}, steps ${span.from + 1} to ${span.to}`) + words;
  });
  return svgText(0, y + 16, `thread ${t}`, 14, 'class="bold"') + bars.join("");
}

const PARTS = {draws: ["+", "takes a ticket"], misses: ["…", "looks in vain"], enters: ["", "enters"], ends: ["", "edits and leaves"], alone: ["", "a step alone"]};
function cpuLane(run, c, y, {from, to, each, x}) {
  const own = counted(to - from).map(i => from + i + 1).filter(at => run.step(at).cpu === c && run.step(at).part !== "");
  const boxes = own.map(at => {
    const {section, part} = run.step(at), [mark, meaning] = PARTS[part];
    return svgBox(x(at - 1), y + 1, each, LANE - 9, part, `${section}: ${meaning}, step ${at}`)
      + (mark && each >= 12 ? svgText(x(at - 1) + each / 2, y + 13, mark, 13, 'text-anchor="middle"') : "");
  });
  const begins = own.filter((at, i) => i === 0 || ["draws", "alone"].includes(run.step(at).part) || run.step(at).section !== run.step(own[i - 1]).section);
  const names = begins.map((at, i) => {
    const {section, word} = run.step(at), room = Math.min(x(i + 1 < begins.length ? begins[i + 1] - 1 : to + 9) - x(at - 1), 400);
    const label = [section, word].find(words => room >= 6 * words.length + 2);
    return label ? svgText(x(at - 1) + 1, y + LANE + 2, label, 11) : "";
  });
  return svgText(0, y + 14, `CPU ${c}`, 14, 'class="bold"') + boxes.join("") + names.join("");
}

// A mark on its thread's lane for each call that took effect.
function effectMarks(run, threads, {from, to, x}) {
  const several = run.record.capacities.length > 1;
  return counted(to - from).map(i => from + i + 1).map(at => {
    const {entry} = run.step(at), lane = entry ? threads.indexOf(entry[1]) : -1;
    if (lane < 0) return "";
    const [, t, kind, b, message] = entry, y = LANE * lane, words = [kind, several ? `${b}:` : "", message].filter(word => word !== "" && word !== "-").join(" ").replace(/:$/, "");
    return `<path d="M${x(at)} ${y - 1} v${LANE + 1}" class="tick"/><circle cx="${x(at)}" cy="${y + LANE / 2 - 1}" r="5" class="effect"/>`
      + svgText(x(at) + 9, y + 16, words, 13, `class="bold on${placed(run, run.place(t, at)).name}"`);
  }).join("");
}

// Who wakes whom: an arrow from the lane of the thread that acts, or of its CPU, to that of the thread that is woken, at each step that wakes one.
function wakeArrows(run, threads, cpus, {from: first, to, x}) {
  const top = LANE * threads.length + 4;
  return counted(to - first).map(i => first + i + 1).flatMap(at => threads.filter(t => run.changed(`t${t}.place`, at)).map(t => {
    const {cpu} = run.step(at), by = run.cell(`c${cpu}.current`, at - 1), lane = threads.indexOf(by), isWoken = sleeps(run.place(t, at - 1)) && !sleeps(run.place(t, at));
    if (!isWoken || by === t || (lane < 0 && !cpus.includes(cpu))) return "";
    const other = threads.indexOf(t), isUp = lane < 0 || other < lane, from = lane < 0 ? top + (LANE + 8) * cpus.indexOf(cpu) : LANE * lane + (isUp ? 5 : LANE - 6);
    const end = LANE * other + (isUp ? LANE - 8 : 6), head = `M${x(at - 1)} ${end} l-4 ${isUp ? 7 : -7} h8 z`, words = `step ${at}: ${by === null ? `CPU ${cpu}` : `thread ${by}`} wakes thread ${t}`;
    return `<g role="img" aria-label="${words}"><title>${words}</title><path d="M${x(at - 1)} ${from} V${end}" class="wakes"/><path d="${head}" class="head"/></g>`;
  })).join("");
}

// All lanes as one drawing, with the window that it shows. `differs` is a step to be marked, or null.
function lanesOf(run, at, width, first, differs = null) {
  const view = laneWindow(run, at, width, first), threads = near(run, at, "t", run.record.threads.length), cpus = near(run, at, "c", run.record.cpus);
  const top = LANE * threads.length + 4, high = top + (LANE + 8) * cpus.length + 18, parts = [];
  threads.forEach((t, lane) => parts.push(threadLane(run, t, LANE * lane, view)));
  cpus.forEach((c, lane) => parts.push(cpuLane(run, c, top + (LANE + 8) * lane, view)));
  parts.push(effectMarks(run, threads, view), wakeArrows(run, threads, cpus, view));
  if (differs > view.from && differs <= view.to) parts.push(`<path d="M${view.x(differs - 1)} 0 V${high - 14}" class="differs"/>`);
  for (let k = Math.ceil(view.from / 10) * 10; k <= view.to; k += 10) parts.push(svgText(view.x(k), high - 4, k, 11, 'text-anchor="middle" class="faint"'));
  if (at > 0) parts.push(`<rect x="${view.x(at - 1)}" y="0" width="${view.each}" height="${high - 14}" class="cursor"/>`);
  const label = `lanes: where each thread stands and what each CPU does, steps ${view.from + 1} to ${view.to}`;
  return {...view, svg: `<svg width="${width + 16}" height="${high}" font-family="system-ui, DejaVu Sans, sans-serif" role="img" aria-label="${label}">${parts.join("")}</svg>`};
}

// A tick at each step in which a call took effect, over the whole run.
function ticksOf(run) {
  const marks = counted(run.length).filter(i => run.steps[i][3]).map(i => `<rect x="${1000 * (i + 1) / run.length - 1}" y="0" width="2" height="7"/>`);
  return `<svg viewBox="0 0 1000 7" preserveAspectRatio="none" aria-hidden="true">${marks.join("")}</svg>`;
}

// --- the cards

const isNew = (run, at, ...names) => names.some(name => run.changed(name, at)) ? " new" : "";
const none = '<span class="none">–</span>';
// A thread where it stands: filled. Each thread is filled once among CPUs and buffers.
function chip(run, t, place) {
  const words = `thread ${t}: ${run.record.places[place][3].replace(/ N/, "")}`;
  return `<span class="t ${place}" role="img" aria-label="${words}" title="${words}">t${t}</span>`;
}
const chips = (run, threads, place) => threads.map(t => chip(run, t, place)).join("");
// A thread that is only named: it stands elsewhere.
function mention(t, position) {
  const [words, small] = position === undefined ? ["", ""] : [`, position ${position}`, ` <small>${position}</small>`];
  return `<span class="t only" role="img" aria-label="thread ${t}, named${words}">t${t}${small}</span>`;
}
const row = (name, inner, fresh) => `<dt>${name}</dt><dd class="${fresh}">${inner || none}</dd>`;
const SAID_TOO = "confirmed by the proved program";
const proved = run => run.record.checked && !run.record.wrong ? `<span class="ok" role="img" aria-label="${SAID_TOO}" title="${SAID_TOO}">✓</span>` : "";

// The word of a grant lock's ring, a word for each CPU that there may be, behind so many grants.
function grantWord(ticket, serving) {
  const size = LIMITS.CPUS, last = serving - ((serving - ticket) % size + size) % size;
  return last < 0 ? 0 : last + 1;
}
function lockRow(run, at, name) {
  const lock = run.lock(name, at);
  const line = lock.line.map(({cpu, ticket}) => {
    const does = run.cell(`c${cpu}.doing`, at) === "inside" ? "inside" : "waits";
    return `<span class="tag" title="ticket ${ticket}">CPU ${cpu} ${does}</span>`;
  });
  const tickets = [...new Set([lock.serving, ...lock.line.map(one => one.ticket)])];
  const words = run.record.lock === "ticket" ? `, serving ${lock.serving}` : tickets.map(n => `, word ${n % LIMITS.CPUS}: ${grantWord(n, lock.serving)}`).join("");
  return row("spin lock", `${line.join(" ") || '<span class="none">nobody</span>'} <span class="lock">next ${lock.next}${words}</span>`, isNew(run, at, name));
}

// One row of threads of a CPU's card.
function slot(run, at, name, key, place) {
  const value = run.cell(key, at);
  const threads = value === null ? [] : Array.isArray(value) ? value : [value];
  return `<span class="${isNew(run, at, key)}"><i>${name}</i> ${chips(run, threads, place) || none}</span>`;
}
function cpuCard(run, at, c, buttons) {
  const cell = name => run.cell(`c${c}.${name}`, at), section = cell("section"), acts = at > 0 && run.step(at).cpu === c;
  const does = section ? `<b>${escaped(section)}</b>&nbsp;${cell("doing") === "inside" ? "inside" : "waits for its turn"}`
    : cell("state") !== "live" ? `<b>${cell("state")}</b>` : '<span class="none">between sections</span>';
  const slots = slot(run, at, "runs", `c${c}.current`, "Running") + slot(run, at, "ready", `c${c}.ready`, "Ready") + slot(run, at, "hand", `c${c}.hand`, "Hand")
    + slot(run, at, "pending", `c${c}.pending`, "Pending"), ended = cell("ended").length ? slot(run, at, "ended", `c${c}.ended`, "Ended") : "";
  const busy = run.lock("pending" + c, at).line.length || isNew(run, at, "pending" + c);
  return `<div class="card${acts ? " acts" : ""}"><div class="head"><h3>CPU ${c} <small>${proved(run)}</small></h3>${buttons(c)}</div>`
    + `<div class="slots"><span class="${isNew(run, at, `c${c}.section`, `c${c}.doing`, `c${c}.state`)}">${does}</span>${ended}</div><div class="slots">${slots}</div>`
    + (busy ? `<dl>${lockRow(run, at, "pending" + c)}</dl>` : "") + "</div>";
}
// `buttons` answers what stands in the head of a CPU's card, as buttons that step it.
function cpuCards(run, at, buttons = () => "") {
  return near(run, at, "c", run.record.cpus).map(c => cpuCard(run, at, c, buttons)).join("") + rest("c", run.record.cpus, "CPUs");
}

function boxesOf(items, capacity) {
  const boxes = counted(Math.max(capacity, items.length)).map(i => i < items.length
    ? `<span class="box" title="${escaped(items[i])}">${escaped(items[i])}</span>` : '<span class="box empty" role="img" aria-label="room"></span>');
  return boxes.length > 10 ? boxes.slice(0, Math.max(8, Math.min(items.length, 10))).join("") + ` … ${capacity}` : boxes.join("");
}
// One side of a buffer: who stands in its line, and who waits.
function sideRows(run, at, b, side, queue, place) {
  const line = run.cell(`b${b}.${side}`, at), waiters = run.cell(`b${b}.${queue}`, at), words = {receive: "wait to receive", send: "wait to send"}[side];
  const fresh = isNew(run, at, `b${b}.${side}`), also = isNew(run, at, `b${b}.${queue}`);
  return (line.length || fresh || run.record.capacities.length < 2 ? row(`${side} line`, line.map(([t, position]) => mention(t, position)).join(""), fresh) : "")
    + (waiters.length || also ? row(words, chips(run, waiters, place), also) : "");
}
function bufferCard(run, at, b) {
  const cell = name => run.cell(`b${b}.${name}`, at), fresh = name => isNew(run, at, `b${b}.${name}`), lock = "buffer" + b;
  const closed = cell("closed") ? `<span class="tag${fresh("closed")}">closed</span>` : "";
  const owner = row("owner", cell("owner") === null ? '<span class="none">free</span>' : mention(cell("owner")), fresh("owner"));
  const asleep = cell("sleepers").length || fresh("sleepers") ? row("asleep for it", chips(run, cell("sleepers"), "LockSleeper"), fresh("sleepers")) : "";
  const few = run.record.capacities.length < 3 || run.lock(lock, at).line.length || isNew(run, at, lock);
  const holds = `<dt>holds</dt><dd class="boxes${fresh("items")}">${boxesOf(cell("items"), run.record.capacities[b])}</dd>`;
  return `<div class="card"><h3>buffer ${b} <small>${proved(run)}</small> ${closed}</h3><dl>${holds}` + owner + asleep
    + sideRows(run, at, b, "receive", "receivers", "WaitRecv") + sideRows(run, at, b, "send", "senders", "WaitSend")
    + (few ? lockRow(run, at, lock) : "") + "</dl></div>";
}
function bufferCards(run, at) {
  return near(run, at, "b", run.record.capacities.length).map(b => bufferCard(run, at, b)).join("") + rest("b", run.record.capacities.length, "buffers");
}

// How far the call of a thread has come, as its sections in a row.
function callPath(run, at, t) {
  const stage = run.cell(`t${t}.stage`, at), line = run.record.threads[t].program[run.cell(`t${t}.line`, at)] || "exit", side = sideOf(line);
  if (!stage || !side) return "";
  const [attempt, other, own] = side === "send" ? ["TryPut", "SigRecv", "SigSend"] : ["TryTake", "SigSend", "SigRecv"];
  const parts = line.startsWith("close") ? ["AcqQ", "Shut", other, own, "RelQ"] : stage === "Again" ? ["Wait", "AcqQ", attempt, other, own, "RelQ"]
    : ["Wait", "Join"].includes(stage) ? ["AcqQ", "Enter", attempt, stage] : ["AcqQ", "Enter", attempt, other, own, "RelQ"];
  const due = {AcqQ: 0, Enter: 1, Shut: 1, Try: 2, Wait: 3, Join: 3, Again: 1, Other: parts.indexOf(other), Own: parts.indexOf(own), RelQ: parts.length - 1, Returns: parts.length}[stage];
  const boxes = parts.map((name, i) => `<span class="${i < due ? "done" : i === due ? "due" : ""}" title="${PURPOSES[name]}">${name}</span>`);
  return `<div class="path${isNew(run, at, `t${t}.stage`)}">${boxes.join("")}</div>`;
}
function programLines(run, at, t, most) {
  const program = run.record.threads[t].program, line = run.cell(`t${t}.line`, at), ended = run.place(t, at) === "Ended";
  const top = program.length <= most ? 0 : Math.max(0, Math.min(line - 1, program.length - most));
  const lines = program.slice(top, top + most).map((words, i) => `<li class="${i + top === line && !ended ? "at" : ""}">${String(i + top).padStart(2)} ${escaped(words)}</li>`);
  return `<ol class="program">${lines.join("")}${line >= program.length && !ended ? '<li class="at">   (end)</li>' : ""}</ol>`;
}
function registersOf(run, at, t) {
  const values = run.cell(`t${t}.registers`, at), old = run.cell(`t${t}.registers`, Math.max(0, at - 1));
  const shown = values.map((value, r) => value !== "0" || value !== old[r] ? `<span class="${value !== old[r] ? "new" : ""}">r${r}=${value}</span>` : "");
  return `<div class="registers">${shown.join("")}</div>`;
}
function threadCard(run, at, t, many) {
  const {name, meaning} = placed(run, run.place(t, at)), fresh = isNew(run, at, `t${t}.place`);
  const most = name === "Ended" && many > 2 && !fresh ? 0 : many > 2 ? 3 : 8;
  return `<div class="card"><h3><span class="t ${name}">t${t}</span> <span class="${fresh}">${meaning.replace(/ (from|to) buffer \d+$| at its home$/, "")}</span> `
    + `<small>${proved(run)} home ${run.record.threads[t].home}</small></h3>${programLines(run, at, t, most)}${callPath(run, at, t)}${registersOf(run, at, t)}</div>`;
}
function threadCards(run, at) {
  const threads = near(run, at, "t", run.record.threads.length);
  return threads.map(t => threadCard(run, at, t, threads.length)).join("") + rest("t", run.record.threads.length, "threads");
}

// --- the one order of the calls that took effect, and the laws. A button goes to its step.

function orderTable(run, at) {
  const found = counted(run.length).map(i => i + 1).filter(k => run.step(k).entry), from = Math.max(0, Math.min(found.length - 16, run.states[at].effects - 12));
  const rows = found.slice(from, from + 16).map(k => {
    const [, t, kind, b, message, operation, position] = run.step(k).entry, words = escaped(EFFECTS[kind](t, b, message));
    return `<tr class="${k > at ? "later" : k === at ? "new" : ""}"><td><button data-go="${k}" aria-label="go to step ${k}: ${words}">${k}</button></td>`
      + `<td>t${t}</td><td><b>${kind}</b></td><td>${b}</td><td>${escaped(message)}</td><td>${operation}</td><td>${position}</td></tr>`;
  });
  const unseen = ["thread", "kind"].map(word => `<th><span class="unseen">${word}</span></th>`).join("");
  const head = `<th>step</th>${unseen}<th title="buffer">buf</th><th title="message">msg</th><th>op</th><th>pos</th>`;
  return `<table><thead><tr>${head}</tr></thead><tbody>${rows.join("")}</tbody></table>${rows.length ? "" : '<p class="none">none</p>'}`;
}
// Whether no thread can ever proceed: some thread has not ended, and no CPU runs one, or has one ready, in its hand or pending. A CPU that is inside of a lock
// which is none may have one in its copy.
function isDeadlocked(run, at) {
  const cell = (c, name) => run.cell(`c${c}.${name}`, at), isEmpty = c => ["ready", "pending"].every(name => cell(c, name).length === 0) && cell(c, "hand") === null;
  const isIdle = c => cell(c, "current") === null && isEmpty(c) && !(run.record.wrong && cell(c, "doing") === "inside");
  return counted(run.record.cpus).every(isIdle) && run.record.threads.some((_, t) => run.place(t, at) !== "Ended");
}
function quietLine(run, at) {
  const isDead = isDeadlocked(run, at), quiet = run.cell("quiet", at) ? `<b>quiet</b>${isDead ? "" : ": nobody goes on"}` : "not quiet";
  return `<p>${proved(run)} ${quiet}</p>${isDead ? "<p><b>deadlock</b>: no thread can ever proceed</p>" : ""}`;
}
// What each law says, for who points at it.
const LAW_MEANINGS = {
  "one place for each thread": "each thread is in exactly one queue, or runs, or has ended",
  "each thread runs at home": "the threads that run or are ready at a CPU have their home there",
  "one CPU inside a lock": "mutual exclusion: no two CPUs are inside one spin lock",
  "only the owner works on a buffer": "a thread whose call is between AcqQ and RelQ, and that does not sleep for the buffer, owns the buffer",
  "no lost wake-up": "if a buffer is free, the first thread of a line does not sleep while its call could continue",
  "nobody sleeps at a free lock": "if a buffer is free, no thread sleeps until it is handed over",
  "sent = received ++ left": "the values sent are those received and then those still in the buffer, in order",
  "callers in their order": "calls of one side take effect in the order in which they drew positions",
  "each answer fits its buffer": "no send to a full buffer, no receive from an empty one",
  "the order only grows": "a step appends at most one call to the order of effects",
  "quiet only if nobody can go on": "where no CPU has anything to do, each thread has ended or waits at a call that its buffer does not allow",
};
// `more` stands behind the heading.
function lawList(run, at, more = "") {
  const why = new Map(run.cell("broken", at)), lines = run.record.laws.map(law => {
    const title = `title="${LAW_MEANINGS[law]}"`;
    return why.has(law) ? `<li class="broken" ${title}>✘ BROKEN: ${escaped(law)}: <small>${escaped(why.get(law))}</small></li>` : `<li ${title}>✔ ${escaped(law)}</li>`;
  });
  return `<h2>Invariants${more}</h2><ul class="laws">${lines.join("")}</ul>`;
}

// The places with their colours, for the foot of a page.
function legendOf(run) {
  const keys = Object.entries(run.record.places).map(([name, [letter, , , meaning]]) => {
    const words = meaning.replace(" from buffer N", "").replace(" to buffer N", "").replace("buffer N", "a buffer").replace("CPU N", "another CPU");
    return `<span class="key"><span class="t ${name}">${letter}</span>${words}</span>`;
  });
  return keys.join("") + '<span class="key"><span class="t only">t0</span>only named: it stands elsewhere</span>'
    + '<span class="key"><span class="new">&nbsp;new&nbsp;</span>changed in this step</span>';
}
