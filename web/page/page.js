"use strict";
// The page: it shows a session, and hands on what the reader does.

const OWN_PLAN = "your own", FIRST_PLAN = "woken-from-afar";
const COMPARE_FOR = 8, COMPARE_PAUSE = 12, LINK_PAUSE = 150; // milliseconds
const MOST_LINK = 8000; // letters of a plan in a link

// What is said before the first step: what one sees, and what to press.
const START = {
  who: "", first: "Threads on CPUs pass numbers through buffers",
  small: "Press → or next for the next step of the schedule, a digit to step that CPU. Lessons are in the menu at the top.",
};

const readData = id => JSON.parse(byId(id).textContent);
const option = (value, words) => html`<option value="${value}">${words}</option>`;
const isOf = (table, name) => Object.hasOwn(table, name ?? "");

const SVG = "http://www.w3.org/2000/svg";
const numberOf = ({ lesson }) => lesson.split(".")[0];
const isOfLesson = ({ plan, wrong }, session) => plan === session.name && (wrong ?? null) === session.wrong;

// A copy of a drawing in which each shape has its colours as attributes.
function colouredCopy(shown) {
  const copy = shown.cloneNode(true), shapes = [...shown.querySelectorAll("*")];
  [...copy.querySelectorAll("*")].forEach((shape, i) => {
    const { fill: colour, stroke, strokeWidth, strokeDasharray, fontWeight } = getComputedStyle(shapes[i]);
    const seen = { fill: colour, stroke, "stroke-width": strokeWidth, "stroke-dasharray": strokeDasharray, "font-weight": fontWeight };
    Object.entries(seen).forEach(([name, value]) => shape.setAttribute(name, value));
  });
  return copy;
}

// Gives the reader a text as a file.
function save(text, name) {
  const link = document.createElement("a");
  link.href = URL.createObjectURL(new Blob([text], { type: "image/svg+xml" }));
  link.download = name;
  link.click();
  URL.revokeObjectURL(link.href);
}

class Page {
  constructor(program) {
    Object.assign(this, { program, facts: readData("facts"), plans: readData("plans"), lessons: readData("lessons"), session: null, lanes: { from: 0, each: 1 } });
    Object.assign(this, { chosen: null, law: null, watch: null, beside: new Beside() });
    fill("plan", html`${Object.keys(this.plans).map(name => option(name, name))}${option(OWN_PLAN, OWN_PLAN)}`);
    fill("lessonList", html`${option("", "lessons")}${this.lessons.map(({ lesson }, i) => option(i, lesson))}`);
    fill("wrong", html`${option("", "proved")}${Object.keys(this.facts.mistakes).map(name => option(name, `wrong: ${name}`))}`);
    fill("about", aboutPage(this.facts));
    fill("planHelp", planHelp(this.program));
    fill("lawHelp", LAW_HELP);
    this.player = new Player(this);
    this.finder = new Finder(this);
    this.handsOn();
    this.fromLink();
  }

  get run() {
    return this.session.run;
  }

  get at() {
    return this.session.at;
  }

  // ---- loading

  // Shows a plan under a schedule, or says why the proved program refuses them. Returns whether it is shown.
  load({ name, text, wrong = null, schedule }, step = 0, refusedAt = "refused") {
    const refusal = refusalOf(this.program, text, schedule);
    if (refusal) return this.refuse(refusal, refusedAt);
    try {
      this.session = new Session(this.program, this.facts, { name, text, wrong, schedule });
    } catch (fault) {
      return this.refuse({ line: "the proved program takes this, and this page cannot draw it", where: { says: fault.message } }, refusedAt);
    }
    this.player.stop();
    this.chosen = null;
    fill("refused", "");
    fill("planRefused", "");
    if (this.law) this.useLaw(this.law.text, "refused");
    fill("ignored", html`${ignoredKeys(text).map(({ line, says }) => html`<div>line ${line} of the plan: ${says}</div>`)}`);
    fill("foot", footOf(this.facts, this.run));
    this.go(step);
    return true;
  }

  refuse({ line, where }, id) {
    const { text, from, piece, says } = where, place = where.line ? `line ${where.line}: ` : "";
    const parts = from === undefined ? text : [text.slice(0, from), html`<mark class="piece">${piece}</mark>`, text.slice(from + piece.length)];
    fill(id, html`<div class="said">${line}</div>${text === undefined ? "" : html`<div class="faulty">${place}${parts}</div>`}<div>${says}</div>`);
    return false;
  }

  loadStored(name, wrong = null, schedule = scheduleIn(this.plans[name]), step = 0) {
    return this.load({ name, text: this.plans[name], wrong, schedule }, step);
  }

  // Shows the same plan and kernel under another schedule, at its end; what was shown may be had back.
  loadSteps(schedule) {
    const { name, text, wrong, past, at } = this.session, before = { steps: [...this.session.steps], at };
    if (!this.load({ name, text, wrong, schedule }, Infinity)) return;
    this.session.past = [...past, before];
    this.show();
  }

  choosePlan(name) {
    if (isOf(this.plans, name)) this.loadStored(name);
    else this.openPanel("planPanel");
    this.leave("plan");
  }

  chooseLesson(number) {
    this.showLessonOf(this.lessons[number]);
    this.leave("lessonList");
  }

  showLessonOf(lesson) {
    if (!lesson || !this.loadStored(lesson.plan, lesson.wrong ?? null, lesson.schedule)) return;
    this.chosen = lesson;
    this.show();
  }

  // The link of what is shown; fromLink is its way back.
  link() {
    const { name, text, wrong, steps, at } = this.session, isStored = this.plans[name] === text;
    const ownText = isStored || text.length > MOST_LINK ? "" : text;
    const parts = { plan: isStored ? name : "", wrong: wrong ?? "", schedule: spelledSchedule(steps), step: at, text: ownText, law: this.law?.text ?? "",
      beside: this.isBeside() ? 1 : "", lesson: this.chosen ? numberOf(this.chosen) : "" };
    const kept = Object.entries(parts).filter(([key, value]) => value !== "" || key === "schedule");
    return `#${kept.map(([key, value]) => `${key}=${encodeURIComponent(value).replaceAll("%2C", ",")}`).join("&")}`;
  }

  // Puts the link of what is shown into the address, a little later: a browser takes only so many changes of it at a time.
  keepLink() {
    clearTimeout(this.linking);
    this.linking = setTimeout(() => history.replaceState(null, "", this.link()), LINK_PAUSE);
  }

  fromLink() {
    const asked = new URLSearchParams((location.hash || location.search).slice(1).replaceAll("+", "%2B")), own = asked.get("text");
    const named = { plan: own === null ? asked.get("plan") : null, mistake: asked.get("wrong") ?? asked.get("rule") };
    const stored = isOf(this.plans, named.plan) ? named.plan : FIRST_PLAN, wrong = isOf(this.facts.mistakes, named.mistake) ? named.mistake : null;
    const lesson = this.lessons.find(one => numberOf(one) === asked.get("lesson")), isBare = lesson && named.plan === null && own === null;
    const text = own ?? this.plans[stored], schedule = asked.get("schedule") ?? scheduleIn(text), step = Number(asked.get("step")) || 0;
    this.beside.isOn = asked.get("beside") === "1";
    if (isBare) return this.showLessonOf(lesson);
    const isTaken = this.load({ name: own === null ? stored : OWN_PLAN, text, wrong, schedule }, step);
    if (!isTaken && !this.session) this.showBeneath(() => this.loadStored(FIRST_PLAN));
    if (isTaken && lesson) this.chosen = isOfLesson(lesson, this.session) ? lesson : null;
    if (asked.get("law") !== null) this.useLaw(asked.get("law"), "refused");
    const strange = [["plan", named.plan, this.plans], ["mistake", named.mistake, this.facts.mistakes],
      ["lesson", lesson ? null : asked.get("lesson"), {}]].filter(([, name, known]) => name && !isOf(known, name));
    const lines = strange.map(([what, name]) => html`<div>The link names the ${what} <b>${name}</b>, which this page has not.</div>`);
    if (isTaken && step > this.run.length) lines.push(html`<div>The link names step ${step} of a run of ${this.run.length} steps.</div>`);
    if (lines.length && isTaken) fill("refused", html`${lines}`);
    this.show();
  }

  // Shows something else, and leaves standing above it what was refused.
  showBeneath(show) {
    const refused = byId("refused").innerHTML;
    show();
    byId("refused").innerHTML = refused;
  }

  // ---- showing

  go(step) {
    this.session.go(step);
    this.show();
  }

  show() {
    const { session, run, at } = this;
    run.record.checked = session.evidence.at(at); // by which look.js puts a tick
    this.showSentence();
    this.showLanes();
    fill("cpus", drawn(cpuCards(run, at, c => marked(this.buttonsOf(c)))));
    fill("buffers", drawn(bufferCards(run, at)));
    fill("threads", drawn(threadCards(run, at)));
    const lawButton = html` <button data-panel="lawPanel">${this.law ? "change yours" : "add your own"}</button>`;
    fill("order", html`${drawn(orderTable(run, at) + quietLine(run, at) + lawList(run, at, marked(lawButton)))}${this.ownLawLine()}`);
    this.showControls();
    this.showLesson();
    this.showEvidence();
    this.compareOn();
  }

  showSentence() {
    const { who, first, small, effect } = this.at === 0 ? START : wordsOf(this.run, this.at);
    const tag = who ? html`<span class="who ${effect ? "effect" : ""}">${who}</span>` : "";
    fill("said", html`${tag}<span>${first}<small>${small}</small></span>`);
    byId("slide").setAttribute("aria-valuetext", `step ${this.at}: ${who} ${first}`);
  }

  // The lanes; with a kernel that makes a mistake perhaps those of the proved kernel above them, by the same schedule.
  showLanes() {
    const { run, at, session } = this, width = Math.max(300, byId("lanes").clientWidth - 40);
    fill("ticks", drawn(ticksOf(run)));
    if (!this.isBeside()) {
      this.lanes = lanesOf(run, at, width, this.lanes.from);
      fill("lanes", drawn(this.lanes.svg));
      return;
    }
    const right = this.beside.follow(session), differs = firstOtherStep(right, run), above = lanesOf(right, Math.min(at, right.length), width, this.lanes.from, differs);
    this.lanes = lanesOf(run, at, width, this.lanes.from, differs);
    fill("lanes", html`<p class="caption"><b>The proved kernel</b> ${this.besideWords(right, differs)}</p>${drawn(above.svg)}
      <p class="caption"><b>The kernel with the mistake ${session.wrong}</b>, by the same schedule</p>${drawn(this.lanes.svg)}`);
  }

  isBeside() {
    return this.beside.isOn && this.session.wrong !== null;
  }

  // What the two runs do in the first step that differs.
  besideWords(right, differs) {
    if (differs === null) return html`: so far both runs are the same.`;
    const [mine, theirs] = [right, this.run].map(run => wordsOf(run, differs));
    const words = mine.first === theirs.first ? `${mine.who}: ${mine.first}; the state behind it differs` : `${mine.who}: ${mine.first}, and below: ${theirs.first}`;
    return html`<button data-go-to="${differs}">differs first in step ${differs}</button> ${words}`;
  }

  // The law of the reader's own in the state that is shown, and where it is broken first.
  ownLawLine() {
    if (!this.law) return "";
    const broken = this.watch.follow(this.session.steps), first = broken.indexOf(true);
    const line = broken[this.at] ? html`<li class="broken">✘ BROKEN: your law: <small>${this.law.text}</small></li>` : html`<li>✔ your law: <small>${this.law.text}</small></li>`;
    const where = first < 0 ? "your law is kept in each state of this run" : html`<button data-go-to="${first}">broken first in step ${first}</button>`;
    return html`<ul class="laws own">${line}</ul><p>${where}</p>`;
  }

  buttonsOf(c) {
    return html`<span class="push"><button data-choose="${c}" aria-label="step CPU ${c}" title="key ${c}">step</button><button data-run-on="${c}"
      aria-label="run CPU ${c} until it blocks" title="shift and key ${c}">run</button></span>`;
  }

  showControls() {
    const { session, run, at } = this, isFirst = at === 0, isLast = at === run.length;
    byId("count").textContent = `step ${at} of ${run.length}`;
    Object.assign(byId("slide"), { max: run.length, value: at });
    for (const [id, isOff] of [["first", isFirst], ["back", isFirst], ["on", isLast], ["last", isLast], ["undo", session.past.length === 0]]) byId(id).disabled = isOff;
    const choice = c => html`<button data-choose="${c}" aria-label="step CPU ${c}" title="key ${c}: what stands behind is dropped">${c}</button>`;
    fill("choices", html`${counted(session.plan.cpus).map(choice)}`);
    byId("plan").value = this.plans[session.name] === session.text ? session.name : OWN_PLAN;
    byId("wrong").value = session.wrong ?? "";
    byId("lessonList").value = this.lesson() ? this.lessons.indexOf(this.lesson()) : "";
    if (document.activeElement !== byId("schedule")) byId("schedule").value = spelledSchedule(session.steps);
    document.title = `${session.name}, step ${at}: the verified thread tower`;
    this.keepLink();
  }

  // The lesson whose plan and kernel are shown, or undefined. One of the proved kernel is shown where it was chosen.
  lesson() {
    return this.chosen ?? this.lessons.find(one => one.wrong && isOfLesson(one, this.session));
  }

  // What a lesson asks. Of a kernel with a mistake it asks for the step at which a law is broken first, and grades the answer.
  showLesson() {
    const lesson = this.lesson(), besideWords = this.beside.isOn ? "one run" : "side by side", buttons = html`<label>step <input id="guess" inputmode="numeric" size="3"
      autocomplete="off" aria-label="your guess: the step"></label> <button id="grade">grade</button> <span id="graded" role="status"></span>
      <button id="broken">show</button> <button id="empty">start empty</button> <button id="besideButton" title="the proved kernel's run above this one">${besideWords}</button>`;
    const question = lesson?.breaks ? html`Which step breaks “${lesson.breaks}” first? ${buttons}` : "";
    fill("lesson", lesson ? html`<b>Lesson ${lesson.lesson}</b> ${lesson.look} ${question}` : "");
  }

  showEvidence() {
    const { evidence, record, wrong, breakdown } = this.session, differs = evidence.firstDifference(), all = record.printed.length;
    const same = wrong ? "not the proved kernel" : differs === null ? "✓ the proved program prints the same" : "the proved program differs";
    fill("evidence", html`<p>${same}</p><p>compared after ${evidence.counted} of ${all} steps</p>`);
    const other = differs === null ? "" : ` The proved program prints something else${evidence.counted < all ? "" : ` from step ${differs} on`}.`;
    const said = differs === null && evidence.counted === all ? " In this run the proved program prints the same." : other;
    fill("warn", wrong ? `NOT the proved kernel: here ${this.facts.mistakes[wrong]} (${wrong}).${said} ${breakdown ?? ""}`
      : differs === null ? "" : `The page's model and the proved program differ after step ${differs}: believe what is printed, and tell who made this page.`);
  }

  // Compares the beginnings that are left, a little at a time, while nothing else is to be done.
  compareOn() {
    clearTimeout(this.comparing);
    this.comparing = setTimeout(() => {
      const { evidence } = this.session, until = performance.now() + COMPARE_FOR;
      let isMore = true;
      while (isMore && performance.now() < until) isMore = evidence.compareNext();
      this.showEvidence();
      if (isMore) this.compareOn();
    }, COMPARE_PAUSE);
  }

  // ---- panels

  openPanel(id) {
    this.player.stop();
    if (id === "planPanel") byId("planText").value = this.session.text;
    if (id === "printedPanel") this.showPrinted();
    if (id === "judgePanel") this.takeTrace();
    if (id === "searchPanel") this.finder.open();
    if (id === "lawPanel") byId("lawText").value = this.law?.text ?? "";
    byId(id).showModal();
  }

  // What the proved program prints; in a kernel with a mistake, what that prints too.
  showPrinted() {
    const { wrong, name } = this.session, { schedule, proved, shown } = this.session.printedHere(), words = schedule ? ` run --schedule '${schedule}'` : " run";
    const both = ({ output, errors }) => html`<p>On standard output, the trace text:</p><pre>${output}</pre>
      <p>On standard error, the state lines:</p><pre>${errors}</pre>`;
    const own = wrong ? html`<h3>The kernel that is shown, which is not proved (${wrong})</h3>${both(shown)}
      <h3>The proved program, by the same schedule</h3>` : "";
    fill("printed", html`${own}<pre>mctower${words} &lt; ${name}</pre>${both(proved)}`);
  }

  // The text of the kernel that is shown.
  takeTrace() {
    const { proved, shown } = this.session.printedHere();
    byId("traceText").value = this.session.wrong ? shown.output : proved.output;
    fill("verdict", "");
  }

  judge() {
    const text = byId("traceText").value, said = this.program.run(["check"], text), verdict = (said.output || said.errors).trimEnd();
    byId("verdict").className = verdict === "yes" ? "yes" : "";
    if (verdict === "yes") fill("verdict", html`<div class="said">yes</div>in each buffer, what was put in is what was taken out, in that order, and then what is left`);
    else this.refuse({ line: verdict, where: whereInTrace(text, verdict) }, "verdict");
  }

  // Shows the plan that was typed in: by the schedule in its first lines, or by one in rounds.
  runPlan() {
    const text = byId("planText").value, stored = Object.keys(this.plans).find(name => this.plans[name] === text), { wrong } = this.session;
    const isTaken = this.load({ name: stored ?? OWN_PLAN, text, wrong, schedule: scheduleIn(text) || roundsOf(this.program, text) }, 0, "planRefused");
    if (isTaken) byId("planPanel").close();
  }

  // Takes a law of the reader's own, or says what is wrong with it; an empty one is none. Returns whether it is taken.
  useLaw(text, refusedAt = "lawRefused") {
    Object.assign(this, { law: null, watch: null });
    fill("lawRefused", "");
    if (text.trim() === "") return true;
    try {
      this.law = ownLaw(text, this.session.plan);
      this.watch = new LawWatch(this.law, this.session.plan, this.session.wrong);
      return true;
    } catch (fault) {
      if (!(fault instanceof LawFault)) throw fault;
      const piece = /^\S*/.exec(text.slice(fault.at))[0];
      return this.refuse({ line: "this is no law", where: { text, from: fault.at, piece, says: fault.message } }, refusedAt);
    }
  }

  takeLaw() {
    if (!this.useLaw(byId("lawText").value)) return;
    byId("lawPanel").close();
    this.show();
  }

  // ---- what the reader does

  change(act) {
    this.player.stop();
    fill("refused", "");
    act(this.session);
    this.show();
  }

  chooseKernel(wrong) {
    this.change(session => session.changeKernel(wrong));
    if (this.chosen && !isOfLesson(this.chosen, this.session)) this.chosen = null;
    if (this.law) this.useLaw(this.law.text, "refused");
    this.show();
    this.leave("wrong");
  }

  typeSchedule() {
    const schedule = byId("schedule").value.trim();
    if (schedule !== spelledSchedule(this.session.steps)) this.loadSteps(schedule);
  }

  async copy(text, said) {
    try {
      await navigator.clipboard.writeText(text);
      byId("count").textContent = `${said} copied`;
    } catch {
      byId("count").textContent = `${said}: copy it by hand`; // the browser gives no clipboard; the link stands in the address
      if (text === byId("schedule").value) byId("schedule").select();
    }
  }

  copySchedule() {
    return this.copy(spelledSchedule(this.session.steps), "schedule");
  }

  copyLink() {
    return this.copy(new URL(this.link(), location.href).href, "link");
  }

  // Says whether the step that was guessed is the one after which the lesson's law is first broken, and if not, on which side of the guess that is.
  grade() {
    const right = this.session.firstBroken(this.lesson().breaks), words = byId("guess").value.trim(), guess = Number(words), isStep = /^\d+$/.test(words);
    byId("graded").textContent = right < 0 ? "this schedule does not break it" : !isStep ? "a step is a number" : guess === right ? "✔ right" : guess < right ? "later" : "earlier";
  }

  // Saves the lanes as a picture. Each shape takes the colours that it has here with it, since a file has no style of this page.
  savePicture() {
    const shown = [...byId("lanes").querySelectorAll("svg")], high = shown.map(one => Number(one.getAttribute("height")));
    const whole = document.createElementNS(SVG, "svg"), wide = Math.max(...shown.map(one => Number(one.getAttribute("width"))));
    Object.entries({ width: wide, height: high.reduce((sum, one) => sum + one, 0) }).forEach(([name, value]) => whole.setAttribute(name, value));
    whole.insertAdjacentHTML("afterbegin", `<rect width="100%" height="100%" fill="${getComputedStyle(document.body).backgroundColor}"/>`);
    shown.forEach((one, i) => {
      const copy = colouredCopy(one);
      copy.setAttribute("y", high.slice(0, i).reduce((sum, part) => sum + part, 0));
      whole.append(copy);
    });
    save(new XMLSerializer().serializeToString(whole), `${this.session.name.replaceAll(" ", "-")}-${this.at}.svg`);
  }

  goTo(step) {
    this.player.stop();
    this.go(step);
  }

  // Shows two runs, one above the other, or one.
  setBeside(isOn) {
    this.beside.isOn = isOn;
    this.show();
  }

  // To where the lesson's law is first broken; without a lesson, where any is.
  toBroken() {
    const step = this.session.firstBroken(this.lesson()?.breaks);
    if (step >= 0) this.go(step);
  }

  handsOn() {
    const on = (id, name, act) => byId(id).addEventListener(name, act);
    on("plan", "change", event => this.choosePlan(event.target.value));
    on("lessonList", "change", event => this.chooseLesson(event.target.value));
    on("wrong", "change", event => this.chooseKernel(event.target.value || null));
    on("takeLaw", "click", () => this.takeLaw());
    on("schedule", "change", () => this.typeSchedule());
    on("undo", "click", () => this.change(session => session.undo()));
    on("fair", "click", () => this.change(session => session.random()));
    on("runPlan", "click", () => this.runPlan());
    on("copyLink", "click", () => this.copyLink());
    on("savePicture", "click", () => this.savePicture());
    on("judge", "click", () => this.judge());
    on("takeTrace", "click", () => this.takeTrace());
    document.addEventListener("pointerdown", () => { this.isByMouse = true; }, true);
    document.addEventListener("keydown", () => { this.isByMouse = false; }, true);
    document.addEventListener("click", event => this.clicked(event));
    document.addEventListener("keydown", event => this.pressed(event));
    window.addEventListener("hashchange", () => this.fromLink());
    window.addEventListener("resize", () => this.show());
  }

  // What was used by the mouse keeps no focus, so that keys are the page's again.
  leave(id) {
    if (this.isByMouse) byId(id).blur();
  }

  clicked({ target }) {
    const button = target.closest("button");
    if (this.isByMouse && target.closest("button, input[type=radio], input[type=range]")) document.activeElement?.blur();
    if (!button) return;
    const { choose, runOn, panel, close, goTo } = button.dataset;
    if (choose !== undefined) this.change(session => session.choose(Number(choose)));
    else if (runOn !== undefined) this.change(session => session.runOn(Number(runOn)));
    else if (panel !== undefined) this.openPanel(panel);
    else if (close !== undefined) button.closest("dialog").close();
    else if (goTo !== undefined) this.goTo(Number(goTo));
    else if (button.id === "broken") this.toBroken();
    else if (button.id === "grade") this.grade();
    else if (button.id === "besideButton") this.setBeside(!this.beside.isOn);
    else if (button.id === "empty") this.change(session => session.change([]));
  }

  pressed(event) {
    const isTyped = event.target.closest("input, textarea, select, dialog"), isPressed = event.key === " " && event.target.closest("button");
    if (event.ctrlKey || event.metaKey || event.altKey || isTyped || isPressed) return;
    const digit = /^Digit(\d)$/.exec(event.code)?.[1], acts = { Backspace: session => session.undo(), r: session => session.random() };
    if (digit !== undefined && Number(digit) < this.session.plan.cpus) this.change(session => (event.shiftKey ? session.runOn(Number(digit)) : session.choose(Number(digit))));
    else if (Object.hasOwn(acts, event.key)) this.change(acts[event.key]);
    else if (event.key === "c") this.copySchedule();
    else if (event.key === "l") this.copyLink();
    else if (!this.player.key(event)) return;
    event.preventDefault();
  }
}

// What a browser lacks that this page needs, or nothing.
const lacking = ["WebAssembly", "DecompressionStream"].find(name => typeof globalThis[name] === "undefined");
const NEEDS = "It needs a browser of 2023 or later, with WebAssembly and DecompressionStream, and the whole file.";
if (lacking) {
  fill("warn", `This browser has no ${lacking}, so the proved program cannot run here. ${NEEDS}`);
  fill("said", "");
} else {
  Program.unpacked(byId("packed").textContent).then(program => { window.page = new Page(program); }).catch(fault => {
    fill("warn", `The program in this page is broken or this browser cannot run it: ${fault}. ${NEEDS}`);
    fill("said", "");
  });
}
