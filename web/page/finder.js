"use strict";
// The panel of searches: a worker goes through the states of the plan and the kernel that are shown, so the page stays alive, and may be stopped.

const WORKER_SCRIPTS = ["look", "schedule", "toml", "plan", "twin", "laws", "ownlaw", "tables", "pieces", "moves", "groups", "states", "search"];
const inThousands = number => number.toLocaleString("en");
const inMegabytes = bytes => `${Math.ceil(bytes / 1e6)} MB`;

class Finder {
  // `page` has the session that is shown, the law of the reader's own, and `loadSteps(schedule)`.
  constructor(page) {
    Object.assign(this, { page, worker: null, schedule: null, found: 0 });
    for (const [id, act] of [["search", () => this.start()], ["stop", () => this.stop("stopped")], ["more", () => this.goOn()], ["showFound", () => this.show()]]) {
      byId(id).addEventListener("click", act);
    }
    byId("searchPanel").addEventListener("close", () => this.stop(""));
  }

  // What the panel says before a search. Runs of a plan with loops have no end: there the search is without history, until the reader chooses otherwise.
  open() {
    const { wrong, name, plan } = this.page.session, isOfLock = !mayGoBySections(wrong), { law } = this.page;
    this.fillWanted(law);
    byId("searchOf").textContent = `${name}, in ${wrong ? `the kernel with the mistake ${wrong}` : "the whole kernel"}`;
    Object.assign(byId("bySections"), { disabled: isOfLock, checked: !isOfLock });
    Object.assign(byId("isEndless"), { disabled: isOfLock, checked: !isOfLock && hasLoops(plan) });
    this.empty();
  }

  fillWanted(law) {
    const kept = byId("wanted").value, laws = [...LAWS.keys()].map(one => html`<option value="${one}">BROKEN: ${one}</option>`);
    fill("wanted", html`<option value="broken">any law that is broken</option>${laws}<option value="deadlock">a deadlock: quiet, and some thread has not ended</option>
      ${law ? html`<option value="own">your own law is broken: ${law.text}</option>` : ""}`);
    if (kept && [...byId("wanted").options].some(({ value }) => value === kept)) byId("wanted").value = kept;
  }

  // The panel without a search.
  empty() {
    fill("searched", "");
    fill("found", "");
    byId("progress").value = 0;
    byId("showFound").hidden = byId("more").hidden = true;
    this.found = 0;
  }

  static newWorker() {
    const source = [...WORKER_SCRIPTS.map(name => byId(`script-${name}`).textContent), "serveSearch();"].join("\n");
    const address = URL.createObjectURL(new Blob([source], { type: "text/javascript" })), worker = new Worker(address);
    URL.revokeObjectURL(address);
    return worker;
  }

  start() {
    this.stop("");
    this.empty();
    const { text, wrong } = this.page.session, what = byId("wanted").value, law = what === "own" ? this.page.law.text : null;
    if (law !== null && this.page.law.usesHistory && byId("isEndless").checked) return this.stop("your law names effects, which a search without history does not keep");
    try {
      this.worker = Finder.newWorker();
    } catch (fault) {
      return this.stop(`this browser starts no worker, which a search needs: ${fault.message}`);
    }
    this.worker.onerror = event => this.stop(`the search broke down: ${event.message ?? "no worker starts here"}`);
    this.worker.onmessage = ({ data: { progress, found } }) => (found ? this.done(found, what) : this.tell(progress));
    this.run({ asked: { text, wrong, what, law, bySections: byId("bySections").checked, isEndless: byId("isEndless").checked } });
  }

  // Goes on from what was found to the next.
  goOn() {
    this.run({ asked: null });
  }

  run(message) {
    this.setRunning(true);
    this.worker.postMessage(message);
  }

  setRunning(isRunning) {
    byId("search").disabled = isRunning;
    byId("stop").disabled = !isRunning;
    if (isRunning) byId("more").hidden = true;
  }

  stop(words) {
    if (!this.worker && !words) return;
    this.worker?.terminate();
    this.worker = null;
    this.setRunning(false);
    byId("more").hidden = true;
    fill("searched", words);
  }

  tell({ looked, count, depth, bytes }) {
    byId("progress").value = looked / count;
    fill("searched", `looked at ${inThousands(looked)} of ${inThousands(count)} states that are known, up to ${depth} moves away, in ${inMegabytes(bytes)}`);
  }

  done({ count, depth, isAll, isLimited, isEndless, bySections, steps, why }, what) {
    const unit = bySections ? "sections" : "steps", deed = what === "deadlock" ? "ends in a deadlock" : what === "broken" ? "breaks a law"
      : what === "own" ? "breaks your law" : `breaks “${what}”`;
    this.setRunning(false);
    byId("progress").value = 1;
    fill("searched", "");
    if (steps === null) return this.none({ count, depth, isAll, isLimited, isEndless, unit }, deed);
    this.found++;
    this.schedule = spelledSchedule(steps);
    const reasons = why.map(([law, because]) => html`<div>✘ ${law}: ${because}</div>`), first = this.found > 1 ? `Number ${this.found}: a schedule` : "A shortest schedule";
    fill("found", html`<div class="said">${first} that ${deed}: ${this.schedule}</div>${reasons}
      <div>${steps.length} steps${bySections ? ", shortest by sections" : ""}; ${inThousands(count)} states were looked at.</div>`);
    byId("showFound").hidden = byId("more").hidden = false;
  }

  // What is said where there is none, or no other: that these are all states, or that a limit was met.
  none({ count, depth, isAll, isLimited, isEndless, unit }, deed) {
    const other = this.found ? "other " : "", beyond = this.found ? " but by those that were found" : "", room = isEndless ? " (each CPU's trace has room without end)" : "";
    const all = `All states seen: no ${other}schedule, however long, ${deed}. These are all ${inThousands(count)} states that are reached${beyond}${room}.`;
    const limit = isLimited ? `The search met its limit of ${inMegabytes(MOST_BYTES)}: not all states were seen. ` : "";
    fill("found", html`<div class="said">${isAll ? all : `${limit}None that ${deed}, in ${inThousands(count)} states up to ${depth} ${unit} away.`}</div>`);
    byId("showFound").hidden = byId("more").hidden = true;
  }

  // Shows the run that was found.
  show() {
    byId("searchPanel").close();
    this.page.loadSteps(this.schedule);
  }
}
