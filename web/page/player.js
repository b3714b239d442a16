"use strict";
// Forth and back through a run: buttons, keys, slider, clicks into lanes and effects, play.

const PLAY_PAUSE = 900; // milliseconds, at speed 1

// Whether a press that goes by steps, sections or effects stops after a step.
function isStop(run, step, stride) {
  const { part, entry } = run.step(step);
  if (stride === "effect") return Boolean(entry);
  return stride !== "section" || part === "ends" || part === "alone";
}

// The step at which a press ends, in a direction: 1 or -1.
function strideEnd(run, at, way, stride) {
  for (let step = at + way; step > 0 && step <= run.length; step += way) if (isStop(run, step, stride)) return step;
  return way < 0 ? 0 : run.length;
}

class Player {
  // `page` has the run that is shown, where it is (`at`), and `go(step)`.
  constructor(page) {
    Object.assign(this, { page, timer: null });
    const acts = { first: () => page.go(0), back: () => this.move(-1), on: () => this.move(1), last: () => page.go(page.run.length) };
    for (const [id, act] of Object.entries(acts)) byId(id).addEventListener("click", () => { this.stop(); act(); });
    byId("play").addEventListener("click", () => this.play(this.timer === null));
    byId("speed").addEventListener("change", () => { if (this.timer !== null) this.play(true); });
    byId("slide").addEventListener("input", event => { this.stop(); page.go(Number(event.target.value)); });
    byId("lanes").addEventListener("click", event => this.clicked(event));
    byId("order").addEventListener("click", event => {
      const row = event.target.closest("[data-go]");
      if (row) { this.stop(); page.go(Number(row.dataset.go)); }
    });
  }

  move(way, stride = document.querySelector("input[name=stride]:checked").value) {
    this.page.go(strideEnd(this.page.run, this.page.at, way, stride));
  }

  play(isOn) {
    clearInterval(this.timer);
    this.timer = isOn ? setInterval(() => (this.page.at < this.page.run.length ? this.move(1) : this.stop()), PLAY_PAUSE / Number(byId("speed").value)) : null;
    byId("play").textContent = isOn ? "stop" : "play";
  }

  stop() {
    if (this.timer !== null) this.play(false);
  }

  clicked(event) {
    const { from, each } = this.page.lanes, x = event.clientX - byId("lanes").querySelector("svg").getBoundingClientRect().left - LEFT;
    const step = Math.floor(x / each) + from + 1;
    if (event.target.closest("svg") && x > 0 && step <= this.page.run.length) { this.stop(); this.page.go(step); }
  }

  // Acts on a key that is the player's, and says whether it was one.
  key(event) {
    const stride = event.shiftKey ? "section" : undefined;
    const keys = {
      ArrowRight: () => this.move(1, stride), ArrowLeft: () => this.move(-1, stride), Home: () => this.page.go(0), End: () => this.page.go(this.page.run.length),
      PageDown: () => this.move(1, "effect"), PageUp: () => this.move(-1, "effect"),
    };
    if (event.key === " ") this.play(this.timer === null);
    else if (Object.hasOwn(keys, event.key)) { this.stop(); keys[event.key](); } else return false;
    return true;
  }
}
