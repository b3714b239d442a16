#!/usr/bin/env node
import { spawnSync } from 'node:child_process';
import { existsSync, mkdtempSync, readFileSync, readdirSync, rmSync } from 'node:fs';
import { tmpdir } from 'node:os';
import { dirname, join } from 'node:path';
import { fileURLToPath } from 'node:url';
import { chooser, damaged } from './damage.mjs';
import { refusals } from './refusals.mjs';
import { elementOf, limitsOf, sources, taken } from './taken.mjs';

const HELP = `Holds the page web/tower.html against this tree: the program in it against the native program, the model in it against both and plans/kernel.py.

    web/test.mjs [--many N]     N times as many random and damaged runs

It takes the program out of the page. It fails if the page answers otherwise than crates/mctower/out/mctower (MCTOWER names another), and not if it
is merely of an older commit. It needs node 20 or later, python3, and the built program. The last line counts; the status is 1 on any difference.`;

const ROOT = dirname(dirname(fileURLToPath(import.meta.url))), NATIVE = process.env.MCTOWER ?? join(ROOT, 'crates/mctower/out/mctower');
const RANDOM_SMALL = 240, RANDOM_LARGE = 60, SMALL_STEPS = 1000, LARGE_STEPS = 3000, DAMAGED = 400, MODEL_BEGINNINGS = 60;
const MOST_TOLD = 20, MARKED_STATES = 3000; // differences; states of a search in which the marks are looked up
// The ways to search: by steps, by whole sections, and by whole sections without history.
const WAYS = { steps: { bySections: false, isEndless: false }, sections: { bySections: true, isEndless: false }, endless: { bySections: true, isEndless: true } };
const FOLDERS = ['plans', 'tests/rows', 'tests/long'];

let passed = 0, failed = 0;
function is(name, holds) {
  if (holds) passed++;
  else if (++failed <= MOST_TOLD) console.log(`page: ${name}`);
}

const read = path => readFileSync(join(ROOT, path), 'utf8');

// What the native program answers: its status, standard output and standard error.
function native(words, input) {
  const ran = spawnSync(NATIVE, words, { input, encoding: 'utf8', maxBuffer: 1 << 28 });
  if (ran.error && ran.error.code !== 'EPIPE') throw ran.error; // a refused schedule leaves its input unread
  return { status: ran.status, output: ran.stdout, errors: ran.stderr };
}

const isSame = (x, y) => x.status === y.status && x.output === y.output && x.errors === y.errors;
const withLock = (plan, lock) => (lock ? `lock = "${lock}"\n${plan}` : plan);

// The lines that plans/explain.py names beside a refusal.
function linesExplained(plan, schedule) {
  const told = spawnSync('python3', [join(ROOT, 'plans/explain.py'), '-', schedule], { input: plan, encoding: 'utf8' });
  return [...told.stdout.matchAll(/:(\d+):|on line (\d+)/g)].map(found => Number(found[1] ?? found[2]));
}

// A page that is held against the tree.
class Held {
  constructor({ program, evaluate, facts, lessons }) {
    Object.assign(this, { program, evaluate, facts, lessons });
    this.scheduleIn = evaluate('scheduleIn');
    this.judged = []; // texts that the judges of the page and of plans/ are held by
    this.stored = FOLDERS.flatMap(folder => readdirSync(join(ROOT, folder)).filter(name => name.endsWith('.toml')).map(name => `${folder}/${name}`));
  }

  // Whether the page and the native program answer the same.
  compare(name, words, input) {
    is(name, isSame(this.program.run(words, input), native(words, input)));
  }

  runWords(schedule) {
    return schedule === '' ? ['run'] : ['run', `--schedule=${schedule}`];
  }

  // A plan that is looked at, with its schedule.
  session(text, schedule, wrong = null) {
    const wanted = { name: 'a plan', text, wrong, schedule };
    return this.evaluate('(program, facts, wanted) => new Session(program, facts, wanted)')(this.program, this.facts, wanted);
  }

  // Whether the model prints what the program prints at the end of a schedule.
  isModelled(text, schedule) {
    const { evidence, run } = this.session(text, schedule);
    return evidence.at(run.length);
  }

  // Every stored plan behind both locks prints what is expected, and the judge takes it.
  storedRuns() {
    for (const path of this.stored) {
      const plan = read(path), expected = read(path.replace(/([^/]*)\.toml$/, 'expected/$1.txt'));
      for (const lock of ['', 'ticket']) {
        const got = this.program.runPlan(withLock(plan, lock), this.scheduleIn(plan));
        is(`${path} ${lock}`, got.status === 0 && got.output + got.errors === expected);
        is(`the judge on ${path} ${lock}`, this.program.run(['check'], got.output).output === 'yes\n');
      }
    }
  }

  // Random plans behind both locks, by turns.
  randomRuns(folder, many) {
    for (const [first, count, steps, ...size] of [[1, RANDOM_SMALL * many, SMALL_STEPS], [100001, RANDOM_LARGE * many, LARGE_STEPS, 'large']]) {
      const made = spawnSync('python3', [join(ROOT, 'tests/random_plan.py'), folder, first, count, steps, ...size].map(String), { stdio: 'inherit' });
      if (made.status !== 0) throw new Error('no random plans');
      for (let seed = first; seed < first + count; seed++) this.randomRun(readFileSync(`${folder}/${seed}.toml`, 'utf8'), seed);
    }
  }

  randomRun(plan, seed) {
    const text = withLock(plan, seed % 2 ? '' : 'ticket'), schedule = this.scheduleIn(plan);
    this.compare(`random plan ${seed}`, this.runWords(schedule), text);
    if (seed % 5 === 0) this.compare(`the judge on random plan ${seed}`, ['check'], this.program.runPlan(text, schedule).output);
  }

  // Damaged plans, schedules and texts get the same answers, and what stands beside a refusal is found without a fault.
  damagedRuns(many) {
    const choose = chooser(7), plans = this.stored.filter(path => !path.startsWith('tests/long')).map(read), beside = this.evaluate('refusalOf');
    for (let number = 0; number < DAMAGED * many; number++) {
      const plan = plans[choose(plans.length)], schedule = this.scheduleIn(plan), text = this.program.runPlan(plan, schedule).output;
      const badPlan = damaged(choose, plan), badSchedule = damaged(choose, schedule).replace(/\u0000/g, ''), badText = damaged(choose, text);
      this.compare(`damaged plan ${number}`, this.runWords(schedule), badPlan);
      if (badSchedule !== '') this.compare(`damaged schedule ${number}`, this.runWords(badSchedule), plan);
      this.compare(`damaged text ${number}`, ['check'], badText);
      this.judges(`damaged text ${number}`, badText);
      for (const [one, other] of [[badPlan, schedule], [plan, badSchedule]]) this.explains(`damage ${number}`, beside, one, other);
    }
  }

  explains(name, beside, plan, schedule) {
    const refusal = beside(this.program, plan, schedule), { line, text = '', from = 0, piece = '' } = refusal?.where ?? {};
    const stands = line === undefined ? text === '' || text === schedule : plan.split('\n')[line - 1] === text;
    is(`what stands beside the refusal of ${name}`, refusal === null || (stands && text.slice(from, from + piece.length) === piece));
    if (refusal === null && this.evaluate('readSchedule')(schedule).total <= SMALL_STEPS) is(`the model of ${name}`, this.isModelled(plan, schedule));
  }

  // The page's own judge says no in the same line for the same reason, and says what is expected there.
  judges(name, text) {
    const verdict = this.program.run(['check'], text).output.trimEnd(), fault = this.evaluate('faultOf')(text);
    const mine = fault === null ? 'yes' : `no ${fault.line} ${fault.reason}`;
    is(`the judge of the page on ${name}: ${mine}, and the program's ${verdict}`, verdict.replace(/\(\d+\)$/, '') === mine);
    this.judged.push(text);
  }

  // Of the same texts plans/judging.py says the same is expected. What it says of a line that is misspelled it may say in other words.
  expectedBeside() {
    const code = 'import json, sys; sys.path.append("plans"); import judging; '
      + 'print(json.dumps([fault and [fault.line, fault.reason, fault.why] for fault in (judging.fault_in(text.encode()) for text in json.load(sys.stdin))]))';
    const told = spawnSync('python3', ['-c', code], { cwd: ROOT, input: JSON.stringify(this.judged), encoding: 'utf8', maxBuffer: 1 << 28 });
    if (told.status !== 0) throw new Error(`plans/judging.py: ${told.stderr}`);
    JSON.parse(told.stdout).forEach((fault, i) => {
      const mine = this.evaluate('faultOf')(this.judged[i]);
      if (fault && fault[1] !== 'Spelling(30)') is(`what is expected: ${mine?.why}, and in plans/judging.py ${fault[2]}`, fault[2].startsWith(mine?.why));
    });
  }

  // Refusals of each kind have the right place beside them, and it is that of plans/explain.py.
  places() {
    const beside = this.evaluate('refusalOf'), inTrace = this.evaluate('whereInTrace');
    for (const { plan, schedule = '0', error, line, piece, says } of refusals.plans) {
      const got = beside(this.program, plan, schedule), { from, text, ...where } = got?.where ?? {};
      const isRight = got?.line === `error: ${error}` && where.line === line && where.piece === piece && (where.says ?? '').includes(says);
      is(`the place of ${error}: ${JSON.stringify(got)}`, isRight && (from === undefined || text.slice(from, from + piece.length) === piece));
      is(`the line of ${error}, which plans/explain.py does not name`, line === undefined || linesExplained(plan, schedule).includes(line));
    }
    for (const { text, notes } of refusals.ignored) {
      const got = this.evaluate('ignoredKeys')(text);
      is(`what is ignored: ${JSON.stringify(got)}`, JSON.stringify(got.map(({ line, says }) => [line, says])) === JSON.stringify(notes));
      is(`plans/explain.py on what is ignored`, String(linesExplained(text, '0')) === String(notes.map(([line]) => line)));
      is(`the model of a plan with ignored keys`, this.isModelled(text, '0*13'));
    }
    for (const { text, verdict, shown, says } of refusals.texts) {
      const got = this.program.run(['check'], text).output.trimEnd(), where = inTrace(text, got);
      is(`the place of ${verdict}: ${got} ${JSON.stringify(where)}`, got === verdict && where.text === shown && where.says.includes(says));
    }
  }

  // The model in the page prints what the program in it prints, after beginnings of every stored schedule.
  modelRuns() {
    for (const path of this.stored.filter(path => !path.startsWith('tests/long'))) {
      const text = read(path), shown = this.session(text, this.scheduleIn(text)), stride = Math.ceil(shown.run.length / MODEL_BEGINNINGS);
      for (let step = 0; step <= shown.run.length; step += stride) is(`the model of ${path} after ${step} steps`, shown.evidence.at(step));
      is(`the model of ${path} at its end`, shown.evidence.at(shown.run.length));
      is(`every law in every state of ${path}`, shown.firstBroken() === -1);
    }
  }

  // In each lesson the kernel with the mistake breaks the law that the lesson names at the step it names, and not before; the whole kernel keeps every law.
  lessonRuns() {
    for (const { lesson, plan, wrong, breaks, step, schedule } of this.lessons) {
      const text = read(`plans/${plan}.toml`), steps = schedule ?? this.scheduleIn(text);
      is(`lesson ${lesson} stands without the mistake`, this.session(text, steps).firstBroken() === -1);
      if (!wrong) continue;
      const first = this.session(text, steps, wrong).firstBroken(breaks);
      is(`lesson ${lesson}: "${breaks}" is first broken after step ${first}`, first === step);
    }
  }
}

// Says what of a run the model in web/page/ tells otherwise than a record of plans/record.py, or undefined. It is run beside the page's scripts.
function firstOther(text, told, scripts) {
  const { RunRecord, Run, planOf, stepsOf, readSchedule } = scripts, same = (x, y) => JSON.stringify(x) === JSON.stringify(y);
  const facts = { places: told.places, mistakes: { [told.wrong]: told.mistake } };
  const record = new RunRecord(planOf(text), told.wrong, facts), theirs = new Run(told), mine = new Run(record.frame);
  for (const c of stepsOf(readSchedule(told.schedule).items)) mine.grow(record.step(c));
  const other = ['cpus', 'lock', 'capacities', 'threads', 'laws', 'names', 'boot'].find(key => !same(told[key], record.frame[key]));
  const step = theirs.states.findIndex(({ cells, changed }, at) => !same(cells, mine.states[at].cells) || !same([...changed].sort(), [...mine.states[at].changed].sort())
    || !same(theirs.steps[at]?.slice(0, 4), mine.steps[at]?.slice(0, 4)));
  return other ?? (step < 0 ? undefined : `step ${step}`);
}

// The model tells the same cells as plans/kernel.py, of the whole kernel and with each mistake.
function modelCells() {
  const scripts = sources(ROOT)('({ RunRecord, Run, planOf, stepsOf, readSchedule })');
  const told = spawnSync('python3', [join(ROOT, 'web/records.py')], { encoding: 'utf8', maxBuffer: 1 << 29 });
  if (told.status !== 0) throw new Error(`web/records.py: ${told.stderr}`);
  for (const line of told.stdout.trimEnd().split('\n')) {
    const [name, text, record] = JSON.parse(line), other = firstOther(text, record, scripts);
    is(`the cells of ${name}, mistake ${record.wrong}: ${other}`, other === undefined);
  }
}

// A deadlock that a search finds in the page, in the form of web/searches.py.
function deadlockIn({ text, wrong, most }, ways, { States, planOf, askedFor, spelledSchedule }) {
  const states = new States(planOf(text), wrong, ways), found = states.look({ most, wanted: askedFor('deadlock'), hasLaws: false });
  return [found && spelledSchedule(states.calmed(states.stepsFound(found))), states.count, found === null && states.isAll];
}

// What a search finds of the laws, in the form of web/searches.py. In each state that it kept, up to so many, the laws that it marked are those of laws.js.
function lawsIn({ plan, text, wrong, most }, ways, { States, LAWS, LAW_BITS, planOf, spelledSchedule, faultsIn }) {
  const states = new States(planOf(text), wrong, ways), told = law => {
    const steps = states.calmed(states.stepsTo(states.broken.get(LAW_BITS.get(law))));
    return [law, spelledSchedule(steps), new Map(states.endOf(steps).faults).get(law)];
  };
  states.look({ most });
  for (let number = 0; number < Math.min(states.count, MARKED_STATES); number++) {
    const marked = [...LAWS.keys()].filter(law => states.marks[number] & LAW_BITS.get(law)), faults = faultsIn(states.kernelOf(number)).map(([law]) => law);
    if (String(marked) !== String(faults)) is(`state ${number} of ${plan}, mistake ${wrong}: marked are ${marked}, broken ${faults}`, false);
  }
  const broken = [...LAWS.keys()].filter(law => states.broken.has(LAW_BITS.get(law))).map(told);
  return { count: states.count, moves: states.moved, depth: states.depth, isAll: states.isAll, broken };
}

// Each way to search finds the same of a plan: whether a law can be broken, and whether a deadlock is reached. Where a way met its limit it says nothing.
function waysAgree({ plan, text, wrong, ways }, scripts) {
  const first = what => Object.keys(ways).map(way => {
    const search = new scripts.Search({ text, wrong, what, ...WAYS[way], most: 6e6 }), { steps, isAll } = search.next(() => {});
    return steps ? 'found' : isAll ? 'none' : 'limited';
  });
  for (const what of ['broken', 'deadlock']) {
    const told = first(what), different = new Set(told.filter(one => one !== 'limited'));
    is(`what ways of searching find of ${what} in ${plan}, mistake ${wrong}: ${told}`, different.size <= 1);
  }
}

// A search in the page finds what plans/states.py finds: as many states, and the same schedules.
function searches() {
  const names = '({ States, Search, LAWS, LAW_BITS, planOf, askedFor, spelledSchedule, faultsIn })', scripts = sources(ROOT)(names);
  const told = spawnSync('python3', [join(ROOT, 'web/searches.py')], { encoding: 'utf8', maxBuffer: 1 << 28 });
  if (told.status !== 0) throw new Error(`web/searches.py: ${told.stderr}`);
  const broken = new Set();
  for (const line of told.stdout.trimEnd().split('\n')) {
    const one = JSON.parse(line);
    for (const [way, wanted] of Object.entries(one.ways)) {
      const found = { ...(wanted.broken ? lawsIn(one, WAYS[way], scripts) : {}), deadlock: deadlockIn(one, WAYS[way], scripts) };
      const [mine, theirs] = [found, wanted].map(it => key => JSON.stringify(it[key])), other = Object.keys(wanted).find(key => mine(key) !== theirs(key));
      is(`the search of ${one.plan} by ${way}, mistake ${one.wrong}: ${other} is ${mine(other)}, and in plans/states.py ${theirs(other)}`, other === undefined);
      for (const [law] of found.broken ?? []) broken.add(law);
    }
    waysAgree(one, scripts);
  }
  for (const law of scripts.LAWS.keys()) is(`no mistake breaks the law "${law}"`, broken.has(law));
}

// A search that meets a limit never says that it has seen all; and one goes on from what it found to the next, each another schedule that breaks the law.
function searchesEnd() {
  const { Search, Kernel, planOf, stepsOf, readSchedule, faultsIn, hasLoops } = sources(ROOT)('({ Search, Kernel, planOf, stepsOf, readSchedule, faultsIn, hasLoops })');
  const small = read('plans/two-receivers.toml'), ways = { bySections: true, isEndless: false };
  for (const most of [100e3, 200e3, 400e3]) {
    const { isAll, isLimited, count } = new Search({ text: small, wrong: null, what: 'broken', ...ways, most }).next(() => {});
    is(`a search in ${most} bytes says that it is all: ${count} states`, !isAll && isLimited);
  }
  const search = new Search({ text: small, wrong: 'other-side-only', what: 'no lost wake-up', ...ways }), seen = new Set();
  for (let { steps } = search.next(() => {}); steps !== null && seen.size < 5; { steps } = search.next(() => {})) {
    const kernel = new Kernel(planOf(small), 'other-side-only');
    for (const c of steps) kernel.step(c);
    is(`schedule ${seen.size} of those that lose a wake-up does`, faultsIn(kernel).some(([law]) => law === 'no lost wake-up') && !seen.has(String(steps)));
    seen.add(String(steps));
  }
  is(`there are more than one: ${seen.size}`, seen.size >= 2);
  for (const [name, holds] of [['ping-pong', true], ['two-receivers', false], ['ledger', true]]) is(`loops in ${name}`, hasLoops(planOf(read(`plans/${name}.toml`))) === holds);
}

// Laws of a reader's own: what each says of the boot state and of the state behind a schedule, or where it is at fault and why. A damaged one is at most refused.
function ownLaws() {
  const { ownLaw, LawFault, Kernel, planOf, stepsOf, readSchedule } = sources(ROOT)('({ ownLaw, LawFault, Kernel, planOf, stepsOf, readSchedule })');
  const plan = planOf(read('plans/two-receivers.toml')), lost = new Kernel(plan, 'other-side-only'), boot = new Kernel(plan), choose = chooser(11);
  for (const c of stepsOf(readSchedule('0*13,1*13,2*36,0*16').items)) lost.step(c);
  const kept = [['b0.holds <= b0.capacity', true, true], ['not (t1.place = WaitRecv and b0.holds > 0 and b0.owner = none)', true, false],
    ['b0.owner = none implies b0.asleep = 0', true, true], ['effects + 1 = 1 or quiet', true, false], ['t0.r0 = 0 and not t0.place = Ended', true, false],
    ['c2.ready = 1', true, false], ['t0.place = Ready implies quiet implies b0.closed', true, true], ['b0.holds - 1 < 0', true, false],
    ['c0.doing = rests and c1.state = live', true, true], ['b0.receive = 0 or b0.receivers = b0.receive', true, true]];
  for (const [text, before, behind] of kept) {
    const { holds } = ownLaw(text, plan);
    is(`the law ${text}: ${holds(boot)} at boot, ${holds(lost)} behind`, holds(boot) === before && holds(lost) === behind);
  }
  const faultIn = text => { try { return ownLaw(text, plan) && null; } catch (fault) { return fault; } };
  for (const [text, at, words] of [['b3.holds = 0', 0, 'this plan has b0 to b0'], ['t0.plce = Ended', 0, 'stands one of place'], ['t0.place = inside', 0, 'not compared'],
    ['b0.owner < t1', 9, 'for numbers'], ['b0.holds', 0, 'a condition is expected'], ['quiet implies', 13, 'at the end'], ['quiet $', 6, 'no sign of a law'],
    ['(quiet', 6, '“)” is expected'], ['', 0, 'a condition is expected'], ['quiet quiet', 6, 'is not expected here'], ['('.repeat(2000), 1000, 'at most 1000 letters']]) {
    const fault = faultIn(text);
    is(`the law ${text.slice(0, 40)}: ${fault?.message} at ${fault?.at}`, fault instanceof LawFault && fault.at === at && fault.message.includes(words));
  }
  for (let number = 0; number < DAMAGED; number++) {
    const text = damaged(choose, kept[choose(kept.length)][0]), fault = faultIn(text);
    is(`the damaged law ${text}: ${fault}`, fault === null || (fault instanceof LawFault && fault.at >= 0 && fault.at <= text.length));
  }
}

// The order after a step is the order before it, and at most one call more at its end, of the CPU that stepped.
function growths() {
  const hasGrown = sources(ROOT)('hasGrown'), [first, second, third] = [0, 1, 1].map((cpu, op) => [cpu, cpu, 'send', 0, '7', op, op]);
  const cases = [[[], [], true], [[first], [first], true], [[first], [first, second], true], [[], [first], false], [[second], [first, second], false],
    [[first], [first, second, third], false], [[first, second], [first], false], [[first], [second], false]];
  for (const [earlier, later, holds] of cases) is(`CPU 1 from ${earlier.length} calls to ${later.length}`, hasGrown([earlier], [later], 1) === holds);
}

// The text of a script without its lines of comments, as web/build.py puts it into the page.
const codeOf = text => text.split('\n').filter(line => !line.trimStart().startsWith('//')).join('\n');

// The page is built of the files that stand in the tree: no other test sees a change of one of them that is not built yet.
function isOfTree() {
  const page = read('web/tower.html'), scripts = readdirSync(join(ROOT, 'web/page')).filter(name => name.endsWith('.js')).map(name => `web/page/${name}`);
  for (const path of ['plans/look.js', ...scripts]) {
    is(`${path} is not that of the page: web/build.py --page`, hasElement(page, path) && elementOf(page, idOf(path)) === `\n${codeOf(read(path))}`);
  }
  is('plans/limits.json is not that of the page: web/build.py --page', elementOf(page, 'script-limits') === `\n${limitsOf(ROOT)}`);
  for (const [name, text] of Object.entries(JSON.parse(elementOf(page, 'plans')))) is(`the plan ${name} is not that of the page`, text === read(`plans/${name}.toml`));
  is('a plan is not in the page', Object.keys(JSON.parse(elementOf(page, 'plans'))).length === readdirSync(join(ROOT, 'plans')).filter(name => name.endsWith('.toml')).length);
  is('the lessons are not those of the page', elementOf(page, 'lessons') === JSON.stringify(JSON.parse(read('web/page/lessons.json'))).replaceAll('<', '\\u003c'));
  for (const path of ['plans/look.css', 'web/page/page.css']) is(`${path} is not that of the page`, page.includes(read(path)));
  const parts = read('web/page/tower.html').split(/\{\{[A-Z]+\}\}/);
  is('web/page/tower.html is not that of the page', parts.every(part => page.includes(part)));
}
const idOf = path => `script-${path.replace(/^.*\/|\.js$/g, '')}`;
const hasElement = (page, path) => page.includes(`id="${idOf(path)}"`);

// The tick, which says that the proved program prints the same, falls where one stream of it differs, and at that step alone.
function ticksFall(held) {
  const plan = read('plans/woken-from-afar.toml');
  for (const stream of ['output', 'errors']) {
    const { evidence, record } = held.session(plan, held.scheduleIn(plan));
    record.printed[3] = { ...record.printed[3], [stream]: `${record.printed[3][stream]}more` };
    is(`the tick where ${stream} differs`, evidence.at(2) && !evidence.at(3) && evidence.at(4) && evidence.firstDifference() === 3);
  }
}

// The page's schedule in rounds is that of plans/kernel.py.
function rounds(held) {
  for (const path of held.stored.filter(name => name.startsWith('plans/'))) {
    const told = spawnSync('python3', [join(ROOT, 'plans/kernel.py'), '--rounds', join(ROOT, path)], { encoding: 'utf8' }).stdout.trimEnd();
    const mine = held.evaluate('roundsOf')(held.program, read(path)), cut = held.evaluate('MOST_ROUND_STEPS');
    const steps = held.evaluate('text => stepsOf(readSchedule(text).items)');
    is(`the rounds of ${path}`, String(steps(mine)) === String(steps(told).slice(0, cut)));
  }
}

async function main() {
  const words = process.argv.slice(2), many = words[0] === '--many' ? Number(words[1]) : 1;
  if (words.includes('--help') || !(many >= 1)) {
    console.log(HELP);
    process.exit(words.includes('--help') ? 0 : 2);
  }
  if (!existsSync(NATIVE)) throw new Error(`build the program first: there is none at ${NATIVE}`);
  const folder = mkdtempSync(join(tmpdir(), 'web-test-')), page = await taken(join(ROOT, 'web/tower.html')), held = new Held(page);
  try {
    isOfTree();
    held.storedRuns();
    held.randomRuns(folder, many);
    held.damagedRuns(many);
    held.expectedBeside();
    held.places();
    held.modelRuns();
    held.lessonRuns();
    modelCells();
    searches();
    searchesEnd();
    ownLaws();
    growths();
    ticksFall(held);
    rounds(held);
  } finally {
    rmSync(folder, { recursive: true });
  }
  console.log(`page: its program is of commit ${page.facts.program.commit.slice(0, 12)}`);
  console.log(`page: ${passed} passed, ${failed} failed`);
  process.exitCode = failed === 0 && passed > 0 ? 0 : 1;
}

main().catch(fault => {
  console.log(`page: ${fault.message}`);
  process.exitCode = 1;
});
