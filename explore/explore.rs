//! Goes through all states of a plan, or looks for a nearest one that is asked for: the command
//! line, the files and the clock of the searcher.

mod searcher;

use searcher::audit::{audit, Fault};
use searcher::coding::History;
use searcher::mistakes::{Mistake, MISTAKES};
use searcher::plan::{read_plan, Plan};
use searcher::questions::{Question, GRAMMAR};
use searcher::report::{answer, replayed, report};
use searcher::schedules::{schedule_text, Run};
use searcher::search::{End, Options, Progress, Search, Target};
use searcher::traces::{state_text, trace_text};
use std::io::{IsTerminal, Read, Write};
use std::process::{Command, Stdio};
use std::time::Instant;

const USAGE: &str = "\
All states of a plan, for schedules of any length: which laws hold, how runs end, and a shortest
schedule to a state that is asked for. Nothing here is proved.

    explore PLAN                a report on all states (PLAN is a file, or - for standard input)
    explore PLAN --find WHAT    a shortest schedule to such a state, or that none reaches one

  --wrong MISTAKE   of a kernel that makes this mistake
  --steps           a move is one step
  --sections        a move is a whole critical section, which is three steps, or a step outside of
                    sections: fewer states. The default, apart from mistakes of the lock and from
                    questions about what a CPU does within a section
  --endless         a state is without its history, and traces have room for any number of entries:
                    programs that run without an end have an end of states
  --rename          states that differ only by renaming CPUs with equal programs are one
  --within N        schedules of at most N steps
  --memory MB       the most memory for states (default: half of what is available)
  --audit           goes through all states by single steps too, and compares the two searches
  --compare[=K]     the proved program runs the shortest schedule to each state, or to K of them,
                    and to what was found, and must print that state. --program FILE names it
                    (default: $MCTOWER, or crates/mctower/out/mctower)
  --progress S      how often progress is told on standard error, in seconds (0: never; default: 1
                    on a terminal, else 0)
  --time            what the search took

Status: 0 all laws hold, or a state was found; 1 a law is broken, no state was found, or the proved
program prints something else; 2 the command line or the plan is refused; 3 a limit was met.
";

/// What a command line asks for.
struct Asked {
    plan: String,
    find: Option<String>,
    mistake: Option<Mistake>,
    by_sections: Option<bool>,
    history: History,
    renames: bool,
    within: Option<u32>,
    memory: usize,
    audits: bool,
    compare: Option<usize>,
    program: String,
    progress: f64,
    times: bool,
}

/// Why nothing was searched, with the status that the program ends with.
struct Failure {
    words: String,
    status: i32,
}

fn refused<T>(words: String) -> Result<T, Failure> {
    Err(Failure { words, status: 2 })
}

/// The memory that the system has left, in bytes; 2 GB where it does not tell.
fn available() -> usize {
    let told = std::fs::read_to_string("/proc/meminfo").unwrap_or_default();
    let line = told.lines().find_map(|line| line.strip_prefix("MemAvailable:"));
    let kilobytes: Option<usize> = line.and_then(|rest| rest.trim().trim_end_matches(" kB").parse().ok());
    kilobytes.map_or(2 << 30, |it| it << 10)
}

fn number_of<T: std::str::FromStr>(option: &str, value: &str) -> Result<T, Failure> {
    value.parse().or_else(|_| refused(format!("{option} needs a number, and `{value}` is none")))
}

fn mistake_of(name: &str) -> Result<Mistake, Failure> {
    let known: String = MISTAKES.iter().map(|(_, name, what)| format!("\n  {name:24}{what}")).collect();
    Mistake::named(name).map_or_else(|| refused(format!("`{name}` is no mistake of these:{known}")), Ok)
}

fn read_line(words: &[String]) -> Result<Asked, Failure> {
    let mut asked = Asked {
        plan: String::new(),
        find: None,
        mistake: None,
        by_sections: None,
        history: History::Kept,
        renames: false,
        within: None,
        memory: available() / 2,
        audits: false,
        compare: None,
        program: std::env::var("MCTOWER").unwrap_or_else(|_| "crates/mctower/out/mctower".to_string()),
        progress: if std::io::stderr().is_terminal() { 1.0 } else { 0.0 },
        times: false,
    };
    let (mut plans, mut given) = (Vec::new(), Vec::new());
    let mut words = words.iter();
    while let Some(word) = words.next() {
        if given.contains(&word) {
            return refused(format!("{word} is given twice"));
        }
        if word.starts_with("--") {
            given.push(word);
            read_option(&mut asked, word, &mut words)?;
        } else {
            plans.push(word.clone());
        }
    }
    if asked.audits && (asked.find.is_some() || asked.compare.is_some()) {
        return refused("--audit compares two searches: leave out --find and --compare".to_string());
    }
    match plans.len() {
        1 => asked.plan = plans.remove(0),
        count => return refused(format!("expected one PLAN, and {count} are given")),
    }
    Ok(asked)
}

fn read_option<'w>(asked: &mut Asked, option: &str, words: &mut impl Iterator<Item = &'w String>) -> Result<(), Failure> {
    let mut value = || words.next().map_or_else(|| refused(format!("{option} needs a value")), Ok);
    match option {
        "--find" => asked.find = Some(value()?.clone()),
        "--wrong" => asked.mistake = Some(mistake_of(value()?)?),
        "--steps" | "--sections" if asked.by_sections.is_some() => return refused("give one of --steps and --sections, once".to_string()),
        "--steps" => asked.by_sections = Some(false),
        "--sections" => asked.by_sections = Some(true),
        "--endless" => asked.history = History::LeftOut,
        "--rename" => asked.renames = true,
        "--within" => asked.within = Some(number_of(option, value()?)?),
        "--memory" => asked.memory = number_of::<usize>(option, value()?)?.saturating_mul(1 << 20),
        "--audit" => asked.audits = true,
        "--compare" => asked.compare = Some(usize::MAX),
        "--program" => asked.program = value()?.clone(),
        "--progress" => asked.progress = number_of(option, value()?)?,
        "--time" => asked.times = true,
        _ => match option.strip_prefix("--compare=") {
            Some(count) => asked.compare = Some(number_of("--compare", count)?),
            None => return refused(format!("{option} is no option: explore --help names them")),
        },
    }
    Ok(())
}

fn bytes_of(path: &str) -> Result<Vec<u8>, Failure> {
    let mut bytes = Vec::new();
    let read = if path == "-" { std::io::stdin().read_to_end(&mut bytes).map(|_| bytes) } else { std::fs::read(path) };
    read.or_else(|fault| refused(format!("ReadFault(7)\n{path}: {fault}")))
}

/// How to search for what is asked, refused where it cannot be answered so.
fn options_of(asked: &Asked, question: Option<&Question>) -> Result<Options, Failure> {
    let is_of_the_lock = asked.mistake.map_or(false, Mistake::is_of_the_lock);
    let is_within = question.map_or(false, Question::is_within_sections);
    if is_within && asked.by_sections == Some(true) {
        return refused("between whole sections no CPU waits or is inside: ask for that with --steps".to_string());
    }
    if asked.history == History::LeftOut {
        if let Some(why) = question.and_then(Question::needs_history) {
            return refused(format!("with --endless states have no history: {why}"));
        }
        if is_of_the_lock && question.map_or(true, Question::asks_for_laws) {
            return refused("look-always-hits is judged with its history alone: leave out --endless".to_string());
        }
    }
    if asked.renames && question.map_or(false, Question::names_numbers) {
        return refused("with --rename a CPU or a thread has no number: leave out --rename".to_string());
    }
    Ok(Options {
        mistake: asked.mistake,
        by_sections: asked.by_sections.unwrap_or(!is_of_the_lock && !is_within),
        history: asked.history,
        renames: asked.renames,
        memory: asked.memory,
        within: asked.within,
    })
}

/// Tells progress on standard error, so often.
struct Teller {
    start: Instant,
    last: f64,
    every: f64,
    is_shown: bool,
}

impl Teller {
    fn new(every: f64) -> Teller {
        Teller { start: Instant::now(), last: 0.0, every, is_shown: false }
    }

    fn tell(&mut self, progress: &Progress) -> bool {
        let seconds = self.start.elapsed().as_secs_f64();
        if self.every > 0.0 && seconds - self.last >= self.every {
            let Progress { states, queue, memory, distance } = progress;
            let rate = *states as f64 / seconds;
            let end = if std::io::stderr().is_terminal() { "\r" } else { "\n" };
            eprint!("explore: {states} states, {rate:.0} a second, {queue} in the queue, {distance} steps away, {} MB  {end}", memory >> 20);
            self.last = seconds;
            self.is_shown = end == "\r";
        }
        true
    }

    fn end(&self) {
        if self.is_shown {
            eprintln!();
        }
    }
}

/// Prints lines. A reader that has left, as `head` does, ends the program; another fault is told.
fn say(text: &str) {
    if let Err(fault) = writeln!(std::io::stdout(), "{text}") {
        if fault.kind() != std::io::ErrorKind::BrokenPipe {
            eprintln!("error: WriteFault(8)\nstandard output: {fault}");
        }
        std::process::exit(1);
    }
}

/// What `mctower run` prints: the trace text, and the state lines.
fn proved_prints(program: &str, plan: &[u8], schedule: &str) -> std::io::Result<(String, String)> {
    let mut command = Command::new(program);
    command.arg("run");
    if !schedule.is_empty() {
        command.args(&["--schedule", schedule]);
    }
    let mut child = command.stdin(Stdio::piped()).stdout(Stdio::piped()).stderr(Stdio::piped()).spawn()?;
    if let Some(mut input) = child.stdin.take() {
        input.write_all(plan)?;
    }
    let output = child.wait_with_output()?;
    let text = |bytes: Vec<u8>| String::from_utf8_lossy(&bytes).into_owned();
    Ok((text(output.stdout), text(output.stderr)))
}

/// Runs the proved program by a schedule, after which it must print what the step table says;
/// returns whether the traces of the plan have room for it.
fn is_printed(plan: &Plan, raw: &[u8], program: &str, runs: &[Run]) -> Result<bool, Failure> {
    let Some(system) = replayed(plan, None, runs, false) else { return Ok(false) };
    let schedule = schedule_text(runs);
    let proved = proved_prints(program, raw, &schedule).map_err(|fault| Failure { words: format!("{program}: {fault}"), status: 2 })?;
    let ours = (trace_text(&system), state_text(&system));
    if ours == proved {
        return Ok(true);
    }
    let words = format!("after '{schedule}' the proved program prints\n{}{}and not\n{}{}", proved.0, proved.1, ours.0, ours.1);
    Err(Failure { words, status: 1 })
}

/// Runs the proved program by the schedule that was found, and to `most` of the states, evenly
/// chosen; says what was compared.
fn compare(search: &mut Search, plan: &Plan, raw: &[u8], program: &str, most: usize) -> Result<String, Failure> {
    let count = search.len();
    let many = most.min(count);
    let (mut compared, mut too_long, mut also) = (0, 0, "");
    if let Some(target) = search.found() {
        let runs = search.calm_runs_to(target);
        also = if is_printed(plan, raw, program, &runs)? { "what was found and in " } else { "" };
    }
    for i in 0..many {
        let runs = search.runs_to(Target::State((i as u64 * count as u64 / many as u64) as u32));
        match is_printed(plan, raw, program, &runs)? {
            true => compared += 1,
            false => too_long += 1,
        }
    }
    let rest = if too_long == 0 { String::new() } else { format!("; {too_long} more need longer traces than the plan's") };
    Ok(format!("compared with the proved program in {also}{compared} states: each prints the same{rest}"))
}

/// Does what a command line asks for; returns the status.
fn serve(asked: &Asked) -> Result<i32, Failure> {
    let raw = bytes_of(&asked.plan)?;
    let plan = match read_plan(&raw) {
        Ok(plan) => plan,
        Err(refusal) => {
            let line = refusal.line.map_or(String::new(), |line| format!(":{line}"));
            return refused(format!("{}\n{}{line}: {}", refusal.words, asked.plan, refusal.why));
        }
    };
    let question = match asked.find.as_deref().map(|text| Question::read(text, &plan)).transpose() {
        Ok(question) => question,
        Err(why) => return refused(why),
    };
    if asked.compare.is_some() && asked.mistake.is_some() {
        return refused("--compare needs the right kernel: leave out --wrong".to_string());
    }
    let options = options_of(asked, question.as_ref())?;
    if asked.audits { audited(asked, &plan, options) } else { searched(asked, &plan, &raw, options, question) }
}

fn audited(asked: &Asked, plan: &Plan, options: Options) -> Result<i32, Failure> {
    let mut teller = Teller::new(asked.progress);
    let result = audit(plan, options, &mut |progress| teller.tell(progress));
    teller.end();
    let name = asked.plan.rsplit('/').next().unwrap_or(&asked.plan);
    match result {
        Ok(words) => {
            say(&format!("{name}: {words}"));
            Ok(0)
        }
        Err(Fault::NotCompared(words)) => Err(Failure { words, status: 3 }),
        Err(Fault::Differs(words)) => Err(Failure { words, status: 1 }),
    }
}

fn searched(asked: &Asked, plan: &Plan, raw: &[u8], options: Options, question: Option<Question>) -> Result<i32, Failure> {
    let mut teller = Teller::new(asked.progress);
    let mut search = Search::new(plan, options);
    let mut tick = |progress: &Progress| teller.tell(progress);
    let end = match question {
        Some(question) => search.find(question, &mut tick),
        None => search.judge(&mut tick),
    };
    let seconds = teller.start.elapsed().as_secs_f64();
    teller.end();
    let name = asked.plan.rsplit('/').next().unwrap_or(&asked.plan);
    let (lines, is_well) = match &asked.find {
        Some(text) => answer(text, &mut search, end),
        None => report(name, &mut search, end),
    };
    say(&lines.join("\n"));
    if asked.times {
        let (states, memory) = (search.len(), search.memory() >> 20);
        say(&format!("took {seconds:.2} s: {:.0} states a second, {memory} MB", states as f64 / seconds));
    }
    if let Some(most) = asked.compare {
        say(&compare(&mut search, plan, raw, &asked.program, most)?);
    }
    let is_limited = end != End::All && end != End::Found;
    let is_told = if asked.find.is_some() { is_well } else { !is_well };
    Ok(if is_limited && !is_told { 3 } else { !is_well as i32 })
}

fn main() {
    let words: Vec<String> = std::env::args().skip(1).collect();
    if words.iter().any(|word| word == "--help" || word == "-h") {
        let mistakes: String = MISTAKES.iter().map(|(_, name, what)| format!("  {name:24}{what}\n")).collect();
        say(&format!("{USAGE}\nWHAT is one of\n{GRAMMAR}\nMISTAKE is one of\n{}", mistakes.trim_end()));
        return;
    }
    let status = read_line(&words).and_then(|asked| serve(&asked)).unwrap_or_else(|failure| {
        eprintln!("error: {}", failure.words);
        failure.status
    });
    std::process::exit(status);
}
