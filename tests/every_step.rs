//! Holds `mctower` against the plain program of the step table after every step: runs each plan
//! under every beginning of its schedule, and compares trace text, state lines and status with what
//! `plain_tower` prints after as many steps; and asks `mctower check` for a yes to each new text. From text
//! to text the order of the calls has to go on as the plain program's: by the call that took effect in
//! that step, which is of the CPU that stepped, or by none.
//!
//! every_step MCTOWER PLAIN_TOWER PLAN..
//!
//! A plan's schedule stands in the command of its first lines. The last line says how many states
//! were compared and how many were equal; the status is 1 where not all were.

use std::collections::BTreeSet;
use std::fs::{File, read_to_string};
use std::io::Write;
use std::process::{Command, Output, Stdio};
use std::sync::atomic::{AtomicUsize, Ordering};
use std::thread;

fn schedule_of(plan: &str) -> &str {
    let from = plan.find("--schedule '").expect("a plan with its command") + 12;
    plan[from..].split('\'').next().unwrap()
}

/// The items of a schedule's first steps, from none on.
fn beginnings(schedule: &str) -> Vec<String> {
    let mut all = vec![String::new()];
    let mut done = String::new();
    for item in schedule.split(',') {
        let (cpu, count) = item.split_once('*').unwrap_or((item, "1"));
        for n in 1..=count.parse::<usize>().unwrap() {
            all.push(format!("{done}{cpu}*{n}"));
        }
        done = format!("{done}{item},");
    }
    all
}

fn run(program: &str, plan: &str, schedule: &str) -> Output {
    let words = ["run", "--schedule", schedule];
    let words = if schedule.is_empty() { &words[..1] } else { &words[..] };
    Command::new(program).args(words).stdin(File::open(plan).unwrap()).output().unwrap()
}

fn is_yes(program: &str, text: &[u8]) -> bool {
    let mut check = Command::new(program).arg("check").stdin(Stdio::piped()).stdout(Stdio::piped()).spawn().unwrap();
    check.stdin.take().unwrap().write_all(text).unwrap();
    check.wait_with_output().is_ok_and(|output| output.status.success() && output.stdout == b"yes\n")
}

/// The entries of a trace text.
fn entries(text: &[u8]) -> BTreeSet<String> {
    let text = String::from_utf8_lossy(text);
    text.lines().filter(|line| line.starts_with("e ")).map(String::from).collect()
}

/// The CPU of the last step of a schedule's beginning.
fn last_cpu(beginning: &str) -> Option<&str> {
    beginning.rsplit(',').next()?.split('*').next()
}

/// Whether a text has what the text one step before had, and behind it the call that took effect in between, which is new and of the
/// step's CPU.
fn goes_on(before: &BTreeSet<String>, after: &BTreeSet<String>, effect: &str, beginning: &str) -> bool {
    if effect.is_empty() {
        return after == before;
    }
    let more: Vec<&String> = after.difference(before).collect();
    before.is_subset(after) && more == [effect] && effect.split(' ').nth(1) == last_cpu(beginning)
}

/// How many states of a plan's run were compared, and how many were equal.
fn compare(program: &str, plain: &str, plan: &str) -> (usize, usize) {
    let text = read_to_string(plan).unwrap();
    let schedule = schedule_of(&text);
    let wanted = Command::new(plain).args([schedule, "each"]).stdin(File::open(plan).unwrap()).output().unwrap();
    let mut wanted = std::str::from_utf8(&wanted.stdout).unwrap();
    let (mut compared, mut equal) = (0, 0);
    let (mut before, mut judged) = (BTreeSet::new(), vec![]);
    for (taken, beginning) in beginnings(schedule).iter().enumerate() {
        let (state, rest) = wanted.split_once(&format!("after {taken}")).expect("a state after each step");
        let (effect, rest) = rest.split_once('\n').expect("a line behind each state");
        wanted = rest;
        compared += 1;
        let output = run(program, plan, beginning);
        let printed = [output.stdout.as_slice(), &output.stderr].concat();
        let after = entries(&output.stdout);
        let in_order = goes_on(&before, &after, effect.trim(), beginning);
        before = after;
        let is_equal = output.status.success() && printed == state.as_bytes() && in_order;
        // most steps leave the text as it was, and then it is judged already
        if is_equal && (output.stdout == judged || is_yes(program, &output.stdout)) {
            equal += 1;
            judged = output.stdout;
        } else {
            eprintln!("{plan} differs after {taken} steps");
        }
    }
    (compared, equal)
}

fn main() {
    let words: Vec<String> = std::env::args().skip(1).collect();
    let (program, plain, plans) = (&words[0], &words[1], &words[2..]);
    let (next, compared, equal) = (AtomicUsize::new(0), AtomicUsize::new(0), AtomicUsize::new(0));
    let threads = thread::available_parallelism().map_or(1, usize::from);
    thread::scope(|scope| {
        for _ in 0..threads {
            scope.spawn(|| {
                while let Some(plan) = plans.get(next.fetch_add(1, Ordering::Relaxed)) {
                    let (states, same) = compare(program, plain, plan);
                    compared.fetch_add(states, Ordering::Relaxed);
                    equal.fetch_add(same, Ordering::Relaxed);
                }
            });
        }
    });
    let (compared, equal) = (compared.into_inner(), equal.into_inner());
    println!("every step: {} plans, {compared} states, {equal} equal", plans.len());
    if compared == 0 || compared != equal {
        std::process::exit(1);
    }
}
