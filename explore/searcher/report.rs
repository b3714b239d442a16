//! What a search found, as lines of text.

use super::coding::History;
use super::laws::{Law, LAWS};
use super::mistakes::Mistake;
use super::plan::{Instruction, Plan};
use super::reasons::why;
use super::renaming::classes;
use super::schedules::{length, schedule_text, Run};
use super::search::{End, Search, Target};
use super::table::{Place, System};
use super::traces::place_text;
use std::collections::HashMap;

/// How many different endings a report tells.
const MOST_ENDINGS: usize = 100;

/// A system run by a schedule from its boot; `None` if a step changes nothing. Where `has_room`,
/// traces have room for any number of entries.
pub fn replayed<'p>(plan: &'p Plan, mistake: Option<Mistake>, runs: &[Run], has_room: bool) -> Option<System<'p>> {
    let mut system = System::new(plan, mistake, has_room);
    for &(c, times) in runs {
        for _ in 0..times {
            if !system.can_step(c) {
                return None;
            }
            system.step(c);
        }
    }
    Some(system)
}

/// Whether a plan has a jump back, so that it may run without an end.
pub fn has_loop(plan: &Plan) -> bool {
    let target = |instruction: &Instruction| match *instruction {
        Instruction::Jump { target, .. } => Some(target),
        Instruction::Send { target, .. } | Instruction::Receive { target, .. } => target,
        _ => None,
    };
    plan.threads.iter().any(|thread| thread.program.iter().enumerate().any(|(i, it)| target(it).map_or(false, |to| to <= i)))
}

/// How a search for states is told: without history, up to renaming.
fn manner(search: &Search) -> String {
    let mut manner = String::new();
    if search.options.history == History::LeftOut {
        manner += " without history";
    }
    if search.options.renames {
        let plan = search.pieces.system.plan;
        let class = |class: &Vec<usize>| class.iter().map(usize::to_string).collect::<Vec<_>>().join(" ");
        let classes: Vec<String> = classes(plan).iter().map(class).collect();
        manner += &if classes.is_empty() { ", no CPUs to rename".to_string() } else { format!(", CPUs {} renamed", classes.join(" and ")) };
    }
    manner
}

/// Why a search did not see all states, in words.
pub fn limit(search: &Search, end: End) -> String {
    let megabytes = search.options.memory >> 20;
    match end {
        End::Memory => {
            let is_longer = search.options.history == History::Kept && has_loop(search.pieces.system.plan);
            let hint = if is_longer { "; the plan has a loop: try --endless" } else { "" };
            format!("stopped at the limit of {megabytes} MB: not all states were seen{hint}")
        }
        End::Within => format!("more are reached by longer schedules than {} steps", search.options.within.unwrap_or(0)),
        End::Cancelled => "cancelled: not all states were seen".to_string(),
        End::All | End::Found => "all of them: no schedule, however long, reaches another".to_string(),
    }
}

/// The lines of a report on all states of a plan, and whether all laws hold in them.
pub fn report(name: &str, search: &mut Search, end: End) -> (Vec<String>, bool) {
    let moves = if search.options.by_sections { "whole sections" } else { "steps" };
    let mut lines = vec![
        format!("{name}{}: {} states, {} {moves} between them, {}", manner(search), search.len(), search.moves, limit(search, end)),
        format!("the farthest is {} steps away", search.farthest),
    ];
    let mut do_all_hold = true;
    for &(law, _) in LAWS.iter() {
        do_all_hold &= search.breach(law).is_none();
        lines.push(law_line(search, law, end));
    }
    lines.extend(endings(search));
    (lines, do_all_hold)
}

fn law_line(search: &mut Search, law: Law, end: End) -> String {
    let name = law.name();
    match search.breach(law) {
        Some(target) => {
            let runs = search.calm_runs_to(target);
            format!("BROKEN: {name}, after --schedule '{}': {}", schedule_text(&runs), reason(search, law, target, &runs))
        }
        None if !search.judged(law) => {
            let how = if law == Law::OneInside { "take --steps" } else { "take it with history" };
            format!("not judged: {name} ({how})")
        }
        None if end == End::All => format!("in each state: {name}"),
        None => format!("in each state that was seen: {name}"),
    }
}

/// Why a law is broken after a schedule.
fn reason(search: &Search, law: Law, target: Target, runs: &[Run]) -> String {
    let is_move_with_history = matches!(target, Target::Move { .. }) && search.options.history == History::Kept;
    if is_move_with_history {
        return "its last step puts a call elsewhere than at the end of the order".to_string();
    }
    let system = replayed(search.pieces.system.plan, search.options.mistake, runs, true);
    system.map_or(String::new(), |system| why(&system, law))
}

/// How a quiet state ended: which threads have not ended, and what is left.
fn ending(system: &System) -> String {
    let waiting: Vec<String> = (0..system.guests.len())
        .filter(|&t| !system.has_ended(t))
        .map(|t| format!("t{t} {}", place_text(system.guests[t].place)))
        .collect();
    let waiting = if waiting.is_empty() { "all ended".to_string() } else { waiting.join(" ") };
    let left = (0..system.plan.capacities.len()).filter(|&b| !system.buffer(b).items.is_empty()).map(|b| {
        let items: Vec<String> = system.buffer(b).items.iter().map(|item| item.to_string()).collect();
        format!("; buffer {b} holds {}", items.join(" "))
    });
    waiting + &left.collect::<String>()
}

/// How a run by a schedule ends. A state that is kept may be that one renamed.
fn ending_after(search: &Search, runs: &[Run]) -> String {
    let system = replayed(search.pieces.system.plan, search.options.mistake, runs, true);
    system.map_or(String::new(), |system| ending(&system))
}

/// A line for each way in which runs end quiet, with a shortest schedule.
fn endings(search: &mut Search) -> Vec<String> {
    let (mut known, mut found) = (HashMap::new(), Vec::new());
    for number in search.quiet() {
        let row = search.row(number);
        search.pieces.load(&row);
        let words = ending(&search.pieces.system);
        if known.insert(words.clone(), number).is_none() {
            found.push((words, number));
        }
    }
    let more = found.len().saturating_sub(MOST_ENDINGS);
    let mut lines = Vec::new();
    for (words, number) in found.into_iter().take(MOST_ENDINGS) {
        let runs = search.calm_runs_to(Target::State(number));
        let words = if search.options.renames { ending_after(search, &runs) } else { words };
        lines.push(format!("quiet: {words}, after --schedule '{}'", schedule_text(&runs)));
    }
    if more > 0 {
        lines.push(format!("quiet: {more} more endings"));
    }
    lines
}

/// The lines of an answer to a question, and whether such a state was found.
pub fn answer(asked: &str, search: &mut Search, end: End) -> (Vec<String>, bool) {
    let count = search.len();
    let Some(target) = search.found() else {
        let told = match end {
            End::All => format!("no schedule, however long, reaches one (these are all {count} states)"),
            _ => format!("none in {count} states up to {} steps away: {}", search.farthest, limit(search, end)),
        };
        return (vec![format!("{asked}: {told}")], false);
    };
    let runs = search.calm_runs_to(target);
    let (schedule, steps) = (schedule_text(&runs), length(&runs));
    let mut lines = vec![format!("{asked}: after --schedule '{schedule}' ({steps} steps; {count} states were looked at)")];
    for &(law, name) in LAWS.iter().filter(|_| asked == "broken" || asked.starts_with("law ")) {
        if search.breach(law) == Some(target) {
            lines.push(format!("{name}: {}", reason(search, law, target, &runs)));
        }
    }
    lines.extend(room_note(search, &runs));
    (lines, true)
}

/// That a plan's traces have less room than a schedule takes, if so.
fn room_note(search: &Search, runs: &[Run]) -> Option<String> {
    let (plan, mistake) = (search.pieces.system.plan, search.options.mistake);
    if replayed(plan, mistake, runs, false).is_some() {
        return None;
    }
    let system = replayed(plan, mistake, runs, true)?;
    let most = system.cpus.iter().map(|cpu| system.traces.length(cpu.trace) as i64 + cpu.begun as i64).max();
    most.map(|most| format!("the plan's traces are too short for this schedule: trace = {most} is enough"))
}

/// Whether a thread has not ended, of a quiet state.
pub fn is_deadlock(system: &System) -> bool {
    system.is_quiet() && system.guests.iter().any(|guest| guest.place != Place::Ended)
}
