//! Holds a reduced search against the search by single steps, with history, under the CPUs' own
//! names: each state of the one is a state of the other, as near, and the same laws are broken.

use super::coding::History;
use super::laws::{Law, LAWS, OF_THE_ORDER};
use super::pieces::Pieces;
use super::plan::Plan;
use super::schedules::schedule_text;
use super::search::{End, Options, Progress, Search, Target};
use super::table::{take_out, Stage, System};
use super::traces::{TraceId, Traces, NO_ENTRIES};

/// Why two searches were not compared, or where they differ.
pub enum Fault {
    NotCompared(String),
    Differs(String),
}

/// Compares a search with these options with the one that reduces nothing; says what was compared.
pub fn audit(plan: &Plan, options: Options, tick: &mut dyn FnMut(&Progress) -> bool) -> Result<String, Fault> {
    let mut full = Search::new(plan, Options { by_sections: false, history: History::Kept, renames: false, ..options });
    full.pieces.system.is_endless = options.history == History::LeftOut;
    let mut reduced = Search::new(plan, options);
    for (search, words) in [(&mut full, "by single steps"), (&mut reduced, "with reductions")].iter_mut() {
        let end = search.judge(tick);
        if end != End::All && end != End::Within {
            return Err(Fault::NotCompared(format!("the search {words} did not see all states")));
        }
    }
    hold_states(&mut full, &mut reduced)?;
    hold_laws(&full, &reduced)?;
    hold_quiet(&mut full, &mut reduced)?;
    Ok(format!(
        "{} states by single steps, {} by the reductions: each state of one is a state of the other, as near, and the same laws break as near",
        full.len(),
        reduced.len()
    ))
}

/// The same state in the reduced search, whose pieces are loaded with it.
struct Image {
    traces: Vec<TraceId>,
}

const UNKNOWN: TraceId = TraceId::MAX;

impl Image {
    fn trace(&mut self, trace: TraceId, from: &Traces, to: &mut Traces) -> TraceId {
        let number = trace as usize;
        if self.traces.len() <= number {
            self.traces.resize(number + 1, UNKNOWN);
        }
        if self.traces[number] == UNKNOWN {
            self.traces[number] = match from.last(trace) {
                None => NO_ENTRIES,
                Some((entry, earlier)) => {
                    let earlier = self.trace(earlier, from, to);
                    to.longer(earlier, *entry)
                }
            };
        }
        self.traces[number]
    }

    /// The row of a system's state, with its sections under way undone if they are no states.
    fn row(&mut self, system: &System, pieces: &mut Pieces, by_sections: bool) -> Vec<u32> {
        let image = &mut pieces.system;
        image.cpus = system.cpus.clone();
        image.guests = system.guests.clone();
        image.blocks = system.blocks.clone();
        image.lines = system.lines.clone();
        for cpu in &mut image.cpus {
            cpu.trace = self.trace(cpu.trace, &system.traces, &mut image.traces);
        }
        if by_sections {
            (0..image.cpus.len()).for_each(|c| undo_section(image, c));
        }
        let row: Vec<u32> = (0..pieces.row.len()).map(|place| pieces.number_of(place)).collect();
        pieces.row = row.clone();
        row
    }
}

/// Makes a CPU as it was before it drew for the section that is under way.
fn undo_section(system: &mut System, c: usize) {
    let Some(section) = system.cpus[c].section.take() else { return };
    take_out(&mut system.lines[section.lock], c as u8);
    if section.lock < system.plan.cpus {
        return;
    }
    if let Some(t) = system.cpus[c].current {
        let guest = &mut system.guests[t as usize];
        if guest.stage == Stage::AcqQ {
            guest.stage = Stage::Between;
            system.cpus[c].begun -= 1;
        }
    }
}

fn hold_states(full: &mut Search, reduced: &mut Search) -> Result<(), Fault> {
    let mut image = Image { traces: Vec::new() };
    let mut nearest = vec![u32::MAX; reduced.len()];
    for number in 0..full.len() as u32 {
        let row = full.row(number);
        full.pieces.load(&row);
        let by_sections = reduced.options.by_sections;
        let mut row = image.row(&full.pieces.system, &mut reduced.pieces, by_sections);
        reduced.make_least(&mut row);
        match reduced.known(&row) {
            Some(it) => nearest[it as usize] = nearest[it as usize].min(full.distance(number)),
            None => {
                let runs = full.runs_to(Target::State(number));
                let schedule = schedule_text(&runs);
                return Err(Fault::Differs(format!("the state after '{schedule}' is missing in the reduced search")));
            }
        }
    }
    for (number, &distance) in nearest.iter().enumerate() {
        if distance != reduced.distance(number as u32) {
            let schedule = schedule_text(&reduced.runs_to(Target::State(number as u32)));
            return Err(Fault::Differs(format!("single steps do not reach the state after '{schedule}' as near")));
        }
    }
    Ok(())
}

fn distance_of(search: &Search, target: Target) -> u32 {
    match target {
        Target::State(number) => search.distance(number),
        Target::Move { origin, taken, .. } => search.distance(origin) + taken,
    }
}

/// Without history a law of the order is compared only as the nearest of these laws: what follows
/// the first breach is not told of the others.
fn hold_laws(full: &Search, reduced: &Search) -> Result<(), Fault> {
    let far = |search: &Search, law: Law| search.breach(law).map(|target| distance_of(search, target));
    let nearest = |search: &Search| OF_THE_ORDER.iter().filter_map(|&law| far(search, law)).min();
    let is_alone = |law: Law| full.judged(law) && reduced.judged(law) && !(reduced.options.history == History::LeftOut && OF_THE_ORDER.contains(&law));
    let differing = LAWS.iter().find(|&&(law, _)| is_alone(law) && far(full, law) != far(reduced, law));
    if let Some((law, name)) = differing {
        let told = |search: &Search| far(search, *law).map_or("never".to_string(), |steps| format!("after {steps} steps"));
        return Err(Fault::Differs(format!("`{name}` breaks {} by single steps, and {} with reductions", told(full), told(reduced))));
    }
    let are_judged = OF_THE_ORDER.iter().all(|&law| reduced.judged(law));
    if are_judged && nearest(full) != nearest(reduced) {
        return Err(Fault::Differs("the laws of the order break elsewhere with reductions".to_string()));
    }
    Ok(())
}

/// The nearest quiet state and the nearest deadlock of both are as near.
fn hold_quiet(full: &mut Search, reduced: &mut Search) -> Result<(), Fault> {
    let nearest = |search: &mut Search| {
        let mut found = [u32::MAX; 2];
        for number in search.quiet() {
            let row = search.row(number);
            search.pieces.load(&row);
            let is_deadlock = super::report::is_deadlock(&search.pieces.system);
            let kind = &mut found[is_deadlock as usize];
            *kind = (*kind).min(search.distance(number));
        }
        found
    };
    if nearest(full) == nearest(reduced) {
        return Ok(());
    }
    Err(Fault::Differs("quiet states are not as near with reductions".to_string()))
}
