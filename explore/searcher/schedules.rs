//! Schedules as lists of steps, their text, and the same steps with fewer changes of the CPU.

/// A run of steps of one CPU.
pub type Run = (usize, usize);

/// Neighbouring steps of one CPU as one run.
pub fn merged(runs: impl Iterator<Item = Run>) -> Vec<Run> {
    let mut merged: Vec<Run> = Vec::new();
    for (cpu, times) in runs {
        match merged.last_mut() {
            Some((last, count)) if *last == cpu => *count += times,
            _ => merged.push((cpu, times)),
        }
    }
    merged
}

/// The text of a schedule, as `mctower run --schedule` takes it.
pub fn schedule_text(runs: &[Run]) -> String {
    let items = runs.iter().map(|&(cpu, times)| if times > 1 { format!("{cpu}*{times}") } else { cpu.to_string() });
    items.collect::<Vec<_>>().join(",")
}

/// How many steps a schedule has.
pub fn length(runs: &[Run]) -> usize {
    runs.iter().map(|&(_, times)| times).sum()
}

/// How many steps a search for calmer schedules may try.
const MOST_TRIED: usize = 20_000_000;

/// As many steps, with fewer changes of the CPU where moving two runs of a CPU together leads to
/// the same end, which `leads_there` tells.
pub fn calmed(runs: Vec<Run>, mut leads_there: impl FnMut(&[Run]) -> bool) -> Vec<Run> {
    let mut runs = merged(runs.into_iter());
    let mut tries = MOST_TRIED / length(&runs).max(1);
    loop {
        let better = moved_together(&runs).take(tries).find(|moved| {
            tries = tries.saturating_sub(1);
            leads_there(moved)
        });
        match better {
            Some(moved) => runs = moved,
            None => return runs,
        }
    }
}

/// Each way to move two runs of one CPU together, to the place of the first or of the second.
fn moved_together<'r>(runs: &'r [Run]) -> impl Iterator<Item = Vec<Run>> + 'r {
    let pairs = (0..runs.len()).flat_map(move |i| (i + 1..runs.len()).map(move |j| (i, j)));
    pairs.filter(move |&(i, j)| runs[i].0 == runs[j].0).flat_map(move |(i, j)| {
        let whole = std::iter::once((runs[i].0, runs[i].1 + runs[j].1));
        let (before, between, after) = (&runs[..i], &runs[i + 1..j], &runs[j + 1..]);
        let first = merged(before.iter().copied().chain(whole.clone()).chain(between.iter().copied()).chain(after.iter().copied()));
        let second = merged(before.iter().copied().chain(between.iter().copied()).chain(whole).chain(after.iter().copied()));
        std::iter::once(first).chain(std::iter::once(second))
    })
}
