//! Why a law does not hold in a state, in a sentence.

use super::buffers::{Kind, Message};
use super::laws::{could_go_on, effects_of, false_answer, is_numbered, messages_of, out_of_turn, works_on, Law};
use super::plan::Side;
use super::table::{Block, System};
use super::traces::Entry;

/// Why a law that is broken in a state does not hold there.
pub fn why(system: &System, law: Law) -> String {
    let found = match law {
        Law::OnePlace => two_places(system),
        Law::AtHome => astray(system),
        Law::OneInside => two_inside(system),
        Law::OneOwner => not_owner(system),
        Law::NoLostWakeUp => lost_wake_up(system),
        Law::NoFreeSleeper => free_sleeper(system),
        Law::NothingLost => not_the_same(system),
        Law::InTheirOrder => not_in_order(system),
        Law::TrueAnswers => not_true(system),
        Law::OrderGrows => not_grown(system),
        Law::QuietIsStill => not_still(system),
    };
    found.unwrap_or_else(|| "its last step breaks it".to_string())
}

/// Where each thread is: a list of places in words for each.
fn places(system: &System) -> Vec<Vec<String>> {
    let mut found = vec![Vec::new(); system.guests.len()];
    let mut add = |t: u8, words: String| found[t as usize].push(words);
    for (c, cpu) in system.cpus.iter().enumerate() {
        cpu.current.iter().for_each(|&t| add(t, format!("running on CPU {c}")));
        cpu.ready.iter().for_each(|&t| add(t, format!("ready at CPU {c}")));
        cpu.hand.iter().for_each(|&t| add(t, format!("in the hand of CPU {c}")));
    }
    for b in 0..system.plan.capacities.len() {
        let buffer = system.buffer(b);
        buffer.sleepers.iter().for_each(|&t| add(t, format!("asleep for buffer {b}")));
        buffer.waiting[0].iter().for_each(|&t| add(t, format!("waiting to receive from buffer {b}")));
        buffer.waiting[1].iter().for_each(|&t| add(t, format!("waiting to send to buffer {b}")));
    }
    for c in 0..system.cpus.len() {
        system.pending(c).iter().for_each(|&t| add(t, format!("pending at CPU {c}")));
    }
    (0..system.guests.len()).filter(|&t| system.has_ended(t)).for_each(|t| add(t as u8, "ended".to_string()));
    found
}

fn two_places(system: &System) -> Option<String> {
    let found = places(system).into_iter().enumerate().find(|(_, places)| places.len() != 1);
    found.map(|(t, places)| {
        if places.is_empty() { format!("t{t} stands nowhere") } else { format!("t{t} is {}", places.join(" and ")) }
    })
}

fn astray(system: &System) -> Option<String> {
    let home = |t: u8| system.plan.threads[t as usize].home;
    for (c, cpu) in system.cpus.iter().enumerate() {
        let running: Vec<u8> = cpu.current.into_iter().collect();
        for (threads, does) in [(&running, "runs on"), (&cpu.ready, "is ready at"), (system.pending(c), "is pending at")].iter() {
            if let Some(&t) = threads.iter().find(|&&t| home(t) != c) {
                return Some(format!("t{t} {does} CPU {c}, and its home is CPU {}", home(t)));
            }
        }
    }
    let in_hand = |c: &usize| system.cpus[*c].hand.map_or(false, |t| home(t) == *c);
    let c = (0..system.cpus.len()).find(in_hand)?;
    system.cpus[c].hand.map(|t| format!("t{t} is in the hand of CPU {c}, its home"))
}

fn two_inside(system: &System) -> Option<String> {
    let lock_of = |c: usize| system.cpus[c].section.as_ref().filter(|section| section.is_inside).map(|section| section.lock);
    let inside = |lock: usize| (0..system.cpus.len()).filter(move |&c| lock_of(c) == Some(lock));
    let lock = (0..system.cpus.len()).filter_map(lock_of).find(|&lock| inside(lock).count() > 1)?;
    let cpus: Vec<String> = inside(lock).map(|c| format!("CPU {c}")).collect();
    let name = match &system.blocks[lock] {
        Block::Pending(_) => format!("CPU {lock}'s pending queue"),
        Block::Buffer(_) => format!("buffer {}", lock - system.plan.cpus),
    };
    Some(format!("{} are inside the spin lock of {name}", cpus.join(" and ")))
}

fn not_owner(system: &System) -> Option<String> {
    let is_none = |&(t, b): &(usize, usize)| system.buffer(b).owner != Some(t as u8);
    let (t, b) = (0..system.guests.len()).filter_map(|t| works_on(system, t).map(|b| (t, b))).find(is_none)?;
    let owner = system.buffer(b).owner.map_or("which is free".to_string(), |owner| format!("whose owner is t{owner}"));
    Some(format!("t{t} is between AcqQ and RelQ at buffer {b}, {owner}"))
}

fn buffers(system: &System) -> std::ops::Range<usize> {
    0..system.plan.capacities.len()
}

fn spelled(messages: &[Message]) -> String {
    messages.iter().map(Message::to_string).collect::<Vec<_>>().join(" ")
}

/// What of a buffer allows a call of a side, in words.
fn allowing(system: &System, b: usize, side: Side) -> String {
    let buffer = system.buffer(b);
    match side {
        _ if buffer.is_closed => "is closed".to_string(),
        Side::Receivers => format!("holds {}", spelled(&buffer.items)),
        Side::Senders => "has room".to_string(),
    }
}

fn lost_wake_up(system: &System) -> Option<String> {
    let sides = [(Side::Receivers, "receive"), (Side::Senders, "send")];
    let all = buffers(system).flat_map(|b| sides.iter().map(move |&(side, name)| (b, side, name)));
    let (b, side, name) = all.into_iter().find(|&(b, side, _)| system.buffer(b).has_lost_wake_up(side))?;
    let t = system.buffer(b).lines[side as usize][0];
    Some(format!("buffer {b} {}, is free, and t{t}, first in its {name} line, sleeps", allowing(system, b, side)))
}

fn free_sleeper(system: &System) -> Option<String> {
    let b = buffers(system).find(|&b| system.buffer(b).owner.is_none() && !system.buffer(b).sleepers.is_empty())?;
    Some(format!("buffer {b} is free, and t{} sleeps until it is handed over", system.buffer(b).sleepers[0]))
}

/// The messages of one list that are missing in another, each as often as it is missing, equal ones
/// together in the order in which each kind is met first.
fn missing(some: &[Message], others: &[Message]) -> Vec<Message> {
    let count = |list: &[Message], it: &Message| list.iter().filter(|&other| other == it).count();
    let mut kinds: Vec<Message> = Vec::new();
    some.iter().for_each(|it| if !kinds.contains(it) { kinds.push(*it) });
    kinds.iter().flat_map(|it| vec![*it; count(some, it).saturating_sub(count(others, it))]).collect()
}

fn not_the_same(system: &System) -> Option<String> {
    let values = |b: usize| {
        let effects = effects_of(system, b);
        (messages_of(&effects, Kind::Send), messages_of(&effects, Kind::Receive), system.buffer(b).items.clone())
    };
    let is_wrong = |(_, (sent, received, left)): &(usize, (Vec<Message>, Vec<Message>, Vec<Message>))| *sent != [&received[..], &left[..]].concat();
    let (b, (sent, received, left)) = buffers(system).map(|b| (b, values(b))).find(is_wrong)?;
    let there = [&received[..], &left[..]].concat();
    let (known, strange): (Vec<Message>, Vec<Message>) = missing(&there, &sent).into_iter().partition(|it| sent.contains(it));
    let told: Vec<String> = [(missing(&sent, &there), "lost"), (known, "doubled"), (strange, "never sent")]
        .iter()
        .filter(|(some, _)| !some.is_empty())
        .map(|(some, words)| format!("{} {words}", spelled(some)))
        .collect();
    let amiss = if told.is_empty() { "out of order".to_string() } else { told.join(", ") };
    Some(format!("buffer {b}: sent [{}], received [{}], left [{}]: {amiss}", spelled(&sent), spelled(&received), spelled(&left)))
}

/// A call that took effect, as a sentence has it.
fn named(entry: &Entry) -> String {
    let value = if entry.message.words().is_empty() { String::new() } else { format!(" of {}", entry.message) };
    format!("t{}'s {}{value}", entry.thread, entry.kind.call())
}

fn not_in_order(system: &System) -> Option<String> {
    let found = |b: usize| {
        let (entry, due) = out_of_turn(&effects_of(system, b))?;
        let position = entry.position;
        Some(format!("buffer {b}: {} has position {position} in its line, and went where position {due} is due", named(entry)))
    };
    buffers(system).filter_map(found).next()
}

fn not_true(system: &System) -> Option<String> {
    let found = |b: usize| {
        let (entry, why) = false_answer(&effects_of(system, b), system.buffer(b))?;
        let Some(entry) = entry else { return Some(format!("buffer {b}: {why}, and no call made it so")) };
        let did = if entry.kind.group() == entry.kind { "goes through" } else { "finds it closed" };
        Some(format!("buffer {b}: {} {did}, and {why}", named(entry)))
    };
    buffers(system).filter_map(found).next()
}

fn not_grown(system: &System) -> Option<String> {
    let found = |b: usize| {
        let effects = effects_of(system, b);
        if is_numbered(&effects) {
            return None;
        }
        let pair = effects.iter().zip(&effects[1..]).find(|(one, other)| one.op == other.op);
        Some(match pair {
            Some((one, other)) => format!("buffer {b}: {} has op {}, and so has {}", named(one), one.op, named(other)),
            None => effects.last().map_or(String::new(), |one| format!("buffer {b}: {} has op {}, and one before it is missing", named(one), one.op)),
        })
    };
    let of_a_move = "in this step the order got a call that is not at its end, or not of the CPU that stepped";
    buffers(system).filter_map(found).next().or_else(|| Some(of_a_move.to_string()))
}

fn not_still(system: &System) -> Option<String> {
    let t = (0..system.guests.len()).find(|&t| could_go_on(system, t))?;
    let line = system.guests[t].line as usize;
    let words = system.plan.threads[t].lines.get(line).map_or("exit", String::as_str);
    let because = match system.call(t as u8) {
        Some((b, side)) if !system.instruction(t as u8).is_close() => format!(" and buffer {b} {}", allowing(system, b, side)),
        _ => String::new(),
    };
    Some(format!("no CPU has anything to do, but t{t} stands at “{words}”{because}"))
}
