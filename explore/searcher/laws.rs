//! The laws that hold in each state of the right kernel: which of them a state or a move breaks.

use super::buffers::{Buffer, Kind, Message};
use super::plan::Side;
use super::table::{Block, Place, Stage, System};
use super::traces::Entry;

/// A law, by its name in pages and reports.
#[derive(Clone, Copy, Debug, PartialEq, Eq)]
#[repr(u8)]
pub enum Law {
    OnePlace,
    AtHome,
    OneInside,
    OneOwner,
    NoLostWakeUp,
    NoFreeSleeper,
    NothingLost,
    InTheirOrder,
    TrueAnswers,
    OrderGrows,
    QuietIsStill,
}

/// The laws, in the order in which reports name them.
pub const LAWS: [(Law, &str); 11] = [
    (Law::OnePlace, "one place for each thread"),
    (Law::AtHome, "each thread runs at home"),
    (Law::OneInside, "one CPU inside a lock"),
    (Law::OneOwner, "only the owner works on a buffer"),
    (Law::NoLostWakeUp, "no lost wake-up"),
    (Law::NoFreeSleeper, "nobody sleeps at a free lock"),
    (Law::NothingLost, "sent = received ++ left"),
    (Law::InTheirOrder, "callers in their order"),
    (Law::TrueAnswers, "each answer fits its buffer"),
    (Law::OrderGrows, "the order only grows"),
    (Law::QuietIsStill, "quiet only if nobody can go on"),
];

/// The laws that speak of the order of calls, which is history.
pub const OF_THE_ORDER: [Law; 4] = [Law::NothingLost, Law::InTheirOrder, Law::TrueAnswers, Law::OrderGrows];

impl Law {
    /// Its name in reports.
    pub fn name(self) -> &'static str {
        LAWS[self as usize].1
    }

    /// The law of a name.
    pub fn named(name: &str) -> Option<Law> {
        LAWS.iter().find(|&&(_, known)| known == name).map(|&(law, _)| law)
    }
}

/// A set of laws.
#[derive(Clone, Copy, Debug, Default, PartialEq, Eq)]
pub struct Laws(pub u16);

impl Laws {
    /// Adds a law.
    pub fn add(&mut self, law: Law) {
        self.0 |= 1 << law as u8;
    }

    /// Whether a law is in the set.
    pub fn has(self, law: Law) -> bool {
        self.0 >> law as u8 & 1 == 1
    }

    /// Whether there is no law.
    pub fn is_empty(self) -> bool {
        self.0 == 0
    }

    /// The laws of both sets.
    pub fn and(self, others: Laws) -> Laws {
        Laws(self.0 | others.0)
    }

    /// The laws, in the order of reports.
    pub fn iter(self) -> impl Iterator<Item = Law> {
        LAWS.iter().map(|&(law, _)| law).filter(move |&law| self.has(law))
    }
}

/// What one CPU, one thread or one lock says of the laws.
#[derive(Clone, Copy, Default)]
pub struct Part {
    /// The threads that are there: how many, and a bit for each.
    count: u16,
    members: [u64; 4],
    broken: Laws,
    /// The lock that a CPU is inside of.
    inside: Option<u8>,
    /// The buffer on which a thread works, with the thread.
    works: Option<(u8, u8)>,
    /// A buffer, with its owner.
    owned: Option<(u8, Option<u8>)>,
}

impl Part {
    fn of<'t>(threads: impl Iterator<Item = &'t u8>) -> Part {
        let mut part = Part::default();
        for &t in threads {
            part.count += 1;
            part.members[t as usize / 64] |= 1 << (t % 64);
        }
        part
    }
}

/// What a CPU says: threads that are ready or run there are at home there, one in its hand is not.
pub fn part_of_cpu(system: &System, c: usize) -> Part {
    let (cpu, home) = (&system.cpus[c], |t: &u8| system.plan.threads[*t as usize].home);
    let own = || cpu.ready.iter().chain(&cpu.current);
    let mut part = Part::of(own().chain(&cpu.hand));
    if own().any(|t| home(t) != c) || cpu.hand.iter().any(|t| home(t) == c) {
        part.broken.add(Law::AtHome);
    }
    part.inside = cpu.section.as_ref().filter(|section| section.is_inside).map(|section| section.lock as u8);
    part
}

/// The buffer of which a thread must be the owner: its call is between AcqQ and RelQ, and it does
/// not sleep for the buffer.
pub fn works_on(system: &System, t: usize) -> Option<usize> {
    let guest = &system.guests[t];
    let is_owner_stage = match guest.stage {
        Stage::Enter | Stage::Shut | Stage::Try | Stage::Wait | Stage::Other | Stage::Own | Stage::RelQ => true,
        Stage::Between | Stage::AcqQ | Stage::Join | Stage::Again | Stage::Returns => false,
    };
    let sleeps = matches!(guest.place, Place::LockSleeper(_));
    if is_owner_stage && !sleeps { system.call(t as u8).map(|(b, _)| b) } else { None }
}

/// What a thread says: that it has ended, or on which buffer it works.
pub fn part_of_guest(system: &System, t: usize) -> Part {
    let number = t as u8;
    let mut part = if system.has_ended(t) { Part::of([number].iter()) } else { Part::default() };
    part.works = works_on(system, t).map(|b| (b as u8, number));
    part
}

/// What a lock says by its block.
pub fn part_of_lock(system: &System, lock: usize) -> Part {
    match &system.blocks[lock] {
        Block::Pending(queue) => {
            let mut part = Part::of(queue.iter());
            if queue.iter().any(|&t| system.plan.threads[t as usize].home != lock) {
                part.broken.add(Law::AtHome);
            }
            part
        }
        Block::Buffer(buffer) => part_of_buffer(lock - system.plan.cpus, buffer),
    }
}

fn part_of_buffer(b: usize, buffer: &Buffer) -> Part {
    let mut part = Part::of(buffer.sleepers.iter().chain(&buffer.waiting[0]).chain(&buffer.waiting[1]));
    if buffer.has_lost_wake_up(Side::Receivers) || buffer.has_lost_wake_up(Side::Senders) {
        part.broken.add(Law::NoLostWakeUp);
    }
    if buffer.owner.is_none() && !buffer.sleepers.is_empty() {
        part.broken.add(Law::NoFreeSleeper);
    }
    part.owned = Some((b as u8, buffer.owner));
    part
}

/// The laws that the parts of a state break, alone or together, where there are so many threads.
pub fn broken_by<'s>(parts: impl Iterator<Item = &'s Part> + Clone, threads: usize) -> Laws {
    let (mut broken, mut count, mut members, mut inside) = (Laws::default(), 0, [0_u64; 4], 0_u32);
    let mut owners = [None; 16];
    for part in parts.clone() {
        broken = broken.and(part.broken);
        count += part.count as usize;
        members.iter_mut().zip(&part.members).for_each(|(all, some)| *all |= some);
        if let Some(lock) = part.inside {
            if inside >> lock & 1 == 1 {
                broken.add(Law::OneInside);
            }
            inside |= 1 << lock;
        }
        if let Some((b, owner)) = part.owned {
            owners[b as usize] = owner;
        }
    }
    if count != threads || members.iter().map(|some| some.count_ones() as usize).sum::<usize>() != threads {
        broken.add(Law::OnePlace);
    }
    let is_no_owner = |part: &Part| part.works.map_or(false, |(b, t)| owners[b as usize] != Some(t));
    if parts.clone().any(is_no_owner) {
        broken.add(Law::OneOwner);
    }
    broken
}

/// Whether a thread that has not ended is at a call that its buffer allows, or at none.
pub fn could_go_on(system: &System, t: usize) -> bool {
    if system.has_ended(t) {
        return false;
    }
    match system.call(t as u8) {
        None => true,
        Some(_) if system.instruction(t as u8).is_close() || system.guests[t].stage == Stage::Returns => true,
        Some((b, side)) => system.buffer(b).allows(side),
    }
}

/// Whether a system is quiet though a thread could go on.
pub fn is_stillness_false(system: &System) -> bool {
    system.is_quiet() && (0..system.guests.len()).any(|t| could_go_on(system, t))
}

/// The calls that took effect at a buffer, in the order of their op.
pub fn effects_of<'s>(system: &'s System, b: usize) -> Vec<&'s Entry> {
    let mut effects: Vec<&Entry> = Vec::new();
    for cpu in &system.cpus {
        effects.extend(system.traces.entries(cpu.trace).into_iter().filter(|entry| entry.buffer as usize == b));
    }
    effects.sort_by_key(|entry| entry.op);
    effects
}

/// The messages of one kind of calls.
pub fn messages_of(effects: &[&Entry], kind: Kind) -> Vec<Message> {
    effects.iter().filter(|entry| entry.kind == kind).map(|entry| entry.message).collect()
}

fn is_nothing_lost(effects: &[&Entry], buffer: &Buffer) -> bool {
    let mut there = messages_of(effects, Kind::Receive);
    there.extend_from_slice(&buffer.items);
    messages_of(effects, Kind::Send) == there
}

/// The first call that took effect before one with an earlier position, and the position due.
pub fn out_of_turn<'e>(effects: &[&'e Entry]) -> Option<(&'e Entry, u32)> {
    let mut counts = [0; 3];
    for entry in effects {
        let count = &mut counts[entry.kind.group() as usize];
        if entry.position != *count {
            return Some((entry, *count));
        }
        *count += 1;
    }
    None
}

/// Why a call cannot have taken effect so at a buffer that holds so many messages.
fn refusal_of(kind: Kind, held: i64, is_closed: bool, capacity: usize) -> Option<String> {
    let why = match kind {
        Kind::Send if is_closed => "it is closed",
        Kind::Send if held >= capacity as i64 => "it is full",
        Kind::Receive if held == 0 => "it is empty",
        Kind::SendClosed | Kind::ReceiveClosed if !is_closed => "it is open",
        Kind::ReceiveClosed if held != 0 => return Some(format!("it still holds {held}")),
        _ => return None,
    };
    Some(why.to_string())
}

/// The first call whose answer does not fit its buffer, if there is such a call, with why.
pub fn false_answer<'e>(effects: &[&'e Entry], buffer: &Buffer) -> Option<(Option<&'e Entry>, String)> {
    let (mut held, mut is_closed) = (0, false);
    for entry in effects {
        if let Some(why) = refusal_of(entry.kind, held, is_closed, buffer.capacity) {
            return Some((Some(entry), why));
        }
        held += match entry.kind {
            Kind::Send => 1,
            Kind::Receive => -1,
            _ => 0,
        };
        is_closed |= entry.kind == Kind::Close;
    }
    let end = if buffer.is_closed { "it is closed" } else { "it is open" };
    if is_closed == buffer.is_closed { None } else { Some((None, end.to_string())) }
}

/// Whether the calls of a buffer are numbered 0, 1, 2 and so on.
pub fn is_numbered(effects: &[&Entry]) -> bool {
    effects.iter().enumerate().all(|(i, entry)| entry.op as usize == i)
}

/// The laws of the order that do not hold of a buffer.
pub fn broken_at(system: &System, b: usize) -> Laws {
    let (effects, buffer) = (effects_of(system, b), system.buffer(b));
    let holds = [
        (Law::NothingLost, is_nothing_lost(&effects, buffer)),
        (Law::InTheirOrder, out_of_turn(&effects).is_none()),
        (Law::TrueAnswers, false_answer(&effects, buffer).is_none()),
        (Law::OrderGrows, is_numbered(&effects)),
    ];
    let mut broken = Laws::default();
    holds.iter().filter(|&&(_, is_so)| !is_so).for_each(|&(law, _)| broken.add(law));
    broken
}

/// Whether the last entry of a CPU came at the end of its buffer's order.
pub fn has_grown(system: &System, c: usize) -> bool {
    let Some((last, earlier)) = system.traces.last(system.cpus[c].trace) else { return true };
    let is_before = |entry: &Entry, cpu: usize| entry.op < last.op || (entry.op == last.op && cpu <= c);
    (0..system.cpus.len()).all(|cpu| {
        let trace = if cpu == c { earlier } else { system.cpus[cpu].trace };
        system.traces.entries(trace).iter().filter(|entry| entry.buffer == last.buffer).all(|entry| is_before(entry, cpu))
    })
}

/// The laws of the order that a move breaks in which a call takes effect: `before` and `after` are
/// its buffer's block. It needs no history, and tells what `broken_at` tells of a state in which
/// one of these laws is broken first.
pub fn broken_by_effect(before: &Buffer, entry: &Entry, after: &Buffer) -> Laws {
    let (mut left, message) = (before.items.clone(), entry.message);
    let is_taken = match entry.kind {
        Kind::Send => {
            left.push(message);
            true
        }
        Kind::Receive => !left.is_empty() && left.remove(0) == message,
        _ => true,
    };
    let line = match entry.kind.group() {
        Kind::Send => before.lines[Side::Senders as usize].first(),
        Kind::Receive => before.lines[Side::Receivers as usize].first(),
        _ => Some(&entry.thread),
    };
    let is_closed = before.is_closed || entry.kind == Kind::Close;
    let refusal = refusal_of(entry.kind, before.items.len() as i64, before.is_closed, before.capacity);
    let holds = [
        (Law::NothingLost, is_taken && left == after.items),
        (Law::InTheirOrder, line == Some(&entry.thread)),
        (Law::TrueAnswers, refusal.is_none() && after.is_closed == is_closed),
    ];
    let mut broken = Laws::default();
    holds.iter().filter(|&&(_, is_so)| !is_so).for_each(|&(law, _)| broken.add(law));
    broken
}
