//! The step table: the state of a system, and what one step of a CPU does.

use super::buffers::{Buffer, Kind, Message};
use super::mistakes::Mistake;
use super::plan::{Instruction, Plan, Registers, Side, REGISTERS};
use super::traces::{Entry, TraceId, Traces, NO_ENTRIES};

/// Threads, or CPUs, in the order of their turns.
pub type Queue = Vec<u8>;

/// The section that a call does next.
#[derive(Clone, Copy, Debug, PartialEq, Eq)]
#[repr(u8)]
pub enum Stage {
    /// Between two calls.
    Between,
    AcqQ,
    Enter,
    Shut,
    Try,
    Wait,
    /// The second section of a wait that frees the lock first.
    Join,
    /// The call was woken on its side, and acquires the lock once more.
    Again,
    /// Signals the other side.
    Other,
    /// Signals its own side.
    Own,
    RelQ,
    /// Done, while the thread that it woke is still in the hand.
    Returns,
}

/// The stages, by their number.
pub const STAGES: [Stage; 12] = [
    Stage::Between, Stage::AcqQ, Stage::Enter, Stage::Shut, Stage::Try, Stage::Wait, Stage::Join, Stage::Again, Stage::Other,
    Stage::Own, Stage::RelQ, Stage::Returns,
];

/// Where a thread is, with the number of the CPU or of the buffer.
#[derive(Clone, Copy, Debug, PartialEq, Eq)]
pub enum Place {
    Ready(u8),
    Running(u8),
    Pending(u8),
    Hand(u8),
    LockSleeper(u8),
    WaitRecv(u8),
    WaitSend(u8),
    Ended,
}

/// A guest thread.
#[derive(Clone, Debug)]
pub struct Guest {
    pub line: u32,
    pub registers: [u64; REGISTERS],
    pub stage: Stage,
    pub position: u32,
    /// What its last call that took effect did.
    pub effect: Option<(Kind, Message)>,
    pub place: Place,
}

/// What a critical section does.
#[derive(Clone, Copy, Debug, PartialEq, Eq)]
#[repr(u8)]
pub enum Work {
    Pend,
    Drain,
    Yield,
    AcqQ,
    Enter,
    Shut,
    TryTake,
    TryPut,
    Wait,
    Join,
    SigRecv,
    SigSend,
    RelQ,
    Returns,
}

/// What sections do, by number.
pub const WORKS: [Work; 14] = [
    Work::Pend, Work::Drain, Work::Yield, Work::AcqQ, Work::Enter, Work::Shut, Work::TryTake, Work::TryPut, Work::Wait, Work::Join,
    Work::SigRecv, Work::SigSend, Work::RelQ, Work::Returns,
];

/// A section under way: its lock was drawn at, and perhaps entered.
#[derive(Clone, Debug)]
pub struct Section {
    pub work: Work,
    pub lock: usize,
    pub is_inside: bool,
    /// The block as it was at the entry, where CPUs enter before their turn.
    pub copy: Option<Box<Block>>,
}

#[derive(Clone, Debug)]
pub struct Cpu {
    pub current: Option<u8>,
    pub hand: Option<u8>,
    pub ready: Queue,
    /// Calls that have begun and not taken effect.
    pub begun: i32,
    pub section: Option<Section>,
    pub trace: TraceId,
}

/// What a lock guards.
#[derive(Clone, Debug)]
pub enum Block {
    Pending(Queue),
    Buffer(Buffer),
}

/// Why a CPU takes no step between its sections.
#[derive(Clone, Copy, Debug, PartialEq, Eq)]
pub enum Halt {
    AllEnded,
    TraceFull,
}

/// What the last steps changed, besides their CPU.
#[derive(Debug, Default)]
pub struct Changed {
    pub guests: Vec<u8>,
    pub lock: Option<usize>,
    pub has_entry: bool,
}

impl Changed {
    /// Forgets what was changed.
    pub fn clear(&mut self) {
        self.guests.clear();
        self.lock = None;
        self.has_entry = false;
    }

    fn guest(&mut self, thread: u8) {
        if !self.guests.contains(&thread) {
            self.guests.push(thread);
        }
    }
}

/// All CPUs, threads and blocks of a plan. The locks of the CPUs' pending queues come first, then
/// those of the buffers.
pub struct System<'p> {
    pub plan: &'p Plan,
    pub mistake: Option<Mistake>,
    /// Whether traces have room for any number of entries.
    pub is_endless: bool,
    pub cpus: Vec<Cpu>,
    pub guests: Vec<Guest>,
    pub blocks: Vec<Block>,
    /// The CPUs that have drawn at each lock, in their order.
    pub lines: Vec<Queue>,
    pub traces: Traces,
    pub changed: Changed,
}

/// Removes the first of a queue.
pub fn pop(queue: &mut Queue) -> Option<u8> {
    if queue.is_empty() { None } else { Some(queue.remove(0)) }
}

/// Removes a member from wherever it is in a queue.
pub fn take_out(queue: &mut Queue, member: u8) {
    if let Some(i) = queue.iter().position(|&it| it == member) {
        queue.remove(i);
    }
}

impl<'p> System<'p> {
    /// The system of a plan before its first step, of a kernel that perhaps makes a mistake.
    pub fn new(plan: &'p Plan, mistake: Option<Mistake>, is_endless: bool) -> System<'p> {
        let ready = |c: usize| (0..plan.threads.len()).filter(|&t| plan.threads[t].home == c).map(|t| t as u8).collect();
        let cpu = |c: usize| Cpu { current: None, hand: None, ready: ready(c), begun: 0, section: None, trace: NO_ENTRIES };
        let guest = |home: usize| Guest {
            line: 0,
            registers: [0; REGISTERS],
            stage: Stage::Between,
            position: 0,
            effect: None,
            place: Place::Ready(home as u8),
        };
        let pending = (0..plan.cpus).map(|_| Block::Pending(Queue::new()));
        let buffers = plan.capacities.iter().map(|&capacity| Block::Buffer(Buffer::new(capacity)));
        System {
            plan,
            mistake,
            is_endless,
            cpus: (0..plan.cpus).map(cpu).collect(),
            guests: plan.threads.iter().map(|thread| guest(thread.home)).collect(),
            blocks: pending.chain(buffers).collect(),
            lines: vec![Queue::new(); plan.cpus + plan.capacities.len()],
            traces: Traces::new(),
            changed: Changed::default(),
        }
    }

    /// Whether the kernel makes a mistake.
    pub fn makes(&self, mistake: Mistake) -> bool {
        self.mistake == Some(mistake)
    }

    /// The block of a buffer.
    pub fn buffer(&self, b: usize) -> &Buffer {
        match &self.blocks[self.plan.cpus + b] {
            Block::Buffer(buffer) => buffer,
            Block::Pending(_) => unreachable!("buffers come after the pending queues"),
        }
    }

    /// The pending queue of a CPU.
    pub fn pending(&self, c: usize) -> &Queue {
        match &self.blocks[c] {
            Block::Pending(queue) => queue,
            Block::Buffer(_) => unreachable!("pending queues come before the buffers"),
        }
    }

    /// The instruction at which a thread is; past its last line that is `exit`.
    pub fn instruction(&self, thread: u8) -> Instruction {
        instruction_of(self.plan, thread, &self.guests[thread as usize])
    }

    /// The buffer and the side of the call at which a thread is.
    pub fn call(&self, thread: u8) -> Option<(usize, Side)> {
        self.instruction(thread).call()
    }

    /// Whether a thread has ended.
    pub fn has_ended(&self, thread: usize) -> bool {
        self.guests[thread].place == Place::Ended
    }

    /// Whether all threads at home at a CPU have ended.
    pub fn have_all_ended(&self, c: usize) -> bool {
        (0..self.guests.len()).all(|t| self.plan.threads[t].home != c || self.has_ended(t))
    }

    /// Why a CPU takes no step, if it is between its sections.
    pub fn halt(&self, c: usize) -> Option<Halt> {
        let cpu = &self.cpus[c];
        if cpu.section.is_some() || cpu.hand.is_some() {
            return None;
        }
        if self.have_all_ended(c) {
            return Some(Halt::AllEnded);
        }
        let begins_call = |t| self.guests[t as usize].stage == Stage::Between && self.call(t).is_some();
        let is_full = || self.traces.length(cpu.trace) as i64 + cpu.begun as i64 == self.plan.room as i64;
        if !self.is_endless && cpu.current.map_or(false, begins_call) && is_full() { Some(Halt::TraceFull) } else { None }
    }

    /// Whether a step of a CPU changes anything: it is not halted, and no poll of its that fails.
    pub fn can_step(&self, c: usize) -> bool {
        match &self.cpus[c].section {
            None => self.halt(c).is_none(),
            Some(section) if section.is_inside => true,
            Some(section) => self.lines[section.lock][0] == c as u8 || self.makes(Mistake::LookAlwaysHits),
        }
    }

    /// Takes a step of a CPU that can take one.
    pub fn step(&mut self, c: usize) {
        match &mut self.cpus[c].section {
            None => self.begin(c),
            Some(section) if !section.is_inside => {
                section.is_inside = true;
                let lock = section.lock;
                if self.mistake == Some(Mistake::LookAlwaysHits) {
                    section.copy = Some(Box::new(self.blocks[lock].clone()));
                }
            }
            Some(_) => self.end(c),
        }
    }

    fn draw(&mut self, c: usize, work: Work, lock: usize) {
        self.cpus[c].section = Some(Section { work, lock, is_inside: false, copy: None });
        self.lines[lock].push(c as u8);
        self.changed.lock = Some(lock);
    }

    fn begin(&mut self, c: usize) {
        if let Some(woken) = self.cpus[c].hand {
            let home = self.plan.threads[woken as usize].home;
            return self.draw(c, Work::Pend, home);
        }
        let Some(t) = self.cpus[c].current else { return self.switch(c) };
        match self.instruction(t).call() {
            Some((b, side)) => self.begin_section(c, t, b, side),
            None if self.instruction(t) == Instruction::Yield => self.draw(c, Work::Yield, c),
            None => self.compute(c, t),
        }
    }

    fn switch(&mut self, c: usize) {
        match pop(&mut self.cpus[c].ready) {
            None => self.draw(c, Work::Drain, c),
            Some(t) => {
                self.cpus[c].current = Some(t);
                self.guests[t as usize].place = Place::Running(c as u8);
                self.changed.guest(t);
            }
        }
    }

    fn begin_section(&mut self, c: usize, t: u8, b: usize, side: Side) {
        let guest = &mut self.guests[t as usize];
        if guest.stage == Stage::Between {
            guest.stage = Stage::AcqQ;
            self.cpus[c].begun += 1;
            self.changed.guest(t);
        }
        let work = work_of(guest.stage, side);
        self.draw(c, work, self.plan.cpus + b);
    }

    fn compute(&mut self, c: usize, t: u8) {
        let instruction = self.instruction(t);
        let guest = &mut self.guests[t as usize];
        let registers = &mut guest.registers;
        guest.line += 1;
        match instruction {
            Instruction::Set { to, value } => registers[to] = value,
            Instruction::Add { to, from } => registers[to] = registers[to].wrapping_add(registers[from]),
            Instruction::Sub { to, from } => registers[to] = registers[to].wrapping_sub(registers[from]),
            Instruction::Jump { unless_zero, target } if registers[unless_zero] != 0 => guest.line = target as u32,
            Instruction::Jump { .. } => {}
            _ => {
                guest.place = Place::Ended;
                self.cpus[c].current = None;
            }
        }
        self.changed.guest(t);
    }

    /// Ends the section of a CPU: does its edit.
    fn end(&mut self, c: usize) {
        let Some(section) = self.cpus[c].section.take() else { return };
        let Section { work, lock, copy, .. } = section;
        take_out(&mut self.lines[lock], c as u8);
        if let Some(copy) = copy {
            self.blocks[lock] = *copy;
        }
        self.changed.lock = Some(lock);
        let System { plan, mistake, cpus, guests, blocks, traces, changed, .. } = self;
        let mut edit = Edit { c, plan, mistake: *mistake, cpu: &mut cpus[c], guests, traces, changed };
        match &mut blocks[lock] {
            Block::Pending(queue) if work == Work::Pend => edit.send_home(queue),
            Block::Pending(queue) => edit.drain(queue, work == Work::Yield),
            Block::Buffer(buffer) => edit.buffer(lock - plan.cpus, buffer),
        }
    }

    /// Whether a CPU has nothing to do.
    pub fn is_at_rest(&self, c: usize) -> bool {
        let cpu = &self.cpus[c];
        let is_between = cpu.section.is_none() && cpu.hand.is_none();
        let is_idle = is_between && cpu.current.is_none() && cpu.ready.is_empty();
        self.pending(c).is_empty() && (is_idle || (is_between && self.have_all_ended(c)))
    }

    /// Whether no CPU has anything to do.
    pub fn is_quiet(&self) -> bool {
        (0..self.cpus.len()).all(|c| self.is_at_rest(c))
    }
}

fn instruction_of(plan: &Plan, thread: u8, guest: &Guest) -> Instruction {
    plan.threads[thread as usize].program.get(guest.line as usize).copied().unwrap_or(Instruction::Exit)
}

/// What the section of a call does, by the call's stage and side.
fn work_of(stage: Stage, side: Side) -> Work {
    let signals = [Work::SigRecv, Work::SigSend];
    match stage {
        Stage::Between | Stage::AcqQ | Stage::Again => Work::AcqQ,
        Stage::Enter => Work::Enter,
        Stage::Shut => Work::Shut,
        Stage::Try => [Work::TryTake, Work::TryPut][side as usize],
        Stage::Wait => Work::Wait,
        Stage::Join => Work::Join,
        Stage::Other => signals[side.other() as usize],
        Stage::Own => signals[side as usize],
        Stage::RelQ => Work::RelQ,
        Stage::Returns => Work::Returns,
    }
}

/// The edit of one section of CPU `c`: what it may touch besides the block of its lock.
struct Edit<'e> {
    c: usize,
    plan: &'e Plan,
    mistake: Option<Mistake>,
    cpu: &'e mut Cpu,
    guests: &'e mut Vec<Guest>,
    traces: &'e mut Traces,
    changed: &'e mut Changed,
}

impl<'e> Edit<'e> {
    fn makes(&self, mistake: Mistake) -> bool {
        self.mistake == Some(mistake)
    }

    fn guest(&mut self, t: u8) -> &mut Guest {
        self.changed.guest(t);
        &mut self.guests[t as usize]
    }

    fn put(&mut self, t: u8, place: Place) {
        self.guest(t).place = place;
    }

    /// The current thread leaves the CPU.
    fn leave(&mut self, t: u8, place: Place) {
        self.put(t, place);
        self.cpu.current = None;
    }

    fn send_home(&mut self, pending: &mut Queue) {
        let Some(woken) = self.cpu.hand else { return };
        if !self.makes(Mistake::PendKeepsTheHand) || pending.contains(&woken) {
            self.cpu.hand = None;
        }
        pending.push(woken);
        self.put(woken, Place::Pending(self.plan.threads[woken as usize].home as u8));
        match self.cpu.current {
            Some(t) if self.guests[t as usize].stage == Stage::Returns => self.end_call(t),
            _ => {}
        }
    }

    fn drain(&mut self, pending: &mut Queue, is_yield: bool) {
        let here = Place::Ready(self.c as u8);
        for t in pending.drain(..) {
            self.put(t, here);
            self.cpu.ready.push(t);
        }
        match self.cpu.current {
            Some(t) if is_yield => {
                self.guest(t).line += 1;
                self.leave(t, here);
                self.cpu.ready.push(t);
            }
            _ => {}
        }
    }

    fn wake(&mut self, t: u8) {
        let here = self.c as u8;
        if self.plan.threads[t as usize].home == self.c || self.makes(Mistake::WakesWhereItIs) {
            self.put(t, Place::Ready(here));
            self.cpu.ready.push(t);
        } else {
            self.put(t, Place::Hand(here));
            self.cpu.hand = Some(t);
        }
    }

    /// Does the section that the current thread's call does next. Two CPUs run one thread only in a
    /// kernel with a mistake; a section that finds no call of its thread then does nothing.
    fn buffer(&mut self, b: usize, buffer: &mut Buffer) {
        let Some(t) = self.cpu.current else { return };
        let instruction = instruction_of(self.plan, t, &self.guests[t as usize]);
        let Some((called, side)) = instruction.call() else { return };
        let stage = self.guests[t as usize].stage;
        match stage {
            Stage::AcqQ | Stage::Again => self.acquire(t, buffer, called as u8, instruction),
            Stage::Enter => self.enter(t, buffer, side),
            Stage::Shut => self.shut(t, b, buffer),
            Stage::Try => self.attempt(t, b, buffer, instruction, side),
            Stage::Wait if self.makes(Mistake::WaitFreesFirst) => {
                self.guest(t).stage = Stage::Join;
                self.release(buffer);
            }
            Stage::Wait | Stage::Join => self.wait(t, buffer, called as u8, side),
            Stage::Other => {
                self.signal(buffer, side.other());
                self.guest(t).stage = if self.makes(Mistake::OtherSideOnly) { Stage::RelQ } else { Stage::Own };
            }
            Stage::Own => {
                self.signal(buffer, side);
                self.guest(t).stage = Stage::RelQ;
            }
            Stage::Between | Stage::RelQ | Stage::Returns => {
                self.release(buffer);
                self.guest(t).stage = Stage::Returns;
                if self.cpu.hand.is_none() {
                    self.end_call(t);
                }
            }
        }
    }

    fn acquire(&mut self, t: u8, buffer: &mut Buffer, called: u8, instruction: Instruction) {
        let guest = self.guest(t);
        guest.stage = match guest.stage {
            Stage::AcqQ if instruction.is_close() => Stage::Shut,
            Stage::AcqQ => Stage::Enter,
            _ => Stage::Try,
        };
        if buffer.owner.is_none() {
            buffer.owner = Some(t);
        } else {
            buffer.sleepers.push(t);
            self.leave(t, Place::LockSleeper(called));
        }
    }

    fn enter(&mut self, t: u8, buffer: &mut Buffer, side: Side) {
        let guest = self.guest(t);
        guest.stage = Stage::Try;
        guest.position = buffer.positions[side as usize];
        buffer.positions[side as usize] += 1;
        buffer.lines[side as usize].push(t);
    }

    fn shut(&mut self, t: u8, b: usize, buffer: &mut Buffer) {
        let position = buffer.closes;
        buffer.is_closed = true;
        buffer.closes += 1;
        if self.makes(Mistake::CloseDropsTheItems) {
            buffer.items.clear();
        }
        self.take_effect(t, b, buffer, (Kind::Close, Message::none()), position);
    }

    fn attempt(&mut self, t: u8, b: usize, buffer: &mut Buffer, instruction: Instruction, side: Side) {
        let line = &buffer.lines[side as usize];
        let is_in_turn = line.first() == Some(&t) || (self.makes(Mistake::TakeSkipsTheTurn) && side == Side::Receivers);
        if !is_in_turn || !buffer.allows(side) {
            self.guest(t).stage = Stage::Wait;
            return;
        }
        take_out(&mut buffer.lines[side as usize], t);
        let effect = match instruction {
            Instruction::Send { from, .. } => self.send(t, buffer, from),
            _ if buffer.items.is_empty() || (buffer.is_closed && self.makes(Mistake::ClosedBeforeEmpty)) => {
                (Kind::ReceiveClosed, Message::none())
            }
            _ => (Kind::Receive, buffer.items.remove(0)),
        };
        let position = self.guests[t as usize].position;
        self.take_effect(t, b, buffer, effect, position);
        let found_closed = effect.0 == Kind::SendClosed || effect.0 == Kind::ReceiveClosed;
        if found_closed && self.makes(Mistake::ClosedSignalsNobody) {
            self.guest(t).stage = Stage::RelQ;
        }
    }

    fn send(&mut self, t: u8, buffer: &mut Buffer, from: Registers) -> (Kind, Message) {
        let registers = &self.guests[t as usize].registers;
        let message = match from {
            Registers::One(r) => Message::of(&registers[r..=r]),
            Registers::First(count) => Message::of(&registers[..count]),
        };
        if buffer.is_closed {
            return (Kind::SendClosed, message);
        }
        let is_cut = self.makes(Mistake::FirstWordAlone);
        buffer.items.push(if is_cut { Message::of(&message.words()[..1]) } else { message });
        (Kind::Send, message)
    }

    fn take_effect(&mut self, t: u8, b: usize, buffer: &mut Buffer, (kind, message): (Kind, Message), position: u32) {
        let op = buffer.effects;
        buffer.effects += 1;
        let guest = self.guest(t);
        guest.stage = Stage::Other;
        guest.effect = Some((kind, message));
        self.cpu.begun -= 1;
        self.changed.has_entry = true;
        let entry = Entry { cpu: self.c as u8, thread: t, kind, buffer: b as u8, message, op, position };
        self.cpu.trace = self.traces.longer(self.cpu.trace, entry);
    }

    fn wait(&mut self, t: u8, buffer: &mut Buffer, called: u8, side: Side) {
        let guest = self.guest(t);
        let is_join = guest.stage == Stage::Join;
        guest.stage = Stage::Again;
        buffer.waiting[side as usize].push(t);
        self.leave(t, if side == Side::Receivers { Place::WaitRecv(called) } else { Place::WaitSend(called) });
        if !is_join {
            self.release(buffer);
        }
    }

    fn release(&mut self, buffer: &mut Buffer) {
        let first = pop(&mut buffer.sleepers);
        buffer.owner = if self.makes(Mistake::ReleaseFreesTheLock) { None } else { first };
        if let Some(t) = first {
            self.wake(t);
        }
    }

    fn signal(&mut self, buffer: &mut Buffer, side: Side) {
        if let Some(t) = buffer.first_waiting(side) {
            if buffer.allows(side) {
                take_out(&mut buffer.waiting[side as usize], t);
                self.wake(t);
            }
        }
    }

    /// Ends a call: what it received goes into the registers, and the thread to its next line.
    fn end_call(&mut self, t: u8) {
        let instruction = instruction_of(self.plan, t, &self.guests[t as usize]);
        let guest = self.guest(t);
        guest.stage = Stage::Between;
        guest.line += 1;
        let Some((kind, message)) = guest.effect else { return };
        match (instruction, kind) {
            (Instruction::Receive { to: Registers::One(r), .. }, Kind::Receive) => guest.registers[r] = message.words()[0],
            (Instruction::Receive { to: Registers::First(_), .. }, Kind::Receive) => guest.registers = message.padded(),
            (Instruction::Send { target: Some(line), .. }, Kind::SendClosed) => guest.line = line as u32,
            (Instruction::Receive { target: Some(line), .. }, Kind::ReceiveClosed) => guest.line = line as u32,
            _ => {}
        }
    }
}
