//! What a reader may ask of a state, as `thread 0 WaitRecv and buffer 0 full`.

use super::laws::{Law, Laws, LAWS};
use super::plan::{is_number, Plan};
use super::table::{Halt, Place, System};

/// What may be asked, for a help text.
pub const GRAMMAR: &str = "\
  deadlock             quiet, and some thread has not ended
  law NAME             the law does not hold; `broken`: some law does not hold
  STATE                terms joined by `and`, each optionally after `not`:
    thread T PLACE, some thread PLACE, every thread PLACE
                       PLACE as in the state lines, with or without its number: WaitRecv(0),
                       WaitRecv, in hand, not ended
    cpu C waits|inside|rests|AllEnded|TraceFull
    buffer B full|empty|closed|owned|free
    effects N          so many calls took effect
    quiet              no CPU has anything to do
    deadlock, broken   as above";

/// The kind of a place, without its number.
const PLACES: [(&str, u8); 10] = [
    ("ready", 0), ("running", 1), ("pending", 2), ("hand", 3), ("in hand", 3), ("locksleeper", 4), ("asleep", 4), ("waitrecv", 5),
    ("waitsend", 6), ("ended", 7),
];

#[derive(Clone, Copy, Debug, PartialEq)]
enum Who {
    Thread(usize),
    Some,
    Every,
}

#[derive(Clone, Copy, Debug, PartialEq)]
enum Doing {
    Waits,
    Inside,
    Rests,
    Halted(Halt),
}

#[derive(Clone, Copy, Debug, PartialEq)]
enum Contents {
    Full,
    Empty,
    Closed,
    Owned,
    Free,
}

#[derive(Clone, Debug, PartialEq)]
enum Term {
    Not(Box<Term>),
    Place { who: Who, is_wanted: bool, kind: u8, number: Option<u8> },
    Cpu(usize, Doing),
    Buffer(usize, Contents),
    Effects(u32),
    Quiet,
    Deadlock,
    Broken,
    Law(Law),
}

/// A question that can be asked of the states of a plan.
#[derive(Clone, Debug)]
pub struct Question {
    terms: Vec<Term>,
}

fn kind_of(place: Place) -> (u8, Option<u8>) {
    match place {
        Place::Ready(c) => (0, Some(c)),
        Place::Running(c) => (1, Some(c)),
        Place::Pending(c) => (2, Some(c)),
        Place::Hand(c) => (3, Some(c)),
        Place::LockSleeper(b) => (4, Some(b)),
        Place::WaitRecv(b) => (5, Some(b)),
        Place::WaitSend(b) => (6, Some(b)),
        Place::Ended => (7, None),
    }
}

fn number_below(text: &str, bound: usize) -> Option<usize> {
    let is_known = |&number: &usize| number < bound;
    if is_number(text) { text.parse().ok().filter(is_known) } else { None }
}

fn place_term(who: Who, words: &[&str]) -> Option<Term> {
    let is_wanted = words.first() != Some(&"not");
    let text = words[if is_wanted { 0 } else { 1 }..].join(" ").to_lowercase();
    let (name, number) = match text.split_once('(') {
        None => (text.trim(), None),
        Some((name, number)) => (name.trim(), Some(number.strip_suffix(')')?.parse().ok()?)),
    };
    let kind = PLACES.iter().find(|&&(known, _)| known == name)?.1;
    Some(Term::Place { who, is_wanted, kind, number })
}

fn term_of(words: &[&str], plan: &Plan) -> Option<Term> {
    match *words {
        ["not", ref rest @ ..] => term_of(rest, plan).map(|term| Term::Not(Box::new(term))),
        ["quiet"] => Some(Term::Quiet),
        ["deadlock"] => Some(Term::Deadlock),
        ["broken"] => Some(Term::Broken),
        ["effects", count] if is_number(count) => count.parse().ok().map(Term::Effects),
        ["some", "thread", ref place @ ..] => place_term(Who::Some, place),
        ["every", "thread", ref place @ ..] => place_term(Who::Every, place),
        ["thread", t, ref place @ ..] => place_term(Who::Thread(number_below(t, plan.threads.len())?), place),
        ["cpu", c, doing] => {
            let doing = match doing {
                "waits" => Doing::Waits,
                "inside" => Doing::Inside,
                "rests" => Doing::Rests,
                "AllEnded" => Doing::Halted(Halt::AllEnded),
                "TraceFull" => Doing::Halted(Halt::TraceFull),
                _ => return None,
            };
            number_below(c, plan.cpus).map(|c| Term::Cpu(c, doing))
        }
        ["buffer", b, contents] => {
            let contents = match contents {
                "full" => Contents::Full,
                "empty" => Contents::Empty,
                "closed" => Contents::Closed,
                "owned" => Contents::Owned,
                "free" => Contents::Free,
                _ => return None,
            };
            number_below(b, plan.capacities.len()).map(|b| Term::Buffer(b, contents))
        }
        _ => None,
    }
}

/// How many letters have to be changed, added or left out to make one text the other.
fn distance(one: &str, other: &str) -> usize {
    let other: Vec<char> = other.chars().collect();
    let mut row: Vec<usize> = (0..=other.len()).collect();
    for (i, letter) in one.chars().enumerate() {
        let mut before = row[0];
        row[0] = i + 1;
        for (j, &it) in other.iter().enumerate() {
            let change = before + (it != letter) as usize;
            before = row[j + 1];
            row[j + 1] = change.min(before + 1).min(row[j] + 1);
        }
    }
    row[other.len()]
}

fn law_term(name: &str) -> Result<Term, String> {
    if let Some(law) = Law::named(name) {
        return Ok(Term::Law(law));
    }
    let nearest = LAWS.iter().map(|&(_, known)| (distance(name, known), known)).min();
    let hint = nearest.filter(|&(far, known)| 2 * far <= known.len()).map_or(String::new(), |(_, known)| format!(". Is `{known}` meant?"));
    let known: String = LAWS.iter().map(|(_, known)| format!("\n  {known}")).collect();
    Err(format!("`{name}` is no law{hint} The laws are:{known}"))
}

impl Question {
    /// Reads a question. A fault is told with the grammar, or with the names of the laws.
    pub fn read(text: &str, plan: &Plan) -> Result<Question, String> {
        if let Some(name) = text.trim().strip_prefix("law ") {
            return law_term(name.trim()).map(|term| Question { terms: vec![term] });
        }
        let read = |piece: &str| {
            let words: Vec<&str> = piece.split_whitespace().collect();
            term_of(&words, plan).ok_or_else(|| format!("`{}` cannot be asked of this plan. Ask for\n{GRAMMAR}", piece.trim()))
        };
        text.split(" and ").map(read).collect::<Result<Vec<_>, _>>().map(|terms| Question { terms })
    }

    fn any_term(&self, fits: &dyn Fn(&Term) -> bool) -> bool {
        fn is_so(term: &Term, fits: &dyn Fn(&Term) -> bool) -> bool {
            match term {
                Term::Not(inner) => is_so(inner, fits),
                term => fits(term),
            }
        }
        self.terms.iter().any(|term| is_so(term, fits))
    }

    /// Whether it asks what a CPU does within its sections.
    pub fn is_within_sections(&self) -> bool {
        self.any_term(&|term| match term {
            Term::Cpu(_, Doing::Halted(_)) => false,
            Term::Cpu(..) | Term::Law(Law::OneInside) => true,
            _ => false,
        })
    }

    /// Whether it names a thread or a CPU by its number.
    pub fn names_numbers(&self) -> bool {
        self.any_term(&|term| match term {
            Term::Cpu(..) | Term::Place { who: Who::Thread(_), .. } => true,
            Term::Place { kind, number, .. } => number.is_some() && *kind < 4,
            _ => false,
        })
    }

    /// Why it cannot be asked of states without history, if so.
    pub fn needs_history(&self) -> Option<&'static str> {
        if self.any_term(&|term| matches!(term, Term::Effects(_) | Term::Cpu(_, Doing::Halted(Halt::TraceFull)))) {
            return Some("it asks for the history of a run");
        }
        let is_of_laws = |term: &Term| matches!(term, Term::Broken | Term::Law(_));
        let is_alone = self.terms.len() == 1 && is_of_laws(&self.terms[0]);
        if self.any_term(&is_of_laws) && !is_alone { Some("ask for `broken` alone, or for `law NAME` alone") } else { None }
    }

    /// Whether it asks for laws.
    pub fn asks_for_laws(&self) -> bool {
        self.any_term(&|term| matches!(term, Term::Broken | Term::Law(_)))
    }

    /// Whether a move that breaks these laws, of what a move may do, is what is asked for.
    pub fn is_of_move(&self, broken: Laws) -> bool {
        match self.terms[..] {
            [Term::Broken] => !broken.is_empty(),
            [Term::Law(law)] => broken.has(law),
            _ => false,
        }
    }

    /// Whether a state, in which these laws do not hold, is what is asked for.
    pub fn holds(&self, system: &System, broken: Laws) -> bool {
        self.terms.iter().all(|term| is_so(term, system, broken))
    }
}

fn is_so(term: &Term, system: &System, broken: Laws) -> bool {
    match term {
        Term::Not(inner) => !is_so(inner, system, broken),
        Term::Quiet => system.is_quiet(),
        Term::Deadlock => system.is_quiet() && (0..system.guests.len()).any(|t| !system.has_ended(t)),
        Term::Broken => !broken.is_empty(),
        Term::Law(law) => broken.has(*law),
        Term::Effects(count) => system.cpus.iter().map(|cpu| system.traces.length(cpu.trace)).sum::<u32>() == *count,
        Term::Place { who, is_wanted, kind, number } => {
            let is_there = |t: usize| {
                let (place, at) = kind_of(system.guests[t].place);
                (place == *kind && (number.is_none() || *number == at)) == *is_wanted
            };
            match *who {
                Who::Thread(t) => is_there(t),
                Who::Some => (0..system.guests.len()).any(is_there),
                Who::Every => (0..system.guests.len()).all(is_there),
            }
        }
        Term::Cpu(c, doing) => {
            let section = &system.cpus[*c].section;
            match doing {
                Doing::Waits => section.as_ref().map_or(false, |it| !it.is_inside),
                Doing::Inside => section.as_ref().map_or(false, |it| it.is_inside),
                Doing::Rests => section.is_none(),
                Doing::Halted(halt) => system.halt(*c) == Some(*halt),
            }
        }
        Term::Buffer(b, contents) => {
            let buffer = system.buffer(*b);
            match contents {
                Contents::Full => buffer.items.len() == buffer.capacity,
                Contents::Empty => buffer.items.is_empty(),
                Contents::Closed => buffer.is_closed,
                Contents::Owned => buffer.owner.is_some(),
                Contents::Free => buffer.owner.is_none(),
            }
        }
    }
}
