//! The mistakes that a kernel may make, each with its name.

/// A mistake of a wrong kernel.
#[derive(Clone, Copy, Debug, PartialEq, Eq)]
pub enum Mistake {
    LookAlwaysHits,
    PendKeepsTheHand,
    WakesWhereItIs,
    ReleaseFreesTheLock,
    WaitFreesFirst,
    FirstWordAlone,
    TakeSkipsTheTurn,
    OtherSideOnly,
    ClosedSignalsNobody,
    ClosedBeforeEmpty,
    CloseDropsTheItems,
}

/// Each mistake with its name on the command line, and what the kernel does.
pub const MISTAKES: [(Mistake, &str, &str); 11] = [
    (Mistake::LookAlwaysHits, "look-always-hits", "a CPU enters a critical section before its turn"),
    (Mistake::PendKeepsTheHand, "pend-keeps-the-hand", "a thread that is sent to its home CPU stays in the hand too"),
    (Mistake::WakesWhereItIs, "wakes-where-it-is", "a woken thread joins the ready queue of the CPU that wakes it"),
    (Mistake::ReleaseFreesTheLock, "release-frees-the-lock", "a release wakes the first sleeper and leaves the lock free"),
    (Mistake::WaitFreesFirst, "wait-frees-first", "a wait releases the lock in one section and joins the waiters in the next"),
    (Mistake::FirstWordAlone, "first-word-alone", "a buffer keeps only the first word of a message"),
    (Mistake::TakeSkipsTheTurn, "take-skips-the-turn", "a receive takes a message before its turn in the line"),
    (Mistake::OtherSideOnly, "other-side-only", "a call that took effect signals only the other side"),
    (Mistake::ClosedSignalsNobody, "closed-signals-nobody", "a call that found its buffer closed signals no thread"),
    (Mistake::ClosedBeforeEmpty, "closed-before-empty", "a receive finds a closed buffer closed though it holds messages"),
    (Mistake::CloseDropsTheItems, "close-drops-the-items", "a close drops the messages of its buffer"),
];

impl Mistake {
    /// The mistake of a name.
    pub fn named(name: &str) -> Option<Mistake> {
        MISTAKES.iter().find(|&&(_, known, _)| known == name).map(|&(mistake, _, _)| mistake)
    }

    /// Whether it is a mistake of the spin lock. Then a section is not one event.
    pub fn is_of_the_lock(self) -> bool {
        self == Mistake::LookAlwaysHits
    }
}
