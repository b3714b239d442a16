//! The verified thread tower for Rust: bounded FIFO buffers between threads.
//!
//! [`open`] lends a [`Tower`] to a closure. The closure takes [`Caller`]s, [`Sender`]s and [`Receiver`]s, and moves
//! them to scoped threads. Wrong calls of the C interface do not compile here, or are an [`Error`]: a caller is used
//! by one thread at a time, does not outlive its tower, and names only buffers of its tower. The library's calls are
//! the only unsafe code. A child of a fork gets [`Error::Forked`] from each call.
//!
//! ```
//! let (sum, left) = tower::open(&[4], 2, |t| {
//!     let buffer = t.buffer(0).unwrap();
//!     let (mut to, from) = (t.sender(buffer).unwrap(), t.receiver(buffer).unwrap());
//!     std::thread::scope(|s| {
//!         s.spawn(move || {
//!             for number in 1..=9u64 {
//!                 to.send(&[number]).unwrap();
//!             }
//!             to.close().unwrap();
//!         });
//!         from.map(|message| message[0]).sum::<u64>()
//!     })
//! })
//! .unwrap();
//! assert_eq!((sum, left[0].len()), (45, 0));
//! ```
use std::ffi::{c_char, c_int, c_void, CStr};
use std::iter::FusedIterator;
use std::marker::PhantomData;
use std::ops::Deref;
use std::sync::atomic::{AtomicPtr, Ordering};
use std::{fmt, ptr};

/// The most words of a message.
pub const WORDS: usize = 8;

/// The most bytes of a message.
pub const BYTES: usize = 63;

const BYTES_ROOM: usize = 64;
const CAPACITY: usize = 32;

mod sys {
    use super::{c_char, c_int, c_void, Rest};

    #[link(name = "tower", kind = "static")]
    extern "C" {
        pub fn tower_open(opened: *mut *mut c_void, capacities: *const u8, buffers: usize, callers: usize) -> c_int;
        pub fn tower_take(tower: *mut c_void, taken: *mut *mut c_void) -> c_int;
        pub fn tower_send(caller: *mut c_void, buffer: usize, words: *const u64, count: usize) -> c_int;
        pub fn tower_recv(caller: *mut c_void, buffer: usize, words: *mut u64, count: *mut usize) -> c_int;
        pub fn tower_send_bytes(caller: *mut c_void, buffer: usize, bytes: *const u8, count: usize) -> c_int;
        pub fn tower_recv_bytes(caller: *mut c_void, buffer: usize, bytes: *mut u8, count: *mut usize) -> c_int;
        pub fn tower_close(caller: *mut c_void, buffer: usize) -> c_int;
        pub fn tower_leave(caller: *mut c_void) -> c_int;
        pub fn tower_left(tower: *const c_void, buffer: usize, count: *mut usize) -> c_int;
        pub fn tower_shut(tower: *mut c_void, rest: *mut Rest) -> c_int;
        pub fn tower_text(status: c_int) -> *const c_char;
    }
}

/// Why a call did nothing.
#[derive(Clone, Copy, Debug, PartialEq, Eq)]
#[non_exhaustive]
pub enum Error {
    /// The allocator failed.
    NoMemory,
    /// There is no room for a caller's stack.
    NoThread,
    /// The buffer is closed and, for a receive, empty.
    Closed,
    /// A message has at least one byte.
    NoBytes,
    /// A message has at most [`BYTES`] bytes.
    TooLong,
    /// A tower has 1 to 16 callers.
    BadCallers,
    /// A tower has at most 16 buffers.
    BadBuffers,
    /// A buffer holds 1 to 32 messages.
    BadCapacity,
    /// All callers of the tower are taken.
    NoCaller,
    /// A caller was forgotten, and never left.
    NotLeft,
    /// The processor lacks an instruction.
    NoProcessor,
    /// This process is a child of the one that opened the tower.
    Forked,
    /// Another status of the C library.
    Other(i32),
}

impl Error {
    fn of(status: c_int) -> Error {
        match status {
            1 => Error::NoMemory,
            5 => Error::NoThread,
            16 => Error::Closed,
            66 => Error::NoBytes,
            67 => Error::TooLong,
            68 => Error::BadCallers,
            69 => Error::BadBuffers,
            70 => Error::BadCapacity,
            82 => Error::NoCaller,
            83 => Error::NotLeft,
            85 => Error::NoProcessor,
            86 => Error::Forked,
            other => Error::Other(other),
        }
    }

    /// The status of the C library.
    pub fn status(self) -> i32 {
        match self {
            Error::NoMemory => 1,
            Error::NoThread => 5,
            Error::Closed => 16,
            Error::NoBytes => 66,
            Error::TooLong => 67,
            Error::BadCallers => 68,
            Error::BadBuffers => 69,
            Error::BadCapacity => 70,
            Error::NoCaller => 82,
            Error::NotLeft => 83,
            Error::NoProcessor => 85,
            Error::Forked => 86,
            Error::Other(status) => status,
        }
    }
}

impl fmt::Display for Error {
    fn fmt(&self, out: &mut fmt::Formatter) -> fmt::Result {
        let text = unsafe { CStr::from_ptr(sys::tower_text(self.status())) };
        write!(out, "{}", text.to_string_lossy())
    }
}

impl std::error::Error for Error {}

fn judged(status: c_int) -> Result<(), Error> {
    match status {
        0 => Ok(()),
        status => Err(Error::of(status)),
    }
}

/// A message of words: `[u64; 1]` to `[u64; 8]`. An array of another length does not compile.
pub trait Words {
    /// The words.
    fn words(&self) -> &[u64];
}

macro_rules! words {
    ($($count:literal)*) => { $(impl Words for [u64; $count] { fn words(&self) -> &[u64] { self } })* };
}
words! { 1 2 3 4 5 6 7 8 }

impl Words for Message {
    fn words(&self) -> &[u64] {
        self
    }
}

/// A message that was received: a slice of one to eight words.
#[derive(Clone, Copy)]
#[repr(C)]
pub struct Message {
    count: usize,
    words: [u64; WORDS],
}

impl Deref for Message {
    type Target = [u64];
    fn deref(&self) -> &[u64] {
        &self.words[..self.count]
    }
}

impl PartialEq for Message {
    fn eq(&self, other: &Message) -> bool {
        **self == **other
    }
}

impl Eq for Message {}

impl fmt::Debug for Message {
    fn fmt(&self, out: &mut fmt::Formatter) -> fmt::Result {
        (**self).fmt(out)
    }
}

const NONE: Message = Message { count: 0, words: [0; WORDS] };

/// A message of 1 to 63 bytes that was received.
#[derive(Clone, Copy)]
pub struct Bytes {
    count: usize,
    bytes: [u8; BYTES_ROOM],
}

impl Deref for Bytes {
    type Target = [u8];
    fn deref(&self) -> &[u8] {
        &self.bytes[..self.count]
    }
}

impl fmt::Debug for Bytes {
    fn fmt(&self, out: &mut fmt::Formatter) -> fmt::Result {
        (**self).fmt(out)
    }
}

/// What is received where bytes are asked for.
#[derive(Clone, Copy, Debug)]
pub enum Received {
    /// A message that was sent as bytes.
    Bytes(Bytes),
    /// A message that was sent as words.
    Words(Message),
}

/// What is left in a buffer.
#[derive(Clone, Copy)]
#[repr(C)]
pub(crate) struct Rest {
    count: usize,
    messages: [Message; CAPACITY],
}

// The mark of one tower: each has another lifetime, which is neither longer nor shorter than any other.
type Mark<'t> = PhantomData<fn(&'t ()) -> &'t ()>;

// A pointer that the library gave. The library may be called with it in any thread.
struct Handle(AtomicPtr<c_void>);

impl Handle {
    fn at(&self) -> *mut c_void {
        self.0.load(Ordering::Relaxed)
    }
}

/// An open tower.
pub struct Tower<'t> {
    handle: Handle,
    buffers: usize,
    mark: Mark<'t>,
}

/// A buffer of the tower `'t`.
#[derive(Clone, Copy, Debug, PartialEq, Eq)]
pub struct Buffer<'t> {
    number: usize,
    mark: Mark<'t>,
}

/// A caller, which one thread uses at a time. It leaves when it is dropped.
pub struct Caller<'t> {
    handle: Handle,
    tower: Handle,
    mark: Mark<'t>,
}

// Takes a caller of an open tower, whose mark the caller gets.
fn taken<'t>(tower: &Handle) -> Result<Caller<'t>, Error> {
    let mut at = ptr::null_mut();
    judged(unsafe { sys::tower_take(tower.at(), &mut at) })?;
    Ok(Caller { handle: Handle(AtomicPtr::new(at)), tower: Handle(AtomicPtr::new(tower.at())), mark: PhantomData })
}

// Shuts a tower, also where the closure panics.
struct Open(*mut c_void);

impl Drop for Open {
    fn drop(&mut self) {
        unsafe { sys::tower_shut(self.0, ptr::null_mut()) };
    }
}

/// Opens a tower with buffers of these capacities, lends it to `body`, and shuts it. Returns what `body` returns, and
/// for each buffer the messages that are left.
pub fn open<T>(
    capacities: &[u8],
    callers: usize,
    body: impl for<'t> FnOnce(&Tower<'t>) -> T,
) -> Result<(T, Vec<Vec<Message>>), Error> {
    let mut at = ptr::null_mut();
    judged(unsafe { sys::tower_open(&mut at, capacities.as_ptr(), capacities.len(), callers) })?;
    let open = Open(at);
    let mut rest = vec![Rest { count: 0, messages: [NONE; CAPACITY] }; capacities.len()];
    let returned = body(&Tower { handle: Handle(AtomicPtr::new(at)), buffers: capacities.len(), mark: PhantomData });
    std::mem::forget(open);
    judged(unsafe { sys::tower_shut(at, rest.as_mut_ptr()) })?;
    let left = rest.iter().map(|buffer| buffer.messages[..buffer.count].to_vec()).collect();
    Ok((returned, left))
}

impl<'t> Tower<'t> {
    /// The buffer of this number, if there is one.
    pub fn buffer(&self, number: usize) -> Option<Buffer<'t>> {
        (number < self.buffers).then_some(Buffer { number, mark: PhantomData })
    }

    /// Takes a caller.
    pub fn caller(&self) -> Result<Caller<'t>, Error> {
        taken(&self.handle)
    }

    /// Takes a caller that sends to this buffer.
    pub fn sender(&self, to: Buffer<'t>) -> Result<Sender<'t>, Error> {
        Ok(Sender { caller: self.caller()?, to })
    }

    /// Takes a caller that receives from this buffer.
    pub fn receiver(&self, from: Buffer<'t>) -> Result<Receiver<'t>, Error> {
        Ok(Receiver { caller: self.caller()?, from })
    }

    /// How many messages are in a buffer: exact while no call on it is running, else an estimate.
    pub fn left(&self, buffer: Buffer<'t>) -> Result<usize, Error> {
        let mut count = 0;
        judged(unsafe { sys::tower_left(self.handle.at(), buffer.number, &mut count) })?;
        Ok(count)
    }
}

impl<'t> Caller<'t> {
    /// Sends a message, once the buffer has room and it is this caller's turn.
    pub fn send(&mut self, to: Buffer<'t>, message: &impl Words) -> Result<(), Error> {
        let words = message.words();
        judged(unsafe { sys::tower_send(self.handle.at(), to.number, words.as_ptr(), words.len()) })
    }

    /// Sends 1 to 63 bytes.
    pub fn send_bytes(&mut self, to: Buffer<'t>, bytes: &[u8]) -> Result<(), Error> {
        judged(unsafe { sys::tower_send_bytes(self.handle.at(), to.number, bytes.as_ptr(), bytes.len()) })
    }

    /// Receives the oldest message, once there is one and it is this caller's turn; [`Error::Closed`] if the buffer is
    /// closed and empty by then.
    pub fn recv(&mut self, from: Buffer<'t>) -> Result<Message, Error> {
        let mut got = NONE;
        judged(unsafe { sys::tower_recv(self.handle.at(), from.number, got.words.as_mut_ptr(), &mut got.count) })?;
        Ok(got)
    }

    /// Receives a message that is expected to have been sent as bytes.
    pub fn recv_bytes(&mut self, from: Buffer<'t>) -> Result<Received, Error> {
        const NOT_BYTES: c_int = 87;
        let mut got = Bytes { count: 0, bytes: [0; BYTES_ROOM] };
        match unsafe { sys::tower_recv_bytes(self.handle.at(), from.number, got.bytes.as_mut_ptr(), &mut got.count) } {
            0 => Ok(Received::Bytes(got)),
            NOT_BYTES => Ok(Received::Words(words_in(&got))),
            status => Err(Error::of(status)),
        }
    }

    /// Closes a buffer.
    pub fn close(&mut self, buffer: Buffer<'t>) -> Result<(), Error> {
        judged(unsafe { sys::tower_close(self.handle.at(), buffer.number) })
    }
}

fn words_in(bytes: &[u8]) -> Message {
    let mut message = NONE;
    for (word, eight) in message.words.iter_mut().zip(bytes.chunks_exact(8)) {
        *word = u64::from_ne_bytes(eight.try_into().unwrap());
        message.count += 1;
    }
    message
}

impl Drop for Caller<'_> {
    fn drop(&mut self) {
        unsafe { sys::tower_leave(self.handle.at()) };
    }
}

/// The sending half of a buffer, with a caller of its own. A copy needs another caller, and there are at most 16, so a
/// half has no `Clone`: [`Sender::try_clone`] returns a copy or an error.
pub struct Sender<'t> {
    caller: Caller<'t>,
    to: Buffer<'t>,
}

impl<'t> Sender<'t> {
    /// A further sending half of the same buffer; [`Error::NoCaller`] if all callers are taken.
    pub fn try_clone(&self) -> Result<Sender<'t>, Error> {
        Ok(Sender { caller: taken(&self.caller.tower)?, to: self.to })
    }

    /// As [`Caller::send`].
    pub fn send(&mut self, message: &impl Words) -> Result<(), Error> {
        self.caller.send(self.to, message)
    }

    /// As [`Caller::send_bytes`].
    pub fn send_bytes(&mut self, bytes: &[u8]) -> Result<(), Error> {
        self.caller.send_bytes(self.to, bytes)
    }

    /// Closes the buffer for all of its senders.
    pub fn close(&mut self) -> Result<(), Error> {
        self.caller.close(self.to)
    }
}

/// The receiving half of a buffer, with a caller of its own. It iterates until the buffer is closed and empty.
pub struct Receiver<'t> {
    caller: Caller<'t>,
    from: Buffer<'t>,
}

impl<'t> Receiver<'t> {
    /// A further receiving half of the same buffer; [`Error::NoCaller`] if all callers are taken.
    pub fn try_clone(&self) -> Result<Receiver<'t>, Error> {
        Ok(Receiver { caller: taken(&self.caller.tower)?, from: self.from })
    }

    /// As [`Caller::recv`].
    pub fn recv(&mut self) -> Result<Message, Error> {
        self.caller.recv(self.from)
    }

    /// As [`Caller::recv_bytes`].
    pub fn recv_bytes(&mut self) -> Result<Received, Error> {
        self.caller.recv_bytes(self.from)
    }
}

impl Iterator for Receiver<'_> {
    type Item = Message;

    fn next(&mut self) -> Option<Message> {
        match self.recv() {
            Ok(message) => Some(message),
            Err(Error::Closed) => None,
            Err(error) => panic!("{error}"),
        }
    }
}

impl FusedIterator for Receiver<'_> {}
