//! A first-in first-out buffer that can be closed, as the plain program beside this file keeps it.

use std::collections::VecDeque;

/// What a buffer carries: at least one word. Behind the words that are there stand zeroes.
#[derive(Clone, Copy, PartialEq)]
pub struct Message {
    pub words: [u64; 8],
    pub count: usize,
}

pub struct Buffer {
    pub capacity: usize,
    pub items: VecDeque<Message>,
    pub ops: u64,
    /// Effects by the call that had them: sends, receives, closes.
    pub calls: [u64; 3],
}

impl Buffer {
    pub fn is_closed(&self) -> bool {
        self.calls[2] > 0
    }
}
