//! Tables that keep each different value once and give it a number. Values are kept whole, so two
//! of them have one number only if they are equal.

/// The numbers of kept values, found by a hash: an open table of powers of two.
#[derive(Default)]
pub struct Index {
    slots: Vec<u32>,
    count: usize,
}

const EMPTY: u32 = u32::MAX;
/// More pairs than one state more can add.
const SOME: usize = 1024;

impl Index {
    /// The number of a kept value with this hash that fits, or the slot for its number.
    fn find(&self, hash: u64, fits: impl Fn(u32) -> bool) -> Result<u32, usize> {
        let mask = self.slots.len() - 1;
        let mut slot = (hash >> 32) as usize & mask;
        loop {
            match self.slots[slot] {
                EMPTY => return Err(slot),
                number if fits(number) => return Ok(number),
                _ => slot = (slot + 1) & mask,
            }
        }
    }

    fn is_full(&self) -> bool {
        (self.count + 1) * 2 > self.slots.len()
    }

    fn put(&mut self, slot: usize, number: u32) {
        self.slots[slot] = number;
        self.count += 1;
    }

    /// Doubles the table, given the hash of each kept value.
    fn grow(&mut self, hash_of: impl Fn(u32) -> u64) {
        let size = (self.slots.len() * 2).max(64);
        let old = std::mem::replace(&mut self.slots, vec![EMPTY; size]);
        for number in old.into_iter().filter(|&it| it != EMPTY) {
            let mut slot = (hash_of(number) >> 32) as usize & (size - 1);
            while self.slots[slot] != EMPTY {
                slot = (slot + 1) & (size - 1);
            }
            self.slots[slot] = number;
        }
    }

    fn bytes(&self) -> usize {
        self.slots.capacity() * 4
    }
}

/// Mixes a word into a hash.
pub fn mix(hash: u64, word: u64) -> u64 {
    let product = (hash ^ word) as u128 * 0x9E37_79B9_7F4A_7C15_u128;
    (product as u64) ^ (product >> 64) as u64
}

fn hash_bytes(bytes: &[u8]) -> u64 {
    let mut hash = bytes.len() as u64 ^ 0xD1B5_4A32_D192_ED03;
    for part in bytes.chunks(8) {
        let mut word = [0; 8];
        word[..part.len()].copy_from_slice(part);
        hash = mix(hash, u64::from_le_bytes(word));
    }
    mix(hash, 0xA076_1D64_78BD_642F)
}

fn hash_pair(pair: u64) -> u64 {
    mix(mix(0xD1B5_4A32_D192_ED03, pair), 0xA076_1D64_78BD_642F)
}

/// Texts of bytes, each kept once.
#[derive(Default)]
pub struct Texts {
    bytes: Vec<u8>,
    ends: Vec<usize>,
    index: Index,
}

impl Texts {
    /// The text of a number.
    pub fn get(&self, number: u32) -> &[u8] {
        let number = number as usize;
        let begin = if number == 0 { 0 } else { self.ends[number - 1] };
        &self.bytes[begin..self.ends[number]]
    }

    /// The number of a text, which is kept from then on.
    pub fn number(&mut self, text: &[u8]) -> u32 {
        if self.index.is_full() {
            let mut index = std::mem::replace(&mut self.index, Index::default());
            index.grow(|number| hash_bytes(self.get(number)));
            self.index = index;
        }
        match self.index.find(hash_bytes(text), |number| self.get(number) == text) {
            Ok(number) => number,
            Err(slot) => {
                let number = self.ends.len() as u32;
                self.bytes.extend_from_slice(text);
                self.ends.push(self.bytes.len());
                self.index.put(slot, number);
                number
            }
        }
    }

    /// The bytes that the table takes.
    pub fn memory(&self) -> usize {
        self.bytes.capacity() + self.ends.capacity() * 8 + self.index.bytes()
    }
}

/// Pairs of numbers, each kept once.
#[derive(Default)]
pub struct Pairs {
    pairs: Vec<u64>,
    index: Index,
}

fn joined(left: u32, right: u32) -> u64 {
    (left as u64) << 32 | right as u64
}

impl Pairs {
    /// The pair of a number.
    pub fn get(&self, number: u32) -> (u32, u32) {
        let pair = self.pairs[number as usize];
        ((pair >> 32) as u32, pair as u32)
    }

    /// The number of a pair, if it is kept.
    pub fn known(&self, left: u32, right: u32) -> Option<u32> {
        if self.pairs.is_empty() {
            return None;
        }
        let pair = joined(left, right);
        self.index.find(hash_pair(pair), |number| self.pairs[number as usize] == pair).ok()
    }

    /// The number of a pair, which is kept from then on, and whether it is new.
    pub fn number(&mut self, left: u32, right: u32) -> (u32, bool) {
        let pair = joined(left, right);
        let Pairs { pairs, index } = self;
        if index.is_full() {
            index.grow(|number| hash_pair(pairs[number as usize]));
        }
        match index.find(hash_pair(pair), |number| pairs[number as usize] == pair) {
            Ok(number) => (number, false),
            Err(slot) => {
                let number = pairs.len() as u32;
                pairs.push(pair);
                index.put(slot, number);
                (number, true)
            }
        }
    }

    /// The bytes that the table takes.
    pub fn memory(&self) -> usize {
        self.pairs.capacity() * 8 + self.index.bytes()
    }

    /// How much more memory some pairs more may take: tables grow by doubling, and while an index
    /// grows the old one is kept.
    pub fn growth(&self) -> usize {
        let pairs = if self.pairs.len() + SOME > self.pairs.capacity() { self.pairs.capacity() * 8 } else { 0 };
        let is_full = (self.index.count + SOME) * 2 > self.index.slots.len();
        pairs + if is_full { 2 * self.index.bytes() } else { 0 }
    }
}
