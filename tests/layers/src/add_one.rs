//! The edit of the tests of words.

use layer_traits::{Payload, SplitEdit};

/// Adds 1 to a number modulo 2^64, and answers the old number.
#[derive(Drop)]
pub struct AddOne;

impl AddOne {
    /// Adds 1 to this number, and returns the old one.
    pub fn to(number: &mut u64) -> u64 {
        AddOne::apply_request(&AddOne, number, &mut Payload::new())
    }
}

impl SplitEdit for AddOne {
    type Block = u64;

    type Out = u64;

    type Request = AddOne;

    type Response = u64;

    ghost protocol = { tt };

    ghost abstract_call = { tt };

    ghost abstract_answer = { tt };

    fn whole(_handed: &AddOne, _payload: &Payload) -> AddOne {
        AddOne
    }

    fn apply_request(_handed: &AddOne, block: &mut u64, _payload: &mut Payload) -> u64 {
        let old = *block;
        *block = old.wrapping_add(1);
        old
    }
}
