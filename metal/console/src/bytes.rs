//! Bytes, as a reader gives them and as messages carry them.

ghost use Rattle.std.specs.Prelude.{◌≡◌, ◌<◌};
ghost use Rattle.console.specs.Bytes.{HasTaken, byte_of};

use event_log::Msg;
use std::io::{self, Read};

/// Returns the message that carries a byte.
pub fn message_of(byte: u8) -> Msg
    ensures { byte_of result ≡ byte }
{
    Msg::one(u64::from(byte))
}

/// Returns the byte that a message carries, or a question mark if its first word is no byte.
pub fn byte_of(message: &Msg) -> u8
    ensures { result ≡ byte_of message.now }
{
    let word = message.first();
    if word < 256 { word as u8 } else { b'?' }
}

/// Takes the next byte of a reader, or `None` if the reader has ended.
///
/// Errors: those of the reader. Then no byte was taken.
pub fn next_byte<T: Read>(input: &mut T) -> io::Result<Option<u8>>
    ensures { HasTaken (T.remaining input.old) (T.remaining input.new) result }
{
    let mut byte = [0; 1];
    let count = input.read(&mut byte)?;
    if count == 0 {
        return Ok(None);
    }
    Ok(Some(byte[0]))
}
