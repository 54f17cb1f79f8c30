//! The wordings of a message (document 02, request 11), and the rule of the second, written apart from the library: the words of the
//! first with another one at two opcodes, and nowhere else.

#[derive(Clone, Copy, PartialEq)]
pub enum Wording {
    /// The text of before, which is the Rust's.
    First,
    /// That of a call that names none. The Rust does not have it.
    Second,
}

pub const WORDINGS: [Wording; 2] = [Wording::First, Wording::Second];

/// Numbers that are no wording, near those that are and at the edges of one, two and four bytes.
pub const OTHERS: [u32; 12] = [0, 3, 4, 9, 11, 255, 256, 257, 258, 65_537, 0x8000_0001, u32::MAX];

impl Wording {
    /// The number that names it.
    pub fn number(self) -> u32 {
        match self {
            Wording::First => 1,
            Wording::Second => 2,
        }
    }
}

const BALOAD: u8 = 51;
const BASTORE: u8 = 84;

/// The action in both wordings, at an opcode that is of byte arrays and of boolean arrays (JVMS 6.5).
fn actions(opcode: u8) -> Option<[&'static [u8]; 2]> {
    match opcode {
        BALOAD => Some([b"Cannot load from byte array", b"Cannot load from byte/boolean array"]),
        BASTORE => Some([b"Cannot store to byte array", b"Cannot store to byte/boolean array"]),
        _ => None,
    }
}

/// The message of the second wording for a fault at an opcode, from that of the first.
pub fn second(opcode: Option<u8>, first: &[u8]) -> Vec<u8> {
    match opcode.and_then(actions) {
        Some([was, is]) => [is, behind(was, first)].concat(),
        None => first.to_vec(),
    }
}

/// What a message has behind its action.
fn behind<'a>(action: &[u8], message: &'a [u8]) -> &'a [u8] {
    message.strip_prefix(action).expect("the Rust's message begins with its action")
}

/// Whether the first wording's message for a fault at an opcode has the word of the second's change where it must stay: in names,
/// parameters and classes.
pub fn stays(opcode: Option<u8>, first: &[u8]) -> bool {
    let rest = match opcode.and_then(actions) {
        Some([action, _]) => behind(action, first),
        None => first,
    };
    rest.windows(4).any(|four| four == b"byte")
}
