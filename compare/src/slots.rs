//! The slots of descriptors, read from the words of documents 01 and 02 ("Descriptors", lenient; request 2), apart from the port and
//! from the Rust.

/// The slots of a value by the first letter of its type.
fn slots_by(first: Option<&u8>) -> usize {
    if matches!(first, Some(b'J' | b'D')) {
        2
    } else {
        1
    }
}

/// The place behind the type at a place, and its slots.
pub fn field_type(text: &[u8], at: usize) -> Option<(usize, usize)> {
    let base = at + text[at..].iter().take_while(|&&byte| byte == b'[').count();
    let next = match text.get(base)? {
        b'B' | b'C' | b'D' | b'F' | b'I' | b'J' | b'S' | b'Z' => base + 1,
        b'L' => base + 1 + text[base..].iter().position(|&byte| byte == b';')?,
        _ => return None,
    };
    Some((next, slots_by(text.get(at))))
}

/// Where the parameters of a method end, at a `)` or with the text, and their slots; `None` where they can't be read.
pub fn parameters(descriptor: &[u8]) -> Option<(usize, usize)> {
    if descriptor.first() != Some(&b'(') {
        return None;
    }
    let (mut at, mut slots) = (1, 0);
    while at < descriptor.len() && descriptor[at] != b')' {
        let (next, of_type) = field_type(descriptor, at)?;
        at = next;
        slots += of_type;
    }
    Some((at, slots))
}

/// The slots of a method's parameters and of what it returns, which follows the `)` that ends them.
pub fn of_method(descriptor: &[u8]) -> Option<(usize, usize)> {
    let (end, taken) = parameters(descriptor)?;
    let given = match descriptor.get(end + 1)? {
        b'V' => 0,
        letter => slots_by(Some(letter)),
    };
    Some((taken, given))
}

/// The slots of a field, whatever its text.
pub fn of_field(descriptor: &[u8]) -> usize {
    slots_by(descriptor.first())
}
