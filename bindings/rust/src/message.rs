//! `build_message` with the shape of the Rust's: it lays out a case from what the virtual machine has at hand, and reports.
use crate::case::{Case, Kind, LocalRecord, Member};
use crate::{report_in, unknown, Answer, Manner};
use std::collections::BTreeMap;

/// Fields and methods are cited by the operand behind these opcodes: getstatic to invokeinterface.
const CITING: std::ops::RangeInclusive<u8> = 178..=185;

/// What an opcode cites: the first four a field, the others a method.
fn cited_kind(opcode: u8) -> Kind {
    if opcode <= 181 {
        Kind::Field
    } else {
        Kind::Method
    }
}

/// The members that some byte of the code could cite. A walk may enter anywhere, so every byte that has such an opcode's value
/// counts. A case holds one member to a pool index; the constant pool too has one entry there.
fn cited_members(code: &[u8], lookup: &impl Fn(u16, Kind) -> Option<Member>) -> Vec<(u16, Member)> {
    let mut members = BTreeMap::new();
    for place in code.windows(3) {
        if CITING.contains(&place[0]) {
            let index = u16::from_be_bytes([place[1], place[2]]);
            if index > 0 {
                if let Some(member) = lookup(index, cited_kind(place[0])) {
                    members.entry(index).or_insert(member);
                }
            }
        }
    }
    members.into_iter().collect()
}

/// The message for a fault, or `None` where there is none: in the place of rusty-jvm's `build_message`, but in wording 2. For its
/// very words name wording 1, by [`build_message_in`].
///
/// `lookup` answers the member at a pool index if it is of that kind, as `get_full_field_info` and `get_full_method_info` do.
/// `None` also where a case can't hold the method (a text or a code above 65,535 bytes, a case above 1,048,576).
///
/// ```
/// use korsepal::{build_message, Kind, Member};
///
/// let lookup = |index: u16, kind: Kind| {
///     (index == 1 && kind == Kind::Method).then(|| Member {
///         kind,
///         class: b"java/lang/String".to_vec(),
///         name: b"length".to_vec(),
///         descriptor: b"()I".to_vec(),
///     })
/// };
/// let message = build_message(8, &[0x2a, 0xb6, 0, 1, 0x57, 0xb1], "m:(Ljava/lang/String;)V", lookup, &[], 1);
/// assert_eq!(message.as_deref(), Some("Cannot invoke \"String.length()\" because \"<parameter1>\" is null"));
/// ```
pub fn build_message(
    access_flags: u16,
    code: &[u8],
    name_signature: &str,
    lookup: impl Fn(u16, Kind) -> Option<Member>,
    records: &[LocalRecord],
    fault: usize,
) -> Option<String> {
    build_message_in(Manner::default(), access_flags, code, name_signature, lookup, records, fault)
}

/// The message in a manner. Otherwise as [`build_message`].
///
/// # Panics
///
/// Where the manner's wording is neither 1 nor 2, whatever the method: `None` would say that there is no message. So does an answer that
/// this crate does not know, of an archive that is newer. [`report_in`] has a variant for each and does not panic.
pub fn build_message_in(
    manner: Manner,
    access_flags: u16,
    code: &[u8],
    name_signature: &str,
    lookup: impl Fn(u16, Kind) -> Option<Member>,
    records: &[LocalRecord],
    fault: usize,
) -> Option<String> {
    // A wording is judged before there is a case, as in a report.
    if report_in(manner, &[], &mut [], &mut []) == Answer::NoWording {
        no_wording(manner);
    }
    let case = Case {
        flags: access_flags,
        fault: u16::try_from(fault).ok()?,
        code: code.to_vec(),
        signature: name_signature.as_bytes().to_vec(),
        members: cited_members(code, &lookup),
        records: records.to_vec(),
    };
    let bytes = case.bytes()?;
    let mut stack = vec![0; 256];
    let mut output = vec![0; 512];
    loop {
        match report_in(manner, &bytes, &mut stack, &mut output) {
            Answer::Message { text, .. } => return String::from_utf8(text.to_vec()).ok(),
            Answer::NoRoom { .. } => stack = vec![0; stack.len() * 4],
            Answer::NoOutput { needed } => output = vec![0; needed as usize],
            Answer::NoMessage | Answer::Broken { .. } | Answer::TooLong => return None,
            Answer::NoWording => no_wording(manner),
            Answer::Unknown(number) => unknown("answer", number),
        }
    }
}

/// A caller's mistake.
fn no_wording(manner: Manner) -> ! {
    panic!("{} is no wording: a message is had in wording 1 or 2", manner.wording_number())
}
