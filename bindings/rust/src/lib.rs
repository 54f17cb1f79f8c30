//! Korsepal, the proved null-report module: what failed at a null dereference, and which local was null.
//!
//! The functions are those of the C interface over slices. Each takes any input and ends; nothing is allocated and nothing is
//! kept, except by [`build_message`], which lays out a case first. "Document 01" is the customer's requirements.
//!
//! A report is asked for in a [`Manner`]: [`report_in`], [`walk_in`] and [`build_message_in`] take one, the functions without it
//! have the default, document 01's model and wording 2.
//!
//! ```
//! use korsepal::{report, Answer};
//!
//! // A static method, `m:(Ljava/lang/String;)V`: aload_0, then invokevirtual String.length at index 1.
//! let case = b"\x08\x01\x06\x2a\xb6\x00\x01\x57\xb1\x17m:(Ljava/lang/String;)V\
//!              \x01\x01\x01\x10java/lang/String\x06length\x03()I\x00";
//! let mut stack = [0; 16];
//! let mut output = [0; 256];
//! let Answer::Message { text, kind, scan, block } = report(case, &mut stack, &mut output) else {
//!     panic!("this case has a message");
//! };
//! assert_eq!(text, b"Cannot invoke \"String.length()\" because \"<parameter1>\" is null");
//! assert_eq!((kind, scan, block), (2, 4, 1));
//! ```

mod case;
mod ffi;
mod manner;
mod message;

pub use case::{put_number, Case, Kind, LocalRecord, Member, GREATEST};
pub use manner::Manner;
pub use message::{build_message, build_message_in};

/// What a report answers: a variant for each number of documents 01 and 02, and one for a number that this crate does not know.
/// Further ones may come.
#[derive(Clone, Copy, Debug, PartialEq, Eq)]
#[non_exhaustive]
pub enum Answer<'a> {
    /// 0: the message, written at the start of the output, the rest of which is unchanged. Kind 1 is the action, 2 the action
    /// and the cause; `scan` counts the instructions of the code, or those before the first that has no length, `block` those
    /// that the walk completed.
    Message { text: &'a [u8], kind: u32, scan: u32, block: u32 },
    /// 1: there is no message.
    NoMessage,
    /// 2: the case breaks its layout; the offset of the first wrong item.
    Broken { at: u64 },
    /// 3: the stack lacks room after the instruction at an index.
    NoRoom { at: u64 },
    /// 4: the output lacks room for the whole message; its length.
    NoOutput { needed: u64 },
    /// 5: the case has more than 1,048,576 bytes.
    TooLong,
    /// 11: there is no such wording. It comes before every other answer.
    NoWording,
    /// A number that is none of these: the archive is newer than this crate. It is handed on as it is, and never read as another.
    Unknown(u32),
}

/// A number of another answer that this crate does not know: it is older than the archive that it was linked with.
fn unknown(what: &str, number: u32) -> ! {
    panic!("this crate knows no {what} {number}: it is older than its archive")
}

/// The report of a case in document 01's model and in wording 2. The stack is all zero afterwards; on every answer but a message
/// the output is unchanged.
pub fn report<'a>(case: &[u8], stack: &mut [u64], output: &'a mut [u8]) -> Answer<'a> {
    report_in(Manner::default(), case, stack, output)
}

/// The report of a case in a manner. Otherwise as [`report`].
pub fn report_in<'a>(manner: Manner, case: &[u8], stack: &mut [u64], output: &'a mut [u8]) -> Answer<'a> {
    // SAFETY: each pointer goes with the count of its slice, and the slices don't overlap.
    let r = unsafe {
        ffi::korsepal_report_in(
            u32::from(manner.is_full()),
            manner.wording_number(),
            case.as_ptr(),
            case.len(),
            stack.as_mut_ptr(),
            stack.len(),
            output.as_mut_ptr(),
            output.len(),
        )
    };
    match r.answer {
        0 => Answer::Message { text: &output[..r.value as usize], kind: r.kind, scan: r.scan, block: r.block },
        1 => Answer::NoMessage,
        2 => Answer::Broken { at: r.value },
        3 => Answer::NoRoom { at: r.value },
        4 => Answer::NoOutput { needed: r.value },
        5 => Answer::TooLong,
        11 => Answer::NoWording,
        number => Answer::Unknown(number),
    }
}

/// What measuring the instruction at an index answers. Further reasons for having no length may come.
#[derive(Clone, Copy, Debug, PartialEq, Eq)]
#[non_exhaustive]
pub enum Measure {
    /// Its bytes, the opcode among them.
    Length(u64),
    /// There is no byte at the index, or the instruction would pass the end of the code.
    Cut,
    /// The byte is reserved, 202 to 255: no instruction has it as its opcode.
    Reserved,
}

/// Measures the instruction at an index.
pub fn measure(code: &[u8], pc: u64) -> Measure {
    // SAFETY: as in `report_in`.
    let r = unsafe { ffi::korsepal_instruction_length(code.as_ptr(), code.len(), pc) };
    match r.status {
        0 => Measure::Length(r.length),
        1 => Measure::Cut,
        2 => Measure::Reserved,
        number => unknown("measure", number),
    }
}

/// The length of the instruction at an index, or `None` where it has none; `measure` says why.
pub fn instruction_length(code: &[u8], pc: u64) -> Option<u64> {
    match measure(code, pc) {
        Measure::Length(length) => Some(length),
        Measure::Cut | Measure::Reserved => None,
    }
}

/// What the scan of a code answers.
#[derive(Clone, Copy, Debug, PartialEq, Eq)]
pub struct Leader {
    /// The greatest leader at or below the fault; `None` where some instruction has no length, be it cut or reserved.
    pub leader: Option<u64>,
    /// The instructions that were measured.
    pub scan: u64,
}

/// The leader of the block that holds a fault.
pub fn block_leader(code: &[u8], fault: u64) -> Leader {
    // SAFETY: as in `report_in`.
    let r = unsafe { ffi::korsepal_block_leader(code.as_ptr(), code.len(), fault) };
    Leader { leader: (r.found == 1).then_some(r.leader), scan: r.scan }
}

/// What a walk answers.
#[derive(Clone, Copy, Debug, PartialEq, Eq)]
pub enum Walk<'a> {
    /// The fault was reached: the slots, bottom first, and how many instructions were completed. The other cells are zero.
    Done { slots: &'a [u64], count: u64 },
    /// It failed after so many.
    Failed { count: u64 },
    /// The case breaks its layout; the offset of the first wrong item.
    Broken { at: u64 },
    /// The stack lacks room after the instruction at an index.
    NoRoom { at: u64 },
    /// The case has more than 1,048,576 bytes.
    TooLong,
}

/// The walk from a leader to a fault in the code of a case. A cell is 0 when opaque, else 1 + 65,536 * load index + local
/// (see [`loaded`]); before document 02's request 7 it was 1 + 256 * load index + local. Where the fault is not reached the stack is
/// all zero.
pub fn walk<'a>(case: &[u8], leader: u64, fault: u64, stack: &'a mut [u64]) -> Walk<'a> {
    walk_in(Manner::default(), case, leader, fault, stack)
}

/// The walk in a manner's model. A walk has no wording: that of the manner is ignored, whatever its number. Otherwise as [`walk`].
pub fn walk_in<'a>(manner: Manner, case: &[u8], leader: u64, fault: u64, stack: &'a mut [u64]) -> Walk<'a> {
    let walk: ffi::Walk = if manner.is_full() { ffi::korsepal_walk_full } else { ffi::korsepal_walk };
    // SAFETY: as in `report_in`.
    let r = unsafe { walk(case.as_ptr(), case.len(), leader, fault, stack.as_mut_ptr(), stack.len()) };
    match r.outcome {
        0 => Walk::Done { slots: &stack[..r.height as usize], count: r.count },
        1 => Walk::Failed { count: r.count },
        2 => Walk::Broken { at: r.index },
        3 => Walk::NoRoom { at: r.index },
        5 => Walk::TooLong,
        number => unknown("outcome", number),
    }
}

/// The load's index and the local that a cell holds, or `None` for an opaque one. The index of a load behind `wide` is that of `wide`.
pub fn loaded(cell: u64) -> Option<(u64, u64)> {
    let rest = cell.checked_sub(1)?;
    Some((rest / 65_536, rest % 65_536))
}

/// What the name of a local answers.
#[derive(Clone, Copy, Debug, PartialEq, Eq)]
pub enum Name<'a> {
    /// The name, written at the start of the output.
    Named(&'a [u8]),
    /// The case breaks its layout; the offset of the first wrong item.
    Broken { at: u64 },
    /// The output lacks room; the name's length.
    NoOutput { needed: u64 },
    /// The case has more than 1,048,576 bytes.
    TooLong,
}

/// The name of a local whose load stands at an index.
pub fn local_name<'a>(case: &[u8], local: u64, load: u64, output: &'a mut [u8]) -> Name<'a> {
    // SAFETY: as in `report_in`.
    let r = unsafe {
        ffi::korsepal_local_name(case.as_ptr(), case.len(), local, load, output.as_mut_ptr(), output.len())
    };
    match r.answer {
        0 => Name::Named(&output[..r.value as usize]),
        2 => Name::Broken { at: r.value },
        4 => Name::NoOutput { needed: r.value },
        5 => Name::TooLong,
        number => unknown("answer", number),
    }
}

/// What reading a parameter list answers.
#[derive(Clone, Copy, Debug, PartialEq, Eq)]
pub enum Parameters<'a> {
    /// The list as the messages print it, and its slots.
    Read { list: &'a [u8], slots: u64 },
    Unreadable,
    /// The output lacks room; the list's length.
    NoOutput { needed: u64 },
}

/// The parameters of a method's descriptor, read leniently.
pub fn parameters<'a>(descriptor: &[u8], output: &'a mut [u8]) -> Parameters<'a> {
    // SAFETY: as in `report_in`.
    let r = unsafe {
        ffi::korsepal_parameters(descriptor.as_ptr(), descriptor.len(), output.as_mut_ptr(), output.len())
    };
    match r.status {
        0 => Parameters::Read { list: &output[..r.length as usize], slots: r.slots },
        1 => Parameters::Unreadable,
        4 => Parameters::NoOutput { needed: r.length },
        number => unknown("status", number),
    }
}

/// The slots of what a method returns, behind the parenthesis that ends its parameters; or `None` where these can't be read, none ends
/// them, or nothing follows.
pub fn return_slots(descriptor: &[u8]) -> Option<u32> {
    // SAFETY: as in `report_in`.
    let r = unsafe { ffi::korsepal_return_slots(descriptor.as_ptr(), descriptor.len()) };
    (r.status == 0).then_some(r.slots)
}

/// The slots of a field.
pub fn field_slots(descriptor: &[u8]) -> Option<u32> {
    // SAFETY: as in `report_in`.
    let r = unsafe { ffi::korsepal_field_slots(descriptor.as_ptr(), descriptor.len()) };
    (r.status == 0).then_some(r.slots)
}

/// A descriptor as one type, read strictly: the count of types, whose numbers (base letter, dimensions, name's start and
/// length) stand at the start of `numbers`; or document 01's refusal, 1 to 14, with `numbers` unchanged.
pub fn parse_type(descriptor: &[u8], numbers: &mut [u64]) -> Result<u64, u32> {
    // SAFETY: as in `report_in`.
    let r = unsafe {
        ffi::korsepal_parse_type(descriptor.as_ptr(), descriptor.len(), numbers.as_mut_ptr(), numbers.len())
    };
    if r.refusal == 0 { Ok(r.count) } else { Err(r.refusal) }
}

/// A descriptor as a method, read strictly; the return's numbers come last. Otherwise as [`parse_type`].
pub fn parse_method(descriptor: &[u8], numbers: &mut [u64]) -> Result<u64, u32> {
    // SAFETY: as in `report_in`.
    let r = unsafe {
        ffi::korsepal_parse_method(descriptor.as_ptr(), descriptor.len(), numbers.as_mut_ptr(), numbers.len())
    };
    if r.refusal == 0 { Ok(r.count) } else { Err(r.refusal) }
}
