//! The listed differences between the rules, documents 01 and 02, and the Rust: when each holds of an input, and what stands in
//! for it, so that the rest of the input is compared all the same.
use crate::layout::Parts;
use crate::sides::{Build, Holding, Wrapped};
use crate::slots::{field_type, parameters};
use korsepal::Measure;
use std::borrow::Cow;

/// The listed differences, in the table's order.
#[derive(Clone, Copy, PartialEq)]
pub enum Listed {
    /// A `tableswitch` with high < low: the checked build panics.
    FallingTable,
    /// A `tableswitch` whose high - low leaves 32 bits: the checked build panics, the wrapped one counts other entries.
    WideTable,
    /// The parameters' slots pass 65,535: the checked build panics, the wrapped one starts again at 0.
    SlotCounter,
    /// A text that is not UTF-8: the Rust can't hold it.
    NotText,
    /// The leader alone with a fault at or above 2^63: the Rust takes a target below 0 for a huge one.
    HugeFault,
    /// A parameter's name of a method has a `)`: the Rust takes the return from behind the first.
    FirstParenthesis,
    /// A return alone: the same, and so of parameters that can't be read.
    ReturnAlone,
    /// The scan meets a reserved byte: the Rust counts it as an instruction.
    ReservedByte,
}

/// Their numbers and names.
pub const LISTED: [(&str, &str); 8] = [
    ("D1", "tableswitch with high < low"),
    ("D2", "tableswitch with high - low outside 32 bits"),
    ("D3", "parameters' slots above 65,535"),
    ("D4", "texts that are not UTF-8, held byte by byte"),
    ("D5", "leader alone, fault at or above 2^63, target below 0"),
    ("D6", "method of a case with a `)` in a parameter's name"),
    ("D6", "return alone, behind such parameters or unreadable ones"),
    ("D7", "scan that meets a reserved byte, 202 to 255"),
];

const TABLESWITCH: u8 = 0xaa;

/// The first byte that is no opcode.
const RESERVED: u8 = 202;

/// What a `tableswitch` says of its entries.
#[derive(Clone, Copy, PartialEq)]
pub enum Table {
    Plain,
    Falling,
    /// high - low is above 2^31 - 1: more entries than any code holds.
    TooHigh,
    /// high - low is below -2^31: no entries.
    TooLow,
}

/// Where the low and high of a `tableswitch` at an index stand.
fn bounds_at(pc: usize) -> usize {
    (pc + 1).next_multiple_of(4) + 4
}

fn signed_at(code: &[u8], at: usize) -> Option<i64> {
    let bytes = code.get(at..at + 4)?;
    Some(i64::from(i32::from_be_bytes(bytes.try_into().expect("four bytes"))))
}

/// The table of the instruction at an index; plain where it is no `tableswitch` or is cut.
pub fn table(code: &[u8], pc: usize) -> Table {
    if code.get(pc) != Some(&TABLESWITCH) {
        return Table::Plain;
    }
    let at = bounds_at(pc);
    let (Some(low), Some(high)) = (signed_at(code, at), signed_at(code, at + 4)) else {
        return Table::Plain;
    };
    match high - low {
        span if span > i64::from(i32::MAX) => Table::TooHigh,
        span if span < i64::from(i32::MIN) => Table::TooLow,
        span if span < 0 => Table::Falling,
        _ => Table::Plain,
    }
}

/// A code in which the table at an index has as many entries by a difference that stays within 32 bits.
fn within_bounds(code: &[u8], pc: usize, table: Table) -> Vec<u8> {
    let mut code = code.to_vec();
    let bounds: [i32; 2] = if table == Table::TooHigh { [0, i32::MAX] } else { [1, 0] };
    let at = bounds_at(pc);
    code[at..at + 4].copy_from_slice(&bounds[0].to_be_bytes());
    code[at + 4..at + 8].copy_from_slice(&bounds[1].to_be_bytes());
    code
}

/// The Rust's length at an index, with a table brought within 32 bits.
pub fn length(code: &[u8], pc: usize) -> Option<usize> {
    match table(code, pc) {
        Table::Plain | Table::Falling => Wrapped::length(code, pc),
        outside => Wrapped::length(&within_bounds(code, pc, outside), pc),
    }
}

/// What measuring at an index answers by the rules: that a byte is reserved, else by the Rust's length.
pub fn measured(code: &[u8], pc: usize) -> Measure {
    match code.get(pc) {
        Some(RESERVED..) => Measure::Reserved,
        _ => length(code, pc).map_or(Measure::Cut, |length| Measure::Length(length as u64)),
    }
}

/// The chain of the Rust's lengths from 0, to the end or to an instruction that it can't measure.
pub struct Scan<'a> {
    /// The instructions measured, up to the first reserved byte.
    pub count: usize,
    /// A reserved byte was met.
    pub reserved: bool,
    /// A table met on the way has high < low.
    pub falling: bool,
    /// A table met on the way leaves 32 bits.
    pub wide: bool,
    /// The code, its tables brought within 32 bits.
    pub code: Cow<'a, [u8]>,
}

impl Scan<'_> {
    /// The Rust's leader, over tables within 32 bits.
    pub fn rust_leader(&self, fault: usize) -> Option<usize> {
        Wrapped::leader(&self.code, fault)
    }

    /// The leader by the rules: that of the Rust, and none where a reserved byte was met.
    pub fn by_rules(&self, leader: Option<usize>) -> Option<usize> {
        leader.filter(|_| !self.reserved)
    }

    /// Whether a panic of the checked build is listed.
    pub fn may_panic(&self) -> bool {
        self.falling || self.wide
    }
}

pub fn scan(code: &[u8]) -> Scan<'_> {
    let mut scan = Scan { count: 0, reserved: false, falling: false, wide: false, code: Cow::Borrowed(code) };
    let mut pc = 0;
    while pc < code.len() {
        match table(code, pc) {
            Table::Plain => {}
            Table::Falling => scan.falling = true,
            outside => {
                scan.wide = true;
                scan.code = Cow::Owned(within_bounds(&scan.code, pc, outside));
            }
        }
        let Some(length) = Wrapped::length(&scan.code, pc) else { break };
        scan.reserved |= code[pc] >= RESERVED;
        scan.count += usize::from(!scan.reserved);
        pc += length;
    }
    scan
}

/// Where the parameters of a descriptor end, if a name of them has a `)`.
fn end_behind_a_parenthesis(descriptor: &[u8]) -> Option<usize> {
    let (end, _) = parameters(descriptor)?;
    descriptor[..end].contains(&b')').then_some(end)
}

/// The descriptor with another byte in the place of each `)` in its parameters' names: its first `)` ends them.
fn with_plain_names(descriptor: &[u8]) -> Cow<'_, [u8]> {
    let Some(end) = end_behind_a_parenthesis(descriptor) else { return Cow::Borrowed(descriptor) };
    let mut plain = descriptor.to_vec();
    plain[..end].iter_mut().filter(|byte| **byte == b')').for_each(|byte| *byte = b'-');
    Cow::Owned(plain)
}

/// Whether a descriptor has a `)`, and the first is not the one that ends its parameters.
pub fn first_parenthesis_misleads(descriptor: &[u8]) -> bool {
    let unread = parameters(descriptor).is_none();
    descriptor.contains(&b')') && (unread || end_behind_a_parenthesis(descriptor).is_some())
}

/// The slots of a descriptor's return by the rules: those that the Rust gives where the first `)` ends the parameters, and none
/// where it can't read them.
pub fn return_slots<B: Build>(descriptor: &[u8], holding: Holding) -> Option<usize> {
    B::parameters(&holding.hold(descriptor))?;
    B::return_slots(&holding.hold(&with_plain_names(descriptor)))
}

/// The parts of a case with plain names in its methods' descriptors; `None` where they have none but these.
pub fn plain_methods(parts: &Parts) -> Option<Parts> {
    let mut methods = parts.members.iter().filter(|member| member.is_method);
    if methods.all(|method| end_behind_a_parenthesis(&method.descriptor).is_none()) {
        return None;
    }
    let mut plain = parts.clone();
    for method in plain.members.iter_mut().filter(|member| member.is_method) {
        method.descriptor = with_plain_names(&method.descriptor).into_owned();
    }
    Some(plain)
}

/// Where the slots of a signature's parameters pass 65,535, the signature up to the last that starts at or below it: no local
/// of 16 bits is named by a later one.
pub fn cut_signature(signature: &[u8], is_static: bool) -> Option<&[u8]> {
    if signature.len() < 32_767 {
        return None;
    }
    let colon = signature.iter().position(|&byte| byte == b':')?;
    let mut at = colon + 2;
    let mut slot = usize::from(!is_static);
    while at < signature.len() && signature[at] != b')' {
        let (next, slots) = field_type(signature, at)?;
        at = next;
        slot += slots;
        if slot > 65_535 {
            return Some(&signature[..at]);
        }
    }
    None
}
