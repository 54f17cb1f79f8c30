//! The Rust in its two builds, over the texts of a case. "Checked" has overflow checks, "wrapped" has none.
use crate::layout::Parts;
use jclassmodel::constant_pool::Info;
use std::cell::Cell;
use std::collections::HashMap;
use std::panic::{catch_unwind, AssertUnwindSafe};
use std::rc::Rc;

/// A slot of the walk's list: the local and the load's index, or `None` for any other.
pub type Origin = Option<(u16, usize)>;

thread_local! {
    static QUIET: Cell<bool> = const { Cell::new(false) };
}

/// From here on a panic inside `quietly` prints nothing.
pub fn silence_expected_panics() {
    let usual = std::panic::take_hook();
    std::panic::set_hook(Box::new(move |info| {
        if !QUIET.with(Cell::get) {
            usual(info);
        }
    }));
}

/// What the work answers, or `None` where it panics.
pub fn quietly<T>(work: impl FnOnce() -> T) -> Option<T> {
    QUIET.with(|quiet| quiet.set(true));
    let answer = catch_unwind(AssertUnwindSafe(work)).ok();
    QUIET.with(|quiet| quiet.set(false));
    answer
}

/// A text as the Rust holds it: as it is where it is UTF-8, else each byte as the character of that number. The rules look at
/// ASCII alone and copy the rest, so the stand-in is read as the bytes would be.
#[derive(Clone, Copy, PartialEq)]
pub enum Holding {
    AsItIs,
    ByteByByte,
}

impl Holding {
    /// How texts are held together.
    pub fn of<'a>(mut texts: impl Iterator<Item = &'a [u8]>) -> Self {
        if texts.all(|text| std::str::from_utf8(text).is_ok()) {
            Holding::AsItIs
        } else {
            Holding::ByteByByte
        }
    }

    pub fn hold(self, text: &[u8]) -> String {
        match self {
            Holding::AsItIs => std::str::from_utf8(text).expect("it was found to be UTF-8").to_string(),
            Holding::ByteByByte => text.iter().map(|&byte| char::from(byte)).collect(),
        }
    }

    /// The bytes of a text that was made from held ones.
    pub fn release(self, text: String) -> Vec<u8> {
        match self {
            Holding::AsItIs => text.into_bytes(),
            Holding::ByteByByte => text.chars().map(|c| c as u8).collect(),
        }
    }
}

/// The texts of a case, held for the Rust.
pub struct Held {
    pub holding: Holding,
    signature: String,
    fields: HashMap<u16, Info>,
    methods: HashMap<u16, Info>,
}

/// Every text of a case but the code.
fn texts(parts: &Parts) -> impl Iterator<Item = &[u8]> {
    let members = parts.members.iter().flat_map(|member| [&member.class[..], &member.name, &member.descriptor]);
    let records = parts.records.iter().map(|record| &record.name[..]);
    std::iter::once(&parts.signature[..]).chain(members).chain(records)
}

/// The signature as held. The byte behind the first colon is skipped, so any may stand there: held byte by byte it must be
/// ASCII, for the Rust skips one byte of the held text.
fn held_signature(holding: Holding, signature: &[u8]) -> String {
    let mut bytes = signature.to_vec();
    if holding == Holding::ByteByByte {
        if let Some(colon) = bytes.iter().position(|&byte| byte == b':') {
            if let Some(skipped) = bytes.get_mut(colon + 1).filter(|byte| !byte.is_ascii()) {
                *skipped = b'(';
            }
        }
    }
    holding.hold(&bytes)
}

impl Held {
    /// The texts of a case, with a signature in the place of its own.
    pub fn new(parts: &Parts, signature: &[u8]) -> Self {
        let holding = Holding::of(texts(parts));
        let mut held = Held {
            holding,
            signature: held_signature(holding, signature),
            fields: HashMap::new(),
            methods: HashMap::new(),
        };
        for member in &parts.members {
            let info = (holding.hold(&member.class), holding.hold(&member.name), holding.hold(&member.descriptor));
            let table = if member.is_method { &mut held.methods } else { &mut held.fields };
            table.insert(member.index, info);
        }
        held
    }
}

/// A build of the Rust, over the method of a case.
pub trait Build {
    fn length(code: &[u8], pc: usize) -> Option<usize>;
    fn leader(code: &[u8], fault: usize) -> Option<usize>;
    /// The parameters' names and their slots.
    fn parameters(descriptor: &str) -> Option<(Vec<String>, usize)>;
    fn return_slots(descriptor: &str) -> Option<usize>;
    fn field_slots(descriptor: &[u8]) -> usize;
    fn over(parts: &Parts, held: &Held) -> Self;
    fn message(&self, fault: usize) -> Option<String>;
    /// The action and the depth.
    fn action(&self, code: &[u8], fault: usize) -> Option<(String, usize)>;
    fn walk(&self, code: &[u8], leader: usize, fault: usize) -> Option<Vec<Origin>>;
    fn name(&self, local: u16, load: usize) -> String;
}

macro_rules! build_of_the_rust {
    ($name:ident, $oracle:ident) => {
        pub struct $name {
            method: $oracle::JavaMethod,
            pool: Rc<$oracle::Pool>,
        }

        impl Build for $name {
            fn length(code: &[u8], pc: usize) -> Option<usize> {
                $oracle::accessors::instruction_length(code, pc)
            }

            fn leader(code: &[u8], fault: usize) -> Option<usize> {
                $oracle::accessors::block_leader(code, fault)
            }

            fn parameters(descriptor: &str) -> Option<(Vec<String>, usize)> {
                $oracle::accessors::parse_method_params(descriptor)
            }

            fn return_slots(descriptor: &str) -> Option<usize> {
                $oracle::accessors::return_type_slots(descriptor)
            }

            fn field_slots(descriptor: &[u8]) -> usize {
                $oracle::accessors::slots_of_field_type(descriptor)
            }

            fn over(parts: &Parts, held: &Held) -> Self {
                let record = |record: &crate::layout::Record| $oracle::LocalVariableInfo {
                    start_pc: record.start,
                    length: record.length,
                    slot: record.slot,
                    name: held.holding.hold(&record.name),
                };
                let context = $oracle::CodeContext {
                    bytecode: parts.code.clone(),
                    local_variable_table: parts.records.iter().map(record).collect(),
                };
                let method = $oracle::JavaMethod {
                    access_flags: i32::from(parts.flags),
                    name_signature: held.signature.clone(),
                    code_context: Some(context),
                };
                let pool = $oracle::Pool { fields: held.fields.clone(), methods: held.methods.clone() };
                $name { method, pool: Rc::new(pool) }
            }

            fn message(&self, fault: usize) -> Option<String> {
                $oracle::enter(self.pool.clone());
                $oracle::accessors::build_message(&self.method, fault)
            }

            fn action(&self, code: &[u8], fault: usize) -> Option<(String, usize)> {
                $oracle::accessors::decode_fault(code, fault, &*self.pool)
            }

            fn walk(&self, code: &[u8], leader: usize, fault: usize) -> Option<Vec<Origin>> {
                $oracle::accessors::simulate_block(code, leader, fault, &*self.pool)
            }

            fn name(&self, local: u16, load: usize) -> String {
                $oracle::accessors::describe_local(&self.method, local, load)
            }
        }
    };
}

build_of_the_rust!(Checked, oracle_checked);
build_of_the_rust!(Wrapped, oracle_wrapped);
