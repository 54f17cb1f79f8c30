//! One case, ready for both sides: its bytes for the library, prepared objects for the Rust.
use crate::reading::objects;
use korsepal::{local_name, report_in, Answer, Case, Kind, Manner, Member, Name};
use oracle_wrapped::{accessors, enter, CodeContext, Info, JavaMethod, LocalVariableInfo, Pool};
use std::rc::Rc;

/// What a caller lends the library. The output is longer than any message here and is never cleared.
pub struct Lent {
    pub stack: Vec<u64>,
    pub output: Vec<u8>,
}

impl Lent {
    pub fn cells(cells: usize) -> Lent {
        Lent { stack: vec![0; cells], output: vec![0; 1 << 20] }
    }
}

/// Document 01's model in wording 1: the Rust's own words. In another wording some messages would differ from the Rust's, and those
/// cases would not be timed.
pub fn usual() -> Manner {
    Manner::default().wording(1)
}

pub struct Pair {
    pub case: Vec<u8>,
    pub fault: usize,
    method: JavaMethod,
    pool: Rc<Pool>,
}

impl Pair {
    /// The case for both sides; `None` where a case can't hold it or a text is not UTF-8, which the Rust's strings have to be.
    pub fn new(case: &Case, pool: Rc<Pool>) -> Option<Pair> {
        Some(Pair { case: case.bytes()?, fault: usize::from(case.fault), method: method_of(case)?, pool })
    }

    /// The same with a pool of the case's own members.
    pub fn alone(case: &Case) -> Option<Pair> {
        Pair::new(case, Rc::new(pool_of(case.members.iter().map(|(index, member)| (index, member)))?))
    }

    /// The bytes of code.
    pub fn code(&self) -> &[u8] {
        self.method.code_context().map_or(&[], |context| context.bytecode())
    }

    /// Makes the pool of this case the Rust's current one. Not measured.
    pub fn enter(&self) {
        enter(Rc::clone(&self.pool));
    }

    /// The library's answer, from the bytes to the message.
    pub fn library<'a>(&self, lent: &'a mut Lent) -> Answer<'a> {
        report_in(usual(), &self.case, &mut lent.stack, &mut lent.output)
    }

    /// The Rust's answer, from prepared objects to the message.
    pub fn rust(&self) -> Option<String> {
        accessors::build_message(&self.method, self.fault)
    }

    /// The Rust's answer from the same bytes as the library's: its objects are made first.
    pub fn rust_from_bytes(&self) -> Option<String> {
        let (method, fault, pool) = objects(&self.case)?;
        enter(Rc::new(pool));
        accessors::build_message(&method, fault)
    }

    /// The library's name of a local that was loaded at index 0, from the bytes.
    pub fn library_name<'a>(&self, local: u16, lent: &'a mut Lent) -> Name<'a> {
        local_name(&self.case, u64::from(local), 0, &mut lent.output)
    }

    /// The Rust's, from prepared objects.
    pub fn rust_name(&self, local: u16) -> String {
        accessors::describe_local(&self.method, local, 0)
    }

    /// Whether both sides give the same message.
    pub fn agrees(&self, lent: &mut Lent) -> bool {
        self.enter();
        let expected = self.rust();
        if self.rust_from_bytes() != expected {
            return false;
        }
        match self.library(lent) {
            Answer::Message { text, .. } => expected.as_deref().map(str::as_bytes) == Some(text),
            _ => false,
        }
    }
}

fn string(text: &[u8]) -> Option<String> {
    String::from_utf8(text.to_vec()).ok()
}

fn method_of(case: &Case) -> Option<JavaMethod> {
    let records = case.records.iter().map(|record| {
        Some(LocalVariableInfo {
            start_pc: record.start,
            length: record.length,
            slot: record.slot,
            name: string(&record.name)?,
        })
    });
    Some(JavaMethod {
        access_flags: i32::from(case.flags),
        name_signature: string(&case.signature)?,
        code_context: Some(CodeContext {
            bytecode: case.code.clone(),
            local_variable_table: records.collect::<Option<_>>()?,
        }),
    })
}

fn info(member: &Member) -> Option<Info> {
    Some((string(&member.class)?, string(&member.name)?, string(&member.descriptor)?))
}

/// The members as the Rust's shim has them; `None` where one is not UTF-8.
pub fn pool_of<'a>(members: impl Iterator<Item = (&'a u16, &'a Member)>) -> Option<Pool> {
    let mut pool = Pool::default();
    for (index, member) in members {
        match member.kind {
            Kind::Field => pool.fields.insert(*index, info(member)?),
            Kind::Method => pool.methods.insert(*index, info(member)?),
        };
    }
    Some(pool)
}
