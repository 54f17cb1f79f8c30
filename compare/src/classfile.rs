//! Reads a class file (JVMS 4): its fields and methods by pool index, and the methods that have code. Everything else is passed
//! over. Any bytes are taken; what is no class file gives an error, never a panic. Texts stay bytes, as the file has them.
use korsepal::{Case, Kind, LocalRecord, Member};
use std::collections::{BTreeMap, BTreeSet};

/// What is wrong with a class file.
pub type Wrong = &'static str;

/// A method that has code.
#[derive(Clone, Debug, PartialEq, Eq)]
pub struct Method {
    pub flags: u16,
    pub name: Vec<u8>,
    pub descriptor: Vec<u8>,
    pub code: Vec<u8>,
    /// Its LocalVariableTable, in file order.
    pub records: Vec<LocalRecord>,
}

/// What a class file holds for us.
#[derive(Clone, Debug, Default, PartialEq, Eq)]
pub struct ClassFile {
    /// Fieldref is a field; Methodref and InterfaceMethodref are methods, as `get_full_method_info` of rusty-jvm answers for both.
    pub members: BTreeMap<u16, Member>,
    pub methods: Vec<Method>,
}

/// Which members a case is given.
#[derive(Clone, Copy, Debug, PartialEq, Eq)]
pub enum Members {
    /// Those of the whole constant pool.
    Whole,
    /// Those that some byte of the code could cite.
    Cited,
}

/// Bytes that are still to be read.
struct Reader<'a> {
    rest: &'a [u8],
}

impl<'a> Reader<'a> {
    fn bytes(&mut self, count: usize) -> Result<&'a [u8], Wrong> {
        let (taken, rest) = self.rest.split_at_checked(count).ok_or("the file ends too early")?;
        self.rest = rest;
        Ok(taken)
    }

    fn u8(&mut self) -> Result<u8, Wrong> {
        Ok(self.bytes(1)?[0])
    }

    fn u16(&mut self) -> Result<u16, Wrong> {
        let taken = self.bytes(2)?;
        Ok(u16::from_be_bytes([taken[0], taken[1]]))
    }

    fn u32(&mut self) -> Result<u32, Wrong> {
        let taken = self.bytes(4)?;
        Ok(u32::from_be_bytes([taken[0], taken[1], taken[2], taken[3]]))
    }

    /// A name in the pool and the bytes of an attribute.
    fn attribute(&mut self) -> Result<(u16, &'a [u8]), Wrong> {
        let name = self.u16()?;
        let length = self.u32()?;
        Ok((name, self.bytes(length as usize)?))
    }
}

/// An entry of the constant pool that members are made of.
#[derive(Clone, Copy)]
enum Entry<'a> {
    Utf8(&'a [u8]),
    /// The pool index of a class's name.
    Class(u16),
    /// The pool indexes of a class and of a name with its type.
    Reference(Kind, u16, u16),
    /// The pool indexes of a name and of its descriptor.
    NameAndType(u16, u16),
    /// Any other, or no entry.
    Other,
}

/// The constant pool. Index 0 and the index behind a long or double have no entry.
struct Pool<'a>(Vec<Entry<'a>>);

impl<'a> Pool<'a> {
    fn read(from: &mut Reader<'a>) -> Result<Self, Wrong> {
        let count = usize::from(from.u16()?);
        let mut entries = vec![Entry::Other];
        while entries.len() < count {
            let tag = from.u8()?;
            entries.push(read_entry(from, tag)?);
            // A long and a double take two indexes.
            if tag == 5 || tag == 6 {
                entries.push(Entry::Other);
            }
        }
        Ok(Pool(entries))
    }

    fn at(&self, index: u16) -> Entry<'a> {
        self.0.get(usize::from(index)).copied().unwrap_or(Entry::Other)
    }

    fn utf8(&self, index: u16) -> Option<&'a [u8]> {
        match self.at(index) {
            Entry::Utf8(text) => Some(text),
            _ => None,
        }
    }

    fn class_name(&self, index: u16) -> Option<&'a [u8]> {
        match self.at(index) {
            Entry::Class(name) => self.utf8(name),
            _ => None,
        }
    }

    /// The field or method at an index, if there is one and its names can be found.
    fn member(&self, index: u16) -> Option<Member> {
        let Entry::Reference(kind, class, name_and_type) = self.at(index) else {
            return None;
        };
        let Entry::NameAndType(name, descriptor) = self.at(name_and_type) else {
            return None;
        };
        Some(Member {
            kind,
            class: self.class_name(class)?.to_vec(),
            name: self.utf8(name)?.to_vec(),
            descriptor: self.utf8(descriptor)?.to_vec(),
        })
    }

    fn members(&self) -> BTreeMap<u16, Member> {
        (0..=u16::MAX).take(self.0.len()).filter_map(|index| Some((index, self.member(index)?))).collect()
    }
}

/// The entry behind a tag (JVMS 4.4).
fn read_entry<'a>(from: &mut Reader<'a>, tag: u8) -> Result<Entry<'a>, Wrong> {
    Ok(match tag {
        1 => {
            let length = from.u16()?;
            Entry::Utf8(from.bytes(usize::from(length))?)
        }
        7 => Entry::Class(from.u16()?),
        9 => Entry::Reference(Kind::Field, from.u16()?, from.u16()?),
        10 | 11 => Entry::Reference(Kind::Method, from.u16()?, from.u16()?),
        12 => Entry::NameAndType(from.u16()?, from.u16()?),
        3 | 4 | 17 | 18 => pass(from, 4)?,
        5 | 6 => pass(from, 8)?,
        8 | 16 | 19 | 20 => pass(from, 2)?,
        15 => pass(from, 3)?,
        _ => return Err("the constant pool has an unknown tag"),
    })
}

/// Passes over an entry.
fn pass<'a>(from: &mut Reader<'a>, count: usize) -> Result<Entry<'a>, Wrong> {
    from.bytes(count)?;
    Ok(Entry::Other)
}

/// The bytes of a class file, read.
pub fn read(bytes: &[u8]) -> Result<ClassFile, Wrong> {
    let mut from = Reader { rest: bytes };
    if from.u32()? != 0xcafe_babe {
        return Err("no class file: its first four bytes are others");
    }
    from.bytes(4)?; // the version
    let pool = Pool::read(&mut from)?;
    from.bytes(6)?; // flags, this class, its super class
    let interfaces = from.u16()?;
    from.bytes(2 * usize::from(interfaces))?;
    for _ in 0..from.u16()? {
        read_field(&mut from)?;
    }
    let mut methods = Vec::new();
    for _ in 0..from.u16()? {
        methods.extend(read_method(&mut from, &pool)?);
    }
    Ok(ClassFile { members: pool.members(), methods })
}

/// Passes over a field.
fn read_field(from: &mut Reader) -> Result<(), Wrong> {
    from.bytes(6)?;
    for _ in 0..from.u16()? {
        from.attribute()?;
    }
    Ok(())
}

/// A method, or nothing where it has no code.
fn read_method(from: &mut Reader, pool: &Pool) -> Result<Option<Method>, Wrong> {
    let flags = from.u16()?;
    let name = pool.utf8(from.u16()?).ok_or("a method has no name")?;
    let descriptor = pool.utf8(from.u16()?).ok_or("a method has no descriptor")?;
    let mut found = None;
    for _ in 0..from.u16()? {
        let (attribute, bytes) = from.attribute()?;
        if pool.utf8(attribute) == Some(b"Code") {
            found = Some(read_code(bytes, pool)?);
        }
    }
    Ok(found.map(|(code, records)| Method {
        flags,
        name: name.to_vec(),
        descriptor: descriptor.to_vec(),
        code,
        records,
    }))
}

/// The code and the local records of a Code attribute.
fn read_code(bytes: &[u8], pool: &Pool) -> Result<(Vec<u8>, Vec<LocalRecord>), Wrong> {
    let mut from = Reader { rest: bytes };
    from.bytes(4)?; // the greatest height of the stack and the count of locals
    let length = from.u32()?;
    let code = from.bytes(length as usize)?.to_vec();
    let handlers = from.u16()?;
    from.bytes(8 * usize::from(handlers))?;
    let mut records = Vec::new();
    for _ in 0..from.u16()? {
        let (attribute, bytes) = from.attribute()?;
        if pool.utf8(attribute) == Some(b"LocalVariableTable") {
            records.extend(read_records(bytes, pool)?);
        }
    }
    Ok((code, records))
}

/// The records of a LocalVariableTable.
fn read_records(bytes: &[u8], pool: &Pool) -> Result<Vec<LocalRecord>, Wrong> {
    let mut from = Reader { rest: bytes };
    let count = from.u16()?;
    (0..count).map(|_| read_record(&mut from, pool)).collect()
}

fn read_record(from: &mut Reader, pool: &Pool) -> Result<LocalRecord, Wrong> {
    let start = from.u16()?;
    let length = from.u16()?;
    let name = pool.utf8(from.u16()?).ok_or("a local has no name")?.to_vec();
    from.bytes(2)?; // its type
    let slot = from.u16()?;
    Ok(LocalRecord { start, length, slot, name })
}

/// The signature as rusty-jvm writes it: `NAME:DESCRIPTOR`.
pub fn name_signature(method: &Method) -> Vec<u8> {
    [&method.name[..], b":", &method.descriptor].concat()
}

/// The case of a fault in a method. The code of a class file that a machine loads has fewer than 65,536 bytes, so its indexes
/// are numbers of a case; a fault above them becomes the greatest.
pub fn case_at(class: &ClassFile, method: &Method, fault: usize, members: Members) -> Case {
    Case {
        flags: method.flags,
        fault: u16::try_from(fault).unwrap_or(u16::MAX),
        code: method.code.clone(),
        signature: name_signature(method),
        members: match members {
            Members::Whole => class.members.iter().map(|(index, member)| (*index, member.clone())).collect(),
            Members::Cited => cited(class, &method.code),
        },
        records: method.records.clone(),
    }
}

/// The members at the indexes that stand behind any byte with the value of getstatic to invokeinterface.
fn cited(class: &ClassFile, code: &[u8]) -> Vec<(u16, Member)> {
    let indexes: BTreeSet<u16> = code
        .windows(3)
        .filter(|place| (178..=185).contains(&place[0]))
        .map(|place| u16::from_be_bytes([place[1], place[2]]))
        .collect();
    indexes.into_iter().filter_map(|index| Some((index, class.members.get(&index)?.clone()))).collect()
}

/// Whether an opcode dereferences what it takes from the stack: array loads and stores, getfield, putfield, the calls with a
/// receiver, arraylength, athrow, monitorenter and monitorexit.
fn is_dereference(opcode: u8) -> bool {
    matches!(opcode, 46..=53 | 79..=86 | 180..=183 | 185 | 190 | 191 | 194 | 195)
}

/// The indexes of the instructions that dereference, from the start of a code to its end or to the first that has no length.
pub fn dereferences(code: &[u8]) -> Vec<usize> {
    let mut found = Vec::new();
    let mut at = 0;
    while let Some(length) = korsepal::instruction_length(code, at as u64) {
        if is_dereference(code[at]) {
            found.push(at);
        }
        at += length as usize;
    }
    found
}
