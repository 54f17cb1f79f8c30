//! The layout of a case, read and written from document 01's words ("The case"), apart from the port and its bindings.

/// The most bytes that a case may have.
pub const LONGEST: usize = 1_048_576;

#[derive(Clone, Debug, Default, PartialEq)]
pub struct Member {
    pub index: u16,
    pub is_method: bool,
    pub class: Vec<u8>,
    pub name: Vec<u8>,
    pub descriptor: Vec<u8>,
}

impl Member {
    pub fn method(index: u16, class: &[u8], name: &[u8], descriptor: &[u8]) -> Self {
        let (class, name, descriptor) = (class.to_vec(), name.to_vec(), descriptor.to_vec());
        Member { index, is_method: true, class, name, descriptor }
    }
}

#[derive(Clone, Debug, Default, PartialEq)]
pub struct Record {
    pub start: u16,
    pub length: u16,
    pub slot: u16,
    pub name: Vec<u8>,
}

/// What a case holds.
#[derive(Clone, Debug, Default, PartialEq)]
pub struct Parts {
    pub flags: u16,
    pub fault: u16,
    pub code: Vec<u8>,
    pub signature: Vec<u8>,
    pub members: Vec<Member>,
    pub records: Vec<Record>,
}

/// Why bytes are no case.
#[derive(Clone, Copy, Debug, PartialEq)]
pub enum Wrong {
    TooLong,
    /// The offset of the first wrong item.
    At(usize),
}

/// What is left to read.
struct Reader<'a> {
    bytes: &'a [u8],
    at: usize,
}

impl Reader<'_> {
    /// A number in its fewest bytes, one to three; where it is none, its own offset is wrong.
    fn number(&mut self) -> Result<u16, Wrong> {
        let start = self.at;
        let wrong = Wrong::At(start);
        let mut value = 0u32;
        for place in 0..3 {
            let byte = *self.bytes.get(start + place).ok_or(wrong)?;
            value += u32::from(byte & 127) << (7 * place);
            if byte < 128 {
                let shortest = place == 0 || byte > 0;
                self.at = start + place + 1;
                return if shortest { u16::try_from(value).map_err(|_| wrong) } else { Err(wrong) };
            }
        }
        Err(wrong)
    }

    /// A length and that many bytes; where they are not there, the length is wrong.
    fn text(&mut self) -> Result<Vec<u8>, Wrong> {
        let start = self.at;
        let length = usize::from(self.number()?);
        let text = self.bytes.get(self.at..self.at + length).ok_or(Wrong::At(start))?;
        self.at += length;
        Ok(text.to_vec())
    }

    /// A member whose index is above the one before it.
    fn member(&mut self, before: u16) -> Result<Member, Wrong> {
        let start = self.at;
        let index = self.number()?;
        if index <= before {
            return Err(Wrong::At(start));
        }
        let start = self.at;
        let kind = self.number()?;
        if kind > 1 {
            return Err(Wrong::At(start));
        }
        Ok(Member { index, is_method: kind == 1, class: self.text()?, name: self.text()?, descriptor: self.text()? })
    }

    fn record(&mut self) -> Result<Record, Wrong> {
        Ok(Record { start: self.number()?, length: self.number()?, slot: self.number()?, name: self.text()? })
    }
}

/// The parts of a case, or what is wrong with it.
pub fn read(bytes: &[u8]) -> Result<Parts, Wrong> {
    if bytes.len() > LONGEST {
        return Err(Wrong::TooLong);
    }
    let mut from = Reader { bytes, at: 0 };
    let mut parts = Parts {
        flags: from.number()?,
        fault: from.number()?,
        code: from.text()?,
        signature: from.text()?,
        ..Parts::default()
    };
    let mut before = 0;
    for _ in 0..from.number()? {
        let member = from.member(before)?;
        before = member.index;
        parts.members.push(member);
    }
    for _ in 0..from.number()? {
        parts.records.push(from.record()?);
    }
    if from.at < bytes.len() {
        return Err(Wrong::At(from.at));
    }
    Ok(parts)
}

fn put_number(to: &mut Vec<u8>, number: u16) {
    let groups = [number & 127, (number >> 7) & 127, number >> 14];
    let count = if groups[2] > 0 {
        3
    } else if groups[1] > 0 {
        2
    } else {
        1
    };
    for (place, group) in groups[..count].iter().enumerate() {
        to.push(*group as u8 | if place + 1 < count { 128 } else { 0 });
    }
}

/// A text behind its length; of a text that a case can't hold, the first 65,535 bytes.
fn put_text(to: &mut Vec<u8>, text: &[u8]) {
    let held = &text[..text.len().min(65_535)];
    put_number(to, held.len() as u16);
    to.extend_from_slice(held);
}

/// The bytes of a case.
pub fn lay_out(parts: &Parts) -> Vec<u8> {
    let mut to = Vec::with_capacity(64 + parts.code.len());
    put_number(&mut to, parts.flags);
    put_number(&mut to, parts.fault);
    put_text(&mut to, &parts.code);
    put_text(&mut to, &parts.signature);
    put_number(&mut to, parts.members.len() as u16);
    for member in &parts.members {
        put_number(&mut to, member.index);
        put_number(&mut to, u16::from(member.is_method));
        put_text(&mut to, &member.class);
        put_text(&mut to, &member.name);
        put_text(&mut to, &member.descriptor);
    }
    put_number(&mut to, parts.records.len() as u16);
    for record in &parts.records {
        put_number(&mut to, record.start);
        put_number(&mut to, record.length);
        put_number(&mut to, record.slot);
        put_text(&mut to, &record.name);
    }
    to
}
