//! Laying out a case (document 01, "The case"): numbers of seven bits to a byte, and texts behind their lengths.

/// The greatest number of a case, and so the greatest length of a text.
pub const GREATEST: usize = 65_535;

/// A field or a method that the code cites.
#[derive(Clone, Debug, PartialEq, Eq)]
pub struct Member {
    pub kind: Kind,
    pub class: Vec<u8>,
    pub name: Vec<u8>,
    pub descriptor: Vec<u8>,
}

/// Which of the two a member is.
#[derive(Clone, Copy, Debug, PartialEq, Eq)]
pub enum Kind {
    Field,
    Method,
}

/// A record of a local's name: it holds from `start` for `length` bytes of code.
#[derive(Clone, Debug, PartialEq, Eq)]
pub struct LocalRecord {
    pub start: u16,
    pub length: u16,
    pub slot: u16,
    pub name: Vec<u8>,
}

/// What a case holds. Members are by pool index, strictly rising.
#[derive(Clone, Debug, Default, PartialEq, Eq)]
pub struct Case {
    pub flags: u16,
    pub fault: u16,
    pub code: Vec<u8>,
    pub signature: Vec<u8>,
    pub members: Vec<(u16, Member)>,
    pub records: Vec<LocalRecord>,
}

/// Appends a number in its fewest bytes, low group first.
pub fn put_number(to: &mut Vec<u8>, number: u16) {
    let mut rest = number;
    while rest >= 128 {
        to.push((rest % 128) as u8 + 128);
        rest /= 128;
    }
    to.push(rest as u8);
}

/// Appends a text behind its length, or nothing where it is too long for a case.
fn put_text(to: &mut Vec<u8>, text: &[u8]) -> Option<()> {
    put_number(to, u16::try_from(text.len()).ok()?);
    to.extend_from_slice(text);
    Some(())
}

impl Case {
    /// The bytes of the case; `None` where a text or a table is longer than a case can hold.
    pub fn bytes(&self) -> Option<Vec<u8>> {
        let mut to = Vec::new();
        put_number(&mut to, self.flags);
        put_number(&mut to, self.fault);
        put_text(&mut to, &self.code)?;
        put_text(&mut to, &self.signature)?;
        put_number(&mut to, u16::try_from(self.members.len()).ok()?);
        for (index, member) in &self.members {
            put_number(&mut to, *index);
            put_number(&mut to, member.kind as u16);
            put_text(&mut to, &member.class)?;
            put_text(&mut to, &member.name)?;
            put_text(&mut to, &member.descriptor)?;
        }
        put_number(&mut to, u16::try_from(self.records.len()).ok()?);
        for record in &self.records {
            put_number(&mut to, record.start);
            put_number(&mut to, record.length);
            put_number(&mut to, record.slot);
            put_text(&mut to, &record.name)?;
        }
        Some(to)
    }
}
