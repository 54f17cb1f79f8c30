//! The Rust's objects from the bytes of a case. The Rust has no reader of cases; this one is plain, checks what it must to be safe,
//! and copies each text once, into the string that the Rust works on.
use oracle_wrapped::{CodeContext, JavaMethod, LocalVariableInfo, Pool};

/// A place in the bytes.
struct Reader<'a> {
    bytes: &'a [u8],
    at: usize,
}

impl Reader<'_> {
    fn number(&mut self) -> Option<u16> {
        let mut value = 0u32;
        for place in 0..3 {
            let byte = *self.bytes.get(self.at)?;
            self.at += 1;
            value |= u32::from(byte & 127) << (7 * place);
            if byte < 128 {
                return u16::try_from(value).ok();
            }
        }
        None
    }

    fn text(&mut self) -> Option<Vec<u8>> {
        let length = usize::from(self.number()?);
        let text = self.bytes.get(self.at..self.at + length)?.to_vec();
        self.at += length;
        Some(text)
    }

    fn string(&mut self) -> Option<String> {
        String::from_utf8(self.text()?).ok()
    }

    fn members(&mut self) -> Option<Pool> {
        let mut pool = Pool::default();
        for _ in 0..self.number()? {
            let index = self.number()?;
            let kind = self.number()?;
            let info = (self.string()?, self.string()?, self.string()?);
            let of_kind = if kind == 0 { &mut pool.fields } else { &mut pool.methods };
            of_kind.insert(index, info);
        }
        Some(pool)
    }

    fn records(&mut self) -> Option<Vec<LocalVariableInfo>> {
        let count = self.number()?;
        (0..count).map(|_| self.record()).collect()
    }

    fn record(&mut self) -> Option<LocalVariableInfo> {
        Some(LocalVariableInfo {
            start_pc: self.number()?,
            length: self.number()?,
            slot: self.number()?,
            name: self.string()?,
        })
    }
}

/// The method, the fault and the members of a case.
pub fn objects(case: &[u8]) -> Option<(JavaMethod, usize, Pool)> {
    let mut reader = Reader { bytes: case, at: 0 };
    let access_flags = i32::from(reader.number()?);
    let fault = usize::from(reader.number()?);
    let bytecode = reader.text()?;
    let name_signature = reader.string()?;
    let pool = reader.members()?;
    let local_variable_table = reader.records()?;
    let code_context = Some(CodeContext { bytecode, local_variable_table });
    Some((JavaMethod { access_flags, name_signature, code_context }, fault, pool))
}
