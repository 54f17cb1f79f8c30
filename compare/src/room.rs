//! The spaces that are lent, full of other things before, and what must stand in them after each answer.
use crate::book::Book;
use crate::calls;
use crate::model::{Model, MODELS};
use crate::sample::line;
use crate::wording::Wording;
use korsepal::{Answer, Name, Walk};

/// What an unwritten cell and an unwritten byte hold.
const OLD_CELL: u64 = 0xa5a5_a5a5_a5a5_a5a5;
const OLD_BYTE: u8 = 0x5a;

/// Cells and bytes behind the lent ones, which must stay as they are.
const BEHIND: usize = 3;

/// How a report is asked for in a model.
#[derive(Clone, Copy)]
pub enum Asked {
    /// In a wording.
    In(Wording),
    /// By the call that names none.
    Unnamed,
    /// In a number that is no wording.
    Other(u32),
    /// In a wording, the full model by another number than 1.
    Numbered(u32, Wording),
}

impl Asked {
    /// The wording that it gets, if it gets one.
    pub fn wording(self) -> Option<Wording> {
        match self {
            Asked::In(wording) | Asked::Numbered(_, wording) => Some(wording),
            Asked::Unnamed => Some(Wording::Second),
            Asked::Other(_) => None,
        }
    }

    /// Its place in the tally.
    fn place(self) -> usize {
        match self {
            Asked::In(wording) | Asked::Numbered(_, wording) => wording as usize,
            Asked::Unnamed => 2,
            Asked::Other(_) => 3,
        }
    }

    /// What is asked for, in words.
    fn named(self, model: Model, what: &str) -> String {
        let what = model.named(what);
        match self {
            Asked::In(Wording::First) => what,
            Asked::In(Wording::Second) => format!("{what}, wording 2"),
            Asked::Unnamed => format!("{what}, no wording named"),
            Asked::Other(number) => format!("{what}, wording {number}"),
            Asked::Numbered(full, wording) => format!("{what}, wording {}, full by {full}", wording.number()),
        }
    }
}

/// Memory to lend from.
#[derive(Default)]
pub struct Lender {
    cells: Vec<u64>,
    bytes: Vec<u8>,
}

impl Lender {
    fn prepare(&mut self, room: usize, output: usize) {
        self.cells.clear();
        self.cells.resize(room + BEHIND, OLD_CELL);
        self.bytes.clear();
        self.bytes.resize(output + BEHIND, OLD_BYTE);
    }

    /// The cells hold the given ones, zeros up to the room, and old ones behind.
    fn cells_are(&self, room: usize, first: &[u64]) -> bool {
        self.cells.starts_with(first)
            && self.cells[first.len()..room].iter().all(|&cell| cell == 0)
            && self.cells[room..].iter().all(|&cell| cell == OLD_CELL)
    }

    /// The numbers hold the given ones and old ones behind.
    fn numbers_are(&self, first: &[u64]) -> bool {
        self.cells.starts_with(first) && self.cells[first.len()..].iter().all(|&cell| cell == OLD_CELL)
    }

    /// The bytes hold the given ones and old ones behind.
    fn bytes_are(&self, first: &[u8]) -> bool {
        self.bytes.starts_with(first) && self.bytes[first.len()..].iter().all(|&byte| byte == OLD_BYTE)
    }

    /// The library's report in a model as it is asked for, in spaces that hold other things before.
    fn reported(&mut self, model: Model, asked: Asked, case: &[u8], room: usize, output: usize) -> Answer<'_> {
        self.prepare(room, output);
        let (stack, output) = (&mut self.cells[..room], &mut self.bytes[..output]);
        let in_wording = |number| model.manner().wording(number);
        match asked {
            Asked::In(wording) => korsepal::report_in(in_wording(wording.number()), case, stack, output),
            Asked::Other(number) => korsepal::report_in(in_wording(number), case, stack, output),
            Asked::Unnamed => calls::unnamed(model, case, stack, output),
            Asked::Numbered(full, wording) => calls::numbered(full, wording.number(), case, stack, output),
        }
    }

    /// A report in a model, asked for so, with so much room of both sorts gives the expected answer, zeros and bytes.
    pub fn report(
        &mut self,
        book: &mut Book,
        (model, asked): (Model, Asked),
        case: &[u8],
        (room, output): (usize, usize),
        expected: Answer,
    ) {
        let answer = self.reported(model, asked, case, room, output);
        let (number, name) = answer_name(&answer);
        book.answer(model, asked.place(), number, name);
        if answer != expected {
            let what = asked.named(model, &format!("report, room {room}, output {output}"));
            book.disagree(case, what, show(answer), show(expected));
        }
        let text = if let Answer::Message { text, .. } = expected { text } else { &[] };
        if !self.cells_are(room, &[]) {
            book.expect(case, &asked.named(model, "stack all zero after a report"), false, true);
        }
        if !self.bytes_are(text) {
            book.expect(case, &asked.named(model, "output after a report"), false, true);
        }
    }

    /// The library by itself: where document 01's model gives a cause with one room, and the full one has room enough with another, both
    /// give the same line in a wording.
    pub fn same_cause(&mut self, book: &mut Book, wording: Wording, case: &[u8], rooms: [usize; 2], output: usize) {
        let asked = Asked::In(wording);
        let [document, full] =
            [0, 1].map(|place| line(self.reported(MODELS[place], asked, case, rooms[place], output)));
        if document.starts_with(b"0 2 ") && !full.starts_with(b"3 ") && document != full {
            let shown = |line: &[u8]| String::from_utf8_lossy(line).into_owned();
            book.disagree(case, format!("the same cause, rooms {rooms:?}"), shown(&full), shown(&document));
        }
    }

    /// A walk in a model with so much room gives the expected answer and cells.
    pub fn walk(
        &mut self,
        book: &mut Book,
        model: Model,
        case: &[u8],
        (leader, fault): (u64, u64),
        room: usize,
        expected: Walk,
    ) {
        self.prepare(room, 0);
        let answer = korsepal::walk_in(model.manner(), case, leader, fault, &mut self.cells[..room]);
        if answer != expected {
            let what = model.named(&format!("walk from {leader} to {fault}, room {room}"));
            book.disagree(case, what, format!("{answer:?}"), format!("{expected:?}"));
        }
        let cells = if let Walk::Done { slots, .. } = expected { slots } else { &[] };
        book.expect(case, &model.named("cells after a walk"), self.cells_are(room, cells), true);
    }

    /// A local's name with so much output gives the expected answer and bytes.
    pub fn name(&mut self, book: &mut Book, case: &[u8], local: u64, load: u64, output: usize, expected: Name) {
        self.prepare(0, output);
        let answer = korsepal::local_name(case, local, load, &mut self.bytes[..output]);
        if answer != expected {
            let what = format!("name of local {local} loaded at {load}, output {output}");
            book.disagree(case, what, show_name(&answer), show_name(&expected));
        }
        let text = if let Name::Named(text) = expected { text } else { &[] };
        book.expect(case, "output after a name", self.bytes_are(text), true);
    }

    /// A parameter list with so much output.
    pub fn parameters(&mut self, book: &mut Book, text: &[u8], output: usize, expected: korsepal::Parameters) {
        self.prepare(0, output);
        let answer = korsepal::parameters(text, &mut self.bytes[..output]);
        book.expect(text, "parameters", answer, expected);
        let list = if let korsepal::Parameters::Read { list, .. } = expected { list } else { &[] };
        book.expect(text, "output after parameters", self.bytes_are(list), true);
    }

    /// A strict reader with a buffer of so many numbers: the numbers expected of the text, or its refusal.
    pub fn strict(
        &mut self,
        book: &mut Book,
        text: &[u8],
        what: &str,
        reader: fn(&[u8], &mut [u64]) -> Result<u64, u32>,
        buffer: usize,
        expected: &Result<Vec<u64>, u32>,
    ) {
        self.prepare(buffer, 0);
        let answer = reader(text, &mut self.cells[..buffer]);
        let (wanted, numbers) = match expected {
            Ok(numbers) if numbers.len() <= buffer => (Ok(numbers.len() as u64 / 4), &numbers[..]),
            Ok(_) => (Err(14), &[][..]),
            Err(refusal) => (Err(*refusal), &[][..]),
        };
        book.expect(text, what, answer, wanted);
        if !self.numbers_are(numbers) {
            book.disagree(text, format!("{what}: numbers"), format!("{:?}", self.cells), format!("{numbers:?}"));
        }
    }
}

/// The number of an answer, and its name.
fn answer_name(answer: &Answer) -> (u32, &'static str) {
    match answer {
        Answer::Message { .. } => (0, "message"),
        Answer::NoMessage => (1, "no message"),
        Answer::Broken { .. } => (2, "broken layout"),
        Answer::NoRoom { .. } => (3, "stack too small"),
        Answer::NoOutput { .. } => (4, "output too small"),
        Answer::TooLong => (5, "too long"),
        Answer::NoWording => (11, "no such wording"),
        _ => (u32::MAX, "another"),
    }
}

/// An answer as the program's line.
fn show(answer: Answer) -> String {
    String::from_utf8_lossy(&line(answer)).into_owned()
}

fn show_name(name: &Name) -> String {
    match name {
        Name::Named(text) => format!("named {}", String::from_utf8_lossy(text)),
        other => format!("{other:?}"),
    }
}
