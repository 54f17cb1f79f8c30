//! The full model beside document 01's: the cases of the groups in both, and the walk's time by the instruction.
use crate::clock::{alone, alternate, Times};
use crate::groups::Group;
use crate::made;
use crate::pair::{usual, Lent};
use korsepal::{report_in, walk_in, Answer, Case, Manner, Walk};
use std::cell::RefCell;
use std::hint::black_box;

/// The cells for straight-line code.
const CELLS: usize = 64;

/// Document 01's model and the full one, in wording 1.
fn models() -> [Manner; 2] {
    [usual(), usual().full()]
}

/// A group in both models. Times are of the full one, and as those of the other side of document 01's.
pub struct InBoth {
    pub name: String,
    pub times: Vec<Times>,
    /// Cases on which the full model walks further; they are not timed.
    pub further: usize,
}

/// Kind, counts and message; `None` where there is no message.
fn said(manner: Manner, case: &[u8], lent: &mut Lent) -> Option<(u32, u32, u32, Vec<u8>)> {
    match report_in(manner, case, &mut lent.stack, &mut lent.output) {
        Answer::Message { text, kind, scan, block } => Some((kind, scan, block, text.to_vec())),
        _ => None,
    }
}

/// A report in both models, in turns; `None` where they say different things or nothing.
fn report_times(case: &[u8], lent: &RefCell<Lent>, rounds: usize) -> Option<Times> {
    let [document, full] = models();
    let by_document = said(document, case, &mut lent.borrow_mut())?;
    if said(full, case, &mut lent.borrow_mut())? != by_document {
        return None;
    }
    let report = |manner| {
        let mut lent = lent.borrow_mut();
        let Lent { stack, output } = &mut *lent;
        black_box(report_in(manner, case, stack, output));
    };
    Some(alternate(rounds, || report(full), || report(document)))
}

/// Times a group in both models.
pub fn of_group(group: &Group, rounds: usize, progress: &mut impl FnMut(&str)) -> InBoth {
    progress(&format!("both models: {}", group.name));
    let lent = RefCell::new(Lent::cells(group.cells));
    let times: Vec<Times> = group.pairs.iter().filter_map(|pair| report_times(&pair.case, &lent, rounds)).collect();
    InBoth { name: group.name.clone(), further: group.pairs.len() - times.len(), times }
}

/// The walk of a long method: its instructions, and nanoseconds to each, without those of reading the case.
pub struct Pace {
    pub name: &'static str,
    /// Whether its code cites members, which takes longer.
    pub cites: bool,
    pub instructions: u64,
    /// In document 01's model, where it walks the whole method.
    pub document: Option<f64>,
    pub full: f64,
}

/// The instructions that a model walks to the fault, if it reaches it.
fn walked(manner: Manner, bytes: &[u8], fault: u64) -> Option<u64> {
    match walk_in(manner, bytes, 0, fault, &mut [0; CELLS]) {
        Walk::Done { count, .. } => Some(count),
        _ => None,
    }
}

fn pace((name, cites, case): &(&'static str, bool, Case), rounds: usize) -> Option<Pace> {
    let (bytes, fault) = (case.bytes()?, u64::from(case.fault));
    let [document, full] = models();
    let instructions = walked(full, &bytes, fault)?;
    let stack = RefCell::new([0; CELLS]);
    let walk = |manner, leader| {
        black_box(walk_in(manner, &bytes, leader, fault, &mut *stack.borrow_mut()));
    };
    let reading = alone(rounds, || walk(full, fault));
    let each = |ns: f64| (ns - reading) / instructions as f64;
    let (by_full, by_document) = if walked(document, &bytes, fault).is_some() {
        let times = alternate(rounds, || walk(full, 0), || walk(document, 0));
        (times.library, Some(times.other))
    } else {
        (alone(rounds, || walk(full, 0)), None)
    };
    Some(Pace { name, cites: *cites, instructions, document: by_document.map(each), full: each(by_full) })
}

/// The walk's pace through long methods of so many bytes: those that both models walk, then solver code.
pub fn paces(length: usize, rounds: usize, progress: &mut impl FnMut(&str)) -> Vec<Pace> {
    let mut of_method = |method: &(&'static str, bool, Case)| {
        progress(&format!("the walk's pace: {}", method.0));
        pace(method, rounds)
    };
    made::long_methods(length).iter().filter_map(&mut of_method).collect()
}

/// A long method behind `wide`, and one of as many bytes whose locals have one byte.
pub struct Widened {
    pub narrow: Pace,
    pub wide: Pace,
    /// Reports in the full model: of the method behind `wide`, and as those of the other side of the other.
    pub reports: Times,
}

/// Reports of two cases in the full model, in turns.
fn full_reports(wide: &Case, narrow: &Case, rounds: usize) -> Option<Times> {
    let (wide, narrow) = (wide.bytes()?, narrow.bytes()?);
    let lent = RefCell::new(Lent::cells(CELLS));
    let report = |case: &[u8]| {
        let mut lent = lent.borrow_mut();
        let Lent { stack, output } = &mut *lent;
        black_box(report_in(usual().full(), case, stack, output));
    };
    Some(alternate(rounds, || report(&wide), || report(&narrow)))
}

/// The full model through methods of so many bytes behind `wide`, beside those with locals of one byte.
pub fn widened(length: usize, rounds: usize, progress: &mut impl FnMut(&str)) -> Vec<Widened> {
    progress("the walk's pace: locals of two bytes");
    let both = |[narrow, wide]: &[(&'static str, bool, Case); 2]| {
        let reports = full_reports(&wide.2, &narrow.2, rounds)?;
        Some(Widened { narrow: pace(narrow, rounds)?, wide: pace(wide, rounds)?, reports })
    };
    made::widened_methods(length).iter().filter_map(both).collect()
}

/// The pace through methods that differ in one opcode: of document 01's in its model, and of the added one in the full model.
pub fn alike(length: usize, rounds: usize, progress: &mut impl FnMut(&str)) -> Vec<[Pace; 2]> {
    progress("the walk's pace: opcodes of as many slots");
    made::alike_methods(length).iter().filter_map(|[one, other]| Some([pace(one, rounds)?, pace(other, rounds)?])).collect()
}
