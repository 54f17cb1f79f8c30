//! The cases of the groups in both wordings, in document 01's model.
use crate::clock::{alternate, Times};
use crate::groups::Group;
use crate::pair::{usual, Lent, Pair};
use korsepal::{report_in, Answer};
use std::cell::RefCell;
use std::hint::black_box;

/// A group in both wordings. Times are of wording 2, and as those of the other side of wording 1.
pub struct InWordings {
    pub name: String,
    pub times: Vec<Times>,
    /// Those of the cases whose messages differ.
    pub reworded: Vec<Times>,
}

/// The message in a wording, or nothing.
fn said(wording: u32, case: &[u8], lent: &mut Lent) -> Vec<u8> {
    match report_in(usual().wording(wording), case, &mut lent.stack, &mut lent.output) {
        Answer::Message { text, .. } => text.to_vec(),
        _ => Vec::new(),
    }
}

/// A report in both wordings, in turns.
fn report_times(pair: &Pair, lent: &RefCell<Lent>, rounds: usize) -> Times {
    let report = |wording| {
        let mut lent = lent.borrow_mut();
        let Lent { stack, output } = &mut *lent;
        black_box(report_in(usual().wording(wording), &pair.case, stack, output));
    };
    alternate(rounds, || report(2), || report(1))
}

/// Times a group in both wordings.
pub fn of_group(group: &Group, rounds: usize, progress: &mut impl FnMut(&str)) -> InWordings {
    progress(&format!("both wordings: {}", group.name));
    let lent = RefCell::new(Lent::cells(group.cells));
    let mut measured = InWordings { name: group.name.clone(), times: Vec::new(), reworded: Vec::new() };
    for pair in &group.pairs {
        let times = report_times(pair, &lent, rounds);
        measured.times.push(times);
        let [first, second] = [1, 2].map(|wording| said(wording, &pair.case, &mut lent.borrow_mut()));
        if first != second {
            measured.reworded.push(times);
        }
    }
    measured
}
