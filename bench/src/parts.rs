//! Where the library's time goes: each part by its own entry point, case by case.
use crate::clock::alone;
use crate::groups::{median, Group};
use crate::pair::{Lent, Pair};
use korsepal::{block_leader, walk};

/// Nanoseconds of a case's report, and of its parts.
pub struct Parts {
    pub report: f64,
    /// Reading and checking the case: a walk of no instruction over no cells.
    pub reading: f64,
    /// The leader's scan.
    pub scan: f64,
    /// The walk from the leader and clearing the stack.
    pub walk: f64,
    /// What is left: the fault decoded, the local named, the message measured and written.
    pub rest: f64,
}

fn parts_of(pair: &Pair, lent: &mut Lent, rounds: usize) -> Parts {
    let fault = pair.fault as u64;
    let leader = block_leader(pair.code(), fault).leader.unwrap_or(fault);
    let reading = alone(rounds, || walk(&pair.case, fault, fault, &mut []));
    let walked = alone(rounds, || {
        std::hint::black_box(walk(&pair.case, leader, fault, &mut lent.stack));
    });
    let scan = alone(rounds, || block_leader(pair.code(), fault));
    let report = alone(rounds, || {
        std::hint::black_box(pair.library(lent));
    });
    Parts { report, reading, scan, walk: walked - reading, rest: report - walked - scan }
}

/// The medians of a group's parts.
pub fn of_group(group: &Group, rounds: usize, progress: &mut impl FnMut(&str)) -> Parts {
    let mut lent = Lent::cells(group.cells);
    let mut all = Vec::new();
    for (place, pair) in group.pairs.iter().enumerate() {
        progress(&format!("parts of {}: case {} of {}", group.name, place + 1, group.pairs.len()));
        all.push(parts_of(pair, &mut lent, rounds));
    }
    Parts {
        report: median(all.iter().map(|parts| parts.report)),
        reading: median(all.iter().map(|parts| parts.reading)),
        scan: median(all.iter().map(|parts| parts.scan)),
        walk: median(all.iter().map(|parts| parts.walk)),
        rest: median(all.iter().map(|parts| parts.rest)),
    }
}
