//! The groups of cases, and how a group is measured.
use crate::classfile::Members;
use crate::clock::{alternate, of_nothing, once, Times};
use crate::made;
use crate::pair::{Lent, Pair};
use crate::real;
use crate::Plan;
use korsepal::Case;
use std::path::Path;

/// Cases of one kind, and the cells that are lent for each.
pub struct Group {
    pub name: String,
    /// Whether the cases are of class files; these are also timed in turn.
    pub real: bool,
    pub cells: usize,
    pub pairs: Vec<Pair>,
}

/// What was measured of a group.
pub struct Row {
    pub name: String,
    pub cells: usize,
    pub case_bytes: f64,
    pub times: Vec<Times>,
    /// Cases on which the two sides gave different messages; they are not timed.
    pub differing: usize,
}

/// The cells that a caller would lend for real code: the highest stack of the JDK's own blocks is far below.
const USUAL: usize = 64;
/// The cells of the program `npe`.
const PROGRAM: usize = 4_096;

fn group(name: &str, cells: usize, cases: Vec<Case>) -> Group {
    Group { name: name.to_string(), real: false, cells, pairs: cases.iter().filter_map(Pair::alone).collect() }
}

/// The groups from class files below a folder.
fn real_groups(name: &str, folder: &Path, plan: &Plan) -> Vec<Group> {
    let with = |what: &str, cells, members| Group {
        name: format!("{name}, {what}"),
        real: true,
        cells,
        pairs: real::sample(folder, plan.sample, members),
    };
    vec![
        with("cited members", USUAL, Members::Cited),
        with("npe's stack", PROGRAM, Members::Cited),
        with("whole table", USUAL, Members::Whole),
    ]
}

/// The groups that need no class file. The hostile tables stand apart.
fn made_groups(plan: &Plan) -> Vec<Group> {
    vec![
        group("long straight-line methods", USUAL, made::straight(plan.lengths)),
        group("branchy methods", USUAL, made::branchy(plan.lengths)),
        group("large switches", USUAL, made::switches()),
        group("long descriptors", 512, made::long_descriptors()),
        group("large member tables", USUAL, made::large_tables()),
        group("65,535 bytes of code", USUAL, made::longest()),
        group("65,535 bytes of pushes", made::LONGEST, made::deepest()),
    ]
}

/// Every group, in the order of the table.
pub fn all(plan: &Plan) -> Vec<Group> {
    let mut groups = Vec::new();
    if let Some(folder) = &plan.jdk {
        groups.extend(real_groups("the JDK's faults", folder, plan));
    }
    if let Some(folder) = &plan.examples {
        groups.extend(real_groups("the examples' faults", folder, plan));
    }
    groups.extend(made_groups(plan));
    groups
}

/// The median of some figures, 0 of none.
pub fn median(figures: impl Iterator<Item = f64>) -> f64 {
    let mut sorted: Vec<f64> = figures.collect();
    sorted.sort_by(f64::total_cmp);
    sorted.get(sorted.len() / 2).copied().unwrap_or(0.0)
}

/// What the Rust starts from. The library always starts from the bytes of a case.
#[derive(Clone, Copy, PartialEq)]
pub enum Start {
    Prepared,
    Bytes,
}

/// Times one case on both sides.
pub fn time(pair: &Pair, start: Start, lent: &mut Lent, rounds: usize) -> Times {
    pair.enter();
    let library = || {
        std::hint::black_box(pair.library(lent));
    };
    match start {
        Start::Prepared => alternate(rounds, library, || pair.rust()),
        Start::Bytes => alternate(rounds, library, || pair.rust_from_bytes()),
    }
}

/// Times each case of a group once in a round, the whole group on one side and then on the other, so that a case finds the caches
/// and branch predictors as the other cases left them. The least of the rounds counts, without the time of timing.
pub fn measure_in_turn(group: &Group, rounds: usize, progress: &mut impl FnMut(&str)) -> Row {
    let mut lent = Lent::cells(group.cells);
    let pairs: Vec<&Pair> = group.pairs.iter().filter(|pair| pair.agrees(&mut lent)).collect();
    let timing = of_nothing();
    let mut times = vec![Times { library: f64::INFINITY, other: f64::INFINITY }; pairs.len()];
    for round in 0..rounds {
        progress(&format!("{}, in turn: round {} of {rounds}", group.name, round + 1));
        for (pair, times) in pairs.iter().zip(&mut times) {
            let ns = once(|| {
                std::hint::black_box(pair.library(&mut lent));
            });
            times.library = times.library.min((ns - timing).max(1.0));
        }
        for (pair, times) in pairs.iter().zip(&mut times) {
            pair.enter();
            times.other = times.other.min((once(|| pair.rust()) - timing).max(1.0));
        }
    }
    Row {
        name: format!("{}, in turn", group.name),
        cells: group.cells,
        case_bytes: median(pairs.iter().map(|pair| pair.case.len() as f64)),
        differing: group.pairs.len() - pairs.len(),
        times,
    }
}

/// Times a group, case by case.
pub fn measure(group: &Group, start: Start, rounds: usize, progress: &mut impl FnMut(&str)) -> Row {
    let mut lent = Lent::cells(group.cells);
    let mut times = Vec::new();
    let mut differing = 0;
    for (place, pair) in group.pairs.iter().enumerate() {
        progress(&format!("{}: case {} of {}", group.name, place + 1, group.pairs.len()));
        if pair.agrees(&mut lent) {
            times.push(time(pair, start, &mut lent, rounds));
        } else {
            differing += 1;
        }
    }
    let from = if start == Start::Bytes { ", both from bytes" } else { "" };
    Row {
        name: format!("{}{from}", group.name),
        cells: group.cells,
        case_bytes: median(group.pairs.iter().map(|pair| pair.case.len() as f64)),
        times,
        differing,
    }
}
