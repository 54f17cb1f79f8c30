//! How time grows: with the code, by report to 64 KiB and by the leader's scan to 1 MiB; and with the member table.
use crate::clock::{alternate, Times};
use crate::groups::{time, Start};
use crate::made;
use crate::pair::{Lent, Pair};
use korsepal::Case;
use oracle_wrapped::accessors;

/// The time of one length of code.
pub struct Point {
    pub bytes: usize,
    pub times: Times,
}

/// The times of rising lengths.
pub struct Curve {
    pub name: &'static str,
    pub points: Vec<Point>,
}

impl Curve {
    /// By how much the code grows from the first point to the last, and the time of the library and of the Rust.
    pub fn growth(&self) -> Option<(f64, f64, f64)> {
        let (first, last) = (self.points.first()?, self.points.last()?);
        Some((
            last.bytes as f64 / first.bytes as f64,
            last.times.library / first.times.library,
            last.times.other / first.times.other,
        ))
    }
}

/// The lengths from 1 KiB to a last one, each twice the one before. A code has no more than 65,535 bytes.
fn doublings(last: usize, most: usize) -> impl Iterator<Item = usize> {
    (10..=last.ilog2()).map(move |power| (1 << power).min(most))
}

/// A report of each length, from 1 KiB to 64 KiB.
fn reports(name: &'static str, made: fn(usize) -> Case, rounds: usize, progress: &mut impl FnMut(&str)) -> Curve {
    let mut lent = Lent::cells(64);
    let mut points = Vec::new();
    for bytes in doublings(1 << 16, made::LONGEST) {
        progress(&format!("{name}, {bytes} bytes"));
        if let Some(pair) = Pair::alone(&made(bytes)) {
            points.push(Point { bytes: pair.code().len(), times: time(&pair, Start::Prepared, &mut lent, rounds) });
        }
    }
    Curve { name, points }
}

/// The leader of the last index, of each length from 1 KiB to 1 MiB. No case holds such a code; the scan takes it alone.
fn scans(rounds: usize, progress: &mut impl FnMut(&str)) -> Curve {
    let name = "leader scan, branchy code";
    let mut points = Vec::new();
    for bytes in doublings(1 << 20, 1 << 20) {
        progress(&format!("{name}, {bytes} bytes"));
        let code = made::scattered_of(bytes).code;
        let fault = code.len() - 1;
        let times = alternate(
            rounds,
            || korsepal::block_leader(&code, fault as u64),
            || accessors::block_leader(&code, fault),
        );
        points.push(Point { bytes: code.len(), times });
    }
    Curve { name, points }
}

/// The curves of the plot.
pub fn curves(rounds: usize, progress: &mut impl FnMut(&str)) -> Vec<Curve> {
    vec![
        reports("report, straight-line code", |bytes| made::straight_of(1, bytes), rounds, progress),
        reports("report, code full of calls", |bytes| made::straight_of(3, bytes), rounds, progress),
        scans(rounds, progress),
    ]
}

/// The same code over a table of many members and over a table of one.
pub struct Hostile {
    pub name: &'static str,
    pub members: u16,
    pub many: Times,
    pub one: Times,
}

fn hostile_of(
    name: &'static str,
    made: fn(u16) -> Case,
    members: u16,
    rounds: usize,
    progress: &mut impl FnMut(&str),
) -> Option<Hostile> {
    progress(&format!("{name}, {members} members"));
    let mut lent = Lent::cells(64);
    let many = Pair::alone(&made(members))?;
    let one = Pair::alone(&made(1))?;
    let agree = many.agrees(&mut lent) && one.agrees(&mut lent);
    agree.then(|| Hostile {
        name,
        members,
        many: time(&many, Start::Prepared, &mut lent, rounds),
        one: time(&one, Start::Prepared, &mut lent, rounds),
    })
}

/// The hostile tables: every instruction cites the last of so many members.
pub fn hostile(members: u16, rounds: usize, progress: &mut impl FnMut(&str)) -> Vec<Hostile> {
    let calls = hostile_of("calls of the last member", made::hostile_calls, members, rounds, progress);
    let reads = hostile_of("reads of the last member", made::hostile_reads, members, rounds, progress);
    calls.into_iter().chain(reads).collect()
}
