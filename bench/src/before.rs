//! Two builds of the library, an earlier one and this one, over the same cases: what moved. `bench/run against` makes the earlier
//! archive and renames its functions. The full model is compared where the earlier build has it. Both are asked in wording 1: a build
//! that knows no wordings has its text.
use crate::clock::{alternate, Times};
use crate::groups::{self, Group};
use crate::names::{self, Numbered};
use crate::pair::{Lent, Pair};
use crate::Plan;
use std::cell::RefCell;
use std::hint::black_box;

#[repr(C)]
#[derive(PartialEq)]
struct Report {
    answer: u32,
    kind: u32,
    scan: u32,
    block: u32,
    value: u64,
}

#[repr(C)]
#[derive(PartialEq)]
struct Name {
    answer: u32,
    value: u64,
}

extern "C" {
    fn korsepal_report_in(_: u32, _: u32, _: *const u8, _: usize, _: *mut u64, _: usize, _: *mut u8, _: usize) -> Report;
    fn korsepal_local_name(_: *const u8, _: usize, _: u64, _: u64, _: *mut u8, _: usize) -> Name;
    #[cfg(before_in)]
    fn before_korsepal_report_in(_: u32, _: u32, _: *const u8, _: usize, _: *mut u64, _: usize, _: *mut u8, _: usize) -> Report;
    #[cfg(not(before_in))]
    fn before_korsepal_report(_: *const u8, _: usize, _: *mut u64, _: usize, _: *mut u8, _: usize) -> Report;
    #[cfg(all(before_full, not(before_in)))]
    fn before_korsepal_report_full(_: *const u8, _: usize, _: *mut u64, _: usize, _: *mut u8, _: usize) -> Report;
    fn before_korsepal_local_name(_: *const u8, _: usize, _: u64, _: u64, _: *mut u8, _: usize) -> Name;
}

/// A build of the library, by the functions that are timed: its report of a case in one of `MODELS`, and the name of a local.
struct Build {
    report: fn(usize, &[u8], &mut Lent) -> Report,
    local_name: unsafe extern "C" fn(*const u8, usize, u64, u64, *mut u8, usize) -> Name,
}

/// What stands behind a group's name in each of the models that both builds have.
#[cfg(not(before_full))]
const MODELS: [&str; 1] = [""];
#[cfg(before_full)]
const MODELS: [&str; 2] = ["", ", full model"];

const BEFORE: Build = Build { report: report_before, local_name: before_korsepal_local_name };
const NOW: Build = Build { report: report_now, local_name: korsepal_local_name };

/// A call over a case and what is lent, behind its other arguments.
macro_rules! call {
    ($function:ident, $case:ident, $lent:ident $(, $argument:expr)*) => {{
        let Lent { stack, output } = $lent;
        // SAFETY: each pointer goes with the count of its slice, and the slices don't overlap.
        unsafe {
            $function(
                $($argument,)*
                $case.as_ptr(),
                $case.len(),
                stack.as_mut_ptr(),
                stack.len(),
                output.as_mut_ptr(),
                output.len(),
            )
        }
    }};
}

fn report_now(model: usize, case: &[u8], lent: &mut Lent) -> Report {
    call!(korsepal_report_in, case, lent, model as u32, 1)
}

#[cfg(before_in)]
fn report_before(model: usize, case: &[u8], lent: &mut Lent) -> Report {
    call!(before_korsepal_report_in, case, lent, model as u32, 1)
}

#[cfg(not(before_in))]
fn report_before(model: usize, case: &[u8], lent: &mut Lent) -> Report {
    match model {
        #[cfg(before_full)]
        1 => call!(before_korsepal_report_full, case, lent),
        _ => call!(before_korsepal_report, case, lent),
    }
}

impl Build {
    fn name(&self, numbered: &Numbered, lent: &mut Lent) -> Name {
        let (case, output) = (&numbered.pair.case, &mut lent.output);
        // SAFETY: as in `call`.
        unsafe {
            (self.local_name)(case.as_ptr(), case.len(), u64::from(numbered.local), 0, output.as_mut_ptr(), output.len())
        }
    }
}

/// One call by each build, in turns; `None` where the answers or the lent spaces, which hold other things before, differ.
fn time<A: PartialEq>(rounds: usize, cells: usize, call: impl Fn(&Build, &mut Lent) -> A) -> Option<Times> {
    let after = |build: &Build| {
        let mut lent = Lent::cells(cells);
        lent.stack.fill(u64::MAX);
        lent.output.fill(u8::MAX);
        (call(build, &mut lent), lent)
    };
    let (was, lent) = after(&BEFORE);
    let (is, now) = after(&NOW);
    if was != is || lent.stack != now.stack || lent.output != now.output {
        return None;
    }
    let lent = RefCell::new(lent);
    let by = |build: &Build| {
        black_box(call(build, &mut lent.borrow_mut()));
    };
    Some(alternate(rounds, || by(&NOW), || by(&BEFORE)))
}

/// What both builds took for the cases of one line. Those on which they differ are counted and not timed.
pub struct Moved {
    pub name: String,
    pub times: Vec<Times>,
    pub differing: usize,
}

impl Moved {
    fn of(name: String, cases: Vec<Option<Times>>) -> Moved {
        let differing = cases.iter().filter(|times| times.is_none()).count();
        Moved { name, times: cases.into_iter().flatten().collect(), differing }
    }
}

/// Reports of every group in each model, then the names.
pub fn measure(plan: &Plan, progress: &mut impl FnMut(&str)) -> Vec<Moved> {
    let mut lines = Vec::new();
    let groups = groups::all(plan);
    for (model, behind) in MODELS.iter().enumerate() {
        for Group { name, cells, pairs, .. } in &groups {
            let name = format!("{name}{behind}");
            progress(&name);
            let of = |pair: &Pair| time(plan.rounds, *cells, |build, lent| (build.report)(model, &pair.case, lent));
            lines.push(Moved::of(name, pairs.iter().map(of).collect()));
        }
    }
    for numbered in names::all() {
        progress(&numbered.name);
        let times = time(plan.rounds, 0, |build, lent| build.name(&numbered, lent));
        lines.push(Moved::of(format!("`{}`", numbered.name), vec![times]));
    }
    lines
}
