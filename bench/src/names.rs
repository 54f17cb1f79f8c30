//! Names that are made of a number, `<localN>` and `<parameterN>`, of one, three and five digits. A report names locals up to 255; the
//! name alone takes any local.
use crate::clock::{alternate, Times};
use crate::made;
use crate::pair::{Lent, Pair};
use korsepal::Case;
use std::hint::black_box;

/// A local without a record, and the name that its number makes up.
pub struct Numbered {
    pub name: String,
    pub pair: Pair,
    pub local: u16,
}

const NUMBERS: [u16; 3] = [7, 123, 12_345];

/// A method that only returns, with so many parameters of type int.
fn method(parameters: u16) -> Option<Pair> {
    let signature = format!("solve:({})V", "I".repeat(usize::from(parameters)));
    Pair::alone(&Case { signature: signature.into_bytes(), ..made::case(vec![made::RETURN], 0, Vec::new()) })
}

/// Every name, the locals first.
pub fn all() -> Vec<Numbered> {
    let local = |n| Some(Numbered { name: format!("<local{n}>"), pair: method(0)?, local: n });
    let parameter = |n| Some(Numbered { name: format!("<parameter{n}>"), pair: method(n)?, local: n - 1 });
    NUMBERS.into_iter().filter_map(local).chain(NUMBERS.into_iter().filter_map(parameter)).collect()
}

/// A name, timed on both sides; `None` where they differ.
fn time(numbered: &Numbered, lent: &mut Lent, rounds: usize) -> Option<Times> {
    let Numbered { name, pair, local } = numbered;
    if pair.rust_name(*local) != *name || pair.library_name(*local, lent) != korsepal::Name::Named(name.as_bytes()) {
        return None;
    }
    let library = || {
        black_box(pair.library_name(*local, lent));
    };
    Some(alternate(rounds, library, || pair.rust_name(*local)))
}

/// The names with their times.
pub fn measure(rounds: usize, progress: &mut impl FnMut(&str)) -> Vec<(String, Option<Times>)> {
    let mut lent = Lent::cells(0);
    let mut row = |numbered: Numbered| {
        progress(&numbered.name);
        let times = time(&numbered, &mut lent, rounds);
        (numbered.name, times)
    };
    all().into_iter().map(&mut row).collect()
}
