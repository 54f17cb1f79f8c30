//! The tally of a run: how much was compared, which listed differences were met, and what disagreed.
use crate::differences::{Listed, LISTED};
use crate::model::Model;
use std::collections::BTreeMap;
use std::io::Write;
use std::time::Instant;

/// How many disagreements are printed.
const SHOWN: usize = 5;

/// The columns: those of cases, then those of descriptors.
const COLUMNS: [&str; 18] = [
    "inputs",
    "cause",
    "action",
    "none",
    "full cause",
    "by wide",
    "wide cause",
    "reworded",
    "byte stays",
    "broken",
    "too long",
    "reports",
    "walks",
    "names",
    "lengths",
    "lists",
    "types",
    "methods",
];
const CASE_COLUMNS: &[Column] = &[
    Column::Inputs,
    Column::Cause,
    Column::Action,
    Column::NoMessage,
    Column::FullCause,
    Column::ByWide,
    Column::WideCause,
    Column::WordedOtherwise,
    Column::KeptWord,
    Column::Broken,
    Column::TooLong,
    Column::Reports,
    Column::Walks,
    Column::Names,
    Column::Lengths,
];
const DESCRIPTOR_COLUMNS: &[Column] = &[Column::Inputs, Column::Lists, Column::Types, Column::Methods];

/// What a column counts.
#[derive(Clone, Copy)]
pub enum Column {
    Inputs,
    /// Cases by their answer in document 01's model, where there is room enough.
    Cause,
    Action,
    NoMessage,
    /// Those that have a cause in the full model; those whose walk goes on through `wide` there; and those whose cause it loaded.
    FullCause,
    ByWide,
    WideCause,
    /// Those whose message wording 2 words otherwise; and those whose message has the word where wording 2 keeps it.
    WordedOtherwise,
    KeptWord,
    Broken,
    TooLong,
    /// Calls that were compared, in both models; of reports in both wordings, in none that is named and in numbers that are none.
    Reports,
    Walks,
    Names,
    Lengths,
    /// Descriptors that can be read as a parameter list, strictly as a type, strictly as a method.
    Lists,
    Types,
    Methods,
}

type Counts = [u64; COLUMNS.len()];

/// An input on which the two sides differ.
struct Disagreement {
    input: Vec<u8>,
    what: String,
    ours: String,
    theirs: String,
}

pub struct Book {
    /// The kind of the input at hand.
    kind: &'static str,
    counts: BTreeMap<&'static str, Counts>,
    order: Vec<&'static str>,
    /// For each listed difference: the inputs of which it holds, where the checked build panics, where the wrapped one differs.
    listed: [[u64; 3]; LISTED.len()],
    disagreements: u64,
    smallest: Vec<Disagreement>,
    /// The cases and the descriptors seen, and which input brought the first disagreement.
    cases: u64,
    descriptors: u64,
    first: Option<String>,
    /// The library's answers to reports by their numbers and names: by wording 1 and 2, none named and a number that is none, in each
    /// model.
    answers: BTreeMap<(u32, &'static str), [[u64; 2]; 4]>,
    /// The strict readers' answers, 0 and the refusals: as a type, as a method.
    strict: [[u64; 14]; 2],
    begun: Instant,
}

impl Book {
    pub fn new() -> Self {
        Book {
            kind: "",
            counts: BTreeMap::new(),
            order: Vec::new(),
            listed: [[0; 3]; LISTED.len()],
            disagreements: 0,
            smallest: Vec::new(),
            cases: 0,
            descriptors: 0,
            first: None,
            answers: BTreeMap::new(),
            strict: [[0; 14]; 2],
            begun: Instant::now(),
        }
    }

    /// A kind has its row behind those announced before.
    pub fn announce(&mut self, kind: &'static str) {
        if !self.counts.contains_key(kind) {
            self.counts.insert(kind, Counts::default());
            self.order.push(kind);
        }
    }

    /// A new case of a kind.
    pub fn case(&mut self, kind: &'static str) {
        self.cases += 1;
        self.input(kind);
    }

    /// A new descriptor of a kind.
    pub fn descriptor(&mut self, kind: &'static str) {
        self.descriptors += 1;
        self.input(kind);
    }

    fn input(&mut self, kind: &'static str) {
        self.kind = kind;
        self.announce(kind);
        self.count(Column::Inputs);
    }

    pub fn count(&mut self, column: Column) {
        self.add(column, 1);
    }

    pub fn add(&mut self, column: Column, number: u64) {
        self.counts.entry(self.kind).or_default()[column as usize] += number;
    }

    /// What a column has counted of a kind.
    pub fn counted(&self, kind: &str, column: Column) -> u64 {
        self.counts.get(kind).map_or(0, |counts| counts[column as usize])
    }

    /// Counts an answer of the library in a model by its number and name, and by how it was asked for.
    pub fn answer(&mut self, model: Model, asked: usize, number: u32, name: &'static str) {
        self.answers.entry((number, name)).or_default()[asked][model as usize] += 1;
    }

    /// Counts an answer of a strict reader: 0 or a refusal.
    pub fn strict(&mut self, as_type: bool, number: usize) {
        self.strict[usize::from(!as_type)][number] += 1;
        if number == 0 {
            self.count(if as_type { Column::Types } else { Column::Methods });
        }
    }

    /// A listed difference holds of the input at hand.
    pub fn listed(&mut self, difference: Listed, checked_panics: bool, wrapped_differs: bool) {
        let counts = &mut self.listed[difference as usize];
        counts[0] += 1;
        counts[1] += u64::from(checked_panics);
        counts[2] += u64::from(wrapped_differs);
    }

    pub fn disagree(&mut self, input: &[u8], what: String, ours: String, theirs: String) {
        self.disagreements += 1;
        if self.first.is_none() {
            let (sort, number) =
                if self.descriptors > 0 { ("descriptor", self.descriptors) } else { ("case", self.cases) };
            self.first = Some(format!("{sort} {number}: {what}"));
        }
        let place = self.smallest.partition_point(|kept| kept.input.len() <= input.len());
        if place < SHOWN {
            let what = format!("{} ({})", what, self.kind);
            self.smallest.insert(place, Disagreement { input: input.to_vec(), what, ours, theirs });
            self.smallest.truncate(SHOWN);
        }
    }

    /// Two answers that must be equal.
    pub fn expect<T: PartialEq + std::fmt::Debug>(&mut self, input: &[u8], what: &str, ours: T, theirs: T) {
        if ours != theirs {
            self.disagree(input, what.to_string(), format!("{ours:?}"), format!("{theirs:?}"));
        }
    }

    /// An answer of the checked build, `None` where it panicked: a panic must be listed, an answer must be the expected one.
    pub fn expect_checked<T: PartialEq + std::fmt::Debug>(
        &mut self,
        input: &[u8],
        what: &str,
        checked: Option<T>,
        expected: T,
        panic_is_listed: bool,
    ) {
        match checked {
            Some(answer) => self.expect(input, what, expected, answer),
            None if panic_is_listed => {}
            None => {
                self.disagree(input, what.to_string(), format!("{expected:?}"), "the checked build panics".to_string())
            }
        }
    }

    /// The progress line, in place.
    pub fn progress(&self, done: u64, of: u64) {
        let seconds = self.begun.elapsed().as_secs_f64();
        eprint!("\r{:<24} {done} of {of}, {} disagreements, {seconds:.0} s ", self.kind, self.disagreements);
        let _ = std::io::stderr().flush();
    }

    /// Whether everything agreed.
    pub fn agreed(&self) -> bool {
        self.disagreements == 0
    }

    /// Prints the tables and the smallest disagreements.
    pub fn print(&self) {
        eprintln!();
        self.print_counts("kind of case", CASE_COLUMNS);
        self.print_counts("kind of descriptor", DESCRIPTOR_COLUMNS);
        self.print_answers();
        println!("{:<58} {:>9} {:>9} {:>9}", "listed difference", "inputs", "panics", "differs");
        for ((number, text), [inputs, panics, differs]) in LISTED.iter().zip(self.listed) {
            println!("{number} {text:<55} {inputs:>9} {panics:>9} {differs:>9}");
        }
        println!();
        let seconds = self.begun.elapsed().as_secs_f64();
        println!("{} cases and {} descriptors in {seconds:.1} s", self.cases, self.descriptors);
        println!("disagreements {}", self.disagreements);
        self.print_disagreements();
    }

    /// The kinds that have a count in one of the columns, and their sum.
    fn print_counts(&self, title: &str, columns: &[Column]) {
        let kinds: Vec<_> = self.order.iter().filter(|kind| belongs(&self.counts[*kind], columns)).collect();
        if kinds.is_empty() {
            return;
        }
        print!("{title:<22}");
        for &column in columns {
            print!(" {:>10}", COLUMNS[column as usize]);
        }
        println!();
        let mut sums = [0; COLUMNS.len()];
        for kind in kinds {
            let row = &self.counts[kind];
            print_row(kind, row, columns);
            sums.iter_mut().zip(row).for_each(|(sum, count)| *sum += count);
        }
        print_row("all", &sums, columns);
        println!();
    }

    /// The library's answers to reports, and the strict readers' answers.
    fn print_answers(&self) {
        print!("{:<28}", "the library's report");
        for asked in ["wording 1", "wording 2", "none named", "no wording"] {
            print!(" {asked:>10} {:>9}", "full");
        }
        println!();
        for ((number, name), counts) in &self.answers {
            print!("{:<28}", format!("answer {number}, {name}"));
            counts.iter().for_each(|[document, full]| print!(" {document:>10} {full:>9}"));
            println!();
        }
        println!();
        if self.descriptors > 0 {
            println!("{:<18} {:>9} {:>9}", "strict answer", "type", "method");
            for (number, (as_type, as_method)) in self.strict[0].iter().zip(self.strict[1]).enumerate() {
                println!("{number:<18} {as_type:>9} {as_method:>9}");
            }
            println!();
        }
    }

    fn print_disagreements(&self) {
        if let Some(first) = &self.first {
            println!("the first is {first}; the smallest:");
        }
        for one in &self.smallest {
            println!("- {}", one.what);
            println!("  input    {}", hex(&one.input));
            println!("  library  {}", one.ours);
            println!("  expected {}", one.theirs);
        }
    }
}

/// Whether some column but the inputs has a count.
fn belongs(counts: &Counts, columns: &[Column]) -> bool {
    columns[1..].iter().any(|&column| counts[column as usize] > 0)
}

fn print_row(name: &str, counts: &Counts, columns: &[Column]) {
    print!("{name:<22}");
    for &column in columns {
        print!(" {:>10}", counts[column as usize]);
    }
    println!();
}

/// Bytes in hexadecimal; of many, the first 2,000.
fn hex(bytes: &[u8]) -> String {
    let mut text: String = bytes.iter().take(2_000).map(|byte| format!("{byte:02x}")).collect();
    if bytes.len() > 2_000 {
        text += &format!(".. ({} bytes)", bytes.len());
    }
    text
}
