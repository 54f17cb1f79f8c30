//! bench: the proved library and the unchanged Rust, in one process and one run, in alternating batches.
//!
//! The library starts from the bytes of a case: it reads and checks all of them, and clears the whole lent stack. The Rust starts
//! from the same bytes, which a plain reader turns into its objects; or, in lines of their own, from prepared objects (the method
//! with its code and records, the members in hash maps), which it is not charged for. It allocates and frees its sets, lists and
//! strings. Both end with the message, and a case is timed only where the messages agree; the library is asked in wording 1, the
//! Rust's own words.
//!
//! `against` times an earlier build of the library and this one over the same cases. Only a driver that has both knows it.
#[cfg(before)]
mod before;
#[allow(dead_code)]
#[path = "../../compare/src/classfile.rs"]
mod classfile;
mod clock;
mod groups;
mod growth;
mod made;
mod models;
mod names;
mod pair;
mod parts;
mod plot;
mod reading;
mod real;
mod table;
mod wordings;

use std::env;
use std::fs;
use std::io::{stderr, Write};
use std::path::{Path, PathBuf};

/// What a run measures.
pub struct Plan {
    pub quick: bool,
    /// Folders of class files, where there are any.
    pub jdk: Option<PathBuf>,
    pub examples: Option<PathBuf>,
    /// At most so many faults of each folder.
    pub sample: usize,
    /// The lengths of made codes.
    pub lengths: &'static [usize],
    /// Batches of each side.
    pub rounds: usize,
    /// The members of a hostile table.
    pub hostile: u16,
}

impl Plan {
    fn full() -> Plan {
        let lengths = &[256, 1_024, 4_096, 16_384, 60_000];
        Plan { quick: false, jdk: None, examples: None, sample: 3_000, lengths, rounds: 9, hostile: u16::MAX }
    }

    fn quick() -> Plan {
        Plan { quick: true, sample: 300, lengths: &[256, 4_096], rounds: 3, hostile: 2_048, ..Plan::full() }
    }
}

/// A line that is written over the last one, padded to hide it.
fn progress(words: &str) {
    eprint!("\rbench: {words:<70}");
    let _ = stderr().flush();
}

/// What was measured.
struct Results {
    rows: Vec<groups::Row>,
    parts: Vec<(String, parts::Parts)>,
    in_both: Vec<models::InBoth>,
    in_wordings: Vec<wordings::InWordings>,
    paces: Vec<models::Pace>,
    alike: Vec<[models::Pace; 2]>,
    widened: Vec<models::Widened>,
    names: Vec<(String, Option<clock::Times>)>,
    curves: Vec<growth::Curve>,
    hostile: Vec<growth::Hostile>,
}

/// The lines of a group.
fn rows_of(group: &groups::Group, plan: &Plan) -> Vec<groups::Row> {
    let starts = [groups::Start::Bytes, groups::Start::Prepared];
    let mut rows: Vec<groups::Row> =
        starts.iter().map(|&start| groups::measure(group, start, plan.rounds, &mut progress)).collect();
    if group.real {
        rows.push(groups::measure_in_turn(group, plan.rounds, &mut progress));
    }
    rows
}

fn measure(plan: &Plan) -> Results {
    progress("preparing the cases");
    let groups = groups::all(plan);
    let longest = plan.lengths.last().copied().unwrap_or(made::LONGEST);
    Results {
        rows: groups.iter().flat_map(|group| rows_of(group, plan)).collect(),
        parts: groups.iter().map(|group| (group.name.clone(), parts::of_group(group, 3, &mut progress))).collect(),
        in_both: groups.iter().map(|group| models::of_group(group, plan.rounds, &mut progress)).collect(),
        in_wordings: groups.iter().map(|group| wordings::of_group(group, plan.rounds, &mut progress)).collect(),
        paces: models::paces(longest, plan.rounds, &mut progress),
        alike: models::alike(longest, plan.rounds, &mut progress),
        widened: models::widened(longest, plan.rounds, &mut progress),
        names: names::measure(plan.rounds, &mut progress),
        curves: growth::curves(plan.rounds, &mut progress),
        hostile: growth::hostile(plan.hostile, plan.rounds, &mut progress),
    }
}

/// What is left out, and whether the messages agreed.
fn notes(plan: &Plan, rows: &[groups::Row]) -> String {
    let mut text = String::new();
    for (folder, what) in [(&plan.jdk, "the JDK's faults"), (&plan.examples, "the examples' faults")] {
        if folder.is_none() {
            text += &format!("Left out, without a JDK: {what}.\n");
        }
    }
    let differing: usize = rows.iter().map(|row| row.differing).sum();
    text += &format!("Cases on which the messages differ: {differing}.\n");
    if plan.quick {
        text += "A quick run: fewer cases, fewer batches, shorter tables.\n";
    }
    text
}

/// The results as markdown.
fn page(plan: &Plan, results: &Results) -> String {
    [
        &table::groups(&results.rows),
        "\nTimes are medians of a group's cases. A ratio is the Rust's time over the library's: above 1 the library is faster. The\n",
        "worst ratio is a group's lowest.\n",
        &notes(plan, &results.rows),
        "\n### Where the library's time goes\n\n",
        &table::parts(&results.parts),
        "\nThe walk is a walk's time less that of reading; the rest is decoding the fault, naming the local, measuring the message and\n",
        "writing it: the report less the others, where that is below 0 it is shown as 0. Medians, each of its own.\n",
        "\n### The full model\n\n",
        &table::in_both(&results.in_both),
        "\nReports of the same cases in both models, where they say the same after as many instructions; the full one walks further in the\n",
        "others. The ratio is a group's median, then its greatest.\n\n",
        &table::paces(&results.paces),
        "\nThe walk alone, to the instruction, without the time of reading the case. Where document 01's model gives up, its median\n",
        "through code that cites members, or through code that cites none, stands for it in the ratio.\n\n",
        &table::alike(&results.alike),
        "\nThe same, of units that differ in one opcode, each of which takes and gives as many slots.\n\n",
        &table::widened(&results.widened),
        "\nUnits whose locals have one byte, and the same behind `wide`, over as many bytes of code: the full model's walk to the\n",
        "instruction, as above, and its whole report.\n",
        "\n### Wordings\n\n",
        &table::in_wordings(&results.in_wordings),
        "\nReports of the same cases in both wordings, in document 01's model. Reworded are those whose messages differ: the fault is a load\n",
        "from a byte or boolean array or a store to one. Ratios are medians.\n",
        "\n### Names made of a number\n\n",
        &table::names(&results.names),
        "\nThe name alone, of a local without a record: the library from the bytes of a case, the Rust from prepared objects.\n",
        "\n### Growth with the code\n\n",
        &table::growth(&results.curves),
        "\n",
        &table::points(&results.curves),
        "\n### Hostile tables\n\n",
        &table::hostile(&results.hostile),
    ]
    .concat()
}

/// Measures an earlier build and this one.
#[cfg(before)]
fn run_against(plan: &Plan) {
    let lines = before::measure(plan, &mut progress);
    progress("done");
    eprintln!();
    println!("{}", table::moved(&lines));
}

/// Measures all and writes table.md and growth.svg to a folder.
fn run(plan: &Plan, to: &Path) -> std::io::Result<()> {
    let results = measure(plan);
    progress("done");
    eprintln!();
    let text = page(plan, &results);
    println!("{text}");
    fs::write(to.join("table.md"), &text)?;
    fs::write(to.join("growth.svg"), plot::svg(&results.curves))
}

/// The arguments: `quick` or `full`, the folder to write to, then `jdk=FOLDER` and `examples=FOLDER` where there are class files.
fn plan_of(arguments: &[String]) -> Option<(Plan, PathBuf)> {
    let (mode, rest) = arguments.split_first()?;
    let mut plan = match mode.as_str() {
        "quick" => Plan::quick(),
        "full" => Plan::full(),
        #[cfg(before)]
        "against" => Plan { rounds: 9, ..Plan::quick() },
        _ => return None,
    };
    let (to, folders) = rest.split_first()?;
    for folder in folders {
        match folder.split_once('=')? {
            ("jdk", path) => plan.jdk = Some(PathBuf::from(path)),
            ("examples", path) => plan.examples = Some(PathBuf::from(path)),
            _ => return None,
        }
    }
    Some((plan, PathBuf::from(to)))
}

fn main() -> std::io::Result<()> {
    let arguments: Vec<String> = env::args().skip(1).collect();
    let Some((plan, to)) = plan_of(&arguments) else {
        eprintln!("bench: quick|full FOLDER [jdk=FOLDER] [examples=FOLDER]");
        std::process::exit(2);
    };
    #[cfg(before)]
    if arguments[0] == "against" {
        run_against(&plan);
        return Ok(());
    }
    run(&plan, &to)
}
