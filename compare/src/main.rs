//! Compares the library with the Rust that it ports: the same inputs to both, every answer.
mod book;
mod calls;
mod cases;
mod classes;
mod classfile;
mod damage;
mod descriptors;
mod differences;
mod full;
mod layout;
mod make;
mod model;
mod random;
mod room;
mod rows;
mod rule;
mod sample;
mod sides;
mod slots;
mod wording;

use cases::Run;
use random::Random;
use std::io::Write;
use std::path::Path;

/// What the files of rows open with.
const SAMPLE: &str = "\
# A sample of cases and descriptors, of which no listed difference but D6 and D7 holds. The answers are the Rust's own, for D6 and D7
# with their stand-ins (compare/README.md), written by compare/sample. Lines are in wording 1.
#
# report | case | count of cells lent | count of bytes lent => the line
# descriptor | text => the parameters and their slots, the return's slots, and the slots as a field
# type | text | count of numbers lent => the answer | the numbers; what is not written stays 7
# method | text | count of numbers lent => the same

";
const SHORT: &str = "\
# What the strict readers answer to every text of up to six bytes over eight letters. The answers are those of the Rust's own
# jdescriptor, written by compare/sample; 14 was added where four numbers a type exceed the room.
#
# type | text | count of numbers lent => the answer | the numbers; what is not written stays 7
# method | text | count of numbers lent => the same
# digest | beginning | letters | count => one number for what both readers answer and write on the first so many texts with so
#     many letters more

";

/// How many inputs go by between two progress lines.
const STEP: u64 = 2_000;

/// To so many made inputs there comes one with a `)` put into names, and to so many made cases one with a damaged byte.
const PARENTHESISED: u64 = 10;
const DAMAGED: u64 = 5;

/// Compares so many inputs, with a progress line now and then.
fn each(run: &mut Run, count: u64, mut one: impl FnMut(&mut Run)) {
    for done in 0..count {
        one(run);
        if done % STEP == 0 {
            run.book.progress(done, count);
        }
    }
}

/// The whole comparison: the fixed rows, every opcode behind `wide`, so many cases, so many made descriptors, a tenth more of each with a
/// `)` put into names, a fifth more cases with a damaged byte, and every short descriptor as the count allows.
fn compare(seed: u64, count: u64) -> Run {
    let mut run = Run::new(seed);
    rows::compare(&mut run);
    rows::compare_behind_wide(&mut run);
    cases(&mut run, seed, count);
    parenthesised_cases(&mut run, seed, count / PARENTHESISED);
    damaged_cases(&mut run, seed, count / DAMAGED);
    rows::compare_descriptors(&mut run);
    made_descriptors(&mut run, seed, count);
    parenthesised_descriptors(&mut run, seed, count / PARENTHESISED);
    short_descriptors(&mut run, count);
    run
}

/// Cases of every kind, mixed, so that each is met early.
fn cases(run: &mut Run, seed: u64, count: u64) {
    let mut random = Random::new(seed ^ 0x6361_7365);
    make::KINDS.iter().for_each(|(name, _, _)| run.book.announce(name));
    let mix: Vec<usize> = (0..make::KINDS.len()).flat_map(|kind| vec![kind; make::KINDS[kind].1]).collect();
    each(run, count, |run| {
        let (name, _, make) = make::KINDS[mix[random.below(mix.len())]];
        run.book.case(name);
        run.case(&make(&mut random));
    });
}

/// Cases with a `)` put into names.
fn parenthesised_cases(run: &mut Run, seed: u64, count: u64) {
    let mut random = Random::new(seed ^ 0x7061_7265);
    each(run, count, |run| {
        run.book.case("parenthesis in a name");
        run.case(&make::parenthesised(&mut random));
    });
}

/// Cases of whole methods with one byte of the code replaced by a reserved one, at every place.
fn damaged_cases(run: &mut Run, seed: u64, count: u64) {
    let mut random = Random::new(seed ^ 0x6461_6d61);
    let mut left = Vec::new();
    each(run, count, |run| {
        let bytes = left.pop().unwrap_or_else(|| {
            left = make::damaged_uploads(&mut random);
            left.pop().expect("no code that was made is empty")
        });
        run.book.case("damaged upload");
        run.case(&bytes);
    });
}

fn made_descriptors(run: &mut Run, seed: u64, count: u64) {
    let mut random = Random::new(seed ^ 0x6465_7363);
    descriptors::KINDS.iter().for_each(|name| run.book.announce(name));
    each(run, count, |run| {
        let (name, text) = descriptors::made(&mut random);
        run.book.descriptor(name);
        run.descriptor(&text);
    });
}

/// Methods with a `)` put into names.
fn parenthesised_descriptors(run: &mut Run, seed: u64, count: u64) {
    let mut random = Random::new(seed ^ 0x6e61_6d65);
    each(run, count, |run| {
        let mut text = descriptors::any_method(&mut random);
        descriptors::parenthesise(&mut random, &mut text);
        run.book.descriptor("name with parenthesis");
        run.descriptor(&text);
    });
}

/// Every text over the alphabet whose length has no more texts than the count.
fn short_descriptors(run: &mut Run, count: u64) {
    let mut text = Vec::new();
    for letters in 0..=7u32 {
        let texts = (descriptors::ALPHABET.len() as u64).pow(letters);
        if texts > count {
            break;
        }
        for number in 0..texts {
            descriptors::short(number as usize, letters as usize, &mut text);
            run.book.descriptor("every short descriptor");
            run.descriptor(&text);
            if number % (10 * STEP) == 0 {
                run.book.progress(number, texts);
            }
        }
    }
}

/// Ends with a word on what went wrong with a file.
fn or_end<T>(work: std::io::Result<T>, path: &str) -> T {
    work.unwrap_or_else(|error| {
        eprintln!("compare: {path}: {error}");
        std::process::exit(2);
    })
}

/// Prints the tables; a disagreement is a failure.
fn end(run: &Run) {
    run.book.print();
    if !run.book.agreed() {
        std::process::exit(1);
    }
}

/// Writes the case of a fault in a method of a class file, the first of that name, with the members that its code cites.
fn write_case(path: &str, method: &str, fault: usize) {
    let class = classfile::read(&or_end(std::fs::read(path), path));
    let class = or_end(class.map_err(|wrong| std::io::Error::new(std::io::ErrorKind::InvalidData, wrong)), path);
    let bytes = class
        .methods
        .iter()
        .find(|found| found.name == method.as_bytes())
        .and_then(|found| classfile::case_at(&class, found, fault, classfile::Members::Cited).bytes());
    let bytes = or_end(bytes.ok_or(std::io::ErrorKind::NotFound.into()), method);
    or_end(std::io::stdout().write_all(&bytes), "standard output");
}

/// Prints the lines of the case in a file by the rules, in document 01's model and in the full one, first in wording 1 and then in wording
/// 2, with the spaces of `npe`.
fn print_lines(path: &str) {
    let bytes = or_end(std::fs::read(path), path);
    let lines = wording::WORDINGS.into_iter().flat_map(|wording| model::MODELS.map(|model| (wording, model)));
    for (wording, model) in lines {
        let line = match layout::read(&bytes) {
            Ok(parts) => sample::line(rule::Facts::of(&parts).answer(model, wording, 4_096, 16_384)),
            Err(layout::Wrong::At(at)) => sample::line(korsepal::Answer::Broken { at: at as u64 }),
            Err(layout::Wrong::TooLong) => sample::line(korsepal::Answer::TooLong),
        };
        or_end(std::io::stdout().write_all(&[&line[..], b"\n"].concat()), "standard output");
    }
}

/// The rows of the stored sample, answered anew.
fn renewed_sample(folder: &str) -> Vec<sample::Row> {
    let path = format!("{folder}/sample");
    let file = or_end(std::fs::read(&path), &path);
    or_end(sample::renewed(&file).ok_or(std::io::ErrorKind::InvalidData.into()), &path)
}

/// Writes the files of rows, and says whether the library answers as the Rust does. A seed draws another sample.
fn write_rows(folder: &str, seed: Option<u64>) {
    let sample = seed.map_or_else(|| renewed_sample(folder), sample::sample);
    let files = [("sample", SAMPLE, sample), ("short", SHORT, sample::short())];
    for (name, remark, rows) in &files {
        let path = format!("{folder}/{name}");
        or_end(std::fs::write(&path, sample::file(remark, rows)), &path);
        let others = rows.iter().filter(|row| !row.agrees()).count();
        println!("{name}: {} rows, of which the library answers {others} otherwise", rows.len());
    }
    if files.iter().any(|(_, _, rows)| rows.iter().any(|row| !row.agrees())) {
        std::process::exit(1);
    }
}

fn main() {
    sides::silence_expected_panics();
    let arguments: Vec<String> = std::env::args().skip(1).collect();
    let number = |place: usize, usual: u64| match arguments.get(place) {
        None => usual,
        Some(text) => text.parse().unwrap_or_else(|_| usage()),
    };
    let path = || arguments.get(1).unwrap_or_else(|| usage());
    match arguments.first().map(String::as_str) {
        Some("run") => end(&compare(number(1, 1), number(2, 100_000))),
        Some("listed") => rows::print_listed(),
        Some("classes") => {
            let mut run = Run::new(1);
            or_end(classes::compare(&mut run, Path::new(path())), path());
            classes::print_shares(&run.book);
            end(&run);
        }
        Some("starts") => arguments[1..].iter().for_each(|file| or_end(classes::print_starts(Path::new(file)), file)),
        Some("case") => write_case(path(), arguments.get(2).unwrap_or_else(|| usage()), number(3, 0) as usize),
        Some("lines") => print_lines(path()),
        Some("sample") => write_rows(path(), arguments.get(2).map(|_| number(2, 0))),
        _ => usage(),
    }
}

fn usage() -> ! {
    eprintln!(
        "compare: run [SEED] [COUNT] | listed | classes FOLDER | starts FILE.. | case FILE METHOD FAULT | lines CASE | \
         sample FOLDER [SEED]"
    );
    std::process::exit(2);
}
