//! Real class files: every dereferencing instruction of every method becomes a case, and some methods do with one byte damaged.
use crate::book::{Book, Column};
use crate::cases::Run;
use crate::classfile::{self, ClassFile, Members, Method};
use crate::layout;
use crate::make::damaged_everywhere;
use crate::sides::{Build, Wrapped};
use std::fs;
use std::path::{Path, PathBuf};

const WIDE: u8 = 196;

/// The kind of the cases that are as the class files have them.
const KIND: &str = "class files";

/// Of the methods with no more bytes of code than this, one in so many is compared with each of its bytes damaged.
const DAMAGED_CODE: usize = 300;
const DAMAGED_METHODS: usize = 100;

/// The class files below a folder, in the order of their paths; or the one file named.
fn class_files(folder: &Path) -> std::io::Result<Vec<PathBuf>> {
    let mut files = Vec::new();
    let mut left = vec![folder.to_path_buf()];
    while let Some(path) = left.pop() {
        if path.is_dir() {
            for entry in fs::read_dir(&path)? {
                left.push(entry?.path());
            }
        } else if path.extension().is_some_and(|extension| extension == "class") {
            files.push(path);
        }
    }
    files.sort();
    Ok(files)
}

/// Counts of what was read.
#[derive(Default)]
struct Seen {
    classes: u64,
    unreadable: u64,
    methods: u64,
    instructions: u64,
    wide: u64,
    unmeasured: u64,
}

/// Compares the two sides on every class file below a folder.
pub fn compare(run: &mut Run, folder: &Path) -> std::io::Result<()> {
    let files = class_files(folder)?;
    let mut seen = Seen::default();
    for (done, file) in files.iter().enumerate() {
        match classfile::read(&fs::read(file)?) {
            Ok(class) => {
                seen.classes += 1;
                class.methods.iter().for_each(|method| compare_method(run, &mut seen, &class, method));
            }
            Err(_) => seen.unreadable += 1,
        }
        if done % 50 == 0 {
            run.book.progress(done as u64, files.len() as u64);
        }
    }
    eprintln!();
    println!(
        "{} classes ({} more could not be read), {} methods with code, {} instructions, {} of them behind wide, {} methods not \
         measured to their end",
        seen.classes, seen.unreadable, seen.methods, seen.instructions, seen.wide, seen.unmeasured
    );
    println!();
    Ok(())
}

/// Prints how many of the faults have a cause in each model.
pub fn print_shares(book: &Book) {
    let counted = |column| book.counted(KIND, column);
    let (faults, none) = (counted(Column::Inputs), counted(Column::NoMessage));
    let share = |causes: u64, of: u64| 100.0 * causes as f64 / of.max(1) as f64;
    println!("{faults} faults of class files, {} with a message; of these have a cause", faults - none);
    for (model, column) in [("document 01's model", Column::Cause), ("the full model", Column::FullCause)] {
        let causes = counted(column);
        println!(
            "    in {model:<19} {causes:>9}, {:.1} % of the faults, {:.1} % of the messages",
            share(causes, faults),
            share(causes, faults - none)
        );
    }
    println!(
        "    of the latter {} loaded by wide; {} walks of the full model go on through wide",
        counted(Column::WideCause),
        counted(Column::ByWide)
    );
    println!(
        "    {} messages are worded otherwise by wording 2; {} have the word byte where it stays",
        counted(Column::WordedOtherwise),
        counted(Column::KeptWord)
    );
}

fn compare_method(run: &mut Run, seen: &mut Seen, class: &ClassFile, method: &Method) {
    seen.methods += 1;
    let starts = starts(&method.code);
    seen.instructions += starts.len() as u64;
    seen.wide += starts.iter().filter(|&&start| method.code[start] == WIDE).count() as u64;
    if end(&method.code, &starts) != Some(method.code.len()) {
        seen.unmeasured += 1;
    }
    let faults = classfile::dereferences(&method.code);
    for (place, &fault) in faults.iter().enumerate() {
        // The first fault has the whole pool's members, the others those that the code cites.
        let members = if place == 0 { Members::Whole } else { Members::Cited };
        if let Some(bytes) = classfile::case_at(class, method, fault, members).bytes() {
            run.book.case(KIND);
            run.fault_of_method(&bytes, place == 0);
            if place == 0 && method.code.len() <= DAMAGED_CODE && run.random.once_in(DAMAGED_METHODS) {
                compare_damaged(run, &bytes);
            }
        }
    }
}

/// A case of a method with one byte of its code replaced by a reserved one, at every place.
fn compare_damaged(run: &mut Run, bytes: &[u8]) {
    let Ok(parts) = layout::read(bytes) else { return };
    for damaged in damaged_everywhere(&parts) {
        run.book.case("damaged class files");
        run.case(&damaged);
    }
}

/// Where the instructions of a code start, by the Rust's lengths.
fn starts(code: &[u8]) -> Vec<usize> {
    let mut starts = Vec::new();
    let mut at = 0;
    while let Some(length) = Wrapped::length(code, at) {
        starts.push(at);
        at += length;
    }
    starts
}

/// Where the last instruction ends.
fn end(code: &[u8], starts: &[usize]) -> Option<usize> {
    let last = *starts.last()?;
    Some(last + Wrapped::length(code, last)?)
}

/// Prints a line for each method of a class file: where its instructions start, by the library's lengths.
pub fn print_starts(file: &Path) -> std::io::Result<()> {
    let Ok(class) = classfile::read(&fs::read(file)?) else { return Ok(()) };
    for method in &class.methods {
        let mut line = String::new();
        let mut at = 0;
        while let Some(length) = korsepal::instruction_length(&method.code, at) {
            line += &format!(" {at}");
            at += length;
        }
        println!("code{line}");
    }
    Ok(())
}
