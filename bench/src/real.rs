//! Faults of real class files: every instruction that dereferences and has a message, or a sample of them.
use crate::classfile::{case_at, dereferences, read, ClassFile, Members, Method};
use crate::pair::{pool_of, Lent, Pair};
use oracle_wrapped::Pool;
use std::fs;
use std::path::{Path, PathBuf};
use std::rc::Rc;

/// A class file that both sides can read.
struct Class {
    file: ClassFile,
    pool: Rc<Pool>,
}

/// The class files below a folder, in order of their names.
fn class_files(folder: &Path) -> Vec<PathBuf> {
    let mut found = Vec::new();
    let mut folders = vec![folder.to_path_buf()];
    while let Some(folder) = folders.pop() {
        for path in fs::read_dir(folder).into_iter().flatten().flatten().map(|entry| entry.path()) {
            if path.is_dir() {
                folders.push(path);
            } else if path.extension().is_some_and(|extension| extension == "class") {
                found.push(path);
            }
        }
    }
    found.sort();
    found
}

/// The class of a file; `None` where it can't be read or has a name that is not UTF-8.
fn class_of(path: &Path) -> Option<Class> {
    let file = read(&fs::read(path).ok()?).ok()?;
    let pool = Rc::new(pool_of(file.members.iter())?);
    Some(Class { file, pool })
}

/// Every dereference of a class.
fn faults(class: &ClassFile) -> Vec<(&Method, usize)> {
    let methods = class.methods.iter();
    methods.flat_map(|method| dereferences(&method.code).into_iter().map(move |fault| (method, fault))).collect()
}

/// At most so many faults, evenly from all class files below a folder, with the whole member table or the cited members. Only
/// those that have a message count: at a call of a constructor nothing can be null.
pub fn sample(folder: &Path, most: usize, members: Members) -> Vec<Pair> {
    let classes: Vec<Class> = class_files(folder).iter().filter_map(|path| class_of(path)).collect();
    let total: usize = classes.iter().map(|class| faults(&class.file).len()).sum();
    let step = total.div_ceil(most.max(1)).max(1);
    let mut lent = Lent::cells(4_096);
    let mut seen = 0;
    let mut pairs = Vec::new();
    for class in &classes {
        for (method, fault) in faults(&class.file) {
            seen += 1;
            if seen % step == 0 {
                let pair = Pair::new(&case_at(&class.file, method, fault, members), Rc::clone(&class.pool));
                pairs.extend(pair.filter(|pair| has_message(pair, &mut lent)));
            }
        }
    }
    pairs
}

fn has_message(pair: &Pair, lent: &mut Lent) -> bool {
    !matches!(pair.library(lent), korsepal::Answer::NoMessage)
}
