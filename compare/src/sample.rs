//! Rows of data with the Rust's own answers, for the program `replay`, which runs where the Rust is not at hand: a sample of cases
//! and descriptors of which no listed difference but D6 and D7 holds, and every short text over eight letters for the strict readers.
//! crates/replay/README.md says how rows are written.
use crate::descriptors::{made, Strict, STRICT_WRAPPED};
use crate::differences::return_slots;
use crate::layout::{self, Wrong};
use crate::make;
use crate::model::Model;
use crate::random::Random;
use crate::rule::Facts;
use crate::sides::{Build, Holding, Wrapped};
use crate::wording::Wording;
use korsepal::{Answer, Parameters};
use std::collections::HashMap;

/// How many cases a new sample has of each sort: a message with its cause, an action alone, then the answers 1 to 4.
const CASES: [usize; 6] = [1_000, 780, 560, 520, 90, 50];

/// How many descriptors there are for each reader, and how many of one answer at most.
const DESCRIPTORS: usize = 1_000;
const OF_ONE_ANSWER: usize = 150;

/// The spaces that the expected answers of cases are for.
const ROOM: usize = 64;
const OUTPUT: usize = 256;

/// The longest input, and what most inputs stay below.
const LONGEST: usize = 512;
const USUAL: usize = 60;

/// The letters of the short texts.
const LETTERS: &[u8; 8] = b"()[;ILVa";

/// How many numbers a digest's readers are lent, and its modulus.
const LENT: usize = 12;
const MODULUS: u64 = 4_294_967_291;

/// A row: its fields, the answer that it holds, which is the Rust's, and what the library says.
pub struct Row {
    fields: String,
    answer: Vec<u8>,
    said: Vec<u8>,
}

impl Row {
    /// A row is a line, so none has an answer with a newline.
    fn is_a_line(&self) -> bool {
        !self.answer.contains(&b'\n')
    }

    pub fn agrees(&self) -> bool {
        self.answer == self.said
    }
}

/// The file of some rows.
pub fn file(remark: &str, rows: &[Row]) -> Vec<u8> {
    let lines = rows.iter().flat_map(|row| [row.fields.as_bytes(), b" => ", &row.answer, b"\n"].concat());
    remark.bytes().chain(lines).collect()
}

/// Bytes as rows have them: what can stand in a text as a text, the others in digits.
fn spelled(bytes: &[u8]) -> String {
    let plain = |byte: &u8| byte.is_ascii_graphic() && !b"\"*|=".contains(byte);
    let item = |run: &[u8]| match std::str::from_utf8(run) {
        Ok(text) if run.iter().all(plain) => format!("\"{text}\""),
        _ => format!("{:02x}", run[0]),
    };
    if bytes.is_empty() {
        return "\"\"".to_string();
    }
    bytes.chunk_by(|a, b| plain(a) && plain(b)).map(item).collect::<Vec<_>>().join(" ")
}

/// The bytes that a row has so.
fn unspelled(text: &str) -> Option<Vec<u8>> {
    let item = |item: &str| match item.strip_prefix('"') {
        Some(rest) => rest.strip_suffix('"').map(|text| text.as_bytes().to_vec()),
        None => u8::from_str_radix(item, 16).ok().map(|byte| vec![byte]),
    };
    Some(text.split(' ').map(item).collect::<Option<Vec<_>>>()?.concat())
}

/// The line that the program `npe` would print with these spaces.
pub fn line(answer: Answer) -> Vec<u8> {
    match answer {
        Answer::Message { text, kind, scan, block } => [format!("0 {kind} {scan} {block} ").as_bytes(), text].concat(),
        Answer::NoMessage => b"1 0 0 0".to_vec(),
        Answer::Broken { at } => format!("2 0 0 0 {at}").into_bytes(),
        Answer::NoRoom { at } => format!("3 0 0 0 {at}").into_bytes(),
        Answer::NoOutput { needed } => format!("4 0 0 0 {needed}").into_bytes(),
        Answer::TooLong => b"5 0 0 0".to_vec(),
        Answer::NoWording => b"11 0 0 0".to_vec(),
        other => format!("{other:?}").into_bytes(),
    }
}

/// The row of a case and its sort, in wording 1; `None` where a listed difference but D6 and D7 holds of it.
fn case(bytes: &[u8]) -> Option<(Row, usize)> {
    let (answer, sort) = match layout::read(bytes) {
        Err(Wrong::TooLong) => return None,
        Err(Wrong::At(at)) => (line(Answer::Broken { at: at as u64 }), 3),
        Ok(parts) => {
            let facts = Facts::of(&parts);
            if facts.listed() {
                return None;
            }
            let answer = facts.answer(Model::Document, Wording::First, ROOM, OUTPUT);
            (line(answer), sort(&answer))
        }
    };
    let fields = format!("report | {} | {ROOM} | {OUTPUT}", spelled(bytes));
    let manner = Model::Document.manner().wording(Wording::First.number());
    let said = line(korsepal::report_in(manner, bytes, &mut [0; ROOM], &mut [0; OUTPUT]));
    Some((Row { fields, answer, said }, sort))
}

/// The place of an answer in `CASES`.
fn sort(answer: &Answer) -> usize {
    match answer {
        Answer::Message { kind: 2, .. } => 0,
        Answer::Message { .. } => 1,
        Answer::NoMessage => 2,
        Answer::NoRoom { .. } => 4,
        Answer::NoOutput { .. } => 5,
        _ => 3,
    }
}

/// Cases of every kind until there are enough of each sort; short ones for the most part, and longer ones that tell of room.
fn cases(random: &mut Random) -> Vec<Row> {
    let mut left = CASES;
    let mut rows = Vec::new();
    while left.iter().any(|&left| left > 0) {
        let (_, _, make) = make::KINDS[random.below(make::KINDS.len())];
        let bytes = make(random);
        if bytes.len() > LONGEST {
            continue;
        }
        let Some((row, sort)) = case(&bytes) else { continue };
        let wanted = bytes.len() <= USUAL || sort >= 4 || random.once_in(200);
        if wanted && left[sort] > 0 && row.is_a_line() {
            left[sort] -= 1;
            rows.push(row);
        }
    }
    rows
}

/// What a lenient reader says: the parameters and their slots, the slots of the return, those as a field.
fn lenient_text(parameters: Option<(&[u8], u64)>, returned: Option<u64>, field: u64) -> Vec<u8> {
    let (list, slots) = match parameters {
        Some((list, slots)) => ([b"(", list, b"), "].concat(), format!("slots {slots}")),
        None => (Vec::new(), "unreadable".to_string()),
    };
    let returned = returned.map_or("no return".to_string(), |slots| format!("return {slots}"));
    [list, format!("{slots}, {returned}, field {field}").into_bytes()].concat()
}

/// The row of a descriptor read leniently.
fn lenient(text: &str) -> Row {
    let (input, mut output) = (text.as_bytes(), [0; 8 * LONGEST]);
    let read = Wrapped::parameters(text).map(|(names, slots)| (names.join(", ").into_bytes(), slots as u64));
    let parameters = read.as_ref().map(|(list, slots)| (&list[..], *slots));
    let returned = return_slots::<Wrapped>(input, Holding::AsItIs).map(|slots| slots as u64);
    let answer = lenient_text(parameters, returned, Wrapped::field_slots(input) as u64);
    let parameters = match korsepal::parameters(input, &mut output) {
        Parameters::Read { list, slots } => Some((list, slots)),
        _ => None,
    };
    let said = lenient_text(
        parameters,
        korsepal::return_slots(input).map(u64::from),
        korsepal::field_slots(input).map_or(0, u64::from),
    );
    Row { fields: format!("descriptor | {}", spelled(input)), answer, said }
}

/// What a strict reader answers over a buffer of so many sevens.
type Read = fn(&[u8], &mut [u64]) -> Result<u64, u32>;

/// What the Rust's reader would answer there: 14 where the numbers do not fit.
fn read_by(reader: fn(&str) -> Result<Vec<u64>, u32>, text: &str, numbers: &mut [u64]) -> Result<u64, u32> {
    let read = reader(text)?;
    numbers.get_mut(..read.len()).ok_or(14u32)?.copy_from_slice(&read);
    Ok(read.len() as u64 / 4)
}

fn strict_text(answer: Result<u64, u32>, numbers: &[u64]) -> Vec<u8> {
    let head = answer.map_or_else(|refusal| format!("{refusal} |"), |count| format!("0 {count} |"));
    numbers.iter().fold(head, |text, number| format!("{text} {number}")).into_bytes()
}

/// The row of a text read strictly, over as many numbers as its types have, and four where it has none.
fn strict(kind: &str, text: &str, rust: fn(&str) -> Result<Vec<u64>, u32>, library: Read) -> Row {
    let lent = rust(text).map_or(4, |numbers| numbers.len());
    let mut numbers = vec![7; lent];
    let answer = strict_text(read_by(rust, text, &mut numbers), &numbers);
    let mut numbers = vec![7; lent];
    let said = strict_text(library(text.as_bytes(), &mut numbers), &numbers);
    Row { fields: format!("{kind} | {} | {lent}", spelled(text.as_bytes())), answer, said }
}

fn strict_type(text: &str) -> Row {
    strict("type", text, STRICT_WRAPPED.as_type, korsepal::parse_type)
}

fn strict_method(text: &str) -> Row {
    strict("method", text, STRICT_WRAPPED.as_method, korsepal::parse_method)
}

/// Descriptors for one reader; of answers that begin alike no more than some.
fn descriptors(random: &mut Random, row_of: fn(&str) -> Row) -> Vec<Row> {
    let mut rows = Vec::new();
    let mut answers: HashMap<Vec<u8>, usize> = HashMap::new();
    while rows.len() < DESCRIPTORS {
        let (_, bytes) = made(random);
        let Ok(text) = std::str::from_utf8(&bytes) else { continue };
        if bytes.len() > USUAL && !random.once_in(20) {
            continue;
        }
        let row = row_of(text);
        let first = row.answer.split(|&byte| byte == b' ').next().unwrap_or_default().to_vec();
        let of_answer = answers.entry(first).or_default();
        if *of_answer < OF_ONE_ANSWER && row.is_a_line() {
            *of_answer += 1;
            rows.push(row);
        }
    }
    rows
}

/// The inputs of a stored sample, answered anew; `None` where a row can't be read, or can't be one any more: another difference holds of
/// its input, or its answer has a newline.
pub fn renewed(file: &[u8]) -> Option<Vec<Row>> {
    let rows = file.split(|&byte| byte == b'\n').filter(|line| !line.is_empty() && line[0] != b'#');
    rows.map(|line| renewed_row(line).filter(Row::is_a_line)).collect()
}

fn renewed_row(line: &[u8]) -> Option<Row> {
    let end = line.windows(4).position(|four| four == b" => ")?;
    let mut fields = std::str::from_utf8(&line[..end]).ok()?.split(" | ");
    let (kind, input) = (fields.next()?, unspelled(fields.next()?)?);
    let row_of = match kind {
        "report" => return case(&input).map(|(row, _)| row),
        "descriptor" => lenient,
        "type" => strict_type,
        "method" => strict_method,
        _ => return None,
    };
    std::str::from_utf8(&input).ok().map(row_of)
}

/// The rows of a new sample.
pub fn sample(seed: u64) -> Vec<Row> {
    let mut random = Random::new(seed);
    let mut rows = cases(&mut random);
    for row_of in [lenient, strict_type, strict_method] {
        rows.extend(descriptors(&mut random, row_of));
    }
    rows
}

/// The texts of so many of the letters, in their order.
fn short_texts(letters: u32) -> impl Iterator<Item = String> {
    let text =
        move |number: usize| (0..letters).rev().map(|place| LETTERS[number >> (3 * place) & 7] as char).collect();
    (0..8usize.pow(letters)).map(text)
}

/// One number for what two readers answer and write on the texts with three letters more.
fn digest(beginning: &str, mut readers: impl FnMut(&str, bool, &mut [u64]) -> Result<u64, u32>) -> Vec<u8> {
    let stir = |mixed: u64, number: u64| (mixed * 31 + number % MODULUS) % MODULUS;
    let mut mixed = 0;
    for end in short_texts(3) {
        for as_method in [false, true] {
            let mut numbers = [7; LENT];
            let answer = readers(&format!("{beginning}{end}"), as_method, &mut numbers);
            mixed = stir(mixed, answer.map_or_else(u64::from, |count| 15 + count % 1000));
            mixed = numbers.into_iter().fold(mixed, stir);
        }
    }
    mixed.to_string().into_bytes()
}

/// The row of a beginning's digest.
fn digested(beginning: &str) -> Row {
    let Strict { as_type, as_method } = STRICT_WRAPPED;
    let rust =
        |text: &str, method, numbers: &mut [u64]| read_by(if method { as_method } else { as_type }, text, numbers);
    let library = |text: &str, method, numbers: &mut [u64]| {
        let read: Read = if method { korsepal::parse_method } else { korsepal::parse_type };
        read(text.as_bytes(), numbers)
    };
    let fields = format!("digest | {} | 3 | 512", spelled(beginning.as_bytes()));
    Row { fields, answer: digest(beginning, rust), said: digest(beginning, library) }
}

/// Every text of up to three letters by itself, and those of four to six by their beginnings.
pub fn short() -> Vec<Row> {
    let texts = (0..=3).flat_map(short_texts).flat_map(|text| [strict_type(&text), strict_method(&text)]);
    let digests = (1..=3).flat_map(short_texts).map(|beginning| digested(&beginning));
    texts.chain(digests).collect()
}
