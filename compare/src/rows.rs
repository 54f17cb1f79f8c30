//! Fixed rows: document 01's bench rows, rows of document 02 and readings of both, each with what both sides must say; and the smallest
//! inputs of the listed differences, with what each side says.
use crate::cases::Run;
use crate::descriptors::STRICT_WRAPPED;
use crate::differences::{measured, return_slots};
use crate::layout::{self, lay_out, Member, Parts, Record};
use crate::model::{Model, MODELS};
use crate::room::Asked;
use crate::rule::Facts;
use crate::sample::line;
use crate::sides::{quietly, Build, Checked, Held, Holding, Wrapped};
use crate::wording::{Wording, WORDINGS};
use korsepal::Measure;

/// Default 0, low 0, high 1 and two entries.
const TABLE: [u8; 20] = [0, 0, 0, 0, 0, 0, 0, 0, 0, 0, 0, 1, 0, 0, 0, 0, 0, 0, 0, 0];

/// A code, an index and what measuring there answers.
fn length_rows() -> Vec<(Vec<u8>, usize, Measure)> {
    vec![
        (vec![0xc4, 0x84, 0, 1, 0, 1], 0, Measure::Length(6)),
        (vec![0xc4, 0x15, 0, 1], 0, Measure::Length(4)),
        (vec![0xc4], 0, Measure::Cut),
        ([&[0xaa, 0, 0, 0][..], &TABLE].concat(), 0, Measure::Length(24)),
        ([&[0, 0, 0, 0xaa][..], &TABLE].concat(), 3, Measure::Length(21)),
        (vec![0xab, 0, 0, 0, 0, 0, 0, 0, 0, 0, 0, 0], 0, Measure::Length(12)),
        (vec![0xab, 0, 0, 0, 0, 0, 0, 0, 255, 255, 255, 255], 0, Measure::Length(12)),
        (vec![0xb6, 0], 0, Measure::Cut),
        (vec![0xc9, 0, 0, 0, 0], 0, Measure::Length(5)),
        (vec![0xca], 0, Measure::Reserved),
        (vec![0xff], 0, Measure::Reserved),
        (vec![0xca], 1, Measure::Cut),
        (vec![0xc4, 0xca, 0, 1], 0, Measure::Length(4)),
    ]
}

/// A static method without members or records.
fn bare(code: &[u8], fault: u16, signature: &[u8]) -> Parts {
    Parts { flags: 8, fault, code: code.to_vec(), signature: signature.to_vec(), ..Parts::default() }
}

/// The example of the program.
fn example() -> Parts {
    let length = Member::method(1, b"java/lang/String", b"length", b"()I");
    Parts { members: vec![length], ..bare(&[0x2a, 0xb6, 0, 1, 0x57, 0xb1], 1, b"m:(Ljava/lang/String;)V") }
}

/// The length of an array behind a static call with a descriptor, which local 1 was loaded for.
fn behind_a_call(descriptor: &[u8]) -> Parts {
    let called = Member::method(1, b"a", b"m", descriptor);
    Parts { members: vec![called], ..bare(&[0x2a, 0x2b, 0xb8, 0, 1, 0xbe], 5, b"") }
}

/// A record that names local 0 from index 2 on, for a length.
fn named(code: &[u8], length: u16) -> Parts {
    let record = Record { start: 2, length, slot: 0, name: b"n".to_vec() };
    Parts { records: vec![record], ..bare(code, code.len() as u16 - 1, b"m:()V") }
}

/// A case, and the line that `npe` prints for it; `~` stands for the words of an array's length.
fn case_rows() -> Vec<(Parts, &'static str)> {
    vec![
        (example(), "0 2 4 1 Cannot invoke \"String.length()\" because \"<parameter1>\" is null"),
        (bare(&[0, 0, 0x2a, 0xbe, 0x57, 0xa7, 0xff, 0xfd], 3, b""), "0 2 6 1 ~ because \"<local0>\" is null"),
        (bare(&[0, 0, 0x2a, 0xbe, 0x57, 0xa7, 0xff, 0xfe], 3, b""), "0 1 6 0 ~"),
        (bare(&[0xa7, 0xff, 0xff, 0xb1], 3, b""), "1 0 0 0"),
        (bare(&[0x2a, 0x11, 0xbe, 0, 0xb1], 2, b""), "0 1 3 2 ~"),
        (bare(&[0x2a, 0xbe, 0xb6, 0], 1, b""), "0 1 2 0 ~"),
        (bare(&[0xa7, 0, 4, 0x10, 0xb2, 0xbe], 5, b""), "0 1 3 0 ~"),
        (bare(&[0xa7, 0, 4, 0x10, 0x11, 0xbe], 5, b""), "0 1 3 1 ~"),
        (named(&[0, 0, 0x2a, 0xbe], 1), "0 2 4 3 ~ because \"n\" is null"),
        (named(&[0, 0, 0, 0x2a, 0xbe], 1), "0 2 5 4 ~ because \"<local0>\" is null"),
        (named(&[0, 0, 0x2a, 0xbe], 0), "0 2 4 3 ~ because \"<local0>\" is null"),
        (bare(&[0x2a, 0xbe], 1, b"m:(JI)V"), "0 2 2 1 ~ because \"<parameter1>\" is null"),
        (bare(&[0x2b, 0xbe], 1, b"m:(JI)V"), "0 2 2 1 ~ because \"<local1>\" is null"),
        (bare(&[0x2c, 0xbe], 1, b"m:(JI)V"), "0 2 2 1 ~ because \"<parameter2>\" is null"),
        (bare(&[0x2d, 0xbe], 1, b"m:(JI)V"), "0 2 2 1 ~ because \"<local3>\" is null"),
        (bare(&[0x2a, 0xbe], 1, b"m:)I"), "0 2 2 1 ~ because \"<parameter1>\" is null"),
        (bare(&[0x2a, 0xbe], 1, b"m:JI"), "0 2 2 1 ~ because \"<parameter1>\" is null"),
        (bare(&[0x2b, 0xbe], 1, b"m:(IV"), "0 2 2 1 ~ because \"<local1>\" is null"),
        (behind_a_call(b"(La)V;)J"), "0 1 4 3 ~"),
        (behind_a_call(b"(La)J;)V"), "0 2 4 3 ~ because \"<local0>\" is null"),
        (behind_a_call(b"(La)V;"), "0 1 4 2 ~"),
        (bare(&[0x2a, 0xbe, 0xca], 1, b""), "0 1 2 0 ~"),
        (bare(&[0xca, 0x2a, 0xbe], 2, b""), "0 1 0 0 ~"),
        (bare(&[0x2a, 0x10, 0xca, 0x57, 0xbe], 4, b""), "0 2 4 3 ~ because \"<local0>\" is null"),
        (bare(&[0x2a, 0xca], 1, b""), "1 0 0 0"),
    ]
}

/// A static method with a field of type long at index 1.
fn with_long(code: &[u8], fault: u16) -> Parts {
    let field =
        Member { index: 1, class: b"a".to_vec(), name: b"f".to_vec(), descriptor: b"J".to_vec(), ..Member::default() };
    Parts { members: vec![field], ..bare(code, fault, b"") }
}

/// Rows of document 02, request 1: a case, the cells lent, and its lines in document 01's model and in the full one; `~` and `^N` stand for
/// the words of an array's length and of a cause.
fn model_rows() -> Vec<(Parts, usize, &'static str, &'static str)> {
    let arithmetic = layout::read(include_bytes!("../../examples/arithmetic.case")).expect("it keeps the layout");
    vec![
        // lshl takes three slots.
        (bare(&[0x2a, 0x0a, 4, 0x79, 0x58, 0xbe], 5, b""), 8, "0 1 6 3 ~", "0 2 6 5 ~^0"),
        // lcmp gives one.
        (bare(&[0x2a, 9, 0x0a, 0x94, 0x57, 0xbe], 5, b""), 8, "0 1 6 3 ~", "0 2 6 5 ~^0"),
        // dup_x1, dup_x2, dup2_x1, dup2_x2
        (bare(&[0x2a, 0x2b, 0x5a, 0x57, 0x57, 0xbe], 5, b""), 8, "0 1 6 2 ~", "0 2 6 5 ~^1"),
        (bare(&[0x2a, 0x2b, 0x2c, 0x5b, 0x57, 0x57, 0x57, 0xbe], 7, b""), 8, "0 1 8 3 ~", "0 2 8 7 ~^2"),
        (bare(&[0x2a, 0x2b, 0x2c, 0x5d, 0x57, 0x57, 0x57, 0x57, 0xbe], 8, b""), 8, "0 1 9 3 ~", "0 2 9 8 ~^1"),
        (
            bare(&[0x2a, 0x2b, 0x2c, 0x2d, 0x5e, 0x57, 0x57, 0x57, 0x57, 0x57, 0xbe], 10, b""),
            8,
            "0 1 11 4 ~",
            "0 2 11 10 ~^2",
        ),
        // putfield and putstatic of a long
        (with_long(&[0x2a, 0x2b, 0x0a, 0xb5, 0, 1, 0xbe], 6), 8, "0 1 5 3 ~", "0 2 5 4 ~^0"),
        (with_long(&[0x2a, 0x0a, 0xb3, 0, 1, 0xbe], 5), 8, "0 1 4 2 ~", "0 2 4 3 ~^0"),
        // multianewarray of two dimensions, of none, and of more than there are slots
        (bare(&[0x2a, 4, 4, 0xc5, 0, 1, 2, 0x57, 0xbe], 8, b""), 8, "0 1 6 3 ~", "0 2 6 5 ~^0"),
        (bare(&[0x2a, 4, 4, 0xc5, 0, 1, 0, 0x57, 0xbe], 8, b""), 8, "0 1 6 3 ~", "0 1 6 3 ~"),
        (bare(&[4, 0xc5, 0, 1, 2, 0x57, 0xbe], 6, b""), 8, "0 1 4 1 ~", "0 1 4 1 ~"),
        // invokedynamic is in neither.
        (bare(&[0x2a, 0xba, 0, 1, 0, 0, 0xbe], 6, b""), 8, "0 1 3 1 ~", "0 1 3 1 ~"),
        // Room is missed where document 01's model gave up before.
        (bare(&[3, 4, 0x60, 0x2a, 0x2b, 0x2c, 0xbe], 6, b""), 2, "0 1 7 2 ~", "3 0 0 0 4"),
        (
            arithmetic,
            8,
            "0 1 6 3 Cannot load from double array",
            "0 2 6 4 Cannot load from double array because \"z\" is null",
        ),
    ]
}

/// A load of local 300 behind `wide`, and records of that local: from index 1 on, and at index 0.
fn axis() -> Parts {
    let record = |start, length, name: &[u8]| Record { start, length, slot: 300, name: name.to_vec() };
    let records = vec![record(1, 9, b"late"), record(0, 1, b"axis")];
    Parts { records, ..bare(&[0xc4, 0x19, 1, 0x2c, 0xbe], 4, b"") }
}

/// Rows of document 02, request 7, as those of request 1.
fn wide_rows() -> Vec<(Parts, usize, &'static str, &'static str)> {
    vec![
        // wide aload of the locals 0, 300 and 65,535
        (bare(&[0xc4, 0x19, 0, 0, 0xbe], 4, b""), 8, "0 1 2 0 ~", "0 2 2 1 ~^0"),
        (bare(&[0xc4, 0x19, 1, 0x2c, 0xbe], 4, b""), 8, "0 1 2 0 ~", "0 2 2 1 ~^300"),
        (bare(&[0xc4, 0x19, 0xff, 0xff, 0xbe], 4, b""), 8, "0 1 2 0 ~", "0 2 2 1 ~^65535"),
        (axis(), 8, "0 1 2 0 ~", "0 2 2 1 ~ because \"axis\" is null"),
        // wide ret
        (bare(&[0xc4, 0xa9, 0, 1, 0x2a, 0xbe], 5, b""), 8, "0 1 3 0 ~", "0 1 3 0 ~"),
        // wide iinc and wide lstore
        (bare(&[0xc4, 0x84, 1, 0x2c, 0, 5, 0x2a, 0xbe], 7, b""), 8, "0 1 3 0 ~", "0 2 3 2 ~^0"),
        (bare(&[0x2a, 0x0a, 0xc4, 0x37, 1, 0x2c, 0xbe], 6, b""), 8, "0 1 4 2 ~", "0 2 4 3 ~^0"),
        // A branch leads to wide as an operand, where its own are cut: only those of aload are read.
        (bare(&[0xa7, 0, 4, 0x10, 0xc4, 0x15, 0xbe], 6, b""), 8, "0 1 3 0 ~", "0 1 3 1 ~"),
        (bare(&[0xa7, 0, 4, 0x10, 0xc4, 0x19, 0xbe], 6, b""), 8, "0 1 3 0 ~", "0 1 3 0 ~"),
        // Room is missed at the index of wide.
        (bare(&[0, 0xc4, 0x19, 1, 0x2c, 0xbe], 5, b""), 0, "0 1 3 1 ~", "3 0 0 0 1"),
    ]
}

/// A load from local 0 by an opcode, or a store to it; a record names the local.
fn array_access(opcode: u8, name: &[u8]) -> Parts {
    let code: &[u8] = if opcode < 79 { &[0x2a, 3, opcode] } else { &[0x2a, 3, 3, opcode] };
    let record = Record { start: 0, length: 9, slot: 0, name: name.to_vec() };
    Parts { records: vec![record], ..bare(code, code.len() as u16 - 1, b"") }
}

/// A call of a method that takes a byte and an array of bytes.
fn call_with_bytes(class: &[u8]) -> Parts {
    let called = Member::method(1, class, b"m", b"(B[B)V");
    Parts { members: vec![called], ..bare(&[0x2a, 3, 0x2b, 0xb6, 0, 1], 3, b"") }
}

/// Rows of document 02, request 11: a case, the bytes lent, and its lines in wording 1 and in wording 2, in both models.
fn worded_rows() -> Vec<(Parts, usize, [&'static str; 2])> {
    const FIRST: &str = "0 2 3 2 Cannot load from byte array^0";
    const SECOND: &str = "0 2 3 2 Cannot load from byte/boolean array^0";
    let same = |line| [line; 2];
    let load = || bare(&[0x2a, 3, 51], 2, b"");
    vec![
        (load(), 53, ["4 0 0 0 54", "4 0 0 0 62"]),
        (load(), 54, [FIRST, "4 0 0 0 62"]),
        (load(), 61, [FIRST, "4 0 0 0 62"]),
        (load(), 62, [FIRST, SECOND]),
        (
            bare(&[0x2a, 3, 3, 84], 3, b""),
            80,
            ["0 2 4 3 Cannot store to byte array^0", "0 2 4 3 Cannot store to byte/boolean array^0"],
        ),
        // No cause, and no room for it.
        (
            bare(&[3, 51], 1, b""),
            80,
            ["0 1 2 1 Cannot load from byte array", "0 1 2 1 Cannot load from byte/boolean array"],
        ),
        (bare(&[3, 51], 1, b""), 27, ["0 1 2 1 Cannot load from byte array", "4 0 0 0 35"]),
        // Loads and stores of the other arrays, of locals that are called after the word.
        (array_access(50, b"byte"), 80, same("0 2 3 2 Cannot load from object array because \"byte\" is null")),
        (array_access(52, b"byte"), 80, same("0 2 3 2 Cannot load from char array because \"byte\" is null")),
        (array_access(53, b"byte"), 80, same("0 2 3 2 Cannot load from short array because \"byte\" is null")),
        (array_access(83, b"byte"), 80, same("0 2 4 3 Cannot store to object array because \"byte\" is null")),
        (
            array_access(85, b"byte array"),
            80,
            same("0 2 4 3 Cannot store to char array because \"byte array\" is null"),
        ),
        (
            array_access(84, b"byte array"),
            80,
            [
                "0 2 4 3 Cannot store to byte array because \"byte array\" is null",
                "0 2 4 3 Cannot store to byte/boolean array because \"byte array\" is null",
            ],
        ),
        // Parameters and a class that are called after it.
        (call_with_bytes(b"C"), 80, same("0 2 4 3 Cannot invoke \"C.m(byte, byte[])\"^0")),
        (call_with_bytes(b"byte"), 80, same("0 2 4 3 Cannot invoke \"byte.m(byte, byte[])\"^0")),
        // Nothing is said.
        (bare(&[0x2a, 3, 51], 1, b""), 80, same("1 0 0 0")),
    ]
}

/// The words that `~` and `^N` stand for.
fn spelled_out(row: &str) -> String {
    let row = row.replace('~', "Cannot read the array length");
    match row.split_once('^') {
        Some((action, local)) => format!("{action} because \"<local{local}>\" is null"),
        None => row,
    }
}

/// A descriptor, and its slots, return slots and list.
const LENIENT_ROWS: [(&str, &str); 9] = [
    ("(IJ[D)V", "4 0 int, long, double[]"),
    ("(La)J;)V", "1 0 a)J"),
    ("(I)La)V;", "1 1 int"),
    ("(La)J;", "1 - a)J"),
    ("(I", "1 - int"),
    ("()", "0 - "),
    ("(L;)V", "1 0 "),
    ("(V)V", "- - "),
    (")V", "- - "),
];

/// A descriptor, whether it is read as a method, and the refusal or the numbers.
fn strict_rows() -> Vec<(String, bool, String)> {
    let row = |text: &str, as_method, expected: &str| (text.to_string(), as_method, expected.to_string());
    let integers = format!("({})V", "I".repeat(256));
    vec![
        row("()", true, "1"),
        row("())", true, "12"),
        row(&("[".repeat(255) + "I"), false, "0 73 255 0 0"),
        row(&("[".repeat(256) + "I"), false, "2"),
        row(&"[".repeat(256), false, "2"),
        row(")x", false, "3"),
        row("[)", false, "7"),
        row("V", false, "0 86 0 0 0"),
        row("L[;", false, "0 76 0 1 1"),
        row("(V", true, "11"),
        row("L", false, "6"),
        row("", false, "1"),
        row("", true, "10"),
        row("(J[[La/b;)V", true, "0 74 0 0 0 76 2 5 3 86 0 0 0"),
        row(&integers, true, &format!("0{} 86 0 0 0", " 73 0 0 0".repeat(256))),
        // The two examples in the comments of the Rust's parser.
        row("Ljava/lang/String;", false, "0 76 0 1 16"),
        row("([[[Ljava/lang/String;)[[[I", true, "0 76 3 5 16 73 3 0 0"),
    ]
}

/// Slots of the parameters, of the return, and the list; what can't be read is `-`.
fn lenient(text: &str) -> Vec<u8> {
    let (slots, list) = match Wrapped::parameters(text) {
        Some((names, slots)) => (slots.to_string(), names.join(", ")),
        None => ("-".to_string(), String::new()),
    };
    let returned = return_slots::<Wrapped>(text.as_bytes(), Holding::AsItIs);
    let returned = returned.map_or("-".to_string(), |slots| slots.to_string());
    format!("{slots} {returned} {list}").into_bytes()
}

/// The refusal, or 0 and the numbers.
fn strict(answer: Result<Vec<u64>, u32>) -> Vec<u8> {
    match answer {
        Err(refusal) => refusal.to_string().into_bytes(),
        Ok(numbers) => numbers.iter().fold("0".to_string(), |text, number| format!("{text} {number}")).into_bytes(),
    }
}

/// Compares the two sides on a case, and what is expected of it, which the rules say, with its rows.
fn compare_row(run: &mut Run, parts: &Parts, room: usize, rows: &[(Model, &str)]) {
    let bytes = lay_out(parts);
    run.book.case("fixed rows");
    run.case(&bytes);
    let facts = Facts::of(parts);
    for (model, row) in rows {
        let said =
            String::from_utf8(line(facts.answer(*model, Wording::First, room, 128))).expect("the rows are UTF-8");
        run.book.expect(&bytes, &model.named("row"), spelled_out(row), said);
    }
}

/// The same of a case with so many bytes lent, in both wordings and both models.
fn compare_worded(run: &mut Run, parts: &Parts, output: usize, rows: [&str; 2]) {
    let bytes = lay_out(parts);
    run.book.case("fixed rows");
    run.case(&bytes);
    let facts = Facts::of(parts);
    for model in MODELS {
        for (wording, row) in WORDINGS.into_iter().zip(rows) {
            let said = String::from_utf8(line(facts.answer(model, wording, 8, output))).expect("the rows are UTF-8");
            run.book.expect(&bytes, &model.named("row of both wordings"), spelled_out(row), said);
            run.report(&bytes, &facts, (model, Asked::In(wording)), 8, output);
        }
        run.report(&bytes, &facts, (model, Asked::Unnamed), 8, output);
    }
}

/// Compares the two sides on the rows, and the rules with what the rows say.
pub fn compare(run: &mut Run) {
    for (parts, expected) in case_rows() {
        compare_row(run, &parts, 16, &[(Model::Document, expected)]);
    }
    for (parts, room, document, full) in model_rows().into_iter().chain(wide_rows()) {
        compare_row(run, &parts, room, &[(Model::Document, document), (Model::Full, full)]);
    }
    for (parts, output, rows) in worded_rows() {
        compare_worded(run, &parts, output, rows);
    }
    // No case: a byte is missing, and there is one more than a case may have.
    for bytes in [vec![8, 2, 3, 0x2a, 3, 51, 0, 0], vec![0; layout::LONGEST + 1]] {
        run.book.case("fixed rows");
        run.case(&bytes);
    }
    for (code, pc, expected) in length_rows() {
        run.book.case("fixed rows");
        run.case(&lay_out(&bare(&code, pc as u16, b"")));
        run.book.expect(&code, "row", expected, measured(&code, pc));
    }
}

/// Every opcode behind `wide` and four loads: whole, with a fault behind it; and the walk alone to where it would end, its last bytes cut.
pub fn compare_behind_wide(run: &mut Run) {
    const KIND: &str = "every opcode by wide";
    let loads = [0x2a, 0x2b, 0x2c, 0x2d];
    for opcode in 0..=255 {
        let whole = &[0xc4, opcode, 1, 0x2c, 0, 5][..if opcode == 132 { 6 } else { 4 }];
        let end = loads.len() + whole.len();
        run.book.case(KIND);
        run.case(&lay_out(&bare(&[&loads, whole, &[0xbe]].concat(), end as u16, b"")));
        for cut in 1..whole.len() {
            run.book.case(KIND);
            run.walks(&bare(&[&loads, &whole[..cut]].concat(), 0, b""), 0, end);
        }
    }
}

/// The rows of descriptors.
pub fn compare_descriptors(run: &mut Run) {
    for (text, expected) in LENIENT_ROWS {
        run.book.descriptor("fixed descriptors");
        run.descriptor(text.as_bytes());
        run.book.expect(text.as_bytes(), "row", expected.as_bytes().to_vec(), lenient(text));
    }
    for (text, as_method, expected) in strict_rows() {
        run.book.descriptor("fixed descriptors");
        run.descriptor(text.as_bytes());
        let said = if as_method { (STRICT_WRAPPED.as_method)(&text) } else { (STRICT_WRAPPED.as_type)(&text) };
        run.book.expect(text.as_bytes(), "row", expected.as_bytes().to_vec(), strict(said));
    }
}

/// A `tableswitch` at 0 with default 0, these bounds, and bytes behind them.
fn table(low: u32, high: u32, behind: &[u8]) -> Vec<u8> {
    [&[0xaa, 0, 0, 0, 0, 0, 0, 0][..], &low.to_be_bytes(), &high.to_be_bytes(), behind].concat()
}

/// What a build says, in words.
fn words<T: std::fmt::Debug>(answer: Option<T>) -> String {
    answer.map_or("panics".to_string(), |answer| format!("{answer:?}"))
}

fn print_line(input: &str, library: String, checked: String, wrapped: String) {
    println!("{input:<62} {library:<12} {checked:<28} {wrapped}");
}

/// Prints what each side says of the smallest input of each listed difference.
pub fn print_listed() {
    print_line("input", "library".to_string(), "checked".to_string(), "wrapped".to_string());
    print_lengths();
    print_slots("D3 local 1, static, :( and 32,768 J", [b":(", &b"J".repeat(32_768)[..]].concat());
    print_slots("D3 local 1, static, :( and 32,767 J and IIII", [b":(", &b"J".repeat(32_767)[..], b"IIII"].concat());
    print_leader();
    print_returns();
    print_reserved();
}

/// Tables whose bounds the Rust does not keep within 32 bits.
fn print_lengths() {
    let codes = [
        ("D1 length at 0: low 1, high 0", table(1, 0, &[])),
        ("D2 length at 0: low -1, high 2^31 - 1, then 2a be", table(u32::MAX, 0x7fff_ffff, &[0x2a, 0xbe])),
        ("D2 length at 0: low 1, high -2^31, then 2a be", table(1, 0x8000_0000, &[0x2a, 0xbe])),
        (
            "D2 length at 0: low 2^31 - 1, high -2^31, 8 zeros, 2a be",
            table(0x7fff_ffff, 0x8000_0000, &[0, 0, 0, 0, 0, 0, 0, 0, 0x2a, 0xbe]),
        ),
    ];
    for (input, code) in codes {
        let library = format!("{:?}", korsepal::instruction_length(&code, 0));
        let (checked, wrapped) = (quietly(|| Checked::length(&code, 0)), quietly(|| Wrapped::length(&code, 0)));
        print_line(input, library, words(checked), words(wrapped));
    }
}

/// The two builds over the parts of a case.
fn builds(parts: &Parts) -> (Checked, Wrapped) {
    let held = Held::new(parts, &parts.signature);
    (Checked::over(parts, &held), Wrapped::over(parts, &held))
}

/// The name of local 1 by a long signature.
fn print_slots(input: &str, signature: Vec<u8>) {
    let parts = bare(&[0x2b, 0xbe], 1, &signature);
    let (checked, wrapped) = builds(&parts);
    let mut output = [0; 64];
    let library = match korsepal::local_name(&lay_out(&parts), 1, 0, &mut output) {
        korsepal::Name::Named(name) => String::from_utf8_lossy(name).into_owned(),
        other => format!("{other:?}"),
    };
    print_line(input, library, words(quietly(|| checked.name(1, 0))), words(quietly(|| wrapped.name(1, 0))));
}

/// A target below 0 with the greatest fault.
fn print_leader() {
    let code = [0xa7, 0xff, 0xff, 0xb1];
    let library = format!("{:?}", korsepal::block_leader(&code, u64::MAX).leader);
    let (checked, wrapped) =
        (quietly(|| Checked::leader(&code, usize::MAX)), quietly(|| Wrapped::leader(&code, usize::MAX)));
    print_line("D5 leader: a7 ff ff b1, fault 2^64 - 1", library, words(checked), words(wrapped));
}

/// Returns behind a parenthesis that does not end the parameters, and messages that go by them.
fn print_returns() {
    for text in ["(La)J;)V", "(L);)V", "(L);", "(V)I", ")V"] {
        let library = format!("{:?}", korsepal::return_slots(text.as_bytes()));
        let (checked, wrapped) = (quietly(|| Checked::return_slots(text)), quietly(|| Wrapped::return_slots(text)));
        print_line(&format!("D6 return slots: {text}"), library, words(checked), words(wrapped));
    }
    for descriptor in ["(La)V;)J", "(La)J;)V", "(La)V;"] {
        let input = format!("2a 2b b8 00 01 be, fault 5, with the method {descriptor} at 1");
        print_message("D6", &input, &behind_a_call(descriptor.as_bytes()));
    }
    let figure_eight = layout::read(include_bytes!("../../examples/figure_eight.case")).expect("it keeps the layout");
    print_message("D6", "examples/figure_eight", &figure_eight);
}

/// Reserved bytes, and messages of codes that have one.
fn print_reserved() {
    for code in [[0xca], [0xff]] {
        let library = format!("{:?}", korsepal::measure(&code, 0));
        let (checked, wrapped) = (quietly(|| Checked::length(&code, 0)), quietly(|| Wrapped::length(&code, 0)));
        print_line(&format!("D7 length at 0: {:x}", code[0]), library, words(checked), words(wrapped));
    }
    print_message("D7", "2a be ca, fault 1", &bare(&[0x2a, 0xbe, 0xca], 1, b""));
    print_message("D7", "ca 2a be, fault 2", &bare(&[0xca, 0x2a, 0xbe], 2, b""));
    let damaged_upload =
        layout::read(include_bytes!("../../examples/damaged_upload.case")).expect("it keeps the layout");
    print_message("D7", "examples/damaged_upload", &damaged_upload);
}

/// The message of a case, a line to a side.
fn print_message(number: &str, input: &str, parts: &Parts) {
    let library = line(korsepal::report(&lay_out(parts), &mut [0; 16], &mut [0; 128]));
    let (checked, wrapped) = builds(parts);
    let fault = usize::from(parts.fault);
    println!("{number} message: {input}");
    println!("    library  {}", String::from_utf8_lossy(&library));
    println!("    checked  {}", words(quietly(|| checked.message(fault))));
    println!("    wrapped  {}", words(quietly(|| wrapped.message(fault))));
}
