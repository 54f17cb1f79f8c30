//! Cases that no compiler wrote: long methods, branches, switches, large tables and the worst of each.
use korsepal::{Case, Kind, Member};

/// The greatest length of a code.
pub const LONGEST: usize = 65_535;

const NOP: u8 = 0;
const ALOAD_0: u8 = 42;
const POP: u8 = 87;
const ARRAYLENGTH: u8 = 190;
pub const RETURN: u8 = 177;

/// The fault that ends a made code: the length of an array in local 0.
const TAIL: [u8; 4] = [ALOAD_0, ARRAYLENGTH, POP, RETURN];

fn member(kind: Kind, class: &str, name: &str, descriptor: &str) -> Member {
    Member { kind, class: class.into(), name: name.into(), descriptor: descriptor.into() }
}

/// The four members that the made codes cite.
fn few_members() -> Vec<(u16, Member)> {
    vec![
        (1, member(Kind::Field, "survey/Axis", "offset", "I")),
        (2, member(Kind::Method, "java/lang/String", "charAt", "(I)C")),
        (3, member(Kind::Field, "survey/Axis", "scale", "D")),
        (4, member(Kind::Method, "survey/Solver", "blend", "(Lsurvey/Track;[DJ)Lsurvey/Track;")),
    ]
}

/// A static method with a code and a fault.
pub fn case(code: Vec<u8>, fault: usize, members: Vec<(u16, Member)>) -> Case {
    Case {
        flags: 8,
        fault: u16::try_from(fault).unwrap_or(u16::MAX),
        code,
        signature: b"solve:([Ljava/lang/Object;ID)V".to_vec(),
        members,
        records: Vec::new(),
    }
}

/// A body, then the fault.
fn ended(mut body: Vec<u8>, members: Vec<(u16, Member)>) -> Case {
    let fault = body.len() + 1;
    body.extend(TAIL);
    case(body, fault, members)
}

/// A unit over and over, then `nop`, so that a code has a length with its tail.
fn repeated(unit: &[u8], length: usize) -> Vec<u8> {
    let room = length.saturating_sub(TAIL.len());
    let mut body = unit.repeat(room / unit.len());
    body.resize(room, NOP);
    body
}

/// A unit of straight-line code, which leaves the stack as it was, and what it does.
type Unit = (&'static str, &'static [u8]);

/// The units that document 01's model walks.
const STRAIGHT: [Unit; 6] = [
    ("loads and pops", &[42, 87]), // aload_0, pop
    ("int locals", &[4, 60, 27, 61, 132, 1, 1]), // iconst_1, istore_1, iload_1, istore_2, iinc
    ("field reads", &[42, 180, 0, 1, 87]), // aload_0, getfield, pop
    ("calls", &[42, 4, 182, 0, 2, 87]), // aload_0, iconst_1, invokevirtual, pop
    ("casts", &[42, 192, 0, 5, 76]), // aload_0, checkcast, astore_1
    // aload_0 to 2, lconst_0, invokevirtual, astore_2, getstatic, pop2
    ("calls and static reads", &[42, 43, 44, 9, 182, 0, 4, 77, 178, 0, 3, 88]),
];

/// The units of solver code, which only the full model walks: arithmetic among loads and stores.
const SOLVER: [Unit; 6] = [
    ("products of doubles", &[39, 41, 107, 72]), // dload_1, dload_3, dmul, dstore_1
    ("int sums, converted", &[27, 4, 96, 60, 27, 135, 72]), // iload_1, iconst_1, iadd, istore_1, iload_1, i2d, dstore_1
    // aload_0, iload_1, aload_1, iload_1, daload, dload_1, dadd, dastore
    ("array loads and stores", &[42, 27, 43, 27, 49, 39, 99, 82]),
    ("field sums", &[42, 89, 180, 0, 3, 39, 99, 181, 0, 3]), // aload_0, dup, getfield, dload_1, dadd, putfield
    // dload_1, dload_3, dcmpl, istore_1, lload_0, lload_2, lcmp, istore_1
    ("comparisons", &[39, 41, 151, 60, 30, 32, 148, 60]),
    // aload_0, iload_1, dup2, iaload, dup_x2, iconst_1, iadd, iastore, istore_1
    ("counts in an array", &[42, 27, 92, 46, 91, 4, 96, 79, 60]),
];

/// Units that differ in one opcode, the one named: document 01's, and one that the full model adds, which takes and gives as many slots.
const ALIKE: [(Unit, Unit); 4] = [
    (("iaload", &[27, 28, 46, 87]), ("iadd", &[27, 28, 96, 87])), // iload_1, iload_2, the opcode, pop
    (("laload", &[27, 28, 47, 88]), ("lneg", &[27, 28, 117, 88])), // iload_1, iload_2, the opcode, pop2
    (("arraylength", &[27, 190, 87]), ("ineg", &[27, 116, 87])), // iload_1, the opcode, pop
    (("pop", &[27, 87]), ("monitorenter", &[27, 194])), // iload_1, the opcode
];

/// Units whose locals have one byte, and the same behind `wide`, which only the full model walks.
const WIDENED: [(Unit, &[u8]); 5] = [
    (("aload, pop", &[25, 200, 87]), &[196, 25, 1, 44, 87]),
    (("lconst_0, lstore", &[9, 55, 200]), &[9, 196, 55, 1, 44]),
    (("iinc", &[132, 200, 1]), &[196, 132, 1, 44, 0, 1]),
    (("iload, istore", &[21, 200, 54, 201]), &[196, 21, 1, 44, 196, 54, 1, 45]),
    (
        ("dload, dload, dmul, dstore", &[24, 200, 24, 202, 107, 57, 200]),
        &[196, 24, 1, 44, 196, 24, 1, 46, 107, 196, 57, 1, 44],
    ),
];

fn long_method((_, unit): Unit, length: usize) -> Case {
    ended(repeated(unit, length), few_members())
}

/// A long method without a branch, of one unit.
pub fn straight_of(unit: usize, length: usize) -> Case {
    long_method(STRAIGHT[unit], length)
}

/// A long method of each unit, those that document 01's model walks first: what the unit does, and whether it cites members.
pub fn long_methods(length: usize) -> Vec<(&'static str, bool, Case)> {
    let cites = |unit: &[u8]| unit.iter().any(|byte| (178..=185).contains(byte));
    STRAIGHT.iter().chain(&SOLVER).map(|unit| (unit.0, cites(unit.1), long_method(*unit, length))).collect()
}

/// Long methods of the units that differ in one opcode.
pub fn alike_methods(length: usize) -> Vec<[(&'static str, bool, Case); 2]> {
    let method = |unit: Unit| (unit.0, false, long_method(unit, length));
    ALIKE.iter().map(|&(document, full)| [method(document), method(full)]).collect()
}

/// Long methods of the units with locals of one byte, and of the same behind `wide`.
pub fn widened_methods(length: usize) -> Vec<[(&'static str, bool, Case); 2]> {
    let method = |name, unit| (name, false, long_method((name, unit), length));
    WIDENED.iter().map(|&((name, narrow), wide)| [method(name, narrow), method(name, wide)]).collect()
}

/// Long methods without a branch.
pub fn straight(lengths: &[usize]) -> Vec<Case> {
    let units = 0..STRAIGHT.len();
    units.flat_map(|unit| lengths.iter().map(move |length| straight_of(unit, *length))).collect()
}

/// Numbers in no order, the same on every run.
struct Shuffled(u64);

impl Shuffled {
    fn below(&mut self, bound: usize) -> usize {
        self.0 = self.0.wrapping_mul(6_364_136_223_846_793_005).wrapping_add(1_442_695_040_888_963_407);
        ((self.0 >> 33) as usize) % bound
    }
}

/// iload_1, ifeq to anywhere within 512 bytes, again and again.
fn scattered(length: usize) -> Vec<u8> {
    let mut body = Vec::new();
    let mut numbers = Shuffled(7);
    while body.len() + 4 + TAIL.len() <= length {
        let offset = numbers.below(1024) as i16 - 512;
        body.extend([27, 153]);
        body.extend(offset.to_be_bytes());
    }
    body
}

/// The units of branchy code.
const BRANCHY: [&[u8]; 5] = [
    &[27, 153, 0, 3],             // iload_1, ifeq to the next
    &[132, 1, 1, 167, 255, 253],  // iinc, goto back to it
    &[42, 198, 0, 8, 42, 190, 60, 167, 0, 3], // aload_0, ifnull, aload_0, arraylength, istore_1, goto
    &[42, 191],                   // aload_0, athrow
    &[200, 0, 0, 0, 5],           // goto_w to the next
];

/// A branchy method whose branches go anywhere.
pub fn scattered_of(length: usize) -> Case {
    ended(scattered(length), few_members())
}

/// Methods full of branches, the fault at the end.
pub fn branchy(lengths: &[usize]) -> Vec<Case> {
    let ladders = BRANCHY.iter().flat_map(|unit| lengths.iter().map(|length| ended(repeated(unit, *length), few_members())));
    ladders.chain(lengths.iter().map(|length| scattered_of(*length))).collect()
}

/// Pads a code to a multiple of four.
fn align(code: &mut Vec<u8>) {
    while code.len() % 4 != 0 {
        code.push(NOP);
    }
}

/// An offset to some place of a code.
fn put_offset(code: &mut Vec<u8>, from: usize, numbers: &mut Shuffled, length: usize) {
    let offset = numbers.below(length) as i32 - from as i32;
    code.extend(offset.to_be_bytes());
}

/// A tableswitch with so many entries.
fn put_tableswitch(code: &mut Vec<u8>, entries: usize, length: usize) {
    let mut numbers = Shuffled(entries as u64);
    let from = code.len();
    code.push(170);
    align(code);
    put_offset(code, from, &mut numbers, length);
    code.extend(0i32.to_be_bytes());
    code.extend((entries as i32 - 1).to_be_bytes());
    for _ in 0..entries {
        put_offset(code, from, &mut numbers, length);
    }
}

/// A lookupswitch with so many pairs.
fn put_lookupswitch(code: &mut Vec<u8>, pairs: usize, length: usize) {
    let mut numbers = Shuffled(pairs as u64);
    let from = code.len();
    code.push(171);
    align(code);
    put_offset(code, from, &mut numbers, length);
    code.extend((pairs as i32).to_be_bytes());
    for key in 0..pairs as i32 {
        code.extend(key.to_be_bytes());
        put_offset(code, from, &mut numbers, length);
    }
}

/// One switch with so many entries and a fault behind it.
fn one_switch(put: fn(&mut Vec<u8>, usize, usize), entries: usize, entry: usize) -> Case {
    let mut code = vec![27];
    put(&mut code, entries, entries * entry + 20);
    ended(code, few_members())
}

/// Many switches of four entries.
fn many_switches(put: fn(&mut Vec<u8>, usize, usize), count: usize) -> Case {
    let mut code = Vec::new();
    for _ in 0..count {
        code.push(27);
        put(&mut code, 4, count * 40);
    }
    ended(code, few_members())
}

/// Methods with switches: one of many entries, or many of four.
pub fn switches() -> Vec<Case> {
    let tables = [16, 128, 1_024, 8_192, 16_370].map(|entries| one_switch(put_tableswitch, entries, 4));
    let lookups = [16, 128, 1_024, 4_096, 8_180].map(|pairs| one_switch(put_lookupswitch, pairs, 8));
    let many = [put_tableswitch as fn(&mut Vec<u8>, usize, usize), put_lookupswitch]
        .into_iter()
        .flat_map(|put| [4, 64, 1_024].map(|count| many_switches(put, count)));
    tables.into_iter().chain(lookups).chain(many).collect()
}

/// A table of so many methods with names of a usual length.
fn large_table(count: u16) -> Vec<(u16, Member)> {
    (1..=count).map(|index| (index, member(Kind::Method, "survey/fit/Solver", &format!("step{index:05}"), "(I[D)V"))).collect()
}

/// A short method over a large table: two calls, then a fault at a call, all of one member.
fn over_table(count: u16, cited: u16) -> Case {
    let [high, low] = cited.to_be_bytes();
    let call = [42, 4, 43, 182, high, low]; // aload_0, iconst_1, aload_1, invokevirtual
    let mut code = call.repeat(3);
    code.push(RETURN);
    case(code, 15, large_table(count))
}

/// Short methods over large tables that cite the first, the middle or the last member.
pub fn large_tables() -> Vec<Case> {
    let counts = [100, 1_000, 5_000, 20_000];
    counts.iter().flat_map(|count| [1, count / 2, *count].map(|cited| over_table(*count, cited))).collect()
}

/// A call through a method with so many parameters of one type, faulting in place.
fn long_descriptor(parameter: &str, count: usize) -> Case {
    let descriptor = format!("({})V", parameter.repeat(count));
    let mut code = vec![ALOAD_0];
    code.extend(vec![1; count]); // aconst_null
    let fault = code.len();
    code.extend([182, 0, 1, RETURN]);
    case(code, fault, vec![(1, member(Kind::Method, "survey/fit/Solver", "adjust", &descriptor))])
}

/// Faults at calls with many parameters.
pub fn long_descriptors() -> Vec<Case> {
    let types = ["I", "[[D", "Ljava/lang/String;", "Lsurvey/fit/EllipsoidParameters;"];
    types.iter().flat_map(|parameter| [20, 250].map(|count| long_descriptor(parameter, count))).collect()
}

/// A code of the greatest length that is all one branch table.
fn whole_switch() -> Case {
    one_switch(put_tableswitch, (LONGEST - 24) / 4, 4)
}

/// A fault at the start of a code of the greatest length.
fn early_fault() -> Case {
    let mut code = TAIL.to_vec();
    code.extend(scattered(LONGEST));
    case(code, 1, few_members())
}

/// The greatest code: of each unit, one switch, and a fault at its start.
pub fn longest() -> Vec<Case> {
    let mut cases = straight(&[LONGEST]);
    cases.extend(branchy(&[LONGEST]));
    cases.push(ended(repeated(&[NOP], LONGEST), few_members()));
    cases.push(whole_switch());
    cases.push(early_fault());
    cases
}

/// The greatest code that only pushes: 65,532 cells at the fault.
pub fn deepest() -> Vec<Case> {
    vec![ended(repeated(&[ALOAD_0], LONGEST), few_members()), ended(repeated(&[9], LONGEST / 2), few_members())]
}

/// A table of so many members that ends at an index, each as short as a call of it allows.
fn short_table(count: u16, kind: Kind, descriptor: &str) -> Vec<(u16, Member)> {
    let first = u16::MAX - count + 1;
    (first..=u16::MAX).map(|index| (index, member(kind, "a", "b", descriptor))).collect()
}

/// Calls of the last member, in every instruction of the greatest code.
pub fn hostile_calls(count: u16) -> Case {
    ended(repeated(&[184, 255, 255], LONGEST), short_table(count, Kind::Method, "()V")) // invokestatic
}

/// Reads of the last member, in every second instruction of the greatest code.
pub fn hostile_reads(count: u16) -> Case {
    ended(repeated(&[178, 255, 255, POP], LONGEST), short_table(count, Kind::Field, "I")) // getstatic, pop
}
