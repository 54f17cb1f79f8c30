//! Good, bad, oversized and roomless input, through the archive.
use korsepal::*;

const EXAMPLE: &[u8] = b"\x08\x01\x06\x2a\xb6\x00\x01\x57\xb1\x17m:(Ljava/lang/String;)V\
                         \x01\x01\x01\x10java/lang/String\x06length\x03()I\x00";
const MESSAGE: &[u8] = b"Cannot invoke \"String.length()\" because \"<parameter1>\" is null";

/// Document 01's model, by a manner that names nothing, and the full one.
fn manners() -> [Manner; 2] {
    [Manner::default(), Manner::default().full()]
}

#[test]
fn the_example() {
    for manner in manners() {
        let mut stack = [7; 16];
        let mut output = [9; 256];
        let answer = report_in(manner, EXAMPLE, &mut stack, &mut output);
        assert_eq!(answer, Answer::Message { text: MESSAGE, kind: 2, scan: 4, block: 1 });
        assert_eq!(stack, [0; 16]);
        assert!(output[MESSAGE.len()..].iter().all(|&byte| byte == 9));
    }
}

#[test]
fn naming_nothing_is_the_default() {
    let case = static_case(&[0x2a, 0x03, 0x04, 0x60, 0x2e], 4);
    for room in 0..4 {
        let (mut named, mut unnamed) = ([9; 64], [9; 64]);
        let answer = report_in(Manner::default(), &case, &mut vec![0; room], &mut named);
        assert_eq!(report(&case, &mut vec![0; room], &mut unnamed), answer);
        let (mut named, mut unnamed) = (vec![7; room], vec![7; room]);
        let walked = walk_in(Manner::default(), &case, 0, 3, &mut named);
        assert_eq!(walk(&case, 0, 3, &mut unnamed), walked);
    }
}

/// A static method without members or records.
fn static_case(code: &[u8], fault: u16) -> Vec<u8> {
    Case { flags: 8, fault, code: code.to_vec(), ..Case::default() }.bytes().expect("a case holds it")
}

/// The line that `npe` prints, with so many cells.
fn line(manner: Manner, case: &[u8], cells: usize) -> String {
    match report_in(manner, case, &mut vec![7; cells], &mut [9; 128]) {
        Answer::Message { text, kind, scan, block } => {
            format!("0 {kind} {scan} {block} {}", String::from_utf8_lossy(text))
        }
        Answer::NoRoom { at } => format!("3 0 0 0 {at}"),
        other => panic!("{other:?}"),
    }
}

/// Rows of document 02, request 1: a code, its fault, the cells lent, the line of document 01's model and that of the full one.
#[test]
fn both_models() {
    let rows: [(&[u8], u16, usize, &str, &str); 8] = [
        (&[0x2a, 0x0a, 0x04, 0x79, 0x58, 0xbe], 5, 8, "0 1 6 3 ~", "0 2 6 5 ~ because \"<local0>\" is null"),
        (&[0x2a, 0x2b, 0x5a, 0x57, 0x57, 0xbe], 5, 8, "0 1 6 2 ~", "0 2 6 5 ~ because \"<local1>\" is null"),
        (
            &[0x2a, 0x2b, 0x2c, 0x5b, 0x57, 0x57, 0x57, 0xbe],
            7,
            8,
            "0 1 8 3 ~",
            "0 2 8 7 ~ because \"<local2>\" is null",
        ),
        (
            &[0x2a, 0x2b, 0x2c, 0x5d, 0x57, 0x57, 0x57, 0x57, 0xbe],
            8,
            8,
            "0 1 9 3 ~",
            "0 2 9 8 ~ because \"<local1>\" is null",
        ),
        (
            &[0x2a, 0x2b, 0x2c, 0x2d, 0x5e, 0x57, 0x57, 0x57, 0x57, 0x57, 0xbe],
            10,
            8,
            "0 1 11 4 ~",
            "0 2 11 10 ~ because \"<local2>\" is null",
        ),
        (&[0x2a, 0x04, 0x04, 0xc5, 0, 1, 2, 0x57, 0xbe], 8, 8, "0 1 6 3 ~", "0 2 6 5 ~ because \"<local0>\" is null"),
        (&[0x2a, 0x04, 0x04, 0xc5, 0, 1, 0, 0x57, 0xbe], 8, 8, "0 1 6 3 ~", "0 1 6 3 ~"),
        (&[0x03, 0x04, 0x60, 0x2a, 0x2b, 0x2c, 0xbe], 6, 2, "0 1 7 2 ~", "3 0 0 0 4"),
    ];
    for (code, fault, cells, document, full) in rows {
        for (manner, expected) in manners().into_iter().zip([document, full]) {
            let expected = expected.replace('~', "Cannot read the array length");
            assert_eq!(line(manner, &static_case(code, fault), cells), expected, "{code:02x?}");
        }
    }
}

/// Rows of document 02, request 7: a code, its fault, the line of document 01's model and that of the full one.
#[test]
fn locals_above_255() {
    let rows: [(&[u8], u16, &str, &str); 8] = [
        (&[0xc4, 0x19, 1, 0x2c, 0xbe], 4, "0 1 2 0 ~", "0 2 2 1 ~ because \"<local300>\" is null"),
        (&[0xc4, 0x19, 0xff, 0xff, 0xbe], 4, "0 1 2 0 ~", "0 2 2 1 ~ because \"<local65535>\" is null"),
        (&[0xc4, 0x84, 1, 0x2c, 0, 5, 0x2a, 0xbe], 7, "0 1 3 0 ~", "0 2 3 2 ~ because \"<local0>\" is null"),
        (&[0x2a, 0x0a, 0xc4, 0x37, 1, 0x2c, 0xbe], 6, "0 1 4 2 ~", "0 2 4 3 ~ because \"<local0>\" is null"),
        (&[0xc4, 0x15, 1, 0x2c, 0x57, 0x2a, 0xbe], 6, "0 1 4 0 ~", "0 2 4 3 ~ because \"<local0>\" is null"),
        (&[0xc4, 0xa9, 0, 1, 0x2a, 0xbe], 5, "0 1 3 0 ~", "0 1 3 0 ~"),
        (&[0xa7, 0, 4, 0x10, 0xc4, 0x15, 0xbe], 6, "0 1 3 0 ~", "0 1 3 1 ~"),
        (&[0xa7, 0, 4, 0x10, 0xc4, 0x19, 0xbe], 6, "0 1 3 0 ~", "0 1 3 0 ~"),
    ];
    for (code, fault, document, full) in rows {
        for (manner, expected) in manners().into_iter().zip([document, full]) {
            let expected = expected.replace('~', "Cannot read the array length");
            assert_eq!(line(manner, &static_case(code, fault), 8), expected, "{code:02x?}");
        }
    }
}

/// A row of document 02, request 11: aload_0, iconst_0, and a load by baload.
const MASK: &[u8] = b"\x08\x02\x03\x2a\x03\x33\x00\x00\x00";

/// Its message in wording 1 and in wording 2.
const WORDED: [&[u8]; 2] = [
    b"Cannot load from byte array because \"<local0>\" is null",
    b"Cannot load from byte/boolean array because \"<local0>\" is null",
];

/// Numbers that are no wording.
const OTHERS: [u32; 6] = [0, 3, 9, 11, 257, u32::MAX];

#[test]
fn each_wording_by_its_own_length() {
    assert_eq!(WORDED.map(<[u8]>::len), [54, 62]);
    for (manner, place) in manners().into_iter().flat_map(|manner| [(manner, 0), (manner, 1)]) {
        let (manner, text) = (manner.wording(place as u32 + 1), WORDED[place]);
        for room in 0..=64 {
            let (mut stack, mut output) = ([7; 3], [9; 64]);
            let answer = report_in(manner, MASK, &mut stack, &mut output[..room]);
            if room < text.len() {
                assert_eq!(answer, Answer::NoOutput { needed: text.len() as u64 }, "{manner:?}, {room}");
                assert_eq!(output, [9; 64]);
            } else {
                assert_eq!(answer, Answer::Message { text, kind: 2, scan: 3, block: 2 }, "{manner:?}, {room}");
                assert!(output.starts_with(text) && output[text.len()..].iter().all(|&byte| byte == 9));
            }
            assert_eq!(stack, [0; 3]);
        }
    }
}

#[test]
fn naming_no_wording_gets_the_second() {
    for room in [0, 53, 54, 61, 62, 64] {
        let (mut named, mut unnamed) = (vec![9; room], vec![9; room]);
        let second = report_in(Manner::default().wording(2), MASK, &mut [7; 3], &mut named);
        assert_eq!(report(MASK, &mut [7; 3], &mut unnamed), second);
    }
    for manner in manners() {
        assert_eq!(manner, manner.wording(2));
        assert_eq!(manner.wording(9).wording(1), manner.wording(1));
    }
    assert_eq!(Manner::default().wording(1).full(), Manner::default().full().wording(1));
}

#[test]
fn no_wording_comes_first() {
    let long = vec![0; 1_048_577];
    for (manner, number) in manners().into_iter().flat_map(|manner| OTHERS.map(|number| (manner, number))) {
        for case in [MASK, EXAMPLE, &MASK[..8], b"", &long] {
            for (cells, room) in [(3, 80), (3, 53), (0, 80), (0, 0)] {
                let (mut stack, mut output) = ([7; 3], [9; 80]);
                let answer = report_in(manner.wording(number), case, &mut stack[..cells], &mut output[..room]);
                assert_eq!(answer, Answer::NoWording, "{number}, {} bytes", case.len());
                assert!(stack[..cells].iter().all(|&cell| cell == 0) && stack[cells..].iter().all(|&cell| cell == 7));
                assert_eq!(output, [9; 80]);
            }
        }
    }
}

#[test]
fn a_walk_has_no_wording() {
    for number in OTHERS {
        let manner = Manner::default().wording(number);
        assert_eq!(walk_in(manner, MASK, 0, 2, &mut [7; 3]), Walk::Done { slots: &[1, 0], count: 2 });
    }
}

/// The message for a fault behind `aload_0` and two constants, in a wording; a record names local 0, and member 1 takes a byte.
fn worded(number: u32, fault: &[u8]) -> Option<String> {
    let code = [&[0x2a, 0x03, 0x03][..], fault].concat();
    let records = [LocalRecord { start: 0, length: 9, slot: 0, name: b"byte".to_vec() }];
    let member = |_, kind| {
        (kind == Kind::Method).then(|| Member {
            kind,
            class: b"byte".to_vec(),
            name: b"byte array".to_vec(),
            descriptor: b"(B[B)V".to_vec(),
        })
    };
    build_message_in(Manner::default().wording(number), 8, &code, "byte:([B)V", member, &records, 3)
}

#[test]
fn nothing_else_is_worded_otherwise() {
    for opcode in (46..=53).chain(79..=86).chain([190, 191, 194, 195]) {
        let (first, second) = (worded(1, &[opcode]), worded(2, &[opcode]));
        let expected = match opcode {
            51 | 84 => first.map(|text| text.replacen("byte array", "byte/boolean array", 1)),
            _ => first,
        };
        assert!(expected.is_some());
        assert_eq!(second, expected, "opcode {opcode}");
    }
    let call = "Cannot invoke \"byte.byte array(byte, byte[])\" because \"byte\" is null";
    assert_eq!([1, 2].map(|number| worded(number, &[0xb6, 0, 1])), [Some(call.to_string()), Some(call.to_string())]);
    assert_eq!(worded(2, &[84]).as_deref(), Some("Cannot store to byte/boolean array because \"byte\" is null"));
}

#[test]
#[should_panic(expected = "9 is no wording: a message is had in wording 1 or 2")]
fn a_message_in_no_wording_is_a_mistake() {
    worded(9, &[84]);
}

/// At pop there is no message in any wording.
#[test]
#[should_panic(expected = "0 is no wording")]
fn the_mistake_comes_before_no_message() {
    worded(0, &[0x57]);
}

#[test]
#[should_panic(expected = "4294967295 is no wording")]
fn the_mistake_comes_before_a_fault_that_no_case_holds() {
    let manner = Manner::default().full().wording(u32::MAX);
    build_message_in(manner, 8, &[0x2a, 0xbe], "m:()V", string_member, &[], 70_000);
}

#[test]
fn a_case_lays_out_its_bytes() {
    let case = Case {
        flags: 8,
        fault: 1,
        code: vec![0x2a, 0xb6, 0, 1, 0x57, 0xb1],
        signature: b"m:(Ljava/lang/String;)V".to_vec(),
        members: vec![(
            1,
            Member {
                kind: Kind::Method,
                class: b"java/lang/String".to_vec(),
                name: b"length".to_vec(),
                descriptor: b"()I".to_vec(),
            },
        )],
        records: vec![],
    };
    assert_eq!(case.bytes().as_deref(), Some(EXAMPLE));
}

#[test]
fn numbers_take_their_fewest_bytes() {
    let laid = |number| {
        let mut to = Vec::new();
        put_number(&mut to, number);
        to
    };
    assert_eq!(laid(127), [127]);
    assert_eq!(laid(128), [128, 1]);
    assert_eq!(laid(16_383), [255, 127]);
    assert_eq!(laid(16_384), [128, 128, 1]);
    assert_eq!(laid(65_535), [255, 255, 3]);
}

#[test]
fn every_prefix_is_broken() {
    for (cut, manner) in (0..EXAMPLE.len()).flat_map(|cut| manners().map(|manner| (cut, manner))) {
        let mut stack = [7; 4];
        let mut output = [9; 80];
        let answer = report_in(manner, &EXAMPLE[..cut], &mut stack, &mut output);
        assert!(matches!(answer, Answer::Broken { at } if at <= cut as u64), "{cut}: {answer:?}");
        assert_eq!((stack, output), ([0; 4], [9; 80]));
    }
}

#[test]
fn a_byte_too_much() {
    let mut long = EXAMPLE.to_vec();
    long.push(0);
    assert_eq!(report(&long, &mut [], &mut []), Answer::Broken { at: EXAMPLE.len() as u64 });
}

#[test]
fn oversized() {
    let long = vec![0; 1_048_577];
    for manner in manners() {
        let mut stack = [7; 3];
        assert_eq!(report_in(manner, &long, &mut stack, &mut []), Answer::TooLong);
        assert_eq!(stack, [0; 3]);
        assert!(matches!(report_in(manner, &long[1..], &mut [], &mut []), Answer::Broken { .. }));
        assert_eq!(walk_in(manner, &long, 0, 0, &mut []), Walk::TooLong);
    }
    assert_eq!(local_name(&long, 0, 0, &mut []), Name::TooLong);
}

#[test]
fn roomless() {
    for manner in manners() {
        let mut output = [9; 256];
        assert_eq!(report_in(manner, EXAMPLE, &mut [], &mut output), Answer::NoRoom { at: 0 });
        assert_eq!(output, [9; 256]);
        for room in 0..MESSAGE.len() {
            let mut stack = [7; 1];
            let needed = MESSAGE.len() as u64;
            assert_eq!(report_in(manner, EXAMPLE, &mut stack, &mut output[..room]), Answer::NoOutput { needed });
            assert_eq!((stack, output), ([0; 1], [9; 256]));
        }
        let exact = report_in(manner, EXAMPLE, &mut [7; 1], &mut output[..MESSAGE.len()]);
        assert!(matches!(exact, Answer::Message { text: MESSAGE, .. }));
    }
}

#[test]
fn no_message() {
    let case = Case { fault: 0, code: vec![0x57], ..Case::default() };
    let mut stack = [7; 2];
    assert_eq!(report(&case.bytes().unwrap(), &mut stack, &mut []), Answer::NoMessage);
    assert_eq!(stack, [0; 2]);
}

#[test]
fn lengths_and_leaders() {
    assert_eq!(instruction_length(&[0xc4, 0x84, 0, 1, 0, 1], 0), Some(6));
    assert_eq!(instruction_length(&[0xc4], 0), None);
    assert_eq!(instruction_length(&[], u64::MAX), None);
    let code = [0x00, 0x00, 0x2a, 0xbe, 0x57, 0xa7, 0xff, 0xfd];
    assert_eq!(block_leader(&code, 3), Leader { leader: Some(2), scan: 6 });
    assert_eq!(block_leader(&[0x2a, 0xb6], 0), Leader { leader: None, scan: 1 });
}

#[test]
fn reserved_bytes() {
    assert_eq!(measure(&[0x10, 0xca], 0), Measure::Length(2));
    assert_eq!(measure(&[0xc9], 0), Measure::Cut);
    assert_eq!(measure(&[0xca], 1), Measure::Cut);
    for byte in 0xca..=0xff {
        assert_eq!(measure(&[byte], 0), Measure::Reserved);
        assert_eq!(instruction_length(&[byte], 0), None);
    }
    assert_eq!(block_leader(&[0x2a, 0xbe, 0xca], 1), Leader { leader: None, scan: 2 });
}

#[test]
fn walks() {
    let mut stack = [7; 4];
    assert_eq!(walk(EXAMPLE, 0, 1, &mut stack), Walk::Done { slots: &[1], count: 1 });
    assert_eq!(stack, [1, 0, 0, 0]);
    assert_eq!(loaded(1), Some((0, 0)));
    assert_eq!(loaded(1 + 65_536 * 5 + 3), Some((5, 3)));
    assert_eq!(loaded(65_536), Some((0, 65_535)));
    assert_eq!(loaded(65_537), Some((1, 0)));
    assert_eq!(loaded(0), None);
    assert_eq!(walk(EXAMPLE, 0, 1, &mut []), Walk::NoRoom { at: 0 });
    assert_eq!(walk(EXAMPLE, 1, 0, &mut stack), Walk::Failed { count: 0 });
    assert_eq!(stack, [0; 4]);
    assert_eq!(walk(&EXAMPLE[..1], 0, 1, &mut stack), Walk::Broken { at: 1 });
}

#[test]
fn walks_through_arithmetic() {
    // aload_0, iconst_0, iconst_1, iadd, dup_x1; then two slots of its own and the load between them.
    let case = static_case(&[0x2a, 0x03, 0x04, 0x60, 0x5a, 0x2e], 5);
    let mut stack = [7; 4];
    assert_eq!(walk_in(Manner::default(), &case, 0, 5, &mut stack), Walk::Failed { count: 3 });
    assert_eq!(stack, [0; 4]);
    let full = Manner::default().full();
    assert_eq!(walk_in(full, &case, 0, 5, &mut stack), Walk::Done { slots: &[0, 1, 0], count: 5 });
    assert_eq!(stack, [0, 1, 0, 0]);
    assert_eq!(walk_in(full, &case, 0, 5, &mut stack[..2]), Walk::NoRoom { at: 2 });
    assert_eq!(stack, [0; 4]);
}

#[test]
fn walks_behind_wide() {
    // nop, wide aload 300, wide iinc, aload_3; then the index of the first load is that of `wide`.
    let case = static_case(&[0, 0xc4, 0x19, 1, 0x2c, 0xc4, 0x84, 1, 0x2c, 0, 5, 0x2d, 0xbe], 12);
    let full = Manner::default().full();
    let cells = [1 + 65_536 + 300, 1 + 65_536 * 11 + 3];
    let mut stack = [7; 4];
    assert_eq!(walk_in(full, &case, 0, 12, &mut stack), Walk::Done { slots: &cells, count: 4 });
    assert_eq!(stack, [cells[0], cells[1], 0, 0]);
    assert_eq!(cells.map(loaded), [Some((1, 300)), Some((11, 3))]);
    assert_eq!(walk_in(full, &case, 0, 12, &mut stack[..1]), Walk::NoRoom { at: 11 });
    assert_eq!(walk(&case, 0, 12, &mut stack), Walk::Failed { count: 1 });
    assert_eq!(stack, [0; 4]);
    // In document 01's model a cell has the same form.
    assert_eq!(walk(&case, 11, 12, &mut stack), Walk::Done { slots: &cells[1..], count: 1 });
}

#[test]
fn cut_behind_wide() {
    let full = Manner::default().full();
    let mut stack = [7; 2];
    // Only the operands of `wide aload` are read.
    let int_load = static_case(&[0xc4, 0x15], 0);
    assert_eq!(walk_in(full, &int_load, 0, 4, &mut stack), Walk::Done { slots: &[0], count: 1 });
    let load = static_case(&[0xc4, 0x19, 1], 0);
    assert_eq!(walk_in(full, &load, 0, 4, &mut stack), Walk::Failed { count: 0 });
    let alone = static_case(&[0xc4], 0);
    assert_eq!(walk_in(full, &alone, 0, 4, &mut stack), Walk::Failed { count: 0 });
}

#[test]
fn a_local_above_255_is_named() {
    let code = [0, 0xc4, 0x19, 1, 0x2c, 0xbe];
    let record = |start, length, name: &str| LocalRecord { start, length, slot: 300, name: name.into() };
    let records = [record(2, 9, "late"), record(0, 2, "axis")];
    let message = |manner| build_message_in(manner, 8, &code, "m:()V", string_member, &records, 5);
    let [document, full] = manners();
    assert_eq!(message(document).as_deref(), Some("Cannot read the array length"));
    assert_eq!(message(full).as_deref(), Some("Cannot read the array length because \"axis\" is null"));
}

#[test]
fn names() {
    let mut output = [9; 16];
    assert_eq!(local_name(EXAMPLE, 0, 0, &mut output), Name::Named(b"<parameter1>"));
    assert_eq!(local_name(EXAMPLE, 3, 0, &mut output), Name::Named(b"<local3>"));
    assert_eq!(local_name(EXAMPLE, 0, 0, &mut output[..11]), Name::NoOutput { needed: 12 });
    assert_eq!(local_name(&[], 0, 0, &mut output), Name::Broken { at: 0 });
}

#[test]
fn descriptors() {
    let mut output = [9; 32];
    assert_eq!(parameters(b"(IJ[D)V", &mut output), Parameters::Read { list: b"int, long, double[]", slots: 4 });
    assert_eq!(parameters(b"(IJ[D)V", &mut []), Parameters::NoOutput { needed: 19 });
    assert_eq!(parameters(b"(V)V", &mut output), Parameters::Unreadable);
    assert_eq!(return_slots(b"(La)J;)V"), Some(0));
    assert_eq!(return_slots(b"(La)V;)J"), Some(2));
    assert_eq!(return_slots(b"(V)I"), None);
    assert_eq!(return_slots(b"("), None);
    assert_eq!(field_slots(b""), Some(1));
    assert_eq!(field_slots(b"J"), Some(2));
}

#[test]
fn strict_descriptors() {
    let mut numbers = [9; 16];
    assert_eq!(parse_method(b"(J[[La/b;)V", &mut numbers), Ok(3));
    assert_eq!(numbers, [74, 0, 0, 0, 76, 2, 5, 3, 86, 0, 0, 0, 9, 9, 9, 9]);
    let mut numbers = [9; 4];
    assert_eq!(parse_method(b"()", &mut numbers), Err(1));
    assert_eq!(parse_method(b"())", &mut numbers), Err(12));
    assert_eq!(parse_type(b"", &mut numbers), Err(1));
    assert_eq!(parse_type(&[b'['; 256], &mut numbers), Err(2));
    assert_eq!(parse_type(b"I", &mut numbers[..3]), Err(14));
    assert_eq!(numbers, [9; 4]);
    assert_eq!(parse_type(b"I", &mut numbers), Ok(1));
    assert_eq!(numbers, [73, 0, 0, 0]);
}

fn string_member(index: u16, kind: Kind) -> Option<Member> {
    let (class, name, descriptor): (&[u8], &[u8], &[u8]) = match (index, kind) {
        (1, Kind::Method) => (b"java/lang/String", b"length", b"()I"),
        (2, Kind::Field) => (b"a/B", b"next", b"La/B;"),
        (3, Kind::Field) => (b"a/B", b"scale", b"D"),
        _ => return None,
    };
    Some(Member { kind, class: class.to_vec(), name: name.to_vec(), descriptor: descriptor.to_vec() })
}

#[test]
fn a_message_from_the_machine() {
    let code = [0x2b, 0xb4, 0, 2, 0xb6, 0, 1, 0xac];
    let records = [LocalRecord { start: 0, length: 8, slot: 1, name: b"node".to_vec() }];
    let message = |fault| build_message(0, &code, "m:(La/B;)I", string_member, &records, fault);
    assert_eq!(message(1).as_deref(), Some("Cannot read field \"next\" because \"node\" is null"));
    assert_eq!(message(4).as_deref(), Some("Cannot invoke \"String.length()\""));
    assert_eq!(message(0), None);
    assert_eq!(message(70_000), None);
}

#[test]
fn a_message_in_a_manner() {
    // aload_0, dconst_0, putfield of a double, aload_1, arraylength; the record names local 1.
    let code = [0x2a, 0x0e, 0xb5, 0, 3, 0x2b, 0xbe, 0xac];
    let records = [LocalRecord { start: 0, length: 8, slot: 1, name: b"rows".to_vec() }];
    let message = |manner, fault| build_message_in(manner, 0, &code, "m:([I)I", string_member, &records, fault);
    let [document, full] = manners();
    assert_eq!(message(document, 2).as_deref(), Some("Cannot assign field \"scale\" because \"this\" is null"));
    assert_eq!(message(full, 2), message(document, 2));
    assert_eq!(message(document, 6).as_deref(), Some("Cannot read the array length"));
    assert_eq!(message(full, 6).as_deref(), Some("Cannot read the array length because \"rows\" is null"));
}

#[test]
fn a_deep_stack_gets_room() {
    let mut code = vec![0x2a; 5_000];
    code.push(0xbe);
    let message = build_message(0, &code, "m:()V", string_member, &[], 5_000);
    assert_eq!(message.as_deref(), Some("Cannot read the array length because \"this\" is null"));
}

#[test]
fn a_long_message_gets_room() {
    let long = "x".repeat(4_000);
    let records = [LocalRecord { start: 0, length: 2, slot: 0, name: long.clone().into_bytes() }];
    let message = build_message(8, &[0x2a, 0xbe], "m:()V", string_member, &records, 1);
    assert_eq!(message, Some(format!("Cannot read the array length because \"{long}\" is null")));
}
