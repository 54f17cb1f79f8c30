//! One descriptor on both sides: the lenient readers and the strict ones; and descriptors to compare.
use crate::book::Column;
use crate::cases::Run;
use crate::damage::damage;
use crate::differences::{first_parenthesis_misleads, return_slots, Listed};
use crate::random::Random;
use crate::sides::{quietly, Build, Checked, Holding, Wrapped};
use korsepal::Parameters;
use std::str::FromStr;

/// The letters of the short descriptors.
pub const ALPHABET: &[u8; 10] = b"()[LIJV;a/";

/// A base type with its letter.
fn base(random: &mut Random) -> Vec<u8> {
    let bases: [&[u8]; 12] = [
        b"B",
        b"C",
        b"D",
        b"F",
        b"I",
        b"J",
        b"S",
        b"Z",
        b"La/B;",
        b"Ljava/lang/String;",
        b"Ljava/lang/Object;",
        b"L\xc3\xa9;",
    ];
    random.pick(&bases).to_vec()
}

/// A type of the grammar.
pub fn good_type(random: &mut Random) -> Vec<u8> {
    let dimensions = if random.once_in(4) { random.between(1, 3) } else { 0 };
    [&b"[".repeat(dimensions)[..], &base(random)].concat()
}

/// A method of the grammar.
pub fn good_method(random: &mut Random) -> Vec<u8> {
    let mut text = b"(".to_vec();
    for _ in 0..random.below(5) {
        text.extend(good_type(random));
    }
    text.push(b')');
    if random.once_in(3) {
        text.push(b'V');
    } else {
        text.extend(good_type(random));
    }
    text
}

/// A type, mostly of the grammar.
pub fn any_type(random: &mut Random) -> Vec<u8> {
    let mut text = good_type(random);
    if random.once_in(8) {
        worsen(random, &mut text);
    }
    text
}

/// A method, mostly of the grammar.
pub fn any_method(random: &mut Random) -> Vec<u8> {
    let mut text = good_method(random);
    if random.once_in(8) {
        worsen(random, &mut text);
    }
    text
}

/// Puts in, takes out or changes a character that means something.
fn worsen(random: &mut Random, text: &mut Vec<u8>) {
    let at = random.below(text.len() + 1);
    let letter = ALPHABET[random.below(ALPHABET.len())];
    match random.below(4) {
        0 => text.insert(at, letter),
        1 if at < text.len() => {
            text.remove(at);
        }
        2 => text.truncate(at),
        _ if at < text.len() => text[at] = letter,
        _ => text.push(letter),
    }
}

/// The kinds of descriptors that are made.
pub const KINDS: [&str; 6] = [
    "good descriptor",
    "worsened descriptor",
    "damaged descriptor",
    "many dimensions",
    "random letters",
    "random descriptor",
];

/// A descriptor of one of the kinds, and the kind's name.
pub fn made(random: &mut Random) -> (&'static str, Vec<u8>) {
    match random.below(16) {
        0..=4 => (KINDS[0], if random.once_in(3) { good_type(random) } else { good_method(random) }),
        5..=9 => {
            let mut text = if random.once_in(3) { good_type(random) } else { good_method(random) };
            worsen(random, &mut text);
            (KINDS[1], text)
        }
        10..=11 => {
            let mut text = good_method(random);
            damage(random, &mut text);
            (KINDS[2], text)
        }
        12 if random.once_in(4) => (KINDS[3], many_dimensions(random)),
        12..=14 => {
            let letters = b"()[LIJVDBCFSZ;a/.\xff";
            let count = random.below(14);
            (KINDS[4], (0..count).map(|_| letters[random.below(letters.len())]).collect())
        }
        _ => {
            let count = random.below(12);
            (KINDS[5], random.bytes(count))
        }
    }
}

/// Puts a `)` and one byte more in front of semicolons, so into class names. Where that byte is a semicolon, what follows can't be read.
pub fn parenthesise(random: &mut Random, text: &mut Vec<u8>) {
    let mut at = 0;
    while let Some(name) = text[at..].iter().position(|&byte| byte == b';') {
        at += name;
        if !random.once_in(3) {
            let letter = b"VJDI;)"[random.below(6)];
            text.splice(at..at, [b')', letter]);
            at += 2;
        }
        at += 1;
    }
}

/// About 255 dimensions, as a type and inside a method.
fn many_dimensions(random: &mut Random) -> Vec<u8> {
    let ends: [&[u8]; 7] = [b"I", b"V", b"La;", b"L;", b"", b")", b"x"];
    let array = [&b"[".repeat(random.between(253, 258))[..], random.pick(&ends)].concat();
    match random.below(3) {
        0 => array,
        1 => [b"(J", &array[..], b")V"].concat(),
        _ => [b"()", &array[..]].concat(),
    }
}

/// The text of a number over the alphabet, with so many letters.
pub fn short(mut number: usize, letters: usize, to: &mut Vec<u8>) {
    to.clear();
    for _ in 0..letters {
        to.push(ALPHABET[number % ALPHABET.len()]);
        number /= ALPHABET.len();
    }
}

/// What the strict readers of one build say of a text: the numbers of document 01, or its refusal.
pub struct Strict {
    pub as_type: fn(&str) -> Result<Vec<u64>, u32>,
    pub as_method: fn(&str) -> Result<Vec<u64>, u32>,
}

macro_rules! strict_of_the_rust {
    ($name:ident, $module:ident, $jdescriptor:ident) => {
        mod $module {
            use super::*;
            use $jdescriptor::{DescriptorError, MethodDescriptor, TypeDescriptor};

            fn refusal(error: DescriptorError) -> u32 {
                match error {
                    DescriptorError::UnexpectedEndOfInput => 1,
                    DescriptorError::TooManyDimensions => 2,
                    DescriptorError::InvalidFormat(text) => refusal_of_text(text),
                }
            }

            /// Base letter, dimensions and the name of a type.
            fn spelled(descriptor: &TypeDescriptor) -> (u8, u64, &str) {
                match descriptor {
                    TypeDescriptor::Byte => (b'B', 0, ""),
                    TypeDescriptor::Char => (b'C', 0, ""),
                    TypeDescriptor::Double => (b'D', 0, ""),
                    TypeDescriptor::Float => (b'F', 0, ""),
                    TypeDescriptor::Integer => (b'I', 0, ""),
                    TypeDescriptor::Long => (b'J', 0, ""),
                    TypeDescriptor::Short => (b'S', 0, ""),
                    TypeDescriptor::Boolean => (b'Z', 0, ""),
                    TypeDescriptor::Void => (b'V', 0, ""),
                    TypeDescriptor::Object(name) => (b'L', 0, name),
                    TypeDescriptor::Array(base, dimensions) => {
                        let (letter, _, name) = spelled(base);
                        (letter, u64::from(*dimensions), name)
                    }
                }
            }

            /// Writes a type that starts at a place of the descriptor; the place behind it.
            fn put(to: &mut Vec<u64>, at: usize, descriptor: &TypeDescriptor) -> usize {
                let (letter, dimensions, name) = spelled(descriptor);
                let start = at + dimensions as usize + 1;
                if letter == b'L' {
                    to.extend([u64::from(letter), dimensions, start as u64, name.len() as u64]);
                    start + name.len() + 1
                } else {
                    to.extend([u64::from(letter), dimensions, 0, 0]);
                    start
                }
            }

            pub fn as_type(text: &str) -> Result<Vec<u64>, u32> {
                let descriptor = TypeDescriptor::from_str(text).map_err(refusal)?;
                let mut numbers = Vec::new();
                put(&mut numbers, 0, &descriptor);
                Ok(numbers)
            }

            pub fn as_method(text: &str) -> Result<Vec<u64>, u32> {
                let descriptor = MethodDescriptor::from_str(text).map_err(refusal)?;
                let mut numbers = Vec::new();
                let mut at = 1;
                for parameter in descriptor.parameter_types() {
                    at = put(&mut numbers, at, parameter);
                }
                put(&mut numbers, at + 1, descriptor.return_type());
                Ok(numbers)
            }
        }

        pub const $name: Strict = Strict { as_type: $module::as_type, as_method: $module::as_method };
    };
}

strict_of_the_rust!(STRICT_CHECKED, checked, jdescriptor_checked);
strict_of_the_rust!(STRICT_WRAPPED, wrapped, jdescriptor_wrapped);

/// Document 01's number of an InvalidFormat text; 3 and 7 differ by a full stop.
fn refusal_of_text(text: &str) -> u32 {
    match text {
        "Invalid descriptor" => 3,
        "Trailing characters after type descriptor." => 4,
        "Class name descriptor cannot be empty." => 5,
        "Missing semicolon in class name descriptor." => 6,
        "Invalid descriptor." => 7,
        "Array component type cannot be void." => 8,
        "Unrecognized type descriptor." => 9,
        "Method descriptor must start with '('." => 10,
        "Method parameter type cannot be void." => 11,
        "Missing return type." => 12,
        "Trailing characters after method descriptor." => 13,
        _ => 0,
    }
}

/// Numbers of a text held byte by byte, in whose names each byte above 127 took two: those of the bytes.
pub fn narrowed(numbers: Vec<u64>, held: &str) -> Vec<u64> {
    let place = |byte: u64| held[..byte as usize].chars().count() as u64;
    let mut narrowed = numbers;
    for numbers in narrowed.chunks_mut(4).filter(|numbers| numbers[0] == u64::from(b'L')) {
        let (start, end) = (place(numbers[2]), place(numbers[2] + numbers[3]));
        (numbers[2], numbers[3]) = (start, end - start);
    }
    narrowed
}

impl Run {
    /// Compares the two sides on a descriptor.
    pub fn descriptor(&mut self, text: &[u8]) {
        let holding = Holding::of(std::iter::once(text));
        let held = holding.hold(text);
        if holding == Holding::ByteByByte {
            self.book.listed(Listed::NotText, false, false);
        }
        self.lenient(text, &held, holding);
        self.strict(text, &held, holding, true);
        self.strict(text, &held, holding, false);
    }

    fn lenient(&mut self, text: &[u8], held: &str, holding: Holding) {
        let wrapped = Wrapped::parameters(held);
        let checked = quietly(|| Checked::parameters(held));
        let (list, slots) = match &wrapped {
            Some((names, slots)) => (holding.release(names.join(", ")), *slots as u64),
            None => (Vec::new(), 0),
        };
        let readable = wrapped.is_some();
        self.book.expect_checked(text, "parameters by the checked build", checked, wrapped, false);
        let less = if self.random.once_in(8) { self.random.below(list.len() + 1) } else { list.len() };
        for output in [less, list.len() + 2] {
            let expected = match readable {
                false => Parameters::Unreadable,
                true if output < list.len() => Parameters::NoOutput { needed: list.len() as u64 },
                true => Parameters::Read { list: &list, slots },
            };
            self.lender.parameters(&mut self.book, text, output, expected);
        }
        let returned = return_slots::<Wrapped>(text, holding);
        self.book.expect(text, "return slots", korsepal::return_slots(text), returned.map(|slots| slots as u32));
        let checked = return_slots::<Checked>(text, holding);
        self.book.expect(text, "return slots by the checked build", checked, returned);
        if first_parenthesis_misleads(text) {
            self.book.listed(Listed::ReturnAlone, false, Wrapped::return_slots(held) != returned);
        }
        let field = Wrapped::field_slots(text) as u32;
        self.book.expect(text, "field slots", korsepal::field_slots(text), Some(field));
        self.book.expect(text, "field slots by the checked build", Checked::field_slots(text) as u32, field);
        if readable {
            self.book.count(Column::Lists);
        }
    }

    fn strict(&mut self, text: &[u8], held: &str, holding: Holding, as_type: bool) {
        let (what, reader): (_, fn(&[u8], &mut [u64]) -> Result<u64, u32>) =
            if as_type { ("strict type", korsepal::parse_type) } else { ("strict method", korsepal::parse_method) };
        let theirs = |build: Strict| if as_type { (build.as_type)(held) } else { (build.as_method)(held) };
        let mut expected = theirs(STRICT_WRAPPED);
        let checked = quietly(|| theirs(STRICT_CHECKED));
        self.book.expect_checked(text, "strict reader of the checked build", checked, expected.clone(), false);
        if holding == Holding::ByteByByte {
            expected = expected.map(|numbers| narrowed(numbers, held));
        }
        self.book.strict(as_type, expected.as_ref().err().map_or(0, |&refusal| refusal as usize));
        let enough = expected.as_ref().map_or(4, Vec::len);
        self.lender.strict(&mut self.book, text, what, reader, enough, &expected);
        if self.random.once_in(8) {
            let less = self.random.below(enough + 2);
            self.lender.strict(&mut self.book, text, what, reader, less, &expected);
        }
    }
}
