//! Inputs: cases with structure, damaged ones, cases at the edges, and random bytes.
use crate::damage::damage;
use crate::descriptors::{any_method, any_type, good_method, parenthesise};
use crate::differences::measured;
use crate::full;
use crate::layout::{lay_out, Member, Parts, Record};
use crate::model::Model;
use crate::random::Random;
use crate::sides::{Build, Holding, Wrapped};
use korsepal::Measure;

/// The kinds of cases, and how many of twenty are of each.
pub const KINDS: [(&str, usize, fn(&mut Random) -> Vec<u8>); 6] = [
    ("structured", 6, structured),
    ("solver code", 5, solver_code),
    ("damaged code", 3, damaged_code),
    ("damaged layout", 2, damaged_layout),
    ("boundaries", 3, boundary),
    ("random bytes", 1, random_bytes),
];

const CLASSES: [&[u8]; 13] = [
    b"java/lang/String",
    b"java/lang/Object",
    b"java/lang/StringBuilder",
    b"java/lang/Strin",
    b"a/b/C",
    b"D",
    b"",
    b"[J",
    b"[La/b;",
    b"java.lang.String",
    b"byte",
    b"/",
    "\u{e9}t\u{e9}/\u{65e5}\u{672c}".as_bytes(),
];

const NAMES: [&[u8]; 12] = [
    b"length",
    b"next",
    b"<init>",
    b"<clinit>",
    b"x",
    b"",
    b"a b\n",
    b"get/it",
    b"<init",
    b"byte",
    b"Cannot load from byte array",
    "\u{1f600}\u{fc}".as_bytes(),
];

/// Whether document 01's model walks an opcode that cites no member.
fn in_document(opcode: u8) -> bool {
    matches!(opcode, 0..=78 | 87..=89 | 92 | 95 | 132 | 187..=190 | 192 | 193)
}

/// What the walk goes on through behind `wide`: loads, stores and `iinc`.
const WIDENED: [u8; 11] = [21, 22, 23, 24, 25, 54, 55, 56, 57, 58, 132];

/// The locals that `wide` reaches for, about the edges of one byte and of two.
const FAR: [u16; 8] = [0, 255, 256, 257, 300, 511, 65_534, 65_535];

/// A local of two bytes.
fn far_local(random: &mut Random) -> u16 {
    if random.once_in(6) {
        random.next() as u16
    } else {
        FAR[random.below(FAR.len())]
    }
}

/// Operand bytes of any instruction but the switches and `wide`.
fn operands(opcode: u8) -> usize {
    match opcode {
        16 | 18 | 21..=25 | 54..=58 | 169 | 188 => 1,
        17 | 19 | 20 | 132 | 153..=168 | 178..=184 | 187 | 189 | 192 | 193 | 198 | 199 => 2,
        197 => 3,
        185 | 186 | 200 | 201 => 4,
        _ => 0,
    }
}

/// A code in the making, of what a model walks.
struct Maker<'r> {
    model: Model,
    random: &'r mut Random,
    members: Vec<Member>,
    code: Vec<u8>,
    /// Where instructions start.
    starts: Vec<usize>,
    /// Offsets to fill in: the place, the instruction's index, and the bytes (2 or 4).
    branches: Vec<(usize, usize, usize)>,
    /// The height of the walk, as far as it is known.
    height: usize,
}

impl Maker<'_> {
    fn start(&mut self, opcode: u8) -> usize {
        self.starts.push(self.code.len());
        self.code.push(opcode);
        self.code.len() - 1
    }

    fn operands(&mut self, count: usize) {
        for _ in 0..count {
            let byte = if self.random.once_in(3) { self.random.byte() } else { self.random.below(6) as u8 };
            self.code.push(byte);
        }
    }

    /// An instruction that cites no member, with its operands; sometimes behind `wide`, where that may stand before it. Document 01's
    /// model gives up at it.
    fn instruction(&mut self, opcode: u8) {
        let times = if self.model == Model::Full { 3 } else { 40 };
        if full::widens(opcode) && self.random.once_in(times) {
            return self.wide(opcode);
        }
        self.start(opcode);
        self.operands(operands(opcode));
    }

    /// `wide` before an opcode, with a local of two bytes, and with two bytes more for `iinc`.
    fn wide(&mut self, opcode: u8) {
        self.start(196);
        self.code.push(opcode);
        let local = far_local(self.random);
        self.code.extend(local.to_be_bytes());
        if opcode == 132 {
            self.operands(2);
        }
    }

    /// `wide` before any opcode: mostly `ret` and others that no walk goes on through behind it.
    fn any_wide(&mut self) {
        let opcode = match self.random.below(4) {
            0 => WIDENED[self.random.below(WIDENED.len())],
            1 => 169,
            2 => [0, 20, 26, 42, 53, 59, 131, 133, 196, 202][self.random.below(10)],
            _ => self.random.byte(),
        };
        self.wide(opcode);
    }

    /// Slots taken and put by an opcode that the model walks and that cites no member.
    fn effect(&self, opcode: u8) -> Option<(usize, usize)> {
        let walked = self.model == Model::Full || in_document(opcode);
        walked.then(|| full::slots(opcode)).flatten()
    }

    /// An instruction of the walk.
    fn walked(&mut self) {
        self.walked_above(0);
    }

    /// An instruction of the walk, for the most part one that finds what it takes above so many slots.
    fn walked_above(&mut self, floor: usize) {
        if self.random.once_in(6) && !self.members.is_empty() {
            return self.cite(floor);
        }
        if self.model == Model::Full && self.random.once_in(16) {
            return self.multianewarray(floor);
        }
        if self.model == Model::Full && self.random.once_in(200) {
            return self.any_wide();
        }
        loop {
            let opcode = match self.random.below(7) {
                0 | 1 => [25, 42, 43, 44, 45, 89, 92, 95, 192][self.random.below(9)],
                2 => [90, 91, 93, 94][self.random.below(4)],
                3 => WIDENED[self.random.below(WIDENED.len())],
                _ => self.random.below(196) as u8,
            };
            let Some((taken, put)) = self.effect(opcode) else { continue };
            if floor + taken > self.height {
                match self.random.below(80) {
                    0 => {}
                    1..=30 if self.model == Model::Full => self.fill(floor + taken),
                    _ => continue,
                }
            }
            self.instruction(opcode);
            self.height = self.height.saturating_sub(taken) + put;
            return;
        }
    }

    /// An array of some dimensions, mostly of as many as there are slots for, seldom of none.
    fn multianewarray(&mut self, floor: usize) {
        let dimensions = if self.random.once_in(16) { 0 } else { self.random.between(1, 3) };
        if !self.random.once_in(16) {
            self.fill(floor + dimensions);
        }
        self.start(197);
        self.operands(2);
        self.code.push(dimensions as u8);
        self.height = self.height.saturating_sub(dimensions) + 1;
    }

    /// The index of a member, mostly one of the table and of the kind, sometimes of the other kind. Blocks of the full model are longer,
    /// so that less may go wrong in each of their instructions.
    fn cited(&mut self, is_method: bool) -> (u16, Option<Member>) {
        let times = if self.model == Model::Full { 4 } else { 1 };
        let kind = is_method != self.random.once_in(16 * times);
        let of_kind: Vec<&Member> = self.members.iter().filter(|member| member.is_method == kind).collect();
        if of_kind.is_empty() || self.random.once_in(24 * times) {
            return (self.random.number(), None);
        }
        let member = of_kind[self.random.below(of_kind.len())].clone();
        (member.index, Some(member))
    }

    /// The slots that a method takes, and those that it gives; those of a field are given.
    fn slots(member: Option<&Member>) -> (usize, usize) {
        let Some(member) = member else { return (0, 0) };
        if !member.is_method {
            return (0, Wrapped::field_slots(&member.descriptor));
        }
        let text = Holding::of(std::iter::once(&member.descriptor[..])).hold(&member.descriptor);
        let taken = Wrapped::parameters(&text).map_or(0, |(_, slots)| slots);
        (taken, Wrapped::return_slots(&text).unwrap_or(0))
    }

    /// An instruction of the walk that cites a member, behind what it takes.
    fn cite(&mut self, floor: usize) {
        let opcodes: &[u8] = match self.model {
            Model::Document => &[178, 180, 182, 183, 184, 185],
            Model::Full => &[178, 179, 179, 180, 181, 181, 182, 183, 184, 185],
        };
        let opcode = opcodes[self.random.below(opcodes.len())];
        let (index, member) = self.cited(opcode >= 182);
        let (mut taken, mut given) = Self::slots(member.as_ref());
        if opcode == 179 || opcode == 181 {
            (taken, given) = (given, 0);
        }
        taken += usize::from(!matches!(opcode, 178 | 179 | 184));
        self.fill(floor + taken);
        self.start(opcode);
        self.code.extend(index.to_be_bytes());
        if opcode == 185 {
            self.operands(2);
        }
        self.height = self.height.saturating_sub(taken) + given;
    }

    /// Pushes until the list has so many slots.
    fn fill(&mut self, slots: usize) {
        while self.height < slots.min(300) {
            self.push();
        }
    }

    fn push(&mut self) {
        let opcode = [1, 5, 9, 16, 20, 25, 26, 42, 43][self.random.below(9)];
        let (_, put) = self.effect(opcode).expect("it is walked");
        self.instruction(opcode);
        self.height += put;
    }

    /// A load, sometimes cast or carried along.
    fn load(&mut self) {
        if self.model == Model::Full && self.random.once_in(8) {
            self.wide(25);
        } else {
            let opcode = [25, 42, 43, 44, 45][self.random.below(5)];
            self.instruction(opcode);
        }
        self.height += 1;
        if self.random.once_in(5) {
            self.start(192);
            self.operands(2);
        }
    }

    /// Slots above the load: as many as the depth asks, sometimes another number. In the full model they are worked out there.
    fn above(&mut self, depth: usize) {
        let wanted = if self.random.once_in(12) { depth + self.random.below(3) } else { depth };
        let floor = self.height;
        if self.model == Model::Full {
            (0..self.random.below(14)).for_each(|_| self.walked_above(floor));
        }
        self.level(floor + wanted.min(300));
    }

    /// Takes and pushes single slots until there are so many.
    fn level(&mut self, wanted: usize) {
        while self.height > wanted {
            let opcode = if self.model == Model::Full { [87, 54, 96, 194][self.random.below(4)] } else { 87 };
            self.instruction(opcode);
            self.height -= 1;
        }
        while self.height < wanted {
            let opcode = [1, 4, 42, 43, 26, 89][self.random.below(6)];
            self.start(opcode);
            self.height += 1;
        }
    }

    /// A dereferencing instruction behind its operands, and its index.
    fn dereference(&mut self) -> usize {
        let opcode = match self.random.below(4) {
            // Those of byte and boolean arrays are drawn as often as three others.
            0 => {
                [46, 47, 48, 49, 50, 51, 51, 51, 52, 53, 79, 80, 81, 82, 83, 84, 84, 84, 85, 86][self.random.below(20)]
            }
            1 => [180, 181][self.random.below(2)],
            2 => [182, 183, 185][self.random.below(3)],
            _ => [190, 191, 194, 195][self.random.below(4)],
        };
        let cites = (180..=185).contains(&opcode);
        let (index, member) = if cites { self.cited(opcode >= 182) } else { (0, None) };
        let (taken, given) = Self::slots(member.as_ref());
        let depth = match opcode {
            46..=53 => 1,
            80 | 82 => 3,
            79..=86 => 2,
            181 => given,
            _ => taken,
        };
        self.load();
        self.above(depth);
        let at = self.start(opcode);
        if cites {
            self.code.extend(index.to_be_bytes());
        }
        if opcode == 185 {
            self.operands(2);
        }
        at
    }

    /// Any instruction with its operands, seldom a reserved byte.
    fn any(&mut self) {
        let opcode = if self.random.once_in(8) { self.random.byte() } else { self.random.below(202) as u8 };
        match opcode {
            170 | 171 => self.switch(opcode == 170),
            196 => self.any_wide(),
            153..=168 | 198..=201 => self.branch(opcode),
            _ => {
                self.start(opcode);
                self.operands(operands(opcode));
            }
        }
        self.height = 0;
    }

    fn branch(&mut self, opcode: u8) {
        let at = self.start(opcode);
        let bytes = operands(opcode);
        self.branches.push((at + 1, at, bytes));
        self.code.resize(at + 1 + bytes, 0);
    }

    /// A switch with a few entries, whose targets are filled in later.
    fn switch(&mut self, is_table: bool) {
        let at = self.start(if is_table { 170 } else { 171 });
        while self.code.len() % 4 != 0 {
            let padding = if self.random.once_in(4) { self.random.byte() } else { 0 };
            self.code.push(padding);
        }
        self.target(at);
        let entries = self.random.below(4);
        if is_table {
            let low = (self.random.below(7) as i32) - 3;
            self.code.extend(low.to_be_bytes());
            self.code.extend((low + entries as i32 - 1).to_be_bytes());
        } else {
            self.code.extend((entries as i32).to_be_bytes());
        }
        for entry in 0..entries {
            if !is_table {
                self.code.extend((entry as i32 * 3).to_be_bytes());
            }
            self.target(at);
        }
    }

    /// A place for an offset of 32 bits.
    fn target(&mut self, at: usize) {
        self.branches.push((self.code.len(), at, 4));
        self.code.extend([0; 4]);
    }

    /// Instructions of every sort, ahead of the block or behind it.
    fn around(&mut self, count: usize) {
        for _ in 0..count {
            match self.random.below(4) {
                0 => {
                    let opcode = [153, 165, 167, 168, 198, 199, 200, 201][self.random.below(8)];
                    self.branch(opcode);
                }
                1 if self.random.once_in(3) => self.switch(self.code.len() % 2 == 0),
                1 => self.walked(),
                _ => self.any(),
            }
        }
    }

    /// Fills in the offsets: to starts near the fault, to any place, before the code and behind it.
    fn resolve(&mut self, fault: usize) {
        let near: Vec<usize> = self.starts.iter().copied().filter(|start| start.abs_diff(fault) < 12).collect();
        for (place, at, bytes) in std::mem::take(&mut self.branches) {
            let length = self.code.len();
            let target = match self.random.below(16) {
                0 => self.random.below(length + 4) as i64,
                1 => fault as i64 - self.random.below(6) as i64,
                2 => -(self.random.below(9) as i64),
                3 => length as i64 + self.random.below(70_000) as i64,
                4..=7 if !near.is_empty() => near[self.random.below(near.len())] as i64,
                _ => self.starts[self.random.below(self.starts.len())] as i64,
            };
            let offset = target - at as i64;
            let written = (offset as i32).to_be_bytes();
            self.code[place..place + bytes].copy_from_slice(&written[4 - bytes..]);
        }
    }
}

fn text(random: &mut Random, from: &[&'static [u8]]) -> Vec<u8> {
    random.pick(from).to_vec()
}

/// A few members, their indexes rising.
fn members(random: &mut Random) -> Vec<Member> {
    let mut index = 0;
    let mut members = Vec::new();
    for _ in 0..random.below(7) {
        let step = if random.once_in(9) { random.between(1, 9_000) } else { random.between(1, 3) };
        index += step as u16;
        let is_method = random.once_in(2);
        members.push(Member {
            index,
            is_method,
            class: text(random, &CLASSES),
            name: text(random, &NAMES),
            // Some have a descriptor of the other kind.
            descriptor: if is_method != random.once_in(8) { any_method(random) } else { any_type(random) },
        });
    }
    members
}

fn signature(random: &mut Random) -> Vec<u8> {
    let colon: &[u8] = random.pick(&[b":", b":", b":", b":", b":", b":", b"::", b""]);
    [&text(random, &NAMES), colon, &any_method(random)[..]].concat()
}

/// Records whose windows lie about the code; some name the same slot.
fn records(random: &mut Random, length: usize) -> Vec<Record> {
    let count = random.below(5);
    (0..count)
        .map(|_| Record {
            start: random.below(length + 2) as u16,
            length: if random.once_in(5) { random.number() } else { random.below(length + 2) as u16 },
            slot: match random.below(8) {
                0 => random.number(),
                1 | 2 => far_local(random),
                _ => random.below(5) as u16,
            },
            name: text(random, &NAMES),
        })
        .collect()
}

fn flags(random: &mut Random) -> u16 {
    if random.once_in(4) {
        random.number()
    } else {
        [0, 8, 9, 1][random.below(4)]
    }
}

/// Fields and methods of a solver, behind some others: values of one slot and of two.
fn solver_members(random: &mut Random) -> Vec<Member> {
    let mut members = members(random);
    let mut index = members.last().map_or(0, |member| member.index);
    for descriptor in ["I", "J", "D", "F", "[D", "(D)D", "(DD)V", "(JI)J", "([DI)La/B;", "(B[ZI)V"] {
        index += random.between(1, 3) as u16;
        let is_method = descriptor.starts_with('(');
        let name = if is_method { b"step".to_vec() } else { b"sum".to_vec() };
        members.push(Member { index, is_method, class: b"a/Fit".to_vec(), name, descriptor: descriptor.into() });
    }
    members
}

/// The parts of a case with structure, of what one of the models walks.
fn parts(random: &mut Random) -> Parts {
    let model = if random.once_in(3) { Model::Full } else { Model::Document };
    parts_in(random, model)
}

/// The parts of a case with structure: code ahead, a block of what a model walks that ends in a dereference, code behind.
fn parts_in(random: &mut Random, model: Model) -> Parts {
    let members = if model == Model::Full { solver_members(random) } else { members(random) };
    let (ahead, walked, behind) = match random.below(4) {
        0 => (0, random.below(4), 1),
        1 => (0, random.below(12), random.below(8)),
        _ => (random.below(6), random.below(8), random.below(6)),
    };
    let (code, starts, branches) = (Vec::new(), Vec::new(), Vec::new());
    let mut maker = Maker { model, random, members, code, starts, branches, height: 0 };
    maker.around(ahead);
    if ahead > 0 && !maker.random.once_in(4) {
        let opcode = [167, 153, 198, 200][maker.random.below(4)];
        maker.branch(opcode);
        maker.height = 0;
    }
    for _ in 0..walked {
        maker.walked();
    }
    let mut fault = maker.dereference();
    maker.around(behind);
    maker.resolve(fault);
    let Maker { members, code, starts, .. } = maker;
    match random.below(24) {
        0 => fault = starts[random.below(starts.len())],
        1 => fault = random.below(code.len() + 2),
        _ => {}
    }
    Parts {
        flags: flags(random),
        fault: fault as u16,
        signature: signature(random),
        members,
        records: records(random, code.len()),
        code,
    }
}

fn structured(random: &mut Random) -> Vec<u8> {
    lay_out(&parts_in(random, Model::Document))
}

fn solver_code(random: &mut Random) -> Vec<u8> {
    lay_out(&parts_in(random, Model::Full))
}

fn damaged_code(random: &mut Random) -> Vec<u8> {
    let mut parts = parts(random);
    damage(random, &mut parts.code);
    lay_out(&parts)
}

fn damaged_layout(random: &mut Random) -> Vec<u8> {
    let mut bytes = lay_out(&parts(random));
    damage(random, &mut bytes);
    bytes
}

/// A case in whose methods a `)` was put into names. Where none is cut by that, parameters and returns have the same slots as before.
pub fn parenthesised(random: &mut Random) -> Vec<u8> {
    let mut parts = if random.once_in(2) { parts(random) } else { behind_a_call(random) };
    for member in parts.members.iter_mut().filter(|member| member.is_method) {
        parenthesise(random, &mut member.descriptor);
    }
    lay_out(&parts)
}

/// Uploads of a method that is measured to its end, with one byte of its code damaged: at each place each of three reserved bytes.
pub fn damaged_uploads(random: &mut Random) -> Vec<Vec<u8>> {
    loop {
        let parts = parts(random);
        if is_whole(&parts.code) {
            return damaged_everywhere(&parts);
        }
    }
}

/// Whether a code is measured to its end.
fn is_whole(code: &[u8]) -> bool {
    let mut at = 0;
    while let Measure::Length(length) = measured(code, at) {
        at += length as usize;
    }
    at == code.len()
}

/// The cases with one byte of the code replaced by a reserved one.
pub fn damaged_everywhere(parts: &Parts) -> Vec<Vec<u8>> {
    let mut damaged = parts.clone();
    let mut cases = Vec::new();
    for place in 0..parts.code.len() {
        for byte in [0xca, 0xfe, 0xff] {
            damaged.code[place] = byte;
            cases.push(lay_out(&damaged));
        }
        damaged.code[place] = parts.code[place];
    }
    cases
}

/// Some loads, a static call with its arguments, and a dereference that reaches one of the loads by the slots that the call gives.
fn behind_a_call(random: &mut Random) -> Parts {
    let called = Member::method(1, b"a/B", b"m", &good_method(random));
    let (arguments, _) = Maker::slots(Some(&called));
    let dereferences: [&[u8]; 8] = [&[0xbe], &[0xbf], &[0xc2], &[0x2e], &[0x31], &[0x4f], &[0x50], &[0xb6, 0, 2]];
    let mut code: Vec<u8> = (0..random.between(1, 4) + arguments).map(|_| 0x2a + random.below(4) as u8).collect();
    code.extend([0xb8, 0, 1]);
    let fault = code.len() as u16;
    code.extend(random.pick(&dereferences));
    let members = vec![called, Member::method(2, b"a/B", b"n", &good_method(random))];
    let records = records(random, code.len());
    Parts { flags: flags(random), fault, code, signature: signature(random), members, records }
}

/// Random bytes as a case, and as the code of one.
fn random_bytes(random: &mut Random) -> Vec<u8> {
    if random.once_in(2) {
        let count = random.below(40);
        return random.bytes(count);
    }
    let count = random.below(60);
    let code = random.bytes(count);
    lay_out(&Parts { fault: random.below(count + 2) as u16, code, ..parts(random) })
}

/// A case at some edge.
fn boundary(random: &mut Random) -> Vec<u8> {
    if random.once_in(500) {
        return lay_out(&huge(random));
    }
    if random.once_in(3_000) {
        return longest(random);
    }
    let mut case = parts(random);
    match random.below(18) {
        0 => case.code.clear(),
        1 => case.fault = (case.code.len() + random.below(3)) as u16 - random.below(2).min(case.code.len()) as u16,
        2 => many_dimensions(random, &mut case),
        3 => not_utf8(random, &mut case),
        4 => case.signature = odd_signature(random),
        5 => windows(random, &mut case),
        6 => case.fault = random.number(),
        7 => case.code = odd_switch(random, &mut case.fault),
        8 => case.code = deep(random, &mut case.fault),
        9 => case.code.truncate(usize::from(case.fault) + random.below(4)),
        10 => case.code = into_an_instruction(random, &mut case.fault),
        11 => case.members.iter_mut().for_each(|member| member.name = b"<init>".to_vec()),
        12 => long_names(random, &mut case),
        13 => case.code = odd_array(random, &mut case.fault),
        14 => case.code = odd_wide(random, &mut case.fault),
        15 => wide_at_the_end(random, &mut case),
        16 => many_parameters(random, &mut case),
        _ => case.records.iter_mut().for_each(|record| record.name.clear()),
    }
    lay_out(&case)
}

/// 254 to 257 dimensions in every descriptor.
fn many_dimensions(random: &mut Random, case: &mut Parts) {
    let array =
        [&b"[".repeat(random.between(254, 257))[..], random.pick(&[b"I" as &[u8], b"La/B;", b"J", b"V"])].concat();
    for member in &mut case.members {
        member.descriptor = if member.is_method { [b"(I", &array[..], b")V"].concat() } else { array.clone() };
    }
    case.signature = [b"m:(", &array[..], b"J)V"].concat();
}

/// Bytes that are no UTF-8, in one of the texts.
fn not_utf8(random: &mut Random, case: &mut Parts) {
    let odd = |random: &mut Random, text: &mut Vec<u8>| {
        let at = random.below(text.len() + 1);
        text.insert(at, [0xff, 0x80, 0xc3, 0xed][random.below(4)]);
    };
    odd(random, &mut case.signature);
    for member in &mut case.members {
        match random.below(4) {
            0 => odd(random, &mut member.class),
            1 => odd(random, &mut member.name),
            2 => odd(random, &mut member.descriptor),
            _ => {}
        }
    }
    case.records.iter_mut().for_each(|record| odd(random, &mut record.name));
}

/// One long name, of a record and of a member.
fn long_names(random: &mut Random, case: &mut Parts) {
    let name = vec![b'n'; random.between(120, 260)];
    if !case.records.is_empty() {
        let place = random.below(case.records.len());
        case.records[place] = Record { start: 0, length: 65_535, slot: random.below(4) as u16, name: name.clone() };
    }
    if !case.members.is_empty() {
        let place = random.below(case.members.len());
        case.members[place].name = name;
    }
}

/// Signatures about their colons.
fn odd_signature(random: &mut Random) -> Vec<u8> {
    let odd: [&[u8]; 14] = [
        b"",
        b":",
        b"::",
        b"m:",
        b"m:(",
        b":)I",
        b"m:JI",
        b"m:(I:J)V",
        b"m:(IV",
        b"m:(V)V",
        b"m:(La;",
        b"m:(La",
        b"m:[[I",
        b":(L;J)V",
    ];
    text(random, &odd)
}

/// Windows of length 0, and windows that begin or end at the load.
fn windows(random: &mut Random, case: &mut Parts) {
    let fault = usize::from(case.fault);
    for record in &mut case.records {
        let start = fault.saturating_sub(random.below(5));
        record.start = start as u16;
        record.length = match random.below(4) {
            0 => 0,
            1 => 65_535,
            _ => (fault - start + random.below(2)) as u16,
        };
        record.slot = random.below(4) as u16;
    }
}

/// A switch with odd bounds or counts, ahead of a load and a dereference.
fn odd_switch(random: &mut Random, fault: &mut u16) -> Vec<u8> {
    let edges = [0, 1, 2, -1, i32::MAX, i32::MIN, i32::MAX - 1, i32::MIN + 1, 3, 100_000, 0x2000_0000, 0x4000_0000];
    let mut code = vec![0; random.below(4)];
    let at = code.len();
    let is_table = random.once_in(2);
    code.push(if is_table { 170 } else { 171 });
    code.resize((at + 1).next_multiple_of(4), 0);
    code.extend((random.below(20) as i32).to_be_bytes());
    code.extend(edges[random.below(edges.len())].to_be_bytes());
    if is_table {
        code.extend(edges[random.below(edges.len())].to_be_bytes());
    }
    for _ in 0..random.below(5) {
        code.extend((random.below(40) as i32 - 8).to_be_bytes());
    }
    code.extend([0x2a, 0xbe]);
    *fault = code.len() as u16 - 1;
    if random.once_in(3) {
        code.extend([0xaa, 0, 0, 0]);
    }
    code
}

/// Many slots, then a dereference.
fn deep(random: &mut Random, fault: &mut u16) -> Vec<u8> {
    let count = if random.once_in(60) { random.between(1_000, 3_000) } else { random.below(130) };
    let mut code: Vec<u8> = (0..count).map(|_| [0x2a, 0x2b, 9, 14, 4, 0x59, 0x5c][random.below(7)]).collect();
    code.push([0xbe, 0xbf, 46, 80, 83][random.below(5)]);
    *fault = code.len() as u16 - 1;
    code
}

/// A load under an array of any dimensions, from none to more than there are slots; its instruction may be cut.
fn odd_array(random: &mut Random, fault: &mut u16) -> Vec<u8> {
    let slots = random.below(5);
    let dimensions = [0, 1, 2, 3, 4, 255][random.below(6)];
    let mut code = [&[0x2a][..], &vec![4; slots], &[0xc5, dimensions, 1, dimensions]].concat();
    let cut = code.len() - random.below(4);
    if random.once_in(3) {
        code.truncate(cut);
    }
    code.extend(vec![0x57; random.below(3)]);
    *fault = code.len() as u16;
    if !random.once_in(3) {
        code.push(0xbe);
    }
    code
}

/// `wide` before any opcode, whole or cut at the code's end, below a dereference or another end. A branch may lead to it as an operand,
/// so that the scan measures other instructions than the walk meets.
fn odd_wide(random: &mut Random, fault: &mut u16) -> Vec<u8> {
    let opcode = if random.once_in(3) { random.byte() } else { WIDENED[random.below(WIDENED.len())] };
    let mut code =
        if random.once_in(2) { vec![0xa7, 0, 4, 0x10] } else { vec![0x2a + random.below(4) as u8; random.below(4)] };
    code.extend([0xc4, opcode]);
    let mut operands = far_local(random).to_be_bytes().to_vec();
    if opcode == 132 || random.once_in(8) {
        operands.extend([random.byte(), random.byte()]);
    }
    if random.once_in(3) {
        operands.truncate(random.below(operands.len()));
    }
    code.extend(operands);
    *fault = code.len() as u16;
    if !random.once_in(3) {
        code.push([0xbe, 0xbf, 0xc2][random.below(3)]);
    }
    code
}

/// `wide` as the last byte of a code, an operand to which a branch leads; the byte behind it in the case, the length of the signature, is
/// an opcode that it could widen.
fn wide_at_the_end(random: &mut Random, case: &mut Parts) {
    let opcode = WIDENED[random.below(WIDENED.len())];
    case.code = vec![0xa7, 0, 4, 0x10, 0xc4];
    case.fault = if opcode == 132 { 10 } else { 8 };
    case.signature = vec![b'm'; usize::from(opcode)];
}

/// More than 255 slots of parameters, and a load by `wide` about the last of them.
fn many_parameters(random: &mut Random, case: &mut Parts) {
    let longs = random.between(126, 160);
    case.signature = [b"m:(", &b"J".repeat(longs)[..], b"[I[I)V"].concat();
    let local = (2 * longs - 2 + random.below(6)) as u16;
    let [high, low] = local.to_be_bytes();
    case.code = vec![0xc4, 0x19, high, low, 0xbe];
    case.fault = 4;
}

/// A branch into the operand of an instruction that the walk then reads from there.
fn into_an_instruction(random: &mut Random, fault: &mut u16) -> Vec<u8> {
    let entered = [random.byte(), 0xc5, 0xb3, 0xb5, 0x5d, 0xc4][random.below(6)];
    let mut code = vec![0xa7, 0, 4, 0x10, entered];
    code.extend((0..random.below(3)).map(|_| random.below(60) as u8));
    code.extend([0xbe, 0xb1]);
    *fault = code.len() as u16 - 2;
    code
}

/// One of the last two locals, loaded by `wide` at every fifth index, and the last load dereferenced at the greatest index.
fn last_locals(random: &mut Random, case: &mut Parts) {
    let unit = [0xc4, 0x19, 0xff, [0xff, 0xfe][random.below(2)], 0x57];
    case.code = unit.repeat(65_535 / unit.len());
    case.fault = 65_534;
    case.code[65_534] = 0xbe;
}

/// Tables and texts of the greatest sizes.
fn huge(random: &mut Random) -> Parts {
    let mut case = parts(random);
    match random.below(6) {
        0 => {
            case.flags = 8 * random.below(2) as u16;
            case.code = vec![0x2b, 0xbe];
            case.fault = 1;
            case.records.clear();
            let count = random.between(32_766, 32_769);
            case.signature = [b":(", &b"J".repeat(count)[..], b"IIII"].concat();
        }
        1 => {
            case.members =
                (1..=random.between(2_000, 9_000) as u16).map(|index| Member { index, ..Member::default() }).collect();
        }
        2 => {
            let record = Record { start: 0, length: 65_535, slot: 9, name: b"n".to_vec() };
            case.records = vec![record; random.between(2_000, 9_000)];
        }
        3 => {
            let name = vec![b'x'; random.between(65_534, 65_535)];
            case.records = vec![Record { start: 0, length: 65_535, slot: 0, name }];
            case.code = vec![0x2a, 0xbe];
            case.fault = 1;
        }
        4 => last_locals(random, &mut case),
        _ => {
            case.code = vec![0; random.between(65_530, 65_533)];
            case.code.extend([0x2a, 0xbe]);
            case.fault = case.code.len() as u16 - 1;
            let at = case.code.len() - 5;
            case.code[at..at + 3].copy_from_slice(&[0xa7, 0, 3]);
        }
    }
    case
}

/// A case of the greatest length, or one byte longer.
fn longest(random: &mut Random) -> Vec<u8> {
    let mut case = parts(random);
    case.records = vec![Record { name: vec![b'n'; 65_000], ..Record::default() }; 16];
    let wanted = crate::layout::LONGEST + random.below(2);
    // The last record has three numbers of a byte and a length of two.
    let missing = wanted - lay_out(&case).len() - 5;
    case.records.push(Record { name: vec![b'n'; missing], ..Record::default() });
    lay_out(&case)
}
