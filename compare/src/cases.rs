//! One case on both sides: report, leader, walk, names and lengths.
use crate::book::{Book, Column};
use crate::differences::{length, measured, scan, table, Listed, Table};
use crate::layout::{self, Parts, Record, Wrong};
use crate::model::{Model, MODELS};
use crate::random::Random;
use crate::room::{Asked, Lender};
use crate::rule::{Facts, Kept, Walked};
use crate::sides::{quietly, Build, Checked, Holding, Wrapped};
use crate::wording::{Wording, OTHERS, WORDINGS};
use korsepal::{Answer, Kind, Leader, LocalRecord, Member, Name, Walk};

/// One case in so many is tried with every stack from none to enough, and one with every output.
const ALL_ROOMS: usize = 32;
const ALL_OUTPUTS: usize = 128;

/// Of the faults of a method with more bytes of code than this, one in so many is compared in everything, the others by report
/// and walk.
const LONG_CODE: usize = 2_000;
const WHOLE_FAULTS: usize = 8;

/// The member at a pool index, where it is of a kind.
fn member(parts: &Parts, index: u16, kind: Kind) -> Option<Member> {
    let place = parts.members.binary_search_by_key(&index, |member| member.index).ok()?;
    let found = &parts.members[place];
    (found.is_method == (kind == Kind::Method)).then(|| Member {
        kind,
        class: found.class.clone(),
        name: found.name.clone(),
        descriptor: found.descriptor.clone(),
    })
}

fn local_record(record: &Record) -> LocalRecord {
    LocalRecord { start: record.start, length: record.length, slot: record.slot, name: record.name.clone() }
}

/// What goes through a run.
pub struct Run {
    pub book: Book,
    pub lender: Lender,
    pub random: Random,
    /// The walks of the method at hand.
    kept: Kept,
}

impl Run {
    pub fn new(seed: u64) -> Self {
        Run { book: Book::new(), lender: Lender::default(), random: Random::new(seed), kept: Kept::default() }
    }

    /// Compares the two sides on the bytes of a case.
    pub fn case(&mut self, bytes: &[u8]) {
        match layout::read(bytes) {
            Ok(parts) => self.whole_case(bytes, &parts),
            Err(wrong) => self.broken_case(bytes, wrong),
        }
    }

    /// Compares the two sides on a fault of a method that keeps the layout; the lengths once to a method.
    pub fn fault_of_method(&mut self, bytes: &[u8], first: bool) {
        match layout::read(bytes) {
            Ok(parts) if first => self.whole_case(bytes, &parts),
            Ok(parts) => {
                let facts = Facts::with(&parts, &mut self.kept);
                if parts.code.len() < LONG_CODE || self.random.once_in(WHOLE_FAULTS) {
                    self.fault(bytes, &parts, &facts);
                } else {
                    self.report_and_walk(bytes, &parts, &facts);
                }
            }
            Err(wrong) => self.broken_case(bytes, wrong),
        }
    }

    fn broken_case(&mut self, bytes: &[u8], wrong: Wrong) {
        let (answer, walk, name) = match wrong {
            Wrong::TooLong => (Answer::TooLong, Walk::TooLong, Name::TooLong),
            Wrong::At(at) => {
                let at = at as u64;
                (Answer::Broken { at }, Walk::Broken { at }, Name::Broken { at })
            }
        };
        self.book.count(if wrong == Wrong::TooLong { Column::TooLong } else { Column::Broken });
        let (room, output) = (self.random.below(6), self.random.below(40));
        let (leader, fault) = (self.random.below(6) as u64, self.random.below(9) as u64);
        for model in MODELS {
            for asked in WORDINGS.map(Asked::In).into_iter().chain([Asked::Unnamed]) {
                self.lender.report(&mut self.book, (model, asked), bytes, (room, output), answer);
                self.book.count(Column::Reports);
            }
            self.no_wording(bytes, model, room, output);
            self.lender.walk(&mut self.book, model, bytes, (leader, fault), room, walk);
        }
        self.lender.name(&mut self.book, bytes, leader, fault, output, name);
    }

    fn whole_case(&mut self, bytes: &[u8], parts: &Parts) {
        self.kept = Kept::default();
        self.fault(bytes, parts, &Facts::of(parts));
        self.lengths(bytes, &parts.code);
    }

    /// Everything but the lengths.
    fn fault(&mut self, bytes: &[u8], parts: &Parts, facts: &Facts) {
        let message_panics = self.checked_message(bytes, parts, facts);
        let leader_panics = self.leaders(bytes, parts, facts);
        self.count_facts(parts, facts, message_panics || leader_panics);
        for model in MODELS {
            self.reports(bytes, facts, model);
            self.own_walk(bytes, parts, facts, model);
            self.built_message(bytes, parts, facts, model);
        }
        self.other_walk(bytes, parts, facts);
        self.same_cause(bytes, facts);
        self.names(bytes, parts, facts);
    }

    /// The Rust crate's `build_message_in`, which lays out a case from what a virtual machine has at hand. Its texts are strings.
    fn built_message(&mut self, bytes: &[u8], parts: &Parts, facts: &Facts, model: Model) {
        if facts.holding == Holding::AsItIs {
            let signature = std::str::from_utf8(&parts.signature).expect("it was found to be UTF-8");
            let records: Vec<LocalRecord> = parts.records.iter().map(local_record).collect();
            let lookup = |index: u16, kind: Kind| member(parts, index, kind);
            let fault = usize::from(parts.fault);
            for wording in WORDINGS {
                let manner = model.manner().wording(wording.number());
                let (flags, code) = (parts.flags, &parts.code);
                // Without a wording that the library knows it panics.
                let ours =
                    quietly(|| korsepal::build_message_in(manner, flags, code, signature, lookup, &records, fault));
                let ours = ours.as_ref().map(|message| message.as_deref().map(str::as_bytes));
                let what = format!("build_message, wording {}", wording.number());
                self.book.expect(bytes, &model.named(&what), ours, Some(facts.said(model).message(wording)));
            }
        }
    }

    /// In both models the reports with enough room, and the walk of the case.
    fn report_and_walk(&mut self, bytes: &[u8], parts: &Parts, facts: &Facts) {
        let panics = self.checked_message(bytes, parts, facts);
        self.count_facts(parts, facts, panics);
        for model in MODELS {
            let said = facts.said(model);
            for wording in WORDINGS {
                self.report(bytes, facts, (model, Asked::In(wording)), said.highest(), said.length(wording));
            }
            self.unworded_reports(bytes, facts, model);
            self.own_walk(bytes, parts, facts, model);
        }
        self.same_cause(bytes, facts);
    }

    /// Counts the case by its answer, and the listed differences that hold of it.
    fn count_facts(&mut self, parts: &Parts, facts: &Facts, checked_panics: bool) {
        self.book.count(match facts.answer(Model::Document, Wording::First, usize::MAX, usize::MAX) {
            Answer::Message { kind: 2, .. } => Column::Cause,
            Answer::Message { .. } => Column::Action,
            _ => Column::NoMessage,
        });
        let opcode = parts.code.get(usize::from(parts.fault)).copied();
        let others = [
            (facts.has_cause(Model::Full), Column::FullCause),
            (facts.by_wide(&parts.code), Column::ByWide),
            (facts.wide_cause(&parts.code, usize::from(parts.fault)), Column::WideCause),
            (facts.worded_otherwise(), Column::WordedOtherwise),
            (facts.keeps_the_word(opcode), Column::KeptWord),
        ];
        others.iter().filter(|(holds, _)| *holds).for_each(|(_, column)| self.book.count(*column));
        // Where D6 or D7 holds beside others, another message is counted to it, and a panic to them.
        let differs = facts.wrapped_differs && facts.own_rules();
        let listed = [
            (facts.falling && !facts.wide, Listed::FallingTable, checked_panics, differs),
            (facts.wide, Listed::WideTable, checked_panics, differs),
            (facts.long_signature, Listed::SlotCounter, checked_panics, differs),
            (facts.parenthesis(), Listed::FirstParenthesis, false, facts.wrapped_differs),
            (facts.reserved, Listed::ReservedByte, false, facts.wrapped_differs),
        ];
        for (holds, difference, panics, differs) in listed {
            if holds {
                self.book.listed(difference, panics, differs);
            }
        }
        if facts.holding == Holding::ByteByByte {
            self.book.listed(Listed::NotText, false, false);
        }
    }

    /// The reports in a model: in both wordings, by a call that names none, and in a number that is none.
    fn reports(&mut self, bytes: &[u8], facts: &Facts, model: Model) {
        for wording in WORDINGS {
            self.rooms(bytes, facts, model, wording);
        }
        self.unworded_reports(bytes, facts, model);
        if facts.worded_otherwise() {
            self.between_lengths(bytes, facts, model);
        }
        if model == Model::Full && self.random.once_in(8) {
            let number = OTHERS[1 + self.random.below(OTHERS.len() - 1)];
            let wording = WORDINGS[self.random.below(2)];
            let said = facts.said(model);
            let asked = (model, Asked::Numbered(number, wording));
            self.report(bytes, facts, asked, said.highest(), said.length(wording));
        }
    }

    /// The report in a model and a wording with enough room, with some, and on a share of the cases with every room from none to enough.
    fn rooms(&mut self, bytes: &[u8], facts: &Facts, model: Model, wording: Wording) {
        let asked = (model, Asked::In(wording));
        let (enough, length) = (facts.said(model).highest(), facts.said(model).length(wording));
        let (more, longer) = (self.random.below(3), self.random.below(5));
        self.report(bytes, facts, asked, enough + more, length + longer);
        if self.random.once_in(3) {
            let (room, output) = (self.random.below(enough + 2), self.random.below(length + 2));
            self.report(bytes, facts, asked, room, output);
        }
        if self.random.once_in(ALL_ROOMS) {
            for room in 0..=enough.min(40) + 1 {
                for output in [0, 1, length / 2, length.saturating_sub(1), length, length + 1] {
                    self.report(bytes, facts, asked, room, output);
                }
            }
        }
        if self.random.once_in(ALL_OUTPUTS) && length < 1_000 {
            (0..=length + 1).for_each(|output| self.report(bytes, facts, asked, enough, output));
        }
    }

    /// The call that names no wording, and a number that is none, with enough room or with some.
    fn unworded_reports(&mut self, bytes: &[u8], facts: &Facts, model: Model) {
        let said = facts.said(model);
        let (mut room, mut output) = (said.highest(), said.length(Wording::Second));
        if self.random.once_in(3) {
            (room, output) = (self.random.below(room + 2), self.random.below(output + 2));
        }
        self.report(bytes, facts, (model, Asked::Unnamed), room, output);
        self.no_wording(bytes, model, room, output);
    }

    /// Where the wordings differ, outputs about the length of each.
    fn between_lengths(&mut self, bytes: &[u8], facts: &Facts, model: Model) {
        let said = facts.said(model);
        let [first, second] = WORDINGS.map(|wording| said.length(wording));
        for output in [first - 1, first, second - 1, second] {
            for asked in WORDINGS.map(Asked::In).into_iter().chain([Asked::Unnamed]) {
                self.report(bytes, facts, (model, asked), said.highest(), output);
            }
        }
    }

    /// A number that is no wording is answered by 11, whatever the case.
    fn no_wording(&mut self, bytes: &[u8], model: Model, room: usize, output: usize) {
        let drawn = self.random.next() as u32;
        let number = if drawn > 2 && self.random.once_in(4) { drawn } else { OTHERS[self.random.below(OTHERS.len())] };
        let asked = (model, Asked::Other(number));
        self.lender.report(&mut self.book, asked, bytes, (room, output), Answer::NoWording);
        self.book.count(Column::Reports);
    }

    /// The cause of document 01's model is that of the full one, if there is one and the full one's room is enough.
    fn same_cause(&mut self, bytes: &[u8], facts: &Facts) {
        if facts.has_cause(Model::Document) {
            let rooms = MODELS.map(|model| facts.said(model).highest() + self.random.below(3));
            let wording = WORDINGS[self.random.below(2)];
            let output = facts.said(Model::Document).length(wording);
            self.lender.same_cause(&mut self.book, wording, bytes, rooms, output);
            let less = self.random.below(rooms[1]);
            self.lender.same_cause(&mut self.book, wording, bytes, [rooms[0], less], output);
        }
    }

    /// The checked build's message is the expected one; answers whether it panics, which must be listed.
    fn checked_message(&mut self, bytes: &[u8], parts: &Parts, facts: &Facts) -> bool {
        let listed = facts.falling || facts.wide || facts.long_signature;
        let checked = facts.checked_message(usize::from(parts.fault));
        let panics = checked.is_none();
        self.book.expect_checked(bytes, "message of the checked build", checked, facts.checked_expected(), listed);
        panics
    }

    /// A report in a model, in a wording that is named or not.
    pub fn report(&mut self, bytes: &[u8], facts: &Facts, asked: (Model, Asked), room: usize, output: usize) {
        let expected = match asked.1.wording() {
            Some(wording) => facts.answer(asked.0, wording, room, output),
            None => Answer::NoWording,
        };
        self.lender.report(&mut self.book, asked, bytes, (room, output), expected);
        self.book.count(Column::Reports);
    }

    /// The leader and the scan count of the case's fault and of another, also past the end. Answers whether the checked build
    /// panics.
    fn leaders(&mut self, bytes: &[u8], parts: &Parts, facts: &Facts) -> bool {
        let length = parts.code.len();
        let panics = self.leader(bytes, parts, facts, usize::from(parts.fault));
        let other = match self.random.below(3) {
            0 => self.random.below(length + 1),
            1 => length + self.random.below(70_000),
            _ => usize::MAX >> self.random.below(40),
        };
        self.leader(bytes, parts, facts, other) || panics
    }

    fn leader(&mut self, bytes: &[u8], parts: &Parts, facts: &Facts, fault: usize) -> bool {
        let greatest = usize::try_from(i64::MAX).expect("a usize of 64 bits");
        let scan = scan(&parts.code);
        let leader = scan.rust_leader(fault.min(greatest));
        let theirs = Leader { leader: scan.by_rules(leader).map(|leader| leader as u64), scan: facts.scan as u64 };
        let ours = korsepal::block_leader(&parts.code, fault as u64);
        self.book.expect(bytes, "leader and scan count", ours, theirs);
        let checked = quietly(|| Checked::leader(&parts.code, fault));
        let panics = checked.is_none();
        if matches!(checked, Some(Some(target)) if target > greatest) {
            let wrapped = Wrapped::leader(&parts.code, fault);
            self.book.listed(Listed::HugeFault, false, wrapped != leader);
            self.book.expect(bytes, "a target below 0 is answered", fault > greatest, true);
        } else {
            self.book.expect_checked(bytes, "leader of the checked build", checked, leader, scan.may_panic());
        }
        panics
    }

    /// The walk alone, from the case's leader to its fault.
    fn own_walk(&mut self, bytes: &[u8], parts: &Parts, facts: &Facts, model: Model) {
        if let (Some(leader), Some(walked)) = (facts.leader, &facts.said(model).walked) {
            self.walk(bytes, model, leader, usize::from(parts.fault), walked);
            if model == Model::Document {
                self.checked_walk(bytes, parts, facts, leader, usize::from(parts.fault));
            }
        }
    }

    /// The walk alone, from elsewhere to anywhere, on half of the cases.
    fn other_walk(&mut self, bytes: &[u8], parts: &Parts, facts: &Facts) {
        if self.random.once_in(2) {
            let length = parts.code.len();
            let leader = self.random.below(length + 2);
            let fault = match self.random.below(8) {
                0 if length < 1_000 => self.random.below(length + 8),
                _ => leader + self.random.below(24),
            };
            for model in MODELS {
                self.walk(bytes, model, leader, fault, &facts.walk(model, parts, leader, fault));
            }
            self.checked_walk(bytes, parts, facts, leader, fault);
        }
    }

    /// The walks of a case from a leader to a fault in both models, with just enough room.
    pub fn walks(&mut self, parts: &Parts, leader: usize, fault: usize) {
        let (bytes, facts) = (layout::lay_out(parts), Facts::of(parts));
        for model in MODELS {
            let walked = facts.walk(model, parts, leader, fault);
            let (places, room) = ((leader as u64, fault as u64), walked.highest());
            self.lender.walk(&mut self.book, model, &bytes, places, room, walked.answer(room));
            self.book.count(Column::Walks);
        }
    }

    /// Both builds of the Rust walk alike.
    fn checked_walk(&mut self, bytes: &[u8], parts: &Parts, facts: &Facts, leader: usize, fault: usize) {
        let wrapped = facts.wrapped.walk(&parts.code, leader, fault);
        let checked = quietly(|| facts.checked.walk(&parts.code, leader, fault));
        self.book.expect_checked(bytes, "walk of the checked build", checked, wrapped, false);
    }

    /// A walk in a model with enough room, with none, or with every room from none to enough.
    fn walk(&mut self, bytes: &[u8], model: Model, leader: usize, fault: usize, walked: &Walked) {
        let enough = walked.highest();
        let rooms = match self.random.below(ALL_ROOMS) {
            0 => 0..=enough.min(40) + 1,
            1..=8 => 0..=0,
            _ => enough..=enough,
        };
        for room in rooms {
            let places = (leader as u64, fault as u64);
            self.lender.walk(&mut self.book, model, bytes, places, room, walked.answer(room));
            self.book.count(Column::Walks);
        }
    }

    /// Names of some locals loaded at some indexes, those of the records and their edges before all.
    fn names(&mut self, bytes: &[u8], parts: &Parts, facts: &Facts) {
        for _ in 0..3 {
            let mut local = self.random.below(6) as u16;
            let mut load = self.random.below(parts.code.len() + 2);
            if !parts.records.is_empty() && !self.random.once_in(4) {
                let record = &parts.records[self.random.below(parts.records.len())];
                local = record.slot;
                let edges = [0, usize::from(record.length), usize::from(record.length).saturating_sub(1)];
                load = usize::from(record.start) + edges[self.random.below(3)];
            } else if self.random.once_in(8) {
                local = self.random.number();
            }
            self.name(bytes, facts, local, load);
        }
    }

    fn name(&mut self, bytes: &[u8], facts: &Facts, local: u16, load: usize) {
        let name = facts.holding.release(facts.wrapped.name(local, load));
        let checked = quietly(|| facts.checked.name(local, load)).map(|name| facts.holding.release(name));
        self.book.expect_checked(bytes, "name by the checked build", checked, name.clone(), facts.long_signature);
        let short = self.random.once_in(4);
        let output = if short { self.random.below(name.len() + 1) } else { name.len() + self.random.below(3) };
        let expected =
            if output < name.len() { Name::NoOutput { needed: name.len() as u64 } } else { Name::Named(&name) };
        self.lender.name(&mut self.book, bytes, u64::from(local), load as u64, output, expected);
        self.book.count(Column::Names);
    }

    /// The length at every index of the code, and past its end.
    fn lengths(&mut self, bytes: &[u8], code: &[u8]) {
        for pc in 0..code.len() + 1 {
            let (ours, theirs) = (korsepal::measure(code, pc as u64), measured(code, pc));
            if ours != theirs {
                self.book.expect(bytes, &format!("length at {pc}"), ours, theirs);
            }
            let checked = quietly(|| Checked::length(code, pc));
            let may_panic = table(code, pc) != Table::Plain;
            self.book.expect_checked(bytes, "length by the checked build", checked, length(code, pc), may_panic);
        }
        self.book.add(Column::Lengths, code.len() as u64 + 1);
    }
}
