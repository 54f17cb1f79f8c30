//! What the Rust says of a case, and what follows from it by documents 01 and 02: counts, answers and room.
//!
//! In document 01's model the walk from a leader lands at an index exactly when `simulate_block` reaches it. So its landings, their
//! number and their heights are the Rust's own. In the full model they are those of `full.rs`; action, depth and names are the Rust's.
use crate::differences::{cut_signature, plain_methods, scan};
use crate::full::FullWalk;
use crate::layout::Parts;
use crate::model::Model;
use crate::sides::{quietly, Build, Checked, Held, Holding, Origin, Wrapped};
use crate::wording::{second, stays, Wording};
use korsepal::{Answer, Walk};

/// No instruction of the Rust's walk is longer.
const LONGEST_WALKED: usize = 5;

const WIDE: u8 = 196;

/// The list after a completed instruction.
#[derive(Clone, Copy)]
pub struct Landing {
    /// The index of the instruction.
    pub by: usize,
    /// Where the walk stands then.
    pub place: usize,
    pub height: usize,
}

/// The landings from a leader, as far as they were asked for. Those of a nearer fault are the first of them.
pub struct Landings {
    leader: usize,
    found: Vec<Landing>,
    /// No more follow.
    ended: bool,
}

impl Landings {
    pub fn new(leader: usize) -> Self {
        Landings { leader, found: Vec::new(), ended: false }
    }

    /// Those that were kept, where they are from the same leader.
    fn kept(landings: &mut Option<Self>, leader: usize) -> &mut Self {
        let kept = landings.take().filter(|kept| kept.leader == leader);
        landings.insert(kept.unwrap_or(Landings::new(leader)))
    }

    /// The landings up to the first at or past a fault.
    fn up_to(&mut self, side: &impl Build, code: &[u8], fault: usize) -> &[Landing] {
        let mut at = self.found.last().map_or(self.leader, |landing| landing.place);
        while at < fault && !self.ended {
            let mut places = (1..=LONGEST_WALKED).filter_map(|length| at.checked_add(length));
            let next = places.find_map(|place| Some((place, side.walk(code, self.leader, place)?.len())));
            match next {
                Some((place, height)) => {
                    self.found.push(Landing { by: at, place, height });
                    at = place;
                }
                None => self.ended = true,
            }
        }
        let count = self.found.partition_point(|landing| landing.by < fault);
        &self.found[..count]
    }
}

/// A walk from a leader to a fault.
pub struct Walked {
    /// One to a completed instruction, the one that passes the fault included.
    pub landings: Vec<Landing>,
    /// The slots, bottom first, where the fault is reached; and their cells.
    slots: Option<Vec<Origin>>,
    cells: Option<Vec<u64>>,
}

/// A cell by document 02, request 7, in both models: 0 when opaque, else 1 + 65,536 * load index + local.
fn cell(origin: &Origin) -> u64 {
    match origin {
        None => 0,
        Some((local, load)) => 1 + 65_536 * *load as u64 + u64::from(*local),
    }
}

impl Walked {
    pub fn new(landings: Vec<Landing>, slots: Option<Vec<Origin>>) -> Self {
        let cells = slots.as_ref().map(|slots| slots.iter().map(cell).collect());
        Walked { landings, slots, cells }
    }

    /// The walk of the Rust to a fault, over landings of the same leader and code.
    fn by_rust(side: &impl Build, code: &[u8], landings: &mut Landings, fault: usize) -> Self {
        let leader = landings.leader;
        Walked::new(landings.up_to(side, code, fault).to_vec(), side.walk(code, leader, fault))
    }

    /// The greatest height.
    pub fn highest(&self) -> usize {
        self.landings.iter().map(|landing| landing.height).max().unwrap_or(0)
    }

    /// The index of the first instruction after which the list exceeds a room.
    fn lacking(&self, room: usize) -> Option<u64> {
        let landing = self.landings.iter().find(|landing| landing.height > room)?;
        Some(landing.by as u64)
    }

    /// What the walk alone answers with a room.
    pub fn answer(&self, room: usize) -> Walk<'_> {
        let count = self.landings.len() as u64;
        match (self.lacking(room), &self.cells) {
            (Some(at), _) => Walk::NoRoom { at },
            (None, Some(slots)) => Walk::Done { slots, count },
            (None, None) => Walk::Failed { count },
        }
    }
}

/// Walks of an earlier fault of the method at hand, in both models.
#[derive(Default)]
pub struct Kept {
    landings: Option<Landings>,
    full: Option<FullWalk>,
}

impl Kept {
    fn rust_walk(&mut self, walker: &impl Build, code: &[u8], leader: usize, fault: usize) -> Walked {
        Walked::by_rust(walker, code, Landings::kept(&mut self.landings, leader), fault)
    }

    fn full_walk(&mut self, parts: &Parts, leader: usize, fault: usize) -> Walked {
        FullWalk::kept(&mut self.full, leader, fault).up_to(parts, fault)
    }
}

/// What a case comes to in one of the models: the message in each wording, and the walk.
pub struct Said {
    first: Option<Vec<u8>>,
    second: Option<Vec<u8>>,
    pub walked: Option<Walked>,
}

impl Said {
    pub fn message(&self, wording: Wording) -> Option<&[u8]> {
        match wording {
            Wording::First => self.first.as_deref(),
            Wording::Second => self.second.as_deref(),
        }
    }

    /// The greatest height of the walk.
    pub fn highest(&self) -> usize {
        self.walked.as_ref().map_or(0, Walked::highest)
    }

    /// The bytes that the message takes in a wording, or some.
    pub fn length(&self, wording: Wording) -> usize {
        self.message(wording).map_or(8, <[u8]>::len)
    }
}

/// What the Rust says of a case that keeps its layout, and the rule of the full model.
pub struct Facts {
    pub holding: Holding,
    pub checked: Checked,
    pub wrapped: Wrapped,
    /// The wrapped build over descriptors without a `)` in a name, where the case's own have one.
    plain: Option<Wrapped>,
    /// A table of the scan has high < low, or leaves 32 bits.
    pub falling: bool,
    pub wide: bool,
    /// The scan meets a reserved byte.
    pub reserved: bool,
    /// The slots of the parameters pass 65,535.
    pub long_signature: bool,
    /// The wrapped build's own message, and whether it is another than that of the rules.
    own_message: Option<Vec<u8>>,
    pub wrapped_differs: bool,
    action: Option<Vec<u8>>,
    document: Said,
    full: Said,
    pub scan: usize,
    pub leader: Option<usize>,
}

/// Where the slot at a depth of a walk's list comes from.
fn origin(depth: usize, walked: Option<&Walked>) -> Origin {
    let slots = walked.and_then(|walked| walked.slots.as_deref()).unwrap_or_default();
    slots.len().checked_sub(1 + depth).and_then(|place| slots[place])
}

/// The message put together as `build_message` does, for a walk that stands in for its own.
fn composed(side: &Wrapped, code: &[u8], fault: usize, walked: Option<&Walked>) -> Option<String> {
    let (action, depth) = side.action(code, fault)?;
    Some(match origin(depth, walked) {
        Some((local, load)) => format!("{action} because \"{}\" is null", side.name(local, load)),
        None => action,
    })
}

impl Facts {
    pub fn of(parts: &Parts) -> Self {
        Self::with(parts, &mut Kept::default())
    }

    /// The facts of a case, over walks that an earlier fault of the same method left.
    pub fn with(parts: &Parts, kept: &mut Kept) -> Self {
        let code = &parts.code;
        let fault = usize::from(parts.fault);
        let cut = cut_signature(&parts.signature, parts.flags & 8 != 0);
        let signature = cut.unwrap_or(&parts.signature);
        let held = Held::new(parts, signature);
        let wrapped = Wrapped::over(parts, &held);
        let plain = plain_methods(parts).map(|plain| Wrapped::over(&plain, &Held::new(&plain, signature)));
        let whole = if cut.is_some() { Held::new(parts, &parts.signature) } else { held };
        let checked = Checked::over(parts, &whole);
        let scan = scan(code);
        let leader = scan.by_rules(scan.rust_leader(fault));
        let walker = plain.as_ref().unwrap_or(&wrapped);
        let walked = leader.map(|leader| kept.rust_walk(walker, code, leader, fault));
        let stands_in = scan.wide || scan.reserved || plain.is_some();
        let message = if stands_in { composed(&wrapped, code, fault, walked.as_ref()) } else { wrapped.message(fault) };
        let full = leader.map(|leader| kept.full_walk(parts, leader, fault));
        let full_message = composed(&wrapped, code, fault, full.as_ref());
        let may_differ = stands_in || cut.is_some();
        let own_message = if may_differ { Wrapped::over(parts, &whole).message(fault) } else { message.clone() };
        let holding = whole.holding;
        let opcode = code.get(fault).copied();
        let said = |message: Option<String>, walked| {
            let first = message.map(|text| holding.release(text));
            Said { second: first.as_ref().map(|first| second(opcode, first)), first, walked }
        };
        Facts {
            holding,
            falling: scan.falling,
            wide: scan.wide,
            reserved: scan.reserved,
            long_signature: cut.is_some(),
            wrapped_differs: own_message != message,
            own_message: own_message.map(|message| holding.release(message)),
            action: wrapped.action(code, fault).map(|(action, _)| holding.release(action)),
            document: said(message, walked),
            full: said(full_message, full),
            scan: scan.count,
            leader,
            checked,
            wrapped,
            plain,
        }
    }

    /// A name of a method's parameters has a `)`.
    pub fn parenthesis(&self) -> bool {
        self.plain.is_some()
    }

    /// What the case comes to in a model.
    pub fn said(&self, model: Model) -> &Said {
        match model {
            Model::Document => &self.document,
            Model::Full => &self.full,
        }
    }

    /// The walk from any leader to any fault in a model.
    pub fn walk(&self, model: Model, parts: &Parts, leader: usize, fault: usize) -> Walked {
        let walker = self.plain.as_ref().unwrap_or(&self.wrapped);
        match model {
            Model::Document => Walked::by_rust(walker, &parts.code, &mut Landings::new(leader), fault),
            Model::Full => FullWalk::new(leader).up_to(parts, fault),
        }
    }

    /// Whether the Rust has the same rules: no request of document 02 changed them for such a case.
    pub fn own_rules(&self) -> bool {
        !self.parenthesis() && !self.reserved
    }

    /// The message that the checked build must give where it does not panic.
    pub fn checked_expected(&self) -> Option<Vec<u8>> {
        let expected = if self.own_rules() { &self.document.first } else { &self.own_message };
        expected.clone()
    }

    /// Whether some listed difference holds of the case but those that document 02 asked for.
    pub fn listed(&self) -> bool {
        self.falling || self.wide || self.long_signature || self.holding == Holding::ByteByByte
    }

    /// The message of the checked build: `None` where it panics.
    pub fn checked_message(&self, fault: usize) -> Option<Option<Vec<u8>>> {
        let message = quietly(|| self.checked.message(fault))?;
        Some(message.map(|message| self.holding.release(message)))
    }

    /// Whether a model gives a cause, where there is room.
    pub fn has_cause(&self, model: Model) -> bool {
        let message = &self.said(model).first;
        message.is_some() && self.action != *message
    }

    /// Whether the wordings differ: the fault is a load or a store of byte and boolean arrays.
    pub fn worded_otherwise(&self) -> bool {
        self.document.first != self.document.second
    }

    /// Whether a message has the word of wording 1 where wording 2 must keep it.
    pub fn keeps_the_word(&self, opcode: Option<u8>) -> bool {
        self.full.first.as_deref().is_some_and(|first| stays(opcode, first))
    }

    /// Whether the full model's walk goes on through `wide`.
    pub fn by_wide(&self, code: &[u8]) -> bool {
        let walked = self.full.walked.as_ref();
        walked.is_some_and(|walked| walked.landings.iter().any(|landing| code[landing.by] == WIDE))
    }

    /// Whether the full model's cause was loaded by `wide`.
    pub fn wide_cause(&self, code: &[u8], fault: usize) -> bool {
        let Some((_, depth)) = self.wrapped.action(code, fault) else { return false };
        origin(depth, self.full.walked.as_ref()).is_some_and(|(_, load)| code[load] == WIDE)
    }

    /// What a report answers in a model and a wording, with room for so many slots and bytes.
    pub fn answer(&self, model: Model, wording: Wording, room: usize, output: usize) -> Answer<'_> {
        let said = self.said(model);
        let walked = &said.walked;
        let Some(message) = said.message(wording) else { return Answer::NoMessage };
        if let Some(at) = walked.as_ref().and_then(|walked| walked.lacking(room)) {
            return Answer::NoRoom { at };
        }
        if message.len() > output {
            return Answer::NoOutput { needed: message.len() as u64 };
        }
        Answer::Message {
            text: message,
            kind: if self.has_cause(model) { 2 } else { 1 },
            scan: self.scan as u32,
            block: walked.as_ref().map_or(0, |walked| walked.landings.len() as u32),
        }
    }
}
