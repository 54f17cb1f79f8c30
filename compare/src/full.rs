//! The rule of the full model's walk: document 02, requests 1 and 7, over the stack effects that JVMS 6.5 lists. Written apart from
//! the library and its tables; the Rust has no such walk. Of the Rust only the length of an instruction is taken.
use crate::layout::{Member, Parts};
use crate::rule::{Landing, Walked};
use crate::sides::{Build, Origin, Wrapped};
use crate::slots;
use std::sync::LazyLock;

/// The operands that opcodes take from the stack, and the results that they push: from the opcode named on, one word to each. Before
/// the `>` stand the types of the operands, behind it those of the results, the last on top. J and D take two slots, all others one.
const TYPED: [(u8, &str); 18] = [
    // nop, aconst_null, iconst_m1 to iconst_5, lconst, fconst and dconst
    (0, "> >A >I >I >I >I >I >I >I >J >J >F >F >F >D >D"),
    // bipush, sipush; ldc and ldc_w, of whatever type that takes one slot; ldc2_w
    (16, ">I >I >A >A >J"),
    // iload to dload
    (21, ">I >J >F >D"),
    // iload_0 to dload_3
    (26, ">I >I >I >I >J >J >J >J >F >F >F >F >D >D >D >D"),
    // iaload to saload
    (46, "AI>I AI>J AI>F AI>D AI>A AI>I AI>I AI>I"),
    // istore to astore
    (54, "I> J> F> D> A>"),
    // istore_0 to astore_3
    (59, "I> I> I> I> J> J> J> J> F> F> F> F> D> D> D> D> A> A> A> A>"),
    // iastore to sastore
    (79, "AII> AIJ> AIF> AID> AIA> AII> AII> AII>"),
    // add, sub, mul, div and rem, each of int, long, float and double
    (96, "II>I JJ>J FF>F DD>D II>I JJ>J FF>F DD>D II>I JJ>J FF>F DD>D II>I JJ>J FF>F DD>D II>I JJ>J FF>F DD>D"),
    // neg
    (116, "I>I J>J F>F D>D"),
    // shl, shr and ushr, each of int and long: the distance is an int
    (120, "II>I JI>J II>I JI>J II>I JI>J"),
    // and, or and xor, each of int and long
    (126, "II>I JJ>J II>I JJ>J II>I JJ>J"),
    // iinc
    (132, ">"),
    // i2l to i2s
    (133, "I>J I>F I>D J>I J>F J>D F>I F>J F>D D>I D>J D>F I>I I>I I>I"),
    // lcmp, fcmpl, fcmpg, dcmpl, dcmpg
    (148, "JJ>I FF>I FF>I DD>I DD>I"),
    // new, newarray, anewarray, arraylength
    (187, ">A I>A I>A A>I"),
    // checkcast, which by document 01 keeps the list and asks for no slot; instanceof
    (192, "> A>I"),
    // monitorenter, monitorexit
    (194, "A> A>"),
];

/// What pop to swap carry along, in each form that JVMS gives: a small letter is a value of one slot, a capital one of two, the last
/// on top.
const CARRYING: [(u8, &[&str]); 9] = [
    (87, &["a>"]),
    (88, &["ba>", "A>"]),
    (89, &["a>aa"]),
    (90, &["ba>aba"]),
    (91, &["cba>acba", "Ba>aBa"]),
    (92, &["ba>baba", "A>AA"]),
    (93, &["cba>bacba", "bA>AbA"]),
    (94, &["dcba>badcba", "cbA>AcbA", "Cba>baCba", "BA>ABA"]),
    (95, &["ba>ab"]),
];

const ILOAD: u8 = 21;
const ALOAD: u8 = 25;
const ALOAD_0: u8 = 42;
const ALOAD_3: u8 = 45;
const ISTORE: u8 = 54;
const ASTORE: u8 = 58;
const IINC: u8 = 132;
const GETSTATIC: u8 = 178;
const PUTSTATIC: u8 = 179;
const GETFIELD: u8 = 180;
const PUTFIELD: u8 = 181;
const INVOKEVIRTUAL: u8 = 182;
const INVOKESTATIC: u8 = 184;
const INVOKEINTERFACE: u8 = 185;
const WIDE: u8 = 196;
const MULTIANEWARRAY: u8 = 197;

/// What an instruction does: the slots that it takes, and what it puts in their place.
#[derive(Clone)]
struct Effect {
    taken: usize,
    put: Put,
}

#[derive(Clone)]
enum Put {
    Opaque(usize),
    /// The load of a local.
    Load(u16),
    /// Slots that were taken, by their places from the lowest.
    Carried(Vec<usize>),
}

impl Effect {
    fn opaque(taken: usize, put: usize) -> Self {
        Effect { taken, put: Put::Opaque(put) }
    }

    fn load(local: u16) -> Self {
        Effect { taken: 0, put: Put::Load(local) }
    }
}

/// The slots of some types.
fn slots_of(types: &str) -> usize {
    types.chars().map(|letter| if "JD".contains(letter) { 2 } else { 1 }).sum()
}

/// The effect that a word of `TYPED` says.
fn typed(word: &str) -> Effect {
    let (operands, results) = word.split_once('>').expect("a word has both");
    Effect::opaque(slots_of(operands), slots_of(results))
}

/// The effect of a form of `CARRYING`, slot by slot.
fn carrying(form: &str) -> Effect {
    let (operands, results) = form.split_once('>').expect("a form has both");
    let width = |value: char| if value.is_uppercase() { 2 } else { 1 };
    let mut places = Vec::new();
    for result in results.chars() {
        let below: usize = operands.chars().take_while(|&operand| operand != result).map(width).sum();
        places.extend(below..below + width(result));
    }
    Effect { taken: operands.chars().map(width).sum(), put: Put::Carried(places) }
}

/// The effect that all forms of an opcode have: slots bear no types, and JVMS's forms come to the same.
fn carried(forms: &[&str]) -> Effect {
    let effect = carrying(forms[0]);
    let same = |form: &&str| match (&effect.put, carrying(form)) {
        (Put::Carried(places), Effect { taken, put: Put::Carried(others) }) => {
            effect.taken == taken && *places == others
        }
        _ => false,
    };
    assert!(forms.iter().all(same), "the forms {forms:?} differ");
    effect
}

/// The effects that the opcode alone decides.
static FIXED: LazyLock<Vec<Option<Effect>>> = LazyLock::new(|| {
    let mut effects = vec![None; 256];
    for (first, words) in TYPED {
        for (place, word) in words.split(' ').enumerate() {
            effects[usize::from(first) + place] = Some(typed(word));
        }
    }
    for (opcode, forms) in CARRYING {
        effects[usize::from(opcode)] = Some(carried(forms));
    }
    for opcode in ALOAD_0..=ALOAD_3 {
        effects[usize::from(opcode)] = Some(Effect::load(u16::from(opcode - ALOAD_0)));
    }
    effects
});

/// The slots taken and put by an opcode whose effect hangs on no operand but a local.
pub fn slots(opcode: u8) -> Option<(usize, usize)> {
    if opcode == ALOAD {
        return Some((0, 1));
    }
    let Effect { taken, put } = FIXED[usize::from(opcode)].as_ref()?;
    let put = match put {
        Put::Opaque(count) => *count,
        Put::Load(_) => 1,
        Put::Carried(places) => places.len(),
    };
    Some((*taken, put))
}

/// The member that the instruction at an index cites, if it is of the kind.
fn cited(parts: &Parts, pc: usize, is_method: bool) -> Option<&Member> {
    let index = u16::from_be_bytes([*parts.code.get(pc + 1)?, *parts.code.get(pc + 2)?]);
    let place = parts.members.binary_search_by_key(&index, |member| member.index).ok()?;
    Some(&parts.members[place]).filter(|member| member.is_method == is_method)
}

fn field_effect(parts: &Parts, pc: usize, opcode: u8) -> Option<Effect> {
    let value = slots::of_field(&cited(parts, pc, false)?.descriptor);
    Some(match opcode {
        GETSTATIC => Effect::opaque(0, value),
        PUTSTATIC => Effect::opaque(value, 0),
        GETFIELD => Effect::opaque(1, value),
        _ => Effect::opaque(1 + value, 0),
    })
}

fn call_effect(parts: &Parts, pc: usize, opcode: u8) -> Option<Effect> {
    let (arguments, given) = slots::of_method(&cited(parts, pc, true)?.descriptor)?;
    let receiver = usize::from(opcode != INVOKESTATIC);
    Some(Effect::opaque(receiver + arguments, given))
}

/// Whether the walk goes on through `wide` before an opcode: loads, stores and `iinc`. JVMS has `ret` besides, which no walk models.
pub fn widens(opcode: u8) -> bool {
    matches!(opcode, ILOAD..=ALOAD | ISTORE..=ASTORE | IINC)
}

/// The effect of `wide` at an index: that of what it widens, whose local has two bytes.
fn wide_effect(parts: &Parts, pc: usize) -> Option<Effect> {
    match *parts.code.get(pc + 1)? {
        ALOAD => Some(Effect::load(u16::from_be_bytes([*parts.code.get(pc + 2)?, *parts.code.get(pc + 3)?]))),
        opcode if widens(opcode) => FIXED[usize::from(opcode)].clone(),
        _ => None,
    }
}

/// The effect of the instruction at an index; `None` where it is not modelled, is cut, or cites what is not there.
fn effect(parts: &Parts, pc: usize) -> Option<Effect> {
    match *parts.code.get(pc)? {
        ALOAD => Some(Effect::load(u16::from(*parts.code.get(pc + 1)?))),
        WIDE => wide_effect(parts, pc),
        opcode @ GETSTATIC..=PUTFIELD => field_effect(parts, pc, opcode),
        opcode @ INVOKEVIRTUAL..=INVOKEINTERFACE => call_effect(parts, pc, opcode),
        // An array of no dimension is refused.
        MULTIANEWARRAY => {
            let dimensions = usize::from(*parts.code.get(pc + 3)?);
            (dimensions > 0).then(|| Effect::opaque(dimensions, 1))
        }
        opcode => FIXED[usize::from(opcode)].clone(),
    }
}

/// The bytes of the modelled instruction at an index, of which only those that its effect reads need be there. The byte behind the opcode
/// bears on them where that is `wide`.
fn length(code: &[u8], pc: usize) -> usize {
    let widened = code.get(pc + 1).copied().unwrap_or(0);
    Wrapped::length(&[code[pc], widened, 0, 0, 0, 0], 0).expect("no modelled instruction has more than six bytes")
}

/// A walk from a leader, as far as it was asked for. That to a nearer fault is the first part of it.
pub struct FullWalk {
    leader: usize,
    at: usize,
    list: Vec<Origin>,
    landings: Vec<Landing>,
    /// The instruction where it stands fails.
    ended: bool,
}

impl FullWalk {
    pub fn new(leader: usize) -> Self {
        FullWalk { leader, at: leader, list: Vec::new(), landings: Vec::new(), ended: false }
    }

    /// The one that was kept, where it has the same leader and went no further than to a fault.
    pub fn kept(kept: &mut Option<Self>, leader: usize, fault: usize) -> &mut Self {
        let before = |walk: &Self| walk.landings.last().is_none_or(|last| last.by < fault);
        let same = kept.take().filter(|walk| walk.leader == leader && before(walk));
        kept.insert(same.unwrap_or(FullWalk::new(leader)))
    }

    /// The walk to a fault, which lies no nearer than those asked for before.
    pub fn up_to(&mut self, parts: &Parts, fault: usize) -> Walked {
        while self.at < fault && !self.ended {
            self.ended = self.step(parts).is_none();
        }
        let reached = self.at == fault;
        Walked::new(self.landings.clone(), reached.then(|| self.list.clone()))
    }

    /// Completes the next instruction; `None` where it fails.
    fn step(&mut self, parts: &Parts) -> Option<()> {
        let Effect { taken, put } = effect(parts, self.at)?;
        let taken = self.list.split_off(self.list.len().checked_sub(taken)?);
        match put {
            Put::Opaque(count) => self.list.resize(self.list.len() + count, None),
            Put::Load(local) => self.list.push(Some((local, self.at))),
            Put::Carried(places) => self.list.extend(places.iter().map(|&place| taken[place])),
        }
        let next = self.at + length(&parts.code, self.at);
        self.landings.push(Landing { by: self.at, place: next, height: self.list.len() });
        self.at = next;
        Some(())
    }
}
