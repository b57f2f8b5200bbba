//! The cases of a table set: the reference's answers, and the entry refusals that document 01 alone decides.

use crate::broken::{Kind, broken};
use crate::messages::Talk;
use crate::rng::Rng;
use crate::tables::{self, Set};
use crate::{tally, valid};
use ciplink_sim::logix::Logix;

pub enum Expected {
    /// An entry number: nothing is written.
    Refused(u32),
    Replied(Vec<u8>),
}

pub struct Case {
    pub message: Vec<u8>,
    pub limit: usize,
    /// The reply buffer before: this many times this byte.
    pub room: usize,
    pub fill: u8,
    pub expected: Expected,
    /// Tag memory before and afterwards.
    pub before: Vec<u8>,
    pub after: Vec<u8>,
}

impl Case {
    pub fn reply(&self) -> &[u8] {
        match &self.expected {
            Expected::Refused(_) => &[],
            Expected::Replied(reply) => reply,
        }
    }
}

/// What to generate.
#[derive(Clone, Copy)]
pub struct Wanted {
    pub messages: usize,
    /// Limits stay at or below this.
    pub most: usize,
    /// Of a hundred messages, how many are refused at the entry.
    pub refused: u32,
    /// Messages and buffers of 65,535 bytes and more are among them, and tables broken by their size.
    pub long: bool,
}

/// A table set with its cases, each starting from the tag memory that the one before it left; and what was broken
/// in the tables, if they were (then each case is refused).
pub struct Run {
    pub set: Set,
    pub cases: Vec<Case>,
    pub broken: Option<&'static Kind>,
}

/// The longest message and the largest limit that the entry lets pass.
const MOST: usize = 65_535;

/// The small valid table set of a seed and the reference's answers on it.
pub fn run(seed: u64, wanted: Wanted) -> Run {
    let mut rng = Rng::new(seed);
    let set = sound(seed, tables::set(&mut rng));
    let mut cases = Vec::with_capacity(wanted.messages);
    talk(&set, &mut rng, &mut Rng::new(!seed), wanted, |case| cases.push(case));
    Run { set, cases, broken: None }
}

/// A generated set, held to T1 to T6.
pub fn sound(seed: u64, set: Set) -> Set {
    if let Err(what) = valid::valid(&set.tables, &set.memory) {
        panic!("seed {seed}: the generated tables break a rule: {what}");
    }
    set
}

/// Makes the cases of a valid table set, each starting from the tag memory that the one before it left: `rng` gives
/// messages and limits, `entry` buffers and refusals. Answers how many reads, template reads and symbol pages went on to
/// their end.
pub fn talk(set: &Set, rng: &mut Rng, entry: &mut Rng, wanted: Wanted, mut each: impl FnMut(Case)) -> [u64; 4] {
    let mut logix = Logix::from_rows(&set.tables, set.flags, &set.memory);
    let mut memory = set.memory.clone();
    let mut talk = Talk::new(set, rng, wanted.most);
    let mut made = 0;
    while made < wanted.messages {
        let mut message = talk.message();
        if wanted.long && entry.below(2000) == 0 {
            message.resize(MOST - entry.below(2) as usize, entry.byte());
        }
        if !tally::in_domain(&message) {
            continue;
        }
        made += 1;
        if entry.chance(wanted.refused) {
            each(refused(entry, message, &memory, false, wanted.long));
            continue;
        }
        let limit = talk.limit(|| {
            let whole = logix.answer(&message, MOST).len();
            logix.load(&set.tables, &memory);
            whole
        });
        let reply = logix.answer(&message, limit);
        talk.heard(&reply);
        let before = memory.clone();
        logix.store(&set.tables, &mut memory);
        let room = limit.max(8) + entry.below(4) as usize;
        let (fill, after) = (entry.byte() | 1, memory.clone());
        let expected = Expected::Replied(reply);
        each(Case { message, limit, room, fill, expected, before, after });
    }
    talk.finished
}

/// The same set broken in one place: refused with number 4, unless the message, the limit or the buffer comes first.
pub fn run_broken(seed: u64, set: &Set, long: bool) -> Run {
    let mut rng = Rng::new(seed ^ 0x5EED);
    let (kind, set) = broken(&mut rng, set, long);
    let mut cases = Vec::new();
    for _ in 0..2 {
        let mut other = Rng::new(rng.next());
        let message = Talk::new(&set, &mut other, 100).message_of_any_tables();
        cases.push(refused(&mut rng, message, &set.memory, true, long));
    }
    Run { set, cases, broken: Some(kind) }
}

/// A case that the entry refuses: message or limit above 65,535, buffer below max(8, limit), tables broken, in this order.
fn refused(rng: &mut Rng, mut message: Vec<u8>, memory: &[u8], broken: bool, long: bool) -> Case {
    if long && rng.chance(25) {
        message.resize(MOST + rng.within(1, 3) as usize, rng.byte());
    }
    let limit = match rng.below(5) {
        0 => *rng.pick(&[65_536, 65_537, 1_000_000]),
        _ => *rng.pick(&[0, 4, 7, 8, 9, 60]),
    };
    let enough = limit.max(8);
    let otherwise = broken || message.len() > MOST || long && limit > MOST;
    let room = match otherwise && rng.chance(80) && enough < if long { 100_000 } else { 1000 } {
        true => enough + rng.below(3) as usize,
        false => rng.below(enough.min(60) as u32) as usize,
    };
    let number = match (message.len() > MOST, limit > MOST, room < enough) {
        (true, _, _) => 1,
        (false, true, _) => 2,
        (false, false, true) => 3,
        (false, false, false) => 4,
    };
    Case {
        message,
        limit,
        room,
        fill: rng.byte() | 1,
        expected: Expected::Refused(number),
        before: memory.to_vec(),
        after: memory.to_vec(),
    }
}
