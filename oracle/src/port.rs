//! Sends cases to the port, linked from its archive, and holds the outcome, every byte of the buffer and of tag memory, and
//! the bytes beside both to what is due.

use crate::broken::Kind;
use crate::cases::{Case, Expected};
use crate::ciplink::{self, Asked, REFUSED};
use crate::findings::hex;
use crate::lent::{Lent, pattern};
use crate::tables::Set;

#[derive(Default)]
pub struct Port {
    memory: Lent,
    buffer: Lent,
    expected: Vec<u8>,
    /// Messages that went through `ciplink_message` and through `ciplink_answer`.
    pub judged: u64,
    pub answered: u64,
}

/// What came of a case.
pub struct Held {
    due: u64,
    told: u64,
    pub same: bool,
    /// The function that it went through.
    pub through: &'static str,
}

impl Port {
    /// One message: the outcome, the buffer and tag memory afterwards. It goes through `ciplink_message`, which judges the
    /// tables anew, if it is `judged` or due a refusal.
    pub fn hold(&mut self, set: &Set, case: &Case, judged: bool) -> Held {
        let asked = Asked { tables: &set.tables, flags: set.flags, request: &case.message, limit: case.limit };
        self.memory.take(&case.before);
        self.buffer.fill(case.room, case.fill);
        let due = self.due(case);
        let judged = judged || due >= REFUSED;
        let told = match judged {
            true => ciplink::message(asked, self.memory.get(), self.buffer.get()),
            // sound: the case is due a reply, and `ciplink_valid` took the tables
            false => unsafe { ciplink::answer(asked, self.memory.get(), self.buffer.get()) },
        };
        *(if judged { &mut self.judged } else { &mut self.answered }) += 1;
        let same = told == due
            && self.buffer.get() == &self.expected[..]
            && self.memory.get() == &case.after[..]
            && self.buffer.guarded()
            && self.memory.guarded();
        Held { due, told, same, through: if judged { "ciplink_message" } else { "ciplink_answer" } }
    }

    /// The outcome that is due; the bytes that are due of the buffer are kept.
    fn due(&mut self, case: &Case) -> u64 {
        self.expected.clear();
        let due = match &case.expected {
            Expected::Refused(number) => REFUSED + u64::from(*number),
            Expected::Replied(reply) => {
                self.expected.extend(reply);
                self.expected.resize(case.limit.max(8), 0);
                reply.len() as u64
            }
        };
        let kept = self.expected.len()..case.room;
        self.expected.extend(kept.map(|at| pattern(case.fill, at)));
        due
    }

    /// Prints the case that was sent last.
    pub fn show(&mut self, case: &Case, held: &Held) {
        println!("  request   {}", short(&case.message));
        println!("  limit     {}, buffer of {} bytes", case.limit, case.room);
        println!("  expected  {}", outcome(held.due, &self.expected));
        println!("  the port: {}", outcome(held.told, self.buffer.get()));
        show_difference("buffer", &self.expected, self.buffer.get());
        show_difference("tag memory", &case.after, self.memory.get());
        if !(self.buffer.guarded() && self.memory.guarded()) {
            println!("  bytes beside the buffer or tag memory were written");
        }
        println!("  tag memory before   {}", short(&case.before));
        if case.before != case.after {
            println!("  tag memory, as due  {}", short(&case.after));
        }
    }
}

/// Bytes in hex, the middle of very many left out.
pub fn short(bytes: &[u8]) -> String {
    match bytes.len() {
        0..=2000 => hex(bytes),
        n => format!("{} .. ({n} bytes) .. {}", hex(&bytes[..1000]), hex(&bytes[n - 200..])),
    }
}

fn outcome(number: u64, buffer: &[u8]) -> String {
    match number.checked_sub(REFUSED) {
        Some(refusal) => format!("refused by entry item {refusal}"),
        None => {
            let reply = &buffer[..buffer.len().min(number as usize)];
            format!("a reply of {number} bytes: {}", short(reply))
        }
    }
}

fn show_difference(what: &str, due: &[u8], found: &[u8]) {
    let differs = due.iter().zip(found).position(|(a, b)| a != b);
    if let Some(at) = differs {
        let some = |bytes: &[u8]| hex(&bytes[at..bytes.len().min(at + 20)]);
        println!("  {what} from byte {at}: expected {} found {}", some(due), some(found));
    }
}

/// Prints the tables of a set, and what was broken in them.
pub fn show_tables(set: &Set, broken: Option<&Kind>) {
    if let Some(kind) = broken {
        println!("  tables broken: {}", kind.what);
    }
    match set.tables.tags.len() {
        0..=40 => println!("  tables {:X?}", set.tables),
        n => println!("  tables those of the seed, with {n} tags"),
    }
}
