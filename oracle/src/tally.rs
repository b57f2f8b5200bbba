//! Which item of document 01's dispatch answered a request, and with which status: counted.

use ciplink_sim::logix::oracle::{Shape, parts, shape};
use std::collections::BTreeMap;

/// Classes with objects of their own in the reference, outside document 01's domain.
const OUTSIDE: [u32; 6] = [0x01, 0x64, 0x8B, 0xAC, 0xB2, 0x349];

/// Whether a message, and each part of an envelope, is inside document 01's domain.
pub fn in_domain(message: &[u8]) -> bool {
    let outside = matches!(shape(message), Shape::Object(c, _) if OUTSIDE.contains(&c));
    !outside && parts(message).is_none_or(|p| p.iter().all(|m| in_domain(m)))
}

#[derive(Default)]
pub struct Tally {
    /// Requests by (in an envelope, item, status, first extended word).
    counts: BTreeMap<(bool, u8, u8, Option<u16>), u64>,
    services: BTreeMap<u8, u64>,
    /// Entry refusals by their number less 1.
    refused: [u64; 4],
}

/// The statuses that document 01 names for each item, and those of an accepted request.
const NAMED: [(u8, &[(u8, Option<u16>)]); 16] = [
    (5, &[(0x04, None)]),
    (6, &[(0x08, None)]),
    (7, &[(0x13, None)]),
    (8, &[(0x11, None), (0x1E, None), (0, None)]),
    (9, &[(0x05, None)]),
    (10, &[(0x05, None)]),
    (11, &[(0x13, None), (0, None)]),
    (12, &[(0x13, None), BEYOND, (0x11, None), (0x06, None), (0, None)]),
    (13, &[(0x05, None), (0x13, None), (0x14, None), (0x11, None), (0x06, None), (0, None)]),
    (14, &[(0x04, None), (0x05, None)]),
    (15, &[(0x0F, Some(0x2100))]),
    (16, &[(0x13, None), BEYOND, (0x03, None), (0x06, None), (0, None)]),
    (17, &[(0x13, None), MISMATCH, (0x03, None), BEYOND, (0x15, None), (0, None)]),
    (18, &[(0x13, None), (0x15, None), MISMATCH, (0, None)]),
    (19, &[(0x08, None), (0x05, None)]),
    (20, &[(0x11, None)]),
];
const BEYOND: (u8, Option<u16>) = (0xFF, Some(0x2105));
const MISMATCH: (u8, Option<u16>) = (0xFF, Some(0x2107));
/// The services that document 01 names.
const SERVICES: [u8; 8] = [0x03, 0x0A, 0x4C, 0x4D, 0x4E, 0x52, 0x53, 0x55];

fn shown((general, word): (u8, Option<u16>)) -> String {
    word.map_or(format!("{general:02X}"), |w| format!("{general:02X}/{w:04X}"))
}

/// General status and first extended word of a reply.
fn status(reply: &[u8]) -> (u8, Option<u16>) {
    let word = (reply[3] > 0).then(|| u16::from_le_bytes([reply[4], reply[5]]));
    (reply[2], word)
}

/// The item that answered; an accepted request counts for the item that would have turned it away.
fn item(message: &[u8], status: u8, micro800: bool) -> u8 {
    let service = message.first().copied().unwrap_or(0);
    match (shape(message), service, status) {
        (Shape::Malformed, _, _) => 5,
        (Shape::Object(0x02, 1), 0x0A, 0x08) => 6,
        (Shape::Object(0x02, 1), 0x0A, 0x13) => 7,
        (Shape::Object(0x02, 1), 0x0A, _) => 8,
        (Shape::Object(0x6B, _), 0x03, 0x11) if !micro800 => 20,
        (Shape::Object(0x6B, _), 0x03, 0x05) if !micro800 => 9,
        (Shape::Object(0x6B, _), 0x03, _) if !micro800 => 11,
        (Shape::Object(0x6C, _), 0x03, 0x11) => 20,
        (Shape::Object(0x6C, _), 0x03 | 0x4C, 0x05) => 10,
        (Shape::Object(0x6C, _), 0x03, _) => 11,
        (Shape::Object(0x6C, _), 0x4C, _) => 12,
        (_, 0x55, _) => 13,
        (Shape::Tag, 0x4C | 0x52 | 0x4D | 0x53 | 0x4E, 0x04 | 0x05) => 14,
        (Shape::Tag, 0x4C | 0x52 | 0x4D | 0x53 | 0x4E, 0x0F) => 15,
        (Shape::Tag, 0x4C | 0x52, _) => 16,
        (Shape::Tag, 0x4D | 0x53, _) => 17,
        (Shape::Tag, 0x4E, _) => 18,
        (_, _, 0x11) => 20,
        _ => 19,
    }
}

impl Tally {
    pub fn note(&mut self, message: &[u8], reply: &[u8], micro800: bool) {
        *self.services.entry(message.first().copied().unwrap_or(0)).or_default() += 1;
        self.count(false, message, reply, micro800);
        let (general, _) = status(reply);
        if !(general == 0 || general == 0x1E) {
            return;
        }
        let Some(parts) = parts(message) else { return };
        for (i, part) in parts.iter().enumerate() {
            let offset = |i: usize| usize::from(u16::from_le_bytes([reply[6 + 2 * i], reply[7 + 2 * i]]));
            let end = if i + 1 < parts.len() { 4 + offset(i + 1) } else { reply.len() };
            // a nested envelope is refused before its path is read: none of the items
            if part.first() != Some(&0x0A) {
                self.count(true, part, &reply[4 + offset(i)..end], micro800);
            }
        }
    }

    fn count(&mut self, inside: bool, message: &[u8], reply: &[u8], micro800: bool) {
        let (general, extended) = status(reply);
        let key = (inside, item(message, general, micro800), general, extended);
        *self.counts.entry(key).or_default() += 1;
    }

    /// Counts an entry refusal.
    pub fn note_refused(&mut self, number: u32) {
        self.refused[number as usize - 1] += 1;
    }

    /// The messages that were answered, and those that were refused.
    pub fn messages(&self) -> (u64, u64) {
        (self.services.values().sum(), self.refused.iter().sum())
    }

    pub fn print_refused(&self) {
        let list: Vec<String> = (1..).zip(self.refused).map(|(number, n)| format!("{number}: {n}")).collect();
        println!("refused by entry item {}", list.join("  "));
    }

    pub fn print(&self) {
        for inside in [false, true] {
            println!("{}", if inside { "parts of envelopes" } else { "messages" });
            for wanted in 5..=20 {
                let of_it = self.counts.iter().filter(|((i, item, ..), _)| (*i, *item) == (inside, wanted));
                let total: u64 = of_it.clone().map(|(_, n)| n).sum();
                let list: Vec<String> =
                    of_it.map(|((_, _, g, w), n)| format!("  {} {n}", shown((*g, *w)))).collect();
                println!("  item {wanted:2}: {total:>9} {}", list.concat());
            }
        }
        let mut statuses = BTreeMap::new();
        for ((_, _, general, word), count) in &self.counts {
            *statuses.entry((*general, *word)).or_insert(0) += count;
        }
        let statuses: Vec<String> = statuses.iter().map(|(s, n)| format!("{} {n}", shown(*s))).collect();
        println!("statuses, parts too: {}", statuses.join("  "));
        let services: Vec<String> =
            SERVICES.iter().map(|s| format!("{s:02X} {}", self.services.get(s).unwrap_or(&0))).collect();
        let rest: u64 = self.services.iter().filter(|(s, _)| !SERVICES.contains(s)).map(|(_, n)| n).sum();
        println!("services: {}  others {rest}", services.join("  "));
        let missing: Vec<String> = NAMED
            .iter()
            .flat_map(|(item, named)| named.iter().map(|s| (*item, *s)))
            .filter(|(item, s)| !self.counts.contains_key(&(false, *item, s.0, s.1)))
            .map(|(item, s)| format!("item {item} {}", shown(s)))
            .collect();
        match missing.is_empty() {
            true => println!("every status that document 01 names for items 5 to 20 occurred"),
            false => println!("did not occur in a message of its own: {}", missing.join(", ")),
        }
    }
}
