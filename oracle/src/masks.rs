//! The masks of masked writes: pairs of them as a panel sends them, and joined, by the port and by the formula.

use crate::ciplink;
use crate::findings::hex;
use crate::lent::Lent;
use crate::rng::Rng;

/// The OR and the AND masks of a masked write; of one length, save where the port is to refuse them.
#[derive(Clone, Debug, Default, PartialEq, Eq)]
pub struct Pair {
    pub ors: Vec<u8>,
    pub ands: Vec<u8>,
}

impl Pair {
    /// Zeros with all ones, which change nothing.
    pub fn neutral(size: usize) -> Pair {
        Pair { ors: vec![0; size], ands: vec![0xFF; size] }
    }

    /// A bit set, cleared or neither, as a panel does it; or any bytes.
    pub fn random(rng: &mut Rng, size: usize) -> Pair {
        let (sets, clears) = match rng.below(10) {
            0 => (false, false),
            1 | 2 => (true, false),
            3 | 4 => (false, true),
            5 => (true, true),
            _ => return Pair::any(rng, [size as u32; 2]),
        };
        let mut pair = Pair::neutral(size);
        let mut place = || rng.below(size as u32) as usize;
        let places = [place(), place()];
        if sets {
            pair.ors[places[0]] = 1 << rng.below(8);
        }
        if clears {
            pair.ands[places[1]] = !(1 << rng.below(8));
        }
        pair
    }

    /// Bytes of these lengths, a good share of them 00 and FF, or with one bit set or cleared.
    pub fn any(rng: &mut Rng, [ors, ands]: [u32; 2]) -> Pair {
        Pair { ors: some(rng, ors), ands: some(rng, ands) }
    }

    /// The masks of a single masked write that leaves what this one and the next leave, by the request's formula.
    pub fn then(&self, next: &Pair) -> Pair {
        let ors = self.ors.iter().zip(&next.ors).map(|(o1, o2)| o1 | o2).collect();
        let nexts = next.ors.iter().zip(&next.ands);
        Pair { ors, ands: self.ands.iter().zip(nexts).map(|(a1, (o2, a2))| (a1 | o2) & a2).collect() }
    }

    /// The size and both masks, as a request carries them.
    pub fn data(&self) -> Vec<u8> {
        [&(self.ors.len() as u16).to_le_bytes()[..], &self.ors, &self.ands].concat()
    }

    pub fn shown(&self) -> String {
        format!("{} / {}", hex(&self.ors), hex(&self.ands))
    }

    fn lengths(&self) -> [usize; 2] {
        [self.ors.len(), self.ands.len()]
    }
}

fn some(rng: &mut Rng, length: u32) -> Vec<u8> {
    let one = |_| match rng.below(8) {
        0 | 1 => 0x00,
        2 | 3 => 0xFF,
        4 => 1 << rng.below(8),
        5 => !(1 << rng.below(8)),
        _ => rng.next() as u8,
    };
    (0..length).map(one).collect()
}

/// The port's `ciplink_join_masks`, on masks between guards.
#[derive(Default)]
pub struct Joiner {
    ors: Lent,
    ands: Lent,
    next_ors: Lent,
    next_ands: Lent,
    /// Calls with equal lengths and with others.
    pub joined: u64,
    pub unequal: u64,
}

impl Joiner {
    /// What the port makes of two pairs; what differs from what is due goes to `wrong`.
    pub fn join(&mut self, first: &Pair, next: &Pair, wrong: &mut Vec<String>) -> Pair {
        let equal = first.lengths() == next.lengths() && first.ors.len() == first.ands.len();
        *(if equal { &mut self.joined } else { &mut self.unequal }) += 1;
        let due = if equal { &first.then(next) } else { first };
        let (told, found) = self.call(first, next);
        let two = || format!("{} and {}", first.shown(), next.shown());
        if (told, &found) != (u32::from(equal), due) {
            let due = format!("{}, {}", u32::from(equal), due.shown());
            wrong.push(format!("{}\n    expected {due}\n    the port {told}, {}", two(), found.shown()));
        }
        if !self.kept(next) {
            wrong.push(format!("{}\n    other bytes were written", two()));
        }
        found
    }

    /// What the port answers, and the first pair afterwards.
    fn call(&mut self, first: &Pair, next: &Pair) -> (u32, Pair) {
        self.ors.take(&first.ors);
        self.ands.take(&first.ands);
        self.next_ors.take(&next.ors);
        self.next_ands.take(&next.ands);
        let (ors, ands) = (self.ors.get(), self.ands.get());
        let told = ciplink::join_masks(ors, ands, self.next_ors.get(), self.next_ands.get());
        (told, Pair { ors: ors.to_vec(), ands: ands.to_vec() })
    }

    /// Whether the next pair, and the bytes beside all four masks, are as they were.
    fn kept(&mut self, next: &Pair) -> bool {
        let guarded = [&self.ors, &self.ands, &self.next_ors, &self.next_ands].iter().all(|mask| mask.guarded());
        guarded && self.next_ors.get() == next.ors && self.next_ands.get() == next.ands
    }

    /// Three pairs give the same whichever two are joined first, and zeros with all ones change nothing.
    pub fn laws(&mut self, [a, b, c]: [&Pair; 3], wrong: &mut Vec<String>) {
        let (first_two, last_two) = (self.join(a, b, wrong), self.join(b, c, wrong));
        let (from_left, from_right) = (self.join(&first_two, c, wrong), self.join(a, &last_two, wrong));
        if from_left != from_right {
            let three = [a, b, c].map(Pair::shown).join(" and ");
            wrong.push(format!("{three}: {} or {}", from_left.shown(), from_right.shown()));
        }
        let neutral = Pair::neutral(a.ors.len());
        let (before, behind) = (self.join(&neutral, a, wrong), self.join(a, &neutral, wrong));
        if before != *a || behind != *a {
            wrong.push(format!("{} with zeros and ones: {} or {}", a.shown(), before.shown(), behind.shown()));
        }
    }
}
