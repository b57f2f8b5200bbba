//! Rows of masked writes to one target, by all the ways that lead to it, as the reference takes them; and the single masked
//! write that is to leave the same.

use crate::cases::{Case, Expected};
use crate::masks::Pair;
use crate::messages::{Talk, request};
use crate::rng::Rng;
use crate::tables::{Set, size_of};
use crate::tally;
use crate::targets::{Target, Way, target, ways};
use ciplink_sim::logix::Logix;
use std::collections::BTreeSet;

/// The reply to an accepted masked write.
const ACCEPTED: [u8; 4] = [0xCE, 0, 0, 0];

/// What the clicks of a row go to: a target by any of its ways, or (where there is none) whatever a path leads to.
pub struct Aim {
    /// Of the masks.
    pub size: usize,
    pub target: Option<(Target, Vec<Way>)>,
    path: Vec<u8>,
}

/// A path, and how it was made.
#[derive(Clone, Default)]
pub struct Path {
    pub bytes: Vec<u8>,
    /// Which of the target's ways.
    pub way: usize,
    pub by_id: bool,
}

/// A masked write.
pub struct Click {
    pub path: Path,
    pub pair: Pair,
    pub reply: Vec<u8>,
}

/// Messages between the clicks, which left tag memory as it was; and those that did not, and were taken back.
#[derive(Clone, Copy, Default)]
pub struct Between {
    pub reads: u64,
    pub refused: u64,
    pub others: u64,
    pub taken_back: u64,
}

/// A row as the reference took it.
pub struct Row {
    pub aim: Aim,
    /// The accepted ones; where the first was refused, all of them.
    pub clicks: Vec<Click>,
    pub between: Between,
    /// All messages with their replies, for a printed difference.
    pub sent: Vec<[Vec<u8>; 2]>,
    /// What the single one goes by, and the limit of the first and of the single one.
    pub single: Path,
    limit: usize,
    /// Tag memory before and afterwards.
    pub before: Vec<u8>,
    pub after: Vec<u8>,
}

impl Row {
    pub fn accepted(&self) -> bool {
        self.clicks[0].reply == ACCEPTED
    }

    /// How many there are of something that the clicks have.
    pub fn different<T: Ord>(&self, of: impl Fn(&Click) -> T) -> usize {
        self.clicks.iter().map(of).collect::<BTreeSet<T>>().len()
    }

    /// Whether two of the clicks went by ways of which this holds.
    pub fn by_two_ways(&self, holds: impl Fn(&Way, &Way) -> bool) -> bool {
        let Some((_, ways)) = &self.aim.target else { return false };
        let used: Vec<&Way> = self.clicks.iter().map(|click| &ways[click.path.way]).collect();
        used.iter().any(|a| used.iter().any(|b| holds(a, b)))
    }

    /// The case of a masked write by the path of the single one, which is answered as the first click was.
    pub fn case(&self, pair: &Pair, after: &[u8], entry: &mut Rng) -> Case {
        Case {
            message: request(0x4E, &self.single.bytes, &pair.data()),
            limit: self.limit,
            room: self.limit.max(8) + entry.below(4) as usize,
            fill: entry.byte() | 1,
            expected: Expected::Replied(self.clicks[0].reply.clone()),
            before: self.before.clone(),
            after: after.to_vec(),
        }
    }
}

/// A controller of the reference, with tag memory as it has it.
pub struct Plant<'a> {
    set: &'a Set,
    talk: Talk<'a>,
    logix: Logix,
    memory: Vec<u8>,
}

impl<'a> Plant<'a> {
    pub fn new(set: &'a Set, rng: &'a mut Rng) -> Self {
        let logix = Logix::from_rows(&set.tables, set.flags, &set.memory);
        Plant { set, talk: Talk::new(set, rng, 65_535), logix, memory: set.memory.clone() }
    }

    // ---- where a row goes

    /// Mostly a target that takes masks.
    fn aim(&mut self) -> Aim {
        for _ in 0..6 {
            let aim = if self.talk.rng.chance(95) { self.aim_at_target() } else { None };
            let Some(aim) = aim else { continue };
            let path = self.path(&aim);
            if self.takes(&path, aim.size) || self.talk.rng.chance(5) {
                return aim;
            }
        }
        self.aim_anywhere()
    }

    fn aim_at_target(&mut self) -> Option<Aim> {
        let t = &self.set.tables;
        let target = target(t, self.talk.rng)?;
        let ways = ways(t, target);
        // there is none where each has too many steps
        let found = !ways.is_empty();
        found.then(|| Aim { size: target.size as usize, target: Some((target, ways)), path: Vec::new() })
    }

    /// Any path of the generator, mostly with masks of the size that it leads to.
    fn aim_anywhere(&mut self) -> Aim {
        loop {
            let (path, aim) = self.talk.tag_path();
            let size = match size_of(&self.set.tables, aim.ty) {
                size @ (1 | 2 | 4 | 8) if self.talk.rng.chance(70) => size,
                _ => *self.talk.rng.pick(&[1, 2, 4, 8]),
            };
            if tally::in_domain(&request(0x4E, &path, &[])) {
                return Aim { size: size as usize, target: None, path };
            }
        }
    }

    fn path(&mut self, aim: &Aim) -> Path {
        let Some((target, ways)) = &aim.target else {
            return Path { bytes: aim.path.clone(), ..Path::default() };
        };
        let flags = self.set.flags;
        let way = self.talk.rng.below(ways.len() as u32) as usize;
        let by_id = self.talk.rng.chance(if flags.instance_ids && !flags.micro800 { 35 } else { 1 });
        Path { bytes: self.talk.path(target.tag, &ways[way], by_id), way, by_id }
    }

    /// Whether the reference takes masks by this path; zeros with all ones, which change nothing.
    fn takes(&mut self, path: &Path, size: usize) -> bool {
        let message = request(0x4E, &path.bytes, &Pair::neutral(size).data());
        self.logix.answer(&message, 504) == ACCEPTED
    }

    fn limit(&mut self) -> usize {
        match self.talk.rng.below(60) {
            0 => 65_535,
            _ => *self.talk.rng.pick(&[0, 3, 4, 7, 8, 9, 100, 504, 511]),
        }
    }

    // ---- a row

    /// Two to six clicks, one after the other, and now and then something between them.
    pub fn row(&mut self) -> Row {
        let aim = self.aim();
        let path = self.path(&aim);
        let (single, limit, before) = (path.clone(), self.limit(), self.memory.clone());
        let mut row = Row {
            aim,
            clicks: Vec::new(),
            between: Between::default(),
            sent: Vec::new(),
            single,
            limit,
            before,
            after: Vec::new(),
        };
        self.click(&mut row, path, limit);
        for _ in 1..self.talk.rng.within(2, 6) {
            while self.talk.rng.chance(20) {
                self.between(&mut row);
            }
            self.next_click(&mut row);
        }
        row.single = self.single(&row);
        self.logix.store(&self.set.tables, &mut self.memory);
        row.after = self.memory.clone();
        row
    }

    fn send(&mut self, row: &mut Row, message: Vec<u8>, limit: usize) -> Vec<u8> {
        let reply = self.logix.answer(&message, limit);
        row.sent.push([message, reply.clone()]);
        reply
    }

    /// Sends a click. One that is refused behind an accepted one counts as a message between.
    fn click(&mut self, row: &mut Row, path: Path, limit: usize) -> bool {
        let pair = Pair::random(self.talk.rng, row.aim.size);
        let reply = self.send(row, request(0x4E, &path.bytes, &pair.data()), limit);
        let counts = row.clicks.first().is_none_or(|first| first.reply == reply);
        match counts {
            true => row.clicks.push(Click { path, pair, reply }),
            false => row.between.refused += 1,
        }
        counts
    }

    /// A click by any way; by the first one's path where it is refused, and in a row whose first click was refused.
    fn next_click(&mut self, row: &mut Row) {
        let (path, limit) = (self.path(&row.aim), self.limit());
        if row.accepted() && self.click(row, path, limit) {
            return;
        }
        let path = row.clicks[0].path.clone();
        let limit = row.limit;
        self.click(row, path, limit);
    }

    /// What the single one goes by: any way that the reference takes masks by, else that of the first click.
    fn single(&mut self, row: &Row) -> Path {
        let path = self.path(&row.aim);
        match row.accepted() && self.takes(&path, row.aim.size) {
            true => path,
            false => row.clicks[0].path.clone(),
        }
    }

    // ---- between the clicks

    /// Sends a message that should leave tag memory as it was; where it does not, it is taken back.
    fn between(&mut self, row: &mut Row) {
        let t = &self.set.tables;
        let message = self.other(row);
        self.logix.store(t, &mut self.memory);
        let limit = self.limit();
        let reply = self.send(row, message, limit);
        let mut now = self.memory.clone();
        self.logix.store(t, &mut now);
        if now != self.memory {
            self.logix.load(t, &self.memory);
            row.sent.pop();
            row.between.taken_back += 1;
            return;
        }
        let between = &mut row.between;
        *match (reply[0], reply[2]) {
            (0xCC | 0xD2, 0 | 6) => &mut between.reads,
            (_, 0 | 6) => &mut between.others,
            _ => &mut between.refused,
        } += 1;
    }

    fn other(&mut self, row: &Row) -> Vec<u8> {
        let path = self.path(&row.aim).bytes;
        match self.talk.rng.below(6) {
            0 => request(0x4C, &path, &[1, 0]),
            1 => self.cut_short(&path, row.aim.size),
            2 => self.mistaken(&path),
            3 => self.rewritten(&path),
            _ => self.any_message(),
        }
    }

    /// A masked write with its last byte missing, or a byte too many.
    fn cut_short(&mut self, path: &[u8], size: usize) -> Vec<u8> {
        let mut data = Pair::random(self.talk.rng, size).data();
        match self.talk.rng.chance(80) {
            true => drop(data.pop()),
            false => data.push(self.talk.rng.byte()),
        }
        request(0x4E, path, &data)
    }

    /// A write that is refused: of a type that there is not, or of no element.
    fn mistaken(&mut self, path: &[u8]) -> Vec<u8> {
        let start = *self.talk.rng.pick(&[[0xC0, 0, 1, 0], [0xC4, 0, 0, 0]]);
        let bytes = self.talk.rng.bytes(4);
        request(0x4D, path, &[&start[..], &bytes].concat())
    }

    /// A write of the bytes that are there; the read of them where that is refused.
    fn rewritten(&mut self, path: &[u8]) -> Vec<u8> {
        let read = request(0x4C, path, &[1, 0]);
        let reply = self.logix.answer(&read, 65_535);
        if reply[2] != 0 {
            return read;
        }
        let header = if reply[4..6] == [0xA0, 0x02] { 8 } else { 6 };
        request(0x4D, path, &[&reply[4..header], &[1, 0], &reply[header..]].concat())
    }

    fn any_message(&mut self) -> Vec<u8> {
        loop {
            let message = self.talk.message();
            if tally::in_domain(&message) {
                return message;
            }
        }
    }
}
