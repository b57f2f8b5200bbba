//! Generates requests for a table set that reach deep into the services, their near misses, and reply limits.

use crate::paths::Aim;
use crate::rng::Rng;
use crate::tables::{ATOMICS, Set, size_of};

/// A request that a status 0x06 lets go on.
#[derive(Clone)]
enum Again {
    /// `opened`: by a 0x4C.
    Read { path: Vec<u8>, elements: u16, offset: u32, opened: bool },
    Template { path: Vec<u8>, offset: u32, wanted: u16 },
    Page { prefix: Vec<u8>, attributes: Vec<u16> },
}

/// The requests of one table set, in order.
pub struct Talk<'a> {
    pub set: &'a Set,
    pub rng: &'a mut Rng,
    /// Limits stay at or below this.
    most: usize,
    sent: Option<Again>,
    next: Option<(Vec<u8>, Again)>,
    /// Whether the request at hand goes on from a status 0x06.
    going_on: bool,
    /// Reads, those of them that a 0x4C opened, template reads and symbol pages that went on to their end.
    pub finished: [u64; 4],
    /// The limit decides about the request at hand: it is to be close to the reply's length.
    tight: bool,
}

pub fn request(service: u8, path: &[u8], data: &[u8]) -> Vec<u8> {
    [&[service, (path.len() / 2) as u8], path, data].concat()
}

fn le16(n: u32) -> [u8; 2] {
    (n as u16).to_le_bytes()
}

impl<'a> Talk<'a> {
    pub fn new(set: &'a Set, rng: &'a mut Rng, most: usize) -> Self {
        Talk { set, rng, most, sent: None, next: None, going_on: false, finished: [0; 4], tight: false }
    }

    /// The next request.
    pub fn message(&mut self) -> Vec<u8> {
        (self.sent, self.tight, self.going_on) = (None, false, false);
        if let Some((message, again)) = self.next.take().filter(|_| self.rng.chance(85)) {
            (self.sent, self.going_on) = (Some(again), true);
            return message;
        }
        let message = match self.rng.below(100) {
            0..=13 => self.envelope(),
            _ => self.single(),
        };
        if self.rng.chance(5) {
            self.sent = None;
            return self.bent(message);
        }
        message
    }

    /// A request that does not look into the tables, which may be broken.
    pub fn message_of_any_tables(&mut self) -> Vec<u8> {
        let path = match self.rng.chance(50) {
            true => self.symbol(b"Count"),
            false => self.object(0x6B, 0),
        };
        request(*self.rng.pick(&[0x4C, 0x55, 0x03]), &path, &[1, 0])
    }

    /// A reply limit; `whole` tells the length of the reply at a very large one.
    pub fn limit(&mut self, whole: impl FnOnce() -> usize) -> usize {
        let limit = match self.rng.below(20) {
            0..=13 if self.tight => (whole() + 1).saturating_sub(self.rng.below(14) as usize),
            0..=5 => *self.rng.pick(&[100, 500, 100, 250]),
            6..=8 => self.rng.below(13) as usize,
            9..=12 => whole() + 1 - self.rng.below(3) as usize,
            13 | 14 => (whole() + 5).saturating_sub(self.rng.below(10) as usize),
            15 | 16 => self.rng.below(whole() as u32 + 2) as usize,
            17 | 18 => (4 * self.rng.within(1, 20) + self.rng.below(3) - 1) as usize,
            _ => *self.rng.pick(&[65_535, 4002, 504, 511]),
        };
        limit.min(self.most)
    }

    /// Looks at a reply: after a 0x06 the next request may go on from there.
    pub fn heard(&mut self, reply: &[u8]) {
        let Some(again) = self.sent.take() else { return };
        if self.going_on && reply.get(2) == Some(&0) {
            match again {
                Again::Read { opened, .. } => {
                    self.finished[0] += 1;
                    self.finished[1] += u64::from(opened);
                }
                Again::Template { .. } => self.finished[2] += 1,
                Again::Page { .. } => self.finished[3] += 1,
            }
        }
        if reply.get(2) != Some(&0x06) {
            return;
        }
        self.next = match again {
            Again::Read { path, elements, offset, opened } => {
                let header = if reply[4..6] == [0xA0, 0x02] { 8 } else { 6 };
                let offset = offset + (reply.len() - header) as u32;
                let data = [&elements.to_le_bytes()[..], &offset.to_le_bytes()].concat();
                Some((request(0x52, &path, &data), Again::Read { path, elements, offset, opened }))
            }
            Again::Template { path, offset, wanted } => {
                let got = reply.len() - 4;
                // what was sent may have been changed in a byte, so that more came than was wanted here
                let (offset, wanted) = (offset + got as u32, wanted.saturating_sub(got as u16));
                let data = [&offset.to_le_bytes()[..], &wanted.to_le_bytes()].concat();
                Some((request(0x4C, &path, &data), Again::Template { path, offset, wanted }))
            }
            Again::Page { prefix, attributes } => {
                let start = last_id(&reply[4..], &attributes).wrapping_add(1);
                let message = page(&prefix, start, &attributes);
                Some((message, Again::Page { prefix, attributes }))
            }
        };
    }

    fn single(&mut self) -> Vec<u8> {
        match self.rng.below(100) {
            0..=24 => self.read(),
            25..=44 => self.write(),
            45..=51 => self.masked(),
            52..=62 => self.attributes(),
            63..=71 => self.template(),
            72..=86 => self.symbols(),
            87..=96 => self.other(),
            _ => self.noise(),
        }
    }

    // ---- tag services ----

    fn count(&mut self, aim: &Aim) -> u32 {
        match self.rng.below(20) {
            0..=6 => 1,
            7..=13 => aim.count,
            14 | 15 => self.rng.within(1, aim.count.max(1)),
            16 => 0,
            17 | 18 => aim.count + 1,
            _ => *self.rng.pick(&[2, 255, 256, 65_535]),
        }
    }

    fn offset(&mut self, total: u32) -> u32 {
        match self.rng.below(20) {
            0..=9 => 0,
            10..=12 => self.rng.below(total),
            13 | 14 => self.rng.below(total) & !3,
            15 => total.wrapping_sub(1),
            16 | 17 => total,
            18 => total + 1,
            _ => *self.rng.pick(&[0xFFFF_FFFF, 0x1_0000, 1]),
        }
    }

    /// Now and then cuts the data or puts a byte behind it.
    fn nearly(&mut self, mut data: Vec<u8>) -> Vec<u8> {
        match self.rng.below(25) {
            0 => data.truncate(self.rng.below(data.len() as u32 + 1) as usize),
            1 => drop(data.pop()),
            2 => data.push(self.rng.byte()),
            _ => {}
        }
        data
    }

    fn read(&mut self) -> Vec<u8> {
        let (path, aim) = self.aimed_path(30);
        let elements = self.count(&aim);
        if self.rng.chance(50) {
            self.sent = Some(Again::Read { path: path.clone(), elements: elements as u16, offset: 0, opened: true });
            let mut data = self.nearly(le16(elements).to_vec());
            if self.rng.chance(15) {
                // four bytes that would be an offset, were this a 0x52
                data.extend(self.rng.below(20).to_le_bytes());
            }
            return request(0x4C, &path, &data);
        }
        let total = size_of(&self.set.tables, aim.ty).saturating_mul(elements);
        let offset = self.offset(total);
        self.sent = Some(Again::Read { path: path.clone(), elements: elements as u16, offset, opened: false });
        let data = [&le16(elements)[..], &offset.to_le_bytes()].concat();
        let data = self.nearly(data);
        request(0x52, &path, &data)
    }

    fn type_field(&mut self, aim: &Aim) -> Vec<u8> {
        let t = &self.set.tables;
        let handle = aim.ty.checked_sub(0x100).map(|i| t.structures[i as usize][3]);
        match (self.rng.below(20), handle) {
            (0, _) => vec![*self.rng.pick(&ATOMICS) as u8, 0],
            (1, Some(h)) => [[0xA0, 0x02], le16(h ^ 1)].concat(),
            (1, None) => [[0xA0, 0x02], le16(self.rng.below(0x1_0000))].concat(),
            (2, _) => vec![aim.ty as u8, *self.rng.pick(&[1, 2, 0xFF])],
            (3, _) => vec![0xA0, *self.rng.pick(&[0, 2])],
            (_, Some(h)) => [[0xA0, 0x02], le16(h)].concat(),
            (_, None) => vec![aim.ty as u8, 0],
        }
    }

    fn write(&mut self) -> Vec<u8> {
        let (path, aim) = self.aimed_path(40);
        let fragmented = self.rng.chance(45);
        let mut data = self.type_field(&aim);
        let elements = self.count(&aim);
        data.extend(le16(elements));
        let total = size_of(&self.set.tables, aim.ty).saturating_mul(elements);
        let mut length = total.min(300);
        if fragmented {
            let offset = self.offset(total);
            data.extend(offset.to_le_bytes());
            let left = total.saturating_sub(offset).min(300);
            length = if self.rng.chance(50) { left } else { self.rng.below(left + 1) };
        }
        if aim.bit && length == 1 {
            data.push(*self.rng.pick(&[0, 0, 1, 1, 2, 0x80, 0xFE, 0xFF]));
        } else {
            data.extend(self.rng.bytes(length));
        }
        let data = self.nearly(data);
        request(if fragmented { 0x53 } else { 0x4D }, &path, &data)
    }

    fn masked(&mut self) -> Vec<u8> {
        let (path, aim) = self.tag_path();
        let size = match self.rng.below(10) {
            0 => *self.rng.pick(&[0, 1, 2, 3, 4, 8, 16]),
            _ => size_of(&self.set.tables, aim.ty).min(100),
        };
        let mut data = le16(size).to_vec();
        data.extend(self.rng.bytes(2 * size));
        let data = self.nearly(data);
        request(0x4E, &path, &data)
    }

    // ---- lists, templates, pages ----

    /// Attribute numbers, as a list with its count.
    fn list(&mut self, numbers: &[u16]) -> Vec<u8> {
        let count = match self.rng.below(30) {
            0 => numbers.len() as u32 + 1,
            1 => (numbers.len() as u32).saturating_sub(1),
            _ => numbers.len() as u32,
        };
        let data = counted(count, numbers);
        self.nearly(data)
    }

    /// A symbol's ID in a scope, or one beside it.
    fn near_id(&mut self, scope: u32) -> u32 {
        let t = &self.set.tables;
        let tags = t.tags.iter().filter(|r| r[0] == scope).map(|r| r[3]);
        let others = t.others.iter().filter(|r| r[0] == scope).map(|r| r[3]);
        let ids: Vec<u32> = tags.chain(others).collect();
        if ids.is_empty() || self.rng.chance(15) {
            return *self.rng.pick(&[0, 1, 2, 0xFF, 0x1_0000, 0xFFFF_FFFF]);
        }
        let id = *self.rng.pick(&ids);
        id.wrapping_add(*self.rng.pick(&[0, 0, 0, 0, 1, 0xFFFF_FFFF]))
    }

    /// A controller symbol's ID, often that of an other symbol that may be named as a program.
    fn symbol_id(&mut self) -> u32 {
        let prefixed = |o: &&[u32; 5]| o[0] == 0 && o[2] > 8;
        let ids: Vec<u32> = self.set.tables.others.iter().filter(prefixed).map(|o| o[3]).collect();
        match ids.is_empty() || self.rng.chance(50) {
            true => self.near_id(0),
            false => *self.rng.pick(&ids),
        }
    }

    fn template_id(&mut self) -> u32 {
        let t = &self.set.tables;
        match t.structures.is_empty() || self.rng.chance(8) {
            true => *self.rng.pick(&[0, 1, 0x100, 0xFFFF, 0x1_0100]),
            false => self.rng.pick(&t.structures)[2],
        }
    }

    fn attributes(&mut self) -> Vec<u8> {
        let symbols = self.rng.chance(50);
        let mut path = match symbols {
            true => {
                let id = self.symbol_id();
                self.object(0x6B, id)
            }
            false => {
                let id = self.template_id();
                self.object(0x6C, id)
            }
        };
        if self.rng.chance(6) {
            path.extend(self.odd_segment());
        }
        let known: &[u16] = if symbols { &[0x0D, 0x0D, 1, 2] } else { &[1, 2, 4, 5, 3, 1, 5] };
        let numbers: Vec<u16> = (0..self.rng.below(6))
            .map(|_| match self.rng.chance(90) {
                true => *self.rng.pick(known),
                false => self.rng.next() as u16,
            })
            .collect();
        let data = self.list(&numbers);
        request(0x03, &path, &data)
    }

    fn template(&mut self) -> Vec<u8> {
        let id = self.template_id();
        let t = &self.set.tables;
        let length = t.structures.iter().find(|s| s[2] == id).map_or(0, |s| s[9]);
        let path = self.object(0x6C, id);
        let offset = if self.rng.chance(70) { self.offset(length) } else { 0 };
        let left = length.saturating_sub(offset);
        let wanted = match self.rng.below(6) {
            0 => 0,
            1 => self.rng.below(left + 2),
            2 => left + 1,
            3 => 65_535,
            _ => left,
        };
        self.sent = Some(Again::Template { path: path.clone(), offset, wanted: wanted as u16 });
        let data = [&offset.to_le_bytes()[..], &le16(wanted)].concat();
        let data = self.nearly(data);
        request(0x4C, &path, &data)
    }

    fn symbols(&mut self) -> Vec<u8> {
        let scope = self.rng.below(self.set.tables.programs.len() as u32 + 1);
        let prefix = self.prefix(scope);
        let start = if self.rng.chance(60) { 0 } else { self.near_id(scope) };
        let class = if self.rng.chance(95) { 0x6B } else { *self.rng.pick(&[0x6C, 2, 0x16B, 0x68]) };
        let mut path = [prefix.clone(), self.object(class, start)].concat();
        if self.rng.chance(4) {
            path.extend(self.odd_segment());
        }
        let attributes: Vec<u16> = (0..*self.rng.pick(&[0, 1, 2, 2, 3, 4, 8]))
            .map(|_| match self.rng.chance(98) {
                true => *self.rng.pick(&[1, 2, 3, 5, 6, 7, 8, 10]),
                false => *self.rng.pick(&[0, 4, 9, 11, 0x101]),
            })
            .collect();
        let data = self.list(&attributes);
        if data == counted(attributes.len() as u32, &attributes) && class == 0x6B {
            self.sent = Some(Again::Page { prefix, attributes });
        }
        request(0x55, &path, &data)
    }

    // ---- envelopes and the rest ----

    /// A part with a long reply before parts with short ones, for which room is kept.
    fn long_then_short(&mut self) -> Vec<Vec<u8>> {
        self.tight = true;
        let first = match self.rng.below(4) {
            0 => self.symbols(),
            1 => self.template(),
            _ => self.read(),
        };
        let mut parts = vec![first];
        for _ in 0..self.rng.within(1, 3) {
            parts.push(if self.rng.chance(70) { self.write() } else { self.noise() });
        }
        parts
    }

    fn envelope(&mut self) -> Vec<u8> {
        let parts = if self.rng.chance(25) { self.long_then_short() } else { self.parts() };
        self.sent = None;
        let mut data = self.joined(&parts);
        if self.rng.chance(10) {
            data = self.nearly(data);
        }
        let (class, instance) = match self.rng.below(30) {
            0 => (2, 2),
            1 => (0x102, 1),
            _ => (2, 1),
        };
        let mut path = self.object(class, instance);
        if self.rng.chance(3) {
            path.extend(self.odd_segment());
        }
        request(0x0A, &path, &data)
    }

    fn parts(&mut self) -> Vec<Vec<u8>> {
        let tiny = self.rng.chance(12);
        let count = if tiny { self.rng.below(16) } else { *self.rng.pick(&[0, 1, 1, 2, 2, 3, 4]) };
        (0..count)
            .map(|_| match self.rng.below(20) {
                0 => Vec::new(),
                1 => vec![0x0A],
                2 => vec![0x0A, 0x02, 0x20, 0x02, 0x24, 0x01, 0, 0],
                _ if tiny => {
                    let length = self.rng.below(3);
                    self.rng.bytes(length)
                }
                3 => self.noise(),
                _ => self.single(),
            })
            .collect()
    }

    /// Count, offsets and parts; now and then an offset is wrong, or bytes stand between the parts.
    fn joined(&mut self, parts: &[Vec<u8>]) -> Vec<u8> {
        let mut offsets = Vec::new();
        let mut body = Vec::new();
        for part in parts {
            if self.rng.chance(2) {
                body.push(0);
            }
            offsets.push((2 + 2 * parts.len() + body.len()) as u32);
            body.extend(part);
        }
        if !offsets.is_empty() && self.rng.chance(8) {
            let which = self.rng.below(offsets.len() as u32) as usize;
            offsets[which] = match self.rng.below(5) {
                0 => (2 + 2 * parts.len() + body.len()) as u32 + self.rng.below(2),
                1 => 1 + 2 * parts.len() as u32,
                2 => offsets[which] + 1,
                3 => offsets[which].saturating_sub(1),
                _ => 0xFFFF,
            };
        }
        let mut data = le16(parts.len() as u32).to_vec();
        for offset in offsets {
            data.extend(le16(offset));
        }
        data.extend(body);
        data
    }

    /// Other services, and paths that are no target.
    fn other(&mut self) -> Vec<u8> {
        let service = *self.rng.pick(&[
            0x01, 0x03, 0x0A, 0x0E, 0x10, 0x4B, 0x4C, 0x4D, 0x4E, 0x4F, 0x52, 0x53, 0x55, 0x80, 0xCC, 0xFF,
        ]);
        let class = *self.rng.pick(&[2, 2, 0x6B, 0x6C, 0x68, 0x69, 0x102, 0x1_006B, 0x1_0002, 0x1_006C, 4]);
        let instance = *self.rng.pick(&[0, 1, 1, 2, 0x100, 0x1_0001]);
        let path = match self.rng.below(12) {
            0 => Vec::new(),
            1 => self.value(0x20, class),
            2 => [self.value(0x24, instance), self.value(0x20, class)].concat(),
            3 => [self.port(), self.object(class, instance)].concat(),
            4 => [self.value(0x20, class), self.value(0x28, 1)].concat(),
            5 => {
                let name = self.program_name(1);
                let tail = if self.rng.chance(50) { Vec::new() } else { self.odd_segment() };
                [self.symbol(&name), tail].concat()
            }
            6 => self.tag_path().0,
            7 => [self.object(class, instance), self.odd_segment()].concat(),
            _ => self.object(class, instance),
        };
        let length = self.rng.below(9);
        let data = self.rng.bytes(length);
        request(service, &path, &data)
    }

    fn noise(&mut self) -> Vec<u8> {
        let length = self.rng.below(16);
        let mut out = self.rng.bytes(length);
        let starts = [0x03, 0x0A, 0x4C, 0x4D, 0x4E, 0x52, 0x53, 0x55, 0x00];
        for (at, byte) in out.iter_mut().enumerate().take(3) {
            *byte = match at {
                0 => *self.rng.pick(&starts),
                1 => self.rng.below(5) as u8,
                _ => *self.rng.pick(&[0x91, 0x20, 0x21, 0x22, 0x28, 0x01, 0x0F, 0x1F, 0x12, 0x24]),
            };
        }
        out
    }

    /// A message with one thing about it changed.
    fn bent(&mut self, mut message: Vec<u8>) -> Vec<u8> {
        let at = self.rng.below(message.len() as u32) as usize;
        match (self.rng.below(6), message.is_empty()) {
            (_, true) => message.push(self.rng.byte()),
            (0, _) => message.truncate(at),
            (1, _) => drop(message.pop()),
            (2, _) => message.push(self.rng.byte()),
            (3, _) => message[at] = self.rng.byte(),
            (4, _) => message[0] = *self.rng.pick(&[0x03, 0x4C, 0x4D, 0x4E, 0x52, 0x53, 0x55, 0x0A]),
            (_, _) => {
                if let Some(words) = message.get_mut(1) {
                    *words = words.wrapping_add(*self.rng.pick(&[1, 0xFF, 2]));
                }
            }
        }
        message
    }
}

/// A count and attribute numbers.
fn counted(count: u32, numbers: &[u16]) -> Vec<u8> {
    let numbers = numbers.iter().flat_map(|n| n.to_le_bytes());
    le16(count).into_iter().chain(numbers).collect()
}

/// A symbol page of these attributes from an ID on, in the widest form.
pub fn page(prefix: &[u8], start: u32, attributes: &[u16]) -> Vec<u8> {
    let mut path = prefix.to_vec();
    path.extend([0x20, 0x6B, 0x26, 0]);
    path.extend(start.to_le_bytes());
    request(0x55, &path, &counted(attributes.len() as u32, attributes))
}

/// The ID of the last entry of a page.
pub fn last_id(entries: &[u8], attributes: &[u16]) -> u32 {
    let (mut at, mut id) = (0, 0);
    while at + 4 <= entries.len() {
        id = u32::from_le_bytes([entries[at], entries[at + 1], entries[at + 2], entries[at + 3]]);
        at += 4;
        for a in attributes {
            at += match a {
                1 => 2 + usize::from(u16::from_le_bytes([entries[at], entries[at + 1]])),
                2 | 7 => 2,
                8 => 12,
                10 => 1,
                _ => 4,
            };
        }
    }
    id
}
