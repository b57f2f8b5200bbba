//! Request paths: segments in every form, and tag paths that mostly lead somewhere.

use crate::messages::Talk;
use crate::tables::name;
use ciplink_sim::rows::{DWORD, Tables};

/// What a tag path leads to, as far as the generator knows.
pub struct Aim {
    pub ty: u32,
    pub count: u32,
    pub bit: bool,
}

const PROGRAM: &[u8] = b"Program:";

fn le16(n: u32) -> [u8; 2] {
    (n as u16).to_le_bytes()
}

impl<'a> Talk<'a> {
    /// A class (0x20), instance (0x24), element (0x28) or attribute (0x30) in any form that holds its value.
    pub fn value(&mut self, kind: u8, value: u32) -> Vec<u8> {
        let form = match value {
            0..=0xFF => *self.rng.pick(&[0, 0, 0, 1, 2]),
            0x100..=0xFFFF => *self.rng.pick(&[1, 1, 2]),
            _ => 2,
        };
        let pad = if self.rng.chance(80) { 0 } else { self.rng.byte() };
        match form {
            0 => vec![kind, value as u8],
            1 => [&[kind + 1, pad][..], &le16(value)].concat(),
            _ => [&[kind + 2, pad][..], &value.to_le_bytes()].concat(),
        }
    }

    pub fn object(&mut self, class: u32, instance: u32) -> Vec<u8> {
        [self.value(0x20, class), self.value(0x24, instance)].concat()
    }

    pub fn symbol(&mut self, name: &[u8]) -> Vec<u8> {
        let mut name = self.rng.recase(name);
        if self.rng.chance(2) && !name.is_empty() {
            // the bit that tells the cases apart, in any byte: `[` and `{` are two names
            let at = self.rng.below(name.len() as u32) as usize;
            name[at] ^= 0x20;
        }
        self.spelled(&name)
    }

    /// A symbol of exactly this name.
    pub fn spelled(&mut self, name: &[u8]) -> Vec<u8> {
        let mut out = vec![0x91, name.len() as u8];
        out.extend(name);
        if name.len() % 2 == 1 {
            out.push(if self.rng.chance(70) { 0 } else { self.rng.byte() });
        }
        out
    }

    pub fn port(&mut self) -> Vec<u8> {
        let large = self.rng.chance(30);
        let number = if large { 15 } else { self.rng.below(15) as u8 };
        let extended = self.rng.chance(50);
        let mut out = vec![number | u8::from(extended) << 4];
        if large {
            out.extend(self.rng.bytes(2));
        }
        let link = if extended { self.rng.below(6) } else { 1 };
        if extended {
            out.push(link as u8);
        }
        out.extend(self.rng.bytes(link + (link % 2) * u32::from(extended)));
        out
    }

    /// A segment that fits nowhere in a tag path.
    pub fn odd_segment(&mut self) -> Vec<u8> {
        match self.rng.below(7) {
            0 => self.port(),
            1 => self.value(0x30, 1),
            2 => self.value(0x20, 0x6B),
            3 => self.value(0x24, 1),
            4 => vec![*self.rng.pick(&[0x23, 0x2C, 0x34, 0x38, 0x40, 0x80, 0x90, 0x92, 0xFF]), 0],
            5 => self.symbol(b""),
            _ => self.value(0x28, 0),
        }
    }

    pub fn program_name(&mut self, scope: u32) -> Vec<u8> {
        let t = &self.set.tables;
        let known = t.programs.get((scope as usize).wrapping_sub(1)).map(|p| t.name(p[0], p[1]));
        let plain = match known {
            Some(known) if self.rng.chance(96) => known.to_vec(),
            _ => self.rng.pick(&[&b"Main"[..], b"Aux", b"A", b"\xFF", b"", b"P"]).to_vec(),
        };
        [PROGRAM, &plain].concat()
    }

    /// The symbol of a program, or of none, before a path of this scope.
    pub fn prefix(&mut self, scope: u32) -> Vec<u8> {
        let wrong = self.rng.chance(4);
        if (scope == 0) != wrong {
            return Vec::new();
        }
        let scope = if wrong { self.rng.below(4) } else { scope };
        let name = self.program_name(scope);
        let mut out = self.symbol(&name);
        if self.rng.chance(2) {
            let name = self.program_name(scope);
            out.extend(self.symbol(&name));
        }
        out
    }

    // ---- tag paths ----

    pub fn tag_path(&mut self) -> (Vec<u8>, Aim) {
        let t = &self.set.tables;
        if t.tags.is_empty() || self.rng.chance(4) {
            return (self.unknown_tag(), Aim { ty: 0xC4, count: 1, bit: false });
        }
        let tag = *self.rng.pick(&t.tags);
        let mut path = self.prefix(tag[0]);
        if self.rng.chance(25) {
            let id = if self.rng.chance(96) { tag[3] } else { tag[3].wrapping_add(1) };
            path.extend(self.object(0x6B, id));
        } else {
            path.extend(self.symbol(t.tag_name(&tag)));
        }
        let aim = self.walk(&tag, &mut path);
        if self.rng.chance(2) {
            path.extend(self.odd_segment());
        }
        (path, aim)
    }

    /// A tag path, now and then (of a hundred, so often) one that leads to a bit or into an array, if there is one.
    pub fn aimed_path(&mut self, often: u32) -> (Vec<u8>, Aim) {
        let bit = self.rng.chance(60);
        let tries = if self.rng.chance(often) { 12 } else { 0 };
        for _ in 0..tries {
            let (path, aim) = self.tag_path();
            if if bit { aim.bit } else { aim.count > 1 } {
                return (path, aim);
            }
        }
        self.tag_path()
    }

    fn unknown_tag(&mut self) -> Vec<u8> {
        let t = &self.set.tables;
        let scope = self.rng.below(t.programs.len() as u32 + 1);
        let mut path = self.prefix(scope);
        match (self.rng.below(4), t.others.is_empty()) {
            (0, false) => {
                let o = *self.rng.pick(&t.others);
                path.extend(self.symbol(t.name(o[1], o[2])));
            }
            (1, false) => {
                let o = *self.rng.pick(&t.others);
                path.extend(self.object(0x6B, o[3]));
            }
            (2, _) => path.extend(self.symbol(b"")),
            _ => {
                let word = name(self.rng);
                path.extend(self.symbol(&word));
            }
        }
        path
    }

    /// Indexes and members behind a tag's name.
    fn walk(&mut self, tag: &[u32; 12], path: &mut Vec<u8>) -> Aim {
        let t = &self.set.tables;
        let mut aim = Aim { ty: tag[4], count: tag[8], bit: false };
        let mut open = match Tables::lengths(tag) {
            [] => Vec::new(),
            _ if tag[4] == DWORD => vec![tag[8]],
            lengths => lengths.to_vec(),
        };
        for _ in 0..4 {
            if !open.is_empty() && self.rng.chance(70) {
                aim.count -= self.elements(&open, path);
                open.clear();
            }
            let members = self.members(aim.ty);
            let shut = !open.is_empty() || aim.bit;
            if members.is_empty() || !self.rng.chance(if shut { 4 } else { 70 }) {
                break;
            }
            let mut m = *self.rng.pick(members);
            if m[5] == 8 && self.rng.chance(30) {
                m = *self.rng.pick(members);
            }
            path.extend(self.symbol(t.name(m[0], m[1])));
            aim = match m[5] {
                8 => Aim { ty: m[2], count: m[3].max(1), bit: false },
                _ => Aim { ty: 0xC1, count: 1, bit: true },
            };
            open = if m[3] > 0 && !aim.bit { vec![m[3]] } else { Vec::new() };
        }
        aim
    }

    fn members(&self, ty: u32) -> &'a [[u32; 9]] {
        let t = &self.set.tables;
        match ty.checked_sub(0x100).and_then(|i| t.structures.get(i as usize)) {
            Some(s) => &t.members[s[5] as usize..][..s[6] as usize],
            None => &[],
        }
    }

    /// A run of elements for these lengths; answers its position (0 where the run is wrong).
    fn elements(&mut self, lengths: &[u32], path: &mut Vec<u8>) -> u32 {
        let mut index: Vec<u32> = lengths.iter().map(|&d| self.rng.below(d)).collect();
        let position = index.iter().zip(lengths).fold(0, |at, (e, d)| at * d + e);
        let wrong = self.rng.below(100);
        let which = self.rng.below(index.len() as u32) as usize;
        match wrong {
            0..=3 => index[which] = lengths[which],
            4 => index[which] = 0x1_0000 + self.rng.below(2),
            5 => index.push(0),
            6 => drop(index.pop()),
            _ => {}
        }
        for e in index {
            path.extend(self.value(0x28, e));
        }
        if wrong < 7 { 0 } else { position }
    }
}
