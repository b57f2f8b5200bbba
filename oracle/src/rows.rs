//! A table set in the row encoding of the port (see the design: `structures: [[u32; 10]]` and so on).

#[derive(Clone, Copy, Debug, Default, PartialEq, Eq)]
pub struct Flags {
    pub multi_service: bool,
    pub instance_ids: bool,
    pub aoi_locals_refused: bool,
    pub micro800: bool,
}

impl Flags {
    /// The flags as the entry points of the archive take them.
    pub fn bits(self) -> u32 {
        let flags = [self.multi_service, self.instance_ids, self.aoi_locals_refused, self.micro800];
        flags.iter().enumerate().map(|(bit, &on)| u32::from(on) << bit).sum()
    }

    pub fn from_bits(bits: u32) -> Self {
        let on = |bit: u32| bits >> bit & 1 == 1;
        Flags { multi_service: on(0), instance_ids: on(1), aoi_locals_refused: on(2), micro800: on(3) }
    }
}

#[derive(Clone, Debug, Default, PartialEq, Eq)]
pub struct Tables {
    /// name start, name length, template ID, handle, size, first member, member count, AOI mark,
    /// template start, template length
    pub structures: Vec<[u32; 10]>,
    /// name start, name length, type, array length, offset, bit (8: none), hidden, local, access
    pub members: Vec<[u32; 9]>,
    /// name start, name length
    pub programs: Vec<[u32; 2]>,
    /// scope, name start, name length, ID, type, three lengths, elements, access, alias, offset
    pub tags: Vec<[u32; 12]>,
    /// scope, name start, name length, ID, symbol type
    pub others: Vec<[u32; 5]>,
    pub names: Vec<u8>,
    pub tag_names: Vec<u8>,
    pub templates: Vec<u8>,
}

/// The bytes of a store from `start`, `length` of them; None past its end.
pub fn part(store: &[u8], start: u32, length: u32) -> Option<&[u8]> {
    let start = start as usize;
    store.get(start..start.checked_add(length as usize)?)
}

/// The size of an atomic type code, None if it is none.
pub fn atomic_size(code: u32) -> Option<u32> {
    Some(match code {
        0xC1 | 0xC2 | 0xC6 | 0xD1 => 1,
        0xC3 | 0xC7 | 0xD2 => 2,
        0xC4 | 0xC8 | 0xCA | 0xD3 => 4,
        0xC5 | 0xC9 | 0xCB | 0xD4 => 8,
        _ => return None,
    })
}

pub const DWORD: u32 = 0xD3;

impl Tables {
    /// The size of a type word: an atomic code, or 0x100 plus a structure's index.
    pub fn size(&self, ty: u32) -> Option<u32> {
        match ty.checked_sub(0x100) {
            Some(index) => self.structures.get(index as usize).map(|s| s[4]),
            None => atomic_size(ty),
        }
    }

    /// A name of the store that structures, members, programs and other symbols share.
    pub fn name(&self, start: u32, length: u32) -> &[u8] {
        part(&self.names, start, length).unwrap_or(&[])
    }

    pub fn tag_name(&self, tag: &[u32; 12]) -> &[u8] {
        part(&self.tag_names, tag[1], tag[2]).unwrap_or(&[])
    }

    /// The nonzero lengths of a tag.
    pub fn lengths(tag: &[u32; 12]) -> &[u32] {
        let count = tag[5..8].iter().take_while(|&&d| d != 0).count();
        &tag[5..5 + count]
    }
}
