// ==== Everything above is the given text; what follows is appended so that the tables can be given as rows,
// ==== the private parts read, and a request told apart as the dispatcher above does.

pub mod oracle {
    use super::*;
    use crate::model::{Member, StructDef};
    use crate::rows::{Flags, Tables};

    /// What a request's path is to the dispatcher.
    #[derive(Clone, Copy, Debug, PartialEq, Eq)]
    pub enum Shape {
        Malformed,
        Object(u32, u32),
        Tag,
        Neither,
    }

    pub fn shape(message: &[u8]) -> Shape {
        let Some(request) = parse_request(message) else {
            return Shape::Malformed;
        };
        let tag_service = matches!(request.service, 0x4C | 0x52 | 0x4D | 0x53 | 0x4E);
        match class_instance(&request.path) {
            Some((0x6B, _)) if tag_service => Shape::Tag,
            Some((c, i)) => Shape::Object(c, i),
            None if is_tag_path(&request.path) => Shape::Tag,
            None => Shape::Neither,
        }
    }

    /// The parts of an envelope that can be split.
    pub fn parts(message: &[u8]) -> Option<Vec<&[u8]>> {
        let request = parse_request(message)?;
        match (class_instance(&request.path), request.service) {
            (Some((0x02, 1)), 0x0A) => split_multi(request.data),
            _ => None,
        }
    }

    fn text(store: &[u8], start: u32, length: u32) -> String {
        let bytes = &store[start as usize..][..length as usize];
        bytes.iter().map(|&b| char::from(b)).collect()
    }

    fn ty(word: u32) -> Ty {
        known(word).expect("an atomic code")
    }

    /// The type of a word; None where it is neither a structure's nor an atomic code.
    pub(super) fn known(word: u32) -> Option<Ty> {
        match word.checked_sub(0x100) {
            Some(index) => Some(Ty::Struct(index as usize)),
            None => {
                let code = |a: &Atomic| u32::from(a.code()) == word;
                ATOMICS.into_iter().find(code).map(Ty::Atomic)
            }
        }
    }

    const ATOMICS: [Atomic; 15] = [
        Atomic::Bool,
        Atomic::SInt,
        Atomic::Int,
        Atomic::DInt,
        Atomic::LInt,
        Atomic::USInt,
        Atomic::UInt,
        Atomic::UDInt,
        Atomic::ULInt,
        Atomic::Real,
        Atomic::LReal,
        Atomic::Byte,
        Atomic::Word,
        Atomic::DWord,
        Atomic::LWord,
    ];

    fn member(t: &Tables, m: &[u32; 9]) -> Member {
        Member {
            name: text(&t.names, m[0], m[1]),
            ty: ty(m[2]),
            array: m[3],
            offset: m[4],
            bit: (m[5] < 8).then_some(m[5] as u8),
            hidden: m[6] == 1,
            local: m[7] == 1,
            access: m[8] as u8,
        }
    }

    fn structure(t: &Tables, s: &[u32; 10]) -> StructDef {
        let members = &t.members[s[5] as usize..][..s[6] as usize];
        StructDef {
            name: text(&t.names, s[0], s[1]),
            template_id: s[2] as u16,
            handle: s[3] as u16,
            size: s[4],
            members: members.iter().map(|m| member(t, m)).collect(),
            kind: if s[7] == 1 { StructKind::Aoi } else { StructKind::Udt },
            template: t.templates[s[8] as usize..][..s[9] as usize].to_vec(),
            descriptions: Vec::new(),
        }
    }

    fn tag(t: &Tables, r: &[u32; 12], memory: &[u8]) -> Tag {
        let bytes = t.size(r[4]).expect("a type") * r[8];
        Tag {
            name: text(&t.tag_names, r[1], r[2]),
            instance_id: r[3],
            ty: ty(r[4]),
            dims: Tables::lengths(r).to_vec(),
            elements: r[8] as usize,
            access: r[9] as u8,
            alias: r[10] == 1,
            data: memory[r[11] as usize..][..bytes as usize].to_vec(),
            descriptions: Vec::new(),
        }
    }

    fn scope(t: &Tables, number: u32, memory: &[u8]) -> Scope {
        let tags = t.tags.iter().filter(|r| r[0] == number);
        let others = t.others.iter().filter(|r| r[0] == number);
        Scope {
            tags: tags.map(|r| tag(t, r, memory)).collect(),
            others: others
                .map(|o| Other { name: text(&t.names, o[1], o[2]), instance_id: o[3], symbol_type: o[4] as u16 })
                .collect(),
            used: BTreeSet::new(),
        }
    }

    impl Logix {
        /// A controller of exactly these (valid) tables. The flags go through `Logix::new`, which turns
        /// multi-service and instance IDs off for a Micro800.
        pub fn from_rows(t: &Tables, flags: Flags, memory: &[u8]) -> Logix {
            let config = LogixConfig {
                multi_service: flags.multi_service,
                instance_ids: flags.instance_ids,
                aoi_locals_refused: flags.aoi_locals_refused,
                micro800: flags.micro800,
                ..LogixConfig::default()
            };
            let mut logix = Logix::new(&config).expect("the default configuration");
            logix.types = Types { defs: t.structures.iter().map(|s| structure(t, s)).collect() };
            logix.controller = scope(t, 0, memory);
            let program = |(k, p): (usize, &[u32; 2])| Program {
                name: text(&t.names, p[0], p[1]),
                scope: scope(t, k as u32 + 1, memory),
                reference: 0x5AD0 + k as u16,
            };
            logix.programs = t.programs.iter().enumerate().map(program).collect();
            logix
        }

        /// `Logix::message` without faults.
        pub fn answer(&mut self, message: &[u8], limit: usize) -> Vec<u8> {
            self.message(message, limit, &Faults::default())
        }

        /// Writes the tags' bytes back to where the rows have them in tag memory.
        pub fn store(&self, t: &Tables, memory: &mut [u8]) {
            for (scope, place, offset) in places(t) {
                let data = &self.scope(scope.checked_sub(1)).tags[place].data;
                memory[offset..][..data.len()].copy_from_slice(data);
            }
        }

        /// Takes the tags' bytes from there.
        pub fn load(&mut self, t: &Tables, memory: &[u8]) {
            for (scope, place, offset) in places(t) {
                let scope = match scope.checked_sub(1) {
                    None => &mut self.controller,
                    Some(p) => &mut self.programs[p].scope,
                };
                let data = &mut scope.tags[place].data;
                let bytes = data.len();
                data.copy_from_slice(&memory[offset..][..bytes]);
            }
        }
    }

    /// Of each tag its scope, its place among the tags of that scope, and its offset in tag memory.
    fn places(t: &Tables) -> impl Iterator<Item = (usize, usize, usize)> {
        let mut next = vec![0; t.programs.len() + 1];
        t.tags.iter().map(move |r| {
            let scope = r[0] as usize;
            next[scope] += 1;
            (scope, next[scope] - 1, r[11] as usize)
        })
    }
}
