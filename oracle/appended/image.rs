// ==== The tables of a controller that was built from a JSON configuration, read out into rows: its own types, scopes and
// ==== flags, as `Logix::new` left them.

pub mod image {
    use super::*;
    use crate::config::Config;
    use crate::model::{Member, StructDef};
    use crate::rows::{Flags, Tables};
    use std::path::Path;

    fn word(ty: Ty) -> u32 {
        match ty {
            Ty::Atomic(a) => u32::from(a.code()),
            Ty::Struct(index) => 0x100 + index as u32,
        }
    }

    /// Puts a name behind the others of its store: its start and length.
    fn keep(store: &mut Vec<u8>, name: &str) -> [u32; 2] {
        store.extend(name.as_bytes());
        [(store.len() - name.len()) as u32, name.len() as u32]
    }

    fn add_member(t: &mut Tables, m: &Member) {
        let [start, length] = keep(&mut t.names, &m.name);
        let (ty, bit) = (word(m.ty), m.bit.map_or(8, u32::from));
        let (hidden, local, access) = (u32::from(m.hidden), u32::from(m.local), u32::from(m.access));
        t.members.push([start, length, ty, m.array, m.offset, bit, hidden, local, access]);
    }

    fn add_structure(t: &mut Tables, def: &StructDef) {
        let [start, length] = keep(&mut t.names, &def.name);
        let (id, handle) = (u32::from(def.template_id), u32::from(def.handle));
        let (first, count) = (t.members.len() as u32, def.members.len() as u32);
        let aoi = u32::from(def.kind == StructKind::Aoi);
        let (from, bytes) = (t.templates.len() as u32, def.template.len() as u32);
        t.structures.push([start, length, id, handle, def.size, first, count, aoi, from, bytes]);
        t.templates.extend(&def.template);
        def.members.iter().for_each(|m| add_member(t, m));
    }

    /// A tag's bytes stand behind those of the tag before it.
    fn add_tag(t: &mut Tables, memory: &mut Vec<u8>, scope: u32, tag: &Tag) {
        let [start, length] = keep(&mut t.tag_names, &tag.name);
        let d = |i: usize| tag.dims.get(i).copied().unwrap_or(0);
        let (elements, offset) = (tag.elements as u32, memory.len() as u32);
        let (id, ty, access, alias) = (tag.instance_id, word(tag.ty), u32::from(tag.access), u32::from(tag.alias));
        t.tags.push([scope, start, length, id, ty, d(0), d(1), d(2), elements, access, alias, offset]);
        memory.extend(&tag.data);
    }

    fn add_other(t: &mut Tables, scope: u32, other: &Other) {
        let [start, length] = keep(&mut t.names, &other.name);
        t.others.push([scope, start, length, other.instance_id, u32::from(other.symbol_type)]);
    }

    impl Logix {
        /// A controller built from a JSON file by the text's own functions, or what they say is wrong with it.
        pub fn from_file(path: &Path) -> Result<Logix, String> {
            match Config::from_file(path).map_err(|e| e.to_string())? {
                Config::Logix(config) => Logix::new(&config).map_err(|e| e.to_string()),
                Config::Slc(_) => Err("an SLC 500 or MicroLogix has no tables".into()),
            }
        }

        /// The scopes with their numbers: 0 the controller, k + 1 program k.
        fn scopes(&self) -> impl Iterator<Item = (u32, &Scope)> {
            let programs = self.programs.iter().map(|p| &p.scope);
            (0..).zip(std::iter::once(&self.controller).chain(programs))
        }

        /// Structures, members, programs, tags, other symbols, and the bytes of names, tag names, templates and tag memory;
        /// last, the most elements of one tag.
        pub fn sizes(&self) -> [usize; 10] {
            let members = || self.types.defs.iter().flat_map(|d| &d.members);
            let tags = || self.scopes().flat_map(|(_, s)| &s.tags);
            let others = || self.scopes().flat_map(|(_, s)| &s.others);
            let types: usize = self.types.defs.iter().map(|d| d.name.len()).sum();
            let programs: usize = self.programs.iter().map(|p| p.name.len()).sum();
            let symbols: usize = others().map(|o| o.name.len()).sum();
            [
                self.types.defs.len(),
                members().count(),
                self.programs.len(),
                tags().count(),
                others().count(),
                types + members().map(|m| m.name.len()).sum::<usize>() + programs + symbols,
                tags().map(|t| t.name.len()).sum(),
                self.types.defs.iter().map(|d| d.template.len()).sum(),
                tags().map(|t| t.data.len()).sum(),
                tags().map(|t| t.elements).max().unwrap_or(0),
            ]
        }

        /// The tables, the flags and the tag memory with the tags' present values. Each of the sizes must fit 32 bits.
        pub fn rows(&self) -> (Tables, Flags, Vec<u8>) {
            let (mut t, mut memory) = (Tables::default(), Vec::new());
            self.types.defs.iter().for_each(|def| add_structure(&mut t, def));
            for p in &self.programs {
                let row = keep(&mut t.names, &p.name);
                t.programs.push(row);
            }
            for (number, scope) in self.scopes() {
                scope.tags.iter().for_each(|tag| add_tag(&mut t, &mut memory, number, tag));
                scope.others.iter().for_each(|other| add_other(&mut t, number, other));
            }
            let flags = Flags {
                multi_service: self.multi_service,
                instance_ids: self.instance_ids,
                aoi_locals_refused: self.aoi_locals_refused,
                micro800: self.micro800,
            };
            (t, flags, memory)
        }
    }
}
