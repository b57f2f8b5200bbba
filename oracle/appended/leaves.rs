// ==== What the port's decoder and lookups are held to: the given functions, opened to the driver, and where the text has
// ==== a search or a choice only inside a longer function, the same written out.

pub mod leaves {
    use super::oracle::known;
    use super::*;
    use crate::rows::{Flags, Tables};

    /// A segment as far as a service minds it: a port only takes its place.
    #[derive(Clone, Debug, PartialEq, Eq)]
    pub enum Piece {
        Port,
        Class(u32),
        Instance(u32),
        Element(u32),
        Attribute(u32),
        Symbol(Vec<u8>),
    }

    fn piece(segment: Seg) -> Piece {
        match segment {
            Seg::Port { .. } => Piece::Port,
            Seg::Class(c) => Piece::Class(c),
            Seg::Instance(i) => Piece::Instance(i),
            Seg::Element(e) => Piece::Element(e),
            Seg::Attribute(a) => Piece::Attribute(a),
            // `parse_path` made each byte the char of its number
            Seg::Symbol(s) => Piece::Symbol(s.chars().map(|c| c as u8).collect()),
        }
    }

    pub fn pieces(path: &[u8]) -> Option<Vec<Piece>> {
        Some(parse_path(path)?.into_iter().map(piece).collect())
    }

    /// The first segment of some bytes and where it ends: the one beginning that decodes to a single segment.
    pub fn first_piece(bytes: &[u8]) -> Option<(Piece, usize)> {
        // a port of 16 bits with a link of 255 bytes and a pad has the most: 260
        (1..=bytes.len().min(260)).find_map(|end| {
            let mut segments = parse_path(&bytes[..end])?;
            (segments.len() == 1).then(|| (piece(segments.remove(0)), end))
        })
    }

    /// The number of bytes of a request's path.
    pub fn path_size(message: &[u8]) -> Option<usize> {
        let request = parse_request(message)?;
        Some(message.len() - 2 - request.data.len())
    }

    pub fn tag_path(path: &[u8]) -> Option<bool> {
        parse_path(path).map(|segments| is_tag_path(&segments))
    }

    fn text(bytes: &[u8]) -> String {
        bytes.iter().map(|&b| char::from(b)).collect()
    }

    fn three(lengths: &[u32]) -> [u32; 3] {
        std::array::from_fn(|i| lengths.get(i).copied().unwrap_or(0))
    }

    /// A controller's lookups. A tag or another symbol is told by its place among those of its scope.
    pub struct Lookups(Logix);

    impl Lookups {
        pub fn new(t: &Tables, memory: &[u8]) -> Self {
            Lookups(Logix::from_rows(t, Flags::default(), memory))
        }

        fn scope(&self, number: u32) -> Option<&Scope> {
            match number.checked_sub(1) {
                None => Some(self.0.scope(None)),
                Some(p) => self.0.programs.get(p as usize).map(|p| &p.scope),
            }
        }

        pub fn program(&self, name: &[u8]) -> Option<usize> {
            self.0.program(&format!("Program:{}", text(name)))
        }

        pub fn tag(&self, scope: u32, name: &[u8]) -> Option<usize> {
            self.scope(scope)?.tag(&text(name))
        }

        /// As in `resolve`.
        pub fn tag_id(&self, scope: u32, id: u32) -> Option<usize> {
            self.scope(scope)?.tags.iter().position(|t| t.instance_id == id)
        }

        /// As in `symbol_attributes`.
        pub fn other_id(&self, scope: u32, id: u32) -> Option<usize> {
            self.scope(scope)?.others.iter().position(|o| o.instance_id == id)
        }

        pub fn member(&self, structure: usize, name: &[u8]) -> Option<usize> {
            let def = self.0.types.def(structure);
            let found = def.member(&text(name))?;
            def.members.iter().position(|m| std::ptr::eq(m, found))
        }

        pub fn template(&self, id: u32) -> Option<usize> {
            let found = self.0.types.by_template(id)?;
            self.0.types.defs.iter().position(|d| std::ptr::eq(d, found))
        }

        pub fn has_local(&self, structure: usize) -> bool {
            self.0.types.def(structure).has_locals()
        }

        /// The ID of the first symbol that `symbol_list` comes to from a bound on.
        pub fn next(&self, scope: u32, bound: u64) -> Option<u32> {
            let symbols = self.scope(scope)?.symbols(&self.0.types);
            symbols.iter().map(|s| s.instance_id).find(|&id| u64::from(id) >= bound)
        }

        fn ty(&self, word: u32) -> Option<Ty> {
            known(word).filter(|ty| match ty {
                Ty::Struct(index) => *index < self.0.types.defs.len(),
                Ty::Atomic(_) => true,
            })
        }

        pub fn size(&self, word: u32) -> Option<usize> {
            Some(self.0.types.size(self.ty(word)?))
        }

        /// The symbol type of a tag of this type with so many lengths.
        pub fn symbol_type(&self, word: u32, lengths: usize) -> Option<u16> {
            let tag = Tag {
                name: String::new(),
                instance_id: 1,
                ty: self.ty(word)?,
                dims: vec![1; lengths],
                elements: 1,
                access: 0,
                alias: false,
                data: Vec::new(),
                descriptions: Vec::new(),
            };
            Some(tag.symbol_type(&self.0.types))
        }

        /// A tag's lengths as `symbols` lists them.
        pub fn listed(&self, scope: u32, place: usize) -> Option<[u32; 3]> {
            let scope = self.scope(scope)?;
            let id = scope.tags.get(place)?.instance_id;
            let symbols = scope.symbols(&self.0.types);
            symbols.iter().find(|s| s.instance_id == id).map(|s| s.dims)
        }

        /// A tag's lengths as `resolve` holds indexes against them.
        pub fn indexed(&self, scope: u32, place: usize) -> Option<[u32; 3]> {
            let tag = self.scope(scope)?.tags.get(place)?;
            Some(match (tag.ty, tag.dims.len()) {
                (_, 0) => [0; 3],
                (Ty::Atomic(Atomic::DWord), _) => three(&[tag.elements as u32]),
                _ => three(&tag.dims),
            })
        }
    }
}
