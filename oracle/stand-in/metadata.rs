//! Stand-in for the module `metadata`, whose text is not given. It only lets logix.rs compile: classes 0x64
//! and 0x349, which alone reach it, are outside the compared domain.

pub(crate) const LANGUAGE: u16 = 0x007F;

pub(crate) enum Selector {
    Index { language: u16 },
    One { class: u16, instance: u32, owner: (u32, u16), path: String, language: u16 },
}

pub(crate) struct Request {
    pub selector: Selector,
    pub offset: u32,
}

pub(crate) fn parse_request(_data: &[u8]) -> Option<Request> {
    None
}

pub(crate) fn page(_payload: &[u8], _offset: usize, _room: usize) -> Option<Vec<u8>> {
    None
}

pub(crate) fn record(
    _class: u16,
    _instance: u32,
    _owner: (u32, u16),
    _path: &str,
    _language: u16,
    _text: &str,
) -> Vec<u8> {
    Vec::new()
}

pub(crate) fn challenge(_certificate: &[u8]) -> Option<(Vec<u8>, [u8; 20], Vec<u8>)> {
    None
}
