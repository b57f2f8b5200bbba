//! Bytes that are lent to the port, with guards on both sides.

const GUARD: usize = 16;

/// Bytes between guards that nothing may write.
#[derive(Default)]
pub struct Lent(Vec<u8>);

/// A byte of a guard, and of a buffer before a message: never 0, and another at the next position.
pub fn pattern(fill: u8, at: usize) -> u8 {
    (fill ^ (at as u8).rotate_left(1)) | 1
}

impl Lent {
    fn ring(&mut self) {
        let end = self.0.len();
        for at in (0..GUARD).chain(end - GUARD..end) {
            self.0[at] = 0xA5;
        }
    }

    /// Takes these bytes.
    pub fn take(&mut self, bytes: &[u8]) {
        self.0.resize(bytes.len() + 2 * GUARD, 0);
        self.get().copy_from_slice(bytes);
        self.ring();
    }

    /// Takes so many bytes of the pattern.
    pub fn fill(&mut self, length: usize, fill: u8) {
        self.0.resize(length + 2 * GUARD, 0);
        for (at, byte) in self.get().iter_mut().enumerate() {
            *byte = pattern(fill, at);
        }
        self.ring();
    }

    pub fn get(&mut self) -> &mut [u8] {
        let end = self.0.len() - GUARD;
        &mut self.0[GUARD..end]
    }

    /// Whether the guards are as they were.
    pub fn guarded(&self) -> bool {
        let end = self.0.len() - GUARD;
        self.0[..GUARD].iter().chain(&self.0[end..]).all(|&byte| byte == 0xA5)
    }
}
