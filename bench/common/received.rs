// A receive buffer in plain Rust, with the standard library alone.

// The bytes that were read; those from `start` on are not used yet.
#[derive(Default)]
pub struct Received {
    pub buffer: Vec<u8>,
    pub start: usize,
}

impl Received {
    pub fn feed(&mut self, piece: &[u8]) {
        if self.start > 0 && self.buffer.len() + piece.len() > self.buffer.capacity() {
            self.buffer.copy_within(self.start.., 0);
            self.buffer.truncate(self.buffer.len() - self.start);
            self.start = 0;
        }
        self.buffer.extend_from_slice(piece);
    }

    pub fn rest(&self) -> &[u8] {
        &self.buffer[self.start..]
    }
}
