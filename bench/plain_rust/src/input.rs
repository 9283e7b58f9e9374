//! Standard input, as it is held in memory.

use std::io::{self, Read, StdinLock};

/// The bytes that are read and written at a time.
pub const BUFFER: usize = 1 << 16;

/// The most bytes of an exclusive between F0 and F7.
pub const ROOM: usize = 1 << 20;

pub struct Input {
    source: StdinLock<'static>,
    buffer: Vec<u8>,
    held: usize,
    /// The offset of the first byte that is held.
    pub offset: u64,
}

impl Input {
    pub fn new() -> Self {
        Input { source: io::stdin().lock(), buffer: vec![0; BUFFER], held: 0, offset: 0 }
    }

    /// Reads once. False at the end of the input.
    #[inline]
    pub fn read(&mut self) -> io::Result<bool> {
        let read = self.source.read(&mut self.buffer[self.held..])?;
        self.held += read;
        Ok(read > 0)
    }

    #[inline]
    pub fn bytes(&self) -> &[u8] {
        &self.buffer[..self.held]
    }

    /// Drops the first `count` bytes.
    #[inline]
    pub fn pass(&mut self, count: usize) {
        self.offset += count as u64;
        self.buffer.copy_within(count..self.held, 0);
        self.held -= count;
    }

    /// Drops all bytes.
    #[inline]
    pub fn pass_all(&mut self) {
        self.offset += self.held as u64;
        self.held = 0;
    }
}
