//! rust_back < bytes: up and down again in one pass, without writing the words in between; the listing on standard error.

use plain_rust::down::{Down, Lanes, Stop};
use plain_rust::input::{Input, BUFFER, ROOM};
use plain_rust::up::{Up, Words};
use std::io::{self, BufWriter, Write};
use std::process::ExitCode;

/// All lanes are one output.
struct One<W: Write>(W);

impl<W: Write> Lanes for One<W> {
    #[inline]
    fn put(&mut self, _lane: usize, piece: &[u8]) -> io::Result<()> {
        self.0.write_all(piece)
    }
}

/// Packets that are taken down at once.
struct Back<W: Write> {
    down: Down,
    output: One<W>,
}

impl<W: Write> Back<W> {
    #[inline]
    fn take(&mut self, first: u32, second: u32) -> io::Result<()> {
        match self.down.packet(first, second, 0, &mut self.output, &mut io::sink()) {
            Ok(()) => Ok(()),
            Err(Stop::Io(error)) => Err(error),
            Err(Stop::Refused(..)) => Err(io::ErrorKind::InvalidData.into()),
        }
    }
}

impl<W: Write> Words for Back<W> {
    #[inline]
    fn one(&mut self, word: u32) -> io::Result<()> {
        self.take(word, 0)
    }

    #[inline]
    fn two(&mut self, first: u32, second: u32) -> io::Result<()> {
        self.take(first, second)
    }
}

// Out of line, the loop takes fewer instructions.
#[inline(never)]
fn translate() -> Result<(), Stop> {
    let mut notes = BufWriter::new(io::stderr().lock());
    let mut back =
        Back { down: Down::new(ROOM, false), output: One(BufWriter::with_capacity(BUFFER, io::stdout().lock())) };
    let mut up = Up::new(0, ROOM);
    let mut input = Input::new();
    while input.read()? {
        up.bytes(input.bytes(), input.offset, &mut back, &mut notes)?;
        input.pass_all();
    }
    up.end(&mut notes)?;
    back.output.0.flush()?;
    Ok(notes.flush()?)
}

fn main() -> ExitCode {
    match translate() {
        Ok(()) => ExitCode::SUCCESS,
        Err(_) => ExitCode::from(1),
    }
}
