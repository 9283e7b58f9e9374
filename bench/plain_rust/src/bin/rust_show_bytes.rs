//! rust_show_bytes < bytes: a line for each message of a MIDI 1.0 stream, put together by write!.

use plain_rust::input::{Input, BUFFER};
use std::io::{self, BufWriter, Write};
use std::process::ExitCode;

#[derive(Clone, Copy)]
enum Open {
    Nothing,
    /// A message of `status` that needs `need` data bytes. With none of them, and after another message, only its status is known.
    Message {
        status: u8,
        need: usize,
    },
    Exclusive,
}

struct Show<W: Write> {
    out: W,
    open: Open,
    /// Whether a byte of the message has been read; not so between two messages under running status.
    is_begun: bool,
    start: u64,
    data: [u8; 2],
    count: usize,
}

impl<W: Write> Show<W> {
    fn byte(&mut self, byte: u8, offset: u64) -> io::Result<()> {
        match byte {
            0xF9 | 0xFD => writeln!(self.out, "{offset} undefined"),
            0xF8..=0xFF => writeln!(self.out, "{offset} system status={byte:02X}"),
            0x80..=0xF7 => self.status(byte, offset),
            _ => self.data(byte, offset),
        }
    }

    fn data(&mut self, byte: u8, offset: u64) -> io::Result<()> {
        match self.open {
            Open::Nothing => writeln!(self.out, "{offset} stray"),
            Open::Exclusive => {
                self.count += 1;
                Ok(())
            }
            Open::Message { status, need } => {
                if !self.is_begun {
                    self.is_begun = true;
                    self.start = offset;
                    self.count = 0;
                }
                self.data[self.count] = byte;
                self.count += 1;
                if self.count < need {
                    return Ok(());
                }
                self.is_begun = false;
                if status >= 0xF0 {
                    self.open = Open::Nothing;
                }
                self.message(status, offset)
            }
        }
    }

    fn status(&mut self, byte: u8, offset: u64) -> io::Result<()> {
        if byte == 0xF7 && matches!(self.open, Open::Exclusive) {
            self.open = Open::Nothing;
            self.is_begun = false;
            return writeln!(self.out, "{offset} exclusive length={}", self.count);
        }
        self.unfinished("cut")?;
        self.start = offset;
        self.count = 0;
        let (open, is_begun) = match byte {
            0xF0 => (Open::Exclusive, true),
            0xF1 | 0xF3 | 0xC0..=0xDF => (Open::Message { status: byte, need: 1 }, true),
            0xF4..=0xF7 => (Open::Nothing, false),
            _ => (Open::Message { status: byte, need: 2 }, true),
        };
        self.open = open;
        self.is_begun = is_begun;
        match byte {
            0xF4 | 0xF5 => writeln!(self.out, "{offset} undefined"),
            0xF6 => writeln!(self.out, "{offset} system status=F6"),
            0xF7 => writeln!(self.out, "{offset} stray"),
            _ => Ok(()),
        }
    }

    fn message(&mut self, status: u8, offset: u64) -> io::Result<()> {
        let out = &mut self.out;
        let [a, b] = self.data;
        let channel = status & 15;
        let both = u16::from(b) << 7 | u16::from(a);
        match status >> 4 {
            0x8 => writeln!(out, "{offset} m1-note-off channel={channel} note={a} velocity={b}"),
            0x9 => writeln!(out, "{offset} m1-note-on channel={channel} note={a} velocity={b}"),
            0xA => writeln!(out, "{offset} m1-poly channel={channel} note={a} value={b}"),
            0xB => writeln!(out, "{offset} m1-control channel={channel} index={a} value={b}"),
            0xC => writeln!(out, "{offset} m1-program channel={channel} program={a}"),
            0xD => writeln!(out, "{offset} m1-pressure channel={channel} value={a}"),
            0xE => writeln!(out, "{offset} m1-bend channel={channel} value={both}"),
            _ if status == 0xF2 => writeln!(out, "{offset} system status=F2 value={both}"),
            _ => writeln!(out, "{offset} system status={status:02X} value={a}"),
        }
    }

    /// A line for a message or exclusive that is begun, at the offset of its first byte.
    fn unfinished(&mut self, how: &str) -> io::Result<()> {
        match (self.is_begun, self.open) {
            (false, _) => Ok(()),
            (true, Open::Exclusive) => writeln!(self.out, "{} {how}-exclusive", self.start),
            (true, _) => writeln!(self.out, "{} {how}-message", self.start),
        }
    }
}

fn show() -> io::Result<()> {
    let mut show = Show {
        out: BufWriter::with_capacity(BUFFER, io::stdout().lock()),
        open: Open::Nothing,
        is_begun: false,
        start: 0,
        data: [0; 2],
        count: 0,
    };
    let mut input = Input::new();
    while input.read()? {
        for (at, &byte) in input.bytes().iter().enumerate() {
            show.byte(byte, input.offset + at as u64)?;
        }
        input.pass_all();
    }
    show.unfinished("open")?;
    show.out.flush()
}

fn main() -> ExitCode {
    match show() {
        Ok(()) => ExitCode::SUCCESS,
        Err(_) => ExitCode::from(1),
    }
}
