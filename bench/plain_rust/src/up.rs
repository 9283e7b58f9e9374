//! MIDI 1.0 bytes to packets.

use crate::down::{Reason, Stop};
use crate::scale::{up14_32, up7_16, up7_32};
use crate::ump::Kind;
use std::io::{self, Write};

/// One packet of one or two words.
pub trait Words {
    fn one(&mut self, word: u32) -> io::Result<()>;
    fn two(&mut self, first: u32, second: u32) -> io::Result<()>;
}

/// Words as big endian bytes.
pub struct BigEndian<W: Write>(pub W);

impl<W: Write> Words for BigEndian<W> {
    #[inline]
    fn one(&mut self, word: u32) -> io::Result<()> {
        self.0.write_all(&word.to_be_bytes())
    }

    #[inline]
    fn two(&mut self, first: u32, second: u32) -> io::Result<()> {
        let both = u64::from(first) << 32 | u64::from(second);
        self.0.write_all(&both.to_be_bytes())
    }
}

#[derive(Clone, Default)]
struct Channel {
    bank: (Option<u8>, Option<u8>),
    numbers: [(Option<u8>, Option<u8>); 2],
    last: Option<Kind>,
    /// The MSB of each parameter, by kind and number.
    msbs: Vec<u8>,
}

impl Channel {
    fn selected(&self) -> Option<usize> {
        let kind = self.last? as usize;
        let (Some(bank), Some(index)) = self.numbers[kind] else { return None };
        if bank == 127 && index == 127 {
            return None;
        }
        Some(kind << 14 | usize::from(bank) << 7 | usize::from(index))
    }
}

#[derive(Clone, Copy, PartialEq, Eq)]
enum State {
    Nothing,
    /// A voice or common message, with the number of data bytes it needs.
    Message {
        status: u8,
        need: u8,
    },
    Exclusive,
}

pub struct Up {
    group: u32,
    room: usize,
    state: State,
    start: u64,
    have: u8,
    data: [u8; 2],
    payload: Vec<u8>,
    channels: Vec<Channel>,
}

impl Up {
    pub fn new(group: u8, room: usize) -> Self {
        Up {
            group: u32::from(group) << 24,
            room,
            state: State::Nothing,
            start: 0,
            have: 0,
            data: [0; 2],
            payload: Vec::new(),
            channels: vec![Channel { msbs: vec![0; 2 << 14], ..Default::default() }; 16],
        }
    }

    pub fn bytes<O: Words, N: Write>(
        &mut self,
        input: &[u8],
        base: u64,
        out: &mut O,
        notes: &mut N,
    ) -> Result<(), Stop> {
        for (i, &b) in input.iter().enumerate() {
            self.byte(b, base + i as u64, out, notes)?;
        }
        Ok(())
    }

    fn begun(&self) -> Option<&'static str> {
        match self.state {
            State::Nothing => None,
            State::Exclusive => Some("exclusive"),
            // Between two messages under running status, nothing is begun: `have` is 3 then.
            State::Message { .. } => (self.have < 3).then_some("message"),
        }
    }

    fn list<N: Write>(&self, offset: u64, kind: &str, notes: &mut N) -> io::Result<()> {
        writeln!(notes, "{offset} {} {kind}", self.group >> 24)
    }

    #[inline]
    fn byte<O: Words, N: Write>(&mut self, b: u8, offset: u64, out: &mut O, notes: &mut N) -> Result<(), Stop> {
        if b < 0x80 {
            match self.state {
                State::Message { status, need } => {
                    if self.have == 3 {
                        if status >= 0xF0 {
                            return Ok(self.list(offset, "stray", notes)?);
                        }
                        self.have = 0;
                        self.start = offset;
                    }
                    self.data[usize::from(self.have)] = b;
                    self.have += 1;
                    if self.have == need {
                        self.have = 3;
                        return self.message(status, offset, out, notes);
                    }
                    Ok(())
                }
                State::Exclusive => {
                    if self.payload.len() == self.room {
                        self.state = State::Nothing;
                        return Err(Stop::Refused(Reason::ExclusiveTooLong, offset));
                    }
                    self.payload.push(b);
                    Ok(())
                }
                State::Nothing => Ok(self.list(offset, "stray", notes)?),
            }
        } else {
            self.status(b, offset, out, notes)
        }
    }

    fn status<O: Words, N: Write>(&mut self, b: u8, offset: u64, out: &mut O, notes: &mut N) -> Result<(), Stop> {
        match b {
            0xF9 | 0xFD => return Ok(self.list(offset, "undefined", notes)?),
            0xF8..=0xFF => return Ok(out.one(0x1000_0000 | self.group | u32::from(b) << 16)?),
            0xF7 if self.state == State::Exclusive => {
                self.state = State::Nothing;
                return Ok(self.exclusive(out)?);
            }
            _ => {}
        }
        if let Some(what) = self.begun() {
            self.list(self.start, &format!("cut-{what}"), notes)?;
        }
        self.have = 0;
        self.start = offset;
        self.state = match b {
            0xF0 => {
                self.payload.clear();
                State::Exclusive
            }
            0xF6 => {
                self.state = State::Nothing;
                return Ok(out.one(0x10F6_0000 | self.group)?);
            }
            0xF4 | 0xF5 => {
                self.list(offset, "undefined", notes)?;
                State::Nothing
            }
            0xF7 => {
                self.list(offset, "stray", notes)?;
                State::Nothing
            }
            0xF1 | 0xF3 | 0xC0..=0xDF => State::Message { status: b, need: 1 },
            _ => State::Message { status: b, need: 2 },
        };
        Ok(())
    }

    #[inline]
    fn message<O: Words, N: Write>(&mut self, status: u8, offset: u64, out: &mut O, notes: &mut N) -> Result<(), Stop> {
        let [a, b] = self.data;
        let first = 0x4000_0000 | self.group | u32::from(status) << 16;
        let note = first | u32::from(a) << 8;
        match status >> 4 {
            0x9 if b == 0 => out.two(note ^ 0x0010_0000, 0x8000_0000)?,
            0x8 | 0x9 => out.two(note, up7_16(b) << 16)?,
            0xA => out.two(note, up7_32(b))?,
            0xB => return self.control(first, a, b, offset, out, notes),
            0xC => {
                let word = u32::from(a) << 24;
                match self.channels[usize::from(status & 15)].bank {
                    (None, None) => out.two(first, word)?,
                    (msb, lsb) => {
                        out.two(first | 1, word | u32::from(msb.unwrap_or(0)) << 8 | u32::from(lsb.unwrap_or(0)))?
                    }
                }
            }
            0xD => out.two(first, up7_32(a))?,
            0xE => out.two(first, up14_32(u16::from(b) << 7 | u16::from(a)))?,
            _ => {
                let b = if status == 0xF2 { b } else { 0 };
                let word = u32::from(status) << 16 | u32::from(a) << 8 | u32::from(b);
                out.one(0x1000_0000 | self.group | word)?
            }
        }
        Ok(())
    }

    fn control<O: Words, N: Write>(
        &mut self,
        first: u32,
        index: u8,
        value: u8,
        offset: u64,
        out: &mut O,
        notes: &mut N,
    ) -> Result<(), Stop> {
        let channel = &mut self.channels[(first >> 16) as usize & 15];
        let (kind, high) = match index {
            0 => return Ok(channel.bank.0 = Some(value)),
            32 => return Ok(channel.bank.1 = Some(value)),
            6 | 38 => {
                let Some(at) = channel.selected() else {
                    return Ok(self.list(offset, "ignored-data-entry", notes)?);
                };
                let msb = &mut channel.msbs[at];
                let w = if index == 6 {
                    *msb = value;
                    u16::from(value) << 7
                } else {
                    u16::from(*msb) << 7 | u16::from(value)
                };
                let opcode = 0x0020_0000 + ((at as u32 >> 14) << 20);
                let number = (at as u32 >> 7 & 127) << 8 | (at as u32 & 127);
                return Ok(out.two(first & 0xFF0F_0000 | opcode | number, up14_32(w))?);
            }
            96 => return Err(Stop::Refused(Reason::DataIncrement, offset)),
            97 => return Err(Stop::Refused(Reason::DataDecrement, offset)),
            101 => (Kind::Registered, true),
            100 => (Kind::Registered, false),
            99 => (Kind::Assignable, true),
            98 => (Kind::Assignable, false),
            _ => {
                if index == 121 {
                    channel.numbers = [(Some(127), Some(127)); 2];
                }
                return Ok(out.two(first | u32::from(index) << 8, up7_32(value))?);
            }
        };
        let pair = &mut channel.numbers[kind as usize];
        *(if high { &mut pair.0 } else { &mut pair.1 }) = Some(value);
        channel.last = Some(kind);
        Ok(())
    }

    fn exclusive<O: Words>(&self, out: &mut O) -> io::Result<()> {
        let first = 0x3000_0000 | self.group;
        if self.payload.is_empty() {
            return out.two(first, 0);
        }
        let last = self.payload.len().div_ceil(6) - 1;
        for (k, part) in self.payload.chunks(6).enumerate() {
            let form: u32 = match (k == 0, k == last) {
                (true, true) => 0,
                (true, false) => 1,
                (false, false) => 2,
                (false, true) => 3,
            };
            let mut b = [0; 6];
            b[..part.len()].copy_from_slice(part);
            out.two(
                first | form << 20 | (part.len() as u32) << 16 | u32::from(b[0]) << 8 | u32::from(b[1]),
                u32::from_be_bytes([b[2], b[3], b[4], b[5]]),
            )?;
        }
        Ok(())
    }

    pub fn end<N: Write>(&self, notes: &mut N) -> io::Result<()> {
        match self.begun() {
            Some(what) => self.list(self.start, &format!("open-{what}"), notes),
            None => Ok(()),
        }
    }
}
