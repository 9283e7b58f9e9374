//! Packets to MIDI 1.0 bytes, one lane for each group.

use crate::scale::{down14, down7, release_down, velocity_down};
use crate::ump::{self, Bad, Form, Kind, Packet, Param, Voice2};
use std::io::{self, Write};

pub trait Lanes {
    fn put(&mut self, lane: usize, piece: &[u8]) -> io::Result<()>;
}

impl<W: Write> Lanes for [W; 16] {
    #[inline]
    fn put(&mut self, lane: usize, piece: &[u8]) -> io::Result<()> {
        self[lane & 15].write_all(piece)
    }
}

#[derive(Clone, Copy, Debug, PartialEq, Eq)]
pub enum Reason {
    Truncated,
    BadCount,
    HighBit,
    DataIncrement,
    DataDecrement,
    ExclusiveTooLong,
}

#[derive(Debug)]
pub enum Stop {
    Refused(Reason, u64),
    Io(io::Error),
}

impl From<io::Error> for Stop {
    fn from(e: io::Error) -> Self {
        Stop::Io(e)
    }
}

/// What a receiver has of one channel's registers.
#[derive(Clone, Copy, Default)]
struct Registers {
    bank: (Option<u8>, Option<u8>),
    registered: (Option<u8>, Option<u8>),
    assignable: (Option<u8>, Option<u8>),
    last: Option<Kind>,
}

impl Registers {
    fn control(&mut self, index: u8, value: u8) {
        match index {
            0 => self.bank.0 = Some(value),
            32 => self.bank.1 = Some(value),
            101 | 100 => {
                *(if index == 101 { &mut self.registered.0 } else { &mut self.registered.1 }) = Some(value);
                self.last = Some(Kind::Registered);
            }
            99 | 98 => {
                *(if index == 99 { &mut self.assignable.0 } else { &mut self.assignable.1 }) = Some(value);
                self.last = Some(Kind::Assignable);
            }
            121 => {
                self.registered = (Some(127), Some(127));
                self.assignable = (Some(127), Some(127));
            }
            _ => {}
        }
    }

    fn selected(&self) -> Option<Param> {
        let kind = self.last?;
        let (bank, index) = match kind {
            Kind::Registered => self.registered,
            Kind::Assignable => self.assignable,
        };
        let param = Param { kind, bank: bank?, index: index? };
        (!param.is_null()).then_some(param)
    }
}

#[derive(Default)]
struct Receiver {
    running: Option<u8>,
    channels: [Registers; 16],
}

#[derive(Default)]
struct Exclusive {
    begun: Option<u64>,
    bytes: Vec<u8>,
}

#[cold]
fn list<N: Write>(notes: &mut N, offset: u64, group: usize, kind: &str) -> io::Result<()> {
    writeln!(notes, "{offset} {group} {kind}")
}

pub struct Down {
    room: usize,
    exclusives: [Exclusive; 16],
    receivers: Option<Box<[Receiver; 16]>>,
}

impl Down {
    pub fn new(room: usize, compact: bool) -> Self {
        Down { room, exclusives: Default::default(), receivers: compact.then(Default::default) }
    }

    /// Translates the whole packets of `input`, whose first byte has the offset `base`.
    /// Returns the number of bytes taken.
    pub fn packets<L: Lanes, N: Write>(
        &mut self,
        input: &[u8],
        base: u64,
        lanes: &mut L,
        notes: &mut N,
    ) -> Result<usize, Stop> {
        let mut at = 0;
        while let Some(head) = input.get(at..at + 4) {
            let first = u32::from_be_bytes(head.try_into().unwrap());
            let len = ump::words(first) * 4;
            let Some(rest) = input.get(at + 4..at + len) else { break };
            let second = rest.first_chunk().map_or(0, |b| u32::from_be_bytes(*b));
            self.packet(first, second, base + at as u64, lanes, notes)?;
            at += len;
        }
        Ok(at)
    }

    #[inline]
    pub fn packet<L: Lanes, N: Write>(
        &mut self,
        first: u32,
        second: u32,
        offset: u64,
        lanes: &mut L,
        notes: &mut N,
    ) -> Result<(), Stop> {
        let refuse = |reason| Stop::Refused(reason, offset);
        let packet = ump::decode(first, second).map_err(|bad| {
            refuse(match bad {
                Bad::BadCount => Reason::BadCount,
                Bad::HighBit => Reason::HighBit,
            })
        })?;
        let group = ump::group(first);
        let data_step = |index| match index {
            96 => Err(refuse(Reason::DataIncrement)),
            97 => Err(refuse(Reason::DataDecrement)),
            _ => Ok(()),
        };
        let mut list_at = |offset, kind| list(notes, offset, group, kind);
        let mut list = |kind| list_at(offset, kind);
        match packet {
            Packet::System { bytes, len } => self.system(group, &bytes[..usize::from(len)], lanes)?,
            Packet::Voice1 { bytes } => {
                if bytes[0] & 0xF0 == 0xB0 {
                    data_step(bytes[1])?;
                }
                if ump::one_data_byte(bytes[0]) {
                    self.voice(group, [bytes[0], bytes[1]], lanes)?;
                } else {
                    self.voice(group, bytes, lanes)?;
                }
            }
            Packet::Voice2 { channel, message } => match message {
                Voice2::NoteOff { note, velocity, attribute } => {
                    self.voice(group, [0x80 | channel, note, release_down(velocity)], lanes)?;
                    if attribute != 0 {
                        list("note-attribute")?;
                    }
                }
                Voice2::NoteOn { note, velocity, attribute } => {
                    self.voice(group, [0x90 | channel, note, velocity_down(velocity)], lanes)?;
                    if attribute != 0 {
                        list("note-attribute")?;
                    }
                }
                Voice2::PolyPressure { note, value } => {
                    self.voice(group, [0xA0 | channel, note, down7(value)], lanes)?
                }
                Voice2::Control { index: 0 | 6 | 32 | 38 | 98..=101, .. } => list("misplaced-controller")?,
                Voice2::Control { index, value } => {
                    data_step(index)?;
                    self.voice(group, [0xB0 | channel, index, down7(value)], lanes)?;
                }
                Voice2::Set { param, .. } | Voice2::Shift { param } if param.is_null() => list("null-parameter")?,
                Voice2::Shift { .. } => list("relative-parameter")?,
                Voice2::Set { param, value } => self.set(group, channel, param, down14(value), lanes)?,
                Voice2::Program { program, bank } => self.program(group, channel, program, bank, lanes)?,
                Voice2::Pressure { value } => self.voice(group, [0xD0 | channel, down7(value)], lanes)?,
                Voice2::Bend { value } => {
                    let w = down14(value);
                    self.voice(group, [0xE0 | channel, (w & 127) as u8, (w >> 7) as u8], lanes)?;
                }
                Voice2::NoteController => list("note-controller")?,
                Voice2::NoteBend => list("note-bend")?,
                Voice2::NoteManagement => list("note-management")?,
            },
            Packet::Exclusive { form, bytes, len } => {
                let room = self.room;
                let this = &mut self.exclusives[group];
                let cut = match form {
                    Form::Complete | Form::Start => {
                        this.bytes.clear();
                        this.bytes.push(0xF0);
                        this.begun.replace(offset)
                    }
                    Form::Continue | Form::End => {
                        if this.begun.is_none() {
                            list("stray-exclusive")?;
                            return Ok(());
                        }
                        if this.bytes.len() - 1 + usize::from(len) > room {
                            this.begun = None;
                            return Err(refuse(Reason::ExclusiveTooLong));
                        }
                        None
                    }
                };
                this.bytes.extend_from_slice(&bytes[..usize::from(len)]);
                if matches!(form, Form::Complete | Form::End) {
                    this.begun = None;
                    this.bytes.push(0xF7);
                    lanes.put(group, &this.bytes)?;
                    if let Some(receivers) = &mut self.receivers {
                        receivers[group].running = None;
                    }
                }
                if let Some(start) = cut {
                    list_at(start, "cut-exclusive")?;
                }
            }
            Packet::Data8 => list("data8")?,
            Packet::Flex => list("flex")?,
            Packet::Utility => writeln!(notes, "{offset} - utility")?,
            Packet::Stream => writeln!(notes, "{offset} - stream")?,
            Packet::Reserved => writeln!(notes, "{offset} - reserved")?,
        }
        Ok(())
    }

    /// Lists the exclusives that are still open.
    pub fn end<N: Write>(&self, notes: &mut N) -> io::Result<()> {
        for (group, this) in self.exclusives.iter().enumerate() {
            if let Some(start) = this.begun {
                writeln!(notes, "{start} {group} open-exclusive")?;
            }
        }
        Ok(())
    }

    fn system<L: Lanes>(&mut self, group: usize, bytes: &[u8], lanes: &mut L) -> io::Result<()> {
        if let Some(receivers) = &mut self.receivers {
            match bytes[0] {
                0xFF => receivers[group] = Receiver::default(),
                0xF0..=0xF7 => receivers[group].running = None,
                _ => {}
            }
        }
        lanes.put(group, bytes)
    }

    #[inline]
    fn voice<const N: usize, L: Lanes>(&mut self, group: usize, message: [u8; N], lanes: &mut L) -> io::Result<()> {
        let Some(receivers) = &mut self.receivers else {
            return lanes.put(group, &message);
        };
        let receiver = &mut receivers[group];
        if message[0] & 0xF0 == 0xB0 {
            receiver.channels[usize::from(message[0] & 15)].control(message[1], message[2]);
        }
        if receiver.running == Some(message[0]) {
            lanes.put(group, &message[1..])
        } else {
            receiver.running = Some(message[0]);
            lanes.put(group, &message)
        }
    }

    fn set<L: Lanes>(&mut self, group: usize, channel: u8, param: Param, w: u16, lanes: &mut L) -> io::Result<()> {
        let (msb, lsb) = match param.kind {
            Kind::Registered => (101, 100),
            Kind::Assignable => (99, 98),
        };
        let (high, low) = ((w >> 7) as u8, (w & 127) as u8);
        let b = 0xB0 | channel;
        match &self.receivers {
            None => lanes.put(group, &[b, msb, param.bank, b, lsb, param.index, b, 6, high, b, 38, low]),
            Some(receivers) => {
                if receivers[group].channels[usize::from(channel)].selected() != Some(param) {
                    self.voice(group, [b, msb, param.bank], lanes)?;
                    self.voice(group, [b, lsb, param.index], lanes)?;
                }
                self.voice(group, [b, 6, high], lanes)?;
                self.voice(group, [b, 38, low], lanes)
            }
        }
    }

    fn program<L: Lanes>(
        &mut self,
        group: usize,
        channel: u8,
        program: u8,
        bank: Option<(u8, u8)>,
        lanes: &mut L,
    ) -> io::Result<()> {
        if let Some((msb, lsb)) = bank {
            let known = self.receivers.as_ref().is_some_and(|receivers| {
                receivers[group].channels[usize::from(channel)].bank == (Some(msb), Some(lsb))
            });
            if !known {
                self.voice(group, [0xB0 | channel, 0, msb], lanes)?;
                self.voice(group, [0xB0 | channel, 32, lsb], lanes)?;
            }
        }
        self.voice(group, [0xC0 | channel, program], lanes)
    }
}
