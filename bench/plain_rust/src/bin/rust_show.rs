//! rust_show < packets: a line for each packet, put together by write!. Of a refusal it says only the exit code.

use plain_rust::input::{Input, BUFFER};
use plain_rust::ump;
use std::io::{self, BufWriter, Write};
use std::process::ExitCode;

fn line<W: Write>(out: &mut W, offset: u64, words: &[u32]) -> io::Result<()> {
    write!(out, "{offset}")?;
    for word in words {
        write!(out, " {word:08X}")?;
    }
    let first = words[0];
    let second = words.get(1).copied().unwrap_or(0);
    let [_, b2, b3, b4] = first.to_be_bytes();
    let (group, channel) = (first >> 24 & 15, b2 & 15);
    match first >> 28 {
        0 if b2 >> 4 & 15 <= 4 => write!(out, " utility status={} value={}", b2 >> 4, first & 0xF_FFFF)?,
        1 => match b2 {
            0xF1 => write!(out, " system group={group} status=F1 value={b3}")?,
            0xF2 => write!(out, " system group={group} status=F2 value={}", u16::from(b4) << 7 | u16::from(b3))?,
            0xF3 => write!(out, " system group={group} status=F3 value={b3}")?,
            0xF6 | 0xF8 | 0xFA | 0xFB | 0xFC | 0xFE | 0xFF => write!(out, " system group={group} status={b2:02X}")?,
            _ => write!(out, " reserved")?,
        },
        2 => match b2 >> 4 {
            0x8 => write!(out, " m1-note-off group={group} channel={channel} note={b3} velocity={b4}")?,
            0x9 => write!(out, " m1-note-on group={group} channel={channel} note={b3} velocity={b4}")?,
            0xA => write!(out, " m1-poly group={group} channel={channel} note={b3} value={b4}")?,
            0xB => write!(out, " m1-control group={group} channel={channel} index={b3} value={b4}")?,
            0xC => write!(out, " m1-program group={group} channel={channel} program={b3}")?,
            0xD => write!(out, " m1-pressure group={group} channel={channel} value={b3}")?,
            0xE => {
                write!(out, " m1-bend group={group} channel={channel} value={}", u16::from(b4) << 7 | u16::from(b3))?
            }
            _ => write!(out, " reserved")?,
        },
        3 if b2 >> 4 < 4 => {
            let form = ["complete", "start", "continue", "end"][usize::from(b2 >> 4)];
            write!(out, " exclusive group={group} form={form} bytes=")?;
            let [b5, b6, b7, b8] = second.to_be_bytes();
            for byte in &[b3, b4, b5, b6, b7, b8][..usize::from(channel)] {
                write!(out, "{byte:02X}")?;
            }
        }
        4 => {
            let kind = if b2 & 0x10 == 0 { "registered" } else { "assignable" };
            match b2 >> 4 {
                0x0 | 0x1 => write!(
                    out,
                    " note-controller group={group} channel={channel} kind={kind} note={b3} index={b4} value={second}"
                )?,
                0x2 | 0x3 => write!(
                    out,
                    " parameter group={group} channel={channel} kind={kind} bank={b3} index={b4} value={second}"
                )?,
                0x4 | 0x5 => write!(
                    out,
                    " relative group={group} channel={channel} kind={kind} bank={b3} index={b4} value={second}"
                )?,
                0x6 => write!(out, " note-bend group={group} channel={channel} note={b3} value={second}")?,
                op @ (0x8 | 0x9) => {
                    let name = if op == 8 { "note-off" } else { "note-on" };
                    write!(
                        out,
                        " {name} group={group} channel={channel} note={b3} velocity={} type={b4} attribute={}",
                        second >> 16,
                        second & 0xFFFF
                    )?
                }
                0xA => write!(out, " poly group={group} channel={channel} note={b3} value={second}")?,
                0xB => write!(out, " control group={group} channel={channel} index={b3} value={second}")?,
                0xC => {
                    write!(out, " program group={group} channel={channel} program={}", second >> 24)?;
                    if b4 & 1 == 0 {
                        write!(out, " bank=none")?
                    } else {
                        write!(out, " bank={}/{}", second >> 8 & 255, second & 255)?
                    }
                }
                0xD => write!(out, " pressure group={group} channel={channel} value={second}")?,
                0xE => write!(out, " bend group={group} channel={channel} value={second}")?,
                0xF => write!(out, " note-management group={group} channel={channel} note={b3} flags={b4}")?,
                _ => write!(out, " reserved")?,
            }
        }
        5 => write!(out, " data8 group={group}")?,
        0xD => write!(out, " flex group={group}")?,
        0xF => write!(out, " stream format={} status={:03X}", first >> 26 & 3, first >> 16 & 0x3FF)?,
        _ => write!(out, " reserved")?,
    }
    out.write_all(b"\n")
}

fn lines<W: Write>(out: &mut W, bytes: &[u8], base: u64) -> io::Result<usize> {
    let mut at = 0;
    while let Some(head) = bytes.get(at..at + 4) {
        let first = u32::from_be_bytes(head.try_into().unwrap());
        let count = ump::words(first);
        let Some(packet) = bytes.get(at..at + 4 * count) else { break };
        let mut words = [0; 4];
        for (word, bytes) in words.iter_mut().zip(packet.chunks_exact(4)) {
            *word = u32::from_be_bytes(bytes.try_into().unwrap());
        }
        if ump::decode(first, words[1]).is_err() {
            return Err(io::ErrorKind::InvalidData.into());
        }
        line(out, base + at as u64, &words[..count])?;
        at += 4 * count;
    }
    Ok(at)
}

fn show() -> io::Result<bool> {
    let mut out = BufWriter::with_capacity(BUFFER, io::stdout().lock());
    let mut input = Input::new();
    while input.read()? {
        let taken = lines(&mut out, input.bytes(), input.offset)?;
        input.pass(taken);
    }
    out.flush()?;
    Ok(input.bytes().is_empty())
}

fn main() -> ExitCode {
    match show() {
        Ok(true) => ExitCode::SUCCESS,
        Ok(false) | Err(_) => ExitCode::from(1),
    }
}
