//! Packets from standard input to MIDI 1.0 bytes, a block at a time, over the crate of `bindings/rust`. What a reader of a pipe or
//! of a device file needs: bytes that end within a packet, packets that are refused, and buffers that are full.
//!
//! It prints a line for each piece, each line of the listing and each refusal: `cargo run --example blocks < FILE`.

use larboardyuzu::{down_size, packets_in, parts, Down, Error, Flags, Piece};
use std::io::{self, Read};

const ROOM: u32 = 1024;

/// Cuts input into packets, and keeps the first bytes of one that isn't whole.
#[derive(Default)]
struct Cutter {
    bytes: Vec<u8>,
}

impl Cutter {
    /// Adds bytes, and returns the words of the packets that are whole.
    fn words(&mut self, more: &[u8]) -> Vec<u32> {
        self.bytes.extend_from_slice(more);
        let mut words = vec![0; self.bytes.len() / 4];
        let block = packets_in(&self.bytes, &mut words, Flags::NONE);
        self.bytes.drain(..block.taken);
        words.truncate(block.written);
        words
    }
}

/// Takes the words of whole packets, and prints what becomes of them. `offset` is that of the first.
fn translate(
    down: &mut Down,
    words: &[u32],
    offset: u64,
    bytes: &mut [u8],
    pieces: &mut [Piece],
) -> Result<(), Error> {
    let offset_of = |at: usize| offset + 4 * at as u64;
    let mut at = 0;
    while at < words.len() {
        let block = down.packets(&words[at..], offset_of(at), bytes, pieces);
        for (piece, part) in parts(&pieces[..block.items], bytes) {
            if !part.is_empty() {
                println!("group {}: {}", piece.lane, hexadecimal(part));
            }
            if let Some(line) = piece.line() {
                println!("{} at {}", line.kind, line.offset);
            }
        }
        at += block.taken;
        match block.end {
            Err(error) if block.refused > 0 => {
                println!("{error} at {}", offset_of(at - block.refused))
            }
            Err(error) if block.taken == 0 => return Err(error),
            _ => (),
        }
    }
    Ok(())
}

fn hexadecimal(bytes: &[u8]) -> String {
    bytes
        .iter()
        .map(|byte| format!("{byte:02X}"))
        .collect::<Vec<_>>()
        .join(" ")
}

fn main() -> Result<(), Box<dyn std::error::Error>> {
    let mut down = Down::open(ROOM, Flags::NONE)?;
    let (mut bytes, mut pieces) = (vec![0; 4 * down_size(ROOM)], [Piece::default(); 64]);
    let (mut cutter, mut offset, mut input) = (Cutter::default(), 0, [0; 4096]);
    loop {
        let count = io::stdin().read(&mut input)?;
        if count == 0 {
            break;
        }
        let words = cutter.words(&input[..count]);
        translate(&mut down, &words, offset, &mut bytes, &mut pieces)?;
        offset += 4 * words.len() as u64;
    }
    if !cutter.bytes.is_empty() {
        println!(
            "{} bytes at {offset} are no whole packet",
            cutter.bytes.len()
        );
    }
    Ok(())
}
