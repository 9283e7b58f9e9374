//! One packet to MIDI 1.0 bytes, over the crate of `bindings/rust`: `cargo run --example down` there.

use larboardyuzu::{Down, Error, Flags};

fn main() -> Result<(), Error> {
    let mut down = Down::open(1024, Flags::NONE)?;
    let mut bytes = [0; 1026];
    let piece = down.packet(&[0x4090_3C00, 0xC924_0000], 0, &mut bytes)?;
    let text: String = bytes[..piece.written]
        .iter()
        .map(|byte| format!(" {byte:02X}"))
        .collect();
    println!("group {}:{text}", piece.lane);
    Ok(())
}
