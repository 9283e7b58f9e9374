//! A program without `std` and without `malloc`: the library takes its memory from a block of the program (heap.rs).
//! It prints the MIDI 1.0 bytes of a few packets, and shows that a handle can be reopened any number of times and that
//! a block that is too small is an error.
//!
//! On a board `print` writes to a UART, and the entry point is the board's. This one runs on Linux, so that it can be
//! tried: the C library starts it, and it calls `write`, `memcpy` and their like alone.

#![no_std]
#![no_main]

mod heap;

use core::ffi::{c_int, c_void};
use core::fmt::{self, Write};
use core::panic::PanicInfo;
use larboardyuzu::{down_size, exclusive_packets, packets_of, Down, Error, Flags, Sysex8};

#[link(name = "c")]
extern "C" {
    fn write(descriptor: c_int, bytes: *const c_void, count: usize) -> isize;
}

/// Where the program prints.
struct Output;

impl Write for Output {
    fn write_str(&mut self, text: &str) -> fmt::Result {
        // SAFETY: the pointer and size are those of a string.
        let written = unsafe { write(1, text.as_ptr().cast(), text.len()) };
        if usize::try_from(written) == Ok(text.len()) {
            Ok(())
        } else {
            Err(fmt::Error)
        }
    }
}

const ROOM: u32 = 64;

enum Failure {
    Library(Error),
    Output,
}

impl From<Error> for Failure {
    fn from(error: Error) -> Failure {
        Failure::Library(error)
    }
}

impl From<fmt::Error> for Failure {
    fn from(_: fmt::Error) -> Failure {
        Failure::Output
    }
}

/// Prints the bytes of one packet, unless it has none.
fn translate(down: &mut Down, packet: &[u32]) -> Result<(), Failure> {
    let mut bytes = [0; 66];
    let piece = down.packet(packet, 0, &mut bytes)?;
    if piece.written > 0 {
        write!(Output, "group {}:", piece.lane)?;
        for byte in &bytes[..piece.written] {
            write!(Output, " {byte:02X}")?;
        }
        writeln!(Output)?;
    }
    Ok(())
}

fn run() -> Result<(), Failure> {
    let mut down = Down::open(ROOM, Flags::NONE)?;
    assert!(down_size(ROOM) == 66);
    // A note of one word, and one of two.
    for packet in packets_of(&[0x2090_3C64, 0x4390_3C00, 0xC924_0000]) {
        translate(&mut down, packet)?;
    }
    for packet in exclusive_packets(1, &[0x7D, 1, 2, 3, 4, 5, 6]) {
        translate(&mut down, &packet?)?;
    }
    drop(down);
    for _ in 0..1000 {
        let _down = Down::open(ROOM, Flags::NONE)?;
        let _joiner = Sysex8::open(1, ROOM)?;
    }
    writeln!(Output, "opened 1000 times")?;
    if let Err(error) = Down::open(1024 * 1024, Flags::NONE) {
        writeln!(Output, "a room of a megabyte: {error}")?;
    }
    Ok(())
}

#[no_mangle]
extern "C" fn main() -> c_int {
    match run() {
        Ok(()) => 0,
        Err(Failure::Library(error)) => {
            let _ = writeln!(Output, "refused: {error}");
            1
        }
        Err(Failure::Output) => 1,
    }
}

#[panic_handler]
fn panic(_: &PanicInfo) -> ! {
    loop {}
}

/// The `core` of a target with an operating system names this function, which a panic that aborts never calls.
#[no_mangle]
extern "C" fn rust_eh_personality() {}
