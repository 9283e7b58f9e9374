//! rust_down --folder F [--compact] < packets: a MIDI 1.0 stream for each group, in F, and the listing on standard error.

use plain_rust::down::{Down, Lanes, Reason, Stop};
use plain_rust::input::{Input, BUFFER, ROOM};
use std::fs::File;
use std::io::{self, BufWriter, Write};
use std::process::ExitCode;

// Out of line, the loop takes fewer instructions.
#[inline(never)]
fn translate<L: Lanes, N: Write>(mut down: Down, lanes: &mut L, notes: &mut N) -> Result<(), Stop> {
    let mut input = Input::new();
    while input.read()? {
        let taken = down.packets(input.bytes(), input.offset, lanes, notes)?;
        input.pass(taken);
    }
    if !input.bytes().is_empty() {
        return Err(Stop::Refused(Reason::Truncated, input.offset));
    }
    Ok(down.end(notes)?)
}

fn main() -> ExitCode {
    let words: Vec<String> = std::env::args().skip(1).collect();
    let is_compact = words.iter().any(|word| word == "--compact");
    let folder = words.iter().position(|word| word == "--folder").and_then(|at| words.get(at + 1)).expect("--folder F");
    let mut lanes: [BufWriter<File>; 16] = std::array::from_fn(|group| {
        let file = File::create(format!("{folder}/group-{group:02}.midi1")).expect("a file in the folder");
        BufWriter::with_capacity(BUFFER, file)
    });
    let mut notes = BufWriter::new(io::stderr().lock());
    let end = translate(Down::new(ROOM, is_compact), &mut lanes, &mut notes);
    lanes.iter_mut().for_each(|lane| lane.flush().expect("the rest of a file"));
    match end {
        Ok(()) => ExitCode::SUCCESS,
        Err(Stop::Refused(reason, offset)) => {
            writeln!(notes, "refused {reason:?} at {offset}").expect("standard error");
            ExitCode::from(1)
        }
        Err(Stop::Io(_)) => ExitCode::from(2),
    }
}
