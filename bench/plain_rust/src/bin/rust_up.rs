//! rust_up < bytes: packets of group 0, and the listing on standard error.

use plain_rust::down::Stop;
use plain_rust::input::{Input, BUFFER, ROOM};
use plain_rust::up::{BigEndian, Up};
use std::io::{self, BufWriter, Write};
use std::process::ExitCode;

fn translate<W: Write, N: Write>(mut up: Up, output: &mut BigEndian<W>, notes: &mut N) -> Result<(), Stop> {
    let mut input = Input::new();
    while input.read()? {
        up.bytes(input.bytes(), input.offset, output, notes)?;
        input.pass_all();
    }
    Ok(up.end(notes)?)
}

fn main() -> ExitCode {
    let mut notes = BufWriter::new(io::stderr().lock());
    let mut output = BigEndian(BufWriter::with_capacity(BUFFER, io::stdout().lock()));
    let end = translate(Up::new(0, ROOM), &mut output, &mut notes);
    output.0.flush().expect("standard output");
    match end {
        Ok(()) => ExitCode::SUCCESS,
        Err(Stop::Refused(reason, offset)) => {
            writeln!(notes, "refused {reason:?} at {offset}").expect("standard error");
            ExitCode::from(1)
        }
        Err(Stop::Io(_)) => ExitCode::from(2),
    }
}
