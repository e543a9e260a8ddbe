//! The program: a batch, the bytes of a serial line or a setup on standard input,
//! and on standard output its listing, its whole output, its counts or its file.

use std::env;
use std::ffi::OsString;
use std::io::{self, Read, Write};
use std::process::ExitCode;

use second::counts::{counts_text, places_text, MOST_COUNTS_INPUT_BYTES, MOST_PLACES_INPUT_BYTES};
use second::cuts::{cuts_text, MOST_CUTS_INPUT_BYTES};
use second::listing::{listing, MOST_INPUT_BYTES};
use second::mode::{Mode, HELP};
use second::room::{room_text, MOST_ROOM_INPUT_BYTES};
use second::serial::{serial, SerialFailure};
use second::setup::{packed, setup_text, MOST_SETUP_INPUT_BYTES};

const READING_OR_WRITING_FAILED: u8 = 1;
const ARGUMENT_REFUSED: u8 = 2;

fn main() -> ExitCode {
    let arguments: Vec<OsString> = env::args_os().skip(1).collect();
    match Mode::asked_for(&arguments) {
        Err(message) => failure(ARGUMENT_REFUSED, &message),
        Ok(mode) => match run(mode) {
            Err(message) => failure(READING_OR_WRITING_FAILED, &message),
            Ok(()) => ExitCode::SUCCESS,
        },
    }
}

fn failure(code: u8, message: &str) -> ExitCode {
    // Nothing more can be done if even this message cannot be written.
    let _ = writeln!(io::stderr(), "second: {message}");
    ExitCode::from(code)
}

fn run(mode: Mode) -> Result<(), String> {
    let text = match mode {
        Mode::Listing => listing(&read(MOST_INPUT_BYTES)?),
        Mode::Room => room_text(&read(MOST_ROOM_INPUT_BYTES)?),
        Mode::Counts => counts_text(&read(MOST_COUNTS_INPUT_BYTES)?),
        Mode::Places => places_text(&read(MOST_PLACES_INPUT_BYTES)?),
        Mode::Cuts => cuts_text(&read(MOST_CUTS_INPUT_BYTES)?),
        Mode::Setup => setup_text(&read(MOST_SETUP_INPUT_BYTES)?),
        Mode::Serial => return run_serial(),
        Mode::Pack => return run_pack(),
        Mode::Help => String::from(HELP),
    };
    write(io::stdout().lock(), text.as_bytes())
}

/// Standard output is for the file alone; why there is none goes to standard error.
fn run_pack() -> Result<(), String> {
    match packed(&read_all()?) {
        Ok(file) => write(io::stdout().lock(), &file),
        Err(line) => write(io::stderr().lock(), line.as_bytes()),
    }
}

fn run_serial() -> Result<(), String> {
    serial(io::stdin().lock(), io::stdout().lock()).map_err(|failure| match failure {
        SerialFailure::Reading(error) => cannot_read(error),
        SerialFailure::Writing(error) => cannot_write(error),
    })
}

/// Reads one byte more than is allowed, so that an input too long is noticed.
fn read(most: usize) -> Result<Vec<u8>, String> {
    let mut input = Vec::new();
    io::stdin()
        .lock()
        .take(most as u64 + 1)
        .read_to_end(&mut input)
        .map_err(cannot_read)?;
    Ok(input)
}

fn read_all() -> Result<Vec<u8>, String> {
    let mut input = Vec::new();
    io::stdin()
        .lock()
        .read_to_end(&mut input)
        .map_err(cannot_read)?;
    Ok(input)
}

fn write(mut output: impl Write, bytes: &[u8]) -> Result<(), String> {
    output
        .write_all(bytes)
        .and_then(|()| output.flush())
        .map_err(cannot_write)
}

fn cannot_read(error: io::Error) -> String {
    format!("cannot read the batch: {error}")
}

fn cannot_write(error: io::Error) -> String {
    format!("cannot write the output: {error}")
}
