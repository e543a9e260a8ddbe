//! What the program is asked to do, by the arguments it is started with.

use std::ffi::{OsStr, OsString};

#[derive(Clone, Copy, PartialEq, Eq, Debug)]
pub enum Mode {
    Listing,
    Room,
    Counts,
    Places,
    Serial,
    Cuts,
    Setup,
    Pack,
    Help,
}

pub const HELP: &str = "\
second: replays a batch of records on a 6545-1 controller and an MC6883 multiplexer,
        takes records off a serial line, counts what the frames of settings do, and
        reads and writes setup files

  second < batch              prints the listing of a batch of at most 4,096 bytes:
                              a line for each answer, then `end` and the ending number
  second --room < input       takes the first two bytes as the size of the output (high
                              byte first, at most 8,192) and the rest as the batch;
                              prints ending number, bytes taken and answers written as
                              hex, then the whole output, which holds a5 where nothing
                              was written
  second --counts < settings  prints a line of seven numbers for each of 1 to 64 settings
                              of sixteen bytes: the character times of its first frame
                              after reset that are in the picture, with display enable,
                              cursor, HSYNC and VSYNC high, then the sum of MA lines
                              changed and the largest single change; then `total` and
                              the totals; or just `refused 10`
  second --places < input     takes the first two bytes as the number of places (high
                              byte first, at most 1,024) and the rest as the settings;
                              prints the refusal number (0, 10 or 11), then every place
                              as hex, which holds a5a5a5a5a5a5a5a5 where nothing was
                              written
  second --serial < bytes     takes bytes as they come and as many as come; prints a
                              line of the listing as soon as a record is whole, and
                              `end` with the ending number when the input ends
  second --cuts < calls       takes a list of calls on one line, at most 4,096 bytes of
                              it: a byte 1, room and length in two bytes each (high
                              byte first) and a cut of that length; or a byte 2, which
                              closes the line; prints for each call what --room does,
                              for closing without an output; or just `no call`
  second --setup < file       prints the parts of a setup file, each on a line: the word
                              `registers`, `control` or `batch` and the bytes as hex;
                              or just `refused` and the number, or `too long` for more
                              than 4,200 bytes
  second --pack < input       takes a byte that adds up the parts there are (registers 1,
                              control bits 2, batch 4), two bytes as the size of the
                              output (high byte first) and then these parts, the batch
                              with no end of its own; writes the bytes of the setup
                              file, or none and on standard error `refused` and the
                              number, or just `no setup`
  second --help               prints this text
";

impl Mode {
    /// No argument asks for the listing, one known argument for its mode; with
    /// anything else, says what is wrong.
    pub fn asked_for(arguments: &[OsString]) -> Result<Mode, String> {
        let [argument, others @ ..] = arguments else {
            return Ok(Mode::Listing);
        };
        let mode = match argument.to_str() {
            Some("--room") => Mode::Room,
            Some("--counts") => Mode::Counts,
            Some("--places") => Mode::Places,
            Some("--serial") => Mode::Serial,
            Some("--cuts") => Mode::Cuts,
            Some("--setup") => Mode::Setup,
            Some("--pack") => Mode::Pack,
            Some("--help") => Mode::Help,
            _ => return Err(unexpected("unknown", argument)),
        };
        match others {
            [] => Ok(mode),
            [other, ..] => Err(unexpected("superfluous", other)),
        }
    }
}

fn unexpected(fault: &str, argument: &OsStr) -> String {
    let argument = argument.to_string_lossy();
    format!("{fault} argument `{argument}` (`second --help` lists those there are)")
}
