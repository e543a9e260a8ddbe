"""The words of the programs that go on for as long as there is input: `serial`, cut after cut, and `cuts`, call after call.

Their loops are all that they decide themselves: what is made of the bytes, and what is said of a failure, proved functions decide."""

SERIAL = r"""#![tactic(auto)]

use line::Line;
use serial_text::{space, tell, tell_end};
use std::convert::AsSlice;
use std::io::{Read, Write};
use streams::complain;
use text::said;

#[derive(Clone, Copy, PartialEq, Eq)]
enum Stop {
    Ended,
    Unread,
    Unwritten,
}

fn one_turn(rt: &HostRuntime, line: &mut Line) -> Result<(), Stop> {
    let mut cut = space();
    let n = rt.stdin().read(&mut cut).map_err(|_| Stop::Unread)?;
    let told = tell(*line, &cut[..n]);
    *line = told.line;
    Write::write_all(&mut rt.stdout(), told.text.as_slice()).map_err(|_| Stop::Unwritten)?;
    if n == 0 { Err(Stop::Ended) } else { Ok(()) }
}

fn all_turns(rt: &HostRuntime, line: &mut Line) -> Result<(), Stop> {
    for _ in 0..u64::MAX {
        one_turn(rt, line)?;
    }
    Ok(())
}

fn main(rt: HostRuntime) {
    let mut line = Line::fresh();
    let stop = all_turns(&rt, &mut line);
    let last = tell_end(line);
    let shown = said(stop == Err(Stop::Ended), last.as_slice());
    let written = Write::write_all(&mut rt.stdout(), shown).is_ok();
    let all_written = written & (stop != Err(Stop::Unwritten));
    complain(&rt, stop != Err(Stop::Unread), all_written);
}
"""

CUTS = r"""#![tactic(auto)]

use cuts_text::{is_list, make, refusal};
use line::Line;
use std::convert::AsSlice;
use std::io;
use std::io::Write;
use streams::{complain, read_input};
use text::{Text, said};

fn all_calls(rt: &HostRuntime, list: &[u8]) -> io::Result<()> {
    let mut line = Line::fresh();
    let mut rest = list;
    let mut text = Text::new();
    for _ in 0..list.len() {
        let Some(made) = make(line, rest, &mut text) else {
            break;
        };
        Write::write_all(&mut rt.stdout(), text.as_slice())?;
        line = made.line;
        rest = &rest[made.used..];
    }
    Ok(())
}

fn main(rt: HostRuntime) {
    let mut room = [0u8; cuts_text::INPUT + 1];
    let came = read_input(&mut rt.stdin(), &mut room);
    let readable = came.is_ok();
    let input: &[u8] = &room[..came.unwrap_or(0)];
    let listed = is_list(input);
    let refused = Write::write_all(&mut rt.stdout(), said(readable & !listed, &refusal()));
    let shown = all_calls(&rt, said(readable & listed, input));
    complain(&rt, readable, refused.is_ok() & shown.is_ok());
}
"""
