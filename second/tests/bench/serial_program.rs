//! The built program on a serial line: a real pipe that is written to while its
//! answers are read.

use std::io::{BufRead, BufReader, Write};
use std::process::{Child, ChildStdin, ChildStdout, Command, Stdio};
use std::sync::mpsc::{self, Receiver, RecvTimeoutError};
use std::thread;
use std::time::Duration;

use crate::listing::{SETTLED_INPUT, SETTLED_LISTING};
use crate::program::prints_with;
use crate::room::{CLOCK, CLOCKED, FETCH, FETCHED};

/// Long enough for an answer on a busy machine.
const PATIENCE: Duration = Duration::from_secs(20);

/// Long enough to notice most answers that come too early.
const PAUSE: Duration = Duration::from_millis(100);

/// The program while it runs. Its lines are read aside, so that waiting for one
/// that never comes is a failure and not a standstill.
struct Running {
    child: Child,
    lines: Receiver<String>,
}

impl Running {
    fn on(input: Stdio) -> Running {
        let mut child = Command::new(env!("CARGO_BIN_EXE_second"))
            .arg("--serial")
            .stdin(input)
            .stdout(Stdio::piped())
            .stderr(Stdio::piped())
            .spawn()
            .expect("the program starts");
        let output = child.stdout.take().expect("it has a standard output");
        Running {
            child,
            lines: lines_of(output),
        }
    }

    fn on_pipe() -> (Running, ChildStdin) {
        let mut running = Running::on(Stdio::piped());
        let input = running.child.stdin.take().expect("it is a pipe");
        (running, input)
    }

    fn next_line(&self) -> String {
        self.lines
            .recv_timeout(PATIENCE)
            .expect("a line comes in time")
    }

    fn is_silent(&self) -> bool {
        self.lines.recv_timeout(PAUSE) == Err(RecvTimeoutError::Timeout)
    }

    /// Waits until the output ends, with no line left, and for the exit code.
    fn ends_with(&mut self, code: i32) {
        let after_last = self.lines.recv_timeout(PATIENCE);
        assert_eq!(after_last, Err(RecvTimeoutError::Disconnected));
        let status = self.child.wait().expect("the program ends");
        assert_eq!(status.code(), Some(code));
    }
}

impl Drop for Running {
    /// Leaves no program behind when a test fails; one that has ended stays so.
    fn drop(&mut self) {
        let _ = self.child.kill();
        let _ = self.child.wait();
    }
}

fn lines_of(output: ChildStdout) -> Receiver<String> {
    let (sender, receiver) = mpsc::channel();
    thread::spawn(move || {
        let mut output = BufReader::new(output);
        let mut line = String::new();
        while output.read_line(&mut line).is_ok_and(|length| length > 0) {
            let whole = std::mem::take(&mut line);
            if sender.send(whole).is_err() {
                break;
            }
        }
    });
    receiver
}

fn prints_serial(input: &[u8], expected: &str) {
    prints_with(&["--serial"], input, expected);
}

#[test]
fn the_program_answers_each_record_before_more_bytes_come() {
    let (mut running, mut input) = Running::on_pipe();
    let records = SETTLED_INPUT.chunks(4);
    for (record, line) in records.zip(SETTLED_LISTING.split_inclusive('\n')) {
        input.write_all(record).expect("the program reads");
        assert_eq!(running.next_line(), line);
    }
    drop(input);
    assert_eq!(running.next_line(), "end 0\n");
    running.ends_with(0);
}

#[test]
fn the_program_waits_for_the_last_byte_of_a_record() {
    let (mut running, mut input) = Running::on_pipe();
    for byte in &FETCH[..3] {
        input.write_all(&[*byte]).expect("the program reads");
        assert!(running.is_silent());
    }
    input
        .write_all(&[FETCH[3], 7, 0, 1])
        .expect("the program reads");
    assert_eq!(running.next_line(), FETCHED);
    assert!(running.is_silent());
    input.write_all(&[0, 7]).expect("the program reads");
    assert_eq!(running.next_line(), "0700000200020001\n");
    assert!(running.is_silent());
    drop(input);
    assert_eq!(running.next_line(), "end 3\n");
    running.ends_with(0);
}

#[test]
fn the_program_takes_whole_inputs_off_the_line() {
    prints_serial(&SETTLED_INPUT, SETTLED_LISTING);
    prints_serial(&[], "end 0\n");
    for length in 1..4 {
        prints_serial(&CLOCK[..length], "end 3\n");
        let input = [&CLOCK, &CLOCK[..length]].concat();
        prints_serial(&input, &(String::from(CLOCKED) + "end 3\n"));
    }
}

/// The most memory the program has had so far, in kilobytes.
#[cfg(target_os = "linux")]
fn most_memory(running: &Running) -> u64 {
    let path = format!("/proc/{}/status", running.child.id());
    let status = std::fs::read_to_string(path).expect("the program runs");
    let line = status.lines().find_map(|line| line.strip_prefix("VmHWM:"));
    let number = line.and_then(|line| line.trim().strip_suffix(" kB"));
    number.expect("it is told").parse().expect("it is a number")
}

#[cfg(target_os = "linux")]
#[test]
fn the_program_takes_any_length_without_more_memory() {
    let (mut running, mut input) = Running::on_pipe();
    let some = CLOCK.repeat(10_000);
    let mut put_in = || {
        for part in some.chunks(4_000) {
            input.write_all(part).expect("the program reads");
            for _ in 0..part.len() / 4 {
                assert_eq!(running.next_line(), CLOCKED);
            }
        }
    };
    put_in();
    let before = most_memory(&running);
    for _ in 0..40 {
        put_in();
    }
    let more = most_memory(&running).saturating_sub(before);
    assert!(more < 500, "{more} kB more for 1,600 kB of input");
    drop(input);
    assert_eq!(running.next_line(), "end 0\n");
    running.ends_with(0);
}

#[cfg(target_os = "linux")]
#[test]
fn the_program_says_so_when_the_line_fails_half_way() {
    use std::io::Read;
    use std::os::fd::OwnedFd;
    use std::os::unix::net::UnixStream;

    let (mut port, mut program_side) = UnixStream::pair().expect("a pair is there");
    // A port that goes away with bytes unread makes the other side's reads fail.
    program_side.write_all(&[0]).expect("the pair is open");
    let mut running = Running::on(Stdio::from(OwnedFd::from(program_side)));
    port.write_all(&[3, 0, 1, 0, 3, 0]).expect("it is open");
    assert_eq!(running.next_line(), CLOCKED);
    assert!(running.is_silent());
    drop(port);
    running.ends_with(1);
    let mut message = String::new();
    let mut errors = running.child.stderr.take().expect("it is a pipe");
    errors.read_to_string(&mut message).expect("it is text");
    assert!(message.starts_with("second: cannot read the batch"));
}

#[cfg(target_os = "linux")]
#[test]
fn the_program_says_so_when_its_answers_cannot_be_written() {
    let full = std::fs::OpenOptions::new()
        .write(true)
        .open("/dev/full")
        .expect("it opens");
    let unwritten = Command::new(env!("CARGO_BIN_EXE_second"))
        .arg("--serial")
        .stdin(Stdio::null())
        .stdout(full)
        .stderr(Stdio::piped())
        .spawn()
        .and_then(|child| child.wait_with_output())
        .expect("the program starts and ends");
    assert_eq!(unwritten.status.code(), Some(1));
    assert!(String::from_utf8_lossy(&unwritten.stderr).starts_with("second: cannot write"));
}
