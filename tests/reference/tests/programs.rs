//! The programs over the stored runs, and faults of input and output.

use reference::text::{Fault, Lines, Text};
use std::collections::VecDeque;
use std::io::{self, ErrorKind, Read, Write};
use std::path::Path;
use std::process::Command;

#[test]
fn the_stored_runs_are_theirs() {
    let programs = Path::new(env!("CARGO_BIN_EXE_desk")).parent().expect("a folder");
    let check = Path::new(env!("CARGO_MANIFEST_DIR")).join("../runs/check.sh");
    let output = Command::new(check).arg(programs).output().expect("check.sh");
    assert!(output.status.success(), "{}", String::from_utf8_lossy(&output.stdout));
}

/// An input that gives these parts or failures in turn, then its end.
struct Parts(VecDeque<Result<&'static [u8], ErrorKind>>);

impl Read for Parts {
    fn read(&mut self, buffer: &mut [u8]) -> io::Result<usize> {
        let part = self.0.pop_front().unwrap_or(Ok(b""))?;
        buffer[..part.len()].copy_from_slice(part);
        Ok(part.len())
    }
}

/// Answers each line with itself, and gives what was written and how it ended.
fn echo<const N: usize>(
    parts: [Result<&'static [u8], ErrorKind>; N],
) -> (Vec<u8>, Result<(), Fault>) {
    let mut written = Vec::new();
    let end = echo_to(Parts(parts.into()), &mut written);
    (written, end)
}

fn echo_to(input: impl Read, output: impl Write) -> Result<(), Fault> {
    let mut lines = Lines::new(input, output);
    let mut out = Text::default();
    while let Some((number, line)) = lines.next(&mut out)? {
        out.number(number).put(" ").0.extend_from_slice(line);
        out.put("\n");
    }
    lines.write(&mut out)
}

#[test]
fn the_last_line_may_lack_its_feed() {
    assert_eq!(echo([Ok(b"one\n\ntw"), Ok(b"o")]), (b"1 one\n3 two\n".to_vec(), Ok(())));
}

#[test]
fn an_interrupted_read_is_tried_again() {
    let (written, end) = echo([Ok(b"on"), Err(ErrorKind::Interrupted), Ok(b"e\n")]);
    assert_eq!((&written[..], end), (&b"1 one\n"[..], Ok(())));
}

#[test]
fn a_failed_read_is_not_the_end() {
    let (written, end) = echo([Ok(b"one\ntake"), Err(ErrorKind::Other)]);
    assert_eq!((&written[..], end), (&b"1 one\n"[..], Err(Fault::Read)));
}

/// What comes behind one line, block by block, and how it ended.
fn blocks<const N: usize>(
    parts: [Result<&'static [u8], ErrorKind>; N],
) -> (Vec<Vec<u8>>, Result<(), Fault>) {
    let mut lines = Lines::new(Parts(parts.into()), Vec::new());
    let mut out = Text::default();
    let mut blocks = Vec::new();
    assert_eq!(lines.next(&mut out), Ok(Some((1, &b"one"[..]))));
    loop {
        match lines.next_block(&mut out) {
            Ok([]) => return (blocks, Ok(())),
            Ok(block) => blocks.push(block.to_vec()),
            Err(fault) => return (blocks, Err(fault)),
        }
    }
}

#[test]
fn blocks_begin_right_behind_a_line() {
    let told = blocks([Ok(b"o"), Ok(b"ne\n\n# tw"), Ok(b"o"), Ok(b"\n")]);
    assert_eq!(told, (vec![b"\n# tw".to_vec(), b"o".to_vec(), b"\n".to_vec()], Ok(())));
    let told = blocks([Ok(b"one\n"), Ok(b"two")]);
    assert_eq!(told, (vec![b"two".to_vec()], Ok(())));
    assert_eq!(blocks([Ok(b"one")]), (vec![], Ok(())));
}

#[test]
fn blocks_know_a_failure_from_the_end() {
    let told =
        blocks([Ok(b"one\n"), Err(ErrorKind::Interrupted), Ok(b"A "), Err(ErrorKind::Other)]);
    assert_eq!(told, (vec![b"A ".to_vec()], Err(Fault::Read)));
}

/// An output that takes nothing.
struct Shut;

impl Write for Shut {
    fn write(&mut self, _: &[u8]) -> io::Result<usize> {
        Ok(0)
    }

    fn flush(&mut self) -> io::Result<()> {
        Ok(())
    }
}

#[test]
fn a_write_that_takes_nothing_stops_the_reading() {
    let mut endless = Parts(std::iter::repeat_n(Ok(&b"one\n"[..]), 1000).collect());
    assert_eq!(echo_to(&mut endless, Shut), Err(Fault::Write));
    assert_eq!(endless.0.len(), 999);
}
