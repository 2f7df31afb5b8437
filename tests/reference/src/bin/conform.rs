//! Judges what one end sent, line by line of its capture (docs/FORMATS.md).

use reference::capture::Cutter;
use reference::conform::Conform;
use reference::program::{self, Progress, Source};
use reference::setup::{self, Failure};
use reference::text::{Fault, Lines, Text};
use std::fs::File;

const USAGE: &str = "\
usage: conform [FILE] < CAPTURE

Tells whether all that one end sent is what our rules write at that point. In
the capture a line with A is a frame that it sent, a line with B a frame that it
was given; gone, admin, receive, transmit, several and set change it as they do
at desk, and other lines are passed over. The end's settings are read from FILE,
or without it from standard input, where the capture begins right behind them.

Example:
control max 0
groups max 0 advertise 1 enable 1 willing 0 priorities 0 0 0 1 0 0 0 0 percentages 50 50 0 0 0 0 0 0 classes 2
flow max 0 advertise 1 enable 1 willing 0 mask 08 classes 8
applications max 0 advertise 1 enable 1 willing 0 ethertype 8906 08
A fe37001b2102020a00000000000100000000041100008000000100003232000000000000020606000080000808080a000080008906001b2108
B fe10001b2102020a00000000000100000001
set flow advertise 1 enable 1 willing 1 mask 08 classes 8
A fe37001b2102020a000000000002000000010411000080000001000032320000000000000206060000c0000808080a000080008906001b2108

docs/FORMATS.md describes the settings, the capture and the verdict.
";

/// Judges all lines that are left, up to the first frame that is rejected.
fn judge(
    lines: &mut Lines<File, File>,
    conform: &mut Conform,
    out: &mut Text,
) -> Result<(), Fault> {
    let mut progress = Progress::new("conform");
    let mut cutter = Cutter::default();
    while !conform.rejected() {
        match lines.next_block(out)? {
            [] => {
                cutter.end(|line| conform.line(line));
                break;
            }
            block => cutter.feed(block, |line| conform.line(line)),
        }
        progress.show(conform.counts.lines);
    }
    Ok(())
}

fn run(source: Source) -> Result<(), Failure> {
    let (input, behind, capture) = source.inputs()?;
    let mut lines = Lines::new(input, program::output()?);
    let mut out = Text::default();
    let read = setup::one_end(&mut lines, behind, &mut out);
    let mut conform = Conform::new(&program::settings(behind, read)?);
    if let Some(capture) = capture {
        lines.turn_to(capture);
    }
    judge(&mut lines, &mut conform, &mut out)?;
    conform.verdict(&mut out);
    Ok(lines.write(&mut out)?)
}

fn main() {
    program::start("conform", USAGE, program::bad_settings, run);
}
