//! Replays a capture at two ports and counts what happens (docs/FORMATS.md).

use reference::capture::Cutter;
use reference::program::{self, Progress, Source};
use reference::replay::Replay;
use reference::setup::{self, Failure};
use reference::text::{Fault, Lines, Text};
use std::fs::File;

const USAGE: &str = "\
usage: replay [FILE] < CAPTURE

Gives each frame of a capture to the port of the other end, and counts frames,
refusals, what became of each feature, and the frames until both ends settled.
The settings of A, then those of B, are read from FILE, or without it from
standard input, where the capture begins right behind them.

Example:
control max 0
groups max 0 advertise 1 enable 1 willing 0 priorities 0 0 0 1 0 0 0 0 percentages 50 50 0 0 0 0 0 0 classes 2
flow max 0 advertise 1 enable 1 willing 0 mask 08 classes 8
applications max 0 advertise 1 enable 1 willing 0 ethertype 8906 08
control max 0
groups max 0 advertise 1 enable 1 willing 0 priorities 0 0 0 1 0 0 0 0 percentages 50 50 0 0 0 0 0 0 classes 2
flow max 0 advertise 1 enable 1 willing 0 mask 10 classes 8
applications max 0 advertise 1 enable 1 willing 0 ethertype 8906 08
A fe10001b2102020a00000000000100000000
B fe10001b2102020a00000000000100000001

docs/FORMATS.md describes the settings, the capture and the report.
";

/// Counts all lines that are left.
fn count(lines: &mut Lines<File, File>, replay: &mut Replay, out: &mut Text) -> Result<(), Fault> {
    let mut progress = Progress::new("replay");
    let mut cutter = Cutter::default();
    loop {
        match lines.next_block(out)? {
            [] => break,
            block => cutter.feed(block, |line| replay.line(line)),
        }
        progress.show(replay.counts.lines());
    }
    cutter.end(|line| replay.line(line));
    Ok(())
}

fn run(source: Source) -> Result<(), Failure> {
    let (input, behind, capture) = source.inputs()?;
    let mut lines = Lines::new(input, program::output()?);
    let mut out = Text::default();
    let read = setup::two_ends(&mut lines, behind, &mut out);
    let mut replay = Replay::new(&program::settings(behind, read)?);
    if let Some(capture) = capture {
        lines.turn_to(capture);
    }
    count(&mut lines, &mut replay, &mut out)?;
    replay.counts.report(&mut out);
    Ok(lines.write(&mut out)?)
}

fn main() {
    program::start("replay", USAGE, program::bad_settings, run);
}
