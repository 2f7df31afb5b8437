//! Random inputs of `replay` (docs/FORMATS.md): settings of two ends, and captures of what they and others write.

use crate::words::hex;
use reference::events::{random, Generator};
use reference::layout::LONGEST_FRAME;
use reference::rng::XorShift;
use reference::text::Text;
use reference::Port;
use std::io::{ErrorKind, Write};
use std::path::Path;
use std::process::{Command, Output, Stdio};

/// The most parts that an input is written in.
const PARTS: usize = 8;

/// One input, whose settings stand in front of the capture or in a file of their own.
#[derive(Debug)]
pub struct Input {
    pub settings: Vec<u8>,
    pub capture: Vec<u8>,
    pub in_file: bool,
}

impl Input {
    /// Runs a program over it, part by part. This file has the settings.
    pub fn run(&self, program: &Path, settings: &Path) -> Output {
        let mut command = Command::new(program);
        let mut octets = self.capture.clone();
        if self.in_file {
            command.arg(settings);
        } else {
            octets.splice(..0, self.settings.iter().copied());
        }
        let piped = command.stdin(Stdio::piped()).stdout(Stdio::piped()).stderr(Stdio::piped());
        let mut child =
            piped.spawn().unwrap_or_else(|error| panic!("{}: {error}", program.display()));
        let mut stdin = child.stdin.take().expect("piped");
        for part in octets.chunks(octets.len() / PARTS + 1) {
            match stdin.write_all(part) {
                // Not all is always read.
                Err(error) if error.kind() == ErrorKind::BrokenPipe => break,
                written => written.expect("the input"),
            }
        }
        drop(stdin);
        child.wait_with_output().expect("the output")
    }
}

/// Makes inputs without end.
pub struct Captures {
    rng: XorShift,
    generator: Generator,
}

/// The port of each end at the generator.
const A: u8 = 1;
const B: u8 = 2;

/// What a line or a word may hold by mistake.
pub(crate) const MISTAKES: &[u8] = b" \t\r\n#,;:0123456789abcdefgABFGx/`\0\x7f\xff";

impl Captures {
    pub fn new(seed: u64) -> Self {
        Captures { rng: XorShift::new(seed), generator: Generator::new(!seed) }
    }

    pub fn next_input(&mut self) -> Input {
        let rng = &mut self.rng;
        let a = random::settings(rng);
        let b = random::settings_near(rng, &a);
        let in_file = rng.flip();
        self.generator.start_ends(&[a, b]);
        let ports = &self.generator.recorder().ports()[..2];
        let settings = settings(&mut self.rng, ports, in_file);
        Input { settings, capture: self.capture(), in_file }
    }

    fn capture(&mut self) -> Vec<u8> {
        let rng = &mut self.rng;
        let lines = match rng.below(100) {
            0..=29 => rng.below(6),
            30..=95 => rng.below(80),
            _ => 500 + rng.below(1500),
        };
        let exchanged = rng.pick(&[100, 90, 50, 50, 20, 0]);
        let others = rng.pick(&[0, 0, 5, 20, 100]);
        let mut text = Vec::new();
        for _ in 0..lines {
            if self.rng.percent(others) {
                self.other(&mut text);
            } else if self.rng.percent(exchanged) {
                self.round(&mut text);
            } else {
                let to = self.rng.pick(&[A, B]);
                let state = self.generator.recorder().port(to).expect("an end").clone();
                let frame = self.generator.frame(to, &state);
                self.give(to, &frame, &mut text);
            }
        }
        let rng = &mut self.rng;
        match rng.below(10) {
            0 => text.truncate(rng.below(text.len() as u32 + 1) as usize),
            1..=3 => drop(text.pop()),
            _ => {}
        }
        text
    }

    /// Both ends write, then each is given the other's frame, if it is not lost.
    fn round(&mut self, text: &mut Vec<u8>) {
        let frames = [A, B].map(|from| {
            let mut octets = [0; LONGEST_FRAME];
            let length = self.generator.recorder().write(from, &mut octets).expect("room");
            octets[..length].to_vec()
        });
        let mut given = [(B, &frames[0]), (A, &frames[1])];
        if self.rng.percent(20) {
            given.reverse();
        }
        for (to, frame) in given {
            if self.rng.percent(95) {
                self.give(to, frame, text);
            }
        }
    }

    /// A frame is a line of the capture, and the end handles it if such a line is a frame.
    fn give(&mut self, to: u8, frame: &[u8], text: &mut Vec<u8>) {
        text.extend(frame_line(to, frame));
        if frame.len() <= 513 {
            // A refusal is as good as a loss.
            let _ = self.generator.recorder_mut().frame(to, frame);
        }
    }

    /// A line that is mostly no frame.
    fn other(&mut self, text: &mut Vec<u8>) {
        let rng = &mut self.rng;
        let to = rng.pick(&[A, B]);
        let count = match rng.below(8) {
            0 => 0,
            1 => 512 + rng.below(4),
            2 => rng.below(1200),
            _ => rng.below(100),
        };
        let octets = rng.octets(count as usize);
        let mut line = frame_line(to, &octets);
        line.pop();
        match rng.below(14) {
            0 => line.clear(),
            1 => line = [b"# ", &line[..]].concat(),
            2 => line = octets,
            3 => line.make_ascii_uppercase(),
            4 => drop(line.pop()),
            5 => line.push(rng.pick(b"0 \r\t;")),
            6 => line.truncate(rng.below(4) as usize),
            7 => line[0] = rng.pick(b"abCD #0"),
            8 => line.insert(rng.below(3) as usize, b' '),
            9 => line = b"control max 0".to_vec(),
            // Longer than what is read at once.
            10 if rng.percent(5) => line = line.repeat(1 + 200_000 / (line.len() + 1)),
            _ => {
                let place = rng.below(line.len() as u32) as usize;
                line[place] = rng.pick(MISTAKES);
            }
        }
        text.extend(line);
        text.push(b'\n');
    }
}

fn frame_line(to: u8, frame: &[u8]) -> Vec<u8> {
    let sender = if to == A { 'B' } else { 'A' };
    format!("{sender} {}\n", hex(frame)).into_bytes()
}

/// The lines of settings, now and then with something wrong.
pub(crate) fn settings(rng: &mut XorShift, ports: &[Port], in_file: bool) -> Vec<u8> {
    let mut text = Text::default();
    for port in ports {
        text.settings_lines(port);
    }
    let mut lines: Vec<Vec<u8>> =
        text.0.split_inclusive(|&octet| octet == b'\n').map(<[u8]>::to_vec).collect();
    if rng.percent(8) {
        mistake(rng, &mut lines);
    }
    if rng.percent(30) {
        // Behind the last line they are the capture's, but in a file.
        let places = lines.len() as u32 + u32::from(in_file);
        for _ in 0..1 + rng.below(4) {
            let line = rng.pick(&[&b"\n"[..], b"#\n", b"# A fe\r\n", b"#control max 0\n"]);
            lines.insert(rng.below(places) as usize, line.to_vec());
        }
    }
    let mut text = lines.concat();
    if in_file && rng.percent(20) {
        text.pop();
    }
    text
}

/// One line too few or too many, an octet or a number that is wrong, or a carriage return. Some of these can be
/// read all the same.
fn mistake(rng: &mut XorShift, lines: &mut Vec<Vec<u8>>) {
    let at = rng.below(lines.len() as u32) as usize;
    let line = &mut lines[at];
    let place = rng.below(line.len() as u32 - 1) as usize;
    match rng.below(6) {
        0 => drop(lines.remove(at)),
        1 => {
            let again = line.clone();
            lines.insert(at, again);
        }
        2 => line[place] = rng.pick(MISTAKES),
        3 => drop(line.remove(place)),
        4 => line.insert(line.len() - 1, b'\r'),
        _ => {
            let digits: Vec<usize> =
                (0..line.len()).filter(|&i| line[i].is_ascii_digit()).collect();
            let digit = digits[rng.below(digits.len() as u32) as usize];
            line[digit] = rng.pick(b"0123456789");
        }
    }
}
