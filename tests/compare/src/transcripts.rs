//! Random inputs of `conform` (docs/FORMATS.md): settings of one end, and what it sent and was given, mostly with
//! some damage.

use crate::captures::{self, Input, MISTAKES};
use crate::words::{event_words, hex};
use reference::events::{random, Call, Event, Generator};
use reference::layout::LONGEST_FRAME;
use reference::rng::XorShift;
use reference::text::Text;
use reference::Port;

/// Makes inputs without end.
pub struct Transcripts {
    rng: XorShift,
    generator: Generator,
}

/// The judged end and the other one at the generator.
const JUDGED: u8 = 1;
const OTHER: u8 = 2;

/// How often a transcript has what, in a hundred.
struct Mix {
    /// Rounds of both ends, in place of events from anywhere.
    rounds: u32,
    /// A frame that is sent behind an event.
    writes: u32,
    /// Lines that are passed over.
    others: u32,
    /// A frame that is sent while stopped.
    stopped: u32,
}

/// What `desk` is asked and answers, and what else is passed over.
const OTHERS: [&str; 16] = [
    "",
    "#",
    "# gone",
    "write 147",
    "show",
    "take",
    "done send",
    "done notices 1",
    "notice 9 peer-gone port",
    "refused 1 not-running",
    "error 3: word 1: an event is due",
    "control max 0",
    "1 gone",
    "1 A fe",
    "admin 2",
    "set 3",
];

impl Transcripts {
    pub fn new(seed: u64) -> Self {
        Transcripts { rng: XorShift::new(seed), generator: Generator::new(!seed) }
    }

    pub fn next_input(&mut self) -> Input {
        let rng = &mut self.rng;
        let judged = random::settings(rng);
        let other = random::settings_near(rng, &judged);
        let in_file = rng.flip();
        self.generator.start_ends(&[judged, other]);
        let port = &self.generator.recorder().ports()[..1];
        let settings = captures::settings(&mut self.rng, port, in_file);
        let mut lines = self.transcript();
        let rng = &mut self.rng;
        for _ in 0..rng.pick(&[0, 0, 1, 1, 2, 2, 3, 6]) {
            damage(rng, &mut lines);
        }
        let mut capture = lines.join(&b'\n');
        if !lines.is_empty() && rng.percent(70) {
            capture.push(b'\n');
        }
        Input { settings, capture, in_file }
    }

    /// What the judged end sends and is given, and what is changed there.
    fn transcript(&mut self) -> Vec<Vec<u8>> {
        let rng = &mut self.rng;
        let steps = match rng.below(100) {
            0..=19 => rng.below(6),
            20..=96 => rng.below(60),
            _ => 200 + rng.below(400),
        };
        let mix = Mix {
            rounds: rng.pick(&[100, 95, 80, 50, 20, 0]),
            writes: rng.pick(&[100, 80, 30]),
            others: rng.pick(&[0, 0, 10, 60]),
            stopped: rng.pick(&[0, 0, 2]),
        };
        let mut lines = Vec::new();
        for _ in 0..steps {
            if self.rng.percent(mix.others) {
                lines.push(self.rng.pick(&OTHERS).as_bytes().to_vec());
            }
            if self.rng.percent(mix.rounds) {
                self.round(&mut lines);
            } else {
                self.event(&mut lines);
            }
            if self.judged().running() {
                // Now and then several in a row.
                while self.rng.percent(mix.writes / 2) {
                    lines.extend(self.sent());
                }
            } else if self.rng.percent(mix.stopped) {
                let octets = self.rng.below(100) as usize;
                lines.push(format!("A {}", hex(&self.rng.octets(octets))).into_bytes());
            }
        }
        lines
    }

    fn judged(&self) -> &Port {
        self.generator.recorder().port(JUDGED).expect("an end")
    }

    /// What an end writes; none while it is stopped.
    fn written(&self, end: u8) -> Option<Vec<u8>> {
        let mut octets = [0; LONGEST_FRAME];
        let length = self.generator.recorder().write(end, &mut octets).ok()?;
        Some(octets[..length].to_vec())
    }

    /// The line of what the judged end sends.
    fn sent(&self) -> Option<Vec<u8>> {
        self.written(JUDGED).map(|frame| format!("A {}", hex(&frame)).into_bytes())
    }

    /// Both ends write, then each is given the other's frame, if it is not lost.
    fn round(&mut self, lines: &mut Vec<Vec<u8>>) {
        let frames = [JUDGED, OTHER].map(|end| self.written(end));
        lines.extend(self.sent());
        if self.rng.percent(8) {
            let change = self.generator.event(OTHER);
            Call { port: OTHER, event: change }.apply(self.generator.recorder_mut());
        }
        let [ours, theirs] = frames;
        if let Some(frame) = ours.filter(|_| self.rng.percent(95)) {
            // A refusal is as good as a loss.
            let _ = self.generator.recorder_mut().frame(OTHER, &frame);
        }
        if let Some(frame) = theirs.filter(|_| self.rng.percent(95)) {
            lines.push(format!("B {}", hex(&frame)).into_bytes());
            let _ = self.generator.recorder_mut().frame(JUDGED, &frame);
        }
    }

    /// Anything that may happen at the judged end, and now and then a change in the words of settings.
    fn event(&mut self, lines: &mut Vec<Vec<u8>>) {
        let call = Call { port: JUDGED, event: self.generator.event(JUDGED) };
        let Some(mut line) = event_words(&call.event) else {
            return;
        };
        let answer = call.apply(self.generator.recorder_mut());
        if let Event::Change { feature, .. } = call.event {
            if answer.refusal == 0 && self.rng.flip() {
                line = setting_in_words(self.judged(), feature);
            }
        }
        lines.push(line.into_bytes());
        if answer.length > 0 {
            lines.extend(self.sent());
        }
    }
}

/// The present setting of a feature as a change.
fn setting_in_words(port: &Port, feature: u8) -> String {
    let mut text = Text::default();
    match feature {
        2 => text.settings_line(port.groups()),
        3 => text.settings_line(port.flow()),
        _ => text.settings_line(port.applications()),
    };
    let line = String::from_utf8(text.0).expect("ASCII");
    let words: Vec<&str> = line.split(' ').collect();
    // Without `max N`.
    format!("set {} {}", words[0], words[3..].join(" "))
}

/// One thing that is wrong, mostly late in the transcript; some do no harm.
fn damage(rng: &mut XorShift, lines: &mut Vec<Vec<u8>>) {
    if lines.is_empty() {
        return;
    }
    let count = lines.len() as u32;
    let at = rng.below(count).max(rng.below(count)) as usize;
    let next = (at + 1) % lines.len();
    match rng.below(12) {
        0..=2 => frame_damage(rng, lines),
        3 => drop(lines.remove(at)),
        4 => lines.insert(at, lines[at].clone()),
        5 => lines.swap(at, next),
        6 => lines[at].make_ascii_uppercase(),
        7 => lines[at].push(rng.pick(b"\r 0\t")),
        // A stale line, or one of another moment.
        8 => lines[at] = lines[rng.below(count) as usize].clone(),
        // The other sender.
        9 => match lines[at].first_mut() {
            Some(sender @ (b'A' | b'B')) => *sender ^= b'A' ^ b'B',
            _ => lines[at].insert(0, b'A'),
        },
        // Longer than what is read at once.
        10 if rng.percent(5) => lines[at] = vec![rng.pick(b"A #0"); 70_000],
        _ if lines[at].is_empty() => lines[at].push(b'A'),
        _ => {
            let place = rng.below(lines[at].len() as u32) as usize;
            lines[at][place] = rng.pick(MISTAKES);
        }
    }
}

/// Octets changed, cut or added in a frame that was sent, if there is one.
fn frame_damage(rng: &mut XorShift, lines: &mut [Vec<u8>]) {
    let sent: Vec<usize> = (0..lines.len()).filter(|&i| lines[i].starts_with(b"A ")).collect();
    let Some(last) = sent.len().checked_sub(1) else {
        return;
    };
    let at = rng.below(last as u32 + 1).max(rng.below(last as u32 + 1)) as usize;
    let line = &mut lines[sent[at]];
    let octets = (line.len() as u32 - 2) / 2;
    match rng.below(8) {
        0 => line.truncate(2 + 2 * rng.below(octets + 1) as usize),
        1 => {
            let more = 1 + rng.below(4) as usize;
            line.extend(hex(&rng.octets(more)).bytes());
        }
        _ if octets == 0 => {}
        // One digit, now and then a second one.
        chance => {
            for _ in 0..1 + u32::from(chance == 2) {
                let place = 2 + rng.below(2 * octets) as usize;
                line[place] = rng.pick(b"0123456789abcdef");
            }
        }
    }
}
