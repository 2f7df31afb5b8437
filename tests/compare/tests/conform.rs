//! `conform`, proved, beside the reference's, over random settings and transcripts, over what `desk`, proved, makes of its
//! stored runs, and over W2's frame with one octet changed at every place: what they write on standard output and on
//! standard error. All have to be built: `rt check conform desk`, and the reference by its own tests.
//!
//! COMPARE_SEED and COMPARE_TRANSCRIPTS give another seed and another number of transcripts.

use compare::captures::Input;
use compare::desk_runs::{self, Transcript};
use compare::transcripts::Transcripts;
use compare::words::hex;
use compare::{environment, programs};
use std::path::{Path, PathBuf};

const SEED: u64 = 0x0dcb_0e12;
const TRANSCRIPTS: u64 = 2_000;

/// Where an input's settings stand, and an input at which the programs differ.
fn file(name: &str) -> PathBuf {
    Path::new(env!("CARGO_TARGET_TMPDIR")).join(name)
}

/// What both programs write on standard output. The names of the files are the test's own.
fn verdict(test: &str, input: &Input) -> String {
    let settings = file(&format!("conform-{test}.settings"));
    std::fs::write(&settings, &input.settings).expect("the settings");
    let [engine, reference] = programs("conform").map(|program| input.run(&program, &settings));
    if engine != reference {
        let capture = file(&format!("conform-{test}.capture"));
        std::fs::write(&capture, &input.capture).expect("the capture");
        panic!(
            "the programs differ at {}, {}{}\nengine: {engine:?}\nreference: {reference:?}",
            settings.display(),
            capture.display(),
            if input.in_file { "" } else { " (one behind the other)" }
        );
    }
    String::from_utf8(reference.stdout).expect("ASCII")
}

/// What has to occur in rejected verdicts.
const TOLD: [&str; 19] = [
    "\nframe, ",
    "\ncontrol, ",
    "\npriority groups, ",
    "\nflow control, ",
    "\napplications, ",
    "\napplications, entry 2 ",
    "\nbehind the end: ",
    ": sent nothing, ",
    "\nthe port is stopped: ",
    "\ndue since its creation\n",
    "\ndue since line ",
    "\nstate as its creation ",
    "\nstate as line ",
    "\nport running 1 ",
    "\nport running 0 ",
    " revision 1.0\n",
    " broken 1\n",
    " waits released oper ",
    " waits released none\n",
];

#[derive(Debug, Default)]
struct Coverage {
    accepted: u64,
    rejected: u64,
    bad_settings: u64,
    /// Frames that were compared, and lines up to a rejected frame.
    compared: u64,
    lines: u64,
    told: [u64; TOLD.len()],
}

impl Coverage {
    fn note(&mut self, verdict: &str) {
        let number = |word: &str| word.parse::<u64>().expect("a number");
        let words: Vec<&str> = verdict.lines().next().expect("a line").split(' ').collect();
        match words[..] {
            ["accepted", frames] => {
                self.accepted += 1;
                self.compared += number(frames);
            }
            ["rejected", "line", line, "place", _] => {
                self.rejected += 1;
                self.lines += number(line);
                for (told, times) in TOLD.iter().zip(&mut self.told) {
                    *times += u64::from(verdict.contains(told));
                }
            }
            _ => {
                assert_eq!(verdict, "bad settings\n");
                self.bad_settings += 1;
            }
        }
    }

    fn all_occurred(&self) {
        assert!(self.accepted.min(self.rejected).min(self.bad_settings) > 0, "{self:?}");
        assert!(self.told.iter().all(|&times| times > 0), "{self:?}");
    }
}

#[test]
fn the_programs_agree() {
    let seed = environment::number("COMPARE_SEED", SEED);
    let transcripts = environment::number("COMPARE_TRANSCRIPTS", TRANSCRIPTS);
    println!("seed {seed:#x}, {transcripts} transcripts");
    let mut source = Transcripts::new(seed);
    let mut coverage = Coverage::default();
    for _ in 0..transcripts {
        coverage.note(&verdict("random", &source.next_input()));
    }
    println!(
        "{} accepted with {} frames, {} rejected on line {} on average\n{coverage:?}",
        coverage.accepted,
        coverage.compared,
        coverage.rejected,
        coverage.lines / coverage.rejected.max(1)
    );
    coverage.all_occurred();
}

/// What was done to a port and what it answered, line by line, is a capture that is accepted (docs/FORMATS.md).
#[test]
fn what_desk_shows_is_accepted() {
    let [desk, _] = programs("desk");
    let (mut judged, mut frames) = (0, 0);
    for run in desk_runs::all() {
        let Some(Transcript { input, lines, sent }) = run.transcript(&desk) else {
            continue;
        };
        let verdict = verdict("desk", &input);
        let due = format!("accepted {sent}\n{lines} lines: {sent} sent, ");
        assert!(verdict.starts_with(&due), "{}: {due}.. is due\n{verdict}", run.name);
        judged += 1;
        frames += sent;
    }
    println!("{judged} runs of desk with {frames} frames");
    assert!(judged >= 25 && frames >= 75, "{judged} runs with {frames} frames");
}

const W2_SETTINGS: &str = "\
control max 0
groups max 0 advertise 1 enable 1 willing 0 priorities 0 0 0 1 0 0 0 0 percentages 50 50 0 0 0 0 0 0 classes 2
flow max 0 advertise 1 enable 1 willing 0 mask 08 classes 8
applications max 0 advertise 1 enable 1 willing 0 ethertype 8906 08
";
const W2: [u8; 57] = [
    0xfe, 0x37, 0x00, 0x1b, 0x21, 0x02, 0x02, 0x0a, 0x00, 0x00, 0x00, 0x00, 0x00, 0x01, 0x00, 0x00,
    0x00, 0x00, 0x04, 0x11, 0x00, 0x00, 0x80, 0x00, 0x00, 0x01, 0x00, 0x00, 0x32, 0x32, 0x00, 0x00,
    0x00, 0x00, 0x00, 0x00, 0x02, 0x06, 0x06, 0x00, 0x00, 0x80, 0x00, 0x08, 0x08, 0x08, 0x0a, 0x00,
    0x00, 0x80, 0x00, 0x89, 0x06, 0x00, 0x1b, 0x21, 0x08,
];

/// The first line of the verdict on W2's end that sent this frame.
fn w2_verdict(frame: &[u8]) -> String {
    let settings = W2_SETTINGS.as_bytes().to_vec();
    let capture = format!("A {}\n", hex(frame)).into_bytes();
    let verdict = verdict("w2", &Input { settings, capture, in_file: false });
    verdict.lines().next().expect("a line").to_string()
}

/// One octet changed at every place, cut there, or one too many.
#[test]
fn every_place_of_w2_is_named() {
    assert_eq!(w2_verdict(&W2), "accepted 1");
    for place in 0..W2.len() {
        let named = format!("rejected line 1 place {place}");
        for bit in [0x01, 0x80] {
            let mut frame = W2;
            frame[place] ^= bit;
            assert_eq!(w2_verdict(&frame), named);
        }
        assert_eq!(w2_verdict(&W2[..place]), named);
    }
    assert_eq!(w2_verdict(&[&W2[..], &[0]].concat()), "rejected line 1 place 57");
}
