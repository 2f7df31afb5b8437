//! `replay`, proved, beside the reference's, over random settings and captures: what they write on standard output
//! and on standard error. Both have to be built: `rt check replay`, and the reference by its own tests.
//!
//! COMPARE_SEED and COMPARE_CAPTURES give another seed and another number of captures.

use compare::captures::Captures;
use compare::{environment, programs};
use std::path::{Path, PathBuf};

const SEED: u64 = 0x0dcb_0e08;
const CAPTURES: u64 = 4_000;

/// Where an input's settings stand, and an input at which the programs differ.
fn file(name: &str) -> PathBuf {
    Path::new(env!("CARGO_TARGET_TMPDIR")).join(name)
}

/// How often each number of a report was not 0, and each last line was written.
#[derive(Debug, Default)]
struct Coverage {
    numbers: [Vec<u64>; 8],
    settled: u64,
    not_settled: u64,
    bad_settings: u64,
}

impl Coverage {
    fn note(&mut self, report: &str) {
        let lines: Vec<&str> = report.lines().collect();
        if lines == ["bad settings"] {
            self.bad_settings += 1;
            return;
        }
        assert_eq!(lines.len(), 9, "{report}");
        for (line, numbers) in lines.iter().zip(&mut self.numbers) {
            numbers.resize(line.split(' ').count(), 0);
            for (word, times) in line.split(' ').zip(numbers) {
                *times += u64::from(word != "0");
            }
        }
        match lines[8] {
            "not settled" => self.not_settled += 1,
            _ => self.settled += 1,
        }
    }

    fn all_occurred(&self) {
        let [lines, refusals, reasons @ ..] = &self.numbers;
        // A capture cannot stop a port, nor flag several neighbours.
        assert_eq!(refusals[..2], [0, 0]);
        let mut counted = lines.iter().chain(&refusals[2..]).chain(reasons.iter().flatten());
        assert!(counted.all(|&times| times > 0), "{self:?}");
        assert!(self.settled.min(self.not_settled).min(self.bad_settings) > 0, "{self:?}");
    }
}

#[test]
fn the_programs_agree() {
    let seed = environment::number("COMPARE_SEED", SEED);
    let captures = environment::number("COMPARE_CAPTURES", CAPTURES);
    println!("seed {seed:#x}, {captures} captures");
    let programs = programs("replay");
    let mut source = Captures::new(seed);
    let mut coverage = Coverage::default();
    for i in 0..captures {
        let input = source.next_input();
        let settings = file("replay.settings");
        std::fs::write(&settings, &input.settings).expect("the settings");
        let [engine, reference] = programs.each_ref().map(|program| input.run(program, &settings));
        if engine != reference {
            std::fs::write(file("replay.capture"), &input.capture).expect("the capture");
            panic!(
                "the programs differ at capture {i}: {}, {}{}\nengine: {engine:?}\nreference: {reference:?}",
                settings.display(),
                file("replay.capture").display(),
                if input.in_file { "" } else { " (one behind the other)" }
            );
        }
        coverage.note(&String::from_utf8_lossy(&reference.stdout));
    }
    println!("{coverage:?}");
    coverage.all_occurred();
}
