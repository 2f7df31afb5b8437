//! The stored runs of `desk` (tests/runs/desk) as a person sees them: each line, and behind it what `desk` answers.

use crate::captures::Input;
use reference::words::Line;
use std::fs::{self, File};
use std::path::{Path, PathBuf};
use std::process::Command;

/// One stored run at port 1.
pub struct Run {
    pub name: String,
    /// The input, and the file with the settings if they do not stand in it.
    input: PathBuf,
    file: Option<PathBuf>,
}

/// What a person sees of a run, as an input of `conform`.
pub struct Transcript {
    pub input: Input,
    /// The lines behind the settings, and the frames among `desk`'s answers.
    pub lines: usize,
    pub sent: usize,
}

/// The runs, in the order of their names, without those that write a usage.
pub fn all() -> Vec<Run> {
    let folder = Path::new(env!("CARGO_MANIFEST_DIR")).join("../runs/desk");
    let mut inputs: Vec<PathBuf> = fs::read_dir(&folder)
        .expect("the stored runs")
        .map(|entry| entry.expect("a stored run").path())
        .filter(|path| path.extension().is_some_and(|extension| extension == "in"))
        .collect();
    inputs.sort();
    inputs.into_iter().filter_map(run).collect()
}

fn run(input: PathBuf) -> Option<Run> {
    let name = input.file_stem().expect("a name").to_str().expect("ASCII").to_string();
    let Ok(arguments) = fs::read_to_string(input.with_extension("arguments")) else {
        return Some(Run { name, input, file: None });
    };
    // As check.sh gives it: a name in the folder of the runs.
    let file = input.with_file_name(arguments.trim_end());
    file.is_file().then_some(Run { name, input, file: Some(file) })
}

impl Run {
    /// None of a run whose settings `desk` does not take, and none of these two:
    ///
    /// - A line begins with a port. Its answer does too, and `conform`, which knows one end and no ports, passes both
    ///   over: it would miss what was done to the port. Of such a run the lines of one port are a transcript, without
    ///   the port in front, and that is no longer what a person sees.
    /// - `desk` is given an `A` line. That is an error there, and nothing happens; to `conform` it is a frame that the
    ///   end sent, which it did not.
    pub fn transcript(&self, desk: &Path) -> Option<Transcript> {
        let mut settings = Vec::new();
        let mut events = lines(&self.input);
        match &self.file {
            Some(file) => settings = lines(file),
            None => settings.extend(events.drain(..settings_end(&events))),
        }
        let left_out =
            |line: &Vec<u8>| Line::with_port(line).port.is_some() || line.starts_with(b"A");
        if settings.iter().chain(&events).any(left_out) {
            return None;
        }
        let wrote = self.answers(desk);
        if wrote.starts_with("bad settings") {
            return None;
        }
        let capture = seen(&events, self.file.is_some(), &wrote);
        Some(Transcript {
            lines: capture.iter().filter(|&&octet| octet == b'\n').count(),
            sent: wrote.lines().filter(|line| line.starts_with("A ")).count(),
            input: Input { settings: ended(&settings), capture, in_file: self.file.is_some() },
        })
    }

    /// What `desk` writes, one process for the run.
    fn answers(&self, desk: &Path) -> String {
        let input = File::open(&self.input).expect("the input");
        let output = Command::new(desk)
            .args(&self.file)
            .stdin(input)
            .output()
            .unwrap_or_else(|error| panic!("{}: {error}", desk.display()));
        assert!(output.status.success() && output.stderr.is_empty(), "{}: {output:?}", self.name);
        String::from_utf8(output.stdout).expect("ASCII")
    }
}

/// The lines of a file, without their line feeds.
fn lines(path: &Path) -> Vec<Vec<u8>> {
    let octets = fs::read(path).unwrap_or_else(|error| panic!("{}: {error}", path.display()));
    let mut lines: Vec<Vec<u8>> =
        octets.split(|&octet| octet == b'\n').map(<[u8]>::to_vec).collect();
    // What stands behind the last line feed is a line unless it is empty.
    if lines.last().is_some_and(Vec::is_empty) {
        lines.pop();
    }
    lines
}

/// Each line with a line feed.
fn ended(lines: &[Vec<u8>]) -> Vec<u8> {
    lines.iter().flat_map(|line| [line, &b"\n"[..]].concat()).collect()
}

/// A line that `desk` does not answer.
fn passed_over(line: &[u8]) -> bool {
    matches!(line.first(), None | Some(b'#'))
}

/// How many lines it is to the end of the settings: four of one port, or three of Rev 1.0, and what is passed over
/// before and between them.
fn settings_end(lines: &[Vec<u8>]) -> usize {
    let mut read = (0..lines.len()).filter(|&i| !passed_over(&lines[i]));
    let Some(control) = read.next() else {
        return lines.len();
    };
    let mut words = lines[control].split(|&octet| octet == b' ').filter(|word| !word.is_empty());
    let old = words.next_back() == Some(b"1.0");
    read.nth(if old { 1 } else { 2 }).map_or(lines.len(), |last| last + 1)
}

/// The events with their answers. That to the creation is written before any event is read if the settings stand in a
/// file, otherwise once the first event, or the end of the input, was.
fn seen(events: &[Vec<u8>], in_file: bool, wrote: &str) -> Vec<u8> {
    let mut answers = Answers(wrote);
    let mut seen = Vec::new();
    let mut created = false;
    if in_file {
        answers.one(&mut seen);
        created = true;
    }
    for line in events {
        seen.extend(line);
        seen.push(b'\n');
        if passed_over(line) {
            continue;
        }
        if !created {
            answers.one(&mut seen);
            created = true;
        }
        answers.one(&mut seen);
    }
    if !created {
        answers.one(&mut seen);
    }
    assert_eq!(answers.0, "", "behind the last answer");
    seen
}

/// What `desk` wrote and is not yet taken.
struct Answers<'a>(&'a str);

impl<'a> Answers<'a> {
    /// Takes one answer: a line and the notices that it announces, or what `show` writes, up to the line of the log and
    /// the notices that are held.
    fn one(&mut self, seen: &mut Vec<u8>) {
        let mut line = self.line(seen);
        if line.starts_with("port running ") {
            while !line.starts_with("log held ") {
                line = self.line(seen);
            }
        }
        let words: Vec<&str> = line.split(' ').collect();
        let notices = match words[..] {
            ["log", "held", count, "dropped", _] | [.., "notices", count] => count.parse(),
            _ => Ok(0),
        };
        for _ in 0..notices.expect("a number") {
            let notice = self.line(seen);
            assert!(notice.starts_with("notice "), "{notice} is no notice");
        }
    }

    fn line(&mut self, seen: &mut Vec<u8>) -> &'a str {
        let (line, rest) = self.0.split_once('\n').expect("a line of an answer");
        self.0 = rest;
        seen.extend(line.bytes());
        seen.push(b'\n');
        line
    }
}
