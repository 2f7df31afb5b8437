//! The proved engine beside the reference, on the same input in the same run:
//! nanoseconds for one operation, and their ratio; frames are handled and written
//! at the four ports of a recorder in turn. Then the engine's four ports in turn
//! beside the same call at a port alone. `make bench` from the top.
//! Words behind `bench` name the rows to be measured, each by its start.

use compare::{engine, programs, script, words};
use reference::events::{OwnedSetting, OwnedSettings};
use reference::layout::{self, Found, LONGEST_FRAME};
use reference::rounds::Ends;
use reference::text::Text;
use reference::{Recorder, Revision, Setting, PORTS};
use std::hint::black_box;
use std::io::Write;
use std::path::Path;
use std::process::{Command, Stdio};
use std::time::{Duration, Instant};

/// Operations in one measurement, and measurements of each side; the shortest counts.
const TIMES: usize = 10_000;
const MEASUREMENTS: usize = 100;
/// Frames that are read or handled in turn.
const FRAMES: usize = 64;
const LINES: usize = 1_000_000;

/// W2's settings with so many applications.
fn settings(applications: u8) -> OwnedSettings {
    let setting =
        |parameters| OwnedSetting { advertise: true, enable: true, willing: false, parameters };
    let entries = (0..applications).flat_map(|i| [0x89, 0x06 + i, 0, 0x1b, 0x21, 8]).collect();
    OwnedSettings {
        revision: Revision::R1_01,
        control_max: 0,
        feature: [
            (0, setting(vec![0, 1, 0, 0, 50, 50, 0, 0, 0, 0, 0, 0, 2])),
            (0, setting(vec![8, 8])),
            (0, setting(entries)),
        ],
    }
}

/// A recorder whose four ports have these settings.
fn recorder(settings: &OwnedSettings) -> Recorder {
    let mut recorder = Recorder::blank();
    for port in 1..=PORTS as u8 {
        recorder.create(port, &settings.lend()).expect("valid settings");
    }
    recorder
}

/// Frames of the other end, SeqNo going up, AckNo right. With `clash` each second
/// one that a port is given has another flow control mask, so that Error comes and
/// goes, if so many ports are given them in turn.
fn frames(settings: &OwnedSettings, clash: Option<usize>) -> (Vec<u8>, usize) {
    let mut octets = [0; LONGEST_FRAME];
    let size = recorder(settings).write(1, &mut octets).expect("room");
    let mut frames = Vec::new();
    for i in 0..FRAMES {
        let frame = &mut octets[..size];
        frame[13] = i as u8;
        frame[17] = 1;
        if let Some(ports) = clash {
            let mask = 6 + 12 + 19 + 6;
            frame[mask] = if i / ports % 2 == 0 { 0x10 } else { 0x08 };
        }
        frames.extend_from_slice(frame);
    }
    (frames, size)
}

/// The frames with so many of others' entries before their own, which stand last.
fn among_foreign(frames: &[u8], size: usize, count: usize) -> (Vec<u8>, usize) {
    let foreign = [0x89, 0x06, 0x00, 0x0e, 0x87, 0x10].repeat(count);
    let first = 6 + 12 + 19 + 8 + 6;
    let mut longer = Vec::new();
    for frame in frames.chunks_exact(size) {
        let (before, own) = frame.split_at(first);
        let start = longer.len();
        longer.extend([before, &foreign, own].concat());
        let head = layout::head(layout::TLV_TYPE, longer.len() - start - 2);
        longer[start..start + 2].copy_from_slice(&head);
        let head = layout::head(layout::APPLICATIONS, 4 + foreign.len() + own.len());
        longer[start + first - 6..start + first - 4].copy_from_slice(&head);
    }
    (longer, size + foreign.len())
}

#[inline(never)]
fn read_many(frames: &[u8], size: usize, times: usize) -> u64 {
    let all = frames.chunks_exact(size).cycle();
    all.take(times).fold(0, |sum: u64, frame| {
        let place = |found| match found {
            Found::Once(body) => body.as_ptr() as u64 - frame.as_ptr() as u64 + body.len() as u64,
            _ => 0,
        };
        let seen = match layout::read(frame, Revision::R1_01) {
            Ok(read) => place(read.groups) + place(read.flow) + place(read.applications),
            Err(refusal) => refusal.number.into(),
        };
        sum.wrapping_add(seen)
    })
}

#[inline(never)]
fn handle_many(settings: &OwnedSettings, frames: &[u8], size: usize, times: usize) -> u64 {
    let mut recorder = recorder(settings);
    let all = frames.chunks_exact(size).cycle().zip((1..=PORTS as u8).cycle());
    all.take(times).fold(0, |sum: u64, (frame, port)| {
        let told = match recorder.frame(port, frame) {
            Ok(wish) => wish.into(),
            Err(refusal) => refusal.number.into(),
        };
        sum.wrapping_add(told)
    })
}

#[inline(never)]
fn write_many(settings: &OwnedSettings, times: usize, out: &mut [u8]) -> u64 {
    let recorder = recorder(settings);
    (1..=PORTS as u8).cycle().take(times).fold(0, |sum: u64, port| {
        let told = match black_box(&recorder).write(port, out) {
            Ok(_) => out[17].into(),
            Err(number) => number.into(),
        };
        sum.wrapping_add(told)
    })
}

fn time<T>(work: impl FnOnce() -> T) -> (Duration, T) {
    let start = Instant::now();
    let result = black_box(work());
    (start.elapsed(), result)
}

/// Whether a row is to be measured.
fn wanted(name: &str) -> bool {
    let mut starts = std::env::args().skip(1).peekable();
    starts.peek().is_none() || starts.any(|start| name.starts_with(&start))
}

/// Measures two sides in turn; they must come to the same.
fn compare(name: &str, bar: &str, mut one: impl FnMut() -> u64, mut other: impl FnMut() -> u64) {
    if !wanted(name) {
        return;
    }
    let mut best = [Duration::MAX; 2];
    for _ in 0..MEASUREMENTS {
        let (first, a) = time(&mut one);
        let (second, b) = time(&mut other);
        assert_eq!(a, b, "{name}: the two come to different sums");
        best = [best[0].min(first), best[1].min(second)];
    }
    let [one, other] = best.map(|time| time.as_nanos() as f64 / TIMES as f64);
    row(name, one, other, bar);
}

fn heading(one: &str, other: &str) {
    println!("{:50} {one:>10} {other:>10} {:>8} {:>6}", "nanoseconds", "ratio", "bar");
}

fn row(name: &str, one: f64, other: f64, bar: &str) {
    let ratio = one / other;
    println!("{name:50} {one:10.1} {other:10.1} {ratio:8.2} {bar:>6}");
}

/// Settings of a frame with one application, and of one with 16.
const KINDS: [(&str, u8); 2] = [("W2 frame", 1), ("frame of 16 entries", 16)];

fn engines() {
    const BAR: &str = "1.5";
    for (name, applications) in KINDS {
        let settings = settings(applications);
        let creation = script::creation(1, &settings);
        let (plain, size) = frames(&settings, None);
        let (clashing, _) = frames(&settings, Some(PORTS));
        compare(
            &format!("read, {name}"),
            BAR,
            || engine::read_many(&plain, size, TIMES),
            || read_many(black_box(&plain), size, TIMES),
        );
        compare(
            &format!("handle, {name}"),
            BAR,
            || engine::handle_many(&creation, &plain, size, TIMES),
            || handle_many(&settings, black_box(&plain), size, TIMES),
        );
        compare(
            &format!("handle, {name}, Error changes"),
            BAR,
            || engine::handle_many(&creation, &clashing, size, TIMES),
            || handle_many(&settings, black_box(&clashing), size, TIMES),
        );
        if applications == 16 {
            // As many as a frame can hold beside W2's other sub-TLVs.
            let (mixed, size) = among_foreign(&plain, size, 61);
            compare(
                "handle, frame of 77 entries, 16 ours",
                BAR,
                || engine::handle_many(&creation, &mixed, size, TIMES),
                || handle_many(&settings, black_box(&mixed), size, TIMES),
            );
        }
        let (mut ours, mut theirs) = ([0; LONGEST_FRAME], [0; LONGEST_FRAME]);
        compare(
            &format!("write, {name}"),
            BAR,
            || engine::write_many(&creation, TIMES, &mut ours),
            || write_many(&settings, TIMES, black_box(&mut theirs)),
        );
        assert_eq!(ours, theirs);
    }
}

/// What three ports beside it cost one.
fn ports() {
    const BAR: &str = "1.25";
    for (name, applications) in KINDS {
        let settings = settings(applications);
        let creation = script::creation(1, &settings);
        let (plain, size) = frames(&settings, None);
        let (clashing, _) = frames(&settings, Some(PORTS));
        let (clashing_alone, _) = frames(&settings, Some(1));
        compare(
            &format!("alone: handle, {name}"),
            BAR,
            || engine::handle_many(&creation, &plain, size, TIMES),
            || engine::handle_alone(&creation, &plain, size, TIMES),
        );
        compare(
            &format!("alone: handle, {name}, Error changes"),
            BAR,
            || engine::handle_many(&creation, &clashing, size, TIMES),
            || engine::handle_alone(&creation, &clashing_alone, size, TIMES),
        );
        let (mut four, mut alone) = ([0; LONGEST_FRAME], [0; LONGEST_FRAME]);
        compare(
            &format!("alone: write, {name}"),
            BAR,
            || engine::write_many(&creation, TIMES, &mut four),
            || engine::write_alone(&creation, TIMES, &mut alone),
        );
        assert_eq!(four, alone);
    }
}

/// The settings of one port as lines.
const SETTINGS: &str = "\
control max 0
groups max 0 advertise 1 enable 1 willing 0 priorities 0 0 0 1 0 0 0 0 percentages 50 50 0 0 0 0 0 0 classes 2
flow max 0 advertise 1 enable 1 willing 0 mask 08 classes 8
applications max 0 advertise 1 enable 1 willing 0 ethertype 8906 08
";

/// Frames in hex: those with the same mask, and those of which each second has another.
fn hex_frames() -> [Vec<String>; 2] {
    [None, Some(1)].map(|clash| {
        let (frames, size) = frames(&settings(1), clash);
        frames.chunks_exact(size).map(words::hex).collect()
    })
}

/// A million events: frames, writes, changes of settings, flags and takes.
fn desk_input() -> Vec<u8> {
    let [plain, clashing] = hex_frames();
    let mut text = SETTINGS.as_bytes().to_vec();
    for i in 0..LINES {
        let frame = i / 20 % FRAMES;
        match i % 20 {
            16 => writeln!(text, "B {}", clashing[frame]).unwrap(),
            17 => writeln!(text, "write 147").unwrap(),
            18 if frame.is_multiple_of(8) => {
                let willing = i / 160 % 2;
                writeln!(text, "set flow advertise 1 enable 1 willing {willing} mask 08 classes 8")
                    .unwrap()
            }
            19 => writeln!(text, "take").unwrap(),
            _ => writeln!(text, "B {}", plain[frame]).unwrap(),
        }
    }
    text
}

/// A million frames of both ends in turn.
fn replay_input() -> Vec<u8> {
    let [plain, clashing] = hex_frames();
    let mut text = SETTINGS.repeat(2).into_bytes();
    for i in 0..LINES {
        let sender = ["A", "B"][i % 2];
        let frames = if i % 20 < 18 { &plain } else { &clashing };
        writeln!(text, "{sender} {}", frames[i / 20 % FRAMES]).unwrap();
    }
    text
}

/// What A or B of two ends writes, as a line.
fn put_written(ends: &Ends, end: usize, text: &mut Text) {
    let mut octets = [0; LONGEST_FRAME];
    let length = ends.recorder[end].write(ends.port[end], &mut octets).expect("room");
    text.put(["A ", "B "][end]).octets(&octets[..length]).put("\n");
}

/// Sets A's flow control mask, with its line.
fn put_mask(ends: &mut Ends, mask: u8, text: &mut Text) {
    let parameters = &[mask, 8];
    let setting = Setting { advertise: true, enable: true, willing: false, parameters };
    let changed = ends.recorder[0].change(ends.port[0], layout::FLOW_CONTROL, &setting);
    changed.expect("a valid setting");
    text.put("set flow advertise 1 enable 1 willing 0 mask ").octets(&[mask]).put(" classes 8\n");
}

/// A million lines of A's view: rounds of two ends, and now and then another mask at A, so that Error comes and goes.
fn conform_input() -> Vec<u8> {
    let settings = settings(1);
    let mut ends = Ends::create(&[settings.clone(), settings]);
    let mut text = Text(SETTINGS.into());
    for i in 0..LINES {
        match (i % 64, i % 2) {
            (63, _) => put_mask(&mut ends, [0x10, 0x08][i / 64 % 2], &mut text),
            (_, 0) => put_written(&ends, 0, &mut text),
            _ => {
                put_written(&ends, 1, &mut text);
                ends.round();
            }
        }
    }
    text.0
}

/// Runs a program over an input, and gives what it wrote.
fn run(program: &Path, input: &Path) -> Vec<u8> {
    let output = Command::new(program)
        .stdin(std::fs::File::open(input).expect("the input"))
        .stdout(Stdio::piped())
        .output()
        .unwrap_or_else(|error| panic!("{}: {error}", program.display()));
    output.stdout
}

/// Measures a program over an input of so many lines, if it is wanted and built: nanoseconds a line, at both sides.
fn program(name: &str, line: &str, lines: impl FnOnce() -> Vec<u8>) -> Option<[f64; 2]> {
    if !wanted(name) {
        return None;
    }
    let [ours, theirs] = programs(name);
    if !ours.exists() || !theirs.exists() {
        println!("{name}: not measured, {} or {} is not built", ours.display(), theirs.display());
        return None;
    }
    let input =
        Path::new(env!("CARGO_MANIFEST_DIR")).join("target").join(name).with_extension("in");
    std::fs::write(&input, lines()).expect("the input");
    let mut best = [Duration::MAX; 2];
    for _ in 0..5 {
        let (first, a) = time(|| run(&ours, &input));
        let (second, b) = time(|| run(&theirs, &input));
        assert!(a == b, "{name}: the two write different answers");
        best = [best[0].min(first), best[1].min(second)];
    }
    std::fs::remove_file(&input).expect("the input");
    let [engine, reference] = best.map(|time| time.as_nanos() as f64 / LINES as f64);
    row(&format!("{name}, {line}"), engine, reference, "2.0");
    Some([engine, reference])
}

fn main() {
    heading("engine", "reference");
    engines();
    program("desk", "a line", desk_input);
    if let Some(nanoseconds) = program("replay", "a frame", replay_input) {
        let [engine, reference] = nanoseconds.map(|nanoseconds| 1e9 / nanoseconds);
        println!("replay, frames a second: {engine:.0} and {reference:.0}");
    }
    program("conform", "a line", conform_input);
    println!();
    heading("four ports", "alone");
    ports();
    println!("a recorder of the reference: {} octets", std::mem::size_of::<Recorder>());
}
