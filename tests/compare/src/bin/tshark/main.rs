//! Frames of the proved engine beside what tshark shows of them: every field with its place and
//! octets against the settings and state of the port that wrote the frame, and against what a port
//! that is given the frame holds of its peer. Then the same frames with others' entries among their
//! applications (document 02, E3): tshark shows every entry with its OUI, and a port that is given
//! the frame holds those shown under 00 1b 21. `make tshark` from the top.
//!
//! COMPARE_SEED and COMPARE_FRAMES give another seed and another number of frames.

mod dissector;
mod fields;
mod held;
mod ports;

use compare::environment;
use compare::words::hex;
use dissector::Shown;
use fields::{Field, Layout};
use ports::Written;
use reference::events::{assemble, random};
use reference::layout::{SubTlv, SubTlvs, APPLICATIONS, FEATURE_HEAD};
use reference::rng::XorShift;
use std::collections::{BTreeMap, BTreeSet};
use std::path::Path;
use std::process::ExitCode;

const SEED: u64 = 0x0dcb_0101;
const FRAMES: u64 = 5_000;

/// The fields that have one value in all frames.
const FIXED: [&str; 4] =
    ["dcbx.feature.app.oui", "dcbx.feature.subtype", "dcbx.proto", "orgtlv.oui"];

/// Where what is shown of a frame differs from the port that wrote it.
fn compare_written(written: &Written, shown: &Shown) -> Vec<String> {
    let layout = Layout::of(&written.settings, &written.state);
    let mut differences = shown.strange.clone();
    if layout.octets != [written.frame.as_slice(), &dissector::END].concat() {
        differences.push(format!("the port has, with the LLDPDU's end: {}", hex(&layout.octets)));
    }
    let reading = |field: Option<&Field>| match field {
        Some(Field { octets, value }) => format!("{value} ({})", hex(octets)),
        None => "nothing".into(),
    };
    let places: BTreeSet<_> = layout.fields.keys().chain(shown.fields.keys()).collect();
    for place in places {
        let (ours, theirs) = (layout.fields.get(place), shown.fields.get(place));
        if ours != theirs {
            let (ours, theirs) = (reading(ours), reading(theirs));
            let (at, name) = place;
            differences.push(format!("lldp.{name} at {at}: the port has {ours}, tshark {theirs}"));
        }
    }
    differences
}

/// Where what is shown of a frame differs from what ports that are given it say; counts the values.
fn compare_received(
    rng: &mut XorShift,
    frame: &[u8],
    shown: &Shown,
    count: &mut usize,
) -> Vec<String> {
    let mut differences = Vec::new();
    for receiver in held::receivers(&shown.fields) {
        let told = ports::receive(rng, &receiver, frame);
        *count += receiver.expected.len();
        for (name, expected) in receiver.expected {
            let held = told.get(&name);
            if held != Some(&expected) {
                let held = held.map_or("nothing".into(), |octets| hex(octets));
                let expected = hex(&expected);
                differences.push(format!("{name}: the receiver has {held}, by tshark {expected}"));
            }
        }
    }
    differences
}

/// The frame with others' entries among its applications, where it can hold them.
fn among_foreign(rng: &mut XorShift, frame: &[u8]) -> Vec<u8> {
    let mut sub_tlvs = SubTlvs::of(frame).expect("a frame");
    let mut list = Vec::new();
    while let Some(SubTlv { kind, body, .. }) = sub_tlvs.hand_out().expect("a sub-TLV") {
        let mut body = body.to_vec();
        if kind == APPLICATIONS {
            let own = body.split_off(FEATURE_HEAD);
            body.extend(random::among_foreign(rng, &own));
        }
        list.push((kind, body));
    }
    let mixed = assemble(&list);
    if mixed.len() <= 513 {
        mixed
    } else {
        frame.to_vec()
    }
}

fn of_one_value(shown: &[Shown]) -> Vec<&str> {
    let mut values: BTreeMap<&str, BTreeSet<u64>> = BTreeMap::new();
    for ((_, name), field) in shown.iter().flat_map(|shown| &shown.fields) {
        values.entry(name).or_default().insert(field.value);
    }
    values.into_iter().filter(|(_, values)| values.len() == 1).map(|(name, _)| name).collect()
}

fn main() -> ExitCode {
    let Some(version) = dissector::version() else {
        eprintln!("tshark is not installed; tests/tshark/install.sh installs it");
        return ExitCode::FAILURE;
    };
    let seed = environment::number("COMPARE_SEED", SEED);
    let frames = environment::number("COMPARE_FRAMES", FRAMES);
    println!("{version}\nseed {seed:#x}, {frames} frames");
    let mut rng = XorShift::new(seed);
    let mut written: Vec<Written> = Vec::new();
    for _ in 0..frames {
        written.push(ports::write(&mut rng, written.last()));
    }
    let file = Path::new(env!("CARGO_MANIFEST_DIR")).join("target/tshark.pcap");
    dissector::write_capture(&file, written.iter().map(|written| written.frame.as_slice()));
    let shown = dissector::show(&file);
    assert_eq!(shown.len(), written.len(), "packets shown");
    let (mut fields, mut held) = (0, 0);
    for (number, (written, shown)) in (1..).zip(written.iter().zip(&shown)) {
        let mut differences = compare_written(written, shown);
        if differences.is_empty() {
            differences = compare_received(&mut rng, &written.frame, shown, &mut held);
        }
        if !differences.is_empty() {
            println!("frame {number} of {}: {}", file.display(), hex(&written.frame));
            println!("{}", differences.join("\n"));
            return ExitCode::FAILURE;
        }
        fields += shown.fields.len();
    }
    if of_one_value(&shown) != FIXED {
        println!("too few frames: {:?} had one value each", of_one_value(&shown));
        return ExitCode::FAILURE;
    }
    let mixed: Vec<Vec<u8>> =
        written.iter().map(|written| among_foreign(&mut rng, &written.frame)).collect();
    dissector::write_capture(&file, mixed.iter().map(Vec::as_slice));
    let shown = dissector::show(&file);
    assert_eq!(shown.len(), mixed.len(), "packets shown");
    let mut skipped = 0;
    for (number, (frame, shown)) in (1..).zip(mixed.iter().zip(&shown)) {
        let mut differences = shown.strange.clone();
        differences.extend(compare_received(&mut rng, frame, shown, &mut held));
        if !differences.is_empty() {
            println!("frame {number} of {}: {}", file.display(), hex(frame));
            println!("{}", differences.join("\n"));
            return ExitCode::FAILURE;
        }
        skipped += held::foreign(&shown.fields);
    }
    if skipped == 0 {
        println!("too few frames: tshark showed no entry under another OUI");
        return ExitCode::FAILURE;
    }
    println!("no difference in {fields} fields as written, {held} values as held of the peer,");
    println!("{skipped} entries shown under another OUI and held by none");
    ExitCode::SUCCESS
}
