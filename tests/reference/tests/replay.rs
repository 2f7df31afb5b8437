//! Document 02, E8: what is counted of a capture.

mod common;
use common::captures::{self, line, masks, no_frames, refused_frames, sent, Exchange};
use common::*;
use reference::capture::Cutter;
use reference::events::OwnedSettings;
use reference::replay::{Counts, Replay};
use reference::rounds::Ends;
use reference::text::Text;

/// The report of a capture that comes in these blocks.
fn report_of<'a>(
    settings: &[OwnedSettings; 2],
    blocks: impl IntoIterator<Item = &'a [u8]>,
) -> String {
    report_from(Replay::new(settings), blocks)
}

fn report_from<'a>(mut replay: Replay, blocks: impl IntoIterator<Item = &'a [u8]>) -> String {
    let mut cutter = Cutter::default();
    for block in blocks {
        cutter.feed(block, |line| replay.line(line));
    }
    cutter.end(|line| replay.line(line));
    let mut report = Text::default();
    replay.counts.report(&mut report);
    String::from_utf8(report.0).unwrap()
}

fn report(settings: &[OwnedSettings; 2], capture: &str) -> String {
    report_of(settings, [capture.as_bytes()])
}

fn w2_ends() -> [OwnedSettings; 2] {
    [w2_settings(), w2_settings()]
}

/// Nothing is advertised at either end.
fn silent_ends() -> [OwnedSettings; 2] {
    let mut settings = w2_settings();
    for (_, setting) in &mut settings.feature {
        setting.advertise = false;
    }
    [settings.clone(), settings]
}

const NO_REFUSALS: &str = "0 0 0 0 0 0 0 0";
const NONE: &str = "0 0 0 0 0 0 0 0";
const ABSENT: &str = "1 0 0 0 0 0 0 0";
const AGREED: &str = "0 0 0 0 0 1 0 0";
const NOT_COMPATIBLE: &str = "0 0 0 0 0 0 1 0";

/// A report without refusals.
fn expected(lines: &str, a: [&str; 3], b: [&str; 3], settled: &str) -> String {
    let [a, b] = [a, b].map(|features| features.join("\n"));
    format!("{lines}\n{NO_REFUSALS}\n{a}\n{b}\n{settled}\n")
}

/// The report of both ends' frames, round by round.
fn replayed(exchange: &Exchange) -> String {
    let rounds = exchange.frames();
    let capture: String = rounds.iter().map(|[a, b]| line('A', a) + &line('B', b)).collect();
    report(&exchange.settings, &capture)
}

#[test]
fn w2() {
    let due = expected("2 2 0", [AGREED; 3], [AGREED; 3], "settled 4");
    assert_eq!(replayed(&captures::w2()), due);
}

#[test]
fn w5() {
    let due = expected("3 3 0", [AGREED; 3], [AGREED; 3], "settled 5");
    assert_eq!(replayed(&captures::w5()), due);
}

#[test]
fn w6() {
    let features = [AGREED, NOT_COMPATIBLE, AGREED];
    let due = expected("4 4 0", features, features, "settled 8");
    assert_eq!(replayed(&captures::w6()), due);
}

#[test]
fn w7() {
    let waited = "0 0 0 1 0 0 1 0";
    let due =
        expected("5 5 0", [AGREED, NOT_COMPATIBLE, AGREED], [AGREED, waited, AGREED], "settled 9");
    assert_eq!(replayed(&captures::w7()), due);
}

#[test]
fn six() {
    let waited = "0 0 0 1 0 0 1 0";
    let due =
        expected("6 6 0", [AGREED, waited, AGREED], [AGREED, NOT_COMPATIBLE, AGREED], "settled 12");
    assert_eq!(replayed(&captures::six()), due);
}

/// Applications are absent for the 1.01 end, and never come to be anything at the other.
#[test]
fn an_old_end() {
    let settings = [old_settings(), w2_settings()];
    let mut ends = Ends::create(&settings);
    let mut capture = String::new();
    for _ in 0..2 {
        capture += &line('A', &written_at(&ends.recorder[0], ends.port[0]).unwrap());
        capture += &line('B', &written_at(&ends.recorder[1], ends.port[1]).unwrap());
        ends.round();
    }
    let due = expected("2 2 0", [AGREED, AGREED, NONE], [AGREED, AGREED, ABSENT], "settled 4");
    assert_eq!(report(&settings, &capture), due);
}

#[test]
fn every_other_line_is_counted_and_does_nothing_else() {
    for other in no_frames() {
        let alone = report_of(&w2_ends(), [&other[..], b"\n"]);
        let due = expected("0 0 1", [NONE; 3], [NONE; 3], "not settled");
        assert_eq!(alone, due, "{}", String::from_utf8_lossy(&other));
        // Nor does it touch the lines beside it.
        let frame = line('A', &hex(W2));
        let between = [frame.as_bytes(), &other, b"\n", frame.as_bytes()];
        let due = expected("2 0 1", [NONE; 3], [AGREED; 3], "not settled");
        assert_eq!(report_of(&w2_ends(), between), due, "{}", String::from_utf8_lossy(&other));
    }
}

#[test]
fn a_frame_has_0_to_513_octets() {
    for octets in 0..=513 {
        let capture = format!("B {}\n", "00".repeat(octets));
        let report = report(&w2_ends(), &capture);
        assert!(report.starts_with("0 1 0\n0 0 1 0 0 0 0 0\n"), "{octets}: {report}");
    }
}

#[test]
fn the_lines_are_what_line_feeds_part() {
    for (capture, lines) in [
        ("", "0 0 0"),
        ("\n", "0 0 1"),
        ("\n\n", "0 0 2"),
        ("A ", "1 0 0"),
        ("A \n", "1 0 0"),
        ("A \nB ", "1 1 0"),
        ("A \n\nB \n", "1 1 1"),
        ("A \nB", "1 0 1"),
        ("A \r\nB \r\n", "0 0 2"),
    ] {
        let report = report(&w2_ends(), capture);
        assert_eq!(report.lines().next(), Some(lines), "{capture:?}");
    }
}

/// W6's settings, with all kinds of lines between what makes the ends settle.
fn mixed_capture() -> Vec<u8> {
    let w6 = [
        (0, 0, 1, 0, 0, 0, 0x80),
        (0, 0, 1, 1, 0, 0, 0x80),
        (0, 0, 2, 1, 0, 0, 0xa0),
        (0, 0, 2, 2, 0, 0, 0xa0),
    ];
    let mut capture = Vec::new();
    let mut others = no_frames().into_iter().filter(|line| line.len() < 1100).cycle();
    for (oper, max, seqno, ackno, flow_oper, flow_max, flags) in w6 {
        for (sender, mask) in [('A', 0x08), ('B', 0x10)] {
            let frame = sent((oper, max, seqno, ackno, flow_oper, flow_max, flags, mask));
            capture.extend(line(sender, &frame).bytes());
            for other in others.by_ref().take(6) {
                capture.extend(other);
                capture.push(b'\n');
            }
        }
    }
    capture.extend(line('A', &[0; 513]).bytes());
    capture.extend(line('B', &hex(W2)).trim_end().bytes());
    capture
}

#[test]
fn the_input_may_be_cut_anywhere() {
    let (settings, capture) = (masks(), mixed_capture());
    let whole = report_of(&settings, [&capture[..]]);
    // All 48 other lines; the last frame has A's own mask.
    let flow = "0 0 0 0 0 1 1 0";
    let mut due =
        expected("5 5 48", [AGREED, flow, AGREED], [AGREED, NOT_COMPATIBLE, AGREED], "settled 8");
    due = due.replacen(NO_REFUSALS, "0 0 1 0 0 0 0 0", 1);
    assert_eq!(whole, due);
    for size in 1..=capture.len() {
        assert_eq!(report_of(&settings, capture.chunks(size)), whole, "blocks of {size}");
    }
    for at in 0..=capture.len() {
        let (first, second) = capture.split_at(at);
        assert_eq!(report_of(&settings, [first, b"", second]), whole, "cut at {at}");
    }
}

/// Frames after which a W2 port's features have the reason of each column.
fn one_of_each(features: &[u8]) -> [SubTlvs; 8] {
    let with = |changed: &dyn Fn(u8) -> SubTlvs| -> SubTlvs {
        let mut list = vec![control(0, 0, 0, 0)];
        for number in 2..=4 {
            if features.contains(&number) {
                list.extend(changed(number));
            } else {
                list.push(feature(number, 0, 0, 0x80, w2_parameters(number)));
            }
        }
        list
    };
    let agreed = |number| feature(number, 0, 0, 0x80, w2_parameters(number));
    let mut twice = with(&|number| vec![agreed(number)]);
    twice.push(control(0, 0, 0, 0));
    [
        with(&|_| vec![]),
        with(&|number| vec![agreed(number), agreed(number)]),
        with(&|number| vec![(number, vec![])]),
        with(&|number| vec![feature(number, 1, 1, 0x80, w2_parameters(number))]),
        with(&|number| vec![feature(number, 0, 0, 0, w2_parameters(number))]),
        with(&|number| vec![agreed(number)]),
        with(&|number| vec![feature(number, 0, 0, 0x80, &other_parameters(number))]),
        twice,
    ]
}

/// Each frame comes twice, and a reason that stays is not counted: so there and back each reason comes up
/// twice, the one at the turn once.
#[test]
fn a_reason_is_counted_when_it_becomes_so() {
    let frames = one_of_each(&[2, 3, 4]);
    for (sender, lines) in [('A', "32 0 0"), ('B', "0 32 0")] {
        let mut capture = String::new();
        for list in frames.iter().chain(frames.iter().rev()) {
            capture += &line(sender, &frame(list)).repeat(2);
        }
        let counted = ["2 2 2 2 2 2 2 1"; 3];
        let (a, b) = if sender == 'A' { ([NONE; 3], counted) } else { (counted, [NONE; 3]) };
        let due = expected(lines, a, b, "not settled");
        assert_eq!(report(&w2_ends(), &capture), due);
    }
}

#[test]
fn each_feature_is_counted_by_itself() {
    for number in 2..=4 {
        let mut capture = String::new();
        for list in &one_of_each(&[number]) {
            capture += &line('B', &frame(list));
        }
        // The others are agreed from the first frame to the last, which has two controls.
        let mut a = ["0 0 0 0 0 1 0 1"; 3];
        a[usize::from(number) - 2] = "1 1 1 1 1 1 1 1";
        let due = expected("0 8 0", a, [NONE; 3], "not settled");
        assert_eq!(report(&w2_ends(), &capture), due);
    }
}

#[test]
fn refusals_are_those_of_both_ports() {
    let mut capture = String::new();
    for (i, frame) in refused_frames().iter().enumerate() {
        capture += &line('A', frame).repeat(i + 1);
        capture += &line('B', frame).repeat(10 * (6 - i));
    }
    let due = expected("21 210 0", [NONE; 3], [NONE; 3], "not settled");
    let due = due.replacen(NO_REFUSALS, "0 0 61 52 43 34 25 16", 1);
    assert_eq!(report(&w2_ends(), &capture), due);
}

/// Where nothing is advertised an end is settled once it has seen a peer.
#[test]
fn settled_is_judged_at_both_ends() {
    let frame = tlv(CONTROL);
    // Acknowledges 0, which is SeqNo there.
    let (from_a, from_b) = (line('A', &frame), line('B', &frame));
    for (capture, settled) in [
        (String::new(), "not settled"),
        (from_a.repeat(3), "not settled"),
        (from_b.repeat(3), "not settled"),
        (format!("{from_a}{from_b}"), "settled 2"),
        (format!("{from_b}{from_b}{from_a}"), "settled 3"),
        // Refused frames are counted, other lines are not, nor what comes behind.
        (format!("A \n# no frame\n\n{from_b}B 00\n{from_a}{from_b}"), "settled 4"),
    ] {
        assert_eq!(report(&silent_ends(), &capture).lines().last(), Some(settled), "{capture}");
    }
}

#[test]
fn once_settled_stays_written() {
    let acknowledged = |ackno| frame(&sub_tlvs(1, ackno, 0x80));
    let both = |ackno| line('A', &acknowledged(ackno)) + &line('B', &acknowledged(ackno));
    // AckNo 7 is not SeqNo; then all is as before once more.
    let capture = both(1) + &both(7) + &both(1);
    let due = expected("3 3 0", [AGREED; 3], [AGREED; 3], "settled 2");
    assert_eq!(report(&w2_ends(), &capture), due);
    // Neither end alone, at different times.
    let a_alone = line('B', &acknowledged(1)) + &line('B', &acknowledged(7));
    let b_alone = line('A', &acknowledged(1)) + &line('A', &acknowledged(7));
    let due = expected("2 2 0", [AGREED; 3], [AGREED; 3], "not settled");
    assert_eq!(report(&w2_ends(), &(a_alone + &b_alone)), due);
}

/// No count goes beyond the highest number of 64 bits.
#[test]
fn counts_stay_at_the_highest_number() {
    let last = u64::MAX;
    let mut replay = Replay::new(&silent_ends());
    replay.counts = Counts {
        frames: [last - 2, last - 1],
        others: last - 1,
        refusals: [last - 1; 8],
        became: [[[last - 1; 8]; 3]; 2],
        settled: None,
    };
    let twice = line('A', &frame(&one_of_each(&[])[7])) + &line('B', &tlv(CONTROL));
    let capture = format!("\nA \n{}\n\nA \n{twice}", line('B', &tlv("")));
    let written = report_from(replay, [capture.as_bytes()]);
    // Nothing is advertised, so no reason changes.
    let below = ["18446744073709551614"; 8].join(" ");
    let mut due = String::from("18446744073709551615 18446744073709551615 18446744073709551615\n");
    due += "18446744073709551614 18446744073709551614 18446744073709551615 18446744073709551614 \
            18446744073709551614 18446744073709551615 18446744073709551614 18446744073709551614\n";
    due += &format!("{below}\n").repeat(6);
    due += "settled 18446744073709551615\n";
    assert_eq!(written, due);
    // A reason that comes up twice.
    let mut replay = Replay::new(&w2_ends());
    replay.counts.became[1] = [[last - 1; 8]; 3];
    let frames = one_of_each(&[2, 3, 4]);
    let mut capture = String::new();
    for list in frames.iter().chain(&frames) {
        capture += &line('A', &frame(list));
    }
    let highest = ["18446744073709551615"; 8].join(" ");
    let due = expected("16 0 0", [NONE; 3], [&highest; 3], "not settled");
    assert_eq!(report_from(replay, [capture.as_bytes()]), due);
}
