//! Notices for broken control frames (document 02, E1): refusals 7 and 8 write notice 1 and set
//! the port's mark if it is off; any other outcome of a frame, or a fresh state, clears it.

mod common;
use common::*;
use reference::events::{Answer, Call, Event, Generator};
use reference::{Flag, Port, Recorder};
use std::collections::BTreeMap;

/// A control of no length (7), and one whose Oper is above its Max (8).
const SHORT: &str = "02 00";
const ABOVE: &str = "02 0a 01 00 00 00 00 01 00 00 00 00";

/// Gives a frame with a broken control; says which notices it raised.
fn broken(port: &mut OnePort, control: &str) -> Vec<(u8, u8)> {
    let number = if control == SHORT { 7 } else { 8 };
    let before = port.0.log().written();
    assert_eq!(refused_frame(&mut port.0, NUMBER, &tlv(control)).number, number);
    assert!(port.control().broken_control);
    port.0.log().since(before).map(|notice| (notice.number, notice.feature)).collect()
}

/// A port with a peer and a past, whose mark is on and whose notices are taken.
fn marked_port() -> OnePort {
    let mut port = settled_port();
    assert_eq!(broken(&mut port, SHORT), [(1, 0)]);
    assert_eq!(notices(&mut port), [(1, 0)]);
    port
}

#[test]
fn once_for_a_row() {
    let mut row = vec![SHORT, ABOVE, ABOVE, SHORT, ABOVE, SHORT, SHORT];
    for _ in 0..row.len() {
        row.rotate_left(1);
        let mut port = settled_port();
        assert_eq!(broken(&mut port, row[0]), [(1, 0)]);
        for control in &row[1..] {
            assert_eq!(broken(&mut port, control), []);
        }
        assert_eq!(notices(&mut port), [(1, 0)]);
    }
}

/// What clears the mark, each with the notices that it raises itself.
type Way = (fn(&mut OnePort), &'static [(u8, u8)]);

fn off_and_on(port: &mut OnePort, flag: Flag) {
    port.set_flag(flag, false);
    assert!(!port.control().broken_control);
    port.set_flag(flag, true);
}

fn refused(port: &mut OnePort, octets: &[u8], number: u8) {
    assert_eq!(refused_frame(&mut port.0, NUMBER, octets).number, number);
}

#[test]
fn cleared_and_set_again() {
    let ways: [Way; 17] = [
        // A good frame, whether it changes anything else or not; one that ends at step 2; one
        // with two controls, good or broken.
        (|port| assert_eq!(port.frame(&frame(&sub_tlvs(1, 1, 0x80))), Ok(false)), &[]),
        (|port| assert_eq!(port.frame(&frame(&sub_tlvs(2, 1, 0x80))), Ok(true)), &[]),
        (|port| assert_eq!(port.frame(&frame(&vec![control(1, 1, 1, 1)])), Ok(false)), &[]),
        (|port| assert!(port.frame(&tlv(&CONTROL.repeat(2))).is_ok()), &[(6, 0)]),
        (|port| assert!(port.frame(&tlv(&[SHORT, ABOVE].concat())).is_ok()), &[(6, 0)]),
        // Refusals 3 to 6; 3 and 5 though a control is broken as well.
        (|port| refused(port, &[], 3), &[]),
        (|port| refused(port, &[&tlv(SHORT)[..5], &[1], &hex(SHORT)].concat(), 3), &[]),
        (|port| refused(port, &hex(W2)[..56], 4), &[]),
        (|port| refused(port, &tlv(&[SHORT, "20"].concat()), 5), &[]),
        (|port| refused(port, &tlv("20 00"), 6), &[]),
        // Fresh states.
        (|port| assert!(port.peer_gone().is_ok()), &[(9, 0)]),
        (|port| off_and_on(port, Flag::Enabled), &[]),
        (|port| off_and_on(port, Flag::Receive), &[(5, 0)]),
        (|port| off_and_on(port, Flag::Transmit), &[(4, 0)]),
        (
            |port| {
                port.set_flag(Flag::SeveralNeighbours, true);
                assert!(!port.control().broken_control);
                port.set_flag(Flag::SeveralNeighbours, false);
            },
            &[(3, 0)],
        ),
        (|port| assert_eq!(port.0.create(NUMBER, &w2_settings().lend()), Ok(true)), &[]),
        // Refusals 1 and 2 find it off.
        (
            |port| {
                port.set_flag(Flag::SeveralNeighbours, true);
                refused(port, &tlv(SHORT), 2);
                port.set_flag(Flag::Enabled, false);
                refused(port, &tlv(ABOVE), 1);
                port.set_flag(Flag::Enabled, true);
                port.set_flag(Flag::SeveralNeighbours, false);
            },
            &[(3, 0)],
        ),
    ];
    for (i, (way, raised)) in ways.into_iter().enumerate() {
        for again in [SHORT, ABOVE] {
            let mut port = marked_port();
            way(&mut port);
            assert!(!port.control().broken_control, "way {i}");
            assert_eq!(notices(&mut port), raised, "way {i}");
            assert_eq!(broken(&mut port, again), [(1, 0)], "way {i}");
            assert_eq!(broken(&mut port, SHORT), []);
        }
    }
}

#[test]
fn left_by_other_events() {
    let others: [fn(&mut OnePort); 9] = [
        // Settings: changed, withdrawn, equal, refused with 9 and with 11.
        |port| assert_eq!(port.change(3, true, true, true, &[0x10, 8]), Ok(true)),
        |port| assert_eq!(port.change(2, false, true, false, &GROUPS), Ok(true)),
        |port| assert_eq!(port.change(3, true, true, false, &FLOW), Ok(false)),
        |port| assert_eq!(port.change(3, true, true, false, &[]), Err(9)),
        |port| assert_eq!(port.change(5, true, true, false, &FLOW), Err(11)),
        // Flags that change nothing.
        |port| {
            for (flag, on) in Flag::ALL.into_iter().zip([true, true, true, false]) {
                assert!(!port.set_flag(flag, on));
            }
        },
        // Writes and takings.
        |port| assert_eq!(port.write(&mut [0; 147]), Ok(57)),
        |port| assert_eq!(port.write(&mut [0; 56]), Err(10)),
        |port| assert_eq!(port.take(), Err(12)),
    ];
    for (i, other) in others.into_iter().enumerate() {
        let mut port = marked_port();
        other(&mut port);
        assert!(port.control().broken_control, "event {i}");
        assert_eq!(broken(&mut port, ABOVE), [], "event {i}");
    }
    // Notice 1 itself taken; a creation that is refused.
    let mut port = settled_port();
    broken(&mut port, ABOVE);
    assert_eq!(port.take(), Ok((1, 0)));
    let mut invalid = w2_settings();
    invalid.feature[1].1.parameters = vec![];
    assert_eq!(port.0.create(NUMBER, &invalid.lend()), Err(9));
    assert_eq!(broken(&mut port, SHORT), []);
}

/// Whatever the port holds: `refused_frame` compares the whole state.
#[test]
fn nothing_else_changes() {
    let makers: [fn(&mut OnePort); 5] = [
        |_| {},
        |port| assert!(port.frame(&tlv(&CONTROL.repeat(2))).is_ok()),
        |port| assert!(port.frame(&frame(&vec![control(1, 1, 7, 7)])).is_ok()),
        |port| assert!(port.change(3, true, true, false, &[0x10, 8]).is_ok()),
        |port| port.set_numbers(u32::MAX, 5, 9, [0, 1, 2]),
    ];
    for make in makers {
        for mut port in [w2_port(), settled_port()] {
            make(&mut port);
            let written_before = written(&port);
            // What it says of its numbers and features would be news if it were not broken.
            for octets in [
                tlv("02 09 00 00 00 00 00 63 00 00 00"),
                tlv("06 06 00 00 80 00 10 08 02 0a ff 00 00 00 00 63 00 00 00 01"),
            ] {
                assert!(refused_frame(&mut port.0, NUMBER, &octets).is_broken_control());
            }
            assert_eq!(written(&port), written_before);
        }
    }
}

#[test]
fn number_16_changes_nothing() {
    for mut port in [settled_port(), marked_port()] {
        let before = port.0.dump();
        for number in [0, 5, 255] {
            for octets in [tlv(SHORT), tlv(ABOVE), tlv(""), hex(W2)] {
                assert_eq!(port.0.frame(number, &octets), Err(16.into()));
            }
        }
        assert_eq!(port.0.dump(), before);
    }
}

#[test]
fn each_port_has_its_own() {
    let mut recorder = Recorder::blank();
    for port in 1..=4 {
        recorder.create(port, &w2_settings().lend()).unwrap();
    }
    for port in [3, 1, 4] {
        refused_frame(&mut recorder, port, &tlv(SHORT));
    }
    assert_eq!(marks(&recorder), [true, false, true, true]);
    // Port 2 has a good frame, port 4 a fresh state, port 1 a second broken frame.
    recorder.frame(2, &hex(W2)).unwrap();
    recorder.peer_gone(4).unwrap();
    refused_frame(&mut recorder, 1, &tlv(ABOVE));
    assert_eq!(marks(&recorder), [true, false, true, false]);
    refused_frame(&mut recorder, 3, &tlv(""));
    refused_frame(&mut recorder, 2, &tlv(ABOVE));
    assert_eq!(marks(&recorder), [true, true, false, false]);
    let ports: Vec<u8> = recorder.log().notices().map(|notice| notice.port).collect();
    assert!(recorder.log().notices().all(|notice| notice.number == 1));
    assert_eq!(ports, [3, 1, 4, 2]);
}

/// Whether an accepted event goes to a fresh state.
fn goes_fresh(event: &Event, before: &Port, after: &Port) -> bool {
    match event {
        Event::Create(_) | Event::PeerGone => true,
        Event::SetFlag(..) => {
            let several = |port: &Port| port.flags().several_neighbours;
            before.running() != after.running() || !several(before) && several(after)
        }
        _ => false,
    }
}

/// How often what happened.
#[derive(Default)]
struct Counts(BTreeMap<&'static str, u32>);

impl Counts {
    fn count(&mut self, what: &'static str) {
        *self.0.entry(what).or_default() += 1;
    }

    fn refused(&mut self, before: &Recorder, call: &Call, answer: &Answer, after: &Recorder) {
        let dropped = left_by_refusal(before, call, answer, after);
        if !matches!(call.event, Event::Frame(_)) || answer.refusal == 16 {
            return;
        }
        let marked = before.port(call.port).unwrap().control().broken_control;
        match (answer.refusal, marked) {
            (7, false) => self.count("7 sets the mark"),
            (8, false) => self.count("8 sets the mark"),
            (7, true) => self.count("7 finds the mark on"),
            (8, true) => self.count("8 finds the mark on"),
            (3, true) => self.count("3 clears the mark"),
            (4, true) => self.count("4 clears the mark"),
            (5, true) => self.count("5 clears the mark"),
            (6, true) => self.count("6 clears the mark"),
            _ => {}
        }
        match dropped {
            Some(dropped) if dropped.loser == call.port => self.count("drops its own"),
            Some(_) => self.count("drops another's"),
            None => {}
        }
    }

    fn accepted(&mut self, before: &Port, call: &Call, answer: &Answer, after: &Port) {
        assert!(answer.raised.iter().all(|notice| notice.number != 1), "{call:?}");
        let (was, is) = (before.control().broken_control, after.control().broken_control);
        let is_frame = matches!(call.event, Event::Frame(_));
        let clears = is_frame || goes_fresh(&call.event, before, after);
        assert_eq!(is, was && !clears, "{call:?}");
        match (was, is) {
            (true, true) => self.count("another event leaves the mark"),
            (true, false) if is_frame => self.count("a good frame clears the mark"),
            (true, false) => self.count("a fresh state clears the mark"),
            _ => {}
        }
    }
}

/// Over random calls: a refused one leaves everything but the mark, and notice 1 with what a full
/// log drops for it; an accepted one writes no notice 1, and the mark is as E1 says.
#[test]
fn random_calls() {
    let seed = 0x2024_0e01;
    println!("seed {seed:#x}");
    let mut generator = Generator::new(seed);
    let mut counts = Counts::default();
    for i in 0..600_000 {
        if i % 1000 == 0 {
            generator.start();
        }
        let before = generator.recorder().clone();
        let (call, answer) = generator.step();
        let after = generator.recorder();
        if answer.refusal != 0 {
            counts.refused(&before, &call, &answer, after);
        } else {
            let at = usize::from(call.port) - 1;
            let (was, is) = (&before.ports()[at], &after.ports()[at]);
            counts.accepted(was, &call, &answer, is);
            for other in (0..4).filter(|&other| other != at) {
                assert_eq!(marks(&before)[other], marks(after)[other]);
            }
        }
        for port in after.ports() {
            let off = !port.running() || port.flags().several_neighbours;
            assert!(!(off && port.control().broken_control));
        }
    }
    println!("{:#?}", counts.0);
    assert_eq!(counts.0.len(), 13);
    assert!(counts.0.values().all(|&count| count > 100));
}
