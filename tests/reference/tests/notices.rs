//! Notices: when, in what order, and when not.

mod common;
use common::*;
use reference::{Flag, Reason};

fn give(port: &mut OnePort, list: &SubTlvs) -> Vec<(u8, u8)> {
    port.frame(&frame(list)).unwrap();
    notices(port)
}

#[test]
fn flags() {
    let mut port = w2_port();
    for (flag, on, expected) in [
        (Flag::SeveralNeighbours, true, Some(3)),
        (Flag::SeveralNeighbours, true, None),
        (Flag::SeveralNeighbours, false, None),
        (Flag::Transmit, false, Some(4)),
        (Flag::Transmit, false, None),
        // On a stopped port too.
        (Flag::Receive, false, Some(5)),
        (Flag::SeveralNeighbours, true, Some(3)),
        (Flag::Enabled, false, None),
        (Flag::Transmit, true, None),
        (Flag::Transmit, false, Some(4)),
        (Flag::Transmit, true, None),
        (Flag::Receive, true, None),
        (Flag::Enabled, true, None),
        (Flag::Enabled, false, None),
    ] {
        port.set_flag(flag, on);
        assert_eq!(notices(&mut port), Vec::from_iter(expected.map(|n| (n, 0))));
    }
}

#[test]
fn peer_gone() {
    let mut port = w2_port();
    port.peer_gone().unwrap();
    assert_eq!(notices(&mut port), []);
    // Seen by a frame that stops at step 2.
    assert_eq!(give(&mut port, &vec![control(1, 1, 1, 1)]), []);
    port.peer_gone().unwrap();
    assert_eq!(notices(&mut port), [(9, 0)]);
    port.peer_gone().unwrap();
    assert_eq!(notices(&mut port), []);
    // A stop or the flag forgets the peer without it.
    let mut port = settled_port();
    port.set_flag(Flag::Enabled, false);
    assert_eq!(port.peer_gone(), Err(1));
    port.set_flag(Flag::Enabled, true);
    port.peer_gone().unwrap();
    assert_eq!(notices(&mut port), []);
    let mut port = settled_port();
    port.set_flag(Flag::SeveralNeighbours, true);
    port.peer_gone().unwrap();
    assert_eq!(notices(&mut port), [(3, 0)]);
}

#[test]
fn duplicate_control() {
    let mut twice = sub_tlvs(1, 1, 0x80);
    twice.push(control(0, 0, 1, 1));
    let mut port = settled_port();
    assert_eq!(give(&mut port, &twice), [(6, 0)]);
    assert_eq!(give(&mut port, &twice), []);
    // A refused frame does not unmark.
    assert_eq!(port.frame(&frame(&vec![(1, vec![])])), Err(7));
    assert_eq!(port.frame(&frame(&vec![control(1, 0, 1, 1)])), Err(8));
    assert_eq!(notices(&mut port), [(1, 0)]);
    assert_eq!(give(&mut port, &twice), []);
    // One readable control does, even one that stops at step 2.
    assert_eq!(give(&mut port, &vec![control(1, 1, 1, 1)]), []);
    assert_eq!(give(&mut port, &twice), [(6, 0)]);
    assert_eq!(give(&mut port, &sub_tlvs(1, 1, 0x80)), []);
    assert_eq!(give(&mut port, &twice), [(6, 0)]);
    // So does a fresh state.
    port.peer_gone().unwrap();
    assert_eq!(notices(&mut port), [(9, 0)]);
    assert_eq!(give(&mut port, &twice), [(6, 0)]);
}

/// Sub-TLVs that give this reason to every feature.
fn all(reason: Reason) -> SubTlvs {
    let mut list = vec![control(0, 0, 1, 1)];
    for number in 2..=4 {
        let good = feature(number, 0, 0, 0x80, w2_parameters(number));
        match reason {
            Reason::Absent => {}
            Reason::Duplicate => list.extend([good.clone(), good]),
            Reason::Bad => list.push((number, vec![])),
            Reason::Waiting => list.push(feature(number, 1, 1, 0x80, &[])),
            Reason::Disabled => list.push(feature(number, 0, 0, 0, w2_parameters(number))),
            Reason::NotCompatible => {
                list.push(feature(number, 0, 0, 0x80, &other_parameters(number)));
            }
            _ => list.push(good),
        }
    }
    if reason == Reason::ControlTwice {
        list.push(control(0, 0, 1, 1));
    }
    list
}

#[test]
fn every_reason_after_every_other() {
    let given = [
        Reason::Absent,
        Reason::Duplicate,
        Reason::Bad,
        Reason::Waiting,
        Reason::Disabled,
        Reason::Agreed,
        Reason::NotCompatible,
        Reason::ControlTwice,
    ];
    for before in given {
        for after in given {
            let mut port = w2_port();
            give(&mut port, &all(before));
            assert_eq!(reasons(&port), [before; 3]);
            let came = give(&mut port, &all(after));
            assert_eq!(reasons(&port), [after; 3]);
            let number = match after {
                _ if before == after => None,
                Reason::Duplicate => Some(7),
                Reason::Bad => Some(2),
                Reason::Absent => Some(8),
                Reason::NotCompatible => Some(10),
                Reason::ControlTwice => {
                    assert_eq!(came, [(6, 0)]);
                    continue;
                }
                _ => None,
            };
            let expected: Vec<_> =
                number.map(|n| [(n, 2), (n, 3), (n, 4)]).into_iter().flatten().collect();
            assert_eq!(came, expected);
        }
    }
}

#[test]
fn ascending_features() {
    // Groups not compatible, flow control twice, applications absent; the
    // order in the frame does not matter.
    let list = vec![
        feature(3, 0, 0, 0x80, &FLOW),
        feature(3, 0, 0, 0x80, &FLOW),
        feature(2, 0, 0, 0x80, &other_parameters(2)),
        control(0, 0, 1, 1),
    ];
    assert_eq!(give(&mut w2_port(), &list), [(10, 2), (7, 3), (8, 4)]);
}

#[test]
fn not_advertised_features_have_none() {
    let mut port = w2_port();
    port.change(3, false, true, false, &FLOW).unwrap();
    assert_eq!(give(&mut port, &all(Reason::Bad)), [(2, 2), (2, 4)]);
}

#[test]
fn rule_3_and_rule_5_are_one_reason() {
    let mut port = w2_port();
    assert_eq!(give(&mut port, &all(Reason::Bad)).len(), 3);
    let mut list = all(Reason::Bad);
    list[2] = feature(3, 0, 0, 0x80, &[8, 9]);
    assert_eq!(give(&mut port, &list), []);
}

#[test]
fn a_fresh_state_leaves_the_log() {
    let mut port = w2_port();
    port.frame(&frame(&all(Reason::Bad))).unwrap();
    port.peer_gone().unwrap();
    port.set_flag(Flag::Enabled, false);
    port.set_flag(Flag::Enabled, true);
    assert_eq!(notices(&mut port), [(2, 2), (2, 3), (2, 4), (9, 0)]);
}

#[test]
fn one_event_may_drop_several() {
    let mut port = w2_port();
    for _ in 0..63 {
        port.set_flag(Flag::Transmit, false);
        port.set_flag(Flag::Transmit, true);
    }
    port.frame(&frame(&all(Reason::Absent))).unwrap();
    assert_eq!((port.held(), port.dropped()), (64, 2));
    let held = notices(&mut port);
    assert_eq!(held[60..], [(4, 0), (8, 2), (8, 3), (8, 4)]);
}
