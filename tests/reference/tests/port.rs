//! Fresh state, running, flags, the send rule and the steps of a frame.

mod common;
use common::*;
use reference::{Flag, Reason, Recorder, View};

/// The fresh state of one feature, as document 01 lists it.
fn fresh(view: &View, running: bool) {
    assert_eq!(view.oper, view.max);
    assert!(view.peer.is_none() && !view.error);
    assert_eq!(view.opercfg, view.parameters);
    assert_eq!(view.featureseqno, 1);
    assert_eq!(view.syncd, !view.advertise);
    if view.advertise {
        assert_eq!((view.reason, view.mode), (Reason::NoPeerYet, false));
    } else {
        assert_eq!((view.reason, view.mode), (Reason::NotAdvertised, running && view.enable));
    }
}

fn all_fresh(port: &OnePort) {
    let running = port.running();
    let control = port.control();
    assert_eq!(control.oper, control.max);
    let advertised = (2..=4).any(|n| port.feature(n).advertise);
    assert_eq!(numbers(port), (u32::from(running && advertised), 0, 0));
    assert!(!control.peer_seen && !control.duplicate_control);
    (2..=4).for_each(|n| fresh(&port.feature(n), running));
}

/// Groups advertised, flow control not but enabled, applications neither.
fn mixed() -> OnePort {
    let mut settings = w2_settings();
    settings.control_max = 7;
    settings.feature[0].0 = 3;
    settings.feature[1].0 = 255;
    settings.feature[1].1.advertise = false;
    settings.feature[2].1.advertise = false;
    settings.feature[2].1.enable = false;
    port(&settings)
}

#[test]
fn fresh_states() {
    for port in [w2_port(), mixed()] {
        let flags = port.flags();
        assert!(flags.enabled && flags.receive && flags.transmit && !flags.several_neighbours);
        all_fresh(&port);
        for flag in [Flag::Enabled, Flag::Receive, Flag::Transmit] {
            let mut port = port.clone();
            assert!(port.set_flag(flag, false), "stopping asks");
            all_fresh(&port);
            assert!(!port.set_flag(flag, false), "no change");
            assert!(port.set_flag(flag, true), "starting asks");
            all_fresh(&port);
        }
    }
    assert!(mixed().feature(3).mode);
}

#[test]
fn running_needs_all_three() {
    let mut port = w2_port();
    assert!(port.set_flag(Flag::Enabled, false));
    let stopped = port.dump();
    // Further flags of a stopped port do not ask.
    assert!(!port.set_flag(Flag::Receive, false));
    assert!(!port.set_flag(Flag::Transmit, false));
    assert!(!port.set_flag(Flag::SeveralNeighbours, true));
    all_fresh(&port);
    assert!(!port.set_flag(Flag::SeveralNeighbours, false));
    assert!(!port.set_flag(Flag::Enabled, true));
    assert!(!port.set_flag(Flag::Receive, true));
    all_fresh(&port);
    assert!(port.set_flag(Flag::Transmit, true));
    all_fresh(&port);
    assert_eq!(notices(&mut port), [(5, 0), (4, 0), (3, 0)]);
    assert!(port.set_flag(Flag::Enabled, false));
    assert_eq!(port.dump(), stopped);
}

#[test]
fn each_way_to_the_fresh_state() {
    let ways: [fn(&mut OnePort) -> bool; 3] = [
        |port| port.peer_gone().unwrap(),
        |port| port.set_flag(Flag::SeveralNeighbours, true),
        |port| port.set_flag(Flag::Receive, false) & port.set_flag(Flag::Receive, true),
    ];
    for way in ways {
        let mut port = settled_port();
        assert!(way(&mut port));
        all_fresh(&port);
    }
    // The second peer gone changes no octet.
    let mut port = settled_port();
    assert_eq!(port.peer_gone(), Ok(true));
    assert_eq!(port.peer_gone(), Ok(false));
    // Clearing the several-neighbours flag changes only the flag.
    let mut port = settled_port();
    port.set_flag(Flag::SeveralNeighbours, true);
    port.change(3, true, true, false, &[0x10, 8]).unwrap();
    let mut before = port.dump();
    assert!(!port.set_flag(Flag::SeveralNeighbours, false));
    before[21] = 0;
    assert_eq!(port.dump(), before);
    // A fresh port flagged and cleared asks for nothing.
    let mut port = w2_port();
    assert!(!port.set_flag(Flag::SeveralNeighbours, true));
    assert!(!port.set_flag(Flag::SeveralNeighbours, false));
}

#[test]
fn the_present_settings_make_the_fresh_state() {
    let mut port = settled_port();
    port.change(3, true, true, true, &[0x30, 3]).unwrap();
    port.change(2, false, true, true, &GROUPS).unwrap();
    port.peer_gone().unwrap();
    all_fresh(&port);
    assert_eq!(port.feature(3).opercfg, [0x30, 3]);
    assert!(port.feature(2).mode);
}

#[test]
fn step_2_stops_at_another_oper() {
    // Our Max 3; a peer of Max 2 that still runs 1.
    let mut settings = w2_settings();
    settings.control_max = 3;
    let mut port = port(&settings);
    let mut list = sub_tlvs(9, 1, 0x80);
    list[0] = control(1, 2, 9, 1);
    assert_eq!(port.frame(&frame(&list)), Ok(true));
    assert_eq!(port.control().oper, 2);
    assert!(port.control().peer_seen);
    assert_eq!(numbers(&port), (1, 0, 0));
    assert_eq!(reasons(&port), [Reason::NoPeerYet; 3]);
    // Now it runs 2.
    list[0] = control(2, 2, 9, 1);
    assert_eq!(port.frame(&frame(&list)), Ok(true));
    assert_eq!(numbers(&port), (1, 9, 1));
    assert_eq!(reasons(&port), [Reason::Agreed; 3]);
    // The lower of the two Max, not of our Oper: up to 3 again.
    list[0] = control(3, 3, 9, 1);
    assert_eq!(port.frame(&frame(&list)), Ok(true));
    assert_eq!(port.control().oper, 3);
    // Held peers stay when a later frame stops at step 2.
    list = vec![control(0, 4, 77, 77)];
    assert_eq!(port.frame(&frame(&list)), Ok(false));
    assert_eq!(numbers(&port), (1, 9, 1));
    assert_eq!(reasons(&port), [Reason::Agreed; 3]);
    assert!(port.feature(2).peer.is_some());
}

#[test]
fn versions_change_the_sub_tlv_and_so_seqno() {
    // Our flow control Max 1, the peer's 0.
    let mut settings = w2_settings();
    settings.feature[1].0 = 1;
    let mut port = port(&settings);
    port.frame(&frame(&sub_tlvs(1, 1, 0x80))).unwrap();
    let flow = port.feature(3);
    assert_eq!((flow.oper, flow.featureseqno, flow.syncd), (0, 2, false));
    assert!(port.feature(2).syncd && port.feature(4).syncd);
    // Acknowledged at once, so SeqNo went up in the same event.
    assert_eq!(numbers(&port), (2, 1, 1));
}

#[test]
fn acknowledgements() {
    // Right, stale, too high; the peer's SeqNo is always taken.
    for (ackno, syncd) in [(1, true), (0, false), (2, false), (u32::MAX, false)] {
        let port = after(&sub_tlvs(5, ackno, 0x80));
        assert!((2..=4).all(|n| port.feature(n).syncd == syncd));
        assert_eq!(numbers(&port), (1, 5, ackno));
    }
    // It may also go down.
    let mut port = after(&sub_tlvs(5, 1, 0x80));
    port.frame(&frame(&sub_tlvs(2, 1, 0x80))).unwrap();
    assert_eq!(numbers(&port), (1, 2, 1));
    // Once Syncd, a stale one does not undo it.
    let mut port = settled_port();
    assert_eq!(port.frame(&frame(&sub_tlvs(1, 0, 0x80))), Ok(false));
    assert!((2..=4).all(|n| port.feature(n).syncd));
    assert_eq!(numbers(&port), (1, 1, 0));
    // A change now waits for the acknowledgement of 1.
    assert_eq!(port.change(3, true, true, true, &FLOW), Ok(false));
    assert_eq!(numbers(&port), (1, 1, 0));
    assert_eq!(port.frame(&frame(&sub_tlvs(1, 1, 0x80))), Ok(true));
    assert_eq!(numbers(&port), (2, 1, 1));
}

#[test]
fn the_wish_to_send() {
    // AckNo alone asks.
    let mut port = settled_port();
    assert_eq!(port.frame(&frame(&sub_tlvs(2, 1, 0x80))), Ok(true));
    assert_eq!(port.frame(&frame(&sub_tlvs(2, 1, 0x80))), Ok(false));
    // The peer's error flag changes the mode but no octet.
    assert_eq!(port.frame(&frame(&sub_tlvs(2, 1, 0xa0))), Ok(false));
    assert!((2..=4).all(|n| !port.feature(n).mode));
    // Error changes octets.
    let mut list = sub_tlvs(2, 1, 0x80);
    list.pop();
    list.push(feature(4, 0, 0, 0x80, &other_parameters(4)));
    assert_eq!(port.frame(&frame(&list)), Ok(true));
    assert_eq!(written(&port).unwrap()[49], 0xa0);
}

#[test]
fn control_twice_and_once_again() {
    let mut port = settled_port();
    let mut twice = sub_tlvs(8, 8, 0x80);
    twice.insert(0, (1, vec![]));
    assert_eq!(port.frame(&frame(&twice)), Ok(true));
    assert!(port.control().duplicate_control);
    assert_eq!(numbers(&port), (2, 1, 1));
    // Again: nothing more.
    assert_eq!(port.frame(&frame(&twice)), Ok(false));
    // One control of another Oper unmarks; reasons stay.
    assert_eq!(port.frame(&frame(&vec![control(1, 1, 8, 8)])), Ok(false));
    assert!(!port.control().duplicate_control);
    assert_eq!(reasons(&port), [Reason::ControlTwice; 3]);
    port.frame(&frame(&sub_tlvs(1, 2, 0x80))).unwrap();
    assert_eq!(reasons(&port), [Reason::Agreed; 3]);
    // Error went away: changed again. 2 was acknowledged first, so 3.
    assert_eq!(numbers(&port), (3, 1, 2));
    assert!((2..=4).all(|n| !port.feature(n).syncd && port.feature(n).featureseqno == 3));
    // A fresh port has its peer seen by two controls too.
    let mut port = w2_port();
    port.frame(&frame(&twice)).unwrap();
    assert!(port.control().peer_seen);
    // Features that are not advertised stay as they are.
    let mut port = mixed();
    let (flow, applications) = (port.feature(3), port.feature(4));
    port.frame(&frame(&twice)).unwrap();
    assert_eq!(port.feature(2).reason, Reason::ControlTwice);
    assert_eq!((port.feature(3), port.feature(4)), (flow, applications));
}

#[test]
fn written_frames() {
    // Ascending types, only the advertised, entries in setting order.
    let mut settings = w2_settings();
    settings.control_max = 9;
    settings.feature[0].1.advertise = false;
    settings.feature[1].0 = 4;
    settings.feature[1].1.willing = true;
    settings.feature[2].1.enable = false;
    settings.feature[2].1.parameters = hex("89 14 01 1b 21 08 89 06 00 1b 21 10");
    let expected = hex("fe 2a 00 1b 21 02 02 0a 09 09 00 00 00 01 00 00 00 00 \
         06 06 04 04 c0 00 08 08 08 10 00 00 00 00 89 14 01 1b 21 08 89 06 00 1b 21 10");
    assert_eq!(written(&port(&settings)).unwrap(), expected);
    // The longest.
    let mut settings = w2_settings();
    settings.feature[2].1.parameters = (0..16).flat_map(|i| [0, i, 1, 0x1b, 0x21, 8]).collect();
    assert_eq!(written(&port(&settings)).unwrap().len(), 147);
}

#[test]
fn a_port_that_was_not_made() {
    let port = OnePort(Recorder::blank());
    let groups = hex("00 00 00 00 64 00 00 00 00 00 00 00 00");
    for (number, parameters) in [(2, groups.clone()), (3, vec![0, 0]), (4, vec![])] {
        let feature = port.feature(number);
        assert_eq!((feature.parameters.clone(), feature.opercfg), (parameters.clone(), parameters));
        assert!(!feature.advertise && !feature.enable && !feature.willing && !feature.mode);
        assert_eq!((feature.max, feature.oper, feature.featureseqno), (0, 0, 1));
        assert_eq!((feature.reason, feature.syncd), (Reason::NotAdvertised, true));
    }
    let expected = port.port_dump();
    let mut port = port;
    assert_eq!(port.0.dump()[..4 * expected.len()], expected.repeat(4));
    assert_eq!(port.0.log().dump(), [0; 17]);
    // It is stopped.
    assert_eq!(port.frame(&hex(W2)), Err(1));
    assert_eq!(port.peer_gone(), Err(1));
    assert_eq!(written(&port), None);
    // What it is set to is valid.
    assert_eq!(port.change(2, false, false, false, &groups), Ok(false));
    assert_eq!(port.change(3, false, false, false, &[0, 0]), Ok(false));
    assert_eq!(port.change(4, false, false, false, &[]), Ok(false));
    assert_eq!(port.port_dump(), expected);
    // It can be started, and writes W3; then it runs as any other.
    assert!(!port.set_flag(Flag::Receive, true));
    assert!(!port.set_flag(Flag::Transmit, true));
    assert!(port.set_flag(Flag::Enabled, true));
    all_fresh(&port);
    let mut w3 = hex("fe 10 00 1b 21 02 02 0a 00 00");
    w3.extend([0; 8]);
    assert_eq!(written(&port).unwrap(), w3);
    assert_eq!(port.frame(&hex(W2)), Ok(true));
    assert_eq!(numbers(&port), (0, 1, 0));
    assert_eq!(reasons(&port), [Reason::NotAdvertised; 3]);
    assert_eq!(port.change(3, true, true, false, &FLOW), Ok(true));
    assert_eq!(port.frame(&frame(&sub_tlvs(2, 1, 0x80))), Ok(true));
    assert_eq!(port.feature(3).reason, Reason::Agreed);
    let feature = port.feature(2);
    assert_eq!((&feature.parameters, &feature.opercfg), (&groups, &groups));
    // A refused creation leaves it as it was.
    let before = port.dump();
    let mut invalid = w2_settings();
    invalid.feature[1].1.parameters = vec![8, 9];
    assert_eq!(port.0.create(NUMBER, &invalid.lend()), Err(9));
    assert_eq!(port.dump(), before);
}
