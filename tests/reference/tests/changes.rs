//! Changing one feature's setting.

mod common;
use common::*;
use reference::{Flag, Reason};

#[test]
fn equal_settings_change_nothing() {
    for mut port in [w2_port(), settled_port()] {
        let before = port.dump();
        for number in 2..=4 {
            assert_eq!(port.change(number, true, true, false, w2_parameters(number)), Ok(false));
        }
        // Under another OUI it is none of ours, and no setting.
        assert_eq!(port.change(4, true, true, false, &hex("89 06 fc 00 00 08")), Err(9));
        assert_eq!(port.dump(), before);
    }
}

#[test]
fn order_and_number_of_classes_count() {
    let mut port = settled_port();
    assert_eq!(port.change(3, true, true, false, &[0x08, 7]), Ok(true));
    assert_eq!(numbers(&port).0, 2);
    assert_eq!(port.feature(3).reason, Reason::Agreed);
    let one = hex("89 06 00 1b 21 08 89 14 00 1b 21 08");
    let other = hex("89 14 00 1b 21 08 89 06 00 1b 21 08");
    // 2 is not acknowledged yet, so these wait.
    assert_eq!(port.change(4, true, true, false, &one), Ok(false));
    let before = port.dump();
    assert_eq!(port.change(4, true, true, false, &other), Ok(false));
    assert_ne!(port.dump(), before);
    assert_eq!(port.feature(4).opercfg, other);
    assert_eq!(port.change(4, true, true, false, &other), Ok(false));
}

#[test]
fn a_held_peer_is_judged_again() {
    for number in 2..=4 {
        // Not compatible any more.
        let mut port = settled_port();
        let peer = port.feature(number).peer;
        assert_eq!(port.change(number, true, true, false, &other_parameters(number)), Ok(true));
        let view = port.feature(number);
        assert_eq!((view.reason, view.error, view.mode), (Reason::NotCompatible, true, false));
        assert_eq!((view.featureseqno, view.syncd), (2, false));
        assert_eq!(view.opercfg, other_parameters(number));
        assert_eq!(view.peer, peer);
        assert_eq!(numbers(&port), (2, 1, 1));
        assert_eq!(notices(&mut port), [(10, number)]);
        // Willing now: the peer's configuration.
        assert_eq!(port.change(number, true, true, true, &other_parameters(number)), Ok(false));
        let view = port.feature(number);
        assert_eq!((view.reason, view.error, view.mode), (Reason::Agreed, false, true));
        assert_eq!(view.opercfg, w2_parameters(number));
        // 2 is not acknowledged yet: the change waits for 3.
        assert_eq!((view.featureseqno, view.syncd), (3, false));
        assert_eq!(numbers(&port), (2, 1, 1));
        // Disabled.
        assert_eq!(port.change(number, true, false, true, &other_parameters(number)), Ok(false));
        let view = port.feature(number);
        assert_eq!((view.reason, view.error, view.mode), (Reason::Disabled, false, false));
        assert_eq!(view.opercfg, other_parameters(number));
        assert_eq!(notices(&mut port), []);
        // The frames carry the first change alone, and the other features stay.
        let released = port.feature(number).released.unwrap();
        assert_eq!((released[2], &released[4..]), (0xa0, &other_parameters(number)[..]));
        for other in (2..=4).filter(|&other| other != number) {
            assert_eq!(port.feature(other), settled_port().feature(other));
        }
    }
}

#[test]
fn without_a_peer_only_the_configuration_follows() {
    // Ports that hold no peer for the feature, for every reason.
    let mut ports: Vec<(Reason, OnePort)> = vec![(Reason::NoPeerYet, w2_port())];
    let mut list = sub_tlvs(1, 1, 0x80);
    list.remove(2);
    ports.push((Reason::Absent, after(&list)));
    let mut list = sub_tlvs(1, 1, 0x80);
    list.push(list[2].clone());
    ports.push((Reason::Duplicate, after(&list)));
    list.pop();
    list[2] = feature(3, 0, 0, 0x80, &[8, 9]);
    ports.push((Reason::Bad, after(&list)));
    list[2] = feature(3, 1, 1, 0x80, &FLOW);
    ports.push((Reason::Waiting, after(&list)));
    list.push(control(0, 0, 0, 0));
    ports.push((Reason::ControlTwice, after(&list)));
    for (reason, mut port) in ports {
        let before = port.feature(3);
        assert_eq!(before.reason, reason);
        let held = port.held();
        let (seqno, _, rcvdackno) = numbers(&port);
        let sent = seqno == rcvdackno;
        assert_eq!(port.change(3, true, false, true, &[0x10, 1]), Ok(sent));
        let after = port.feature(3);
        assert_eq!(after.waits, !sent);
        assert_eq!(after.released == before.released, !sent);
        assert_eq!(
            (after.reason, after.error, after.mode, after.oper),
            (before.reason, before.error, before.mode, before.oper)
        );
        assert!(after.peer.is_none());
        assert_eq!(after.opercfg, [0x10, 1]);
        assert!(!after.syncd);
        assert_eq!(after.featureseqno, seqno + 1);
        assert_eq!(numbers(&port).0, if sent { seqno + 1 } else { seqno });
        assert_eq!(port.held(), held);
    }
}

#[test]
fn not_advertised_stays_so() {
    let mut port = settled_port();
    port.change(3, false, true, false, &FLOW).unwrap();
    let before = port.feature(3);
    let control = *port.control();
    assert_eq!(port.change(3, false, false, true, &[0x10, 1]), Ok(false));
    let after = port.feature(3);
    assert_eq!((after.mode, &after.opercfg[..]), (false, &[0x10, 1][..]));
    assert_eq!((after.featureseqno, after.syncd), (before.featureseqno, before.syncd));
    assert_eq!(after.reason, Reason::NotAdvertised);
    assert_eq!(*port.control(), control);
    assert_eq!(port.change(3, false, true, true, &[0x10, 1]), Ok(false));
    assert!(port.feature(3).mode);
}

#[test]
fn withdrawn_and_advertised_again() {
    for number in 2..=4 {
        let parameters = w2_parameters(number);
        let mut port = settled_port();
        assert_eq!(port.change(number, false, true, false, parameters), Ok(true));
        let view = port.feature(number);
        assert_eq!((view.reason, view.mode, view.error), (Reason::NotAdvertised, true, false));
        assert!(view.peer.is_none());
        // A withdrawal is a change: 1 is acknowledged, so 2 goes out, and the frame is shorter.
        assert_eq!((view.featureseqno, view.syncd), (2, false));
        assert_eq!(numbers(&port), (2, 1, 1));
        let short = written(&port).unwrap();
        assert!(short.len() < 57);
        // Advertised again while 2 is not acknowledged: 3 waits.
        assert_eq!(port.change(number, true, true, false, parameters), Ok(false));
        let view = port.feature(number);
        assert_eq!((view.reason, view.mode, view.error), (Reason::NoPeerYet, false, false));
        assert_eq!((view.featureseqno, view.syncd), (3, false));
        assert_eq!(numbers(&port), (2, 1, 1));
        // Once more.
        assert_eq!(port.change(number, false, true, false, parameters), Ok(false));
        assert_eq!(port.feature(number).featureseqno, 3);
        assert_eq!(port.change(number, true, true, false, parameters), Ok(false));
        assert_eq!(port.feature(number).featureseqno, 3);
        assert_eq!(numbers(&port), (2, 1, 1));
        assert_eq!(written(&port).unwrap(), short);
        // Oper goes back to Max when withdrawn.
        let mut settings = w2_settings();
        settings.feature[usize::from(number) - 2].0 = 5;
        let mut port = common::port(&settings);
        port.frame(&frame(&sub_tlvs(1, 1, 0x80))).unwrap();
        assert_eq!(port.feature(number).oper, 0);
        port.change(number, false, true, false, parameters).unwrap();
        assert_eq!(port.feature(number).oper, 5);
    }
}

#[test]
fn the_last_pending_feature_withdrawn() {
    // Only flow control advertised, changed before the peer acknowledged.
    let mut settings = w2_settings();
    settings.feature[0].1.advertise = false;
    settings.feature[2].1.advertise = false;
    let mut port = common::port(&settings);
    assert_eq!(port.change(3, false, true, false, &FLOW), Ok(false));
    assert_eq!(numbers(&port), (1, 0, 0));
    assert_eq!(port.frame(&frame(&sub_tlvs(4, 1, 0x80))), Ok(true));
    // The withdrawal goes out, and is acknowledged.
    assert_eq!(numbers(&port), (2, 4, 1));
    assert_eq!(written(&port).unwrap().len(), 18);
    assert_eq!(port.frame(&frame(&sub_tlvs(4, 2, 0x80))), Ok(false));
    assert_eq!(numbers(&port), (2, 4, 2));
    assert!(port.feature(3).syncd);
}

#[test]
fn a_stopped_port_stores_the_setting() {
    for flag in [Flag::Enabled, Flag::Receive, Flag::Transmit] {
        let mut port = settled_port();
        port.set_flag(flag, false);
        // As if created so and stopped.
        let mut settings = w2_settings();
        settings.feature[1].1.parameters = vec![0x10, 3];
        settings.feature[2].1.advertise = false;
        let mut like = common::port(&settings);
        like.set_flag(flag, false);
        assert_eq!(port.change(3, true, true, false, &[0x10, 3]), Ok(false));
        assert_eq!(port.change(4, false, true, false, &APPLICATIONS), Ok(false));
        assert_eq!(port.dump(), like.dump());
        assert!(!port.feature(4).mode);
        // Equal once stored.
        assert_eq!(port.change(3, true, true, false, &[0x10, 3]), Ok(false));
        port.set_flag(flag, true);
        like.set_flag(flag, true);
        assert_eq!(port.dump(), like.dump());
        assert!(port.feature(4).mode);
    }
}

#[test]
fn changes_while_several_neighbours_are_flagged() {
    let mut port = settled_port();
    port.set_flag(Flag::SeveralNeighbours, true);
    assert_eq!(port.change(3, true, true, true, &FLOW), Ok(false));
    assert_eq!(port.feature(3).featureseqno, 2);
    assert!(port.feature(3).waits);
    assert_eq!(numbers(&port), (1, 0, 0));
}
