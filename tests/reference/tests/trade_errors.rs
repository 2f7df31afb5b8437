//! Each line of "Errors this trade makes".

mod common;
use common::*;
use reference::{Flag, Reason};

#[test]
fn synchronised_before_seqno_is_there() {
    // SeqNo 1, not acknowledged; flow control waits for 2.
    let mut port = w2_port();
    port.change(3, true, true, true, &FLOW).unwrap();
    assert_eq!((numbers(&port).0, port.feature(3).featureseqno), (1, 2));
    port.frame(&frame(&sub_tlvs(1, 2, 0x80))).unwrap();
    assert!(!port.feature(3).syncd);
    assert_eq!(numbers(&port), (1, 1, 2));
    // Nor do the others, whose number is 1.
    assert!(!port.feature(2).syncd && !port.feature(4).syncd);
    // The right way: 1, then 2.
    port.frame(&frame(&sub_tlvs(1, 1, 0x80))).unwrap();
    assert!(port.feature(2).syncd && !port.feature(3).syncd && port.feature(4).syncd);
    assert_eq!(numbers(&port), (2, 1, 1));
    port.frame(&frame(&sub_tlvs(1, 2, 0x80))).unwrap();
    assert!(port.feature(3).syncd);
    assert_eq!(numbers(&port), (2, 1, 2));
}

#[test]
fn newer_version_called_bad() {
    for number in 2..=4 {
        for parameters in [&[][..], &[0xff; 13], &[1, 2, 3, 4, 5]] {
            let mut list = sub_tlvs(1, 0, 0x80);
            list[usize::from(number) - 1] = feature(number, 1, 1, 0x80, parameters);
            let mut port = after(&list);
            let view = port.feature(number);
            assert_eq!(view.reason, Reason::Waiting);
            assert!(!view.error && !view.mode && view.peer.is_none());
            assert_eq!(notices(&mut port), []);
        }
    }
}

#[test]
fn duplicate_flow_control_and_groups() {
    let clean = after(&sub_tlvs(1, 1, 0x80));
    let mut list = sub_tlvs(1, 1, 0x80);
    list.push(feature(3, 0, 0, 0x80, &[0xff, 0xff]));
    let port = after(&list);
    assert_eq!(port.feature(3).reason, Reason::Duplicate);
    assert_eq!(port.feature(2), clean.feature(2));
    assert_eq!(port.feature(4), clean.feature(4));
}

#[test]
fn last_of_two_controls() {
    let start = settled_port();
    for second in [control(0, 0, 7, 8), control(0, 0, 1, 1), (1, vec![]), (1, vec![0xff; 30])] {
        let mut port = start.clone();
        let mut list = sub_tlvs(5, 6, 0x80);
        list.push(second);
        assert_eq!(port.frame(&frame(&list)), Ok(true));
        // Neither control's numbers are taken; step 5 raises SeqNo.
        assert_eq!(numbers(&port), (2, 1, 1));
        assert_eq!(reasons(&port), [Reason::ControlTwice; 3]);
        for number in 2..=4 {
            let view = port.feature(number);
            assert!(view.error && !view.mode && view.peer.is_none() && !view.syncd);
            assert_eq!((view.oper, view.featureseqno), (0, 2));
            assert_eq!(view.opercfg, view.parameters);
        }
        assert!(port.control().peer_seen && port.control().duplicate_control);
        assert_eq!(notices(&mut port), [(6, 0)]);
    }
}

#[test]
fn oldest_notices_kept() {
    let mut port = w2_port();
    for i in 0..100 {
        let flag = if i % 3 == 0 { Flag::Transmit } else { Flag::Receive };
        port.set_flag(flag, false);
        port.set_flag(flag, true);
    }
    assert_eq!(port.dropped(), 36);
    let newest: Vec<_> = (36..100).map(|i| (if i % 3 == 0 { 4 } else { 5 }, 0)).collect();
    assert_eq!(notices(&mut port), newest);
    // The count stays at its end.
    let mut port = w2_port();
    port.set_dropped(u32::MAX - 1);
    for _ in 0..70 {
        port.set_flag(Flag::Transmit, false);
        port.set_flag(Flag::Transmit, true);
    }
    assert_eq!(port.dropped(), u32::MAX);
}
