//! The outcome rules, one by one, for each feature.

mod common;
use common::*;
use reference::events::OwnedSettings;
use reference::{Reason, View};

/// A port with W2's settings, Max 2 for every feature, and the given feature
/// enabled and willing as said.
fn local(number: u8, enable: bool, willing: bool) -> OwnedSettings {
    let mut settings = w2_settings();
    for (max, _) in &mut settings.feature {
        *max = 2;
    }
    let setting = &mut settings.feature[usize::from(number) - 2].1;
    (setting.enable, setting.willing) = (enable, willing);
    settings
}

/// Gives the port a control and these sub-TLVs; says what the feature became.
fn give(port: &mut OnePort, number: u8, list: &[(u8, Vec<u8>)]) -> View {
    let mut all = vec![control(0, 0, 1, 0)];
    all.extend_from_slice(list);
    port.frame(&frame(&all)).unwrap();
    port.feature(number)
}

fn good(number: u8) -> (u8, Vec<u8>) {
    feature(number, 2, 2, 0x80, w2_parameters(number))
}

/// A port whose feature already holds a peer, with Oper 1.
fn holding(number: u8) -> OnePort {
    let mut port = port(&local(number, true, false));
    let view = give(&mut port, number, &[feature(number, 1, 1, 0x80, w2_parameters(number))]);
    assert_eq!((view.reason, view.oper, view.mode), (Reason::Agreed, 1, true));
    port
}

/// What rules 1 to 5 all do.
fn no_peer(view: &View, reason: Reason, error: bool) {
    assert_eq!((view.reason, view.error), (reason, error));
    assert!(view.peer.is_none() && !view.mode);
    assert_eq!(view.opercfg, view.parameters);
}

#[test]
fn rule_1_absent() {
    for number in 2..=4 {
        let mut port = holding(number);
        let view = give(&mut port, number, &[]);
        no_peer(&view, Reason::Absent, false);
        assert_eq!(view.oper, 2);
        // Another SubType is another feature.
        let mut other = good(number);
        other.1[3] = 1;
        no_peer(&give(&mut holding(number), number, &[other.clone()]), Reason::Absent, false);
        // Beside the right one it does not count.
        let view = give(&mut holding(number), number, &[other.clone(), good(number), other]);
        assert_eq!(view.reason, Reason::Agreed);
        // Nor is its length or version looked at.
        let odd = (number, vec![9, 3, 0xff, 0x80]);
        no_peer(&give(&mut holding(number), number, &[odd]), Reason::Absent, false);
    }
}

#[test]
fn rule_2_duplicate() {
    for number in 2..=4 {
        let short = (number, vec![]);
        let three = (number, vec![0, 0, 0]);
        for list in [
            vec![good(number), good(number)],
            vec![good(number), good(number), good(number)],
            // Shorter than 4 counts for its type.
            vec![good(number), short.clone()],
            vec![three.clone(), short],
            vec![three, good(number)],
        ] {
            let view = give(&mut holding(number), number, &list);
            no_peer(&view, Reason::Duplicate, true);
            assert_eq!(view.oper, 1);
        }
    }
}

#[test]
fn rule_3_bad() {
    for number in 2..=4 {
        for body in [vec![], vec![0], vec![0, 0], vec![2, 2, 0x80], vec![9, 1, 2]] {
            let view = give(&mut holding(number), number, &[(number, body)]);
            no_peer(&view, Reason::Bad, true);
            assert_eq!(view.oper, 1);
        }
        let above = feature(number, 3, 2, 0x80, w2_parameters(number));
        let view = give(&mut holding(number), number, &[above]);
        no_peer(&view, Reason::Bad, true);
        assert_eq!(view.oper, 1);
    }
}

#[test]
fn rule_4_waiting() {
    for number in 2..=4 {
        for (oper, max, becomes) in [(1, 2, 2), (0, 1, 1), (3, 3, 2), (255, 255, 2), (0, 9, 2)] {
            let came = feature(number, oper, max, 0xe0, &[0xff]);
            let view = give(&mut holding(number), number, &[came]);
            no_peer(&view, Reason::Waiting, false);
            assert_eq!(view.oper, becomes);
        }
        // The lower of the two Max, not of our Oper.
        let mut port = holding(number);
        assert_eq!(port.feature(number).oper, 1);
        let view = give(&mut port, number, &[good(number)]);
        assert_eq!((view.reason, view.oper), (Reason::Agreed, 2));
    }
}

/// So many entries of our own.
fn own(count: u8) -> Vec<u8> {
    (0..count).flat_map(|i| [0, i, 0, 0x1b, 0x21, 8]).collect()
}

/// Parameters that no one may send.
fn bad(number: u8) -> Vec<Vec<u8>> {
    let mut list = vec![w2_parameters(number)[1..].to_vec()];
    list.push([w2_parameters(number), &[0]].concat());
    match number {
        2 => {
            for group in 8..15 {
                list.push([&[group << 4], &GROUPS[1..]].concat());
                list.push([&[0, 1, 0, group], &GROUPS[4..]].concat());
            }
            list.push([&GROUPS[..12], &[9]].concat());
            list.push(hex("00 01 00 00 00 00 00 00 00 00 00 00 02"));
            list.push(hex("00 01 00 00 ff 65 00 00 00 00 00 00 02"));
        }
        3 => {
            list.push(vec![8, 9]);
            list.push(vec![8, 255]);
        }
        _ => {
            list.push(hex("89 06 00 1b 21 08 89 06 00 1b 21 08"));
            list.push(hex("89 06 03 1b 21 08 00 00 00 1b 21 01 89 06 03 1b 21 10"));
            // Foreign ones before, between and behind do not make them good.
            list.push(hex(
                "89 06 00 00 21 08 89 06 00 1b 21 08 89 06 04 1b 21 08 89 06 00 1b 21 08",
            ));
            list.push([hex("00 01 00 1b 00 08"), own(17), hex("00 01 80 1b 21 08")].concat());
            // The length is, whosever entries they are.
            list.push(hex("89 06 00 00 00 08 89"));
            list.push(own(17));
        }
    }
    list
}

#[test]
fn rule_5_bad() {
    for number in 2..=4 {
        for parameters in bad(number) {
            let came = feature(number, 2, 2, 0x80, &parameters);
            let view = give(&mut holding(number), number, &[came]);
            no_peer(&view, Reason::Bad, true);
            // Rule 4 set it.
            assert_eq!(view.oper, 2);
        }
    }
}

#[test]
fn what_may_be_received_though_not_set() {
    // More ones than classes; selectors 2 and 3; entries that are not ours.
    for (number, parameters, held) in [
        (3, vec![0xff, 0], vec![0xff, 0]),
        (4, hex("89 06 02 1b 21 08"), hex("89 06 02 1b 21 08")),
        (4, hex("89 06 03 1b 21 08 89 06 fc 01 02 08"), hex("89 06 03 1b 21 08")),
        (
            2,
            hex("ff 77 00 0f 64 00 00 00 00 00 00 00 00"),
            hex("ff 77 00 0f 64 00 00 00 00 00 00 00 00"),
        ),
    ] {
        let mut port = port(&local(number, true, true));
        let view = give(&mut port, number, &[feature(number, 2, 2, 0x80, &parameters)]);
        assert_eq!(view.reason, Reason::Agreed);
        assert_eq!(view.opercfg, held);
        assert_eq!(view.peer.unwrap().parameters, held);
    }
}

/// A foreign entry, so many times.
fn foreign(count: usize) -> Vec<u8> {
    hex("89 06 00 0e 87 10").repeat(count)
}

#[test]
fn entries_that_are_not_ours_are_skipped() {
    let ours = hex("89 06 00 1b 21 08");
    for (came, held) in [
        // One foreign and one own entry for the same id.
        (hex("89 06 00 1b 20 10 89 06 00 1b 21 08"), ours.clone()),
        (hex("89 06 00 1b 21 08 89 06 00 1b 20 10"), ours.clone()),
        // 17 entries of which one is foreign; as many as a frame can hold, of which 16 are own.
        ([own(8), foreign(1), own(16)[48..].to_vec()].concat(), own(16)),
        ([foreign(57), own(16), foreign(8)].concat(), own(16)),
        // All are foreign, the same one many times.
        (foreign(81), vec![]),
        // Each bit above the selector and each bit of the two octets counts.
        ((2..8).flat_map(|bit| [0x89, 6, 1 << bit, 0x1b, 0x21, 8]).collect(), vec![]),
        ((0..8).flat_map(|bit| [0x89, 6, 0, 0x1b ^ 1 << bit, 0x21, 8]).collect(), vec![]),
        ((0..8).flat_map(|bit| [0x89, 6, 0, 0x1b, 0x21 ^ 1 << bit, 8]).collect(), vec![]),
        // The selector does not.
        (
            (0..4).flat_map(|selector| [0x89, 6, selector, 0x1b, 0x21, 8]).collect(),
            (0..4).flat_map(|selector| [0x89, 6, selector, 0x1b, 0x21, 8]).collect(),
        ),
    ] {
        // A willing end adopts what is held.
        let mut willing = port(&local(4, true, true));
        let view = give(&mut willing, 4, &[feature(4, 2, 2, 0x80, &came)]);
        assert_eq!(view.reason, Reason::Agreed, "{came:02x?}");
        assert_eq!(view.opercfg, held);
        assert_eq!(view.peer.unwrap().parameters, held);
        // A setting with a foreign entry is none.
        let set = willing.change(4, true, true, false, &came);
        assert_eq!(set == Err(9), came != held || held.len() == 24);
    }
}

/// Enable, willing, error from three bits.
fn flags(bits: u8) -> (u8, bool, bool, bool) {
    let (enable, willing, error) = (bits & 4 != 0, bits & 2 != 0, bits & 1 != 0);
    let octet = if enable { 0x80 } else { 0 }
        | if willing { 0x40 } else { 0 }
        | if error { 0x20 } else { 0 };
    (octet, enable, willing, error)
}

#[test]
fn rules_6_to_9() {
    for number in 2..=4 {
        for parameters in [w2_parameters(number).to_vec(), other_parameters(number)] {
            let compatible = parameters == w2_parameters(number);
            for own in 0..4 {
                let (enable, willing) = (own & 2 != 0, own & 1 != 0);
                for bits in 0..8 {
                    let (octet, peer_enable, peer_willing, peer_error) = flags(bits);
                    let mut port = port(&local(number, enable, willing));
                    // The other bits are ignored.
                    let came = feature(number, 2, 2, octet | 0x1f, &parameters);
                    let view = give(&mut port, number, &[came]);
                    let peer = view.peer.unwrap();
                    assert_eq!(
                        (peer.enable, peer.willing, peer.error),
                        (peer_enable, peer_willing, peer_error)
                    );
                    assert_eq!(peer.parameters, parameters);
                    let mut own_cfg = true;
                    let expected = if !enable || !peer_enable {
                        (Reason::Disabled, false, false)
                    } else if willing != peer_willing {
                        own_cfg = !willing;
                        (Reason::Agreed, false, !peer_error)
                    } else if compatible {
                        (Reason::Agreed, false, !peer_error)
                    } else {
                        (Reason::NotCompatible, true, false)
                    };
                    assert_eq!((view.reason, view.error, view.mode), expected);
                    assert_eq!(
                        view.opercfg,
                        if own_cfg { w2_parameters(number) } else { &parameters[..] }
                    );
                }
            }
        }
    }
}

#[test]
fn compatible() {
    // Own, peer's, whether compatible when both are unwilling.
    let cases = [
        // The number of classes does not matter.
        (2, GROUPS.to_vec(), [&GROUPS[..12], &[8]].concat(), true),
        (3, FLOW.to_vec(), vec![0x08, 1], true),
        (3, FLOW.to_vec(), vec![0x09, 8], false),
        (2, GROUPS.to_vec(), hex("00 01 00 00 31 33 00 00 00 00 00 00 02"), false),
        (2, GROUPS.to_vec(), hex("00 01 00 01 32 32 00 00 00 00 00 00 02"), false),
        // Nothing named by both.
        (4, APPLICATIONS.to_vec(), vec![], true),
        (4, vec![], APPLICATIONS.to_vec(), true),
        (4, APPLICATIONS.to_vec(), hex("89 06 01 1b 21 10"), true),
        (4, APPLICATIONS.to_vec(), hex("89 07 00 1b 21 10"), true),
        // Another order.
        (
            4,
            hex("89 06 00 1b 21 08 89 14 00 1b 21 10"),
            hex("89 14 00 1b 21 10 89 06 00 1b 21 08"),
            true,
        ),
        // A foreign entry clashes with none, and hides none that clashes.
        (4, APPLICATIONS.to_vec(), hex("89 06 fc 00 00 10 89 06 00 1b 21 08"), true),
        (4, APPLICATIONS.to_vec(), hex("89 06 00 00 00 08 89 06 00 1b 21 10"), false),
        // The last clashes with the first.
        (
            4,
            hex("00 01 00 1b 21 08 89 14 00 1b 21 10"),
            hex("89 14 00 1b 21 11 00 02 00 1b 21 08"),
            false,
        ),
    ];
    for (number, own, theirs, compatible) in cases {
        let mut settings = local(number, true, false);
        settings.feature[usize::from(number) - 2].1.parameters = own.clone();
        let mut port = port(&settings);
        let view = give(&mut port, number, &[feature(number, 2, 2, 0x80, &theirs)]);
        assert_eq!(view.reason == Reason::Agreed, compatible, "{own:02x?} {theirs:02x?}");
        assert_eq!(view.reason == Reason::NotCompatible, !compatible);
        assert_eq!(view.opercfg, own);
    }
}

#[test]
fn features_that_are_not_advertised_ignore_what_came() {
    for number in 2..=4 {
        let mut settings = local(number, true, true);
        settings.feature[usize::from(number) - 2].1.advertise = false;
        let mut port = port(&settings);
        let before = port.feature(number);
        for list in [
            vec![],
            vec![good(number)],
            vec![good(number), good(number)],
            vec![(number, vec![])],
            vec![control(0, 0, 1, 1), good(number)],
        ] {
            assert_eq!(give(&mut port, number, &list), before);
        }
    }
}
