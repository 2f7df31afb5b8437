//! Pending changes wait their turn (document 02, E5): each reading where its words leave a choice,
//! and what holds after any calls.

mod common;
use common::*;
use reference::events::{Call, Event, Generator};
use reference::layout::{self, Found, SubTlvs};
use reference::{Flag, Port, Reason, Recorder, Revision, View};

/// The sub-TLV by the present state, without its head; none if not advertised.
fn present(view: &View) -> Option<Vec<u8>> {
    let flag = |on: bool, bit: u8| if on { bit } else { 0 };
    let flags = flag(view.enable, 0x80) | flag(view.willing, 0x40) | flag(view.error, 0x20);
    let body = [&[view.oper, view.max, flags, 0], &view.parameters[..]].concat();
    view.advertise.then_some(body)
}

/// The sub-TLVs of a written frame, by type.
fn carried(frame: &[u8], feature: u8) -> Option<Vec<u8>> {
    let mut walk = SubTlvs::of(frame).unwrap();
    let mut all = std::iter::from_fn(|| walk.hand_out().unwrap());
    all.find(|sub_tlv| sub_tlv.kind == feature).map(|sub_tlv| sub_tlv.body.to_vec())
}

/// A frame of the peer that carries nothing new but its numbers.
fn peer(seqno: u32, ackno: u32) -> Vec<u8> {
    frame(&sub_tlvs(seqno, ackno, 0x80))
}

fn none_waits(port: &Port) -> bool {
    (2..=4).all(|number| {
        let view = port.feature(number);
        assert_eq!(view.waits, view.released != present(&view));
        !view.waits
    })
}

#[test]
fn creation_releases_everything() {
    for advertised in 0..8 {
        let mut settings = w2_settings();
        for i in 0..3 {
            settings.feature[i].1.advertise = advertised >> i & 1 == 1;
        }
        let port = common::port(&settings);
        assert!(none_waits(&port));
        assert_eq!(numbers(&port).0, u32::from(advertised != 0));
        let frame = written(&port).unwrap();
        for number in 2..=4 {
            assert_eq!(carried(&frame, number), present(&port.feature(number)));
            assert_eq!(carried(&frame, number), port.feature(number).released);
        }
    }
    assert!(Recorder::blank().ports().iter().all(none_waits));
}

#[test]
fn a_change_waits_for_the_acknowledgement() {
    for number in 2..=4 {
        let mut port = w2_port();
        let before = written(&port).unwrap();
        assert_eq!(port.change(number, true, true, false, &other_parameters(number)), Ok(false));
        let view = port.feature(number);
        assert_eq!((view.syncd, view.featureseqno, view.waits), (false, 2, true));
        assert_eq!(view.opercfg, other_parameters(number));
        assert_eq!(written(&port).unwrap(), before);
        // A frame without the acknowledgement changes the control part alone.
        assert_eq!(port.frame(&peer(5, 0)), Ok(true));
        assert_eq!(numbers(&port), (1, 5, 0));
        assert_eq!(carried(&written(&port).unwrap(), number), carried(&before, number));
        assert_eq!(port.frame(&peer(5, 0)), Ok(false));
        // The acknowledgement releases it, with Error as it is by now.
        assert_eq!(port.frame(&peer(5, 1)), Ok(true));
        assert_eq!(numbers(&port), (2, 5, 1));
        assert!(none_waits(&port) && !port.feature(number).syncd);
        let body = carried(&written(&port).unwrap(), number).unwrap();
        assert_eq!((body[2], &body[4..]), (0xa0, &other_parameters(number)[..]));
        assert_eq!(port.frame(&peer(5, 2)), Ok(false));
        assert!(port.feature(number).syncd);
    }
}

#[test]
fn a_change_at_an_acknowledged_port_goes_out_at_once() {
    for number in 2..=4 {
        let mut port = settled_port();
        assert_eq!(port.change(number, true, true, true, w2_parameters(number)), Ok(true));
        assert!(none_waits(&port));
        assert_eq!(carried(&written(&port).unwrap(), number).unwrap()[2], 0xc0);
        assert_eq!(numbers(&port), (2, 1, 1));
    }
}

#[test]
fn version_and_error_wait_too() {
    let mut settings = w2_settings();
    settings.feature[1].0 = 3;
    let mut port = common::port(&settings);
    let mut list = sub_tlvs(1, 0, 0x80);
    list[2] = feature(3, 1, 1, 0x80, &other_parameters(3));
    port.frame(&frame(&list)).unwrap();
    let view = port.feature(3);
    assert_eq!((view.oper, view.error, view.reason), (1, true, Reason::NotCompatible));
    assert_eq!(view.released.unwrap()[..4], [3, 3, 0x80, 0]);
    // Control twice: Error at all three, which waits as well.
    list.push(control(0, 0, 1, 1));
    assert_eq!(port.frame(&frame(&list)), Ok(false));
    assert!((2..=4).all(|number| port.feature(number).error && port.feature(number).waits));
    assert!((2..=4).all(|number| port.feature(number).released.unwrap()[2] == 0x80));
    // The control's own version does not wait.
    let mut settings = w2_settings();
    settings.control_max = 2;
    let mut port = common::port(&settings);
    assert_eq!(port.frame(&peer(1, 0)), Ok(true));
    assert_eq!(written(&port).unwrap()[8..10], [0, 2]);
}

#[test]
fn all_features_are_released_together() {
    let mut port = w2_port();
    port.change(2, true, true, true, &GROUPS).unwrap();
    port.change(3, false, true, false, &FLOW).unwrap();
    port.change(4, true, true, false, &[]).unwrap();
    assert_eq!(written(&port).unwrap(), hex(W2));
    assert_eq!(port.frame(&peer(1, 1)), Ok(true));
    assert!(none_waits(&port));
    let frame = written(&port).unwrap();
    assert_eq!(carried(&frame, 2).unwrap()[2], 0xc0);
    assert_eq!(carried(&frame, 3), None);
    assert_eq!(carried(&frame, 4).unwrap().len(), 4);
    assert_eq!(numbers(&port), (2, 1, 1));
}

/// A settled port that withdrew a feature: 2 is out and not acknowledged.
fn withdrawn(number: u8, enable: bool) -> OnePort {
    let mut port = settled_port();
    assert_eq!(port.change(number, false, enable, false, w2_parameters(number)), Ok(true));
    port
}

#[test]
fn a_withdrawn_feature_meanwhile() {
    for number in 2..=4 {
        for enable in [true, false] {
            // Released at once, and while it waits.
            let mut waiting = w2_port();
            waiting.frame(&peer(1, 0)).unwrap();
            let before = written(&waiting);
            assert_eq!(
                waiting.change(number, false, enable, false, w2_parameters(number)),
                Ok(false)
            );
            assert_eq!(written(&waiting), before);
            assert!(waiting.feature(number).waits);
            for port in [withdrawn(number, enable), waiting] {
                let view = port.feature(number);
                assert_eq!((view.reason, view.mode), (Reason::NotAdvertised, enable));
                assert_eq!((view.error, view.oper, &view.peer), (false, view.max, &None));
                assert_eq!(view.opercfg, w2_parameters(number));
                assert_eq!((view.syncd, view.featureseqno), (false, 2));
            }
        }
    }
}

#[test]
fn frames_pass_a_withdrawn_feature_over_but_for_its_acknowledgement() {
    for number in 2..=4 {
        for waits in [false, true] {
            let mut start = withdrawn(number, true);
            if waits {
                start = w2_port();
                start.frame(&peer(1, 0)).unwrap();
                start.change(number, false, true, false, w2_parameters(number)).unwrap();
            }
            let ackno = u32::from(!waits);
            let plain = sub_tlvs(1, ackno, 0x80);
            let mut absent = plain.clone();
            absent.remove(usize::from(number) - 1);
            let mut twice = plain.clone();
            twice.push(plain[usize::from(number) - 1].clone());
            let mut short = plain.clone();
            short[usize::from(number) - 1].1.truncate(3);
            let mut controls = plain.clone();
            controls.push(control(0, 0, 1, 2));
            let before = start.feature(number);
            for list in [&plain, &absent, &twice, &short, &controls] {
                let mut port = start.clone();
                let notices = port.held();
                port.frame(&frame(list)).unwrap();
                assert_eq!(port.feature(number), before);
                assert_eq!(port.held(), notices + usize::from(list == &controls));
            }
            // The numbers that it waits for, and others.
            let mut port = start.clone();
            port.frame(&peer(1, 7)).unwrap();
            assert_eq!(port.feature(number), before);
            if waits {
                assert_eq!(port.frame(&peer(1, 1)), Ok(true));
                assert_eq!(numbers(&port), (2, 1, 1));
                assert!(!port.feature(number).waits && !port.feature(number).syncd);
            }
            assert_eq!(carried(&written(&port).unwrap(), number), None);
            assert_eq!(port.frame(&peer(1, 2)), Ok(false));
            assert_eq!(
                port.feature(number),
                View { syncd: true, waits: false, released: None, ..before }
            );
            assert_eq!(port.frame(&peer(1, 2)), Ok(false));
            assert_eq!(numbers(&port), (2, 1, 2));
        }
    }
}

#[test]
fn a_withdrawn_feature_set_again() {
    let mut port = withdrawn(3, true);
    assert_eq!(port.change(3, false, false, true, &[0x10, 1]), Ok(false));
    let view = port.feature(3);
    assert_eq!((view.mode, &view.opercfg[..]), (false, &[0x10, 1][..]));
    assert_eq!((view.syncd, view.featureseqno, view.waits), (false, 2, false));
    // Acknowledged, a further one changes no Syncd.
    port.frame(&peer(1, 2)).unwrap();
    assert!(port.feature(3).syncd);
    assert_eq!(port.change(3, false, true, true, &[0x10, 1]), Ok(false));
    assert!(port.feature(3).syncd);
    assert_eq!(numbers(&port), (2, 1, 2));
}

#[test]
fn the_last_of_several_changes_is_sent() {
    let mut port = w2_port();
    for mask in [1, 2, 4, 8, 0x10] {
        assert_eq!(port.change(3, true, true, false, &[mask, 3]), Ok(false));
        let view = port.feature(3);
        assert_eq!((view.syncd, view.featureseqno, view.waits), (false, 2, true));
        assert_eq!(written(&port).unwrap(), hex(W2));
    }
    port.frame(&peer(1, 1)).unwrap();
    assert_eq!(carried(&written(&port).unwrap(), 3).unwrap()[4..], [0x10, 3]);
    // One more, while 2 is out.
    assert_eq!(port.change(3, true, true, false, &FLOW), Ok(false));
    assert_eq!(port.feature(3).featureseqno, 3);
    assert_eq!(port.frame(&peer(1, 2)), Ok(true));
    assert_eq!(numbers(&port), (3, 1, 2));
    assert!(!port.feature(3).syncd);
    assert_eq!(carried(&written(&port).unwrap(), 3).unwrap()[4..], FLOW);
}

/// Changed and changed back, present and released are equal, but 2 is still due.
fn there_and_back(port: &mut OnePort, number: u8) {
    let before = written(port).unwrap();
    let view = port.feature(number);
    assert!(none_waits(port));
    assert_eq!((view.syncd, view.featureseqno), (false, 2));
    assert_eq!(numbers(port).0, 1);
    assert_eq!(port.frame(&peer(1, 1)), Ok(true));
    assert_eq!(numbers(port), (2, 1, 1));
    let after = written(port).unwrap();
    assert_eq!((&after[..10], &after[18..]), (&before[..10], &before[18..]));
    assert!(!port.feature(number).syncd);
    assert_eq!(port.frame(&peer(1, 2)), Ok(false));
    assert!(port.feature(number).syncd);
}

#[test]
fn changed_and_changed_back() {
    for number in 2..=4 {
        let mut port = w2_port();
        port.frame(&peer(1, 0)).unwrap();
        assert_eq!(port.change(number, true, true, true, w2_parameters(number)), Ok(false));
        assert_eq!(port.change(number, true, true, false, w2_parameters(number)), Ok(false));
        there_and_back(&mut port, number);
    }
}

#[test]
fn added_and_withdrawn_before_the_release() {
    for number in 2..=4 {
        let mut settings = w2_settings();
        settings.feature[usize::from(number) - 2].1.advertise = false;
        let mut port = common::port(&settings);
        port.frame(&peer(1, 0)).unwrap();
        assert_eq!(port.change(number, true, true, false, w2_parameters(number)), Ok(false));
        let view = port.feature(number);
        assert_eq!((view.reason, view.mode, view.released), (Reason::NoPeerYet, false, None));
        assert_eq!((view.syncd, view.featureseqno, view.waits), (false, 2, true));
        assert_eq!(port.change(number, false, true, false, w2_parameters(number)), Ok(false));
        assert_eq!(port.feature(number).reason, Reason::NotAdvertised);
        there_and_back(&mut port, number);
    }
}

#[test]
fn withdrawn_and_added_before_the_release() {
    for number in 2..=4 {
        let mut settings = w2_settings();
        settings.feature[usize::from(number) - 2].0 = 2;
        let mut port = common::port(&settings);
        port.frame(&peer(1, 1)).unwrap();
        assert_eq!((numbers(&port), port.feature(number).oper), ((2, 1, 1), 0));
        let before = written(&port).unwrap();
        assert_eq!(port.change(number, false, true, false, w2_parameters(number)), Ok(false));
        assert_eq!(port.change(number, true, true, false, w2_parameters(number)), Ok(false));
        // As added: Oper is Max again, and waits.
        let view = port.feature(number);
        assert_eq!((view.oper, view.reason, view.mode), (2, Reason::NoPeerYet, false));
        assert_eq!((view.syncd, view.featureseqno, view.waits), (false, 3, true));
        assert_eq!(written(&port).unwrap(), before);
    }
}

#[test]
fn added_while_outstanding_and_added_to_nothing() {
    let mut settings = w2_settings();
    for (_, setting) in &mut settings.feature {
        setting.advertise = false;
    }
    // Nothing advertised: SeqNo 0 counts as acknowledged.
    let mut port = common::port(&settings);
    assert_eq!(port.change(3, true, true, false, &FLOW), Ok(true));
    assert_eq!(numbers(&port), (1, 0, 0));
    assert!(none_waits(&port));
    // Another has to wait, and is a feature in full meanwhile.
    assert_eq!(port.change(4, true, true, false, &APPLICATIONS), Ok(false));
    assert_eq!(port.feature(4).released, None);
    assert_eq!(port.frame(&peer(1, 0)), Ok(true));
    assert_eq!(port.feature(4).reason, Reason::Agreed);
    assert_eq!(carried(&written(&port).unwrap(), 4), None);
    assert_eq!(port.frame(&peer(1, 1)), Ok(true));
    assert!(carried(&written(&port).unwrap(), 4).is_some() && port.feature(3).syncd);
    assert!(none_waits(&port) && !port.feature(4).syncd);
}

#[test]
fn fresh_states_release_what_waits() {
    // A changed, a withdrawn and an added feature.
    let mut settings = w2_settings();
    settings.feature[2].1.advertise = false;
    let mut start = common::port(&settings);
    start.change(2, true, true, true, &GROUPS).unwrap();
    start.change(3, false, true, false, &FLOW).unwrap();
    start.change(4, true, true, false, &APPLICATIONS).unwrap();
    assert!((2..=4).all(|number| start.feature(number).waits));
    assert_eq!(numbers(&start), (1, 0, 0));
    let mut settings = w2_settings();
    settings.feature[0].1.willing = true;
    settings.feature[1].1.advertise = false;
    let like = common::port(&settings);
    // Though SeqNo is 1 before and after, peer gone asks for a send.
    let mut port = start.clone();
    assert_eq!(port.peer_gone(), Ok(true));
    assert_eq!(port.port_dump(), like.port_dump());
    let mut port = start.clone();
    assert!(port.set_flag(Flag::SeveralNeighbours, true));
    assert!(none_waits(&port));
    port.set_flag(Flag::SeveralNeighbours, false);
    assert_eq!(port.port_dump(), like.port_dump());
    for flag in [Flag::Enabled, Flag::Receive, Flag::Transmit] {
        let mut port = start.clone();
        assert!(port.set_flag(flag, false));
        assert!(none_waits(&port) && port.feature(3).syncd);
        // A stopped port stores the setting, and nothing waits.
        assert_eq!(port.change(3, true, true, false, &FLOW), Ok(false));
        assert!(none_waits(&port));
        assert_eq!(port.change(3, false, true, false, &FLOW), Ok(false));
        assert!(none_waits(&port) && port.feature(3).syncd);
        assert!(port.set_flag(flag, true));
        assert_eq!(port.port_dump(), like.port_dump());
    }
}

#[test]
fn the_wrap() {
    let mut port = settled_port();
    port.set_numbers(u32::MAX, 1, u32::MAX - 1, [1, 1, 1]);
    assert_eq!(port.change(3, false, true, false, &FLOW), Ok(false));
    assert_eq!((port.feature(3).featureseqno, port.feature(3).waits), (0, true));
    assert_eq!(port.frame(&peer(1, 0)), Ok(false));
    assert!(!port.feature(3).syncd && port.feature(3).waits);
    assert_eq!(port.frame(&peer(1, u32::MAX)), Ok(true));
    assert_eq!(numbers(&port), (0, 1, u32::MAX));
    assert!(none_waits(&port) && !port.feature(3).syncd);
    assert_eq!(port.frame(&peer(1, 0)), Ok(false));
    assert!(port.feature(3).syncd);
}

#[test]
fn the_longest_frame_waits_too() {
    let sixteen: Vec<u8> = (0..16).flat_map(|i| [0x89, i, 0, 0x1b, 0x21, 8]).collect();
    let mut port = w2_port();
    port.change(4, true, true, false, &sixteen).unwrap();
    assert_eq!(port.write(&mut [0; 57]), Ok(57));
    port.frame(&peer(1, 1)).unwrap();
    assert_eq!(port.write(&mut [0; 146]), Err(10));
    assert_eq!(port.write(&mut [0; 147]), Ok(147));
    // Shorter settings, the same frame.
    port.change(4, true, true, false, &[]).unwrap();
    port.change(2, false, true, false, &GROUPS).unwrap();
    assert_eq!(port.write(&mut [0; 146]), Err(10));
    assert_eq!(port.write(&mut [0; 147]), Ok(147));
}

/// How often what this file is about happened.
#[derive(Debug, Default)]
struct Seen {
    calls: u32,
    changed_while_outstanding: u32,
    added: u32,
    withdrawn: u32,
    added_while_outstanding: u32,
    withdrawn_while_outstanding: u32,
    there_and_back: u32,
    withdrawal_waits: u32,
    withdrawal_acknowledged: u32,
    released_something: u32,
    fresh_with_something_waiting: u32,
}

/// Features as the test itself says they were last released.
type Carried = [[Option<Vec<u8>>; 3]; 4];

#[test]
fn after_any_calls() {
    let seed = 0x2024_0050;
    println!("seed {seed:#x}");
    let mut generator = Generator::new(seed);
    let mut kept = Carried::default();
    let mut seen = Seen::default();
    for i in 0..400_000 {
        if i % 2000 == 0 {
            generator.start();
            kept = Carried::default();
        }
        let before = generator.recorder().clone();
        let (call, answer) = generator.step();
        seen.calls += 1;
        let after = generator.recorder();
        for number in 1..=4 {
            let (old, new) = (before.port(number).unwrap(), after.port(number).unwrap());
            if number != call.port || answer.refusal != 0 {
                assert_eq!(but_mark(old), but_mark(new));
                continue;
            }
            let kept = &mut kept[usize::from(number) - 1];
            one_call(&mut seen, kept, old, new, &call);
            let frames = [&before, after].map(|recorder| written_at(recorder, number));
            assert_eq!(answer.wish, frames[0] != frames[1], "{call:?}");
            if let Some(octets) = &frames[1] {
                reads_back(octets, new);
            }
        }
    }
    println!("{seen:?}");
    let Seen { added, withdrawn, there_and_back, withdrawal_acknowledged, .. } = seen;
    assert!(added.min(withdrawn).min(withdrawal_acknowledged) > 500 && there_and_back > 50);
    assert!(seen.added_while_outstanding.min(seen.withdrawn_while_outstanding) > 300);
    assert!(seen.fresh_with_something_waiting.min(seen.released_something) > 500);
}

/// An accepted call, of which the test knows when it releases: in fresh states and with a new SeqNo.
fn one_call(seen: &mut Seen, kept: &mut [Option<Vec<u8>>; 3], old: &Port, new: &Port, call: &Call) {
    let fresh = match call.event {
        Event::Create(_) | Event::PeerGone => true,
        Event::SetFlag(flag, on) => {
            old.running() != new.running()
                || flag == Flag::SeveralNeighbours && on && !old.flags().several_neighbours
        }
        Event::Change { .. } => !new.running(),
        _ => false,
    };
    let released = fresh || old.control().seqno != new.control().seqno;
    let outstanding = old.control().seqno != old.control().rcvdackno;
    let views = [2, 3, 4].map(|number| (old.feature(number), new.feature(number)));
    if views.iter().any(|(old, _)| old.waits) {
        seen.fresh_with_something_waiting += u32::from(fresh);
        seen.released_something += u32::from(released && !fresh);
    }
    let acknowledged = new.control().seqno == new.control().rcvdackno;
    for ((old, view), kept) in views.into_iter().zip(kept) {
        if released {
            *kept = present(&view);
        }
        assert_eq!(view.released, *kept, "{call:?}");
        assert_eq!(view.waits, view.released != present(&view));
        assert!(!(view.waits && (view.syncd || !new.running() || acknowledged)), "{call:?}");
        if new.running() && acknowledged {
            assert!(view.syncd, "{call:?}");
        }
        if !view.advertise {
            assert_eq!(view.reason, Reason::NotAdvertised);
            assert!(view.syncd || new.running());
            seen.withdrawal_waits += u32::from(view.waits);
            seen.withdrawal_acknowledged += u32::from(!fresh && !old.syncd && view.syncd);
            if !fresh && !old.advertise {
                // Passed over but for Syncd, which is not lost, and a setting.
                assert!(view.syncd || !old.syncd);
                assert!(view.peer.is_none() && !view.error);
                assert_eq!(view.featureseqno, old.featureseqno);
            }
        }
        if fresh || present(&old) == present(&view) {
            continue;
        }
        // A change, the withdrawal included.
        assert!(!view.syncd, "{call:?}");
        seen.changed_while_outstanding += u32::from(outstanding && !released);
        seen.there_and_back += u32::from(old.waits && !view.waits && !released);
        match (old.advertise, view.advertise) {
            (false, true) => {
                seen.added += 1;
                seen.added_while_outstanding += u32::from(outstanding);
            }
            (true, false) => {
                seen.withdrawn += 1;
                seen.withdrawn_while_outstanding += u32::from(outstanding);
            }
            _ => {}
        }
    }
}

/// What is written reads back as what was released.
fn reads_back(octets: &[u8], port: &Port) {
    let read = layout::read(octets, Revision::R1_01).unwrap();
    for (number, found) in [(2, read.groups), (3, read.flow), (4, read.applications)] {
        let released = port.feature(number).released;
        match found {
            Found::Absent => assert_eq!(released, None),
            Found::Once(body) => assert_eq!(released.as_deref(), Some(body)),
            Found::Several => panic!(),
        }
    }
}
