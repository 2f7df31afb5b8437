//! Two revisions (document 02, E11): worked cases, and what a port of Rev 1.0 is at every
//! call, sought to be disproved with random lists of calls.

mod common;
use common::*;
use reference::events::{assemble, Call, Event, Generator, OwnedSetting, OwnedSettings};
use reference::layout::{self, Found, SubTlvs};
use reference::rounds::settled;
use reference::why::why;
use reference::{Flag, Port, Reason, Recorder, Revision};

const PORTS: [u8; 4] = [1, 2, 3, 4];

/// Type 4 is held unadvertised, not enabled, not willing and empty, its highest version 0.
fn holds_no_applications(port: &Port) {
    let held = port.feature(4);
    assert!(!held.advertise && !held.enable && !held.willing && !held.error && !held.mode);
    assert!(held.parameters.is_empty() && held.opercfg.is_empty() && held.peer.is_none());
    assert_eq!((held.max, held.oper, held.syncd), (0, 0, true));
    assert_eq!(held.reason, Reason::NotAdvertised);
}

/// The types of the sub-TLVs of a frame that can be walked.
fn kinds(frame: &[u8]) -> Vec<u8> {
    let mut walk = SubTlvs::of(frame).unwrap();
    std::iter::from_fn(|| walk.hand_out().unwrap()).map(|sub_tlv| sub_tlv.kind).collect()
}

#[test]
fn creation() {
    let old = port(&old_settings());
    assert_eq!(old.revision(), Revision::R1_0);
    holds_no_applications(&old);
    assert_eq!(old.feature(4).featureseqno, 1);
    for number in [2, 3] {
        assert_eq!(old.feature(number), w2_port().feature(number));
    }
    assert_eq!((old.port_dump()[0], w2_port().port_dump()[0]), (1, 0));
    // No setting for type 4 is taken, so none can be invalid; the others can.
    for (place, refused) in [(0, Some(9)), (1, Some(9)), (2, None)] {
        let mut settings = old_settings();
        settings.feature[place].1.parameters.push(0);
        assert_eq!(creation_refused(&settings), refused);
    }
}

#[test]
fn a_port_that_was_not_made_is_1_01() {
    let blank = OnePort(Recorder::blank());
    assert_eq!((blank.revision(), blank.port_dump()[0]), (Revision::R1_01, 0));
}

#[test]
fn w2_without_applications() {
    let w2 = hex(W2);
    let mut expected = w2[..45].to_vec();
    expected[1] = 43;
    let old = port(&old_settings());
    assert_eq!(written(&old), Some(expected));
    assert_eq!(old.write(&mut [0; 44]), Err(10));
    assert_eq!(old.write(&mut [0; 45]), Ok(45));
}

/// Of each sub-TLV the octets behind its head.
type Bodies = Vec<Vec<u8>>;

/// Type 4 sub-TLVs that 1.01 calls good, twice, short, bad, waiting or another's.
fn all_kinds_of_applications() -> Vec<Bodies> {
    let good = feature(4, 0, 0, 0x80, &APPLICATIONS).1;
    let other_sub_type = [&[0, 0, 0x80, 1], &APPLICATIONS[..]].concat();
    vec![
        vec![good.clone()],
        vec![good.clone(), good],
        vec![vec![]],
        vec![vec![0; 3], vec![0; 3]],
        vec![vec![1, 0, 0x80, 0]],
        vec![vec![9, 9, 0x80, 0]],
        vec![vec![0, 0, 0x80, 0, 7]],
        vec![vec![0xff; 400]],
        vec![other_sub_type],
    ]
}

#[test]
fn type_4_is_skipped() {
    let rest = &sub_tlvs(1, 1, 0x80)[..3];
    let mut expected = port(&old_settings());
    assert_eq!(expected.frame(&assemble(rest)), Ok(true));
    for bodies in all_kinds_of_applications() {
        for place in 0..=rest.len() {
            let mut list = rest.to_vec();
            list.splice(place..place, bodies.iter().map(|body| (4, body.clone())));
            let octets = assemble(&list);
            let read = layout::read(&octets, Revision::R1_0).unwrap();
            assert_eq!(read.applications, Found::Absent);
            assert_eq!(read, layout::read(&assemble(rest), Revision::R1_0).unwrap());
            let mut old = port(&old_settings());
            assert_eq!(old.frame(&octets), Ok(true));
            assert_eq!(old.dump(), expected.dump());
        }
    }
    assert_eq!(reasons(&expected), [Reason::Agreed, Reason::Agreed, Reason::NotAdvertised]);
}

#[test]
fn type_4_has_to_end_within_the_frame() {
    let mut octets = tlv(CONTROL);
    octets.extend(layout::head(4, 1));
    octets[1] += 2;
    let mut old = port(&old_settings());
    let refusal = old.0.frame(NUMBER, &octets).unwrap_err();
    assert_eq!((refusal.number, refusal.place), (5, 18));
}

#[test]
fn a_setting_for_type_4_is_refused() {
    let mut old = port(&old_settings());
    for running in [true, false] {
        old.set_flag(Flag::Enabled, running);
        let before = old.dump();
        // Valid, equal to what is held, and invalid: 11 before 9.
        assert_eq!(old.change(4, true, true, false, &APPLICATIONS), Err(11));
        assert_eq!(old.change(4, false, false, false, &[]), Err(11));
        assert_eq!(old.change(4, true, true, false, &[0; 5]), Err(11));
        assert_eq!(old.dump(), before);
    }
    assert_eq!(old.change(3, true, true, false, &[0x10, 8]), Ok(false));
    assert_eq!(old.change(3, true, true, false, &[0x10, 9]), Err(9));
}

#[test]
fn only_a_creation_changes_the_revision() {
    let mut old = port(&old_settings());
    old.frame(&hex(W2)).unwrap();
    old.peer_gone().unwrap();
    for flag in Flag::ALL {
        old.set_flag(flag, false);
        old.set_flag(flag, true);
        assert_eq!(old.revision(), Revision::R1_0);
    }
    assert_eq!(old.0.create(NUMBER, &w2_settings().lend()), Ok(true));
    assert_eq!(old.port_dump(), w2_port().port_dump());
    assert_eq!(old.0.create(NUMBER, &old_settings().lend()), Ok(true));
    assert_eq!(old.port_dump(), port(&old_settings()).port_dump());
}

/// W2's settings at ends of these revisions: the reasons for applications and the rounds.
fn meet(a: &OwnedSettings, b: &OwnedSettings) -> ([Reason; 2], u32) {
    let mut ends = ends(a, b);
    let rounds = (1..=5).find(|_| {
        ends.round();
        ends.ends().into_iter().all(settled)
    });
    assert!(ends.agreed());
    for end in ends.ends() {
        assert_eq!(reasons(end)[..2], [Reason::Agreed; 2]);
        assert_eq!(numbers(end), (1, 1, 1));
    }
    (ends.ends().map(|end| end.feature(4).reason), rounds.unwrap())
}

#[test]
fn like_and_unlike_ends() {
    let (new, old) = (&w2_settings(), &old_settings());
    assert_eq!(meet(new, new), ([Reason::Agreed; 2], 2));
    assert_eq!(meet(old, old), ([Reason::NotAdvertised; 2], 2));
    assert_eq!(meet(new, old), ([Reason::Absent, Reason::NotAdvertised], 2));
    assert_eq!(meet(old, new), ([Reason::NotAdvertised, Reason::Absent], 2));
    let mut silent = w2_settings();
    silent.feature[2].1.advertise = false;
    assert_eq!(meet(&silent, old), ([Reason::NotAdvertised; 2], 2));
}

fn is_old(recorder: &Recorder, port: u8) -> bool {
    recorder.port(port).is_ok_and(|port| port.revision() == Revision::R1_0)
}

#[test]
fn rev_1_0_never_writes_type_4() {
    let seed = 0x2024_0011;
    println!("seed {seed:#x}");
    let mut generator = Generator::new(seed);
    let calls = 1_000_000;
    let (mut at_old, mut with_type_4, mut frames) = (0u32, 0u32, 0u32);
    // Changes for type 4, valid and invalid.
    let mut changes = [0u32; 2];
    for i in 0..calls {
        if i % 1000 == 0 {
            generator.start();
        }
        let old_before = PORTS.map(|port| is_old(generator.recorder(), port));
        let (call, answer) = generator.step();
        let recorder = generator.recorder();
        let created = matches!(call.event, Event::Create(_)) && answer.refusal == 0;
        for (port, was_old) in PORTS.into_iter().zip(old_before) {
            let old = is_old(recorder, port);
            assert!(old == was_old || created && call.port == port, "{call:?}");
            if old {
                holds_no_applications(recorder.port(port).unwrap());
                let written = written_at(recorder, port);
                assert!(written.iter().all(|frame| !kinds(frame).contains(&4)), "{call:?}");
                frames += u32::from(written.is_some());
            }
        }
        if !is_old(recorder, call.port) {
            continue;
        }
        at_old += 1;
        match &call.event {
            Event::Frame(octets) if answer.refusal == 0 => {
                with_type_4 += u32::from(kinds(octets).contains(&4));
            }
            Event::Change { feature: 4, setting } => {
                assert_eq!(answer.refusal, 11);
                changes[usize::from(why(4, &setting.parameters).is_some())] += 1;
            }
            _ => {}
        }
    }
    println!(
        "{calls} calls, {at_old} at 1.0 ports; {frames} frames of 1.0 ports walked; type 4 in \
         {with_type_4} frames taken; {changes:?} valid and invalid changes for type 4"
    );
    assert!(
        at_old > calls / 5 && with_type_4 > 10_000 && changes.iter().all(|&count| count > 1000)
    );
}

/// A frame with every whole type 4 sub-TLV taken out, and where each place of it and its end
/// were. One that refusals 3 and 4 keep out has no sub-TLVs.
fn without_type_4(frame: &[u8]) -> (Vec<u8>, Vec<usize>) {
    let mut kept: Vec<usize> = (0..frame.len()).collect();
    if !matches!(layout::judge(frame).0, 3 | 4) {
        let mut place = 6;
        while let [high, low, ..] = frame[place.min(frame.len())..] {
            let end = place + 2 + usize::from(u16::from_be_bytes([high & 1, low]));
            if high >> 1 == 4 && end <= frame.len() {
                kept.retain(|kept| !(place..end).contains(kept));
            }
            place = end;
        }
    }
    let mut octets: Vec<u8> = kept.iter().map(|&place| frame[place]).collect();
    if octets.len() != frame.len() {
        let head = layout::head(127, octets.len() - 2);
        octets[..2].copy_from_slice(&head);
    }
    kept.push(frame.len());
    (octets, kept)
}

/// The same settings for 1.01, with the application values that 1.0 holds.
fn as_1_01(settings: &OwnedSettings) -> OwnedSettings {
    let mut settings = settings.clone();
    if settings.revision == Revision::R1_0 {
        settings.revision = Revision::R1_01;
        settings.feature[2] = (0, OwnedSetting::default());
    }
    settings
}

/// What is compared: the states but for the revision, and the log.
fn but_revision(recorder: &Recorder) -> (Vec<Vec<u8>>, Vec<u8>) {
    let states = recorder.ports().iter().map(|port| port.dump()[1..].to_vec());
    (states.collect(), recorder.log().dump())
}

/// A 1.0 port beside a 1.01 port with those application values, which gets no change for
/// type 4, and frames without type 4 or, as they are no different to it, with it.
fn behaves_as_1_01(seed: u64, taken_out: bool) {
    println!("seed {seed:#x}");
    let mut generator = Generator::new(seed);
    let mut twin = Recorder::blank();
    let calls = 500_000;
    let (mut at_old, mut shorter, mut moved) = (0u32, 0u32, 0u32);
    for i in 0..calls {
        if i % 1000 == 0 {
            generator.start();
            twin = Recorder::blank();
        }
        let (call, answer) = generator.step();
        let Call { port, event } = call.clone();
        let old = is_old(generator.recorder(), port);
        at_old += u32::from(old);
        let expected = match event {
            Event::Change { feature: 4, .. } if old => {
                assert_eq!(answer.refusal, 11);
                assert_eq!(but_revision(&twin), but_revision(generator.recorder()));
                continue;
            }
            Event::Create(settings) => {
                Call { port, event: Event::Create(as_1_01(&settings)) }.apply(&mut twin)
            }
            Event::Frame(octets) if old && taken_out => {
                let (left, were) = without_type_4(&octets);
                shorter += u32::from(left.len() < octets.len());
                let mut answer = Call { port, event: Event::Frame(left) }.apply(&mut twin);
                let place = were[usize::from(answer.place)] as u16;
                moved += u32::from(place != answer.place);
                answer.place = place;
                answer
            }
            _ => call.apply(&mut twin),
        };
        assert_eq!(answer, expected, "{call:?}");
        assert_eq!(but_revision(&twin), but_revision(generator.recorder()), "{call:?}");
    }
    println!(
        "{calls} calls, {at_old} at 1.0 ports; {shorter} frames had type 4 taken out, and \
         {moved} places moved by it"
    );
    assert!(at_old > calls / 5);
    assert!(!taken_out || shorter > 10_000 && moved > 1000);
}

#[test]
fn rev_1_0_behaves_as_1_01_without_type_4() {
    behaves_as_1_01(0x2024_0012, true);
}

#[test]
fn rev_1_0_behaves_as_1_01_that_advertises_no_applications() {
    behaves_as_1_01(0x2024_0013, false);
}
