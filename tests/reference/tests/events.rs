//! The event generator: every reason, refusal and notice occurs, and the
//! engine keeps its promises at each event.

mod common;
use common::*;
use reference::events::{Answer, Call, Event, Generator, FILL};
use reference::layout::{self, judge, Controls, Found};
use reference::{Log, Notice, Port, Reason, Recorder, Revision, Setting};
use std::collections::BTreeMap;

/// The notices due by the flags, marks and reasons before and after.
fn due(event: &Event, before: &Port, after: &Port) -> Vec<(u8, u8)> {
    let mut due = Vec::new();
    let (was, is) = (before.flags(), after.flags());
    if !was.several_neighbours && is.several_neighbours {
        due.push((3, 0));
    }
    if was.transmit && !is.transmit {
        due.push((4, 0));
    }
    if was.receive && !is.receive {
        due.push((5, 0));
    }
    if !before.control().broken_control && after.control().broken_control {
        due.push((1, 0));
    }
    if !before.control().duplicate_control && after.control().duplicate_control {
        due.push((6, 0));
    }
    if *event == Event::PeerGone && before.running() && before.control().peer_seen {
        due.push((9, 0));
    }
    for (number, (was, is)) in (2..).zip(reasons(before).into_iter().zip(reasons(after))) {
        match is {
            _ if was == is => {}
            Reason::Duplicate => due.push((7, number)),
            Reason::Bad => due.push((2, number)),
            Reason::Absent => due.push((8, number)),
            Reason::NotCompatible => due.push((10, number)),
            _ => {}
        }
    }
    due
}

/// Names the rarer things that an accepted event did.
fn happened(event: &Event, before: &Port, after: &Port, mut count: impl FnMut(&'static str)) {
    match event {
        Event::Change { feature, .. } => {
            let (was, is) = (before.feature(*feature), after.feature(*feature));
            count(match (was.advertise, is.advertise) {
                _ if before.dump() == after.dump() => "change: equal setting",
                _ if !before.running() => "change: stopped port",
                _ if before.flags().several_neighbours => "change: several neighbours",
                (true, false) => "change: withdrawn",
                (false, true) => "change: newly advertised",
                (false, false) => "change: stays unadvertised",
                _ if was.peer.is_some() => "change: held peer",
                _ => "change: no peer",
            });
            if (was.advertise || is.advertise) && before.running() && was != is {
                let now = before.control().seqno != after.control().seqno;
                count(if now { "change: SeqNo at once" } else { "change: SeqNo waits" });
                match (was.advertise, is.advertise) {
                    (true, false) if is.waits => count("change: a withdrawal waits"),
                    (true, false) if !now => count("change: withdrawn before its release"),
                    (false, true) if is.waits && is.released.is_none() => {
                        count("change: an added feature waits");
                    }
                    (false, true) if !now => count("change: added again before its release"),
                    _ if was.waits && is.waits => count("change: another while one waits"),
                    _ if was.waits && !now => count("change: back to what was released"),
                    _ => {}
                }
            }
        }
        Event::Frame(octets) => {
            let received = layout::read(octets, before.revision()).unwrap();
            let (was, is) = (before.control(), after.control());
            match received.controls {
                Controls::Several if was.duplicate_control => count("frame: control twice again"),
                Controls::Several => count("frame: control twice"),
                Controls::One(control) if control.oper != is.oper => count("frame: another Oper"),
                Controls::One(control) => {
                    if was.duplicate_control {
                        count("frame: unmarked");
                    }
                    if control.ackno == was.seqno.wrapping_add(1) {
                        count("frame: acknowledged too early");
                    }
                    if is.seqno != was.seqno {
                        count("frame: SeqNo raised");
                    }
                }
            }
            if is.oper > was.oper {
                count("frame: control Oper raised");
            }
            for number in 2..=4 {
                let (was, is) = (before.feature(number), after.feature(number));
                if is.oper > was.oper {
                    count("frame: feature Oper raised");
                }
                if !is_setting(number, &is.opercfg) {
                    count("frame: OperCfg that no setting could have");
                }
                if !is.syncd && is.featureseqno != after.control().seqno {
                    count("frame: change still waits");
                }
                if was.waits && !is.waits {
                    count("frame: released");
                }
                if !was.advertise && !was.syncd {
                    count(if is.syncd {
                        "frame: withdrawal acknowledged"
                    } else {
                        "frame: withdrawal not acknowledged yet"
                    });
                }
            }
            if received != layout::read(octets, Revision::R1_01).unwrap() {
                count("frame: applications skipped under 1.0");
            }
            if after.applications().opercfg.entries().len() == 16 {
                count("frame: 16 entries in OperCfg");
            }
            if let (Found::Once([_, _, _, _, entries @ ..]), Some(peer)) =
                (received.applications, after.feature(4).peer)
            {
                skipped(entries, &peer.parameters, &mut count);
            }
        }
        _ => {}
    }
}

/// Names what foreign entries came beside those that are held. (After a frame
/// whose control has another Oper these may be an earlier frame's.)
fn skipped(came: &[u8], held: &[u8], mut count: impl FnMut(&'static str)) {
    let ours = |entry: &&[u8]| entry[2] < 4 && entry[3..5] == [0x1b, 0x21];
    let own: Vec<u8> = came.chunks_exact(6).filter(ours).flatten().copied().collect();
    if came.len() % 6 != 0 || own != held || came == held {
        return;
    }
    count("frame: foreign entries skipped");
    if came.len() > 6 * 16 && !held.is_empty() {
        count("frame: more than 16 entries, some of them ours");
    }
    if came.len() >= 6 * 70 {
        count("frame: 70 entries or more");
    }
    if held.is_empty() {
        count("frame: all foreign");
    }
    let named = |e: &[u8]| held.chunks(6).any(|h| h[..2] == e[..2] && h[2] == e[2] & 3);
    for entry in came.chunks(6).filter(|entry| !ours(entry) && named(entry)) {
        match (entry[2] >= 4, entry[3..5] == [0x1b, 0x21]) {
            (true, true) => count("frame: foreign by the upper six bits alone, named as ours"),
            (false, false) => count("frame: foreign by 1b 21 alone, named as ours"),
            _ => {}
        }
    }
}

/// Whether a local setting may have these parameters.
fn is_setting(feature: u8, parameters: &[u8]) -> bool {
    let setting = Setting { advertise: true, enable: true, willing: true, parameters };
    Recorder::blank().change(1, feature, &setting).is_ok()
}

/// What holds of every state of a port.
fn lawful(port: &Port) {
    let control = port.control();
    let mut pending = false;
    for number in 2..=4 {
        let f = port.feature(number);
        pending |= !f.syncd;
        assert_eq!(f.reason == Reason::NotAdvertised, !f.advertise);
        let error = matches!(
            f.reason,
            Reason::ControlTwice | Reason::Duplicate | Reason::Bad | Reason::NotCompatible
        );
        assert_eq!(f.error, error);
        let held = matches!(f.reason, Reason::Disabled | Reason::Agreed | Reason::NotCompatible);
        assert_eq!(f.peer.is_some(), held);
        match f.reason {
            Reason::NotAdvertised => assert_eq!(f.mode, port.running() && f.enable),
            Reason::Agreed => assert_eq!(f.mode, !f.peer.as_ref().unwrap().error),
            _ => assert!(!f.mode),
        }
        let theirs = f.reason == Reason::Agreed && f.willing && !f.peer.as_ref().unwrap().willing;
        let config = if theirs { &f.peer.as_ref().unwrap().parameters } else { &f.parameters };
        assert_eq!(f.opercfg, *config);
        assert!(f.oper <= f.max);
        if !f.advertise {
            assert_eq!(f.oper, f.max);
        }
        // A sub-TLV that is Syncd is the one released, and none waits at a stopped port.
        assert!(!(f.waits && (f.syncd || !port.running())));
    }
    assert!(control.oper <= control.max);
    if port.running() {
        assert!(!(pending && control.rcvdackno == control.seqno), "the send rule was due");
    } else {
        // The fresh state, stopped.
        assert_eq!(numbers(port), (0, 0, 0));
        assert!(!control.peer_seen && !control.duplicate_control && control.oper == control.max);
        assert!(!control.broken_control);
        for number in 2..=4 {
            let f = port.feature(number);
            assert_eq!((f.featureseqno, f.oper, f.syncd), (1, f.max, !f.advertise));
            let reason = if f.advertise { Reason::NoPeerYet } else { Reason::NotAdvertised };
            assert_eq!(f.reason, reason);
        }
    }
}

/// What holds of every log.
fn lawful_log(log: &Log) {
    assert!(log.count() <= 64);
    assert_eq!((1..=4).map(|port| log.held(port)).sum::<usize>(), log.count());
    for port in 1..=4 {
        assert_eq!(log.of(port).count(), log.held(port));
    }
}

#[derive(Default)]
struct Counts {
    kinds: BTreeMap<&'static str, u32>,
    refusals: [u32; 17],
    /// By feature, then by reason.
    became: [[u32; 10]; 3],
    noticed: [u32; 11],
    wishes: u32,
    /// What a full log dropped.
    drops: BTreeMap<&'static str, u32>,
    rare: BTreeMap<&'static str, u32>,
}

impl Counts {
    fn drop(&mut self, dropped: Dropped) {
        let what = match dropped.own {
            0 => "writer holds none",
            1..=14 => "writer holds 1 to 14",
            15 => "writer holds 15",
            16 => "writer holds 16",
            17..=63 => "writer holds 17 to 63",
            _ => "writer holds 64",
        };
        *self.drops.entry(what).or_default() += 1;
        if dropped.tie {
            *self.drops.entry("tie").or_default() += 1;
        }
    }

    /// An accepted or refused call at one of the four ports.
    fn at_port(&mut self, call: &Call, answer: &Answer, before: &Recorder, after: &Recorder) {
        let (was, is) = (before.port(call.port).unwrap(), after.port(call.port).unwrap());
        lawful(is);
        if answer.refusal != 0 {
            left_by_refusal(before, call, answer, after);
        }
        match &call.event {
            Event::Create(_) if answer.refusal == 0 => {
                let (had, has) = (written_at(before, call.port), written_at(after, call.port));
                assert!(is.running() && answer.wish == (had != has));
                assert_eq!(before.log().dump(), after.log().dump());
                return;
            }
            Event::Write(length) => {
                assert!(!answer.wish);
                assert_eq!(before.dump(), after.dump());
                assert_eq!(answer.output.len(), *length);
                let (ours, behind) = answer.output.split_at(answer.length);
                assert!(behind.iter().all(|&octet| octet == FILL));
                if answer.refusal == 0 {
                    assert_eq!(ours, written_at(after, call.port).unwrap());
                    // What is written can be read.
                    assert!(layout::read(ours, is.revision()).is_ok());
                } else {
                    assert_eq!(answer.length, 0);
                }
                return;
            }
            Event::Take => {
                assert!(!answer.wish);
                let mut log = PlainLog::of(before.log());
                let oldest = log.held.iter().position(|notice| notice.port == call.port);
                assert_eq!(answer.refusal, if oldest.is_some() { 0 } else { 12 });
                assert_eq!(answer.taken, oldest.map(|place| log.held.remove(place)));
                assert_eq!(PlainLog::of(after.log()), log);
                assert_eq!(was.dump(), is.dump());
                return;
            }
            _ => {}
        }
        // The wish, by the octets themselves.
        let differ = written_at(before, call.port) != written_at(after, call.port);
        assert_eq!(answer.wish, differ, "{call:?}");
        // The log, by its definition.
        let new = due(&call.event, was, is);
        let mut log = PlainLog::of(before.log());
        let mut raised = Vec::new();
        for (number, feature) in new {
            let notice = Notice { port: call.port, number, feature };
            self.noticed[usize::from(number)] += 1;
            raised.push(notice);
            if let Some(dropped) = log.write(notice) {
                self.drop(dropped);
            }
        }
        assert_eq!(answer.raised, raised, "{call:?}");
        assert_eq!(PlainLog::of(after.log()), log, "{call:?}");
        for (feature, became) in self.became.iter_mut().enumerate() {
            let number = 2 + feature as u8;
            let (seqno, rcvdackno) = (was.control().seqno, is.control().rcvdackno);
            let (was, is) = (was.feature(number), is.feature(number));
            if was.reason != is.reason {
                became[is.reason as usize] += 1;
            }
            if !was.syncd && is.syncd && is.advertise {
                *self.rare.entry("synced").or_default() += 1;
                // The Syncd law: the number was SeqNo, and it was acknowledged.
                assert_eq!((is.featureseqno, is.featureseqno), (seqno, rcvdackno));
            }
        }
        if answer.refusal == 0 {
            happened(&call.event, was, is, |what| *self.rare.entry(what).or_default() += 1);
        }
    }

    fn call(&mut self, call: &Call, answer: &Answer, before: &Recorder, after: &Recorder) {
        let kind = match call.event {
            Event::Create(_) => "create",
            Event::Frame(_) => "frame",
            Event::PeerGone => "peer gone",
            Event::SetFlag(..) => "flag",
            Event::Change { .. } => "change",
            Event::Write(_) => "write",
            Event::Take => "take",
        };
        *self.kinds.entry(kind).or_default() += 1;
        self.refusals[usize::from(answer.refusal)] += 1;
        self.wishes += u32::from(answer.wish);
        lawful_log(after.log());
        match &call.event {
            Event::Frame(octets) if (3..=8).contains(&answer.refusal) => {
                assert_eq!((answer.refusal, answer.place.into()), judge(octets));
            }
            _ => assert_eq!(answer.place, 0),
        }
        if (1..=4).contains(&call.port) {
            assert_ne!(answer.refusal, 16);
            self.at_port(call, answer, before, after);
        } else {
            assert_eq!(answer.refusal, 16);
            left_by_refusal(before, call, answer, after);
        }
    }
}

#[test]
fn all_occur_and_all_is_kept() {
    let seed = 0x2024_0003;
    println!("seed {seed:#x}");
    let mut generator = Generator::new(seed);
    let events = 1_000_000;
    let mut counts = Counts::default();
    for i in 0..events {
        if i % 1000 == 0 {
            generator.start();
        }
        let before = generator.recorder().clone();
        let (call, answer) = generator.step();
        counts.call(&call, &answer, &before, generator.recorder());
    }
    println!("{events} events: {:?}", counts.kinds);
    println!("wishes {}, drops {:#?}, {:#?}", counts.wishes, counts.drops, counts.rare);
    for (number, count) in counts.refusals.iter().enumerate() {
        println!("refusal {number:2}: {count}");
        assert_eq!(*count > 100, !(13..16).contains(&number));
    }
    for (number, count) in counts.noticed.iter().enumerate() {
        println!("notice {number:2}: {count}");
        assert_eq!(*count > 100, number >= 1);
    }
    for reason in Reason::ALL {
        let became = counts.became.map(|feature| feature[reason as usize]);
        println!("became {reason:?}: {became:?}");
        assert!(became.iter().all(|&count| count > 100), "{reason:?}");
    }
    // The six kinds of writer, and ties.
    assert_eq!(counts.drops.len(), 7);
    assert!(counts.drops.values().all(|&count| count > 100));
    // Sixteen kinds of change, twenty-one of frame, and synced.
    assert_eq!(counts.rare.len(), 38);
    assert!(counts.rare.values().all(|&count| count > 100));
}

#[test]
fn the_seed_alone_decides() {
    let first: Vec<_> = Generator::new(7).take(5000).collect();
    let again: Vec<_> = Generator::new(7).take(5000).collect();
    let other: Vec<_> = Generator::new(8).take(5000).collect();
    assert_eq!(first, again);
    assert_ne!(first, other);
    // A recorder driven by the plain calls is the generator's own.
    let mut generator = Generator::new(7);
    let mut recorder = Recorder::blank();
    for call in &first {
        let answer = call.apply(&mut recorder);
        assert_eq!(generator.step(), (call.clone(), answer));
        assert_eq!(generator.recorder().dump(), recorder.dump());
    }
}
