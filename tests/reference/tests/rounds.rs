//! Demand 3: six rounds lead to agreement; two ends that are settled have agreed; and what is
//! held of the peer is its own. Between any port of one recorder and any port of another,
//! each of either revision, whatever their other ports do and whatever is refused, broken
//! controls among it. And what unlike ends make of each other (document 02, E11).

mod common;
use common::*;
use reference::events::{random, Call, Event, OwnedSetting, OwnedSettings};
use reference::layout;
use reference::rng::XorShift;
use reference::rounds::{settled, Ends, Round};
use reference::{ControlState, Flag, Flags, Port, Reason, Recorder, Revision, View};

/// What was searched.
#[derive(Debug, Default)]
struct Searched {
    /// By the revisions of the ends: 1.01 and 1.01, 1.01 and 1.0, 1.0 and 1.01, 1.0 and 1.0.
    pairs: [u32; 4],
    rounds: u32,
    /// Beside the writes and frames of the rounds.
    other_calls: u32,
}

impl Searched {
    fn pair(&mut self, ends: &Ends) {
        let [a, b] = ends.ends().map(|end| usize::from(end.revision() == Revision::R1_0));
        self.pairs[2 * a + b] += 1;
    }

    fn round(&mut self, rng: &mut XorShift, ends: &mut Ends, round: Round) {
        self.rounds += 1;
        ends.round_with(round, |recorder, port| {
            self.other_calls += refused(rng, recorder, port) + elsewhere(rng, recorder, port);
        });
    }
}

/// A few calls that are refused at this port, whatever their octets. Says how many.
fn refused(rng: &mut XorShift, recorder: &mut Recorder, port: u8) -> u32 {
    let mut calls = 0;
    while rng.percent(20) {
        calls += match rng.below(7) {
            0 => {
                let length = written_at(recorder, port).unwrap().len();
                let mut out = vec![0; rng.below(length as u32) as usize];
                assert_eq!(recorder.write(port, &mut out), Err(10));
                1
            }
            1 => {
                let length = rng.below(80) as usize;
                if_refused(recorder, port, &rng.octets(length))
            }
            2 | 3 => {
                let octets = broken_control(rng, written_at(recorder, port).unwrap());
                assert!(refused_frame(recorder, port, &octets).is_broken_control());
                1
            }
            4 => {
                let number = rng.pick(&[0, 5, 255]);
                let octets = written_at(recorder, port).unwrap();
                assert_eq!(recorder.frame(number, &octets), Err(16.into()));
                assert_eq!(recorder.write(number, &mut [0; 147]), Err(16));
                2
            }
            _ => {
                // Our own frame with an octet changed or its end cut.
                let mut octets = written_at(recorder, port).unwrap();
                let place = rng.below(octets.len() as u32) as usize;
                if rng.flip() {
                    octets[place] ^= 1 << rng.below(8);
                } else {
                    octets.truncate(place);
                }
                if_refused(recorder, port, &octets)
            }
        };
    }
    calls
}

/// Gives the port octets that it refuses, and no others. Says how many calls that makes.
fn if_refused(recorder: &mut Recorder, port: u8, octets: &[u8]) -> u32 {
    let refused = layout::judge(octets).0 != 0;
    if refused {
        refused_frame(recorder, port, octets);
    }
    refused.into()
}

/// A written frame whose control, the first sub-TLV, has its Oper above its Max or another length.
fn broken_control(rng: &mut XorShift, mut octets: Vec<u8>) -> Vec<u8> {
    if rng.flip() {
        octets[8..10].copy_from_slice(&[1, 0]);
        return octets;
    }
    let length = rng.pick(&[0, 2, 9, 11]);
    let control = [&layout::head(layout::CONTROL, length), &[0; 11][..length]].concat();
    octets.splice(6..18, control);
    octets[1] = (octets.len() - 2) as u8;
    octets
}

/// A few calls at the other ports, refused or not. Says how many.
fn elsewhere(rng: &mut XorShift, recorder: &mut Recorder, port: u8) -> u32 {
    let mut calls = 0;
    while rng.percent(20) {
        calls += 1;
        let other = 1 + (port + rng.below(3) as u8) % 4;
        assert_ne!(other, port);
        let event = match rng.below(8) {
            0 => Event::Create(random::settings(rng)),
            1 => Event::PeerGone,
            2 | 3 => Event::SetFlag(rng.pick(&Flag::ALL), rng.flip()),
            4 => Event::Change { feature: 3, setting: flow(rng) },
            5 => Event::Write(147),
            6 => Event::Take,
            _ => Event::Frame(written_at(recorder, port).unwrap()),
        };
        Call { port: other, event }.apply(recorder);
    }
    calls
}

fn flow(rng: &mut XorShift) -> OwnedSetting {
    let parameters = random::valid(rng, 3, true);
    OwnedSetting { advertise: rng.flip(), enable: rng.flip(), willing: rng.flip(), parameters }
}

/// A recorder with a just started port, now and then one with a past.
fn started(rng: &mut XorShift, settings: &OwnedSettings) -> (Recorder, u8) {
    let port = 1 + rng.below(4) as u8;
    let mut recorder = Recorder::blank();
    recorder.create(port, &settings.lend()).unwrap();
    elsewhere(rng, &mut recorder, port);
    if rng.percent(25) {
        for _ in 0..rng.below(4) {
            let (seqno, ackno) = (rng.below(4), rng.below(4));
            let mut list = sub_tlvs(seqno, ackno, rng.octet());
            list.remove(1 + rng.below(3) as usize);
            recorder.frame(port, &frame(&list)).unwrap();
            refused(rng, &mut recorder, port);
        }
        match rng.below(3) {
            0 => drop(recorder.peer_gone(port).unwrap()),
            1 => {
                recorder.set_flag(port, Flag::SeveralNeighbours, true).unwrap();
                recorder.set_flag(port, Flag::SeveralNeighbours, false).unwrap();
            }
            _ => {
                recorder.set_flag(port, Flag::Enabled, false).unwrap();
                recorder.set_flag(port, Flag::Enabled, true).unwrap();
            }
        }
    }
    (recorder, port)
}

fn pair(rng: &mut XorShift) -> Ends {
    let a = random::settings(rng);
    let b = if rng.percent(85) { random::settings_near(rng, &a) } else { random::settings(rng) };
    let (a, b) = if rng.flip() { (a, b) } else { (b, a) };
    Ends::new(started(rng, &a), started(rng, &b))
}

/// But for the marks, which a refused frame may have left on.
fn dumps(ends: &Ends) -> [Vec<u8>; 2] {
    ends.ends().map(but_mark)
}

#[test]
fn six_rounds_lead_to_agreement() {
    let seed = 0x2024_0001;
    println!("seed {seed:#x}");
    let mut rng = XorShift::new(seed);
    let mut agreed_after = [0u32; 7];
    let mut seen = [0u32; 10];
    let mut searched = Searched::default();
    for i in 0..200_000 {
        let mut ends = pair(&mut rng);
        searched.pair(&ends);
        let mut first = None;
        for round in 1..=6 {
            let whole = Round::whole(rng.below(2) as usize);
            searched.round(&mut rng, &mut ends, whole);
            assert!(ends.held_is_own(), "pair {i}");
            if first.is_none() && ends.agreed() {
                first = Some(round);
            }
        }
        assert!(ends.agreed() && ends.ends().into_iter().all(settled), "pair {i}: {ends:?}");
        agreed_after[first.unwrap()] += 1;
        for end in ends.ends() {
            reasons(end).iter().for_each(|&reason| seen[reason as usize] += 1);
        }
        // What is agreed stays.
        let before = dumps(&ends);
        ends.round();
        assert_eq!(before, dumps(&ends), "pair {i}");
    }
    println!("{searched:?}; agreed after 1 to 6 rounds: {:?}", &agreed_after[1..]);
    for reason in Reason::ALL {
        println!("{:8} {reason:?}", seen[reason as usize]);
    }
    // All that two settings alone can give.
    for reason in [
        Reason::NotAdvertised,
        Reason::Absent,
        Reason::Disabled,
        Reason::Agreed,
        Reason::NotCompatible,
    ] {
        assert!(seen[reason as usize] > 1000);
    }
    assert!(agreed_after[6] > 0);
    assert!(searched.pairs.iter().all(|&pairs| pairs > 20_000));
}

#[test]
fn with_losses_settled_is_agreed_and_held_is_own() {
    let seed = 0x2024_0002;
    println!("seed {seed:#x}");
    let mut rng = XorShift::new(seed);
    let pairs = 100_000;
    let (mut held, mut both, mut alone, mut mistaken) = (0u32, 0u32, 0u32, 0u32);
    let mut searched = Searched::default();
    for i in 0..pairs {
        let mut ends = pair(&mut rng);
        searched.pair(&ends);
        for _ in 0..rng.below(12) {
            let round = lossy(&mut rng);
            searched.round(&mut rng, &mut ends, round);
            assert!(ends.held_is_own(), "pair {i}: {ends:?}");
            match ends.ends().map(settled) {
                [true, true] => {
                    assert!(ends.agreed(), "pair {i}: {ends:?}");
                    both += 1;
                }
                [false, false] => {}
                // One alone need not have agreed: what acknowledged it may have been released before.
                [a, _] => {
                    alone += 1;
                    mistaken += u32::from(!ends.agreed_at(usize::from(!a)));
                }
            }
            held += ends.ends().map(|end| u32::from(end.flow().peer.is_some())).iter().sum::<u32>();
        }
        // After the losses, rounds without any lead to agreement too.
        for _ in 0..6 {
            searched.rounds += 1;
            ends.round();
        }
        assert!(ends.agreed(), "pair {i}: {ends:?}");
    }
    println!("{searched:?}, flow control held {held} times");
    println!("both settled {both} times, one alone {alone}, not agreed {mistaken} of these");
    assert!(held > pairs && both > pairs && mistaken > 1000);
    assert!(searched.pairs.iter().all(|&pairs| pairs > 10_000));
}

fn lossy(rng: &mut XorShift) -> Round {
    Round {
        first: rng.below(2) as usize,
        writes: [rng.percent(80), rng.percent(80)],
        delivered: [rng.percent(60), rng.percent(60)],
    }
}

/// All of a port but its revision and its applications.
fn but_applications(port: &Port) -> (ControlState, Flags, View, View) {
    (*port.control(), *port.flags(), port.feature(2), port.feature(3))
}

/// An end of Rev 1.01, and another of 1.0 or else of 1.01 without applications: both are started
/// with the same past.
fn unlike(rng: &mut XorShift) -> [Ends; 2] {
    let new = OwnedSettings { revision: Revision::R1_01, ..random::settings(rng) };
    let old = OwnedSettings { revision: Revision::R1_0, ..random::settings_near(rng, &new) };
    let mut silent = OwnedSettings { revision: Revision::R1_01, ..old.clone() };
    silent.feature[2].1.advertise = false;
    let start = rng.clone();
    [old, silent].map(|other| {
        *rng = start.clone();
        Ends::new(started(rng, &new), started(rng, &other))
    })
}

/// The 1.01 end, which is A, is the same against either; the other but for its applications.
fn same_but_applications([old, silent]: &[Ends; 2]) {
    assert_eq!(old.end(0).dump(), silent.end(0).dump());
    assert_eq!(but_applications(old.end(1)), but_applications(silent.end(1)));
    for end in 0..2 {
        let [ours, theirs] = [old, silent].map(|ends| {
            let (recorder, port) = (&ends.recorder[end], ends.port[end]);
            (written_at(recorder, port), recorder.log().dump())
        });
        assert_eq!(ours, theirs);
    }
}

#[test]
fn unlike_ends_are_as_ends_without_applications() {
    let seed = 0x2024_0010;
    println!("seed {seed:#x}");
    let mut rng = XorShift::new(seed);
    let mut searched = Searched::default();
    let mut became_absent = 0u32;
    for i in 0..100_000 {
        let mut both = unlike(&mut rng);
        searched.pair(&both[0]);
        same_but_applications(&both);
        let losses = rng.below(6);
        for round in 0..losses + 6 {
            let round =
                if round < losses { lossy(&mut rng) } else { Round::whole(rng.below(2) as usize) };
            let start = rng.clone();
            for ends in &mut both {
                rng = start.clone();
                searched.round(&mut rng, ends, round);
            }
            same_but_applications(&both);
            let applications = both[0].end(0).feature(4);
            let settled = settled(both[0].end(0));
            match (applications.advertise, applications.reason) {
                (false, reason) => assert_eq!(reason, Reason::NotAdvertised),
                (true, Reason::Absent) => {}
                (true, reason) => assert!(reason == Reason::NoPeerYet && !settled, "pair {i}"),
            }
        }
        let new = both[0].end(0);
        assert!(both[0].agreed() && settled(new), "pair {i}");
        became_absent += u32::from(new.feature(4).reason == Reason::Absent);
        assert_eq!(new.feature(4).reason == Reason::Absent, new.feature(4).advertise, "pair {i}");
    }
    println!("{searched:?}, each round against both; absent in the end {became_absent} times");
    assert!(became_absent > 50_000);
}

/// One feature's kind: who advertises, the two Max, and whether rule 9 applies.
#[derive(Clone, Copy)]
struct Kind {
    advertise: (bool, bool),
    max: (u8, u8),
    clash: bool,
}

fn kinds() -> Vec<Kind> {
    let mut kinds = Vec::new();
    for advertise in [(true, true), (true, false), (false, true), (false, false)] {
        for max in [(0, 0), (0, 1), (1, 0)] {
            for clash in [false, true] {
                kinds.push(Kind { advertise, max, clash });
            }
        }
    }
    kinds
}

#[test]
fn every_kind_of_settings() {
    for a in [Revision::R1_0, Revision::R1_01] {
        for b in [Revision::R1_0, Revision::R1_01] {
            every_kind_between(a, b);
        }
    }
}

fn every_kind_between(a_revision: Revision, b_revision: Revision) {
    let kinds = kinds();
    let mut after = [0u32; 7];
    for (a_max, b_max) in [(0, 0), (0, 1), (1, 0)] {
        for groups in &kinds {
            for flow in &kinds {
                for applications in &kinds {
                    let mut a = w2_settings();
                    let mut b = w2_settings();
                    (a.revision, b.revision) = (a_revision, b_revision);
                    (a.control_max, b.control_max) = (a_max, b_max);
                    for (i, kind) in [groups, flow, applications].into_iter().enumerate() {
                        let (ours, theirs) = (&mut a.feature[i], &mut b.feature[i]);
                        (ours.0, theirs.0) = kind.max;
                        (ours.1.advertise, theirs.1.advertise) = kind.advertise;
                        if kind.clash {
                            theirs.1.parameters = other_parameters(2 + i as u8);
                        }
                    }
                    let mut ends = common::ends(&a, &b);
                    let rounds = (1..=6).find(|_| {
                        ends.round();
                        ends.agreed()
                    });
                    after[rounds.expect("six rounds are enough")] += 1;
                    let before = dumps(&ends);
                    ends.round();
                    assert_eq!(before, dumps(&ends));
                }
            }
        }
    }
    println!("{a_revision:?}, {b_revision:?}: agreed after 1 to 6 rounds: {:?}", &after[1..]);
    assert!(after[6] > 0);
}
