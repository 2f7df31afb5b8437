//! What a tick says (document 02, E7): between two ends fresh together, never restarted, with no
//! peer gone, an advertised feature that is Syncd at one end was handled, as it is now, by the
//! other: since its present sub-TLV last changed, the other handled a frame that carries it.
//! And why a restart or a peer gone breaks this.
//!
//! `TICKS=n` makes the searches longer: n times as many random runs, and deeper exhaustive ones.

mod common;
use common::*;
use reference::events::{random, OwnedSetting, OwnedSettings};
use reference::layout::{self, SubTlvs};
use reference::rng::XorShift;
use reference::rounds::Ends;
use reference::{Flag, Port, Reason, Recorder, Setting};
use std::collections::HashSet;

type Body = Option<Vec<u8>>;

/// The sub-TLV by the present state, without its head; none if not advertised.
fn present(port: &Port, feature: u8) -> Body {
    let view = port.feature(feature);
    let flag = |on: bool, bit: u8| if on { bit } else { 0 };
    let flags = flag(view.enable, 0x80) | flag(view.willing, 0x40) | flag(view.error, 0x20);
    let body = [&[view.oper, view.max, flags, 0], &view.parameters[..]].concat();
    view.advertise.then_some(body)
}

fn presents(port: &Port) -> [Body; 3] {
    [2, 3, 4].map(|feature| present(port, feature))
}

/// The sub-TLV of a written frame, by type.
fn carried(frame: &[u8], feature: u8) -> Body {
    let mut walk = SubTlvs::of(frame).unwrap();
    let mut all = std::iter::from_fn(|| walk.hand_out().unwrap());
    all.find(|sub_tlv| sub_tlv.kind == feature).map(|sub_tlv| sub_tlv.body.to_vec())
}

/// What happened in the runs.
#[derive(Clone, Copy, Debug, Default)]
struct Counts {
    steps: u64,
    /// An advertised feature became Syncd.
    ticks: u64,
    /// Meanwhile the other end waits for the version.
    ticks_waiting: u64,
    /// Accepted changes of a setting, and those of a present sub-TLV, whatever made them.
    changes: u64,
    present_changed: u64,
    given: u64,
    /// Given, but not past step 2.
    unhandled: u64,
    /// Given after another step, or not for the first time.
    late: u64,
    again: u64,
    /// Written and never given.
    losses: u64,
    refused_changes: u64,
    refused_frames: u64,
    refused_writes: u64,
    /// SeqNo went from 4,294,967,295 to 0.
    wraps: u64,
}

/// The last frame that an end wrote.
#[derive(Clone)]
struct Written {
    octets: Vec<u8>,
    /// Whether there was a step since.
    aged: bool,
    given: u32,
    /// Whether the sub-TLV has not changed since the writing.
    since: [bool; 3],
}

#[derive(Clone)]
struct Run {
    ends: Ends,
    written: [Option<Written>; 2],
    /// Whether the other end has handled a frame with the present sub-TLV, written and
    /// handled since that last changed.
    handled: [[bool; 3]; 2],
}

/// An end's sub-TLVs, ticks and SeqNo.
type Seen = ([Body; 3], [bool; 3], u32);

impl Run {
    fn new(settings: &[OwnedSettings; 2]) -> Self {
        let run =
            Run { ends: Ends::create(settings), written: [None, None], handled: [[false; 3]; 2] };
        assert_eq!(run.wrong(), None);
        run
    }

    /// The fresh ends, every number of end i raised by `by[i]`.
    fn raise(&mut self, by: [u32; 2]) {
        for i in [0, 1] {
            let port = self.ends.end(i);
            let control = *port.control();
            let up = |number: u32| number.wrapping_add(by[i]);
            let features = [2, 3, 4].map(|feature| up(port.feature(feature).featureseqno));
            let ackno = control.ackno.wrapping_add(by[1 - i]);
            let number = self.ends.port[i];
            self.ends.recorder[i]
                .set_numbers(number, up(control.seqno), ackno, up(control.rcvdackno), features)
                .unwrap();
        }
    }

    fn seen(&self) -> [Seen; 2] {
        self.ends.ends().map(|port| {
            let ticks = [2, 3, 4].map(|feature| {
                let view = port.feature(feature);
                view.advertise && view.syncd
            });
            (presents(port), ticks, port.control().seqno)
        })
    }

    /// A tick for which the claim is false: its end and feature.
    fn wrong(&self) -> Option<(usize, u8)> {
        let all = [0, 1].into_iter().flat_map(|end| [2, 3, 4].map(|feature| (end, feature)));
        all.into_iter().find(|&(end, feature)| {
            let view = self.ends.end(end).feature(feature);
            view.advertise && view.syncd && !self.handled[end][usize::from(feature) - 2]
        })
    }

    /// After a step: what changed is no longer handled.
    fn settle(&mut self, before: &[Seen; 2], counts: &mut Counts) {
        counts.steps += 1;
        self.written.iter_mut().flatten().for_each(|written| written.aged = true);
        let after = self.seen();
        for end in [0, 1] {
            for i in 0..3 {
                if before[end].0[i] != after[end].0[i] {
                    counts.present_changed += 1;
                    self.handled[end][i] = false;
                    if let Some(written) = &mut self.written[end] {
                        written.since[i] = false;
                    }
                }
                if after[end].1[i] && !before[end].1[i] {
                    counts.ticks += 1;
                    let other = self.ends.end(1 - end).feature(2 + i as u8);
                    counts.ticks_waiting += u64::from(other.reason == Reason::Waiting);
                }
            }
            counts.wraps += u64::from(before[end].2 == u32::MAX && after[end].2 == 0);
        }
    }

    fn change(&mut self, end: usize, feature: u8, setting: &OwnedSetting, counts: &mut Counts) {
        let before = self.seen();
        let port = self.ends.port[end];
        match self.ends.recorder[end].change(port, feature, &setting.lend()) {
            Ok(_) => counts.changes += 1,
            Err(number) => {
                assert!(matches!(number, 9 | 11));
                counts.refused_changes += 1;
            }
        }
        self.settle(&before, counts);
    }

    fn write(&mut self, end: usize, counts: &mut Counts) {
        let before = self.seen();
        let octets = written_at(&self.ends.recorder[end], self.ends.port[end]).unwrap();
        self.settle(&before, counts);
        let new = Written { octets, aged: false, given: 0, since: [true; 3] };
        let last = self.written[end].replace(new);
        counts.losses += u64::from(last.is_some_and(|last| last.given == 0));
    }

    /// The frame that the end wrote last, to the other.
    fn give(&mut self, end: usize, counts: &mut Counts) {
        let before = self.seen();
        let Some(written) = &mut self.written[end] else { return };
        counts.given += 1;
        counts.late += u64::from(written.aged);
        counts.again += u64::from(written.given > 0);
        written.given += 1;
        let other = 1 - end;
        let max = self.ends.end(other).control().max;
        self.ends.frame(other, &written.octets).unwrap();
        // A written frame has one control, its first sub-TLV: Oper, Max.
        assert_eq!(written.octets[6..8], layout::head(layout::CONTROL, 10));
        if written.octets[8] == max.min(written.octets[9]) {
            for i in 0..3 {
                let same = carried(&written.octets, 2 + i as u8) == before[end].0[i];
                if same && written.since[i] {
                    self.handled[end][i] = true;
                }
            }
        } else {
            counts.unhandled += 1;
        }
        self.settle(&before, counts);
    }

    /// Anything else at an end, also what E7 leaves out.
    fn call<T>(&mut self, end: usize, call: impl FnOnce(&mut Recorder, u8) -> Result<T, u8>) {
        let before = self.seen();
        assert!(call(&mut self.ends.recorder[end], self.ends.port[end]).is_ok());
        self.settle(&before, &mut Counts::default());
    }

    fn refused(&mut self, rng: &mut XorShift, end: usize, counts: &mut Counts) {
        let before = self.seen();
        let (recorder, port) = (&mut self.ends.recorder[end], self.ends.port[end]);
        let mut octets = written_at(recorder, port).unwrap();
        if rng.percent(30) {
            let mut out = vec![0; rng.below(octets.len() as u32) as usize];
            assert_eq!(recorder.write(port, &mut out), Err(10));
            counts.refused_writes += 1;
        } else {
            // The other's own frame, or ours, damaged; or a broken control.
            if let (Some(theirs), true) = (&self.written[1 - end], rng.flip()) {
                octets = theirs.octets.clone();
            }
            match rng.below(4) {
                0 => octets[8..10].copy_from_slice(&[1, 0]),
                1 => octets.truncate(rng.below(octets.len() as u32) as usize),
                2 => octets[rng.below(6) as usize] ^= 1 << rng.below(8),
                _ => octets.push(rng.octet()),
            }
            if layout::judge(&octets).0 != 0 {
                recorder.frame(port, &octets).unwrap_err();
                counts.refused_frames += 1;
            }
        }
        self.settle(&before, counts);
    }
}

fn owned(port: &Port, feature: u8) -> OwnedSetting {
    let view = port.feature(feature);
    OwnedSetting {
        advertise: view.advertise,
        enable: view.enable,
        willing: view.willing,
        parameters: view.parameters,
    }
}

/// A setting near the present one, or the other end's; sometimes an invalid one.
fn random_change(rng: &mut XorShift, ends: &Ends, end: usize) -> (u8, OwnedSetting) {
    let feature = 2 + rng.below(3) as u8;
    let mut setting = owned(ends.end(end), feature);
    match rng.below(8) {
        0 => setting.advertise ^= true,
        1 => setting.enable ^= true,
        2 => setting.willing ^= true,
        3 => setting.parameters = owned(ends.end(1 - end), feature).parameters,
        4 => setting.parameters = random::invalid(rng, feature, true),
        5 => return (rng.pick(&[0, 1, 5, 255]), setting),
        _ => {
            if rng.flip() {
                setting.advertise = rng.percent(80);
                setting.enable = rng.percent(80);
                setting.willing = rng.flip();
            }
            setting.parameters = random::near(rng, feature, &setting.parameters, true);
        }
    }
    (feature, setting)
}

fn longer() -> u32 {
    std::env::var("TICKS").map_or(1, |times| times.parse().expect("TICKS is a number"))
}

/// Random runs. Strictly, each frame is given at once or not at all, none twice; loosely, the
/// last that an end wrote is given at any time and any number of times.
fn random_runs(strict: bool, seed: u64, runs: u32) -> Counts {
    let mut rng = XorShift::new(seed);
    let mut counts = Counts::default();
    for _ in 0..runs {
        let rng = &mut rng;
        let a = random::settings(rng);
        let b =
            if rng.percent(80) { random::settings_near(rng, &a) } else { random::settings(rng) };
        let mut run = Run::new(&[a, b]);
        if rng.flip() {
            run.raise([(); 2].map(|()| rng.below(12).wrapping_neg()));
        }
        let changes = rng.pick(&[5, 20, 50]);
        let losses = rng.pick(&[0, 20, 60]);
        let mut steps = Vec::new();
        for _ in 0..60 {
            let end = rng.below(2) as usize;
            let c = &mut counts;
            if rng.percent(changes) {
                let (feature, setting) = random_change(rng, &run.ends, end);
                steps.push(format!("{end} sets {feature} {setting:02x?}"));
                run.change(end, feature, &setting, c);
            } else if rng.percent(10) {
                steps.push(format!("{end} refuses"));
                run.refused(rng, end, c);
            } else if strict {
                run.write(end, c);
                let lost = rng.percent(losses);
                steps.push(format!("{end} writes, lost: {lost}"));
                if !lost {
                    run.give(end, c);
                }
            } else if rng.percent(45) {
                steps.push(format!("{end} writes"));
                run.write(end, c);
            } else {
                steps.push(format!("{end}'s last is given"));
                run.give(end, c);
            }
            let wrong = run.wrong();
            assert!(wrong.is_none(), "{wrong:?}\n{}", steps.join("\n"));
        }
    }
    counts
}

fn all_happened(counts: &Counts, strict: bool) {
    let always = [
        counts.ticks,
        counts.ticks_waiting,
        counts.changes,
        counts.present_changed,
        counts.given,
        counts.unhandled,
        counts.losses,
        counts.refused_changes,
        counts.refused_frames,
        counts.refused_writes,
        counts.wraps,
    ];
    assert!(always.iter().all(|&count| count > 0), "{counts:?}");
    assert_eq!([counts.late > 0, counts.again > 0], [!strict; 2], "{counts:?}");
}

#[test]
fn a_tick_means_handled_at_once_or_lost() {
    let counts = random_runs(true, 7, 3000 * longer());
    println!("strict {counts:?}");
    all_happened(&counts, true);
}

#[test]
fn a_tick_means_handled_later_or_twice() {
    let counts = random_runs(false, 70, 3000 * longer());
    println!("loose {counts:?}");
    all_happened(&counts, false);
}

/// What may happen in the exhaustive search, at either end.
#[derive(Clone, Copy, Debug)]
enum Step {
    Exchange,
    Write,
    Give,
    Advertise,
    Willing,
    Mask,
    Enable,
}

const STRICT: &[Step] = &[Step::Exchange, Step::Advertise, Step::Willing, Step::Mask, Step::Enable];
const LOOSE: &[Step] = &[Step::Write, Step::Give, Step::Advertise, Step::Willing, Step::Mask];

fn small_step(run: &mut Run, end: usize, step: Step, counts: &mut Counts) {
    let mut setting = owned(run.ends.end(end), 3);
    match step {
        Step::Exchange => {
            run.write(end, counts);
            return run.give(end, counts);
        }
        Step::Write => return run.write(end, counts),
        Step::Give => return run.give(end, counts),
        Step::Advertise => setting.advertise ^= true,
        Step::Willing => setting.willing ^= true,
        Step::Mask => setting.parameters[0] ^= 0x18,
        Step::Enable => setting.enable ^= true,
    }
    run.change(end, 3, &setting, counts);
}

/// Every run of so many steps from flow control alone, a state met before left out (a frame lost
/// changes none, so that strictly there is no step for it): with equal
/// versions, another of the feature, another of the control, and one end without the feature.
fn small_runs(steps: &[Step], depth: u32) -> (Counts, usize) {
    let mut counts = Counts::default();
    let mut states = 0;
    for variant in 0..4 {
        let mut a = w2_settings();
        a.feature[0].1.advertise = false;
        a.feature[2].1.advertise = false;
        let mut b = a.clone();
        match variant {
            1 => b.feature[1].0 = 2,
            2 => b.control_max = 2,
            3 => b.feature[1].1.advertise = false,
            _ => {}
        }
        let mut start = Run::new(&[a, b]);
        // SeqNo 4,294,967,295 is out, so that the next is 0.
        start.raise([u32::MAX - 1, u32::MAX - 1]);
        let mut met = HashSet::new();
        let mut now = vec![start];
        for _ in 0..depth {
            let mut next = Vec::new();
            for run in &now {
                for (end, &step) in [0, 1].iter().flat_map(|&e| steps.iter().map(move |s| (e, s))) {
                    let mut after = run.clone();
                    small_step(&mut after, end, step, &mut counts);
                    assert_eq!(after.wrong(), None, "{end} {step:?}");
                    let frames = after.written.each_ref().map(|written| {
                        written.as_ref().map(|written| (written.octets.clone(), written.since))
                    });
                    let strict = matches!(steps[0], Step::Exchange);
                    let frames = if strict { [None, None] } else { frames };
                    let dumps = after.ends.ends().map(|port| port.dump());
                    if met.insert((dumps, frames, after.handled)) {
                        next.push(after);
                    }
                }
            }
            now = next;
        }
        states += met.len();
    }
    (counts, states)
}

#[test]
fn every_short_run_at_once_or_lost() {
    let (counts, states) = small_runs(STRICT, if longer() > 1 { 8 } else { 7 });
    println!("strict {states} states {counts:?}");
    let happened = [counts.ticks, counts.changes, counts.unhandled, counts.wraps];
    assert!(happened.iter().all(|&count| count > 0), "{counts:?}");
}

#[test]
fn every_short_run_later_or_twice() {
    let (counts, states) = small_runs(LOOSE, if longer() > 1 { 8 } else { 7 });
    println!("loose {states} states {counts:?}");
    let happened = [counts.ticks, counts.changes, counts.losses, counts.again, counts.wraps];
    assert!(happened.iter().all(|&count| count > 0), "{counts:?}");
}

/// W2's ends after whole exchanges: all ticked, rightly, with numbers 1.
fn settled_run() -> Run {
    let mut run = Run::new(&[w2_settings(), w2_settings()]);
    let mut counts = Counts::default();
    for end in [0, 1, 0] {
        run.write(end, &mut counts);
        run.give(end, &mut counts);
        assert_eq!(run.wrong(), None);
    }
    assert_eq!(counts.ticks, 6);
    assert!(run.ends.ends().iter().all(|end| numbers(end) == (1, 1, 1)));
    run
}

/// The claim alone would hold of a tick that comes late or never.
#[test]
fn a_tick_comes_with_the_first_acknowledgement() {
    let mut run = settled_run();
    run.call(0, |recorder, port| recorder.change(port, 3, &other_flow()));
    for (end, ticked) in [(0, false), (1, true)] {
        run.write(end, &mut Counts::default());
        run.give(end, &mut Counts::default());
        assert_eq!(run.ends.end(0).feature(3).syncd, ticked);
        assert_eq!(run.wrong(), None);
    }
}

/// Flow control that is not W2's. Willing, so that W2's makes no Error of it, which would be
/// one change more.
fn other_flow() -> Setting<'static> {
    Setting { advertise: true, enable: true, willing: true, parameters: &[0x10, 8] }
}

/// End 0 is fresh with flow control that end 1 never handled. The next frame of end 1
/// acknowledges SeqNo 1 of before, which is SeqNo again: a tick, and the claim is false.
fn wrongly_ticked(mut run: Run) {
    assert_eq!(run.wrong(), None);
    assert_eq!(numbers(run.ends.end(0)), (1, 0, 0));
    assert!(!run.ends.end(0).feature(3).syncd);
    run.write(1, &mut Counts::default());
    run.give(1, &mut Counts::default());
    assert!(run.ends.end(0).feature(3).syncd);
    assert_eq!(run.wrong(), Some((0, 3)));
    // Not even the weaker claim holds: end 1 never had any but W2's.
    assert_eq!(present(run.ends.end(0), 3).unwrap()[4..], [0x10, 8]);
    assert_eq!(run.ends.end(1).feature(3).peer.unwrap().parameters, w2_parameters(3));
}

#[test]
fn a_restart_breaks_it() {
    let mut run = settled_run();
    run.call(0, |recorder, port| recorder.set_flag(port, Flag::Enabled, false));
    run.call(0, |recorder, port| recorder.change(port, 3, &other_flow()));
    run.call(0, |recorder, port| recorder.set_flag(port, Flag::Enabled, true));
    wrongly_ticked(run);
}

#[test]
fn a_peer_gone_breaks_it() {
    let mut run = settled_run();
    run.call(0, |recorder, port| recorder.change(port, 3, &other_flow()));
    run.call(0, |recorder, port| recorder.peer_gone(port));
    wrongly_ticked(run);
}
