//! How many rounds demand 3 needs (document 02, E5), by search, and when each fact that
//! its proof may go by comes to stay.
//! `cargo run --release --offline --example search -- exhaustive`, or `versions`, `table`, `shown`,
//! `losses DEPTH`, `random SEED PAIRS`.
//!
//! Writing changes no state, and the two frames of a round are given to different ends, so the
//! orders within a round cannot matter; refused calls are in tests/rounds.rs.

use reference::events::{random, OwnedSetting, OwnedSettings};
use reference::layout::{APPLICATIONS, PRIORITY_GROUPS};
use reference::rng::XorShift;
use reference::rounds::{settled, Ends, Round};
use reference::{Port, Recorder, Revision};
use std::collections::BTreeMap;

const NUMBER: u8 = 1;
/// More rounds than any exchange needs.
const ROUNDS: usize = 12;

const GROUPS: [u8; 13] = [0, 1, 0, 0, 50, 50, 0, 0, 0, 0, 0, 0, 2];
const OTHER_GROUPS: [u8; 13] = [0, 2, 0, 0, 50, 50, 0, 0, 0, 0, 0, 0, 2];
const PARAMETERS: [[&[u8]; 2]; 3] = [
    [&GROUPS, &OTHER_GROUPS],
    [&[8, 8], &[0x10, 8]],
    [&[0x89, 6, 0, 0x1b, 0x21, 8], &[0x89, 6, 0, 0x1b, 0x21, 0x10]],
];

/// One feature at two ends: who advertises, who is enabled, who is willing, the two Max, and
/// whether the parameters fit.
#[derive(Clone, Copy, Debug, PartialEq, Eq, PartialOrd, Ord)]
struct Kind {
    advertise: [bool; 2],
    enable: [bool; 2],
    willing: [bool; 2],
    max: [u8; 2],
    fits: bool,
}

const MAX: [[u8; 2]; 3] = [[0, 0], [0, 1], [1, 0]];
const BITS: [[bool; 2]; 4] = [[true, true], [true, false], [false, true], [false, false]];

/// All of them; or those alone that matter to one who knows that willing and enable decide
/// only whether the parameters have to fit, and nothing of a feature that one end is silent of.
fn kinds(all: bool) -> Vec<Kind> {
    let mut kinds = Vec::new();
    for advertise in BITS {
        for max in MAX {
            for fits in [true, false] {
                let plain = Kind { advertise, enable: [true; 2], willing: [false; 2], max, fits };
                if !all && advertise != [true, true] && (max != [0, 0] || !fits) {
                    continue;
                }
                kinds.push(plain);
                if all && advertise == [true, true] {
                    kinds.push(Kind { enable: [true, false], ..plain });
                    kinds.push(Kind { enable: [false, false], ..plain });
                    kinds.push(Kind { willing: [true, false], ..plain });
                    kinds.push(Kind { willing: [true, true], ..plain });
                }
            }
        }
    }
    kinds
}

fn settings(end: usize, control: [u8; 2], kinds: [Kind; 3], revision: Revision) -> OwnedSettings {
    let mut i = 0;
    let feature = kinds.map(|kind| {
        let setting = OwnedSetting {
            advertise: kind.advertise[end],
            enable: kind.enable[end],
            willing: kind.willing[end],
            parameters: PARAMETERS[i][usize::from(end == 1 && !kind.fits)].to_vec(),
        };
        i += 1;
        (kind.max[end], setting)
    });
    OwnedSettings { revision, control_max: control[end], feature }
}

fn recorder(settings: &OwnedSettings) -> (Recorder, u8) {
    let mut recorder = Recorder::blank();
    recorder.create(NUMBER, &settings.lend()).expect("valid settings");
    (recorder, NUMBER)
}

fn ends(control: [u8; 2], kinds: [Kind; 3], revisions: [Revision; 2]) -> Ends {
    let [a, b] = [0, 1].map(|end| recorder(&settings(end, control, kinds, revisions[end])));
    Ends::new(a, b)
}

/// The first round after which all holds, and for good.
fn needed(ends: &mut Ends) -> usize {
    let mut last = 0;
    for round in 0..=ROUNDS {
        if !(ends.agreed() && ends.ends().into_iter().all(settled)) {
            last = round + 1;
        }
        ends.round();
    }
    assert!(last < ROUNDS, "never agreed: {ends:?}");
    last
}

fn every<T: Copy>(list: &[T], mut visit: impl FnMut([T; 3])) {
    for &a in list {
        for &b in list {
            for &c in list {
                visit([a, b, c]);
            }
        }
    }
}

const REVISIONS: [Revision; 2] = [Revision::R1_01, Revision::R1_0];

fn exhaustive() {
    for a in REVISIONS {
        for b in REVISIONS {
            let mut count = [0u32; ROUNDS];
            let mut one: [Option<([u8; 2], [Kind; 3])>; ROUNDS] = [None; ROUNDS];
            for control in MAX {
                every(&kinds(true), |kinds| {
                    // Applications that nobody has are of one kind.
                    if a == Revision::R1_0 && b == Revision::R1_0 && kinds[2] != kinds[0] {
                        return;
                    }
                    let rounds = needed(&mut ends(control, kinds, [a, b]));
                    count[rounds] += 1;
                    one[rounds].get_or_insert((control, kinds));
                });
            }
            let most = count.iter().rposition(|&count| count > 0).unwrap();
            println!("{} {}: needed {:?}", a.name(), b.name(), &count[..=most]);
            println!("  as {:?}", one[most].unwrap());
        }
    }
}

/// Kinds with all pairs of versions 0, 1 and 2 that both advertise, and of the control.
fn versions() {
    let pairs: Vec<[u8; 2]> = (0..9).map(|i| [i / 3, i % 3]).collect();
    let mut all: Vec<Kind> =
        kinds(false).into_iter().filter(|kind| kind.advertise != [true, true]).collect();
    for &max in &pairs {
        for fits in [true, false] {
            let (advertise, enable, willing) = ([true; 2], [true; 2], [false; 2]);
            all.push(Kind { advertise, enable, willing, max, fits });
        }
    }
    let mut count = [0u32; ROUNDS];
    for &control in &pairs {
        every(&all, |kinds| {
            count[needed(&mut ends(control, kinds, [Revision::R1_01; 2]))] += 1;
        });
    }
    println!("{} kinds, {} controls: needed {count:?}", all.len(), pairs.len());
}

#[derive(Debug, Default)]
struct Lossy {
    settings: u32,
    rounds: u64,
    both_settled: u64,
    one_settled: u64,
    one_settled_not_agreed: u64,
    needed_after: [u64; ROUNDS],
}

/// Every list of so many rounds, in each of which neither frame, one or both are delivered.
fn losses(depth: u32) {
    let mut seen = Lossy::default();
    for control in MAX {
        every(&kinds(false), |kinds| {
            // The three features are alike but for their parameters.
            if kinds[0] <= kinds[1] && kinds[1] <= kinds[2] {
                seen.settings += 1;
                lose(&mut seen, &ends(control, kinds, [Revision::R1_01; 2]), depth);
            }
        });
    }
    println!("{depth} rounds: {seen:?}");
}

fn lose(seen: &mut Lossy, before: &Ends, depth: u32) {
    assert!(before.held_is_own(), "{before:?}");
    match before.ends().map(settled) {
        [true, true] => {
            seen.both_settled += 1;
            assert!(before.agreed(), "{before:?}");
        }
        [false, false] => {}
        [a, _] => {
            seen.one_settled += 1;
            seen.one_settled_not_agreed += u64::from(!before.agreed_at(usize::from(!a)));
        }
    }
    seen.needed_after[needed(&mut before.clone())] += 1;
    if depth == 0 {
        return;
    }
    for delivered in BITS {
        let mut ends = before.clone();
        ends.round_with(Round { delivered, ..Round::whole(0) }, |_, _| {});
        seen.rounds += 1;
        lose(seen, &ends, depth - 1);
    }
}

const FACTS: [&str; 12] = [
    "control Oper",
    "peer's AckNo = SeqNo",
    "RcvdAckNo = SeqNo",
    "nothing waits",
    "feature waits not",
    "Oper present",
    "Oper released",
    "Error present",
    "Error released",
    "peer held",
    "outcome",
    "Syncd",
];

/// The facts at an end about its flow control.
fn facts(own: &Port, other: &Port, end: &Port) -> [bool; 12] {
    let (control, feature, last) = (own.control(), own.flow(), end.flow());
    let waits = (PRIORITY_GROUPS..=APPLICATIONS).any(|feature| own.feature(feature).waits);
    let released = |get: fn(&reference::Advert<reference::FlowControl>) -> u8| {
        feature.released.as_ref().map(get) == last.present().as_ref().map(get)
    };
    let outcome = (feature.reason, feature.error, feature.mode, feature.oper, feature.opercfg)
        == (last.reason, last.error, last.mode, last.oper, last.opercfg)
        && feature.peer == last.peer;
    [
        control.oper == end.control().oper,
        other.control().ackno == control.seqno,
        control.rcvdackno == control.seqno,
        !waits,
        !feature.waits(),
        feature.oper == last.oper,
        released(|advert| advert.oper),
        feature.error == last.error,
        released(|advert| advert.error.into()),
        feature.peer.is_some() == last.peer.is_some(),
        outcome,
        feature.syncd,
    ]
}

/// For each way the control Max and the flow control Max compare, the latest round after which
/// each fact is there for good, at the end whose Max are named first, over all kinds of the two
/// other features.
fn table() {
    let mut latest: BTreeMap<(usize, usize, usize, bool), [usize; 12]> = BTreeMap::new();
    let kinds = kinds(false);
    for (c, control) in MAX.into_iter().enumerate() {
        every(&kinds, |all| {
            let mut ends = ends(control, all, [Revision::R1_01; 2]);
            let mut states = vec![[0, 1].map(|end| ends.end(end).clone())];
            for _ in 0..ROUNDS {
                ends.round();
                states.push([0, 1].map(|end| ends.end(end).clone()));
            }
            let flow = all[1];
            // Both directions, so that < and > are seen from each end.
            for own in 0..2 {
                let compare = |at: usize| if own == 0 { at } else { [0, 2, 1][at] };
                let advertised = match (flow.advertise[own], flow.advertise[1 - own]) {
                    (true, true) => compare(MAX.iter().position(|&max| max == flow.max).unwrap()),
                    (true, false) => 3,
                    _ => continue,
                };
                let row = latest.entry((compare(c), advertised, 0, flow.fits)).or_default();
                let last = &states[ROUNDS][own];
                for (round, state) in states.iter().enumerate() {
                    for (i, fact) in facts(&state[own], &state[1 - own], last).iter().enumerate() {
                        if !fact {
                            row[i] = row[i].max(round + 1);
                        }
                    }
                }
            }
        });
    }
    println!("latest round from which on: {FACTS:?}");
    for ((control, feature, _, fits), row) in latest {
        println!(
            "control {} flow {:8} {:4} {row:2?}",
            ["=", "<", ">"][control],
            ["=", "<", ">", "absent"][feature],
            if fits { "fits" } else { "not" },
        );
    }
}

fn pair(rng: &mut XorShift) -> Ends {
    let a = random::settings(rng);
    let b = if rng.percent(85) { random::settings_near(rng, &a) } else { random::settings(rng) };
    let (a, b) = if rng.flip() { (a, b) } else { (b, a) };
    Ends::new(recorder(&a), recorder(&b))
}

/// Random settings: rounds without losses, and what is settled after lossy ones.
fn at_random(seed: u64, pairs: u32) {
    let mut rng = XorShift::new(seed);
    let (mut count, mut after_losses) = ([0u32; ROUNDS], [0u32; ROUNDS]);
    let (mut both, mut one, mut one_not, mut lossy_rounds) = (0u32, 0u32, 0u32, 0u32);
    for _ in 0..pairs {
        let mut ends = pair(&mut rng);
        count[needed(&mut ends.clone())] += 1;
        for _ in 0..rng.below(14) {
            let round = Round {
                first: rng.below(2) as usize,
                writes: [rng.percent(85), rng.percent(85)],
                delivered: [rng.percent(60), rng.percent(60)],
            };
            ends.round_with(round, |_, _| {});
            lossy_rounds += 1;
            assert!(ends.held_is_own(), "{ends:?}");
            match [0, 1].map(|end| settled(ends.end(end))) {
                [true, true] => {
                    both += 1;
                    assert!(ends.agreed(), "{ends:?}");
                }
                [false, false] => {}
                [a, _] => {
                    one += 1;
                    one_not += u32::from(!ends.agreed_at(usize::from(!a)));
                }
            }
        }
        after_losses[needed(&mut ends)] += 1;
    }
    println!("{pairs} pairs, seed {seed:#x}: needed {count:?}");
    println!("{lossy_rounds} lossy rounds: both settled {both}, all agreed; one alone {one}, of these not agreed {one_not}");
    println!("rounds needed after the losses {after_losses:?}");
}

fn tell(ends: &Ends, round: usize) {
    println!("after {round} rounds: agreed {}", ends.agreed());
    for (name, end) in ["A", "B"].into_iter().zip(ends.ends()) {
        let control = end.control();
        print!(
            "  {name} {}/{} {} {} {}",
            control.oper, control.max, control.seqno, control.ackno, control.rcvdackno
        );
        for feature in PRIORITY_GROUPS..=APPLICATIONS {
            let view = end.feature(feature);
            print!(
                " | {feature}: {:?} oper {} error {} mode {} syncd {} fseq {} waits {} sent {}",
                view.reason,
                view.oper,
                u8::from(view.error),
                u8::from(view.mode),
                u8::from(view.syncd),
                view.featureseqno,
                u8::from(view.waits),
                view.released
                    .map_or("none".into(), |octets| format!("{} {:02x}", octets[0], octets[2])),
            );
        }
        println!();
    }
}

/// The exchanges that need most rounds, the plainest first; with the states of that one.
fn shown() {
    let mut found: Vec<(usize, usize, [u8; 2], [Kind; 3])> = Vec::new();
    for control in MAX {
        every(&kinds(false), |kinds| {
            let rounds = needed(&mut ends(control, kinds, [Revision::R1_01; 2]));
            let plain = kinds.iter().map(|kind| {
                usize::from(kind.max != [0, 0]) * 2
                    + usize::from(!kind.fits) * 2
                    + kind.advertise.iter().filter(|&&on| on).count()
            });
            found.push((
                rounds,
                plain.sum::<usize>() + usize::from(control != [0, 0]),
                control,
                kinds,
            ));
        });
    }
    let most = found.iter().map(|one| one.0).max().unwrap();
    found.retain(|one| one.0 == most);
    found.sort_by_key(|one| (one.1, one.2, one.3));
    println!("{} exchanges need {most} rounds; the plainest:", found.len());
    for one in &found[..found.len().min(4)] {
        println!("{one:?}");
    }
    let (_, _, control, kinds) = found[0];
    let mut ends = ends(control, kinds, [Revision::R1_01; 2]);
    for round in 0..=most {
        tell(&ends, round);
        ends.round();
    }
}

fn main() {
    let words: Vec<String> = std::env::args().skip(1).collect();
    let words: Vec<&str> = words.iter().map(String::as_str).collect();
    match words[..] {
        ["exhaustive"] => exhaustive(),
        ["versions"] => versions(),
        ["table"] => table(),
        ["losses", depth] => losses(depth.parse().unwrap()),
        ["shown"] => shown(),
        ["random", seed, pairs] => at_random(seed.parse().unwrap(), pairs.parse().unwrap()),
        _ => eprintln!("exhaustive, versions, table, shown, losses DEPTH or random SEED PAIRS"),
    }
}
