//! Document 02, E13: laws relied on when a cabinet is recabled and the ends swap roles.

mod common;
use common::*;
use reference::events::{random, OwnedSettings};
use reference::rng::XorShift;
use reference::rounds::{outcome_alone, settled, Ends, Outcome, Round};
use reference::{Applications, Feature, FeatureSetting, FlowControl, Groups, Parameters, Port};

#[test]
fn the_lower_of_two_versions() {
    let flow = FlowControl { mask: 0x08, classes: 8 };
    let setting =
        FeatureSetting { advertise: true, enable: true, willing: false, parameters: flow };
    let lower = |a: u8, b: u8| outcome_alone((a, &setting), (b, &setting)).oper;
    for a in 0..=255 {
        assert_eq!(lower(a, a), a);
        for b in 0..=255 {
            assert_eq!(lower(a, b), lower(b, a));
            for c in 0..=255 {
                assert_eq!(lower(lower(a, b), c), lower(a, lower(b, c)));
            }
        }
    }
}

/// Valid parameters, as set or as received; what is invalid this crate does not hold.
fn compatible<P: Parameters>(rng: &mut XorShift) -> [u32; 2] {
    let mut found = [0; 2];
    for _ in 0..300_000 {
        let local = rng.flip();
        let a = random::valid(rng, P::FEATURE, true);
        let b = random::near(rng, P::FEATURE, &a, local);
        let (a, b) = (P::read(&a).unwrap(), P::read(&b).unwrap());
        assert!(a.compatible(&a) && b.compatible(&b));
        assert_eq!(a.compatible(&b), b.compatible(&a));
        found[usize::from(a.compatible(&b))] += 1;
    }
    found
}

#[test]
fn compatibility_is_reflexive_and_symmetric() {
    let mut rng = XorShift::new(0x2024_0013);
    let found = [
        compatible::<Groups>(&mut rng),
        compatible::<FlowControl>(&mut rng),
        compatible::<Applications>(&mut rng),
    ];
    println!("not compatible and compatible, by feature: {found:?}");
    assert!(found.iter().flatten().all(|&n| n > 10_000));
}

#[test]
fn compatibility_of_applications_is_not_transitive() {
    let [to_08, none, to_10] = ["89 06 00 1b 21 08", "", "89 06 00 1b 21 10"]
        .map(|octets| Applications::read(&hex(octets)).unwrap());
    assert!(to_08.compatible(&none) && none.compatible(&to_10));
    assert!(!to_08.compatible(&to_10));
}

/// Both ends of the rules, by the settings alone.
fn alone<P: Parameters>(rng: &mut XorShift, cases: u32) -> [u32; 2] {
    let mut found = [0; 2];
    for _ in 0..cases {
        let a = random::settings(rng);
        let b = random::settings_near(rng, &a);
        let side = |settings: &OwnedSettings| {
            let (max, setting) = &settings.feature[usize::from(P::FEATURE) - 2];
            (*max, FeatureSetting::<P>::read(&setting.lend()).unwrap())
        };
        let (a, b) = (side(&a), side(&b));
        let at_a = outcome_alone((a.0, &a.1), (b.0, &b.1));
        let at_b = outcome_alone((b.0, &b.1), (a.0, &a.1));
        if a.1.advertise && b.1.advertise {
            let told = |o: &Outcome<P>| (o.reason, o.oper, o.error, o.mode);
            assert_eq!(told(&at_a), told(&at_b));
            found[usize::from(at_a.mode)] += 1;
        }
    }
    found
}

#[test]
fn mode_and_error_are_the_same_at_both_ends() {
    let mut rng = XorShift::new(0x2024_1013);
    let found = [
        alone::<Groups>(&mut rng, 200_000),
        alone::<FlowControl>(&mut rng, 200_000),
        alone::<Applications>(&mut rng, 200_000),
    ];
    println!("mode false and true, by feature: {found:?}");
    assert!(found.iter().flatten().all(|&n| n > 10_000));
}

fn outcome<P: Parameters>(feature: &Feature<P>) -> Outcome<P> {
    Outcome {
        reason: feature.reason,
        error: feature.error,
        mode: feature.mode,
        oper: feature.oper,
        peer: feature.peer,
        opercfg: feature.opercfg,
    }
}

/// The two ports have settled on the same.
fn same(p: &Port, q: &Port) -> bool {
    p.control().oper == q.control().oper
        && outcome(p.groups()) == outcome(q.groups())
        && outcome(p.flow()) == outcome(q.flow())
        && outcome(p.applications()) == outcome(q.applications())
}

/// Whether a feature that both advertise has one mode and one Error.
fn one_mode_and_error(ends: &Ends) -> bool {
    let [l, r] = ends.ends();
    (2..=4)
        .map(|number| (l.feature(number), r.feature(number)))
        .all(|(l, r)| !(l.advertise && r.advertise) || (l.mode, l.error) == (r.mode, r.error))
}

#[test]
fn swapping_the_ends_swaps_what_they_settle_on() {
    let mut rng = XorShift::new(0x2024_2013);
    let (pairs, mut lossy) = (100_000, 0u32);
    for i in 0..pairs {
        let a = random::settings(&mut rng);
        let b = random::settings_near(&mut rng, &a);
        let (mut before, mut swapped) = (ends(&a, &b), ends(&b, &a));
        for ends in [&mut before, &mut swapped] {
            for _ in 0..6 + rng.below(3) {
                ends.round_with(Round::whole(rng.below(2) as usize), |_, _| {});
            }
            assert!(one_mode_and_error(ends), "pair {i}");
        }
        for end in 0..2 {
            assert!(same(before.end(end), swapped.end(1 - end)), "pair {i}");
        }
        // With losses, if both ends are settled.
        let mut losing = ends(&b, &a);
        for _ in 0..rng.below(12) {
            let round = Round {
                first: rng.below(2) as usize,
                writes: [rng.percent(80), rng.percent(80)],
                delivered: [rng.percent(60), rng.percent(60)],
            };
            losing.round_with(round, |_, _| {});
            if losing.ends().into_iter().all(settled) {
                for end in 0..2 {
                    assert!(same(before.end(1 - end), losing.end(end)), "pair {i}");
                }
                lossy += 1;
            }
        }
    }
    println!("{pairs} pairs, and both ends settled {lossy} times with losses");
    assert!(lossy > pairs);
}
