//! The proved engine and the reference at the same random events: every answer,
//! every octet of a lent output and every variable of the state, event by event.
//!
//! COMPARE_SEED and COMPARE_EVENTS give another seed and another number of events.

mod coverage;
use compare::{engine, environment, script, words, Script, Step, What};
use coverage::Coverage;
use reference::events::{assemble, Answer, Event, Generator, OwnedSetting, OwnedSettings};
use reference::rng::XorShift;
use reference::{Port, Recorder, Revision};

const SEED: u64 = 0x0dcb_0101;
const EVENTS: u64 = 3_000_000;
/// Steps of one script, each of which begins with a blank recorder.
const STEPS: usize = 1_000;

/// The generator's events, with numbers set now and then to where they wrap, and
/// looks at all four ports.
struct Source {
    generator: Generator,
    rng: XorShift,
}

impl Source {
    fn new(seed: u64) -> Self {
        Source { generator: Generator::new(seed), rng: XorShift::new(!seed) }
    }

    fn next(&mut self) -> (Step, Answer) {
        let port = self.rng.below(6) as u8;
        let what = match self.rng.below(600) {
            0..=29 => What::Look,
            30..=31 => What::Dropped(number(&mut self.rng, u32::MAX).max(1 << 31)),
            // A stopped port holds the fresh state, whose numbers are fixed.
            32..=35 => match self.generator.recorder().port(port) {
                Ok(state) if state.running() => numbers(&mut self.rng, state),
                _ => What::Look,
            },
            _ => {
                let (call, answer) = self.generator.step();
                return (call.into(), answer);
            }
        };
        let step = Step { port, what };
        let answer = step.apply(self.generator.recorder_mut());
        (step, answer)
    }
}

/// A number at or beside `near`.
fn number(rng: &mut XorShift, near: u32) -> u32 {
    match rng.below(4) {
        0 => near.wrapping_sub(1),
        1 => near.wrapping_add(1),
        _ => near,
    }
}

/// Numbers for a running port. What waits, waits for the next SeqNo.
fn numbers(rng: &mut XorShift, port: &Port) -> What {
    let seqno = match rng.below(8) {
        0..=4 => u32::MAX,
        5 => u32::MAX - 1,
        6 => 0,
        _ => rng.next_u64() as u32,
    };
    let ackno = number(rng, u32::MAX);
    let rcvdackno = number(rng, seqno);
    let [groups, flow, applications] = [2, 3, 4].map(|feature| {
        if port.feature(feature).waits {
            seqno.wrapping_add(1)
        } else {
            number(rng, seqno)
        }
    });
    What::Numbers([seqno, ackno, rcvdackno, groups, flow, applications])
}

fn check(script: &Script, out: &mut [u8]) {
    out[..script.expected.len() + 1].fill(script::FILL);
    let had = engine::run(&script.octets, out);
    if let Some(at) = script.first_difference(had) {
        panic!("{}", words::report(script, at, had));
    }
}

#[test]
fn the_engines_agree() {
    let seed = environment::number("COMPARE_SEED", SEED);
    let events = environment::number("COMPARE_EVENTS", EVENTS);
    println!("seed {seed:#x}, {events} events");
    let mut source = Source::new(seed);
    let mut coverage = Coverage::default();
    let mut script = Script::default();
    let mut out = vec![0; 4 << 20];
    for _ in 0..events {
        if script.steps.len() == STEPS {
            check(&script, &mut out);
            script.clear();
            source.generator.start();
        }
        let before = source.generator.recorder().clone();
        let (step, answer) = source.next();
        let after = source.generator.recorder();
        coverage.note(&step, &answer, &before, after);
        script.push(step, &answer, after);
    }
    check(&script, &mut out);
    println!("{coverage:?}");
    coverage.all_occurred();
}

fn setting(advertise: bool, parameters: &[u8]) -> OwnedSetting {
    OwnedSetting { advertise, enable: true, willing: false, parameters: parameters.to_vec() }
}

/// W10 at both engines: SeqNo 4,294,967,295 acknowledged with a change of flow control pending goes to 0.
fn seqno_wraps(flow: OwnedSetting, changed: OwnedSetting) {
    let settings = OwnedSettings {
        revision: Revision::R1_01,
        control_max: 0,
        feature: [
            (0, setting(true, &[0, 1, 0, 0, 50, 50, 0, 0, 0, 0, 0, 0, 2])),
            (0, flow.clone()),
            (0, setting(true, &[0x89, 6, 0, 0x1b, 0x21, 8])),
        ],
    };
    // No features: they are absent, and their sub-TLVs stay as they are.
    let acknowledging = |ackno: u32| {
        let mut control = vec![0; 6];
        control.extend(ackno.to_be_bytes());
        What::Event(Event::Frame(assemble(&[(1, control)])))
    };
    let change = What::Event(Event::Change { feature: 3, setting: changed });
    let write = || What::Event(Event::Write(57));
    let port = 4;
    let mut recorder = Recorder::blank();
    let mut script = Script::default();
    let mut seqno_after = |what: What| {
        let step = Step { port, what };
        let answer = step.apply(&mut recorder);
        script.push(step, &answer, &recorder);
        let state = recorder.port(port).expect("a port");
        let flow = state.flow();
        (state.control().seqno, flow.featureseqno, flow.syncd, flow.waits())
    };
    let last = u32::MAX;
    let created = seqno_after(What::Event(Event::Create(settings)));
    assert_eq!(created, (1, 1, !flow.advertise, false));
    assert_eq!(seqno_after(acknowledging(1)), (1, 1, true, false));
    let numbers = What::Numbers([last, 0, last - 1, 1, 1, 1]);
    assert_eq!(seqno_after(numbers), (last, 1, true, false));
    assert_eq!(seqno_after(change), (last, 0, false, true));
    assert_eq!(seqno_after(write()), (last, 0, false, true));
    assert_eq!(seqno_after(acknowledging(0)), (last, 0, false, true));
    assert_eq!(seqno_after(acknowledging(last)), (0, 0, false, false));
    assert_eq!(seqno_after(write()), (0, 0, false, false));
    assert_eq!(seqno_after(acknowledging(0)), (0, 0, true, false));
    check(&script, &mut [0; 1 << 14]);
}

#[test]
fn seqno_wraps_with_a_change() {
    seqno_wraps(setting(true, &[8, 8]), setting(true, &[16, 8]));
}

#[test]
fn seqno_wraps_with_a_withdrawal() {
    seqno_wraps(setting(true, &[8, 8]), setting(false, &[8, 8]));
}

#[test]
fn seqno_wraps_with_an_addition() {
    seqno_wraps(setting(false, &[8, 8]), setting(true, &[8, 8]));
}
