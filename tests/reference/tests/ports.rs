//! What document 02, E10 says follows for one port among four, sought to be
//! disproved with random lists of calls:
//!
//! - a port with 16 or fewer held loses none by another's writes;
//! - its states, frames, refusals (12 excepted) and wish to send are the same when
//!   the calls at other ports are left out;
//! - over events without takings so are its newest 16 notices, or all, if fewer;
//! - at most 64 are held, each of a port 1 to 4, and of each port as many were raised
//!   as were taken, were dropped and are held.

mod common;
use common::*;
use reference::events::{Answer, Call, Event, Generator};
use reference::rng::XorShift;
use reference::{Flag, Notice, Recorder};

const PORTS: [u8; 4] = [1, 2, 3, 4];

/// Calls of the generator, from a blank recorder on.
fn generated(generator: &mut Generator, count: usize) -> Vec<Call> {
    generator.start();
    (0..count).map(|_| generator.step().0).collect()
}

/// Calls that mostly raise a notice; each port has its own share of them, and of takings.
fn chatter(rng: &mut XorShift, count: usize) -> Vec<Call> {
    let share = PORTS.map(|_| rng.pick(&[1, 2, 5, 20, 60]));
    let takes = PORTS.map(|_| rng.pick(&[0, 0, 5, 20, 50]));
    let mut calls = Vec::new();
    while calls.len() < count {
        let port = rng.pick(&PORTS);
        let at = usize::from(port) - 1;
        if rng.below(60) >= share[at] {
            continue;
        }
        if rng.percent(takes[at]) {
            calls.push(Call { port, event: Event::Take });
            continue;
        }
        let flag = rng.pick(&[Flag::Transmit, Flag::Receive, Flag::SeveralNeighbours]);
        // Off and on in turn, whatever it was.
        calls.push(Call { port, event: Event::SetFlag(flag, false) });
        calls.push(Call { port, event: Event::SetFlag(flag, true) });
    }
    calls
}

/// What a port's own calls decide: the answer but for takings, and the state.
fn own(call: &Call, answer: &Answer, recorder: &Recorder) -> (Answer, Vec<u8>) {
    let mut answer = answer.clone();
    if call.event == Event::Take {
        assert!(matches!(answer.refusal, 0 | 12));
        (answer.refusal, answer.taken) = (0, None);
    }
    (answer, recorder.port(call.port).unwrap().dump())
}

fn newest_16(recorder: &Recorder, port: u8) -> Vec<Notice> {
    let held: Vec<Notice> = recorder.log().of(port).collect();
    held[held.len().saturating_sub(16)..].to_vec()
}

fn is_port(call: &&Call) -> bool {
    PORTS.contains(&call.port)
}

/// A port with 16 or fewer held loses none by another's writes; nor does taking reach another.
fn loses_none_by_others(calls: &[Call]) -> u32 {
    let mut recorder = Recorder::blank();
    let mut full = 0;
    for call in calls {
        let before = recorder.log().clone();
        let answer = call.apply(&mut recorder);
        full += u32::from(before.count() == 64 && !answer.raised.is_empty());
        for port in PORTS.into_iter().filter(|&port| port != call.port) {
            if before.held(port) <= 16 || call.event == Event::Take {
                assert!(before.of(port).eq(recorder.log().of(port)), "{port} {call:?}");
                assert_eq!(before.dropped(port), recorder.log().dropped(port));
            }
        }
    }
    full
}

/// The other ports' calls left out, a port answers and is the same.
fn depends_on_its_own(calls: &[Call]) {
    let mut alone = PORTS.map(|_| Recorder::blank());
    let mut all = Recorder::blank();
    for call in calls {
        let answer = call.apply(&mut all);
        if is_port(&call) {
            let alone = &mut alone[usize::from(call.port) - 1];
            let answer_alone = call.apply(alone);
            assert_eq!(own(call, &answer, &all), own(call, &answer_alone, alone), "{call:?}");
        }
        for (port, alone) in PORTS.into_iter().zip(&alone) {
            let written = written_at(&all, port);
            assert_eq!(written, written_at(alone, port), "{port} {call:?}");
        }
    }
}

/// Takings left out, so does it hold the same newest 16. Says how often it held others too.
fn newest_depend_on_its_own(calls: &[Call]) -> u32 {
    let mut alone = PORTS.map(|_| Recorder::blank());
    let mut all = Recorder::blank();
    let mut differed = 0;
    for call in calls.iter().filter(|call| call.event != Event::Take) {
        call.apply(&mut all);
        if is_port(&call) {
            call.apply(&mut alone[usize::from(call.port) - 1]);
        }
        for (port, alone) in PORTS.into_iter().zip(&alone) {
            assert_eq!(newest_16(&all, port), newest_16(alone, port), "{port} {call:?}");
            differed += u32::from(all.log().held(port) != alone.log().held(port));
        }
    }
    differed
}

/// The log is bounded and balanced.
fn adds_up(calls: &[Call]) {
    let mut recorder = Recorder::blank();
    let (mut raised, mut taken) = ([0; 4], [0; 4]);
    for call in calls {
        let answer = call.apply(&mut recorder);
        for notice in &answer.raised {
            assert_eq!(notice.port, call.port);
            raised[usize::from(notice.port) - 1] += 1;
        }
        if let Some(notice) = answer.taken {
            assert_eq!(notice.port, call.port);
            taken[usize::from(notice.port) - 1] += 1;
        }
        let log = recorder.log();
        assert!(log.count() <= 64 && log.notices().count() == log.count());
        assert!(log.notices().all(|notice| PORTS.contains(&notice.port)));
        for port in PORTS {
            let at = usize::from(port) - 1;
            let held = log.of(port).count();
            assert_eq!(raised[at], taken[at] + log.dropped(port) as usize + held, "{call:?}");
        }
    }
}

fn all_hold(calls: &[Call], counts: &mut [u32; 2]) {
    counts[0] += loses_none_by_others(calls);
    depends_on_its_own(calls);
    counts[1] += newest_depend_on_its_own(calls);
    adds_up(calls);
}

#[test]
fn over_events_of_all_kinds() {
    let seed = 0x2024_0010;
    println!("seed {seed:#x}");
    let mut generator = Generator::new(seed);
    let mut counts = [0; 2];
    for _ in 0..500 {
        all_hold(&generated(&mut generator, 800), &mut counts);
    }
    println!("writes into a full log, ports that hold more alone: {counts:?}");
    assert!(counts.iter().all(|&count| count > 10_000));
}

#[test]
fn over_chatter() {
    let seed = 0x2024_0011;
    println!("seed {seed:#x}");
    let mut rng = XorShift::new(seed);
    let mut counts = [0; 2];
    for _ in 0..2000 {
        all_hold(&chatter(&mut rng, 600), &mut counts);
    }
    println!("writes into a full log, ports that hold more alone: {counts:?}");
    assert!(counts.iter().all(|&count| count > 10_000));
}

/// With takings the newest 16 do depend on the others: what was dropped cannot be taken.
#[test]
fn takings_are_rightly_left_out() {
    let chatter = |recorder: &mut Recorder, port: u8, times: u32| {
        for on in (0..2 * times).map(|i| i % 2 == 0) {
            recorder.set_flag(port, Flag::Transmit, on).unwrap();
        }
    };
    let mut all = Recorder::blank();
    let mut alone = Recorder::blank();
    chatter(&mut all, 1, 64);
    chatter(&mut all, 2, 16);
    chatter(&mut alone, 1, 64);
    for recorder in [&mut all, &mut alone] {
        for _ in 0..40 {
            recorder.take(1).unwrap();
        }
    }
    assert_eq!((newest_16(&all, 1).len(), newest_16(&alone, 1).len()), (8, 16));
    assert_eq!(all.log().dropped(1), 16);
}
