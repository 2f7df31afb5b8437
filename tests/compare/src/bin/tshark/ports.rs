//! Ports of the proved engine: those that write frames, and those that are given them.

use crate::held::Receiver;
use compare::{engine, script, words, Step, What};
use reference::events::{random, Event, OwnedSettings};
use reference::layout::LONGEST_FRAME;
use reference::rng::XorShift;
use reference::Revision;
use std::collections::HashMap;

/// What a step answered and the state that it left, by the names of `words::named`.
pub type Told = HashMap<String, Vec<u8>>;

/// Runs steps at a port of the engine; gives what the last told.
fn run(rng: &mut XorShift, steps: Vec<What>) -> Told {
    let port = 1 + rng.below(4) as u8;
    let steps: Vec<Step> = steps.into_iter().map(|what| Step { port, what }).collect();
    let mut octets = Vec::new();
    steps.iter().for_each(|step| script::put_step(&mut octets, step));
    let mut out = [script::FILL; 1 << 12];
    let mut rest = engine::run(&octets, &mut out);
    let mut last = Vec::new();
    for step in &steps {
        last = words::named(step, rest);
        rest = &rest[last.iter().map(|(_, part)| part.len()).sum()..];
    }
    last.into_iter().map(|(name, part)| (name, part.to_vec())).collect()
}

/// A frame, and the port that wrote it.
pub struct Written {
    pub settings: OwnedSettings,
    pub state: Told,
    pub frame: Vec<u8>,
}

/// A random port writes its frame: fresh, at other numbers, or with a peer's frame handled before.
pub fn write(rng: &mut XorShift, peer: Option<&Written>) -> Written {
    let mut settings = random::settings(rng);
    if rng.flip() {
        settings.control_max = rng.octet();
        settings.feature.iter_mut().for_each(|(max, _)| *max = rng.octet());
    }
    let mut steps = vec![What::Event(Event::Create(settings.clone()))];
    if rng.flip() {
        steps.push(What::Numbers([(); 6].map(|()| rng.next_u64() as u32)));
    }
    if let Some(peer) = peer.filter(|_| rng.flip()) {
        steps.push(What::Event(Event::Frame(peer.frame.clone())));
    }
    steps.push(What::Event(Event::Write(LONGEST_FRAME)));
    let state = run(rng, steps);
    let length = usize::from(state["length"][0]) << 8 | usize::from(state["length"][1]);
    let frame = state["output"][..length].to_vec();
    Written { settings, state, frame }
}

/// A random port with the receiver's highest versions, which knows all features, handles a frame.
pub fn receive(rng: &mut XorShift, receiver: &Receiver, frame: &[u8]) -> Told {
    let mut settings = random::settings(rng);
    settings.revision = Revision::R1_01;
    settings.control_max = receiver.control_max;
    for ((max, setting), highest) in settings.feature.iter_mut().zip(receiver.feature_max) {
        *max = highest;
        setting.advertise = true;
    }
    let create = What::Event(Event::Create(settings));
    run(rng, vec![create, What::Event(Event::Frame(frame.to_vec()))])
}
