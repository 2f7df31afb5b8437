//! Scripts for crates/trial: each step's octets, and what the reference says
//! that it gives. crates/trial/src/lib.rt describes both.

use reference::events::{Answer, Call, Event, OwnedSetting, OwnedSettings};
use reference::{Flag, Notice, Port, Recorder, Revision};

/// What every octet of the output holds before a run, and so what a write finds.
pub use reference::events::FILL;

/// A step at a port, whatever its number.
#[derive(Clone, Debug, PartialEq, Eq)]
pub struct Step {
    pub port: u8,
    pub what: What,
}

/// An event, or what no event of document 01 is.
#[derive(Clone, Debug, PartialEq, Eq)]
pub enum What {
    Event(Event),
    /// SeqNo, AckNo, RcvdAckNo, and FeatureSeqNo of features 2, 3, 4.
    Numbers([u32; 6]),
    Dropped(u32),
    /// Nothing happens, and the states of all four ports are written.
    Look,
}

impl From<Call> for Step {
    fn from(Call { port, event }: Call) -> Self {
        Step { port, what: What::Event(event) }
    }
}

impl Step {
    /// Does the step at the reference.
    pub fn apply(&self, recorder: &mut Recorder) -> Answer {
        match &self.what {
            What::Event(event) => {
                return Call { port: self.port, event: event.clone() }.apply(recorder)
            }
            // At a number that is no port's nothing happens.
            What::Numbers([seqno, ackno, rcvdackno, feature @ ..]) => {
                let _ = recorder.set_numbers(self.port, *seqno, *ackno, *rcvdackno, *feature);
            }
            What::Dropped(count) => {
                let _ = recorder.set_dropped(self.port, *count);
            }
            What::Look => {}
        }
        Answer::plain(Ok(false))
    }

    /// The state that is written behind the answer.
    fn state(&self, recorder: &Recorder) -> Vec<u8> {
        if self.what == What::Look {
            return recorder.dump();
        }
        let mut state = recorder.port(self.port).map(Port::dump).unwrap_or_default();
        state.extend(recorder.log().dump());
        state
    }
}

/// Steps with their octets and what is expected of them.
#[derive(Clone, Debug, Default)]
pub struct Script {
    pub steps: Vec<Step>,
    pub octets: Vec<u8>,
    pub expected: Vec<u8>,
    /// Where each step's expected octets begin.
    pub starts: Vec<usize>,
}

impl Script {
    /// Adds a step, with the reference's answer and the recorder it left.
    pub fn push(&mut self, step: Step, answer: &Answer, recorder: &Recorder) {
        put_step(&mut self.octets, &step);
        self.starts.push(self.expected.len());
        self.expected.extend(&answer.output);
        self.expected.push(answer.refusal);
        self.expected.extend(answer.place.to_be_bytes());
        self.expected.push(u8::from(answer.wish));
        self.expected.extend((answer.length as u16).to_be_bytes());
        let taken = answer.taken.unwrap_or_default();
        self.expected.extend([taken.number, taken.feature]);
        self.expected.extend(raised_numbers(&answer.raised));
        self.expected.extend(step.state(recorder));
        self.steps.push(step);
    }

    pub fn clear(&mut self) {
        self.steps.clear();
        self.octets.clear();
        self.expected.clear();
        self.starts.clear();
    }

    /// The first step at which `had` is not what is expected.
    pub fn first_difference(&self, had: &[u8]) -> Option<usize> {
        if had == self.expected {
            return None;
        }
        let same = had.iter().zip(&self.expected).take_while(|(a, b)| a == b).count();
        Some(self.starts.partition_point(|&start| start <= same) - 1)
    }
}

/// The number of the port's notice and of each feature's, 0 for none.
fn raised_numbers(raised: &[Notice]) -> [u8; 4] {
    [0, 2, 3, 4].map(|feature| {
        raised.iter().find(|notice| notice.feature == feature).map_or(0, |notice| notice.number)
    })
}

fn switches(setting: &OwnedSetting) -> u8 {
    u8::from(setting.advertise) * 4 + u8::from(setting.enable) * 2 + u8::from(setting.willing)
}

/// A creation step without its length. Under Rev 1.0 what it says of applications is not to be
/// looked at.
pub fn creation(port: u8, settings: &OwnedSettings) -> Vec<u8> {
    let old = settings.revision == Revision::R1_0;
    let mut octets = vec![0, port, u8::from(old), settings.control_max];
    for (max, setting) in &settings.feature {
        octets.extend([*max, switches(setting)]);
    }
    for (_, setting) in &settings.feature[..2] {
        octets.extend((setting.parameters.len() as u16).to_be_bytes());
    }
    for (_, setting) in &settings.feature {
        octets.extend(&setting.parameters);
    }
    octets
}

/// Adds a step behind its length.
pub fn put_step(octets: &mut Vec<u8>, step: &Step) {
    let content = content(step);
    octets.extend((content.len() as u16).to_be_bytes());
    octets.extend(content);
}

/// Kind, port, and what belongs to it.
fn content(step: &Step) -> Vec<u8> {
    let with = |kind: u8, rest: &[u8]| [&[kind, step.port], rest].concat();
    match &step.what {
        What::Event(Event::Create(settings)) => creation(step.port, settings),
        What::Event(Event::Frame(frame)) => with(1, frame),
        What::Event(Event::PeerGone) => with(2, &[]),
        What::Event(Event::SetFlag(flag, on)) => {
            let number = match flag {
                Flag::Enabled => 0,
                Flag::Receive => 1,
                Flag::Transmit => 2,
                Flag::SeveralNeighbours => 3,
            };
            with(3, &[number, u8::from(*on)])
        }
        What::Event(Event::Change { feature, setting }) => {
            with(4, &[&[*feature, switches(setting)], &setting.parameters[..]].concat())
        }
        What::Event(Event::Write(room)) => with(5, &(*room as u16).to_be_bytes()),
        What::Event(Event::Take) => with(6, &[]),
        What::Numbers(numbers) => with(7, &numbers.map(u32::to_be_bytes).concat()),
        What::Dropped(count) => with(8, &count.to_be_bytes()),
        What::Look => with(9, &[]),
    }
}
