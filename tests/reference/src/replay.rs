//! Replays a capture at two ports and counts what happens (document 02, E8).

use crate::capture::{self, Sender};
use crate::events::OwnedSettings;
use crate::outcome::Reason;
use crate::rounds::{settled, Ends};
use crate::text::Text;

/// The reasons that are counted, in the order of the report.
const COUNTED: [Reason; 8] = [
    Reason::Absent,
    Reason::Duplicate,
    Reason::Bad,
    Reason::Waiting,
    Reason::Disabled,
    Reason::Agreed,
    Reason::NotCompatible,
    Reason::ControlTwice,
];

/// What is counted. Each count stays at the highest number.
#[derive(Clone, Debug, Default, PartialEq, Eq)]
pub struct Counts {
    /// Frames from A and from B.
    pub frames: [u64; 2],
    /// Lines of any other form.
    pub others: u64,
    /// Refusals 1 to 8, of both ports.
    pub refusals: [u64; 8],
    /// How often at A and at B the reason of features 2, 3, 4 became each of `COUNTED`.
    pub became: [[[u64; 8]; 3]; 2],
    /// The number of frames up to the one that first left both ends settled.
    pub settled: Option<u64>,
}

fn up(count: &mut u64) {
    *count = count.saturating_add(1);
}

impl Counts {
    fn frames(&self) -> u64 {
        let [a, b] = self.frames;
        a.saturating_add(b)
    }

    pub fn lines(&self) -> u64 {
        self.frames().saturating_add(self.others)
    }

    pub fn report(&self, out: &mut Text) {
        let [a, b] = self.frames;
        out.numbers(&[a, b, self.others]).numbers(&self.refusals);
        for feature in self.became.as_flattened() {
            out.numbers(feature);
        }
        match self.settled {
            Some(frames) => out.put("settled ").number(frames).put("\n"),
            None => out.put("not settled\n"),
        };
    }
}

/// Two ports, and what is counted of the lines so far.
pub struct Replay {
    ends: Ends,
    /// The frame at hand.
    octets: Vec<u8>,
    pub counts: Counts,
}

impl Replay {
    pub fn new(ends: &[OwnedSettings; 2]) -> Self {
        Replay { ends: Ends::create(ends), octets: Vec::new(), counts: Counts::default() }
    }

    /// The next line of the capture, without its line feed.
    pub fn line(&mut self, line: &[u8]) {
        match capture::frame(line, &mut self.octets) {
            Some(Sender::A) => self.frame(0, 1),
            Some(Sender::B) => self.frame(1, 0),
            None => up(&mut self.counts.others),
        }
    }

    /// Gives the frame at hand to the other end.
    fn frame(&mut self, from: usize, to: usize) {
        up(&mut self.counts.frames[from]);
        let before = self.ends.end(to).reasons();
        if let Err(refusal) = self.ends.frame(to, &self.octets) {
            up(&mut self.counts.refusals[usize::from(refusal.number) - 1]);
        }
        let after = self.ends.end(to).reasons();
        for (feature, (before, after)) in before.into_iter().zip(after).enumerate() {
            if before != after {
                let counted = COUNTED.iter().position(|&reason| reason == after);
                let reason = counted.expect("no frame leads to a fresh state");
                up(&mut self.counts.became[to][feature][reason]);
            }
        }
        if self.counts.settled.is_none() && self.ends.ends().into_iter().all(settled) {
            self.counts.settled = Some(self.counts.frames());
        }
    }
}
