//! Random calls from a seed, for comparing engines: events at four ports, now
//! and then at numbers that are no port's.
//!
//! The sequence depends on the seed alone: the generator keeps a recorder of its
//! own, so that it knows which acknowledgements are right, and a second one whose
//! ports are the simulated peers.

use crate::layout::{
    self, APPLICATIONS, CONTROL, ENABLE, FLOW_CONTROL, MOST_ENTRIES, OUI, PRIORITY_GROUPS, SUBTYPE,
    TLV_TYPE, WILLING,
};
use crate::log::Notice;
use crate::outcome::Reason;
use crate::port::{Flag, Port};
use crate::recorder::{Recorder, PORTS};
use crate::revision::Revision;
use crate::rng::XorShift;
use crate::settings::{Setting, Settings};

/// A feature's setting with octets of its own.
#[derive(Clone, Debug, Default, PartialEq, Eq)]
pub struct OwnedSetting {
    pub advertise: bool,
    pub enable: bool,
    pub willing: bool,
    pub parameters: Vec<u8>,
}

impl OwnedSetting {
    pub fn lend(&self) -> Setting<'_> {
        Setting {
            advertise: self.advertise,
            enable: self.enable,
            willing: self.willing,
            parameters: &self.parameters,
        }
    }
}

/// A port's settings with octets of their own: the highest version and the
/// setting of features 2, 3 and 4. The last is not lent under Rev 1.0.
#[derive(Clone, Debug, PartialEq, Eq)]
pub struct OwnedSettings {
    pub revision: Revision,
    pub control_max: u8,
    pub feature: [(u8, OwnedSetting); 3],
}

impl OwnedSettings {
    pub fn lend(&self) -> Settings<'_> {
        let [groups, flow, applications] = &self.feature;
        Settings {
            control_max: self.control_max,
            groups: (groups.0, groups.1.lend()),
            flow: (flow.0, flow.1.lend()),
            applications: match self.revision {
                Revision::R1_0 => None,
                Revision::R1_01 => Some((applications.0, applications.1.lend())),
            },
        }
    }
}

#[derive(Clone, Debug, PartialEq, Eq)]
pub enum Event {
    /// A new port in place of the old one, if not refused.
    Create(OwnedSettings),
    Frame(Vec<u8>),
    PeerGone,
    SetFlag(Flag, bool),
    Change {
        feature: u8,
        setting: OwnedSetting,
    },
    /// A write into an output of so many octets, each `FILL` before.
    Write(usize),
    Take,
}

/// An event at a port, whatever its number.
#[derive(Clone, Debug, PartialEq, Eq)]
pub struct Call {
    pub port: u8,
    pub event: Event,
}

/// What every octet of a lent output holds before a write.
pub const FILL: u8 = 0xa5;

/// The answer to an event.
#[derive(Clone, Debug, PartialEq, Eq)]
pub struct Answer {
    /// 0 if not refused.
    pub refusal: u8,
    /// Where a refused frame went wrong, else 0.
    pub place: u16,
    /// Whether the event asks for a send.
    pub wish: bool,
    /// Length of a written frame.
    pub length: usize,
    pub taken: Option<Notice>,
    /// The whole lent output after a write.
    pub output: Vec<u8>,
    /// The notices that the event raised, in order.
    pub raised: Vec<Notice>,
}

impl Answer {
    /// An answer with nothing written or taken.
    pub fn plain(result: Result<bool, u8>) -> Self {
        Answer {
            refusal: result.err().unwrap_or(0),
            place: 0,
            wish: result.unwrap_or(false),
            length: 0,
            taken: None,
            output: Vec::new(),
            raised: Vec::new(),
        }
    }
}

impl Call {
    /// Does the event at the recorder.
    pub fn apply(&self, recorder: &mut Recorder) -> Answer {
        let before = recorder.log().written();
        let answer = self.answer(recorder);
        Answer { raised: recorder.log().since(before).collect(), ..answer }
    }

    fn answer(&self, recorder: &mut Recorder) -> Answer {
        let port = self.port;
        match &self.event {
            Event::Create(settings) => Answer::plain(recorder.create(port, &settings.lend())),
            Event::Frame(octets) => {
                let result = recorder.frame(port, octets);
                Answer {
                    place: result.err().map_or(0, |refusal| refusal.place),
                    ..Answer::plain(result.map_err(|refusal| refusal.number))
                }
            }
            Event::PeerGone => Answer::plain(recorder.peer_gone(port)),
            Event::SetFlag(flag, on) => Answer::plain(recorder.set_flag(port, *flag, *on)),
            Event::Change { feature, setting } => {
                Answer::plain(recorder.change(port, *feature, &setting.lend()))
            }
            Event::Write(length) => {
                let mut output = vec![FILL; *length];
                let result = recorder.write(port, &mut output);
                Answer {
                    length: result.unwrap_or(0),
                    output,
                    ..Answer::plain(result.map(|_| false))
                }
            }
            Event::Take => {
                let result = recorder.take(port);
                Answer { taken: result.ok(), ..Answer::plain(result.map(|_| false)) }
            }
        }
    }
}

/// Random parameters and settings.
pub mod random {
    use super::*;

    /// Eight percentages that sum to 100.
    fn percentages(rng: &mut XorShift) -> [u8; 8] {
        match rng.below(4) {
            0 => [50, 50, 0, 0, 0, 0, 0, 0],
            1 => [100, 0, 0, 0, 0, 0, 0, 0],
            2 => [13, 13, 13, 13, 12, 12, 12, 12],
            _ => {
                let mut shares = [0; 8];
                let mut left = 100;
                for _ in 0..7 {
                    let share = rng.below(left + 1);
                    shares[rng.below(8) as usize] += share as u8;
                    left -= share;
                }
                shares[rng.below(8) as usize] += left as u8;
                shares
            }
        }
    }

    fn pack(group: [u8; 8], percentage: [u8; 8], classes: u8) -> Vec<u8> {
        let mut octets: Vec<u8> = group.chunks(2).map(|pair| pair[0] << 4 | pair[1]).collect();
        octets.extend(percentage);
        octets.push(classes);
        octets
    }

    fn groups(rng: &mut XorShift) -> Vec<u8> {
        let group = match rng.below(3) {
            0 => [0, 0, 0, 1, 0, 0, 0, 0],
            1 => [0, 0, 0, 1, 15, 0, 0, 7],
            _ => [(); 8].map(|()| rng.pick(&[0, 1, 2, 3, 4, 5, 6, 7, 15])),
        };
        let percentage = percentages(rng);
        pack(group, percentage, rng.below(9) as u8)
    }

    fn flow(rng: &mut XorShift, local: bool) -> Vec<u8> {
        let classes = rng.below(9) as u8;
        let mut mask = if rng.percent(60) { rng.pick(&[0, 0x08, 0x10, 0x18]) } else { rng.octet() };
        while local && mask.count_ones() > u32::from(classes) {
            mask &= mask - 1;
        }
        vec![mask, classes]
    }

    /// So many entries of our own, no two of one name.
    fn entries(rng: &mut XorShift, count: usize, local: bool) -> Vec<u8> {
        let mut octets: Vec<u8> = Vec::new();
        while octets.len() < 6 * count {
            let id = match rng.below(5) {
                0 => 0x8906,
                1 => 0x8914,
                2 => 0x0cbc,
                3 => 0x8900 + rng.below(16),
                _ => rng.below(65536),
            };
            let selectors = if local || rng.percent(70) { 2 } else { 4 };
            let selector = rng.below(selectors) as u8;
            let [high, low] = (id as u16).to_be_bytes();
            let named = |e: &[u8]| e[0] == high && e[1] == low && e[2] & 3 == selector;
            if octets.chunks(6).any(named) {
                continue;
            }
            let map = if rng.percent(70) { rng.pick(&[0x08, 0x10]) } else { rng.octet() };
            octets.extend([high, low, selector, OUI[1], OUI[2], map]);
        }
        octets
    }

    /// An entry under another's OUI, often for what one of these is for.
    fn foreign(rng: &mut XorShift, among: &[u8]) -> [u8; 6] {
        let mut entry =
            [rng.octet(), rng.octet(), rng.octet(), rng.octet(), rng.octet(), rng.octet()];
        if !among.is_empty() && rng.percent(70) {
            let place = 6 * rng.below((among.len() / 6) as u32) as usize;
            entry[..2].copy_from_slice(&among[place..place + 2]);
            entry[2] = entry[2] & 0xfc | among[place + 2] & 3;
            entry[5] = if rng.flip() { among[place + 5] } else { rng.pick(&[0x08, 0x10]) };
        }
        let own = [entry[2] & 3, OUI[1], OUI[2]];
        match rng.below(5) {
            // Of the OUI only the bits above the selector differ, or one octet.
            0 => entry[2..5].copy_from_slice(&[own[0] | 4 << rng.below(6), own[1], own[2]]),
            1 => entry[2..5].copy_from_slice(&[own[0], own[1] ^ 1 << rng.below(8), own[2]]),
            2 => entry[2..5].copy_from_slice(&[own[0], own[1], own[2] ^ 1 << rng.below(8)]),
            _ if entry[2..5] == own => entry[3] ^= 0x80,
            _ => {}
        }
        entry
    }

    /// The entries in their order, with others' before, between and behind:
    /// mostly a few, sometimes as many as a frame or a sub-TLV can hold.
    pub fn among_foreign(rng: &mut XorShift, own: &[u8]) -> Vec<u8> {
        let count = own.len() / 6;
        let most = match rng.below(12) {
            0 => rng.pick(&[84, 81, 77, 70]),
            1 => count as u32 + 1 + rng.below(60),
            _ => count as u32 + 1 + rng.below(4),
        };
        let mut entries: Vec<[u8; 6]> =
            own.chunks(6).map(|entry| entry.try_into().unwrap()).collect();
        while entries.len() < most.min(84) as usize || entries.len() == count {
            let place = rng.below(entries.len() as u32 + 1) as usize;
            let next = foreign(rng, own);
            entries.insert(place, next);
        }
        entries.concat()
    }

    fn applications(rng: &mut XorShift, local: bool) -> Vec<u8> {
        let count = match rng.below(10) {
            0 => 0,
            1 => MOST_ENTRIES,
            2 => rng.below(17) as usize,
            _ => 1 + rng.below(3) as usize,
        };
        let own = entries(rng, count, local);
        if local || rng.percent(55) {
            own
        } else {
            among_foreign(rng, &own)
        }
    }

    /// Valid parameters, as a local setting or as they may be received.
    pub fn valid(rng: &mut XorShift, feature: u8, local: bool) -> Vec<u8> {
        match feature {
            PRIORITY_GROUPS => groups(rng),
            FLOW_CONTROL => flow(rng, local),
            _ => applications(rng, local),
        }
    }

    /// Invalid parameters; with `local` also those only a setting may not have.
    pub fn invalid(rng: &mut XorShift, feature: u8, local: bool) -> Vec<u8> {
        let mut octets = valid(rng, feature, local);
        match feature {
            PRIORITY_GROUPS => match rng.below(6) {
                0 => octets[rng.below(4) as usize] = (8 + rng.below(7) as u8) << 4,
                1 => octets[rng.below(4) as usize] = 8 + rng.below(7) as u8,
                2 => octets[12] = 9 + rng.below(247) as u8,
                3 => {
                    // 99 or 101.
                    let up = rng.flip();
                    let place = (4..12).find(|&i| octets[i] > 0).unwrap_or(4);
                    octets[place] = if up { octets[place] + 1 } else { octets[place] - 1 };
                }
                // 356, which is 100 modulo 256.
                4 => octets[4..12].copy_from_slice(&[255, 101, 0, 0, 0, 0, 0, 0]),
                _ => return wrong_length(rng, octets, 1),
            },
            FLOW_CONTROL => match rng.below(if local { 3 } else { 2 }) {
                0 => octets[1] = 9 + rng.below(247) as u8,
                1 => return wrong_length(rng, octets, 1),
                _ => {
                    // More ones than classes.
                    octets[0] = rng.octet() | 1 << rng.below(8);
                    octets[1] = rng.below(octets[0].count_ones()) as u8;
                }
            },
            _ => match rng.below(if local { 5 } else { 3 }) {
                0 => {
                    let count = 17 + rng.below(3) as usize;
                    octets = entries(rng, count, local);
                    if rng.flip() {
                        octets = among_foreign(rng, &octets);
                    }
                }
                1 => {
                    // One name twice.
                    let count = 1 + rng.below(MOST_ENTRIES as u32 - 1) as usize;
                    octets = entries(rng, count, local);
                    let mut again = octets[..6].to_vec();
                    again[5] = rng.octet();
                    octets.extend(again);
                    if rng.flip() {
                        octets = among_foreign(rng, &octets);
                    }
                }
                2 => return wrong_length(rng, octets, 6),
                // An entry that is not ours, in a setting.
                3 => octets = among_foreign(rng, &octets),
                _ => {
                    // A selector no setting may have.
                    octets.truncate(6 * (MOST_ENTRIES - 1));
                    octets.extend([0x12, 0x34, 2 + rng.below(2) as u8, OUI[1], OUI[2], 0x08]);
                }
            },
        }
        octets
    }

    /// Cuts or lengthens to a length that is no multiple of `unit`, or for a
    /// fixed size to any other length.
    fn wrong_length(rng: &mut XorShift, mut octets: Vec<u8>, unit: usize) -> Vec<u8> {
        let right = octets.len();
        loop {
            let length = match rng.below(3) {
                0 => right + 1,
                1 => right.saturating_sub(1),
                _ => rng.below(40) as usize,
            };
            if length != right && (unit == 1 || length % unit != 0) {
                octets.resize(length, 0);
                return octets;
            }
        }
    }

    /// Parameters like these: equal, a little changed, or others.
    pub fn near(rng: &mut XorShift, feature: u8, like: &[u8], local: bool) -> Vec<u8> {
        if rng.percent(45) {
            // What is not ours makes no other configuration.
            if feature == APPLICATIONS && !local && rng.flip() {
                return among_foreign(rng, like);
            }
            return like.to_vec();
        }
        if rng.percent(50) {
            return valid(rng, feature, local);
        }
        let mut octets = like.to_vec();
        match feature {
            // The number of classes alone does not make groups differ.
            PRIORITY_GROUPS => octets[12] = rng.below(9) as u8,
            FLOW_CONTROL => octets[1] = 8,
            _ => {
                let count = octets.len() / 6;
                match rng.below(3) {
                    // One entry less.
                    0 => octets.truncate(6 * count.saturating_sub(1)),
                    // Another map.
                    1 if count > 0 => octets[6 * rng.below(count as u32) as usize + 5] ^= 0x20,
                    // Another order.
                    _ => octets = octets.chunks(6).rev().flatten().copied().collect(),
                }
            }
        }
        octets
    }

    fn version(rng: &mut XorShift) -> u8 {
        if rng.percent(90) {
            rng.below(3) as u8
        } else {
            rng.pick(&[0, 1, 127, 254, 255])
        }
    }

    fn setting(rng: &mut XorShift, parameters: Vec<u8>) -> OwnedSetting {
        OwnedSetting {
            advertise: rng.percent(80),
            enable: rng.percent(80),
            willing: rng.flip(),
            parameters,
        }
    }

    /// About a third are 1.0.
    fn revision(rng: &mut XorShift) -> Revision {
        if rng.percent(33) {
            Revision::R1_0
        } else {
            Revision::R1_01
        }
    }

    /// A port's settings, all valid.
    pub fn settings(rng: &mut XorShift) -> OwnedSettings {
        OwnedSettings {
            revision: revision(rng),
            control_max: version(rng),
            feature: [PRIORITY_GROUPS, FLOW_CONTROL, APPLICATIONS].map(|feature| {
                let parameters = valid(rng, feature, true);
                (version(rng), setting(rng, parameters))
            }),
        }
    }

    /// Settings for the other end, often like these.
    pub fn settings_near(rng: &mut XorShift, like: &OwnedSettings) -> OwnedSettings {
        let mut feature = PRIORITY_GROUPS;
        OwnedSettings {
            revision: if rng.percent(50) { like.revision } else { revision(rng) },
            control_max: if rng.percent(60) { like.control_max } else { version(rng) },
            feature: like.feature.clone().map(|(max, theirs)| {
                let parameters = near(rng, feature, &theirs.parameters, true);
                feature += 1;
                let max = if rng.percent(60) { max } else { version(rng) };
                (max, setting(rng, parameters))
            }),
        }
    }
}

/// Lays out a frame from its sub-TLVs. A length past 511 does not fit its
/// field and is cut there.
pub fn assemble(sub_tlvs: &[(u8, Vec<u8>)]) -> Vec<u8> {
    let mut frame = vec![0, 0, OUI[0], OUI[1], OUI[2], SUBTYPE];
    for (kind, body) in sub_tlvs {
        frame.extend(layout::head(*kind, body.len()));
        frame.extend(body);
    }
    set_length(&mut frame);
    frame
}

/// Makes the length field fit the octets.
fn set_length(frame: &mut [u8]) {
    if frame.len() >= 2 {
        let head = layout::head(TLV_TYPE, frame.len() - 2);
        frame[..2].copy_from_slice(&head);
    }
}

/// Numbers that are no port's.
const NO_PORTS: [u8; 6] = [0, 5, 6, 127, 128, 255];

fn is_port(number: u8) -> bool {
    (1..=PORTS as u8).contains(&number)
}

/// How a port behaves for a while.
#[derive(Clone, Copy, Debug)]
struct Mood {
    /// How often its notices are taken, in a hundred.
    takes: u32,
    /// How often its peer chatters, in a hundred.
    chatter: u32,
}

impl Mood {
    fn any(rng: &mut XorShift) -> Self {
        Mood { takes: rng.pick(&[0, 0, 1, 5, 20, 60]), chatter: rng.pick(&[0, 0, 10, 50, 90]) }
    }
}

/// Makes calls without end.
#[derive(Clone, Debug)]
pub struct Generator {
    rng: XorShift,
    recorder: Recorder,
    /// The peer of each port is the port of the same number.
    peers: Recorder,
    /// Frames given before to each port, for stale ones.
    earlier: [Vec<Vec<u8>>; PORTS],
    mood: [Mood; PORTS],
    /// The port that has most calls, and for how many more.
    busy: (u8, u32),
    /// Ports that are to be made before anything else.
    unmade: Vec<u8>,
}

impl Generator {
    pub fn new(seed: u64) -> Self {
        let mut generator = Generator {
            rng: XorShift::new(seed),
            recorder: Recorder::blank(),
            peers: Recorder::blank(),
            earlier: Default::default(),
            mood: [Mood { takes: 0, chatter: 0 }; PORTS],
            busy: (1, 0),
            unmade: Vec::new(),
        };
        generator.start();
        generator
    }

    /// Begins again with a blank recorder. One to four of its ports are made first.
    pub fn start(&mut self) {
        let rng = &mut self.rng;
        self.recorder = Recorder::blank();
        self.peers = Recorder::blank();
        self.earlier = Default::default();
        self.mood = [(); PORTS].map(|()| Mood::any(rng));
        self.busy = (1, 0);
        let first = rng.below(PORTS as u32) as u8;
        let count = rng.pick(&[1, 2, 3, 4, 4, 4, 4]);
        self.unmade = (0..count).map(|i| 1 + (first + i) % PORTS as u8).collect();
    }

    /// Begins again with two ends as ports 1 and 2. The peer of each begins with the settings of the other.
    pub fn start_ends(&mut self, [a, b]: &[OwnedSettings; 2]) {
        self.start();
        self.unmade.clear();
        for (port, own, other) in [(1, a, b), (2, b, a)] {
            self.recorder.create(port, &own.lend()).expect("valid settings");
            self.peers.create(port, &other.lend()).expect("valid settings");
        }
    }

    /// The generator's own recorder, after the last call.
    pub fn recorder(&self) -> &Recorder {
        &self.recorder
    }

    /// The same recorder, to be changed.
    pub fn recorder_mut(&mut self) -> &mut Recorder {
        &mut self.recorder
    }

    /// The next call and the reference's answer to it.
    pub fn step(&mut self) -> (Call, Answer) {
        let call = self.call();
        let answer = call.apply(&mut self.recorder);
        (call, answer)
    }

    /// Something for one port, made from its state and its peer's.
    pub fn event(&mut self, port: u8) -> Event {
        let state = self.recorder.ports()[usize::from(port) - 1].clone();
        self.choose(port, &state)
    }

    fn call(&mut self) -> Call {
        if let Some(port) = self.unmade.pop() {
            let settings = self.settings(port);
            return Call { port, event: Event::Create(settings) };
        }
        let port = self.next_port();
        if self.rng.below(250) == 0 {
            return Call { port, event: self.creation(port) };
        }
        // At a number that is no port's, something that would be good at a port.
        let like = if is_port(port) { port } else { 1 + port % PORTS as u8 };
        Call { port, event: self.event(like) }
    }

    fn next_port(&mut self) -> u8 {
        let rng = &mut self.rng;
        if rng.percent(2) {
            return rng.pick(&NO_PORTS);
        }
        if self.busy.1 == 0 {
            self.busy = (1 + rng.below(PORTS as u32) as u8, rng.pick(&[5, 20, 80, 200]));
            self.mood[usize::from(self.busy.0) - 1] = Mood::any(rng);
        }
        self.busy.1 -= 1;
        if rng.percent(75) {
            self.busy.0
        } else {
            1 + rng.below(PORTS as u32) as u8
        }
    }

    /// Valid settings for a port, whose peer begins anew with settings like them.
    fn settings(&mut self, port: u8) -> OwnedSettings {
        let settings = random::settings(&mut self.rng);
        let peer = random::settings_near(&mut self.rng, &settings);
        self.peers.create(port, &peer.lend()).expect("valid settings");
        self.earlier[usize::from(port) - 1].clear();
        settings
    }

    /// A creation, refused now and then; also where a port is in use.
    fn creation(&mut self, port: u8) -> Event {
        if is_port(port) && self.rng.percent(60) {
            return Event::Create(self.settings(port));
        }
        let mut settings = random::settings(&mut self.rng);
        if self.rng.percent(80) {
            let feature = self.rng.below(3);
            settings.feature[feature as usize].1.parameters =
                random::invalid(&mut self.rng, PRIORITY_GROUPS + feature as u8, true);
        }
        Event::Create(settings)
    }

    /// Something for a port in this state.
    fn choose(&mut self, port: u8, state: &Port) -> Event {
        let mood = self.mood[usize::from(port) - 1];
        let rng = &mut self.rng;
        let flags = state.flags();
        // Do not stay stopped or flagged for long.
        if !state.running() && rng.percent(30) {
            let off = [
                (Flag::Enabled, flags.enabled),
                (Flag::Receive, flags.receive),
                (Flag::Transmit, flags.transmit),
            ];
            let flag = off.into_iter().find(|(_, on)| !on).map_or(Flag::Enabled, |(f, _)| f);
            return Event::SetFlag(flag, true);
        }
        if flags.several_neighbours && rng.percent(20) {
            return Event::SetFlag(Flag::SeveralNeighbours, false);
        }
        if rng.percent(mood.takes) {
            return Event::Take;
        }
        if rng.percent(mood.chatter) {
            return self.chatter(state);
        }
        match rng.below(100) {
            0..=63 => Event::Frame(self.frame(port, state)),
            64..=83 => self.change(state),
            84..=93 => Event::Write(rng.below(201) as usize),
            94..=95 => Event::PeerGone,
            96 => Event::Take,
            _ => {
                let on = rng.percent(40);
                Event::SetFlag(rng.pick(&Flag::ALL), on)
            }
        }
    }

    /// What mostly raises a notice: sub-TLVs that are absent and bad in turn, a broken
    /// control, a peer that is gone, a flag.
    fn chatter(&mut self, state: &Port) -> Event {
        let rng = &mut self.rng;
        match rng.below(10) {
            0 => Event::PeerGone,
            1 => Event::SetFlag(Flag::Transmit, !state.flags().transmit),
            2 => Event::Frame(self.broken_control(state)),
            _ => {
                let control = *state.control();
                let mut body = vec![control.max, control.max];
                body.extend(control.ackno.to_be_bytes());
                body.extend(control.seqno.to_be_bytes());
                let mut list = vec![(CONTROL, body)];
                for number in PRIORITY_GROUPS..=APPLICATIONS {
                    if state.feature(number).reason == Reason::Absent && rng.percent(80) {
                        list.push((number, Vec::new()));
                    }
                }
                Event::Frame(assemble(&list))
            }
        }
    }

    fn change(&mut self, state: &Port) -> Event {
        let rng = &mut self.rng;
        let number =
            if rng.percent(5) { rng.pick(&[0, 1, 5, 6, 127, 255]) } else { 2 + rng.below(3) as u8 };
        let like = if (2..=4).contains(&number) { number } else { 2 };
        let now = state.feature(like);
        let mut setting = OwnedSetting {
            advertise: now.advertise,
            enable: now.enable,
            willing: now.willing,
            parameters: now.parameters,
        };
        match rng.below(100) {
            // Equal.
            0..=9 => {}
            10..=24 => setting.advertise ^= true,
            25..=36 => setting.enable ^= true,
            37..=48 => setting.willing ^= true,
            49..=59 => setting.parameters = random::invalid(rng, like, true),
            60..=69 => {
                // What the peer has, if a setting may have it.
                if let Some(peer) = now.peer {
                    setting.parameters = peer.parameters;
                }
            }
            70..=84 => {
                setting.parameters = random::near(rng, like, &setting.parameters, true);
            }
            _ => {
                setting.advertise = rng.percent(80);
                setting.enable = rng.percent(80);
                setting.willing = rng.flip();
                setting.parameters = random::valid(rng, like, true);
            }
        }
        if rng.percent(10) {
            // Another OUI is in no setting.
            if like == APPLICATIONS && setting.parameters.len() >= 6 {
                setting.parameters[2] ^= 0x40;
                setting.parameters[3] = rng.octet();
            }
        }
        Event::Change { feature: number, setting }
    }

    /// A frame for a port in this state: its peer's, crafted, stale, damaged or hostile.
    pub fn frame(&mut self, port: u8, state: &Port) -> Vec<u8> {
        let frame = match self.rng.below(100) {
            0..=34 => self.peers_frame(port, state),
            35..=74 => self.crafted(state),
            75..=79 => self.stale(port, state),
            80..=89 => self.damaged(port, state),
            90..=93 => self.broken_control(state),
            _ => self.hostile(),
        };
        let earlier = &mut self.earlier[usize::from(port) - 1];
        if earlier.len() < 8 {
            earlier.push(frame.clone());
        } else {
            let place = self.rng.below(8) as usize;
            earlier[place].clone_from(&frame);
        }
        frame
    }

    /// A frame of the simulated peer, which often has just received ours.
    fn peers_frame(&mut self, port: u8, state: &Port) -> Vec<u8> {
        let (rng, peers) = (&mut self.rng, &mut self.peers);
        let mut octets = [0; layout::LONGEST_FRAME];
        if rng.percent(85) {
            if let Ok(length) = self.recorder.write(port, &mut octets) {
                // A refusal is as good as a loss.
                let _ = peers.frame(port, &octets[..length]);
            }
        }
        match rng.below(100) {
            0..=3 => {
                let _ = peers.peer_gone(port);
            }
            4..=11 => {
                let feature = 2 + rng.below(3) as u8;
                let like = state.feature(feature).parameters;
                let parameters = random::near(rng, feature, &like, true);
                let setting = OwnedSetting {
                    advertise: rng.percent(90),
                    enable: rng.percent(85),
                    willing: rng.flip(),
                    parameters,
                };
                let _ = peers.change(port, feature, &setting.lend());
            }
            _ => {}
        }
        match peers.write(port, &mut octets) {
            Ok(length) => octets[..length].to_vec(),
            Err(_) => Vec::new(),
        }
    }

    fn stale(&mut self, port: u8, state: &Port) -> Vec<u8> {
        let earlier = &self.earlier[usize::from(port) - 1];
        if earlier.is_empty() {
            return self.crafted(state);
        }
        earlier[self.rng.below(earlier.len() as u32) as usize].clone()
    }

    /// Mostly what the version rules ask for, given our highest version.
    fn versions(&mut self, max: u8) -> (u8, u8) {
        let rng = &mut self.rng;
        let theirs = if rng.percent(70) { max } else { rng.pick(&[0, 1, 2, 3, 255]) };
        let right = max.min(theirs);
        let oper = match rng.below(100) {
            0..=89 => right,
            90..=95 => theirs,
            96..=97 => rng.below(u32::from(theirs) + 1) as u8,
            // Above its Max, if it can be.
            _ => theirs.saturating_add(1),
        };
        (oper, theirs)
    }

    fn control(&mut self, state: &Port) -> Vec<u8> {
        let control = *state.control();
        let (oper, max) = self.versions(control.max);
        let rng = &mut self.rng;
        let ackno = match rng.below(100) {
            // Right, stale, too high, a feature's own, anything.
            0..=59 => control.seqno,
            60..=74 => control.seqno.wrapping_sub(1),
            75..=84 => control.seqno.wrapping_add(1),
            85..=94 => state.feature(2 + rng.below(3) as u8).featureseqno,
            _ => rng.next_u64() as u32,
        };
        let seqno = match rng.below(100) {
            0..=59 => control.ackno,
            60..=89 => control.ackno.wrapping_add(1),
            _ => rng.pick(&[0, 1, u32::MAX, 0x0102_0304]),
        };
        let mut body = vec![oper, max];
        body.extend(seqno.to_be_bytes());
        body.extend(ackno.to_be_bytes());
        if rng.percent(3) {
            let length = if rng.flip() { rng.pick(&[9, 11]) } else { rng.below(30) };
            body.resize(length as usize, 0);
        }
        body
    }

    fn feature(&mut self, state: &Port, number: u8) -> Vec<u8> {
        let ours = state.feature(number);
        let (oper, max) = self.versions(ours.max);
        let rng = &mut self.rng;
        if rng.percent(4) {
            return rng.octets(3)[..rng.below(4) as usize].to_vec();
        }
        let mut flags = rng.octet() & 0x3f;
        if rng.percent(75) {
            flags &= !layout::ERROR;
        }
        if rng.percent(85) {
            flags |= ENABLE;
        }
        if rng.flip() {
            flags |= WILLING;
        }
        let sub_type = if rng.percent(4) { 1 + rng.below(255) as u8 } else { 0 };
        let parameters = match rng.below(100) {
            0..=49 => random::near(rng, number, &ours.parameters, false),
            50..=79 => random::valid(rng, number, false),
            80..=95 => random::invalid(rng, number, false),
            _ => {
                let count = rng.below(30) as usize;
                rng.octets(count)
            }
        };
        let mut body = vec![oper, max, flags, sub_type];
        body.extend(parameters);
        body
    }

    /// How many times a sub-TLV comes.
    fn times(&mut self, none: u32, twice: u32) -> u32 {
        match self.rng.below(100) {
            x if x < none => 0,
            x if x < none + twice => 2 + self.rng.below(2),
            _ => 1,
        }
    }

    fn sub_tlvs(&mut self, state: &Port) -> Vec<(u8, Vec<u8>)> {
        let mut list = Vec::new();
        for _ in 0..self.times(3, 7) {
            list.push((CONTROL, self.control(state)));
        }
        for number in PRIORITY_GROUPS..=APPLICATIONS {
            for _ in 0..self.times(7, 6) {
                list.push((number, self.feature(state, number)));
            }
            if self.rng.percent(4) {
                // The same type under another SubType, beside the right one.
                let mut other = self.feature(state, number);
                other.resize(other.len().max(4), 0);
                other[3] = 1 + self.rng.below(255) as u8;
                list.push((number, other));
            }
        }
        let rng = &mut self.rng;
        while rng.percent(15) {
            let kind =
                if rng.flip() { rng.pick(&[0, 5, 6, 127]) } else { 5 + rng.below(123) as u8 };
            let length = rng.below(40) as usize;
            list.push((kind, rng.octets(length)));
        }
        if rng.flip() {
            for i in (1..list.len()).rev() {
                list.swap(i, rng.below(i as u32 + 1) as usize);
            }
        }
        list
    }

    fn crafted(&mut self, state: &Port) -> Vec<u8> {
        assemble(&self.sub_tlvs(state))
    }

    /// One control, whose Oper is above its Max or whose length is not 10, anywhere
    /// among the rest.
    fn broken_control(&mut self, state: &Port) -> Vec<u8> {
        let mut list = self.sub_tlvs(state);
        list.retain(|(kind, _)| *kind != CONTROL);
        let rng = &mut self.rng;
        let max = rng.below(255) as u8;
        let mut body = vec![max + 1, max];
        body.extend(rng.octets(8));
        if rng.flip() {
            body.resize(rng.pick(&[0, 1, 2, 9, 11, 20]), 0);
        }
        let place = rng.below(list.len() as u32 + 1) as usize;
        list.insert(place, (CONTROL, body));
        assemble(&list)
    }

    /// A good frame with one thing broken.
    fn damaged(&mut self, port: u8, state: &Port) -> Vec<u8> {
        let mut frame =
            if self.rng.flip() { self.peers_frame(port, state) } else { self.crafted(state) };
        if frame.len() < 6 {
            return frame;
        }
        let rng = &mut self.rng;
        match rng.below(9) {
            // One bit.
            0 | 1 => {
                let place = rng.below(frame.len() as u32) as usize;
                frame[place] ^= 1 << rng.below(8);
            }
            // Cut, with the old length or the new.
            2 => frame.truncate(rng.below(frame.len() as u32) as usize),
            3 => {
                frame.truncate(rng.below(frame.len() as u32) as usize);
                set_length(&mut frame);
            }
            // Lengthened, with the old length or the new.
            4 => frame.push(rng.octet()),
            5 => {
                let more = 1 + rng.below(4) as usize;
                frame.extend(rng.octets(more));
                set_length(&mut frame);
            }
            // Type, OUI or subtype.
            6 => {
                let place = rng.pick(&[0, 2, 3, 4, 5]);
                frame[place] ^= 2 << rng.below(7);
            }
            // The length of the first sub-TLV.
            7 if frame.len() > 7 => frame[7] = frame[7].wrapping_add(rng.pick(&[1, 255, 6])),
            // The length field.
            _ => frame[1] = frame[1].wrapping_add(1 + rng.below(255) as u8),
        }
        frame
    }

    /// Octets meant to hurt.
    fn hostile(&mut self) -> Vec<u8> {
        let rng = &mut self.rng;
        let length = rng.below(520) as usize;
        match rng.below(6) {
            0 => rng.octets(length),
            // A right head, then anything.
            1 => {
                let mut frame = assemble(&[]);
                frame.extend(rng.octets(length % 64));
                set_length(&mut frame);
                frame
            }
            // Empty sub-TLVs of one type to the longest length.
            2 => assemble(&vec![(rng.below(8) as u8, Vec::new()); 253]),
            // A head whose length says 511.
            3 => {
                let mut frame = assemble(&[(CONTROL, vec![0; 10])]);
                frame.extend(layout::head(rng.below(128) as u8, 511));
                frame.extend(rng.octets(length % 32));
                set_length(&mut frame);
                frame
            }
            // One sub-TLV that fills all.
            4 => assemble(&[(CONTROL, vec![0; 10]), (4, vec![0; 493])]),
            // Too long for the length field.
            _ => assemble(&vec![(CONTROL, vec![0; 10]); 43]),
        }
    }
}

impl Iterator for Generator {
    type Item = Call;

    fn next(&mut self) -> Option<Call> {
        Some(self.step().0)
    }
}
