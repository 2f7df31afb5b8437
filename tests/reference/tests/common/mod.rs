//! Helpers that the tests share.
#![allow(dead_code)]

pub mod captures;

use reference::events::{assemble, Answer, Call, Event, OwnedSetting, OwnedSettings, FILL};
use reference::layout::LONGEST_FRAME;
use reference::rounds::Ends;
use reference::{Flag, Log, Notice, Port, Reason, Recorder, Refusal, Revision, Setting};
use std::ops::Deref;

pub fn hex(text: &str) -> Vec<u8> {
    let digits: Vec<u8> = text.bytes().filter(|b| !b.is_ascii_whitespace()).collect();
    digits
        .chunks(2)
        .map(|pair| u8::from_str_radix(std::str::from_utf8(pair).unwrap(), 16).unwrap())
        .collect()
}

pub const W2: &str = "fe 37 00 1b 21 02 02 0a 00 00 00 00 00 01 00 00 00 00 \
    04 11 00 00 80 00 00 01 00 00 32 32 00 00 00 00 00 00 02 \
    06 06 00 00 80 00 08 08 08 0a 00 00 80 00 89 06 00 1b 21 08";

/// A control that no refusal keeps out.
pub const CONTROL: &str = "02 0a 00 00 00 00 00 01 00 00 00 00";

/// Octets behind the TLV's head, with a right length field.
pub fn tlv(behind: &str) -> Vec<u8> {
    let mut octets = hex("fe 00 00 1b 21 02");
    octets.extend(hex(behind));
    octets[1] = (octets.len() - 2) as u8;
    octets
}

pub const GROUPS: [u8; 13] = [0, 1, 0, 0, 50, 50, 0, 0, 0, 0, 0, 0, 2];
pub const FLOW: [u8; 2] = [0x08, 8];
pub const APPLICATIONS: [u8; 6] = [0x89, 0x06, 0x00, 0x1b, 0x21, 0x08];

/// The parameters of W2's feature 2, 3 or 4.
pub fn w2_parameters(feature: u8) -> &'static [u8] {
    match feature {
        2 => &GROUPS,
        3 => &FLOW,
        _ => &APPLICATIONS,
    }
}

/// Parameters that are not compatible with W2's.
pub fn other_parameters(feature: u8) -> Vec<u8> {
    match feature {
        2 => vec![0, 2, 0, 0, 50, 50, 0, 0, 0, 0, 0, 0, 2],
        3 => vec![0x10, 8],
        _ => hex("89 06 00 1b 21 10"),
    }
}

/// W2's settings: all advertised, enabled, unwilling, all Max 0.
pub fn w2_settings() -> OwnedSettings {
    let setting = |parameters: &[u8]| OwnedSetting {
        advertise: true,
        enable: true,
        willing: false,
        parameters: parameters.to_vec(),
    };
    OwnedSettings {
        revision: Revision::R1_01,
        control_max: 0,
        feature: [(0, setting(&GROUPS)), (0, setting(&FLOW)), (0, setting(&APPLICATIONS))],
    }
}

/// The same for Rev 1.0, which has no applications.
pub fn old_settings() -> OwnedSettings {
    OwnedSettings { revision: Revision::R1_0, ..w2_settings() }
}

/// A port of a recorder of its own, so that tests of one port need not name it.
#[derive(Clone, Debug)]
pub struct OnePort(pub Recorder);

/// Its number; any of the four would do.
pub const NUMBER: u8 = 3;

impl OnePort {
    /// A refusal by its number alone; its place is for tests/places.rs.
    pub fn frame(&mut self, octets: &[u8]) -> Result<bool, u8> {
        self.0.frame(NUMBER, octets).map_err(|refusal| refusal.number)
    }

    pub fn peer_gone(&mut self) -> Result<bool, u8> {
        self.0.peer_gone(NUMBER)
    }

    pub fn set_flag(&mut self, flag: Flag, on: bool) -> bool {
        self.0.set_flag(NUMBER, flag, on).unwrap()
    }

    pub fn change(
        &mut self,
        feature: u8,
        advertise: bool,
        enable: bool,
        willing: bool,
        parameters: &[u8],
    ) -> Result<bool, u8> {
        self.0.change(NUMBER, feature, &Setting { advertise, enable, willing, parameters })
    }

    pub fn write(&self, out: &mut [u8]) -> Result<usize, u8> {
        self.0.write(NUMBER, out)
    }

    pub fn take(&mut self) -> Result<(u8, u8), u8> {
        self.0.take(NUMBER).map(|notice| {
            assert_eq!(notice.port, NUMBER);
            (notice.number, notice.feature)
        })
    }

    pub fn held(&self) -> usize {
        self.0.log().held(NUMBER)
    }

    pub fn dropped(&self) -> u32 {
        self.0.log().dropped(NUMBER)
    }

    pub fn set_numbers(&mut self, seqno: u32, ackno: u32, rcvdackno: u32, feature: [u32; 3]) {
        self.0.set_numbers(NUMBER, seqno, ackno, rcvdackno, feature).unwrap();
    }

    pub fn set_dropped(&mut self, dropped: u32) {
        self.0.set_dropped(NUMBER, dropped).unwrap();
    }

    pub fn port_dump(&self) -> Vec<u8> {
        Port::dump(self)
    }

    /// The port and the log.
    pub fn dump(&self) -> Vec<u8> {
        [self.port_dump(), self.0.log().dump()].concat()
    }
}

impl Deref for OnePort {
    type Target = Port;

    fn deref(&self) -> &Port {
        self.0.port(NUMBER).unwrap()
    }
}

pub fn port(settings: &OwnedSettings) -> OnePort {
    let mut recorder = Recorder::blank();
    assert_eq!(recorder.create(NUMBER, &settings.lend()), Ok(true));
    OnePort(recorder)
}

/// The number with which a creation is refused.
pub fn creation_refused(settings: &OwnedSettings) -> Option<u8> {
    Recorder::blank().create(NUMBER, &settings.lend()).err()
}

/// Two recorders with a port each.
pub fn ends(a: &OwnedSettings, b: &OwnedSettings) -> Ends {
    Ends::new((port(a).0, NUMBER), (port(b).0, NUMBER))
}

pub fn w2_port() -> OnePort {
    port(&w2_settings())
}

/// What the port would write; none if stopped.
pub fn written(port: &OnePort) -> Option<Vec<u8>> {
    written_at(&port.0, NUMBER)
}

/// What a recorder's port would write; none if stopped.
pub fn written_at(recorder: &Recorder, port: u8) -> Option<Vec<u8>> {
    let mut octets = [0; LONGEST_FRAME];
    recorder.write(port, &mut octets).ok().map(|length| octets[..length].to_vec())
}

pub type SubTlvs = Vec<(u8, Vec<u8>)>;

pub fn control(oper: u8, max: u8, seqno: u32, ackno: u32) -> (u8, Vec<u8>) {
    let mut body = vec![oper, max];
    body.extend(seqno.to_be_bytes());
    body.extend(ackno.to_be_bytes());
    (1, body)
}

pub fn feature(number: u8, oper: u8, max: u8, flags: u8, parameters: &[u8]) -> (u8, Vec<u8>) {
    let mut body = vec![oper, max, flags, 0];
    body.extend(parameters);
    (number, body)
}

/// Control and W2's three features, each with these flags.
pub fn sub_tlvs(seqno: u32, ackno: u32, flags: u8) -> SubTlvs {
    let mut list = vec![control(0, 0, seqno, ackno)];
    list.extend((2..=4).map(|number| feature(number, 0, 0, flags, w2_parameters(number))));
    list
}

pub fn frame(sub_tlvs: &SubTlvs) -> Vec<u8> {
    assemble(sub_tlvs)
}

/// A W2 port that got this frame.
pub fn after(sub_tlvs: &SubTlvs) -> OnePort {
    let mut port = w2_port();
    port.frame(&frame(sub_tlvs)).unwrap();
    port
}

pub fn reasons(port: &Port) -> [Reason; 3] {
    [2, 3, 4].map(|number| port.feature(number).reason)
}

/// SeqNo, AckNo, RcvdAckNo.
pub fn numbers(port: &Port) -> (u32, u32, u32) {
    let control = port.control();
    (control.seqno, control.ackno, control.rcvdackno)
}

/// Takes all notices.
pub fn notices(port: &mut OnePort) -> Vec<(u8, u8)> {
    std::iter::from_fn(|| port.take().ok()).collect()
}

/// A W2 port all of whose features are agreed and Syncd, numbers 1, 1, 1.
pub fn settled_port() -> OnePort {
    let port = after(&sub_tlvs(1, 1, 0x80));
    assert!((2..=4).all(|n| port.feature(n).syncd));
    assert_eq!(numbers(&port), (1, 1, 1));
    assert_eq!(reasons(&port), [Reason::Agreed; 3]);
    port
}

/// The log by the words of document 02, E10: a plain list.
#[derive(Clone, Debug, Default, PartialEq, Eq)]
pub struct PlainLog {
    pub held: Vec<Notice>,
    pub dropped: [u32; 4],
}

impl PlainLog {
    pub fn of(log: &Log) -> Self {
        PlainLog {
            held: log.notices().collect(),
            dropped: [1, 2, 3, 4].map(|port| log.dropped(port)),
        }
    }

    pub fn count(&self, port: u8) -> usize {
        self.held.iter().filter(|notice| notice.port == port).count()
    }

    /// Writes a notice; says what a full log dropped for it.
    pub fn write(&mut self, notice: Notice) -> Option<Dropped> {
        let mut dropped = None;
        if self.held.len() == 64 {
            let own = self.count(notice.port);
            let most = (1..=4).map(|port| self.count(port)).max().unwrap();
            let holding_most: Vec<u8> = (1..=4).filter(|&port| self.count(port) == most).collect();
            let loser = if own >= 16 { notice.port } else { holding_most[0] };
            let oldest = self.held.iter().position(|held| held.port == loser).unwrap();
            self.held.remove(oldest);
            let count = &mut self.dropped[usize::from(loser) - 1];
            *count = count.saturating_add(1);
            dropped = Some(Dropped { loser, own, tie: own < 16 && holding_most.len() > 1 });
        }
        self.held.push(notice);
        dropped
    }
}

/// Who lost a notice, how many the writer held, and whether several others held most.
#[derive(Clone, Copy, Debug, PartialEq, Eq)]
pub struct Dropped {
    pub loser: u8,
    pub own: usize,
    pub tie: bool,
}

/// The broken control marks of the four ports.
pub fn marks(recorder: &Recorder) -> [bool; 4] {
    recorder.ports().each_ref().map(|port| port.control().broken_control)
}

/// A port's state without its mark.
pub fn but_mark(port: &Port) -> Vec<u8> {
    const MARK: usize = 17;
    let mut octets = port.dump();
    octets.remove(MARK);
    octets
}

/// A call was refused. It left everything but what document 02, E1 names: the mark of the port
/// where a frame is refused, and notice 1 with what a full log drops for it, which is given.
pub fn left_by_refusal(
    before: &Recorder,
    call: &Call,
    answer: &Answer,
    after: &Recorder,
) -> Option<Dropped> {
    let but_marks = |recorder: &Recorder| recorder.ports().each_ref().map(but_mark);
    assert_eq!(but_marks(before), but_marks(after), "{call:?}");
    let (mut marks_due, mut log_due) = (marks(before), PlainLog::of(before.log()));
    let (mut raised, mut dropped) = (Vec::new(), None);
    if matches!(call.event, Event::Frame(_)) && answer.refusal != 16 {
        let mark = &mut marks_due[usize::from(call.port) - 1];
        let broken = matches!(answer.refusal, 7 | 8);
        if broken && !*mark {
            let notice = Notice { port: call.port, number: 1, feature: 0 };
            raised.push(notice);
            dropped = log_due.write(notice);
        }
        *mark = broken;
    }
    assert_eq!(marks(after), marks_due, "{call:?}");
    assert_eq!(PlainLog::of(after.log()), log_due, "{call:?}");
    assert_eq!(answer.raised, raised, "{call:?}");
    assert_ne!(answer.refusal, 0);
    assert!(!answer.wish && answer.length == 0 && answer.taken.is_none());
    assert!(answer.output.iter().all(|&octet| octet == FILL));
    dropped
}

/// Gives a port a frame that is refused, and leaves what a refusal leaves.
pub fn refused_frame(recorder: &mut Recorder, port: u8, octets: &[u8]) -> Refusal {
    let before = recorder.clone();
    let call = Call { port, event: Event::Frame(octets.to_vec()) };
    let answer = call.apply(recorder);
    left_by_refusal(&before, &call, &answer, recorder);
    Refusal { number: answer.refusal, place: answer.place }
}
