//! Rounds of two ends, and the outcome rules applied to two settings alone.

use crate::events::OwnedSettings;
use crate::layout::{Parameters, LONGEST_FRAME};
use crate::outcome::{Feature, Peer, Reason};
use crate::port::Port;
use crate::recorder::Recorder;
use crate::refusal::Refusal;
use crate::settings::FeatureSetting;

/// Two ports that exchange frames, each of a recorder of its own.
#[derive(Clone, Debug)]
pub struct Ends {
    pub recorder: [Recorder; 2],
    pub port: [u8; 2],
}

/// What happens in one round. Place 0 speaks of end 0, place 1 of end 1.
#[derive(Clone, Copy, Debug, PartialEq, Eq)]
pub struct Round {
    /// The end that receives first.
    pub first: usize,
    /// Whether the end has its accepted write.
    pub writes: [bool; 2],
    /// Whether the frame this end wrote is delivered.
    pub delivered: [bool; 2],
}

impl Round {
    /// A round without losses.
    pub fn whole(first: usize) -> Self {
        Round { first, writes: [true; 2], delivered: [true; 2] }
    }
}

impl Ends {
    /// Each end is a recorder and the number of its port.
    pub fn new(a: (Recorder, u8), b: (Recorder, u8)) -> Self {
        Ends { recorder: [a.0, b.0], port: [a.1, b.1] }
    }

    /// Both ends as their settings, which are valid, make them.
    pub fn create(settings: &[OwnedSettings; 2]) -> Self {
        const PORT: u8 = 1;
        let recorder = settings.each_ref().map(|settings| {
            let mut recorder = Recorder::blank();
            recorder.create(PORT, &settings.lend()).expect("valid settings");
            recorder
        });
        Ends { recorder, port: [PORT; 2] }
    }

    /// The port of end 0 or 1.
    pub fn end(&self, i: usize) -> &Port {
        self.recorder[i].port(self.port[i]).expect("a port's number")
    }

    pub fn ends(&self) -> [&Port; 2] {
        [self.end(0), self.end(1)]
    }

    /// A frame arrived at end 0 or 1.
    pub fn frame(&mut self, to: usize, octets: &[u8]) -> Result<bool, Refusal> {
        self.recorder[to].frame(self.port[to], octets)
    }

    /// Two writes, then two deliveries.
    pub fn round(&mut self) {
        self.round_with(Round::whole(0), |_, _| {});
    }

    /// A round with losses, and with `between` called at both recorders, with the
    /// number of the end's port, before, between and after the calls. At that port
    /// it must make refused calls only.
    pub fn round_with(&mut self, round: Round, mut between: impl FnMut(&mut Recorder, u8)) {
        let mut noise =
            |ends: &mut Self| (0..2).for_each(|i| between(&mut ends.recorder[i], ends.port[i]));
        let mut octets = [[0; LONGEST_FRAME]; 2];
        let mut length = [0; 2];
        for i in 0..2 {
            noise(self);
            if round.writes[i] {
                let written = self.recorder[i].write(self.port[i], &mut octets[i]);
                length[i] = written.expect("an accepted write");
            }
        }
        for to in [round.first, 1 - round.first] {
            let from = 1 - to;
            noise(self);
            if round.writes[from] && round.delivered[from] {
                let frame = &octets[from][..length[from]];
                self.frame(to, frame).expect("an accepted frame");
            }
        }
        noise(self);
    }

    /// All that demand 3 speaks of holds at end 0 or 1.
    pub fn agreed_at(&self, i: usize) -> bool {
        agreed_end(self.end(i), self.end(1 - i))
    }

    /// It holds at both.
    pub fn agreed(&self) -> bool {
        self.agreed_at(0) && self.agreed_at(1)
    }

    /// What each end holds of its peer is none or the peer's own.
    pub fn held_is_own(&self) -> bool {
        let [a, b] = self.ends();
        held_end(a, b) && held_end(b, a)
    }
}

/// A peer is seen, RcvdAckNo = SeqNo, and every advertised feature is Syncd.
pub fn settled(port: &Port) -> bool {
    let control = port.control();
    control.peer_seen && control.rcvdackno == control.seqno && !port.pending()
}

/// What the outcome rules give for two settings alone.
#[derive(Clone, Copy, Debug, PartialEq, Eq)]
pub struct Outcome<P> {
    pub reason: Reason,
    pub error: bool,
    pub mode: bool,
    pub oper: u8,
    pub peer: Option<Peer<P>>,
    pub opercfg: P,
}

/// One end's highest version and setting of one feature.
pub type Side<'a, P> = (u8, &'a FeatureSetting<P>);

/// The Error the rules give at `own`: only rule 9 can give it here, since what
/// the other end says of a valid setting comes once, good and in its version.
pub fn error_alone<P: Parameters>(own: Side<P>, other: Side<P>) -> bool {
    let both = |f: fn(&FeatureSetting<P>) -> bool| f(own.1) && f(other.1);
    both(|s| s.advertise)
        && both(|s| s.enable)
        && own.1.willing == other.1.willing
        && !own.1.parameters.compatible(&other.1.parameters)
}

/// The outcome at `own`.
pub fn outcome_alone<P: Parameters>(own: Side<P>, other: Side<P>) -> Outcome<P> {
    let (max, setting) = own;
    let (peer_max, peer_setting) = other;
    let mut outcome = Outcome {
        reason: Reason::NotAdvertised,
        error: error_alone(own, other),
        mode: false,
        oper: max,
        peer: None,
        opercfg: setting.parameters,
    };
    if !setting.advertise {
        outcome.mode = setting.enable;
        return outcome;
    }
    if !peer_setting.advertise {
        outcome.reason = Reason::Absent;
        return outcome;
    }
    let peer_error = error_alone(other, own);
    outcome.oper = if max < peer_max { max } else { peer_max };
    outcome.peer = Some(Peer {
        enable: peer_setting.enable,
        willing: peer_setting.willing,
        error: peer_error,
        parameters: peer_setting.parameters,
    });
    if !(setting.enable && peer_setting.enable) {
        outcome.reason = Reason::Disabled;
    } else if outcome.error {
        outcome.reason = Reason::NotCompatible;
    } else {
        outcome.reason = Reason::Agreed;
        outcome.mode = !peer_error;
        if setting.willing && !peer_setting.willing {
            outcome.opercfg = peer_setting.parameters;
        }
    }
    outcome
}

fn as_expected<P: Parameters>(own: &Feature<P>, other: &Feature<P>) -> bool {
    let held = Outcome {
        reason: own.reason,
        error: own.error,
        mode: own.mode,
        oper: own.oper,
        peer: own.peer,
        opercfg: own.opercfg,
    };
    let expected = outcome_alone((own.max, &own.setting), (other.max, &other.setting));
    own.syncd && held == expected
}

fn agreed_end(own: &Port, other: &Port) -> bool {
    let control = own.control();
    control.rcvdackno == control.seqno
        && control.oper == control.max.min(other.control().max)
        && as_expected(own.groups(), other.groups())
        && as_expected(own.flow(), other.flow())
        && as_expected(own.applications(), other.applications())
}

fn held_is_own<P: Parameters>(own: &Feature<P>, other: &Feature<P>) -> bool {
    let theirs = &other.setting;
    let peer = match &own.peer {
        None => true,
        Some(peer) => {
            theirs.advertise
                && peer.enable == theirs.enable
                && peer.willing == theirs.willing
                && peer.parameters == theirs.parameters
        }
    };
    let opercfg = own.opercfg == own.setting.parameters
        || own.peer.is_some() && own.opercfg == theirs.parameters;
    peer && opercfg
}

fn held_end(own: &Port, other: &Port) -> bool {
    held_is_own(own.groups(), other.groups())
        && held_is_own(own.flow(), other.flow())
        && held_is_own(own.applications(), other.applications())
}
