//! One feature's state and the outcome rules.

use crate::layout::{self, Found, Parameters, ENABLE, ERROR, FEATURE_HEAD, WILLING};
use crate::log;
use crate::settings::FeatureSetting;

/// Why a feature is as it is. The numbers are this crate's, used in `dump`.
#[derive(Clone, Copy, Debug, PartialEq, Eq, Hash)]
#[repr(u8)]
pub enum Reason {
    NoPeerYet = 0,
    NotAdvertised = 1,
    ControlTwice = 2,
    Absent = 3,
    Duplicate = 4,
    Bad = 5,
    Waiting = 6,
    Disabled = 7,
    Agreed = 8,
    NotCompatible = 9,
}

impl Reason {
    pub const ALL: [Reason; 10] = [
        Reason::NoPeerYet,
        Reason::NotAdvertised,
        Reason::ControlTwice,
        Reason::Absent,
        Reason::Duplicate,
        Reason::Bad,
        Reason::Waiting,
        Reason::Disabled,
        Reason::Agreed,
        Reason::NotCompatible,
    ];

    /// The notice due when a feature's reason becomes this one.
    pub fn notice(self) -> Option<u8> {
        match self {
            Reason::Duplicate => Some(log::DUPLICATE),
            Reason::Bad => Some(log::BAD),
            Reason::Absent => Some(log::ABSENT),
            Reason::NotCompatible => Some(log::NOT_COMPATIBLE),
            _ => None,
        }
    }
}

/// What is held of the peer: its three flags and its parameters.
#[derive(Clone, Copy, Debug, PartialEq, Eq)]
pub struct Peer<P> {
    pub enable: bool,
    pub willing: bool,
    pub error: bool,
    pub parameters: P,
}

/// A feature's sub-TLV, but for its Max, which never changes.
#[derive(Clone, Copy, Debug, PartialEq, Eq)]
pub struct Advert<P> {
    pub oper: u8,
    pub enable: bool,
    pub willing: bool,
    pub error: bool,
    pub parameters: P,
}

/// One feature machine.
#[derive(Clone, Copy, Debug)]
pub struct Feature<P> {
    pub setting: FeatureSetting<P>,
    pub max: u8,
    pub oper: u8,
    pub error: bool,
    pub mode: bool,
    pub syncd: bool,
    pub featureseqno: u32,
    pub reason: Reason,
    pub peer: Option<Peer<P>>,
    pub opercfg: P,
    /// The sub-TLV last released, which the frames carry (document 02, E5).
    pub released: Option<Advert<P>>,
}

/// What of a feature's present sub-TLV may change while its setting stays.
/// None if it is not advertised.
pub(crate) type Shown = Option<(u8, bool)>;

impl<P: Parameters> Feature<P> {
    /// The fresh state, stopped.
    pub(crate) fn new((max, setting): (u8, FeatureSetting<P>)) -> Self {
        let mut feature = Feature {
            setting,
            max,
            oper: max,
            error: false,
            mode: false,
            syncd: false,
            featureseqno: 1,
            reason: Reason::NoPeerYet,
            peer: None,
            opercfg: setting.parameters,
            released: None,
        };
        feature.fresh(false);
        feature
    }

    /// The fresh state of the present setting, released; every mode is false when stopped.
    pub(crate) fn fresh(&mut self, running: bool) {
        self.anew(running);
        self.release();
    }

    /// As in the fresh state, but for what is released.
    fn anew(&mut self, running: bool) {
        self.oper = self.max;
        self.peer = None;
        self.error = false;
        self.opercfg = self.setting.parameters;
        self.featureseqno = 1;
        if self.setting.advertise {
            self.reason = Reason::NoPeerYet;
            self.mode = false;
            self.syncd = false;
        } else {
            self.reason = Reason::NotAdvertised;
            self.mode = running && self.setting.enable;
            self.syncd = true;
        }
    }

    /// The sub-TLV by the present state, none if not advertised.
    pub fn present(&self) -> Option<Advert<P>> {
        self.setting.advertise.then_some(Advert {
            oper: self.oper,
            enable: self.setting.enable,
            willing: self.setting.willing,
            error: self.error,
            parameters: self.setting.parameters,
        })
    }

    /// Whether the frames carry another sub-TLV than the present one, or none, or one too many.
    pub fn waits(&self) -> bool {
        self.released != self.present()
    }

    /// From here on the frames carry the present sub-TLV.
    pub(crate) fn release(&mut self) {
        self.released = self.present();
    }

    #[inline]
    pub(crate) fn shown(&self) -> Shown {
        self.setting.advertise.then_some((self.oper, self.error))
    }

    /// Whether the send rule counts this feature: advertised, or withdrawn and not yet
    /// acknowledged. One that was not advertised before is Syncd.
    #[inline]
    pub(crate) fn pending(&self) -> bool {
        !self.syncd
    }

    /// Step 3: Syncd only if FeatureSeqNo equals both numbers.
    #[inline]
    pub(crate) fn acknowledge(&mut self, rcvdackno: u32, seqno: u32) {
        if self.featureseqno == rcvdackno && self.featureseqno == seqno {
            self.syncd = true;
        }
    }

    /// Step 5 for a changed sub-TLV.
    #[inline]
    pub(crate) fn changed(&mut self, seqno: u32) {
        self.syncd = false;
        self.featureseqno = seqno.wrapping_add(1);
    }

    /// Step 1: two or more controls came. Oper stays.
    pub(crate) fn control_twice(&mut self) {
        if self.setting.advertise {
            self.without_peer(Reason::ControlTwice, true);
        }
    }

    /// The outcome rules for what came of this feature, if advertised.
    pub(crate) fn receive(&mut self, found: Found) {
        if !self.setting.advertise {
            return;
        }
        let body = match found {
            // Rule 1.
            Found::Absent => {
                self.oper = self.max;
                return self.without_peer(Reason::Absent, false);
            }
            // Rule 2.
            Found::Several => return self.without_peer(Reason::Duplicate, true),
            Found::Once(body) => body,
        };
        // Rule 3.
        let &[oper, max, flags, _, ref parameters @ ..] = body else {
            return self.without_peer(Reason::Bad, true);
        };
        if oper > max {
            return self.without_peer(Reason::Bad, true);
        }
        // Rule 4. The lower of the two Max, not of our Oper.
        self.oper = self.max.min(max);
        if oper != self.oper {
            return self.without_peer(Reason::Waiting, false);
        }
        // Rule 5.
        let Some(parameters) = P::read(parameters) else {
            return self.without_peer(Reason::Bad, true);
        };
        let peer = Peer {
            enable: flags & ENABLE != 0,
            willing: flags & WILLING != 0,
            error: flags & ERROR != 0,
            parameters,
        };
        self.peer = Some(peer);
        self.decide(&peer);
    }

    /// Rules 6 to 9.
    fn decide(&mut self, peer: &Peer<P>) {
        let own = &self.setting;
        let agreed = !peer.error;
        (self.reason, self.error, self.mode, self.opercfg) = if !own.enable || !peer.enable {
            (Reason::Disabled, false, false, own.parameters)
        } else if own.willing != peer.willing {
            let unwilling = if own.willing { peer.parameters } else { own.parameters };
            (Reason::Agreed, false, agreed, unwilling)
        } else if own.parameters.compatible(&peer.parameters) {
            (Reason::Agreed, false, agreed, own.parameters)
        } else {
            (Reason::NotCompatible, true, false, own.parameters)
        };
    }

    /// Peer none, mode false, OperCfg = DesiredCfg.
    fn without_peer(&mut self, reason: Reason, error: bool) {
        self.reason = reason;
        self.error = error;
        self.mode = false;
        self.peer = None;
        self.opercfg = self.setting.parameters;
    }

    /// A different setting on a running port, as far as this feature's own
    /// state goes.
    pub(crate) fn change(&mut self, setting: FeatureSetting<P>, seqno: u32) {
        let before = self.present();
        let advertised = self.setting.advertise;
        self.setting = setting;
        match (advertised, setting.advertise) {
            (true, true) => match self.peer {
                Some(peer) => self.decide(&peer),
                None => self.opercfg = setting.parameters,
            },
            (false, false) => {
                self.opercfg = setting.parameters;
                self.mode = setting.enable;
            }
            _ => {
                self.anew(true);
                self.featureseqno = seqno.wrapping_add(1);
            }
        }
        // Step 5. One that is withdrawn, or newly advertised, counts as changed.
        if self.present() != before {
            self.changed(seqno);
        }
    }

    /// Length of the released sub-TLV with its head, 0 if there is none.
    #[inline]
    pub(crate) fn written_length(&self) -> usize {
        self.released.map_or(0, |released| 2 + FEATURE_HEAD + released.parameters.length())
    }

    /// Writes the released sub-TLV, if there is one, and gives the octets behind it.
    #[inline]
    pub(crate) fn write<'a>(&self, out: &'a mut [u8]) -> &'a mut [u8] {
        let (ours, behind) = out.split_at_mut(self.written_length());
        if let Some(released) = &self.released {
            let flag = |on: bool, bit: u8| if on { bit } else { 0 };
            let flags = flag(released.enable, ENABLE)
                | flag(released.willing, WILLING)
                | flag(released.error, ERROR);
            let (start, parameters) = ours.split_at_mut(2 + FEATURE_HEAD);
            let [high, low] = layout::head(P::FEATURE, FEATURE_HEAD + parameters.len());
            start.copy_from_slice(&[high, low, released.oper, self.max, flags, 0]);
            released.parameters.write(parameters);
        }
        behind
    }
}
