//! Port events and handling a frame.

use crate::layout::{
    self, Applications, Controls, FlowControl, Frame, Groups, Parameters, ReceivedControl, CONTROL,
    CONTROL_LENGTH, FLOW_CONTROL, OUI, PRIORITY_GROUPS, SUBTYPE, TLV_TYPE,
};
use crate::log::{self, Writer};
use crate::outcome::{Advert, Feature, Reason, Shown};
use crate::refusal::{self, Refusal};
use crate::revision::Revision;
use crate::settings::{FeatureSetting, Setting, Settings};

/// The control machine.
#[derive(Clone, Copy, Debug, PartialEq, Eq)]
pub struct ControlState {
    pub oper: u8,
    pub max: u8,
    pub seqno: u32,
    pub ackno: u32,
    pub rcvdackno: u32,
    pub peer_seen: bool,
    pub duplicate_control: bool,
    /// The last frame since the fresh state was refused with 7 or 8 (document 02, E1).
    pub broken_control: bool,
}

impl ControlState {
    fn fresh(max: u8) -> Self {
        ControlState {
            oper: max,
            max,
            seqno: 0,
            ackno: 0,
            rcvdackno: 0,
            peer_seen: false,
            duplicate_control: false,
            broken_control: false,
        }
    }
}

/// The port's four flags.
#[derive(Clone, Copy, Debug, PartialEq, Eq)]
pub struct Flags {
    pub enabled: bool,
    pub receive: bool,
    pub transmit: bool,
    pub several_neighbours: bool,
}

#[derive(Clone, Copy, Debug, PartialEq, Eq)]
pub enum Flag {
    Enabled,
    Receive,
    Transmit,
    SeveralNeighbours,
}

impl Flag {
    pub const ALL: [Flag; 4] =
        [Flag::Enabled, Flag::Receive, Flag::Transmit, Flag::SeveralNeighbours];
}

/// One port. Its notices go into the log that it is lent.
#[derive(Clone, Debug)]
pub struct Port {
    revision: Revision,
    control: ControlState,
    flags: Flags,
    groups: Feature<Groups>,
    flow: Feature<FlowControl>,
    applications: Feature<Applications>,
}

/// What of the written frame may change. Two of these are equal exactly if the
/// octets to be written are.
#[derive(Clone, Copy, PartialEq, Eq)]
struct Written {
    oper: u8,
    seqno: u32,
    ackno: u32,
    groups: Option<Advert<Groups>>,
    flow: Option<Advert<FlowControl>>,
    applications: Option<Advert<Applications>>,
}

impl Port {
    /// A port that was not made yet: stopped, all flags off, nothing set.
    pub(crate) fn blank() -> Self {
        Port {
            revision: Revision::R1_01,
            control: ControlState::fresh(0),
            flags: Flags {
                enabled: false,
                receive: false,
                transmit: false,
                several_neighbours: false,
            },
            groups: Feature::new((0, FeatureSetting::none())),
            flow: Feature::new((0, FeatureSetting::none())),
            applications: Feature::new((0, FeatureSetting::none())),
        }
    }

    /// A running port in its fresh state.
    pub(crate) fn create(settings: &Settings) -> Result<Self, u8> {
        let mut port = Port {
            revision: settings.revision(),
            control: ControlState::fresh(settings.control_max),
            flags: Flags {
                enabled: true,
                receive: true,
                transmit: true,
                several_neighbours: false,
            },
            groups: Feature::new(settings.groups()?),
            flow: Feature::new(settings.flow()?),
            applications: Feature::new(settings.applications()?),
        };
        port.fresh();
        Ok(port)
    }

    /// A frame arrived. The answer says whether to send. A refused frame changes
    /// nothing but the broken control mark, and the log by its notice.
    pub(crate) fn frame(&mut self, octets: &[u8], log: &mut Writer) -> Result<bool, Refusal> {
        let answer = self.handle(octets, log);
        let broken = answer.is_err_and(|refusal| refusal.is_broken_control());
        if broken && !self.control.broken_control {
            log.write(log::CONTROL_ERROR, 0);
        }
        self.control.broken_control = broken;
        answer
    }

    /// Refusals 1 to 8, or steps 1 to 5.
    #[inline]
    fn handle(&mut self, octets: &[u8], log: &mut Writer) -> Result<bool, Refusal> {
        if !self.running() {
            return Err(refusal::NOT_RUNNING.into());
        }
        if self.flags.several_neighbours {
            return Err(refusal::SEVERAL_NEIGHBOURS.into());
        }
        let frame = layout::read(octets, self.revision)?;
        let before = self.written();
        let shown = self.shown();
        let reasons = self.reasons();
        match &frame.controls {
            Controls::Several => self.control_twice(log),
            Controls::One(control) => self.one_control(control, &frame),
        }
        self.step_5(&shown);
        self.feature_notices(reasons, log);
        Ok(before != self.written())
    }

    /// Timer expired, shutdown, or an LLDPDU with no DCBX TLV.
    pub(crate) fn peer_gone(&mut self, log: &mut Writer) -> Result<bool, u8> {
        if !self.running() {
            return Err(refusal::NOT_RUNNING);
        }
        let before = self.written();
        if self.control.peer_seen {
            log.write(log::PEER_GONE, 0);
        }
        self.fresh();
        Ok(before != self.written())
    }

    /// Sets one flag. The answer says whether to send.
    pub(crate) fn set_flag(&mut self, flag: Flag, on: bool, log: &mut Writer) -> bool {
        let before = self.octets_to_be_written();
        let place = match flag {
            Flag::Enabled => &mut self.flags.enabled,
            Flag::Receive => &mut self.flags.receive,
            Flag::Transmit => &mut self.flags.transmit,
            Flag::SeveralNeighbours => &mut self.flags.several_neighbours,
        };
        if *place == on {
            return false;
        }
        *place = on;
        match (flag, on) {
            (Flag::SeveralNeighbours, true) => log.write(log::SEVERAL_NEIGHBOURS, 0),
            (Flag::Transmit, false) => log.write(log::TRANSMIT_OFF, 0),
            (Flag::Receive, false) => log.write(log::RECEIVE_OFF, 0),
            _ => {}
        }
        let several_on = flag == Flag::SeveralNeighbours && on;
        if several_on || before.is_some() != self.running() {
            self.fresh();
        }
        before != self.octets_to_be_written()
    }

    /// Changes one feature's setting. The answer says whether to send.
    pub(crate) fn change(
        &mut self,
        feature: u8,
        setting: &Setting,
        log: &mut Writer,
    ) -> Result<bool, u8> {
        if !self.revision.features().contains(&feature) {
            return Err(refusal::NO_SUCH_FEATURE);
        }
        let before = self.octets_to_be_written();
        let running = before.is_some();
        let reasons = self.reasons();
        let seqno = self.control.seqno;
        let different = match feature {
            PRIORITY_GROUPS => change_one(&mut self.groups, setting, running, seqno)?,
            FLOW_CONTROL => change_one(&mut self.flow, setting, running, seqno)?,
            _ => change_one(&mut self.applications, setting, running, seqno)?,
        };
        if different && running {
            self.send_rule();
            self.feature_notices(reasons, log);
        }
        Ok(before != self.octets_to_be_written())
    }

    /// Writes the frame and gives its length. Changes only the frame's octets.
    pub(crate) fn write(&self, out: &mut [u8]) -> Result<usize, u8> {
        if !self.running() {
            return Err(refusal::NOT_RUNNING);
        }
        let length = 6
            + 2
            + CONTROL_LENGTH
            + self.groups.written_length()
            + self.flow.written_length()
            + self.applications.written_length();
        let Some(out) = out.get_mut(..length) else {
            return Err(refusal::SHORT_OUTPUT);
        };
        let (start, behind) = out.split_at_mut(6 + 2 + CONTROL_LENGTH);
        start[..2].copy_from_slice(&layout::head(TLV_TYPE, length - 2));
        start[2..5].copy_from_slice(&OUI);
        start[5] = SUBTYPE;
        start[6..8].copy_from_slice(&layout::head(CONTROL, CONTROL_LENGTH));
        start[8] = self.control.oper;
        start[9] = self.control.max;
        start[10..14].copy_from_slice(&self.control.seqno.to_be_bytes());
        start[14..18].copy_from_slice(&self.control.ackno.to_be_bytes());
        let behind = self.groups.write(behind);
        let behind = self.flow.write(behind);
        self.applications.write(behind);
        Ok(length)
    }

    pub fn running(&self) -> bool {
        self.flags.enabled && self.flags.receive && self.flags.transmit
    }

    pub fn revision(&self) -> Revision {
        self.revision
    }

    pub fn control(&self) -> &ControlState {
        &self.control
    }

    pub fn flags(&self) -> &Flags {
        &self.flags
    }

    pub fn groups(&self) -> &Feature<Groups> {
        &self.groups
    }

    pub fn flow(&self) -> &Feature<FlowControl> {
        &self.flow
    }

    pub fn applications(&self) -> &Feature<Applications> {
        &self.applications
    }

    pub(crate) fn set_numbers(
        &mut self,
        seqno: u32,
        ackno: u32,
        rcvdackno: u32,
        featureseqno: [u32; 3],
    ) {
        self.control.seqno = seqno;
        self.control.ackno = ackno;
        self.control.rcvdackno = rcvdackno;
        [self.groups.featureseqno, self.flow.featureseqno, self.applications.featureseqno] =
            featureseqno;
    }

    /// The fresh state of the present settings, released, with the send rule if
    /// running. Flags and highest versions stay.
    fn fresh(&mut self) {
        let running = self.running();
        self.control = ControlState::fresh(self.control.max);
        self.groups.fresh(running);
        self.flow.fresh(running);
        self.applications.fresh(running);
        if running {
            self.send_rule();
        }
    }

    /// Whether a feature is not Syncd.
    #[inline]
    pub(crate) fn pending(&self) -> bool {
        self.groups.pending() || self.flow.pending() || self.applications.pending()
    }

    /// With a new SeqNo, all that waits is released (document 02, E5).
    fn send_rule(&mut self) {
        if self.pending() && self.control.rcvdackno == self.control.seqno {
            self.control.seqno = self.control.seqno.wrapping_add(1);
            self.groups.release();
            self.flow.release();
            self.applications.release();
        }
    }

    /// Step 1. Numbers and versions stay.
    fn control_twice(&mut self, log: &mut Writer) {
        self.control.peer_seen = true;
        if !self.control.duplicate_control {
            self.control.duplicate_control = true;
            log.write(log::DUPLICATE_CONTROL, 0);
        }
        self.groups.control_twice();
        self.flow.control_twice();
        self.applications.control_twice();
    }

    /// Steps 2 to 4.
    fn one_control(&mut self, received: &ReceivedControl, frame: &Frame) {
        let control = &mut self.control;
        control.peer_seen = true;
        control.duplicate_control = false;
        control.oper = control.max.min(received.max);
        if received.oper != control.oper {
            return;
        }
        control.rcvdackno = received.ackno;
        self.groups.acknowledge(control.rcvdackno, control.seqno);
        self.flow.acknowledge(control.rcvdackno, control.seqno);
        self.applications.acknowledge(control.rcvdackno, control.seqno);
        control.ackno = received.seqno;
        self.groups.receive(frame.groups);
        self.flow.receive(frame.flow);
        self.applications.receive(frame.applications);
    }

    /// Step 5 after a frame, of the present sub-TLVs: the settings stayed, so only
    /// Oper and Error count.
    fn step_5(&mut self, before: &[Shown; 3]) {
        let seqno = self.control.seqno;
        if self.groups.shown() != before[0] {
            self.groups.changed(seqno);
        }
        if self.flow.shown() != before[1] {
            self.flow.changed(seqno);
        }
        if self.applications.shown() != before[2] {
            self.applications.changed(seqno);
        }
        self.send_rule();
    }

    /// A notice for each feature whose reason became one that has a notice.
    fn feature_notices(&self, before: [Reason; 3], log: &mut Writer) {
        for (i, (before, after)) in before.into_iter().zip(self.reasons()).enumerate() {
            if before != after {
                if let Some(number) = after.notice() {
                    log.write(number, PRIORITY_GROUPS + i as u8);
                }
            }
        }
    }

    /// Of features 2, 3, 4.
    #[inline]
    pub fn reasons(&self) -> [Reason; 3] {
        [self.groups.reason, self.flow.reason, self.applications.reason]
    }

    #[inline]
    fn shown(&self) -> [Shown; 3] {
        [self.groups.shown(), self.flow.shown(), self.applications.shown()]
    }

    #[inline]
    fn written(&self) -> Written {
        Written {
            oper: self.control.oper,
            seqno: self.control.seqno,
            ackno: self.control.ackno,
            groups: self.groups.released,
            flow: self.flow.released,
            applications: self.applications.released,
        }
    }

    /// None for a stopped port.
    fn octets_to_be_written(&self) -> Option<Written> {
        self.running().then(|| self.written())
    }
}

/// Whether the setting is different from the present one.
fn change_one<P: Parameters>(
    feature: &mut Feature<P>,
    setting: &Setting,
    running: bool,
    seqno: u32,
) -> Result<bool, u8> {
    let setting = FeatureSetting::read(setting)?;
    if setting == feature.setting {
        return Ok(false);
    }
    if running {
        feature.change(setting, seqno);
    } else {
        feature.setting = setting;
        feature.fresh(false);
    }
    Ok(true)
}
