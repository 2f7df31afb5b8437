//! Local settings and when they are valid.

use crate::layout::{Applications, FlowControl, Groups, Parameters};
use crate::refusal;
use crate::revision::Revision;

/// One feature's setting as the caller gives it. The parameters are the octets
/// behind the first four of the feature's sub-TLV.
#[derive(Clone, Copy, Debug, PartialEq, Eq)]
pub struct Setting<'a> {
    pub advertise: bool,
    pub enable: bool,
    pub willing: bool,
    pub parameters: &'a [u8],
}

/// All settings of a port: the highest versions, and a setting for each feature.
/// One without applications is of Rev 1.0.
#[derive(Clone, Copy, Debug, PartialEq, Eq)]
pub struct Settings<'a> {
    pub control_max: u8,
    pub groups: (u8, Setting<'a>),
    pub flow: (u8, Setting<'a>),
    pub applications: Option<(u8, Setting<'a>)>,
}

/// One feature's setting as the port holds it. The parameters are DesiredCfg.
#[derive(Clone, Copy, Debug, PartialEq, Eq)]
pub struct FeatureSetting<P> {
    pub advertise: bool,
    pub enable: bool,
    pub willing: bool,
    pub parameters: P,
}

impl<P: Parameters> FeatureSetting<P> {
    /// What a port that was not made has, and one of Rev 1.0 for applications.
    pub(crate) fn none() -> Self {
        FeatureSetting { advertise: false, enable: false, willing: false, parameters: P::NONE }
    }

    /// Reads and judges a local setting: refusal 9 if invalid. An entry that
    /// is not ours may not stand in a setting: nothing of one is left out.
    pub fn read(setting: &Setting) -> Result<Self, u8> {
        let whole = |parameters: &P| parameters.length() == setting.parameters.len();
        match P::read(setting.parameters) {
            Some(parameters) if whole(&parameters) && parameters.local() => Ok(FeatureSetting {
                advertise: setting.advertise,
                enable: setting.enable,
                willing: setting.willing,
                parameters,
            }),
            _ => Err(refusal::INVALID_SETTING),
        }
    }
}

/// A feature's highest version and its setting, read.
type Read<P> = (u8, FeatureSetting<P>);

fn read<P: Parameters>((max, setting): &(u8, Setting)) -> Result<Read<P>, u8> {
    Ok((*max, FeatureSetting::read(setting)?))
}

impl Settings<'_> {
    pub fn revision(&self) -> Revision {
        match self.applications {
            None => Revision::R1_0,
            Some(_) => Revision::R1_01,
        }
    }

    pub(crate) fn groups(&self) -> Result<Read<Groups>, u8> {
        read(&self.groups)
    }

    pub(crate) fn flow(&self) -> Result<Read<FlowControl>, u8> {
        read(&self.flow)
    }

    /// What Rev 1.0 holds of them asks for nothing.
    pub(crate) fn applications(&self) -> Result<Read<Applications>, u8> {
        self.applications.as_ref().map_or(Ok((0, FeatureSetting::none())), read)
    }
}
