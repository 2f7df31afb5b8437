//! Changes at a port, as lines of `desk` name them (docs/FORMATS.md).

use crate::events::OwnedSetting;
use crate::port::Flag;
use crate::recorder::Recorder;
use crate::words::{By, Due, Switches, Unread, Words};

/// The most octets of parameters that a line names.
const PARAMETERS: usize = 507;

#[derive(Clone, Debug, PartialEq, Eq)]
pub enum Change {
    /// The peer is gone.
    Gone,
    Flag(Flag, bool),
    /// A feature's number and its setting.
    Setting(u8, OwnedSetting),
}

impl Change {
    /// The change that all words of a line name.
    pub fn read(mut words: Words) -> Result<Self, Unread> {
        match words.next_word() {
            Some(b"gone") => {
                words.end()?;
                Ok(Change::Gone)
            }
            Some(b"admin") => flag(Flag::Enabled, words),
            Some(b"receive") => flag(Flag::Receive, words),
            Some(b"transmit") => flag(Flag::Transmit, words),
            Some(b"several") => flag(Flag::SeveralNeighbours, words),
            Some(b"set") => setting(words),
            _ => Err(words.unread(Due::Event)),
        }
    }

    /// Does it at a port. The answer says whether to send.
    pub fn make(&self, recorder: &mut Recorder, port: u8) -> Result<bool, u8> {
        match self {
            Change::Gone => recorder.peer_gone(port),
            Change::Flag(flag, on) => recorder.set_flag(port, *flag, *on),
            Change::Setting(feature, setting) => recorder.change(port, *feature, &setting.lend()),
        }
    }
}

fn flag(flag: Flag, mut words: Words) -> Result<Change, Unread> {
    let on = words.bit()?;
    words.end()?;
    Ok(Change::Flag(flag, on))
}

/// In words or by number.
fn setting(mut words: Words) -> Result<Change, Unread> {
    match words.feature()? {
        By::Name(feature) => Ok(Change::Setting(feature, words.setting(feature)?)),
        By::Number(feature) => {
            let Switches { advertise, enable, willing } = words.switches()?;
            let mut parameters = Vec::new();
            if !words.is_empty() {
                words.word("parameters")?;
                words.octets(PARAMETERS, &mut parameters)?;
                words.end()?;
            }
            let setting = OwnedSetting { advertise, enable, willing, parameters };
            Ok(Change::Setting(feature, setting))
        }
    }
}
