//! The settings at the start of an input (docs/FORMATS.md).

use crate::events::{OwnedSetting, OwnedSettings};
use crate::recorder::PORTS;
use crate::refusal;
use crate::text::{self, Fault, Lines, Text};
use crate::why::{why, Why};
use crate::words::{self, Due, Line, Unread};
use std::io::{Read, Write};

/// Settings that cannot be used: the line, and why.
#[derive(Clone, Copy, Debug, PartialEq, Eq)]
pub struct BadSettings {
    pub line: u32,
    pub bad: Bad,
}

#[derive(Clone, Copy, Debug, PartialEq, Eq)]
pub enum Bad {
    Unread(Unread),
    /// Refused with 9.
    Invalid(Why),
    /// Refused with 16.
    NoPort,
}

impl BadSettings {
    pub fn tell(&self, out: &mut Text) {
        out.put("bad settings: line ").number(self.line);
        match self.bad {
            Bad::Unread(word @ Unread::Word(..)) => out.put(", ").display(word),
            Bad::Unread(line) => out.put(": ").display(line),
            Bad::Invalid(why) => {
                out.put(": ").refused(refusal::INVALID_SETTING).put(": ").display(why)
            }
            Bad::NoPort => out.put(": ").refused(refusal::NO_SUCH_PORT),
        };
        out.put("\n");
    }
}

#[derive(Debug)]
pub enum Failure {
    Settings(BadSettings),
    Fault(Fault),
}

impl From<Fault> for Failure {
    fn from(fault: Fault) -> Self {
        Failure::Fault(fault)
    }
}

/// What may stand behind the settings.
#[derive(Clone, Copy, Debug, PartialEq, Eq)]
pub enum Behind {
    Anything,
    Nothing,
}

/// A port with its settings.
pub struct PortSettings {
    pub port: u8,
    /// Whether its `control` line gives the port.
    pub named: bool,
    pub settings: OwnedSettings,
}

/// The lines of one port, which can be read.
struct OnePort {
    read: PortSettings,
    /// The first line that is refused.
    refused: Option<BadSettings>,
}

/// Takes a line with a port in front, or without.
type Split = fn(&[u8]) -> Line;

/// The settings of one end, whose lines name no port.
pub fn one_end<R: Read, W: Write>(
    lines: &mut Lines<R, W>,
    behind: Behind,
    out: &mut Text,
) -> Result<OwnedSettings, Failure> {
    let end = one_port(lines, out, Line::without_port, &[])?;
    if behind == Behind::Nothing {
        nothing(lines, out)?;
    }
    match end.refused {
        Some(bad) => Err(Failure::Settings(bad)),
        None => Ok(end.read.settings),
    }
}

/// The settings of two ends, whose lines name no port.
pub fn two_ends<R: Read, W: Write>(
    lines: &mut Lines<R, W>,
    behind: Behind,
    out: &mut Text,
) -> Result<[OwnedSettings; 2], Failure> {
    let a = one_port(lines, out, Line::without_port, &[])?;
    let b = one_port(lines, out, Line::without_port, &[])?;
    if behind == Behind::Nothing {
        nothing(lines, out)?;
    }
    match a.refused.or(b.refused) {
        Some(bad) => Err(Failure::Settings(bad)),
        None => Ok([a.read.settings, b.read.settings]),
    }
}

/// The settings of ports. The next line is the first event, if there may be any.
pub fn ports<R: Read, W: Write>(
    lines: &mut Lines<R, W>,
    behind: Behind,
    out: &mut Text,
) -> Result<Vec<PortSettings>, Failure> {
    let mut ports = vec![one_port(lines, out, Line::with_port, &[])?];
    while begins_settings(lines, behind, out)? {
        ports.push(one_port(lines, out, Line::with_port, &ports)?);
    }
    match ports.iter().find_map(|one| one.refused) {
        Some(bad) => Err(Failure::Settings(bad)),
        None => Ok(ports.into_iter().map(|one| one.read).collect()),
    }
}

/// Whether the next line, which stays the next, is one of settings: if nothing else may stand behind them,
/// every line is. One of applications is too, so that it is not taken for an event behind a 1.0 port.
fn begins_settings<R: Read, W: Write>(
    lines: &mut Lines<R, W>,
    behind: Behind,
    out: &mut Text,
) -> Result<bool, Fault> {
    let Some((_, line)) = lines.next(out)? else {
        return Ok(false);
    };
    let first = Line::with_port(line).words().next_word();
    let settings = matches!(first, Some(b"control" | b"applications"));
    lines.put_back();
    Ok(settings || behind == Behind::Nothing)
}

/// No line is left. Of one that is, no word can be read.
fn nothing<R: Read, W: Write>(lines: &mut Lines<R, W>, out: &mut Text) -> Result<(), Failure> {
    let Some((line, octets)) = lines.next(out)? else {
        return Ok(());
    };
    let due = Unread::Word(1, Due::Word("control"));
    let unread = words::whole(octets).err().unwrap_or(due);
    Err(Failure::Settings(BadSettings { line, bad: Bad::Unread(unread) }))
}

/// The lines of one port, which none of the earlier ones is: four, or three of Rev 1.0.
fn one_port<R: Read, W: Write>(
    lines: &mut Lines<R, W>,
    out: &mut Text,
    split: Split,
    earlier: &[OnePort],
) -> Result<OnePort, Failure> {
    let (named, control_max, revision) = due(lines, out, "control", |line| {
        let line = split(line);
        let mut words = line.words();
        words.word("control")?;
        if earlier.iter().any(|one| one.read.port == number(line)) {
            return Err(Unread::Word(1, Due::AnotherPort));
        }
        Ok((line.port, words.max()?, words.revision()?))
    })?;
    let port = named.unwrap_or(1);
    let mut refused = None;
    if !(1..=PORTS as u8).contains(&port) {
        refused = Some(BadSettings { line: lines.count, bad: Bad::NoPort });
    }
    let mut features = <[(u8, OwnedSetting); 3]>::default();
    for (place, feature) in features.iter_mut().zip(revision.features()) {
        let name = text::place_name(feature);
        let (max, setting) = due(lines, out, name, |line| {
            let line = split(line);
            if number(line) != port {
                return Err(Unread::Word(1, Due::Port(port)));
            }
            let mut words = line.words();
            words.word(name)?;
            Ok((words.max()?, words.setting(feature)?))
        })?;
        if let Some(why) = why(feature, &setting.parameters) {
            refused.get_or_insert(BadSettings { line: lines.count, bad: Bad::Invalid(why) });
        }
        *place = (max, setting);
    }
    let settings = OwnedSettings { revision, control_max, feature: features };
    Ok(OnePort { read: PortSettings { port, named: named.is_some(), settings }, refused })
}

/// The port of a line; of one that gives none, 1.
fn number(line: Line) -> u8 {
    line.port.unwrap_or(1)
}

/// The next line as read. If there is none, its name is due.
fn due<R: Read, W: Write, T>(
    lines: &mut Lines<R, W>,
    out: &mut Text,
    name: &'static str,
    read: impl FnOnce(&[u8]) -> Result<T, Unread>,
) -> Result<T, Failure> {
    let (line, unread) = match lines.next(out)? {
        None => (lines.count + 1, Unread::Word(1, Due::Word(name))),
        Some((number, line)) => match words::whole(line).and_then(|()| read(line)) {
            Ok(read) => return Ok(read),
            Err(unread) => (number, unread),
        },
    };
    Err(Failure::Settings(BadSettings { line, bad: Bad::Unread(unread) }))
}
