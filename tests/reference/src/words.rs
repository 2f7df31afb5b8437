//! Reading a line word by word (docs/FORMATS.md).

use crate::events::OwnedSetting;
use crate::layout::{APPLICATIONS, FLOW_CONTROL, MOST_ENTRIES, OUI, PRIORITY_GROUPS};
use crate::revision::Revision;
use crate::text::{place_name, SELECTORS};
use std::fmt;

/// The most octets of a line.
pub const LONGEST_LINE: usize = 1100;

/// What is due in place of a word.
#[derive(Clone, Copy, Debug, PartialEq, Eq)]
pub enum Due {
    Word(&'static str),
    Bit,
    Number { limit: u32 },
    TwoDigits,
    FourDigits,
    Octets,
    Selector,
    Feature,
    Event,
    Frame,
    Port(u8),
    AnotherPort,
    Revision,
    End,
}

impl fmt::Display for Due {
    fn fmt(&self, f: &mut fmt::Formatter) -> fmt::Result {
        match self {
            Due::Word(word) => write!(f, "{word} is due"),
            Due::Bit => write!(f, "a bit is due"),
            Due::Number { limit } => write!(f, "a number up to {limit} is due"),
            Due::TwoDigits => write!(f, "two hex digits are due"),
            Due::FourDigits => write!(f, "four hex digits are due"),
            Due::Octets => write!(f, "octets are due"),
            Due::Selector => write!(f, "a selector is due"),
            Due::Feature => write!(f, "a feature is due"),
            Due::Event => write!(f, "an event is due"),
            Due::Frame => write!(f, "a frame is due"),
            Due::Port(port) => write!(f, "port {port} is due"),
            Due::AnotherPort => write!(f, "another port is due"),
            Due::Revision => write!(f, "1.0 or 1.01 is due"),
            Due::End => write!(f, "the end of the line is due"),
        }
    }
}

/// Why a line cannot be read.
#[derive(Clone, Copy, Debug, PartialEq, Eq)]
pub enum Unread {
    /// The first word that is not what is due, counted from 1 over the whole line.
    Word(u32, Due),
    TooLong,
    CarriageReturn,
}

impl fmt::Display for Unread {
    fn fmt(&self, f: &mut fmt::Formatter) -> fmt::Result {
        match self {
            Unread::Word(number, due) => write!(f, "word {number}: {due}"),
            Unread::TooLong => write!(f, "longer than {LONGEST_LINE} octets"),
            Unread::CarriageReturn => write!(f, "ends with a carriage return"),
        }
    }
}

/// What of a line is judged before its words.
pub fn whole(line: &[u8]) -> Result<(), Unread> {
    if line.len() > LONGEST_LINE {
        return Err(Unread::TooLong);
    }
    if line.last() == Some(&b'\r') {
        return Err(Unread::CarriageReturn);
    }
    Ok(())
}

/// A line as its port, if it begins with one, and what is behind that.
#[derive(Clone, Copy, Debug)]
pub struct Line<'a> {
    pub port: Option<u8>,
    pub behind: &'a [u8],
}

impl Line<'_> {
    /// A line whose first word is a port if it can be read as one.
    pub fn with_port(line: &[u8]) -> Line<'_> {
        let (digits, behind) = split(behind_spaces(line), |octet| !octet.is_ascii_digit());
        match number(digits, 255) {
            Some(port) if matches!(behind.first(), None | Some(b' ')) => {
                Line { port: Some(port as u8), behind: behind_spaces(behind) }
            }
            _ => Line::without_port(line),
        }
    }

    /// A line of which no word is a port.
    pub fn without_port(line: &[u8]) -> Line<'_> {
        Line { port: None, behind: line }
    }
}

impl<'a> Line<'a> {
    /// The words behind the port, which is one itself.
    pub fn words(&self) -> Words<'a> {
        Words { rest: behind_spaces(self.behind), count: self.port.is_some().into() }
    }
}

/// Parts a line before the first octet of which this holds.
fn split(line: &[u8], ends: impl Fn(u8) -> bool) -> (&[u8], &[u8]) {
    line.split_at(line.iter().position(|&octet| ends(octet)).unwrap_or(line.len()))
}

fn behind_spaces(line: &[u8]) -> &[u8] {
    split(line, |octet| octet != b' ').1
}

/// How a feature is given, with its number.
pub enum By {
    Name(u8),
    Number(u8),
}

/// Advertise, enable and willing.
pub struct Switches {
    pub advertise: bool,
    pub enable: bool,
    pub willing: bool,
}

/// The words of a line, which one or more spaces part.
pub struct Words<'a> {
    /// What is left, from a word's start on.
    rest: &'a [u8],
    /// How many words are behind us.
    count: u32,
}

impl<'a> Words<'a> {
    /// The next word; none if it is missing.
    pub fn next_word(&mut self) -> Option<&'a [u8]> {
        let (word, rest) = split(self.rest, |octet| octet == b' ');
        self.rest = behind_spaces(rest);
        self.count += 1;
        (!word.is_empty()).then_some(word)
    }

    /// Whether no word is left.
    pub fn is_empty(&self) -> bool {
        self.rest.is_empty()
    }

    /// Something else is due in place of the word that was asked for last.
    pub fn unread(&self, due: Due) -> Unread {
        Unread::Word(self.count, due)
    }

    fn read<T>(&mut self, due: Due, read: impl FnOnce(&'a [u8]) -> Option<T>) -> Result<T, Unread> {
        self.next_word().and_then(read).ok_or(self.unread(due))
    }

    pub fn word(&mut self, word: &'static str) -> Result<(), Unread> {
        self.read(Due::Word(word), |next| (next == word.as_bytes()).then_some(()))
    }

    pub fn end(&mut self) -> Result<(), Unread> {
        match self.next_word() {
            None => Ok(()),
            Some(_) => Err(self.unread(Due::End)),
        }
    }

    pub fn bit(&mut self) -> Result<bool, Unread> {
        self.read(Due::Bit, |word| match word {
            b"0" => Some(false),
            b"1" => Some(true),
            _ => None,
        })
    }

    pub fn number(&mut self, limit: u32) -> Result<u32, Unread> {
        self.read(Due::Number { limit }, |word| number(word, limit))
    }

    pub fn small(&mut self, limit: u8) -> Result<u8, Unread> {
        self.number(limit.into()).map(|number| number as u8)
    }

    pub fn feature(&mut self) -> Result<By, Unread> {
        self.read(Due::Feature, |word| {
            let named = (PRIORITY_GROUPS..=APPLICATIONS)
                .find(|&feature| word == place_name(feature).as_bytes());
            named.map(By::Name).or_else(|| Some(By::Number(number(word, 255)? as u8)))
        })
    }

    /// `max N`.
    pub fn max(&mut self) -> Result<u8, Unread> {
        self.word("max")?;
        self.small(255)
    }

    /// Nothing, which is 1.01, or `revision R`, to the end of the line.
    pub fn revision(&mut self) -> Result<Revision, Unread> {
        if self.is_empty() {
            return Ok(Revision::R1_01);
        }
        self.word("revision")?;
        let revision = self.read(Due::Revision, |word| {
            [Revision::R1_0, Revision::R1_01]
                .into_iter()
                .find(|revision| word == revision.name().as_bytes())
        })?;
        self.end()?;
        Ok(revision)
    }

    /// `advertise B enable B willing B`.
    pub fn switches(&mut self) -> Result<Switches, Unread> {
        self.word("advertise")?;
        let advertise = self.bit()?;
        self.word("enable")?;
        let enable = self.bit()?;
        self.word("willing")?;
        Ok(Switches { advertise, enable, willing: self.bit()? })
    }

    /// A word of octets, at most so many.
    pub fn octets(&mut self, most: usize, into: &mut Vec<u8>) -> Result<(), Unread> {
        self.read(Due::Octets, |word| octets(word, most, into))
    }

    fn octet(&mut self) -> Result<u8, Unread> {
        self.read(Due::TwoDigits, |word| match *word {
            [high, low] => pair(high, low),
            _ => None,
        })
    }

    fn two_octets(&mut self) -> Result<[u8; 2], Unread> {
        self.read(Due::FourDigits, |word| match *word {
            [a, b, c, d] => Some([pair(a, b)?, pair(c, d)?]),
            _ => None,
        })
    }

    fn classes(&mut self) -> Result<u8, Unread> {
        self.word("classes")?;
        self.small(255)
    }

    /// A feature's setting to the end of the line.
    pub fn setting(&mut self, feature: u8) -> Result<OwnedSetting, Unread> {
        let Switches { advertise, enable, willing } = self.switches()?;
        let parameters = match feature {
            PRIORITY_GROUPS => self.groups()?,
            FLOW_CONTROL => self.flow()?,
            _ => self.applications()?,
        };
        self.end()?;
        Ok(OwnedSetting { advertise, enable, willing, parameters })
    }

    fn groups(&mut self) -> Result<Vec<u8>, Unread> {
        let mut parameters = Vec::new();
        self.word("priorities")?;
        for _ in 0..4 {
            let high = self.small(15)?;
            parameters.push(high << 4 | self.small(15)?);
        }
        self.word("percentages")?;
        for _ in 0..8 {
            parameters.push(self.small(255)?);
        }
        parameters.push(self.classes()?);
        Ok(parameters)
    }

    fn flow(&mut self) -> Result<Vec<u8>, Unread> {
        self.word("mask")?;
        Ok(vec![self.octet()?, self.classes()?])
    }

    /// One entry more than a setting may have, so that it can be refused.
    fn applications(&mut self) -> Result<Vec<u8>, Unread> {
        let mut parameters = Vec::new();
        while !self.is_empty() && parameters.len() < 6 * (MOST_ENTRIES + 1) {
            let selector = self.read(Due::Selector, |word| {
                SELECTORS.iter().position(|name| word == name.as_bytes())
            })?;
            let [high, low] = self.two_octets()?;
            let map = self.octet()?;
            parameters.extend([high, low, OUI[0] | selector as u8, OUI[1], OUI[2], map]);
        }
        Ok(parameters)
    }
}

/// A number of 1 to 5 decimal digits, at most the limit.
fn number(word: &[u8], limit: u32) -> Option<u32> {
    if word.is_empty() || word.len() > 5 || !word.iter().all(u8::is_ascii_digit) {
        return None;
    }
    let number = word.iter().fold(0, |sum, digit| sum * 10 + u32::from(digit - b'0'));
    (number <= limit).then_some(number)
}

/// The value of each lower-case hex digit; `NO_DIGIT` of every other octet.
const VALUES: [u8; 256] = {
    let mut values = [NO_DIGIT; 256];
    let mut value = 0;
    while value < 16 {
        values[b"0123456789abcdef"[value] as usize] = value as u8;
        value += 1;
    }
    values
};
const NO_DIGIT: u8 = 0xff;

#[inline]
fn pair(high: u8, low: u8) -> Option<u8> {
    let (high, low) = (VALUES[usize::from(high)], VALUES[usize::from(low)]);
    (high | low != NO_DIGIT).then_some(high << 4 | low)
}

/// Pairs of lower-case hex digits, at most so many.
pub fn octets(text: &[u8], most: usize, octets: &mut Vec<u8>) -> Option<()> {
    octets.clear();
    if !text.len().is_multiple_of(2) || text.len() > 2 * most {
        return None;
    }
    for digits in text.chunks_exact(2) {
        octets.push(pair(digits[0], digits[1])?);
    }
    Some(())
}
