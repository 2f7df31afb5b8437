//! TLV layout: reading a frame, the three kinds of parameters, and their octets.

use crate::refusal::{self, Refusal};
use crate::revision::Revision;

/// TLV type of an organisation's own TLV.
pub const TLV_TYPE: u8 = 127;
pub const OUI: [u8; 3] = [0x00, 0x1b, 0x21];
pub const SUBTYPE: u8 = 2;

pub const CONTROL: u8 = 1;
pub const PRIORITY_GROUPS: u8 = 2;
pub const FLOW_CONTROL: u8 = 3;
pub const APPLICATIONS: u8 = 4;

pub const ENABLE: u8 = 0x80;
pub const WILLING: u8 = 0x40;
pub const ERROR: u8 = 0x20;

pub const CONTROL_LENGTH: usize = 10;
/// Octets of a feature sub-TLV that stand before its parameters.
pub const FEATURE_HEAD: usize = 4;
pub const MOST_ENTRIES: usize = 16;
pub const LONGEST_FRAME: usize = 147;

/// Type and length in two octets: 7 bits and 9 bits.
#[inline]
pub fn head(kind: u8, length: usize) -> [u8; 2] {
    ((u16::from(kind) << 9) | (length as u16 & 0x1ff)).to_be_bytes()
}

#[inline]
fn parse_head(octets: [u8; 2]) -> (u8, usize) {
    let head = u16::from_be_bytes(octets);
    ((head >> 9) as u8, usize::from(head & 0x1ff))
}

#[inline]
fn number(octets: &[u8]) -> u32 {
    u32::from_be_bytes([octets[0], octets[1], octets[2], octets[3]])
}

/// One sub-TLV: its type, the place of its head in the frame, and the octets
/// behind its head.
#[derive(Clone, Copy, Debug, PartialEq, Eq)]
pub struct SubTlv<'a> {
    pub kind: u8,
    pub place: usize,
    pub body: &'a [u8],
}

/// Hands out sub-TLVs one at a time over the caller's own octets.
#[derive(Clone, Debug)]
pub struct SubTlvs<'a> {
    rest: &'a [u8],
    /// Of the whole frame, which ends where the rest does.
    length: usize,
}

impl<'a> SubTlvs<'a> {
    /// Checks the head of the whole TLV (refusals 3 and 4, at place 0).
    #[inline]
    pub fn of(octets: &'a [u8]) -> Result<Self, Refusal> {
        if octets.len() < 6 {
            return Err(refusal::NOT_DCBX.into());
        }
        let (kind, length) = parse_head([octets[0], octets[1]]);
        if kind != TLV_TYPE || octets[2..5] != OUI || octets[5] != SUBTYPE {
            return Err(refusal::NOT_DCBX.into());
        }
        if length != octets.len() - 2 {
            return Err(refusal::LENGTH_FIELD.into());
        }
        Ok(SubTlvs { rest: &octets[6..], length: octets.len() })
    }

    /// The next sub-TLV, none at the end, or refusal 5 at the next one's head.
    #[inline]
    pub fn hand_out(&mut self) -> Result<Option<SubTlv<'a>>, Refusal> {
        let place = self.length - self.rest.len();
        let past_the_end = Refusal::at(refusal::PAST_THE_END, place);
        match *self.rest {
            [] => Ok(None),
            [first, second, ref behind @ ..] => {
                let (kind, length) = parse_head([first, second]);
                if length > behind.len() {
                    return Err(past_the_end);
                }
                let (body, rest) = behind.split_at(length);
                self.rest = rest;
                Ok(Some(SubTlv { kind, place, body }))
            }
            [_] => Err(past_the_end),
        }
    }
}

/// The contents of a control sub-TLV.
#[derive(Clone, Copy, Debug, PartialEq, Eq)]
pub struct ReceivedControl {
    pub oper: u8,
    pub max: u8,
    pub seqno: u32,
    pub ackno: u32,
}

#[derive(Clone, Copy, Debug, PartialEq, Eq)]
pub enum Controls {
    One(ReceivedControl),
    Several,
}

/// How often a feature's sub-TLV came, with its octets if once.
#[derive(Clone, Copy, Debug, PartialEq, Eq)]
pub enum Found<'a> {
    Absent,
    Once(&'a [u8]),
    Several,
}

/// A frame that no refusal from 3 to 8 keeps out.
#[derive(Clone, Copy, Debug, PartialEq, Eq)]
pub struct Frame<'a> {
    pub controls: Controls,
    pub groups: Found<'a>,
    pub flow: Found<'a>,
    pub applications: Found<'a>,
}

/// Reads a whole frame as a revision does, or gives the lowest of refusals 3 to 8
/// with its place. A feature that the revision does not know is absent.
pub fn read(octets: &[u8], revision: Revision) -> Result<Frame<'_>, Refusal> {
    let mut sub_tlvs = SubTlvs::of(octets)?;
    // Counted by type; the first counts nothing.
    let mut found = [Found::Absent; 5];
    let mut control_place = 0;
    while let Some(SubTlv { kind, place, body }) = sub_tlvs.hand_out()? {
        if kind == CONTROL {
            control_place = place;
        }
        let counts = match kind {
            CONTROL => true,
            // A SubType other than 0 makes it another feature.
            _ => revision.features().contains(&kind) && (body.len() < FEATURE_HEAD || body[3] == 0),
        };
        if counts {
            let times = &mut found[usize::from(kind)];
            *times = match *times {
                Found::Absent => Found::Once(body),
                _ => Found::Several,
            };
        }
    }
    let [_, control, groups, flow, applications] = found;
    let controls = match control {
        Found::Absent => return Err(Refusal::at(refusal::NO_CONTROL, octets.len())),
        Found::Several => Controls::Several,
        Found::Once(body) => {
            if body.len() != CONTROL_LENGTH {
                return Err(Refusal::at(refusal::CONTROL_LENGTH, control_place));
            }
            let control = ReceivedControl {
                oper: body[0],
                max: body[1],
                seqno: number(&body[2..6]),
                ackno: number(&body[6..10]),
            };
            if control.oper > control.max {
                return Err(Refusal::at(refusal::CONTROL_VERSIONS, control_place));
            }
            Controls::One(control)
        }
    };
    Ok(Frame { controls, groups, flow, applications })
}

/// Number and place of the refusal from 3 to 8; both 0 where none applies. They are
/// the same for both revisions, which differ in features alone.
pub fn judge(octets: &[u8]) -> (u8, usize) {
    match read(octets, Revision::R1_01) {
        Ok(_) => (0, 0),
        Err(Refusal { number, place }) => (number, place.into()),
    }
}

/// A feature's whole parameters, as read from the octets behind the first four
/// of its sub-TLV.
pub trait Parameters: Copy + PartialEq {
    /// Feature number, also the type of the sub-TLV.
    const FEATURE: u8;
    /// What a setting that asks for nothing has.
    const NONE: Self;
    /// None for a wrong length or invalid values.
    fn read(octets: &[u8]) -> Option<Self>;
    /// What a local setting must hold beyond the layout rules.
    fn local(&self) -> bool;
    fn compatible(&self, other: &Self) -> bool;
    /// How many octets `write` fills.
    fn length(&self) -> usize;
    fn write(&self, out: &mut [u8]);
}

/// Priority groups: a group for each priority, a percentage for each group.
#[derive(Clone, Copy, Debug, PartialEq, Eq)]
pub struct Groups {
    pub group: [u8; 8],
    pub percentage: [u8; 8],
    pub classes: u8,
}

impl Parameters for Groups {
    const FEATURE: u8 = PRIORITY_GROUPS;
    const NONE: Self =
        Groups { group: [0; 8], percentage: [100, 0, 0, 0, 0, 0, 0, 0], classes: 0 };

    #[inline]
    fn read(octets: &[u8]) -> Option<Self> {
        let octets: &[u8; 13] = octets.try_into().ok()?;
        let mut group = [0; 8];
        for (pair, octet) in group.chunks_exact_mut(2).zip(octets) {
            pair[0] = octet >> 4;
            pair[1] = octet & 0x0f;
        }
        let mut percentage = [0; 8];
        percentage.copy_from_slice(&octets[4..12]);
        let classes = octets[12];
        let sum: u32 = percentage.iter().map(|&p| u32::from(p)).sum();
        let good = group.iter().all(|&g| g <= 7 || g == 15) && sum == 100 && classes <= 8;
        good.then_some(Groups { group, percentage, classes })
    }

    fn local(&self) -> bool {
        true
    }

    fn compatible(&self, other: &Self) -> bool {
        self.group == other.group && self.percentage == other.percentage
    }

    fn length(&self) -> usize {
        13
    }

    #[inline]
    fn write(&self, out: &mut [u8]) {
        for (octet, pair) in out.iter_mut().zip(self.group.chunks_exact(2)) {
            *octet = pair[0] << 4 | pair[1];
        }
        out[4..12].copy_from_slice(&self.percentage);
        out[12] = self.classes;
    }
}

/// Flow control: a mask with bit p for priority p.
#[derive(Clone, Copy, Debug, PartialEq, Eq)]
pub struct FlowControl {
    pub mask: u8,
    pub classes: u8,
}

impl Parameters for FlowControl {
    const FEATURE: u8 = FLOW_CONTROL;
    const NONE: Self = FlowControl { mask: 0, classes: 0 };

    #[inline]
    fn read(octets: &[u8]) -> Option<Self> {
        match *octets {
            [mask, classes] if classes <= 8 => Some(FlowControl { mask, classes }),
            _ => None,
        }
    }

    fn local(&self) -> bool {
        self.mask.count_ones() <= u32::from(self.classes)
    }

    fn compatible(&self, other: &Self) -> bool {
        self.mask == other.mask
    }

    fn length(&self) -> usize {
        2
    }

    #[inline]
    fn write(&self, out: &mut [u8]) {
        out.copy_from_slice(&[self.mask, self.classes]);
    }
}

/// One application: selector and id name it, the map gives its priorities.
#[derive(Clone, Copy, Debug, Default, PartialEq, Eq)]
pub struct Entry {
    pub id: u16,
    pub selector: u8,
    pub map: u8,
}

impl Entry {
    #[inline]
    fn names_as(&self, other: &Entry) -> bool {
        self.id == other.id && self.selector == other.selector
    }
}

/// Up to 16 applications of our own. What stands past the count means nothing.
#[derive(Clone, Copy, Debug)]
pub struct Applications {
    entry: [Entry; MOST_ENTRIES],
    count: u8,
}

impl Applications {
    #[inline]
    pub fn entries(&self) -> &[Entry] {
        &self.entry[..usize::from(self.count)]
    }
}

impl PartialEq for Applications {
    fn eq(&self, other: &Self) -> bool {
        self.entries() == other.entries()
    }
}

impl Eq for Applications {}

impl Parameters for Applications {
    const FEATURE: u8 = APPLICATIONS;
    const NONE: Self =
        Applications { entry: [Entry { id: 0, selector: 0, map: 0 }; MOST_ENTRIES], count: 0 };

    #[inline]
    fn read(octets: &[u8]) -> Option<Self> {
        if !octets.len().is_multiple_of(6) {
            return None;
        }
        let mut entry = [Entry::default(); MOST_ENTRIES];
        let mut count = 0;
        for octets in octets.chunks_exact(6) {
            // Another's entry is skipped before anything is asked of it (02, E3).
            let &[high, low, upper @ 0..=3, 0x1b, 0x21, map] = octets else {
                continue;
            };
            let next = Entry { id: u16::from_be_bytes([high, low]), selector: upper, map };
            if count == MOST_ENTRIES {
                return None;
            }
            if entry[..count].iter().any(|earlier| earlier.names_as(&next)) {
                return None;
            }
            entry[count] = next;
            count += 1;
        }
        Some(Applications { entry, count: count as u8 })
    }

    fn local(&self) -> bool {
        self.entries().iter().all(|e| e.selector <= 1)
    }

    fn compatible(&self, other: &Self) -> bool {
        for ours in self.entries() {
            for theirs in other.entries() {
                if ours.names_as(theirs) && ours.map != theirs.map {
                    return false;
                }
            }
        }
        true
    }

    fn length(&self) -> usize {
        6 * usize::from(self.count)
    }

    #[inline]
    fn write(&self, out: &mut [u8]) {
        for (octets, entry) in out.chunks_exact_mut(6).zip(self.entries()) {
            let [high, low] = entry.id.to_be_bytes();
            octets.copy_from_slice(&[
                high,
                low,
                OUI[0] | entry.selector,
                OUI[1],
                OUI[2],
                entry.map,
            ]);
        }
    }
}
