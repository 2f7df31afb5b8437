//! Refusal numbers, and where a frame went wrong.

/// The port isn't running: a frame, peer gone, or a request to write.
pub const NOT_RUNNING: u8 = 1;
/// A frame while several neighbours are flagged.
pub const SEVERAL_NEIGHBOURS: u8 = 2;
/// Fewer than 6 octets, type not 127, or OUI or subtype differs.
pub const NOT_DCBX: u8 = 3;
/// The length field is not the octets after the head.
pub const LENGTH_FIELD: u8 = 4;
/// A sub-TLV, or its head, runs past the end.
pub const PAST_THE_END: u8 = 5;
/// No control sub-TLV.
pub const NO_CONTROL: u8 = 6;
/// Exactly one control, length not 10.
pub const CONTROL_LENGTH: u8 = 7;
/// Its Oper is above its Max.
pub const CONTROL_VERSIONS: u8 = 8;
/// Local setting invalid.
pub const INVALID_SETTING: u8 = 9;
/// Lent output shorter than the frame.
pub const SHORT_OUTPUT: u8 = 10;
/// Feature number not 2, 3 or 4; under Rev 1.0, not 2 or 3.
pub const NO_SUCH_FEATURE: u8 = 11;
/// Taking a notice when the port holds none.
pub const NO_NOTICE: u8 = 12;
/// The port number is not 1 to 4. Before all others.
pub const NO_SUCH_PORT: u8 = 16;

/// Why a frame is refused: the number, and for 3 to 8 the place, from 0 at the
/// TLV's first octet (document 02, E2). Beside any other number the place is 0.
#[derive(Clone, Copy, Debug, PartialEq, Eq)]
pub struct Refusal {
    pub number: u8,
    pub place: u16,
}

impl Refusal {
    /// A frame that is refused elsewhere than at 0 has at most 513 octets.
    #[inline]
    pub(crate) fn at(number: u8, place: usize) -> Self {
        Refusal { number, place: place as u16 }
    }

    /// Whether the frame's one control is broken.
    #[inline]
    pub fn is_broken_control(&self) -> bool {
        matches!(self.number, CONTROL_LENGTH | CONTROL_VERSIONS)
    }

    /// Whether the place says something of the frame.
    pub fn has_place(&self) -> bool {
        (NOT_DCBX..=CONTROL_VERSIONS).contains(&self.number)
    }
}

/// A refusal at place 0.
impl From<u8> for Refusal {
    #[inline]
    fn from(number: u8) -> Self {
        Refusal { number, place: 0 }
    }
}
