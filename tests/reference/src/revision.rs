//! The two revisions in the field (document 02, E11).

use crate::layout::{APPLICATIONS, FLOW_CONTROL, PRIORITY_GROUPS};
use std::ops::RangeInclusive;

/// What a port speaks, fixed at its creation.
#[derive(Clone, Copy, Debug, PartialEq, Eq)]
pub enum Revision {
    /// Source document 000, which has no applications.
    R1_0,
    /// Source document 001.
    R1_01,
}

impl Revision {
    /// The feature numbers that it knows.
    #[inline]
    pub fn features(self) -> RangeInclusive<u8> {
        match self {
            Revision::R1_0 => PRIORITY_GROUPS..=FLOW_CONTROL,
            Revision::R1_01 => PRIORITY_GROUPS..=APPLICATIONS,
        }
    }

    /// As settings name it.
    pub fn name(self) -> &'static str {
        match self {
            Revision::R1_0 => "1.0",
            Revision::R1_01 => "1.01",
        }
    }
}
