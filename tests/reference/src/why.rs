//! Why a local setting is invalid: the first rule of document 01 that fails.

use crate::layout::{FLOW_CONTROL, MOST_ENTRIES, OUI, PRIORITY_GROUPS};
use std::fmt;

/// Entries count from 1, priorities from 0.
#[derive(Clone, Copy, Debug, PartialEq, Eq)]
pub enum Why {
    Length { octets: usize, due: usize },
    Group { priority: usize, group: u8 },
    Sum(u32),
    Classes(u8),
    Ones { ones: u32, classes: u8 },
    NoMultiple { octets: usize },
    Entries(usize),
    Foreign { entry: usize },
    Same { first: usize, second: usize },
    Selector { entry: usize, selector: u8 },
}

impl fmt::Display for Why {
    fn fmt(&self, f: &mut fmt::Formatter) -> fmt::Result {
        match self {
            Why::Length { octets, due } => write!(f, "{octets} octets, not {due}"),
            Why::Group { priority, group } => write!(f, "priority {priority} has group {group}"),
            Why::Sum(sum) => write!(f, "the percentages sum to {sum}"),
            Why::Classes(classes) => write!(f, "{classes} classes"),
            Why::Ones { ones, classes } => write!(f, "{ones} ones in the mask, {classes} classes"),
            Why::NoMultiple { octets } => write!(f, "{octets} octets, not a multiple of 6"),
            Why::Entries(entries) => write!(f, "{entries} entries"),
            Why::Foreign { entry } => write!(f, "entry {entry} is foreign"),
            Why::Same { first, second } => {
                write!(f, "entries {first} and {second} have the same selector and id")
            }
            Why::Selector { entry, selector } => write!(f, "entry {entry} has selector {selector}"),
        }
    }
}

/// Why these parameters make no local setting of feature 2, 3 or 4; none if they make one.
pub fn why(feature: u8, parameters: &[u8]) -> Option<Why> {
    let judged = match feature {
        PRIORITY_GROUPS => groups(parameters),
        FLOW_CONTROL => flow(parameters),
        _ => applications(parameters),
    };
    judged.err()
}

fn length(octets: &[u8], due: usize) -> Result<(), Why> {
    fails(octets.len() != due, Why::Length { octets: octets.len(), due })
}

fn classes(classes: u8) -> Result<(), Why> {
    fails(classes > 8, Why::Classes(classes))
}

fn fails(fails: bool, why: Why) -> Result<(), Why> {
    if fails {
        Err(why)
    } else {
        Ok(())
    }
}

fn groups(octets: &[u8]) -> Result<(), Why> {
    length(octets, 13)?;
    let groups = octets[..4].iter().flat_map(|octet| [octet >> 4, octet & 15]);
    for (priority, group) in groups.enumerate() {
        fails((8..15).contains(&group), Why::Group { priority, group })?;
    }
    let sum = octets[4..12].iter().map(|&percentage| u32::from(percentage)).sum();
    fails(sum != 100, Why::Sum(sum))?;
    classes(octets[12])
}

fn flow(octets: &[u8]) -> Result<(), Why> {
    length(octets, 2)?;
    let (ones, number) = (octets[0].count_ones(), octets[1]);
    classes(number)?;
    fails(ones > u32::from(number), Why::Ones { ones, classes: number })
}

fn applications(octets: &[u8]) -> Result<(), Why> {
    fails(!octets.len().is_multiple_of(6), Why::NoMultiple { octets: octets.len() })?;
    let entries = || (1..).zip(octets.chunks_exact(6));
    for (place, entry) in entries() {
        let ours = [entry[2] & !3, entry[3], entry[4]] == OUI;
        fails(!ours, Why::Foreign { entry: place })?;
    }
    // Foreign entries are skipped before the limit is counted, so one of them is told first.
    let count = octets.len() / 6;
    fails(count > MOST_ENTRIES, Why::Entries(count))?;
    for (second, entry) in entries() {
        // Where the OUI is ours, these three octets are the id and the selector.
        let mut earlier = entries().take(second - 1);
        if let Some((first, _)) = earlier.find(|(_, other)| other[..3] == entry[..3]) {
            return Err(Why::Same { first, second });
        }
    }
    for (place, entry) in entries() {
        let selector = entry[2] & 3;
        fails(selector > 1, Why::Selector { entry: place, selector })?;
    }
    Ok(())
}
