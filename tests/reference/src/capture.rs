//! A capture: one frame a line (docs/FORMATS.md).

use crate::words::{self, LONGEST_LINE};

/// The most octets of a frame that a line names. Such a line is not among the longest.
const MOST_OCTETS: usize = 513;

/// The end that sent a frame.
#[derive(Clone, Copy, Debug, PartialEq, Eq)]
pub enum Sender {
    A,
    B,
}

/// The sender of a line that is a frame, and its octets; none of a line of any other form.
#[inline]
pub fn frame(line: &[u8], octets: &mut Vec<u8>) -> Option<Sender> {
    let (sender, digits) = match line {
        [b'A', b' ', digits @ ..] => (Sender::A, digits),
        [b'B', b' ', digits @ ..] => (Sender::B, digits),
        _ => return None,
    };
    words::octets(digits, MOST_OCTETS, octets)?;
    Some(sender)
}

/// Cuts an input into its lines, wherever the blocks that it comes in begin and end.
#[derive(Debug, Default)]
pub struct Cutter {
    /// What came of a line that did not end yet. One that is too long is kept just so far that it still is.
    begun: Vec<u8>,
}

impl Cutter {
    /// Hands out each line that ends in this block, without its line feed.
    pub fn feed(&mut self, block: &[u8], mut line: impl FnMut(&[u8])) {
        let mut rest = block;
        while let Some(end) = rest.iter().position(|&octet| octet == b'\n') {
            if self.begun.is_empty() {
                line(&rest[..end]);
            } else {
                self.keep(&rest[..end]);
                line(&self.begun);
                self.begun.clear();
            }
            rest = &rest[end + 1..];
        }
        self.keep(rest);
    }

    /// The input has ended: hands out the last line if it lacks its line feed.
    pub fn end(self, line: impl FnOnce(&[u8])) {
        if !self.begun.is_empty() {
            line(&self.begun);
        }
    }

    fn keep(&mut self, piece: &[u8]) {
        let room = LONGEST_LINE + 1 - self.begun.len();
        self.begun.extend_from_slice(&piece[..piece.len().min(room)]);
    }
}
