//! The text forms of docs/FORMATS.md.

use crate::layout::{APPLICATIONS, FLOW_CONTROL, PRIORITY_GROUPS};
use crate::outcome::Reason;
use crate::{
    refusal, Applications, Feature, FlowControl, Groups, Notice, Parameters, Port, Revision,
};
use std::fmt::Display;
use std::io::{ErrorKind, Read, Write};
use std::ops::Range;

/// The name of feature 2, 3 or 4; of 0, the port.
pub fn place_name(feature: u8) -> &'static str {
    match feature {
        PRIORITY_GROUPS => "groups",
        FLOW_CONTROL => "flow",
        APPLICATIONS => "applications",
        _ => "port",
    }
}

pub fn refusal_name(number: u8) -> &'static str {
    match number {
        refusal::NOT_RUNNING => "not-running",
        refusal::SEVERAL_NEIGHBOURS => "several-neighbours",
        refusal::NOT_DCBX => "not-dcbx",
        refusal::LENGTH_FIELD => "frame-length",
        refusal::PAST_THE_END => "past-the-end",
        refusal::NO_CONTROL => "no-control",
        refusal::CONTROL_LENGTH => "control-length",
        refusal::CONTROL_VERSIONS => "control-version",
        refusal::INVALID_SETTING => "invalid-setting",
        refusal::SHORT_OUTPUT => "no-room",
        refusal::NO_SUCH_FEATURE => "no-feature",
        refusal::NO_NOTICE => "no-notice",
        _ => "no-port",
    }
}

pub fn notice_name(number: u8) -> &'static str {
    match number {
        1 => "control-error",
        2 => "bad",
        3 => "several-neighbours",
        4 => "transmit-off",
        5 => "receive-off",
        6 => "duplicate-control",
        7 => "duplicate",
        8 => "absent",
        9 => "peer-gone",
        _ => "not-compatible",
    }
}

pub fn reason_name(reason: Reason) -> &'static str {
    match reason {
        Reason::NoPeerYet => "no-peer-yet",
        Reason::NotAdvertised => "not-advertised",
        Reason::ControlTwice => "control-twice",
        Reason::Absent => "absent",
        Reason::Duplicate => "duplicate",
        Reason::Bad => "bad",
        Reason::Waiting => "waiting",
        Reason::Disabled => "disabled",
        Reason::Agreed => "agreed",
        Reason::NotCompatible => "not-compatible",
    }
}

/// The names of selectors 0 to 3.
pub const SELECTORS: [&str; 4] = ["ethertype", "port", "selector-2", "selector-3"];

/// Parameters in the words of settings.
pub trait InWords: Parameters {
    /// Each word behind a space; no words for no entries.
    fn put(&self, out: &mut Text);
}

impl InWords for Groups {
    fn put(&self, out: &mut Text) {
        out.list("priorities", &self.group);
        out.list("percentages", &self.percentage);
        out.field("classes", self.classes);
    }
}

impl InWords for FlowControl {
    fn put(&self, out: &mut Text) {
        out.put(" mask ").octets(&[self.mask]).field("classes", self.classes);
    }
}

impl InWords for Applications {
    fn put(&self, out: &mut Text) {
        for entry in self.entries() {
            out.put(" ").put(SELECTORS[usize::from(entry.selector)]);
            out.put(" ").octets(&entry.id.to_be_bytes()).put(" ").octets(&[entry.map]);
        }
    }
}

/// Text that grows.
#[derive(Debug, Default)]
pub struct Text(pub Vec<u8>);

impl Text {
    #[inline]
    pub fn put(&mut self, text: &str) -> &mut Self {
        self.0.extend_from_slice(text.as_bytes());
        self
    }

    pub fn number(&mut self, number: impl Into<u64>) -> &mut Self {
        let mut digits = [0; 20];
        let mut at = digits.len();
        let mut rest = number.into();
        loop {
            at -= 1;
            digits[at] = b'0' + (rest % 10) as u8;
            rest /= 10;
            if rest == 0 {
                self.0.extend_from_slice(&digits[at..]);
                return self;
            }
        }
    }

    /// A space, a word, a space and its number.
    pub fn field(&mut self, name: &str, number: impl Into<u64>) -> &mut Self {
        self.put(" ").put(name).put(" ").number(number)
    }

    /// A line of numbers, parted by one space.
    pub fn numbers(&mut self, numbers: &[u64]) -> &mut Self {
        for (i, &number) in numbers.iter().enumerate() {
            self.put(if i == 0 { "" } else { " " }).number(number);
        }
        self.put("\n")
    }

    /// A space, a word, and each number behind a space.
    pub fn list(&mut self, name: &str, numbers: &[u8]) -> &mut Self {
        self.put(" ").put(name);
        for &number in numbers {
            self.put(" ").number(number);
        }
        self
    }

    /// Something that has a text of its own.
    pub fn display(&mut self, shown: impl Display) -> &mut Self {
        self.put(&shown.to_string())
    }

    /// A configuration in the words of settings, or ` none`.
    pub fn configuration(&mut self, configuration: &impl InWords) -> &mut Self {
        let before = self.0.len();
        configuration.put(self);
        if self.0.len() == before {
            self.put(" none");
        }
        self
    }

    /// ` revision 1.0` of such a port, and nothing of another.
    pub fn revision(&mut self, port: &Port) -> &mut Self {
        match port.revision() {
            Revision::R1_0 => self.put(" revision ").put(Revision::R1_0.name()),
            Revision::R1_01 => self,
        }
    }

    /// The line of settings that a control has, without its line feed.
    pub fn control_line(&mut self, port: &Port) -> &mut Self {
        self.put("control").field("max", port.control().max).revision(port)
    }

    /// The line of settings that a feature has, without its line feed.
    pub fn settings_line<P: InWords>(&mut self, feature: &Feature<P>) -> &mut Self {
        let setting = &feature.setting;
        self.put(place_name(P::FEATURE)).field("max", feature.max);
        self.field("advertise", setting.advertise);
        self.field("enable", setting.enable);
        self.field("willing", setting.willing);
        setting.parameters.put(self);
        self
    }

    /// The lines of settings of a port: four, or three of Rev 1.0.
    pub fn settings_lines(&mut self, port: &Port) -> &mut Self {
        self.control_line(port).put("\n");
        self.settings_line(port.groups()).put("\n");
        self.settings_line(port.flow()).put("\n");
        match port.revision() {
            Revision::R1_0 => self,
            Revision::R1_01 => self.settings_line(port.applications()).put("\n"),
        }
    }

    pub fn octets(&mut self, octets: &[u8]) -> &mut Self {
        const DIGITS: &[u8; 16] = b"0123456789abcdef";
        for octet in octets {
            let pair = [octet >> 4, octet & 15].map(|digit| DIGITS[usize::from(digit)]);
            self.0.extend_from_slice(&pair);
        }
        self
    }

    /// `refused N NAME`.
    pub fn refused(&mut self, number: u8) -> &mut Self {
        self.put("refused ").number(number).put(" ").put(refusal_name(number))
    }

    /// `notice N NAME WHERE`, with its line feed.
    pub fn notice(&mut self, notice: Notice) -> &mut Self {
        self.put("notice ").number(notice.number);
        self.put(" ").put(notice_name(notice.number));
        self.put(" ").put(place_name(notice.feature)).put("\n")
    }
}

/// What stops a program.
#[derive(Clone, Copy, Debug, PartialEq, Eq)]
pub enum Fault {
    /// A read that fails: not the end of the input.
    Read,
    /// A write that fails or takes nothing.
    Write,
}

/// Lines of an input. Before it waits for more, what is to be written is written.
pub struct Lines<R, W> {
    input: R,
    output: W,
    buffer: Vec<u8>,
    /// What of the buffer was read and not yet handed out.
    unread: Range<usize>,
    /// Where the line that was handed out last begins.
    last: usize,
    ended: bool,
    /// How many lines were handed out or passed over.
    pub count: u32,
}

impl<R: Read, W: Write> Lines<R, W> {
    pub fn new(input: R, output: W) -> Self {
        let buffer = vec![0; 1 << 16];
        Lines { input, output, buffer, unread: 0..0, last: 0, ended: false, count: 0 }
    }

    /// The next line that is neither empty nor a comment, without its line feed,
    /// and its number.
    pub fn next(&mut self, out: &mut Text) -> Result<Option<(u32, &[u8])>, Fault> {
        while let Some(line) = self.next_place(out)? {
            self.count += 1;
            if !line.is_empty() && self.buffer[line.start] != b'#' {
                self.last = line.start;
                return Ok(Some((self.count, &self.buffer[line])));
            }
        }
        Ok(None)
    }

    /// From here on the lines of another input, counted from 1.
    pub fn turn_to(&mut self, input: R) {
        self.input = input;
        self.unread = 0..0;
        self.ended = false;
        self.count = 0;
    }

    /// The next octets, whatever lines they are of; none at the end of the input.
    pub fn next_block(&mut self, out: &mut Text) -> Result<&[u8], Fault> {
        if self.unread.is_empty() && !self.ended {
            self.fill(out)?;
        }
        let block = self.unread.clone();
        self.unread.start = block.end;
        Ok(&self.buffer[block])
    }

    /// The line that was handed out last will be the next once more.
    pub fn put_back(&mut self) {
        self.unread.start = self.last;
        self.count -= 1;
    }

    /// Where the next line stands in the buffer.
    fn next_place(&mut self, out: &mut Text) -> Result<Option<Range<usize>>, Fault> {
        let mut looked = 0;
        loop {
            let Range { start, end } = self.unread;
            let feed = self.buffer[start + looked..end].iter().position(|&octet| octet == b'\n');
            if let Some(more) = feed {
                let line = start..start + looked + more;
                self.unread.start = line.end + 1;
                return Ok(Some(line));
            }
            if self.ended {
                self.unread.start = end;
                return Ok((start < end).then_some(start..end));
            }
            looked = end - start;
            self.fill(out)?;
        }
    }

    fn fill(&mut self, out: &mut Text) -> Result<(), Fault> {
        self.write(out)?;
        self.buffer.copy_within(self.unread.clone(), 0);
        self.unread = 0..self.unread.len();
        if self.unread.end == self.buffer.len() {
            self.buffer.resize(2 * self.unread.end, 0);
        }
        let read = self.read()?;
        self.unread.end += read;
        self.ended = read == 0;
        Ok(())
    }

    /// Reads into what is left of the buffer. A signal that comes between is no failure.
    fn read(&mut self) -> Result<usize, Fault> {
        loop {
            match self.input.read(&mut self.buffer[self.unread.end..]) {
                Err(error) if error.kind() == ErrorKind::Interrupted => {}
                read => return read.map_err(|_| Fault::Read),
            }
        }
    }

    /// Writes what is to be written.
    pub fn write(&mut self, out: &mut Text) -> Result<(), Fault> {
        self.output.write_all(&out.0).map_err(|_| Fault::Write)?;
        out.0.clear();
        Ok(())
    }
}
