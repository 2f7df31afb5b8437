//! Judges what one end sent by what its port would write (document 02, E12).

use crate::capture::{self, Sender};
use crate::change::Change;
use crate::events::OwnedSettings;
use crate::layout::{
    SubTlv, SubTlvs, APPLICATIONS, CONTROL, FLOW_CONTROL, LONGEST_FRAME, PRIORITY_GROUPS,
};
use crate::port::Port;
use crate::recorder::Recorder;
use crate::show;
use crate::text::Text;
use crate::words::{self, Line};

/// The judged end's number; any of the four would do.
const PORT: u8 = 1;

/// The lines so far, by kind. Each count stays at the highest number.
#[derive(Clone, Debug, Default, PartialEq, Eq)]
pub struct Counts {
    pub lines: u64,
    pub sent: u64,
    pub given: u64,
    pub changes: u64,
    pub passed_over: u64,
}

fn up(count: &mut u64) {
    *count = count.saturating_add(1);
}

/// The port of one end, and what came of the lines so far.
pub struct Conform {
    recorder: Recorder,
    /// The frame at hand; the one that was rejected, once there is one.
    octets: Vec<u8>,
    /// What the port writes, and how many octets it is: none while it is stopped.
    written: [u8; LONGEST_FRAME],
    length: Option<usize>,
    /// The last line behind which the port wrote otherwise than before.
    due_since: Option<u64>,
    /// The last line whose frame or change the port did not refuse.
    taken: Option<u64>,
    rejected: bool,
    pub counts: Counts,
}

impl Conform {
    /// The settings are valid.
    pub fn new(settings: &OwnedSettings) -> Self {
        let mut recorder = Recorder::blank();
        recorder.create(PORT, &settings.lend()).expect("valid settings");
        let mut conform = Conform {
            recorder,
            octets: Vec::new(),
            written: [0; LONGEST_FRAME],
            length: None,
            due_since: None,
            taken: None,
            rejected: false,
            counts: Counts::default(),
        };
        conform.write();
        conform
    }

    pub fn rejected(&self) -> bool {
        self.rejected
    }

    pub fn port(&self) -> &Port {
        self.recorder.port(PORT).expect("a port's number")
    }

    /// What the port writes.
    fn due(&self) -> Option<&[u8]> {
        self.length.map(|length| &self.written[..length])
    }

    /// The next line of the capture, without its line feed. Behind a rejected frame none counts.
    pub fn line(&mut self, line: &[u8]) {
        if self.rejected {
            return;
        }
        up(&mut self.counts.lines);
        match capture::frame(line, &mut self.octets) {
            Some(Sender::A) => self.sent(),
            Some(Sender::B) => {
                up(&mut self.counts.given);
                let handled = self.recorder.frame(PORT, &self.octets);
                self.note(handled.ok());
            }
            None => self.other(line),
        }
    }

    /// The end sent the frame at hand.
    fn sent(&mut self) {
        up(&mut self.counts.sent);
        self.rejected = self.due() != Some(&self.octets);
    }

    /// A change, or a line that is passed over.
    fn other(&mut self, line: &[u8]) {
        let words = Line::without_port(line).words();
        match words::whole(line).and_then(|()| Change::read(words)) {
            Ok(change) => {
                up(&mut self.counts.changes);
                let made = change.make(&mut self.recorder, PORT);
                self.note(made.ok());
            }
            Err(_) => up(&mut self.counts.passed_over),
        }
    }

    /// Notes whether an event asks for a send, which it does exactly if the port writes otherwise than
    /// before; none of one that was refused.
    fn note(&mut self, asks: Option<bool>) {
        if asks.is_some() {
            self.taken = Some(self.counts.lines);
        }
        if asks == Some(true) {
            self.due_since = Some(self.counts.lines);
            self.write();
        }
    }

    fn write(&mut self) {
        self.length = self.recorder.write(PORT, &mut self.written).ok();
    }

    pub fn verdict(&self, out: &mut Text) {
        if self.rejected {
            self.tell_rejected(out);
        } else {
            self.tell_accepted(out);
        }
    }

    fn tell_accepted(&self, out: &mut Text) {
        let counts = &self.counts;
        out.put("accepted ").number(counts.sent).put("\n");
        out.number(counts.lines).put(" lines: ").number(counts.sent).put(" sent, ");
        out.number(counts.given).put(" given, ").number(counts.changes).put(" changes, ");
        out.number(counts.passed_over).put(" passed over\n");
    }

    /// The place first, then what people want to know of it.
    fn tell_rejected(&self, out: &mut Text) {
        let sent = &self.octets;
        let place = self.due().map_or(0, |due| first_difference(sent, due));
        out.put("rejected line ").number(self.counts.lines);
        out.field("place", place as u64).put("\n");
        out.put("sent ");
        marked(sent, place, out);
        match self.due() {
            Some(due) => {
                out.put("due  ");
                marked(due, place, out);
                out.put(&octet_name(due, place)).put(": sent ");
                octet(sent, place, out);
                out.put(", due ");
                octet(due, place, out);
                out.put("\n");
            }
            None => {
                out.put("due  nothing\nthe port is stopped: nothing is due\n");
            }
        }
        out.put("due since ");
        line_or_creation(self.due_since, out);
        out.put("\nstate as ");
        line_or_creation(self.taken, out);
        show::port(self.port(), out.put(" left it\n"));
    }
}

/// The first place where two frames differ that are not equal: the shorter's end, if not before.
fn first_difference(a: &[u8], b: &[u8]) -> usize {
    let differs = a.iter().zip(b).position(|(a, b)| a != b);
    differs.unwrap_or(a.len().min(b.len()))
}

/// The octets, the one at the place in brackets; empty ones at the end.
fn marked(octets: &[u8], place: usize, out: &mut Text) {
    let (before, rest) = octets.split_at(place);
    let (at, behind) = rest.split_at(rest.len().min(1));
    out.octets(before).put("[").octets(at).put("]").octets(behind).put("\n");
}

fn octet(octets: &[u8], place: usize, out: &mut Text) {
    match octets.get(place) {
        Some(&octet) => out.octets(&[octet]),
        None => out.put("nothing"),
    };
}

fn line_or_creation(line: Option<u64>, out: &mut Text) {
    match line {
        Some(line) => out.put("line ").number(line),
        None => out.put("its creation"),
    };
}

/// The sub-TLV and the field of an octet, in a frame that a port wrote.
fn octet_name(frame: &[u8], place: usize) -> String {
    match place {
        0 | 1 => return "frame, type and length".into(),
        2..=4 => return "frame, OUI".into(),
        5 => return "frame, subtype".into(),
        _ => {}
    }
    let mut sub_tlvs = SubTlvs::of(frame).expect("a frame of ours");
    while let Some(sub_tlv) = sub_tlvs.hand_out().expect("a sub-TLV of ours") {
        let SubTlv { kind, place: head, body } = sub_tlv;
        if place < head + 2 + body.len() {
            return format!("{}, {}", sub_tlv_name(kind), field_name(kind, place - head));
        }
    }
    "behind the end".into()
}

fn sub_tlv_name(kind: u8) -> &'static str {
    match kind {
        CONTROL => "control",
        PRIORITY_GROUPS => "priority groups",
        FLOW_CONTROL => "flow control",
        _ => "applications",
    }
}

/// The field of an octet, counted from the sub-TLV's head.
fn field_name(kind: u8, octet: usize) -> String {
    let name = match (kind, octet) {
        (_, 0 | 1) => "type and length",
        (_, 2) => "Oper version",
        (_, 3) => "Max version",
        (CONTROL, 4..=7) => "SeqNo",
        (CONTROL, _) => "AckNo",
        (_, 4) => "flags",
        (_, 5) => "subtype",
        (PRIORITY_GROUPS, 6..=9) => {
            let first = 2 * (octet - 6);
            return format!("groups of priorities {first} and {}", first + 1);
        }
        (PRIORITY_GROUPS, 10..=17) => return format!("percentage of group {}", octet - 10),
        (FLOW_CONTROL, 6) => "mask",
        (APPLICATIONS, _) => {
            let field = match (octet - 6) % 6 {
                0 | 1 => "protocol id",
                2 => "selector and OUI",
                3 | 4 => "OUI",
                _ => "priority map",
            };
            return format!("entry {} {field}", (octet - 6) / 6 + 1);
        }
        _ => "number of classes",
    };
    name.into()
}
