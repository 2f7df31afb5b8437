//! A difference in words: the script as lines for `desk` (docs/FORMATS.md), and
//! what each side has.

use crate::script::{Script, Step, What};
use reference::events::{Event, OwnedSetting};
use reference::text::Text;
use reference::{Flag, Port, Recorder};
use std::fmt::Write;

pub fn hex(octets: &[u8]) -> String {
    octets.iter().map(|octet| format!("{octet:02x}")).collect()
}

/// A setting's octets as `set NUMBER` has them.
fn setting_words(setting: &OwnedSetting) -> String {
    let mut text = Text::default();
    text.put("advertise ").number(setting.advertise);
    text.field("enable", setting.enable).field("willing", setting.willing);
    if !setting.parameters.is_empty() {
        text.put(" parameters ").octets(&setting.parameters);
    }
    string(text)
}

fn string(text: Text) -> String {
    String::from_utf8(text.0).expect("ASCII")
}

/// The settings of a port as lines, the last without its line feed.
fn settings_lines(number: u8, port: &Port) -> String {
    let mut text = Text::default();
    text.settings_lines(port);
    let lines: Vec<_> = string(text).lines().map(|line| format!("{number} {line}")).collect();
    lines.join("\n")
}

/// An event as a line without a port; none of what such a line cannot say.
pub fn event_words(event: &Event) -> Option<String> {
    match event {
        Event::Frame(octets) if octets.len() <= 513 => Some(format!("B {}", hex(octets))),
        Event::PeerGone => Some("gone".into()),
        Event::SetFlag(flag, on) => {
            let name = match flag {
                Flag::Enabled => "admin",
                Flag::Receive => "receive",
                Flag::Transmit => "transmit",
                Flag::SeveralNeighbours => "several",
            };
            Some(format!("{name} {}", u8::from(*on)))
        }
        Event::Change { feature, setting } if setting.parameters.len() <= 507 => {
            Some(format!("set {feature} {}", setting_words(setting)))
        }
        Event::Write(room) => Some(format!("write {room}")),
        Event::Take => Some("take".into()),
        _ => None,
    }
}

/// The line of an event. What a desk's line cannot say stands behind `#`.
fn event_line(port: u8, event: &Event) -> String {
    match event_words(event) {
        Some(words) => format!("{port} {words}"),
        None => format!("# no line, port {port}: {event:?}"),
    }
}

fn step_line(step: &Step) -> String {
    let port = step.port;
    match &step.what {
        What::Event(event) => event_line(port, event),
        What::Numbers([seqno, ackno, rcvdackno, groups, flow, applications]) => format!(
            "# no event, port {port}: SeqNo {seqno}, AckNo {ackno}, RcvdAckNo {rcvdackno}, \
             FeatureSeqNo {groups}, {flow}, {applications}"
        ),
        What::Dropped(count) => format!("# no event, port {port}: dropped {count}"),
        What::Look => "# no event: all four ports are looked at".into(),
    }
}

/// The port that a step makes, if it makes one.
fn made(step: &Step) -> Option<Port> {
    let What::Event(Event::Create(settings)) = &step.what else {
        return None;
    };
    let mut recorder = Recorder::blank();
    recorder.create(step.port, &settings.lend()).ok()?;
    recorder.port(step.port).ok().cloned()
}

/// The steps up to one, as an input of `desk`: the creations before all else are its settings.
pub fn desk_lines(steps: &[Step]) -> String {
    let mut text = String::new();
    let mut settings = Vec::new();
    for (i, step) in steps.iter().enumerate() {
        match made(step) {
            Some(made) if settings.len() == i && !settings.contains(&step.port) => {
                settings.push(step.port);
                text += &settings_lines(step.port, &made);
            }
            _ => text += &step_line(step),
        }
        text.push('\n');
    }
    for port in 1..=4 {
        writeln!(text, "{port} show").unwrap();
    }
    text
}

/// Takes names for the octets of a step's answer and state, one after the other.
struct Named<'a> {
    rest: &'a [u8],
    parts: Vec<(String, &'a [u8])>,
}

impl<'a> Named<'a> {
    fn take(&mut self, name: impl Into<String>, count: usize) -> &'a [u8] {
        let (part, rest) = self.rest.split_at(count.min(self.rest.len()));
        self.rest = rest;
        self.parts.push((name.into(), part));
        part
    }

    fn number(&mut self, name: impl Into<String>) -> usize {
        self.take(name, 1).first().copied().unwrap_or(0).into()
    }

    fn parameters(&mut self, name: &str) {
        let length = self.number(format!("length of {name}"));
        self.take(name, length);
    }

    /// One port, its names behind `of`.
    fn port(&mut self, of: &str) {
        self.take(format!("{of}revision"), 1);
        for (name, size) in [("Oper", 1), ("Max", 1), ("SeqNo", 4), ("AckNo", 4)] {
            self.take(format!("{of}{name}"), size);
        }
        self.take(format!("{of}RcvdAckNo"), 4);
        for name in ["seen", "duplicate", "broken", "admin", "receive", "transmit", "several"] {
            self.take(format!("{of}{name}"), 1);
        }
        for feature in ["groups", "flow", "applications"].map(|name| format!("{of}{name}")) {
            for name in ["advertise", "enable", "willing"] {
                self.take(format!("{feature} {name}"), 1);
            }
            self.parameters(&format!("{feature} desired"));
            for name in ["Max", "Oper", "Error", "mode", "Syncd"] {
                self.take(format!("{feature} {name}"), 1);
            }
            self.take(format!("{feature} FeatureSeqNo"), 4);
            self.take(format!("{feature} reason"), 1);
            if self.number(format!("{feature} peer")) == 1 {
                for name in ["enable", "willing", "error"] {
                    self.take(format!("{feature} peer {name}"), 1);
                }
                self.parameters(&format!("{feature} peer parameters"));
            }
            self.parameters(&format!("{feature} OperCfg"));
            self.parameters(&format!("{feature} released"));
        }
    }

    fn log(&mut self) {
        let held = self.number("held");
        for port in 1..=4 {
            self.take(format!("dropped at port {port}"), 4);
        }
        for i in 0..held {
            self.take(format!("notice {i}"), 3);
        }
    }
}

/// The octets of one step by name: its answer, then the state.
pub fn named<'a>(step: &Step, octets: &'a [u8]) -> Vec<(String, &'a [u8])> {
    let mut named = Named { rest: octets, parts: Vec::new() };
    if let What::Event(Event::Write(room)) = step.what {
        named.take("output", room);
    }
    let answer = [("refusal", 1), ("place", 2), ("send", 1), ("length", 2), ("notice taken", 2)];
    for (name, size) in answer {
        named.take(name, size);
    }
    for of in ["the port", "groups", "flow", "applications"] {
        named.take(format!("notice raised of {of}"), 1);
    }
    match (&step.what, step.port) {
        (What::Look, _) => (1..=4).for_each(|port| named.port(&format!("port {port}: "))),
        (_, 1..=4) => named.port(""),
        _ => {}
    }
    named.log();
    named.parts
}

/// The whole report of a difference at a step.
pub fn report(script: &Script, at: usize, had: &[u8]) -> String {
    let start = script.starts[at];
    let expected = &script.expected[start..];
    let end = script.starts.get(at + 1).map_or(expected.len(), |end| end - start);
    let step = &script.steps[at];
    let reference = named(step, &expected[..end]);
    let engine = named(step, had.get(start..).unwrap_or(&[]));
    let mut text = format!(
        "the engines differ at step {} of this script for desk:\n\n{}\n",
        at + 1,
        desk_lines(&script.steps[..=at])
    );
    for (name, ours) in &reference {
        let theirs = engine.iter().find(|(other, _)| other == name);
        let theirs = theirs.map_or("nothing".into(), |(_, octets)| hex(octets));
        let ours = hex(ours);
        if ours != theirs {
            writeln!(text, "{name}: the reference has {ours}, the engine has {theirs}").unwrap();
        }
    }
    for (name, theirs) in &engine {
        if !reference.iter().any(|(other, _)| other == name) {
            writeln!(text, "{name}: only the engine has it, {}", hex(theirs)).unwrap();
        }
    }
    text
}
