//! A recorder at a desk: settings of its ports, then events, each answered (docs/FORMATS.md).

use reference::capture::{self, Sender};
use reference::change::Change;
use reference::program::{self, Source};
use reference::setup::{self, Failure, PortSettings};
use reference::show;
use reference::text::{Lines, Text};
use reference::why::{why, Why};
use reference::words::{self, Due, Line, Unread};
use reference::{refusal, Recorder, Refusal};

/// The most octets of an output that a line names.
const ROOM: usize = 1000;

const USAGE: &str = "\
usage: desk [FILE]

Runs a recorder of one to four ports: first their settings, then events, one a
line, each answered. With FILE the settings are read from it and the events from
standard input; without it both are read from standard input.

In the answer to show, syncd 1 of an advertised feature means that the other end
has handled a frame with its present sub-TLV since that last changed, provided
that both ends were fresh together, run with one neighbour, were not restarted
or told since that the peer is gone, and take no frames but each other's, all
written since then and none after its sender has written a later one.

Example:
control max 0
groups max 0 advertise 1 enable 1 willing 0 priorities 0 0 0 1 0 0 0 0 percentages 50 50 0 0 0 0 0 0 classes 2
flow max 0 advertise 1 enable 1 willing 0 mask 08 classes 8
applications max 0 advertise 1 enable 1 willing 0 ethertype 8906 08
write 147
show

docs/FORMATS.md describes all lines and answers.
";

struct Desk {
    recorder: Recorder,
    /// The port at hand.
    port: u8,
    /// A frame's or parameters' octets.
    octets: Vec<u8>,
    /// The answer to a line that names its port.
    answer: Text,
}

impl Desk {
    /// Makes the ports, each answered as an event is.
    fn create(ports: &[PortSettings], out: &mut Text) -> Self {
        let mut recorder = Recorder::blank();
        for PortSettings { port, named, settings } in ports {
            let wish =
                recorder.create(*port, &settings.lend()).expect("a port with valid settings");
            if *named {
                out.number(*port).put(" ");
            }
            done(wish, out).put("\n");
        }
        Desk { recorder, port: 1, octets: Vec::new(), answer: Text::default() }
    }

    /// Answers a line. If it names its port, each line of the answer does too.
    fn line(&mut self, line: &[u8], number: u32, out: &mut Text) {
        let whole = words::whole(line);
        let line = Line::with_port(line);
        let Some(port) = line.port else {
            self.port = 1;
            return self.answer(whole, line, number, out);
        };
        self.port = port;
        let mut answer = std::mem::take(&mut self.answer);
        self.answer(whole, line, number, &mut answer);
        for line in answer.0.split_inclusive(|&octet| octet == b'\n') {
            out.number(port).put(" ").0.extend_from_slice(line);
        }
        answer.0.clear();
        self.answer = answer;
    }

    /// Answers what stands behind the port.
    fn answer(&mut self, whole: Result<(), Unread>, line: Line, number: u32, out: &mut Text) {
        if let Err(unread) = whole.and_then(|()| self.read(line, out)) {
            out.put("error ").number(number).put(": ").display(unread).put("\n");
        }
    }

    /// Does what a line says.
    fn read(&mut self, line: Line, out: &mut Text) -> Result<(), Unread> {
        if capture::frame(line.behind, &mut self.octets) == Some(Sender::B) {
            self.event(out, |recorder, port, octets| recorder.frame(port, octets));
            return Ok(());
        }
        let mut words = line.words();
        match words.next_word() {
            Some(b"B") => {
                words.next_word();
                return Err(words.unread(Due::Frame));
            }
            Some(b"write") => {
                let room = words.number(ROOM as u32)?;
                words.end()?;
                self.write(room as usize, out);
            }
            Some(b"take") => {
                words.end()?;
                self.take(out);
            }
            Some(b"show") => {
                words.end()?;
                self.show(out);
            }
            _ => {
                let change = Change::read(line.words())?;
                self.event(out, |recorder, port, _| {
                    change.make(recorder, port).map_err(|number| refused(number, &change))
                });
            }
        }
        Ok(())
    }

    /// Does an event at the port at hand, and answers it with the notices that it wrote and their number.
    fn event<R: Into<Refused>>(
        &mut self,
        out: &mut Text,
        event: impl FnOnce(&mut Recorder, u8, &[u8]) -> Result<bool, R>,
    ) {
        let before = self.recorder.log().written();
        match event(&mut self.recorder, self.port, &self.octets) {
            Ok(wish) => done(wish, out),
            Err(refused) => refused.into().tell(out),
        };
        let log = self.recorder.log();
        if log.written() != before {
            out.field("notices", log.since(before).count() as u32);
        }
        out.put("\n");
        for notice in log.since(before) {
            out.notice(notice);
        }
    }

    fn take(&mut self, out: &mut Text) {
        match self.recorder.take(self.port) {
            Ok(notice) => out.notice(notice),
            Err(number) => out.refused(number).put("\n"),
        };
    }

    fn show(&self, out: &mut Text) {
        match self.recorder.port(self.port) {
            Ok(port) => {
                show::port(port, out);
                show::log(self.port, self.recorder.log(), out);
            }
            Err(number) => {
                out.refused(number).put("\n");
            }
        }
    }

    fn write(&self, room: usize, out: &mut Text) {
        let mut output = [0; ROOM];
        match self.recorder.write(self.port, &mut output[..room]) {
            Ok(length) => out.put("A ").octets(&output[..length]).put("\n"),
            Err(number) => out.refused(number).put("\n"),
        };
    }
}

/// An event was taken.
fn done(wish: bool, out: &mut Text) -> &mut Text {
    out.put(if wish { "done send" } else { "done" })
}

/// A refusal with what is told beside it: where a frame went wrong, or why a setting is invalid.
struct Refused {
    refusal: Refusal,
    why: Option<Why>,
}

impl<R: Into<Refusal>> From<R> for Refused {
    fn from(refusal: R) -> Self {
        Refused { refusal: refusal.into(), why: None }
    }
}

impl Refused {
    fn tell(self, out: &mut Text) -> &mut Text {
        out.refused(self.refusal.number);
        if self.refusal.has_place() {
            out.field("at", self.refusal.place);
        }
        if let Some(why) = self.why {
            out.put(": ").display(why);
        }
        out
    }
}

/// A refused change; with refusal 9, why.
fn refused(number: u8, change: &Change) -> Refused {
    let why = match change {
        Change::Setting(feature, setting) if number == refusal::INVALID_SETTING => {
            why(*feature, &setting.parameters)
        }
        _ => None,
    };
    Refused { refusal: number.into(), why }
}

fn run(source: Source) -> Result<(), Failure> {
    let (input, behind, events) = source.inputs()?;
    let mut lines = Lines::new(input, program::output()?);
    let mut out = Text::default();
    let ports = setup::ports(&mut lines, behind, &mut out)?;
    if let Some(events) = events {
        lines.turn_to(events);
    }
    let mut desk = Desk::create(&ports, &mut out);
    while let Some((number, line)) = lines.next(&mut out)? {
        desk.line(line, number, &mut out);
    }
    Ok(lines.write(&mut out)?)
}

fn main() {
    program::start("desk", USAGE, program::say, run);
}
