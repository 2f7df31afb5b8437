//! Will two boxes agree? Settings of two ends, then the report (docs/FORMATS.md).

use reference::layout::{APPLICATIONS, FLOW_CONTROL, PRIORITY_GROUPS};
use reference::program::{self, Source};
use reference::rounds::{settled, Ends};
use reference::setup::{self, Behind, Failure};
use reference::text::{self, InWords, Lines, Text};
use reference::{Feature, Parameters, Revision};

/// Rounds that are always enough.
const ENOUGH: u32 = 6;

const USAGE: &str = "\
usage: pair [FILE]

Will two boxes agree? The settings of A, then those of B, are read from FILE, or
without it from standard input.

Example:
control max 0
groups max 0 advertise 1 enable 1 willing 0 priorities 0 0 0 1 0 0 0 0 percentages 50 50 0 0 0 0 0 0 classes 2
flow max 0 advertise 1 enable 1 willing 0 mask 08 classes 8
applications max 0 advertise 1 enable 1 willing 0 ethertype 8906 08
control max 0
groups max 0 advertise 1 enable 1 willing 0 priorities 0 0 0 1 0 0 0 0 percentages 50 50 0 0 0 0 0 0 classes 2
flow max 0 advertise 1 enable 1 willing 0 mask 10 classes 8
applications max 0 advertise 1 enable 1 willing 0 ethertype 8906 08

docs/FORMATS.md describes the settings and the report.
";

fn report_feature<P: InWords>(end: &str, feature: &Feature<P>, out: &mut Text) {
    out.put(end).put(" ").put(text::place_name(P::FEATURE));
    out.field("version", feature.oper);
    out.field("mode", feature.mode);
    out.field("error", feature.error);
    out.put(" reason ").put(text::reason_name(feature.reason));
    out.put(":").configuration(&feature.opercfg).put("\n");
}

fn report_end(end: &str, ends: &Ends, i: usize, out: &mut Text) {
    let port = ends.end(i);
    out.put(end).put(" control");
    out.field("version", port.control().oper).revision(port).put("\n");
    report_feature(end, port.groups(), out);
    report_feature(end, port.flow(), out);
    if port.revision() == Revision::R1_01 {
        report_feature(end, port.applications(), out);
    }
    for notice in ends.recorder[i].log().of(ends.port[i]) {
        out.put(end).put(" ").notice(notice);
    }
}

/// The ends that do not advertise a feature, if there are any.
fn silent(ends: &Ends, feature: u8) -> Option<&'static str> {
    match ends.ends().map(|port| port.feature(feature).advertise) {
        [true, true] => None,
        [false, true] => Some("A"),
        [true, false] => Some("B"),
        [false, false] => Some("A and B"),
    }
}

/// Whether what the two ends run fits.
fn fits(ends: &Ends, feature: u8) -> bool {
    fn compatible<P: Parameters>(a: &Feature<P>, b: &Feature<P>) -> bool {
        a.opercfg.compatible(&b.opercfg)
    }
    let [a, b] = ends.ends();
    match feature {
        PRIORITY_GROUPS => compatible(a.groups(), b.groups()),
        FLOW_CONTROL => compatible(a.flow(), b.flow()),
        _ => compatible(a.applications(), b.applications()),
    }
}

/// Whether an end has this feature at all.
fn known(ends: &Ends, feature: u8) -> bool {
    ends.ends().iter().any(|port| port.revision().features().contains(&feature))
}

/// Agreed, not agreed or not exchanged, and which features are not.
fn first_line(ends: &Ends, rounds: u32, out: &mut Text) {
    let (mut not_agreed, mut not_exchanged) = (Vec::new(), Vec::new());
    for feature in (PRIORITY_GROUPS..=APPLICATIONS).filter(|&feature| known(ends, feature)) {
        let name = text::place_name(feature);
        if let Some(silent) = silent(ends, feature) {
            let fits = if fits(ends, feature) { "fits" } else { "does not fit" };
            not_exchanged.push(format!("{name} at {silent} ({fits})"));
        } else if ends.ends().iter().any(|port| !port.feature(feature).mode) {
            not_agreed.push(name);
        }
    }
    out.put(match (&not_agreed[..], &not_exchanged[..]) {
        ([], []) => "agreed",
        ([], _) => "not exchanged",
        _ => "not agreed",
    });
    out.put(" after ").number(rounds).put(" rounds");
    if !not_agreed.is_empty() {
        out.put(": ").put(&not_agreed.join(" "));
    }
    if !not_exchanged.is_empty() {
        out.put(if not_agreed.is_empty() { ": " } else { "; not exchanged: " });
        out.put(&not_exchanged.join(", "));
    }
    out.put("\n");
}

fn report(ends: &Ends, rounds: u32, out: &mut Text) {
    first_line(ends, rounds, out);
    report_end("A", ends, 0, out);
    report_end("B", ends, 1, out);
}

fn run(source: Source) -> Result<(), Failure> {
    let input = match source {
        Source::Standard => program::input()?,
        Source::File(file) => file,
    };
    let mut lines = Lines::new(input, program::output()?);
    let mut out = Text::default();
    let mut ends = Ends::create(&setup::two_ends(&mut lines, Behind::Anything, &mut out)?);
    let mut rounds = 0;
    while rounds < ENOUGH && !ends.ends().into_iter().all(settled) {
        ends.round();
        rounds += 1;
    }
    report(&ends, rounds, &mut out);
    Ok(lines.write(&mut out)?)
}

fn main() {
    program::start("pair", USAGE, program::say, run);
}
