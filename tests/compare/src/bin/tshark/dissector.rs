//! Frames in a capture file, each in an LLDPDU of its own, and what tshark shows of them.

use crate::fields::{Field, Fields};
use std::io::{BufRead, BufReader};
use std::path::Path;
use std::process::{Command, Stdio};

/// Ethernet II to LLDP's multicast address; chassis id, port id and time to live.
const BEFORE: [u8; 36] = [
    0x01, 0x80, 0xc2, 0x00, 0x00, 0x0e, 0x02, 0x00, 0x00, 0x00, 0x00, 0x01, 0x88, 0xcc, //
    0x02, 0x07, 0x04, 0x02, 0x00, 0x00, 0x00, 0x00, 0x01, //
    0x04, 0x07, 0x03, 0x02, 0x00, 0x00, 0x00, 0x00, 0x01, //
    0x06, 0x02, 0x00, 0x78,
];
/// The end of the LLDPDU.
pub const END: [u8; 2] = [0, 0];

/// Writes a pcap file.
pub fn write_capture<'a>(file: &Path, frames: impl Iterator<Item = &'a [u8]>) {
    // Magic number, version 2.4, time zone, accuracy, longest packet, Ethernet.
    let header = [0xa1b2_c3d4, 0x0002_0004, 0, 0, 0xffff, 1];
    let mut octets: Vec<u8> = header.into_iter().flat_map(u32::to_be_bytes).collect();
    for frame in frames {
        let packet = [&BEFORE, frame, &END].concat();
        // Seconds, microseconds, octets held, octets sent.
        let record = [0, 0, packet.len() as u32, packet.len() as u32];
        octets.extend(record.into_iter().flat_map(u32::to_be_bytes));
        octets.extend(packet);
    }
    std::fs::write(file, octets).unwrap_or_else(|error| panic!("{}: {error}", file.display()));
}

/// What tshark shows of one packet from the DCBX TLV on.
#[derive(Default)]
pub struct Shown {
    pub fields: Fields,
    /// Lines that a well-formed frame does not give: marks such as `_ws.malformed`, values that
    /// are no numbers, a field shown twice.
    pub strange: Vec<String>,
}

/// The first line about its version; none where it is not installed.
pub fn version() -> Option<String> {
    let output = Command::new("tshark").arg("--version").output().ok()?;
    String::from_utf8_lossy(&output.stdout).lines().next().map(str::to_string)
}

/// Runs tshark over a capture file; gives what it shows, packet by packet.
pub fn show(file: &Path) -> Vec<Shown> {
    let mut tshark = Command::new("tshark")
        .args(["-n", "-T", "pdml", "-r"])
        .arg(file)
        .stdout(Stdio::piped())
        .spawn()
        .expect("tshark");
    let mut packets: Vec<Shown> = Vec::new();
    for line in BufReader::new(tshark.stdout.take().expect("its output")).lines() {
        let line = line.expect("PDML");
        if line == "<packet>" {
            packets.push(Shown::default());
        } else if let Some(packet) = packets.last_mut() {
            packet.note(line.trim());
        }
    }
    let status = tshark.wait().expect("tshark");
    assert!(status.success(), "tshark: {status}");
    packets
}

impl Shown {
    /// Takes a line of PDML, which holds one element.
    fn note(&mut self, line: &str) {
        let name = attribute(line, "name").unwrap_or_default();
        if name.starts_with("_ws.") {
            self.strange.push(line.into());
        }
        let place = attribute(line, "pos").and_then(|pos| pos.parse::<usize>().ok());
        let place = place.and_then(|pos| pos.checked_sub(BEFORE.len()));
        let (Some(name), Some(place)) = (name.strip_prefix("lldp."), place) else {
            return;
        };
        let taken = field(line).map(|field| self.fields.insert((place, name.into()), field));
        if taken != Some(None) {
            self.strange.push(line.into());
        }
    }
}

fn attribute<'a>(line: &'a str, name: &str) -> Option<&'a str> {
    let (_, behind) = line.split_once(&format!(" {name}=\""))?;
    behind.split_once('"').map(|(value, _)| value)
}

/// A field with a mask has its value in `value`, its octets in `unmaskedvalue`; any other has its
/// value in `show`, its octets in `value`.
fn field(line: &str) -> Option<Field> {
    let value = attribute(line, "value")?;
    if let Some(octets) = attribute(line, "unmaskedvalue") {
        return Some(Field {
            octets: octets_of(octets)?,
            value: u64::from_str_radix(value, 16).ok()?,
        });
    }
    let show = attribute(line, "show")?;
    let number = match show.strip_prefix("0x") {
        Some(digits) => u64::from_str_radix(digits, 16),
        None => show.parse(),
    };
    Some(Field { octets: octets_of(value)?, value: number.ok()? })
}

fn octets_of(hex: &str) -> Option<Vec<u8>> {
    let pairs = (0..hex.len()).step_by(2).map(|at| hex.get(at..at + 2));
    pairs.map(|pair| u8::from_str_radix(pair?, 16).ok()).collect()
}
