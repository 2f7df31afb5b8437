//! Frames and lines of captures that the tests share.

use super::{hex, tlv, w2_settings, written_at, W2};
use reference::events::OwnedSettings;
use reference::rounds::Ends;
use reference::text::Text;

/// A frame as a capture's line.
pub fn line(sender: char, octets: &[u8]) -> String {
    let mut text = Text::default();
    text.octets(octets);
    format!("{sender} {}\n", String::from_utf8(text.0).unwrap())
}

/// What differs from W2's octets in a frame of W2, W5, W6 or W7: Oper and Max of the control, SeqNo and
/// AckNo, and of flow control Oper, Max, flags and mask.
pub type Sent = (u8, u8, u8, u8, u8, u8, u8, u8);

pub fn sent((oper, max, seqno, ackno, flow_oper, flow_max, flags, mask): Sent) -> Vec<u8> {
    let mut octets = hex(W2);
    (octets[8], octets[9], octets[13], octets[17]) = (oper, max, seqno, ackno);
    (octets[39], octets[40], octets[41], octets[43]) = (flow_oper, flow_max, flags, mask);
    octets
}

/// The settings of two ends, and what each writes, round by round.
pub struct Exchange {
    pub settings: [OwnedSettings; 2],
    pub rounds: Vec<[Sent; 2]>,
}

impl Exchange {
    /// The frames of A and B. They must be what two ends in lockstep write.
    pub fn frames(&self) -> Vec<[Vec<u8>; 2]> {
        let mut ends = Ends::create(&self.settings);
        let mut all = Vec::new();
        for (i, round) in self.rounds.iter().enumerate() {
            let frames = round.map(sent);
            for (end, frame) in frames.iter().enumerate() {
                let written = written_at(&ends.recorder[end], ends.port[end]).unwrap();
                assert_eq!(&written, frame, "round {}, end {end}", i + 1);
            }
            all.push(frames);
            ends.round();
        }
        all
    }
}

pub fn w2() -> Exchange {
    let first = (0, 0, 1, 0, 0, 0, 0x80, 0x08);
    let second = (0, 0, 1, 1, 0, 0, 0x80, 0x08);
    Exchange { settings: [w2_settings(), w2_settings()], rounds: vec![[first; 2], [second; 2]] }
}

/// B's first frame runs at 1, and A passes it over; A's third is the one that B waits for.
pub fn w5() -> Exchange {
    let rounds = vec![
        [(0, 0, 1, 0, 0, 0, 0x80, 0x08), (1, 1, 1, 0, 0, 0, 0x80, 0x08)],
        [(0, 0, 1, 0, 0, 0, 0x80, 0x08), (0, 1, 1, 1, 0, 0, 0x80, 0x08)],
        [(0, 0, 1, 1, 0, 0, 0x80, 0x08), (0, 1, 1, 1, 0, 0, 0x80, 0x08)],
    ];
    let settings = [w2_settings(), OwnedSettings { control_max: 1, ..w2_settings() }];
    Exchange { settings, rounds }
}

/// W2's settings with masks 08 and 10.
pub fn masks() -> [OwnedSettings; 2] {
    let mut b = w2_settings();
    b.feature[1].1.parameters[0] = 0x10;
    [w2_settings(), b]
}

/// The first frame shows another mask, so Error goes on behind SeqNo 1; it waits, and is sent with 2.
pub fn w6() -> Exchange {
    let rounds = vec![
        [(0, 0, 1, 0, 0, 0, 0x80, 0x08), (0, 0, 1, 0, 0, 0, 0x80, 0x10)],
        [(0, 0, 1, 1, 0, 0, 0x80, 0x08), (0, 0, 1, 1, 0, 0, 0x80, 0x10)],
        [(0, 0, 2, 1, 0, 0, 0xa0, 0x08), (0, 0, 2, 1, 0, 0, 0xa0, 0x10)],
        [(0, 0, 2, 2, 0, 0, 0xa0, 0x08), (0, 0, 2, 2, 0, 0, 0xa0, 0x10)],
    ];
    Exchange { settings: masks(), rounds }
}

/// A goes down to flow control 0 when it handles B's second frame; until then B waits.
pub fn w7() -> Exchange {
    let mut settings = masks();
    settings[1].control_max = 1;
    settings[0].feature[1].0 = 1;
    let rounds = vec![
        [(0, 0, 1, 0, 1, 1, 0x80, 0x08), (1, 1, 1, 0, 0, 0, 0x80, 0x10)],
        [(0, 0, 1, 0, 1, 1, 0x80, 0x08), (0, 1, 1, 1, 0, 0, 0x80, 0x10)],
        [(0, 0, 2, 1, 0, 1, 0xa0, 0x08), (0, 1, 1, 1, 0, 0, 0x80, 0x10)],
        [(0, 0, 2, 1, 0, 1, 0xa0, 0x08), (0, 1, 2, 2, 0, 0, 0xa0, 0x10)],
        [(0, 0, 2, 2, 0, 1, 0xa0, 0x08), (0, 1, 2, 2, 0, 0, 0xa0, 0x10)],
    ];
    Exchange { settings, rounds }
}

/// Document 02, E5: B's Oper 0 and Error wait for A's third frame, so that A comes to them a round later.
pub fn six() -> Exchange {
    let mut settings = masks();
    settings[1].control_max = 1;
    settings[1].feature[1].0 = 1;
    let rounds = vec![
        [(0, 0, 1, 0, 0, 0, 0x80, 0x08), (1, 1, 1, 0, 1, 1, 0x80, 0x10)],
        [(0, 0, 1, 0, 0, 0, 0x80, 0x08), (0, 1, 1, 1, 1, 1, 0x80, 0x10)],
        [(0, 0, 1, 1, 0, 0, 0x80, 0x08), (0, 1, 1, 1, 1, 1, 0x80, 0x10)],
        [(0, 0, 1, 1, 0, 0, 0x80, 0x08), (0, 1, 2, 1, 0, 1, 0xa0, 0x10)],
        [(0, 0, 2, 2, 0, 0, 0xa0, 0x08), (0, 1, 2, 1, 0, 1, 0xa0, 0x10)],
        [(0, 0, 2, 2, 0, 0, 0xa0, 0x08), (0, 1, 2, 2, 0, 1, 0xa0, 0x10)],
    ];
    Exchange { settings, rounds }
}

/// Lines that are no frames, each for a reason of its own.
pub fn no_frames() -> Vec<Vec<u8>> {
    let plain = [
        "",
        "# a comment",
        "A",
        "B",
        "AB 00",
        "a 00",
        "b 00",
        "C 00",
        " A 00",
        "A  00",
        "A\t00",
        "A00",
        "A 0",
        "A 000",
        "A 00 ",
        "A 00 00",
        "A 00\t",
        "A 00\r",
        "A \r",
        "\r",
        "A fE",
        "A FE",
        "A 0x00",
        "A 0g",
        "A g0",
        "A /0",
        "A 0:",
        "A `0",
        "A 00;",
        "B 0",
        "B FE",
        "control max 0",
    ];
    let mut lines: Vec<Vec<u8>> = plain.iter().map(|line| line.as_bytes().to_vec()).collect();
    lines.extend([&b"A 00\0"[..], b"A \xff\xff", b"\0", b"\xef\xbb\xbfA 00"].map(<[u8]>::to_vec));
    // One octet and one digit more than a frame may have, and much more.
    for digits in [2 * 514, 2 * 513 + 1, 1 << 12, 1 << 20] {
        lines.push([&b"A "[..], &b"0".repeat(digits)].concat());
        lines.push([&b"B "[..], &b"0".repeat(digits)].concat());
    }
    lines
}

/// Frames that are refused with 3 to 8.
pub fn refused_frames() -> [Vec<u8>; 6] {
    let w2 = hex(W2);
    let mut late = w2.clone();
    late[7] = 0x0b;
    [
        vec![],
        w2[..56].to_vec(),
        late,
        tlv(""),
        tlv("02 09 00 00 00 00 00 01 00 00 00"),
        tlv("02 0a 01 00 00 00 00 01 00 00 00 00"),
    ]
}
