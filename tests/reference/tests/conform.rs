//! Document 02, E12: whether all that one end sent is what the rules write.

mod common;
use common::captures::{self, line, no_frames, refused_frames, sent, Exchange};
use common::*;
use reference::capture::Cutter;
use reference::conform::{Conform, Counts};
use reference::events::{Event, Generator, OwnedSetting, OwnedSettings};
use reference::text::Text;
use reference::Flag;

/// Feeds lines that come in these blocks, and gives the verdict.
fn judge<'a>(conform: &mut Conform, blocks: impl IntoIterator<Item = &'a [u8]>) -> String {
    let mut cutter = Cutter::default();
    for block in blocks {
        cutter.feed(block, |line| conform.line(line));
    }
    cutter.end(|line| conform.line(line));
    let mut text = Text::default();
    conform.verdict(&mut text);
    String::from_utf8(text.0).unwrap()
}

fn verdict(settings: &OwnedSettings, capture: &str) -> String {
    judge(&mut Conform::new(settings), [capture.as_bytes()])
}

fn first_line(verdict: &str) -> &str {
    verdict.lines().next().unwrap()
}

/// The verdict of one capture of W2's end.
fn w2_verdict(capture: &str) -> String {
    verdict(&w2_settings(), capture)
}

fn accepted([lines, sent, given, changes, passed_over]: [u64; 5]) -> String {
    format!(
        "accepted {sent}\n{lines} lines: {sent} sent, {given} given, {changes} changes, {passed_over} passed over\n"
    )
}

/// W2's frame with these numbers, flow control's flags and mask.
fn w2_frame(seqno: u8, ackno: u8, flags: u8, mask: u8) -> Vec<u8> {
    sent((0, 0, seqno, ackno, 0, 0, flags, mask))
}

/// What one end sends and is given.
fn view(frames: &[[Vec<u8>; 2]], end: usize) -> String {
    frames.iter().map(|round| line('A', &round[end]) + &line('B', &round[1 - end])).collect()
}

#[test]
fn worked_exchanges_are_accepted() {
    for (exchange, rounds) in [
        (captures::w2(), 2),
        (captures::w5(), 3),
        (captures::w6(), 4),
        (captures::w7(), 5),
        (captures::six(), 6),
    ] {
        let frames = exchange.frames();
        for (end, settings) in exchange.settings.iter().enumerate() {
            let due = accepted([2 * rounds, rounds, rounds, 0, 0]);
            assert_eq!(verdict(settings, &view(&frames, end)), due);
        }
    }
}

/// Between two of its frames an end handles what may change the second: the other order is another end.
#[test]
fn the_order_of_lines_counts() {
    let Exchange { settings, rounds } = captures::w6();
    let [first, second] = [0, 1].map(|round: usize| rounds[round].map(sent));
    let early = line('B', &first[1]) + &line('A', &first[0]);
    assert_eq!(first_line(&verdict(&settings[0], &early)), "rejected line 2 place 17");
    let late = line('A', &first[0]) + &line('A', &second[0]) + &line('B', &first[1]);
    assert_eq!(first_line(&verdict(&settings[0], &late)), "rejected line 2 place 17");
}

/// W6's A shows no error in its third frame, though B's second has acknowledged SeqNo 1.
#[test]
fn a_whole_rejection() {
    let Exchange { settings, rounds } = captures::w6();
    let [first, second] = [0, 1].map(|round: usize| rounds[round].map(sent));
    let mut capture = view(&[first, second], 0);
    capture += &line('A', &w2_frame(2, 1, 0x80, 0x08));
    // A later one, with another difference.
    capture += &line('A', &w2_frame(9, 1, 0xa0, 0x08));
    let due = "\
rejected line 5 place 41
sent fe37001b2102020a00000000000200000001041100008000000100003232000000000000020606\
0000[80]000808080a000080008906001b2108
due  fe37001b2102020a00000000000200000001041100008000000100003232000000000000020606\
0000[a0]000808080a000080008906001b2108
flow control, flags: sent 80, due a0
due since line 4
state as line 4 left it
port running 1 admin 1 receive 1 transmit 1 several 0
control max 0
control state oper 0 seqno 2 ackno 1 rcvdackno 1 seen 1 duplicate 0 broken 0
groups max 0 advertise 1 enable 1 willing 0 priorities 0 0 0 1 0 0 0 0 percentages 50 50 0 0 0 0 0 0 classes 2
groups state oper 0 error 0 mode 1 syncd 1 featureseqno 1 reason agreed
groups peer enable 1 willing 0 error 0 priorities 0 0 0 1 0 0 0 0 percentages 50 50 0 0 0 0 0 0 classes 2
groups opercfg priorities 0 0 0 1 0 0 0 0 percentages 50 50 0 0 0 0 0 0 classes 2
flow max 0 advertise 1 enable 1 willing 0 mask 08 classes 8
flow state oper 0 error 1 mode 0 syncd 0 featureseqno 2 reason not-compatible
flow peer enable 1 willing 0 error 0 mask 10 classes 8
flow opercfg mask 08 classes 8
applications max 0 advertise 1 enable 1 willing 0 ethertype 8906 08
applications state oper 0 error 0 mode 1 syncd 1 featureseqno 1 reason agreed
applications peer enable 1 willing 0 error 0 ethertype 8906 08
applications opercfg ethertype 8906 08
";
    assert_eq!(verdict(&settings[0], &capture), due);
}

/// Rev 1.0 writes and shows no applications, and refuses a setting for them.
#[test]
fn an_old_end() {
    let frame = &hex(W2)[..45];
    let short = [&[0xfe, 0x2b][..], &frame[2..]].concat();
    let setting = "set applications advertise 1 enable 1 willing 0\n";
    let capture = format!("{}{setting}{}", line('A', &short), line('A', &hex(W2)));
    let verdict = verdict(&old_settings(), &capture);
    let mut lines = verdict.lines();
    assert_eq!(lines.next(), Some("rejected line 3 place 1"));
    assert_eq!(lines.nth(2), Some("frame, type and length: sent 37, due 2b"));
    assert_eq!(lines.next(), Some("due since its creation"));
    assert_eq!(lines.next(), Some("state as its creation left it"));
    assert_eq!(lines.nth(1), Some("control max 0 revision 1.0"));
    assert_eq!(lines.last(), Some("flow opercfg mask 08 classes 8"));
}

/// The names of W2's octets, each with how many it is of.
const NAMES: [(&str, usize); 38] = [
    ("frame, type and length", 2),
    ("frame, OUI", 3),
    ("frame, subtype", 1),
    ("control, type and length", 2),
    ("control, Oper version", 1),
    ("control, Max version", 1),
    ("control, SeqNo", 4),
    ("control, AckNo", 4),
    ("priority groups, type and length", 2),
    ("priority groups, Oper version", 1),
    ("priority groups, Max version", 1),
    ("priority groups, flags", 1),
    ("priority groups, subtype", 1),
    ("priority groups, groups of priorities 0 and 1", 1),
    ("priority groups, groups of priorities 2 and 3", 1),
    ("priority groups, groups of priorities 4 and 5", 1),
    ("priority groups, groups of priorities 6 and 7", 1),
    ("priority groups, percentage of group 0", 1),
    ("priority groups, percentage of group 1", 1),
    ("priority groups, percentage of group 2", 1),
    ("priority groups, percentage of group 3", 1),
    ("priority groups, percentage of group 4", 1),
    ("priority groups, percentage of group 5", 1),
    ("priority groups, percentage of group 6", 1),
    ("priority groups, percentage of group 7", 1),
    ("priority groups, number of classes", 1),
    ("flow control, type and length", 2),
    ("flow control, Oper version", 1),
    ("flow control, Max version", 1),
    ("flow control, flags", 1),
    ("flow control, subtype", 1),
    ("flow control, mask", 1),
    ("flow control, number of classes", 1),
    ("applications, type and length", 2),
    ("applications, Oper version", 1),
    ("applications, Max version", 1),
    ("applications, flags", 1),
    ("applications, subtype", 1),
];
const ENTRY: [(&str, usize); 4] =
    [("protocol id", 2), ("selector and OUI", 1), ("OUI", 2), ("priority map", 1)];

/// The names of all octets of W2's frame with so many entries.
fn names(entries: usize) -> Vec<String> {
    let mut names = Vec::new();
    for (name, count) in NAMES {
        names.extend(std::iter::repeat_n(name.to_string(), count));
    }
    for entry in 1..=entries {
        for (name, count) in ENTRY {
            let name = format!("applications, entry {entry} {name}");
            names.extend(std::iter::repeat_n(name, count));
        }
    }
    names
}

/// The lines under the first, up to the octet's name: the frame that was sent, the one that is due, and the name.
fn told(verdict: &str) -> [&str; 3] {
    let lines: Vec<&str> = verdict.lines().skip(1).take(3).collect();
    lines.try_into().unwrap()
}

/// Octets in hex, with brackets around those in a range.
fn brackets(octets: &[u8], from: usize, to: usize) -> String {
    let [before, at, behind] = [&octets[..from], &octets[from..to], &octets[to..]].map(|part| {
        let mut text = Text::default();
        text.octets(part);
        String::from_utf8(text.0).unwrap()
    });
    format!("{before}[{at}]{behind}")
}

#[test]
fn every_octet_has_its_name() {
    for entries in [1, 16] {
        let mut settings = w2_settings();
        let parameters = &mut settings.feature[2].1.parameters;
        for i in 1..entries {
            parameters.extend([0x0c, i, 1, 0x1b, 0x21, 0x10]);
        }
        let frame = written(&port(&settings)).unwrap();
        let names = names(entries.into());
        assert_eq!(names.len(), frame.len());
        for (place, name) in names.iter().enumerate() {
            // A second difference, in the last octet, is not named.
            let mut other = frame.clone();
            *other.last_mut().unwrap() ^= 1;
            other[place] ^= 0xf0;
            let verdict = verdict(&settings, &line('A', &other));
            assert_eq!(first_line(&verdict), format!("rejected line 1 place {place}"));
            let due = [
                format!("sent {}", brackets(&other, place, place + 1)),
                format!("due  {}", brackets(&frame, place, place + 1)),
                format!("{name}: sent {:02x}, due {:02x}", other[place], frame[place]),
            ];
            assert_eq!(told(&verdict), due.each_ref().map(String::as_str));
        }
    }
}

#[test]
fn a_shorter_frame_differs_where_it_ends() {
    let frame = hex(W2);
    for (place, name) in names(1).iter().enumerate() {
        let verdict = w2_verdict(&line('A', &frame[..place]));
        assert_eq!(first_line(&verdict), format!("rejected line 1 place {place}"));
        let due = [
            format!("sent {}", brackets(&frame[..place], place, place)),
            format!("due  {}", brackets(&frame, place, place + 1)),
            format!("{name}: sent nothing, due {:02x}", frame[place]),
        ];
        assert_eq!(told(&verdict), due.each_ref().map(String::as_str));
    }
}

#[test]
fn a_longer_frame_differs_behind_the_end() {
    let frame = hex(W2);
    for length in [58, 59, 513] {
        let mut longer = frame.clone();
        longer.resize(length, 0xab);
        let verdict = w2_verdict(&line('A', &longer));
        assert_eq!(first_line(&verdict), "rejected line 1 place 57");
        let due = [
            format!("sent {}", brackets(&longer, 57, 58)),
            format!("due  {}", brackets(&frame, 57, 57)),
            "behind the end: sent ab, due nothing".to_string(),
        ];
        assert_eq!(told(&verdict), due.each_ref().map(String::as_str));
    }
}

/// Of several frames that are not due the first is named, whatever stands between and behind.
#[test]
fn the_first_rejected_frame_is_named() {
    let good = line('A', &hex(W2));
    let [first, second] = [10, 6].map(|place: usize| {
        let mut frame = hex(W2);
        frame[place] ^= 1;
        line('A', &frame)
    });
    let capture = format!("{good}\n{good}{first}{good}gone\n{second}{first}");
    let named = w2_verdict(&capture);
    assert_eq!(first_line(&named), "rejected line 4 place 10");
    // Nothing behind it is read.
    assert_eq!(w2_verdict(&format!("{good}\n{good}{first}")), named);
}

const STOPPED: &str = "the port is stopped: nothing is due";

/// Every frame is other than nothing, at place 0, the one that was due before too.
#[test]
fn nothing_is_due_while_stopped() {
    for flag in ["admin", "receive", "transmit"] {
        for frame in [hex(W2), vec![], vec![0]] {
            let capture = format!("{}{flag} 0\n{}", line('A', &hex(W2)), line('A', &frame));
            let verdict = w2_verdict(&capture);
            assert_eq!(first_line(&verdict), "rejected line 3 place 0");
            let marked = format!("sent {}", brackets(&frame, 0, frame.len().min(1)));
            assert_eq!(told(&verdict), [&marked, "due  nothing", STOPPED]);
            assert_eq!(verdict.lines().nth(4), Some("due since line 2"));
            assert_eq!(verdict.lines().nth(5), Some("state as line 2 left it"));
        }
    }
    // A second flag changes nothing in what is written; starting does.
    let between = line('A', &[]);
    let stopped = w2_verdict(&format!("admin 0\ntransmit 0\nadmin 1\n{between}"));
    assert_eq!(first_line(&stopped), "rejected line 4 place 0");
    assert_eq!(stopped.lines().nth(4), Some("due since line 1"));
    assert_eq!(stopped.lines().nth(5), Some("state as line 3 left it"));
    let started = w2_verdict(&format!("admin 0\nadmin 1\n{between}"));
    assert_eq!(told(&started)[2], "frame, type and length: sent nothing, due fe");
    assert_eq!(started.lines().nth(4), Some("due since line 2"));
}

/// An `A` line is no event: if it were given to the port, W2's frame would be acknowledged by the next.
#[test]
fn a_sent_frame_changes_nothing() {
    let frame = hex(W2);
    let capture = line('A', &frame).repeat(5);
    assert_eq!(w2_verdict(&capture), accepted([5, 5, 0, 0, 0]));
    let mut other = frame.clone();
    other[17] = 1;
    let rejected = w2_verdict(&(capture + &line('A', &other)));
    assert_eq!(first_line(&rejected), "rejected line 6 place 17");
    assert_eq!(rejected.lines().nth(4), Some("due since its creation"));
    assert_eq!(rejected.lines().nth(5), Some("state as its creation left it"));
    let mut conform = Conform::new(&w2_settings());
    let fresh = conform.port().dump();
    for octets in [&frame[..], &other, b"", &w2_frame(1, 1, 0x80, 0x10)] {
        conform.line(line('A', octets).trim_end_matches('\n').as_bytes());
        assert_eq!(conform.port().dump(), fresh);
    }
}

/// What the end was given may be anything.
#[test]
fn a_given_frame_is_not_judged() {
    let mut capture = String::new();
    for frame in refused_frames() {
        capture += &line('B', &frame);
    }
    capture += &line('B', &[0xab; 513]);
    capture += &line('A', &hex(W2));
    // Its own frame, given to it: acknowledges 0, and shows SeqNo 1.
    capture += &line('B', &hex(W2));
    capture += &line('A', &w2_frame(1, 1, 0x80, 0x08));
    assert_eq!(w2_verdict(&capture), accepted([10, 2, 8, 0, 0]));
}

const MASK_10: &str = "set flow advertise 1 enable 1 willing 0 mask 10 classes 8\n";

/// Refusals 3 to 8 leave what is written, and the line that the state came from; 7 and 8 set the mark.
#[test]
fn a_refused_frame_does_what_the_rules_say() {
    for (i, frame) in refused_frames().iter().enumerate() {
        let given = line('B', &frame_acknowledging(1));
        let due = line('A', &w2_frame(1, 1, 0x80, 0x08));
        let capture = format!("{given}{due}{}{due}", line('B', frame));
        assert_eq!(w2_verdict(&capture), accepted([4, 2, 2, 0, 0]));
        let rejected = w2_verdict(&format!("{capture}A \n"));
        assert_eq!(rejected.lines().nth(4), Some("due since line 1"));
        assert_eq!(rejected.lines().nth(5), Some("state as line 1 left it"));
        let broken = u8::from(i >= 4);
        let state = format!(
            "control state oper 0 seqno 1 ackno 1 rcvdackno 1 seen 1 duplicate 0 broken {broken}"
        );
        assert_eq!(rejected.lines().nth(8), Some(&state[..]));
    }
}

/// W2's frame of a peer that has SeqNo 1.
fn frame_acknowledging(ackno: u32) -> Vec<u8> {
    frame(&sub_tlvs(1, ackno, 0x80))
}

#[test]
fn refused_changes_do_nothing() {
    let due = line('A', &hex(W2));
    let refused = "\
set flow advertise 1 enable 1 willing 0 mask 18 classes 1
set groups advertise 1 enable 1 willing 0 priorities 0 0 0 1 0 0 0 0 percentages 50 51 0 0 0 0 0 0 classes 2
set 1 advertise 1 enable 1 willing 0
set 5 advertise 1 enable 1 willing 0
set 3 advertise 1 enable 1 willing 0 parameters 08
set 4 advertise 0 enable 1 willing 0 parameters 89060a1b2108
";
    let capture = format!("{refused}{due}");
    assert_eq!(w2_verdict(&capture), accepted([7, 1, 0, 6, 0]));
    let rejected = w2_verdict(&format!("{refused}A \n"));
    assert_eq!(rejected.lines().nth(5), Some("state as its creation left it"));
    // Peer gone and a frame at a stopped port.
    let capture = format!("admin 0\ngone\n{}A \n", line('B', &hex(W2)));
    let rejected = w2_verdict(&capture);
    assert_eq!(first_line(&rejected), "rejected line 4 place 0");
    assert_eq!(rejected.lines().nth(5), Some("state as line 1 left it"));
    // A frame while several neighbours are flagged.
    let flagged = format!("several 1\n{}{due}several 0\n{due}", line('B', &hex(W2)));
    assert_eq!(w2_verdict(&flagged), accepted([5, 2, 1, 2, 0]));
}

/// What is not refused was taken, though it changed nothing.
#[test]
fn what_changes_nothing_is_taken() {
    let equal = "set flow advertise 1 enable 1 willing 0 mask 08 classes 8\n";
    for taken in ["admin 1\n", "several 0\n", "gone\n", equal] {
        let rejected = w2_verdict(&format!("{taken}A \n"));
        assert_eq!(rejected.lines().nth(4), Some("due since its creation"));
        assert_eq!(rejected.lines().nth(5), Some("state as line 1 left it"));
    }
}

/// Document 02, E5: a change behind SeqNo 1 waits until that is acknowledged; another is sent at once.
#[test]
fn changes_wait_their_turn() {
    let first = line('A', &hex(W2));
    let acknowledged = line('B', &frame_acknowledging(1));
    let second = line('A', &w2_frame(2, 1, 0x80, 0x10));
    // The mask no longer fits the peer's, so Error is on.
    let shown = line('A', &w2_frame(2, 1, 0xa0, 0x10));
    let waits = format!("{first}{MASK_10}{first}{acknowledged}{shown}");
    assert_eq!(w2_verdict(&waits), accepted([5, 3, 1, 1, 0]));
    let at_once = format!("{acknowledged}{MASK_10}{shown}");
    assert_eq!(w2_verdict(&at_once), accepted([3, 1, 1, 1, 0]));
    // One that does not wait.
    let early = w2_verdict(&format!("{first}{MASK_10}{}", line('A', &w2_frame(1, 0, 0x80, 0x10))));
    assert_eq!(first_line(&early), "rejected line 3 place 43");
    assert_eq!(told(&early)[2], "flow control, mask: sent 10, due 08");
    assert_eq!(early.lines().nth(4), Some("due since its creation"));
    assert_eq!(early.lines().nth(5), Some("state as line 2 left it"));
    let waiting = "flow waits released oper 0 enable 1 willing 0 error 0 mask 08 classes 8";
    assert!(early.lines().any(|line| line == waiting));
    // And one that forgets the error.
    let rejected = w2_verdict(&format!("{acknowledged}{MASK_10}{second}"));
    assert_eq!(first_line(&rejected), "rejected line 3 place 41");
}

/// A fresh state releases what waits.
#[test]
fn flags_and_peer_gone_are_changes() {
    let changed = line('A', &w2_frame(1, 0, 0x80, 0x10));
    for fresh in ["gone\n", "several 1\n", "admin 0\nadmin 1\n", "transmit 0\ntransmit 1\n"] {
        let capture = format!("{}{MASK_10}{fresh}{changed}", line('A', &hex(W2)));
        let changes = 1 + fresh.lines().count() as u64;
        assert_eq!(w2_verdict(&capture), accepted([2 + changes, 2, 0, changes, 0]), "{fresh}");
    }
    // The words of an event are parted by spaces, also before and behind them.
    let spaces =
        format!("  set   3 advertise 1 enable 1  willing 0 parameters 1008 \n gone \n{changed}");
    assert_eq!(w2_verdict(&spaces), accepted([3, 1, 0, 2, 0]));
}

/// Lines that are neither frames nor changes.
fn passed_over() -> Vec<Vec<u8>> {
    let plain = [
        "write 147",
        "write",
        "take",
        "show",
        "done",
        "done send notices 1",
        "refused 1 not-running",
        "notice 9 peer-gone port",
        "error 12: word 2: a bit is due",
        "log held 0 dropped 0",
        "port running 1 admin 1 receive 1 transmit 1 several 0",
        "1 gone",
        "2 admin 0",
        "1 A fe",
        "1 B fe",
        "Gone",
        "gone away",
        "#gone",
        "gone\r",
        "\tgone",
        "admin",
        "admin 2",
        "admin 00",
        "admin 0 0",
        "admin 0\r",
        "ADMIN 0",
        "enabled 0",
        "set",
        "set flow",
        "set control max 0",
        "set flow max 0 advertise 0 enable 1 willing 0 mask 08 classes 8",
        "set flow advertise 0 enable 1 willing 0 mask 08 classes 8 8",
        "set flow advertise 0 enable 1 willing 0 mask 8 classes 8",
        "set flow advertise 0 enable 1 willing 0 mask FF classes 8",
        "set 256 advertise 0 enable 1 willing 0",
        "set 3 advertise 0 enable 1 willing 0 parameters",
        "set 3 advertise 0 enable 1 willing 0 parameters 0",
        "set 3 advertise 0 enable 1 willing 0 parameters 0A08",
        "flow max 0 advertise 0 enable 1 willing 0 mask 08 classes 8",
    ];
    let mut lines: Vec<Vec<u8>> = plain.iter().map(|line| line.as_bytes().to_vec()).collect();
    lines.push(line('A', &hex(W2)).trim_end().to_ascii_uppercase().into_bytes());
    // One octet more than a line may have, and much more.
    for spaces in [1097, 1 << 20] {
        lines.push([&b"gone"[..], &b" ".repeat(spaces)].concat());
        lines.push([&b" ".repeat(spaces)[..], b"admin 0"].concat());
    }
    lines.extend(no_frames());
    lines
}

#[test]
fn every_other_line_is_passed_over_and_counted() {
    let due = line('A', &hex(W2));
    for other in passed_over() {
        let shown = String::from_utf8_lossy(&other[..other.len().min(80)]).into_owned();
        let octets = [due.as_bytes(), &other, b"\n", due.as_bytes(), b"A \n"].concat();
        let (capture, wrong) = octets.split_at(octets.len() - 3);
        let mut conform = Conform::new(&w2_settings());
        let before = conform.port().dump();
        assert_eq!(judge(&mut conform, [capture]), accepted([3, 2, 0, 0, 1]), "{shown}");
        assert_eq!(conform.port().dump(), before, "{shown}");
        let rejected = judge(&mut conform, [wrong]);
        assert_eq!(first_line(&rejected), "rejected line 4 place 0", "{shown}");
    }
    // The longest line that is a change.
    let longest = format!("gone{}\n", " ".repeat(1096));
    assert_eq!(w2_verdict(&longest), accepted([1, 0, 0, 1, 0]));
}

#[test]
fn lines_are_counted_over_those_passed_over() {
    let mut capture = Vec::new();
    for other in passed_over() {
        capture.extend(other);
        capture.push(b'\n');
    }
    let count = passed_over().len() as u64;
    capture.extend(line('B', &frame_acknowledging(1)).bytes());
    capture.extend(b"\n\n");
    capture.extend(MASK_10.bytes());
    capture.extend(b"# one more\r\n");
    capture.extend(line('A', &hex(W2)).bytes());
    let rejected = judge(&mut Conform::new(&w2_settings()), [&capture[..]]);
    assert_eq!(first_line(&rejected), format!("rejected line {} place 13", count + 6));
    let led = format!("due since line {}", count + 4);
    assert_eq!(rejected.lines().nth(4), Some(&led[..]));
    let left = format!("state as line {} left it", count + 4);
    assert_eq!(rejected.lines().nth(5), Some(&left[..]));
}

#[test]
fn the_lines_are_what_line_feeds_part() {
    let frame = line('A', &hex(W2));
    for (capture, counted) in [
        (String::new(), [0; 5]),
        ("\n".to_string(), [1, 0, 0, 0, 1]),
        ("\n\n".to_string(), [2, 0, 0, 0, 2]),
        (frame.trim_end().to_string(), [1, 1, 0, 0, 0]),
        (format!("B \n\n{}", frame.trim_end()), [3, 1, 1, 0, 1]),
        ("gone".to_string(), [1, 0, 0, 1, 0]),
        ("B \r\ngone\r\n".to_string(), [2, 0, 0, 0, 2]),
    ] {
        assert_eq!(w2_verdict(&capture), accepted(counted), "{capture:?}");
    }
    assert_eq!(first_line(&w2_verdict("\nA ")), "rejected line 2 place 0");
}

/// Nothing in such a capture is other than it should be; that it is one is seen by what was passed over.
#[test]
fn a_capture_in_capitals_or_with_carriage_returns_is_seen_to_be_one() {
    let Exchange { settings, .. } = captures::w6();
    let capture = view(&captures::w6().frames(), 0) + MASK_10 + "gone\nadmin 1\n";
    assert_eq!(verdict(&settings[0], &capture), accepted([11, 4, 4, 3, 0]));
    let all_passed_over = accepted([11, 0, 0, 0, 11]);
    for other in [
        capture.to_ascii_uppercase(),
        capture.replace('\n', "\r\n"),
        // The last line without its line feed, and a frame that would be rejected.
        capture.replace('\n', "\r\n").trim_end_matches('\n').to_string(),
        capture.to_ascii_uppercase().replacen("A FE37", "A FF37", 1),
        capture.replace('\n', "\r\n").replacen("A fe37", "A ff37", 1),
    ] {
        assert_eq!(verdict(&settings[0], &other), all_passed_over, "{other:?}");
    }
}

/// W6's view of A with lines of every kind between, then a frame that is not due, and more behind it.
fn mixed_capture() -> Vec<u8> {
    let frames = captures::w6().frames();
    let mut capture = Vec::new();
    let mut others = passed_over().into_iter().filter(|line| line.len() < 1200);
    for [a, b] in &frames {
        for frame in [line('A', a), line('B', b)] {
            capture.extend(frame.bytes());
            for other in others.by_ref().take(11) {
                capture.extend(other);
                capture.push(b'\n');
            }
        }
    }
    capture.extend(b"several 1\nseveral 0\n");
    capture.extend(line('A', &hex(W2)).repeat(2).bytes());
    capture.extend(line('A', &w2_frame(2, 0, 0x80, 0x08)).trim_end().bytes());
    capture
}

#[test]
fn the_input_may_be_cut_anywhere() {
    let [settings, _] = captures::masks();
    let capture = mixed_capture();
    let verdict_of = |blocks: Vec<&[u8]>| judge(&mut Conform::new(&settings), blocks);
    let whole = verdict_of(vec![&capture]);
    let lines = capture.iter().filter(|&&octet| octet == b'\n').count() + 1;
    assert_eq!(first_line(&whole), format!("rejected line {lines} place 13"));
    for size in (1..=300).chain([1100, 1101, capture.len()]) {
        assert_eq!(verdict_of(capture.chunks(size).collect()), whole, "blocks of {size}");
    }
    for at in (0..=capture.len()).step_by(7) {
        let (first, second) = capture.split_at(at);
        assert_eq!(verdict_of(vec![first, b"", second]), whole, "cut at {at}");
    }
}

fn setting_words(setting: &OwnedSetting) -> String {
    let [advertise, enable, willing] =
        [setting.advertise, setting.enable, setting.willing].map(u8::from);
    let words = format!("advertise {advertise} enable {enable} willing {willing}");
    if setting.parameters.is_empty() {
        return words;
    }
    let mut text = Text::default();
    text.put(" parameters ").octets(&setting.parameters);
    words + &String::from_utf8(text.0).unwrap()
}

/// An event as a line; none of what is no line of a capture.
fn event_line(event: &Event) -> Option<String> {
    match event {
        Event::Frame(octets) if octets.len() <= 513 => Some(line('B', octets)),
        Event::PeerGone => Some("gone\n".into()),
        Event::SetFlag(flag, on) => {
            let name = match flag {
                Flag::Enabled => "admin",
                Flag::Receive => "receive",
                Flag::Transmit => "transmit",
                Flag::SeveralNeighbours => "several",
            };
            Some(format!("{name} {}\n", u8::from(*on)))
        }
        Event::Change { feature, setting } => {
            Some(format!("set {feature} {}\n", setting_words(setting)))
        }
        Event::Take => Some("take\n".into()),
        _ => None,
    }
}

/// One port of the generator from its creation on: what was done there, and what it wrote.
struct Watched {
    conform: Conform,
    writes: u64,
}

impl Watched {
    fn line(&mut self, line: &str) {
        self.conform.line(line.trim_end_matches('\n').as_bytes());
    }

    fn wrote(&mut self, frame: &[u8]) {
        self.writes += 1;
        self.line(&line('A', frame));
        assert!(!self.conform.rejected());
    }
}

/// What a port writes, whenever it does, is accepted: any events, refused or not, at any settings.
#[test]
fn what_our_own_port_writes_is_accepted() {
    let mut generator = Generator::new(0x0e12);
    let (mut writes, mut stopped) = (0, 0);
    for _ in 0..60 {
        generator.start();
        let mut ports = [(); 4].map(|()| None::<Watched>);
        for _ in 0..400 {
            let (call, answer) = generator.step();
            let Some(watched) = ports.get_mut(usize::from(call.port).wrapping_sub(1)) else {
                continue;
            };
            if let Event::Create(settings) = &call.event {
                if answer.refusal == 0 {
                    *watched = Some(Watched { conform: Conform::new(settings), writes: 0 });
                }
            }
            let Some(watched) = watched else {
                continue;
            };
            if let Some(line) = event_line(&call.event) {
                watched.line(&line);
            }
            match written_at(generator.recorder(), call.port) {
                Some(frame) => watched.wrote(&frame),
                None => stopped += 1,
            }
        }
        for Watched { conform, writes: due } in ports.into_iter().flatten() {
            assert_eq!(conform.counts.sent, due);
            writes += due;
        }
    }
    assert!(writes > 10_000 && stopped > 1_000, "{writes} {stopped}");
}

/// Numbers stay at the highest of 64 bits.
#[test]
fn numbers_stay_at_the_highest() {
    let last = u64::MAX;
    let counts = Counts {
        lines: last - 2,
        sent: last - 1,
        given: last - 1,
        changes: last - 1,
        passed_over: last - 1,
    };
    let mut conform = Conform::new(&w2_settings());
    conform.counts = counts;
    let good = line('A', &hex(W2));
    let capture = format!("{good}{good}B \nB \ngone\ngone\n\n\n");
    assert_eq!(judge(&mut conform, [capture.as_bytes()]), accepted([last; 5]));
    let rejected = judge(&mut conform, [&b"transmit 0\nA \n"[..]]);
    assert_eq!(first_line(&rejected), format!("rejected line {last} place 0"));
    let left = format!("state as line {last} left it");
    assert_eq!(rejected.lines().nth(5), Some(&left[..]));
}
