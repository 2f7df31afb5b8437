//! The log that four ports share: what a full one drops, and for whom it counts.

mod common;
use common::*;
use reference::{Flag, Notice, Recorder};

/// Four ports with W2's settings.
fn recorder() -> Recorder {
    let mut recorder = Recorder::blank();
    for port in 1..=4 {
        recorder.create(port, &w2_settings().lend()).unwrap();
    }
    recorder
}

/// Raises one notice: 1, 3, 4 or 5.
fn raise(recorder: &mut Recorder, port: u8, number: u8) {
    let before = recorder.log().written();
    match number {
        1 => {
            assert_eq!(refused_frame(recorder, port, &tlv("02 00")).number, 7);
            assert_eq!(refused_frame(recorder, port, &tlv("")).number, 6);
        }
        3 => turn(recorder, port, Flag::SeveralNeighbours, true),
        4 => turn(recorder, port, Flag::Transmit, false),
        _ => turn(recorder, port, Flag::Receive, false),
    }
    let raised: Vec<Notice> = recorder.log().since(before).collect();
    assert_eq!(raised, [Notice { port, number, feature: 0 }]);
}

/// Turns a flag on or off, and back.
fn turn(recorder: &mut Recorder, port: u8, flag: Flag, on: bool) {
    recorder.set_flag(port, flag, on).unwrap();
    recorder.set_flag(port, flag, !on).unwrap();
}

/// A recorder whose ports hold so many, each its oldest notice a 3, then 4 and 5
/// in turn; the ports write in turn as long as they have any to write.
fn holding(counts: [usize; 4]) -> Recorder {
    let mut recorder = recorder();
    for i in 0..64 {
        for port in 1..=4 {
            if i < counts[usize::from(port) - 1] {
                raise(&mut recorder, port, if i == 0 { 3 } else { 4 + i as u8 % 2 });
            }
        }
    }
    assert_eq!((held(&recorder), dropped(&recorder)), (counts, [0; 4]));
    recorder
}

fn held(recorder: &Recorder) -> [usize; 4] {
    [1, 2, 3, 4].map(|port| recorder.log().held(port))
}

fn dropped(recorder: &Recorder) -> [u32; 4] {
    [1, 2, 3, 4].map(|port| recorder.log().dropped(port))
}

/// One write by this port into a log that is full: exactly the oldest of `loser` goes,
/// whether an accepted event writes or a refused frame.
fn loses(recorder: &mut Recorder, writer: u8, loser: u8) {
    loses_for(&mut recorder.clone(), writer, 1, loser);
    loses_for(recorder, writer, 5, loser);
}

fn loses_for(recorder: &mut Recorder, writer: u8, number: u8, loser: u8) {
    let mut expected: Vec<Notice> = recorder.log().notices().collect();
    assert_eq!(expected.len(), 64);
    let oldest = expected.iter().position(|notice| notice.port == loser).unwrap();
    expected.remove(oldest);
    expected.push(Notice { port: writer, number, feature: 0 });
    let mut counts = dropped(recorder);
    counts[usize::from(loser) - 1] += 1;
    raise(recorder, writer, number);
    assert_eq!(recorder.log().notices().collect::<Vec<_>>(), expected);
    assert_eq!(dropped(recorder), counts);
}

#[test]
fn sixty_four_held_unevenly() {
    let mut recorder = holding([40, 3, 20, 1]);
    assert_eq!(recorder.log().count(), 64);
    for (port, count) in [(3, 20), (1, 40), (4, 1), (2, 3)] {
        for i in 0..count {
            let number = if i == 0 { 3 } else { 4 + i % 2 };
            assert_eq!(recorder.take(port), Ok(Notice { port, number, feature: 0 }));
        }
        assert_eq!(recorder.take(port), Err(12));
    }
    assert_eq!(recorder.log().count(), 0);
}

#[test]
fn the_lowest_number_on_a_tie() {
    let mut recorder = holding([25, 25, 10, 4]);
    loses(&mut recorder, 4, 1);
    assert_eq!(held(&recorder), [24, 25, 10, 5]);
    loses(&mut recorder, 4, 2);
    loses(&mut recorder, 3, 1);
    loses(&mut recorder, 3, 2);
    assert_eq!(held(&recorder), [23, 23, 12, 6]);
    assert_eq!(dropped(&recorder), [2, 2, 0, 0]);
    loses(&mut holding([4, 24, 24, 12]), 1, 2);
    loses(&mut holding([4, 12, 24, 24]), 2, 3);
    // Three of them.
    loses(&mut holding([18, 18, 18, 10]), 4, 1);
    loses(&mut holding([10, 18, 18, 18]), 1, 2);
}

#[test]
fn a_writer_that_holds_16() {
    for port in 1..=4 {
        loses(&mut holding([16; 4]), port, port);
    }
    // Though others hold more.
    loses(&mut holding([40, 16, 4, 4]), 2, 2);
    loses(&mut holding([17, 17, 13, 17]), 4, 4);
    loses(&mut holding([0, 0, 64, 0]), 3, 3);
}

#[test]
fn a_writer_that_holds_15() {
    let mut recorder = holding([15, 17, 16, 16]);
    loses(&mut recorder, 1, 2);
    // It has 16 now, and all have.
    assert_eq!(held(&recorder), [16; 4]);
    loses(&mut recorder, 1, 1);
    loses(&mut holding([15, 16, 16, 17]), 1, 4);
    loses(&mut holding([2, 32, 15, 15]), 4, 2);
}

#[test]
fn a_writer_that_holds_none() {
    let mut recorder = holding([0, 30, 30, 4]);
    loses(&mut recorder, 1, 2);
    loses(&mut recorder, 1, 3);
    assert_eq!(held(&recorder), [2, 29, 29, 4]);
    loses(&mut holding([64, 0, 0, 0]), 4, 1);
    // One that has taken all it had.
    let mut recorder = holding([30, 4, 30, 0]);
    for _ in 0..4 {
        recorder.take(2).unwrap();
        raise(&mut recorder, 4, 4);
    }
    loses(&mut recorder, 2, 1);
}

#[test]
fn one_event_drops_at_several_ports() {
    // Three notices of one frame; the two that hold most lose in turn.
    let mut recorder = holding([25, 25, 10, 4]);
    recorder.frame(4, &frame(&vec![control(0, 0, 1, 1)])).unwrap();
    assert_eq!(held(&recorder), [23, 24, 10, 7]);
    assert_eq!(dropped(&recorder), [2, 1, 0, 0]);
    // A writer with 15 drops another's oldest, then its own.
    let mut recorder = holding([15, 17, 16, 16]);
    recorder.frame(1, &frame(&vec![control(0, 0, 1, 1)])).unwrap();
    assert_eq!(held(&recorder), [16; 4]);
    assert_eq!(dropped(&recorder), [2, 1, 0, 0]);
}

#[test]
fn counts_stay_at_their_end() {
    let last = u32::MAX;
    let mut recorder = holding([25, 25, 10, 4]);
    for port in 1..=4 {
        recorder.set_dropped(port, last - 1).unwrap();
    }
    loses(&mut recorder, 4, 1);
    assert_eq!(dropped(&recorder), [last, last - 1, last - 1, last - 1]);
    raise(&mut recorder, 1, 4);
    assert_eq!(dropped(&recorder), [last, last - 1, last - 1, last - 1]);
    assert_eq!(held(&recorder), [24, 25, 10, 5]);
    (0..3).for_each(|_| raise(&mut recorder, 3, 4));
    assert_eq!(dropped(&recorder), [last, last, last - 1, last - 1]);
    assert_eq!(held(&recorder), [23, 23, 13, 5]);
    // What goes at the end of a count goes all the same.
    let notices: Vec<Notice> = recorder.log().of(1).collect();
    raise(&mut recorder, 1, 4);
    assert_eq!(recorder.log().of(1).take(22).collect::<Vec<_>>(), notices[1..]);
}

#[test]
fn a_creation_leaves_the_log() {
    let mut recorder = holding([25, 25, 10, 4]);
    recorder.set_dropped(2, 9).unwrap();
    let before = recorder.log().dump();
    let others = [1, 3, 4].map(|port| recorder.port(port).unwrap().dump());
    let mut invalid = w2_settings();
    invalid.feature[0].1.parameters = vec![];
    assert_eq!(recorder.create(2, &invalid.lend()), Err(9));
    recorder.frame(2, &hex(W2)).unwrap();
    assert_eq!(recorder.create(2, &w2_settings().lend()), Ok(true));
    assert_eq!(recorder.log().dump(), before);
    assert_eq!(recorder.port(2).unwrap().dump(), w2_port().port_dump());
    assert_eq!([1, 3, 4].map(|port| recorder.port(port).unwrap().dump()), others);
}
