//! Why a setting is invalid, and settings in words.

use reference::events::{random, OwnedSettings};
use reference::layout::{APPLICATIONS, FLOW_CONTROL, PRIORITY_GROUPS};
use reference::rng::XorShift;
use reference::setup::{self, Bad, Behind, Failure, PortSettings};
use reference::text::{Lines, Text};
use reference::why::why;
use reference::words::{Due, Unread};
use reference::{refusal, Recorder, Setting};

/// Whether a recorder refuses such a setting with 9.
fn refused(feature: u8, parameters: &[u8]) -> bool {
    let setting = Setting { advertise: true, enable: true, willing: false, parameters };
    Recorder::blank().change(1, feature, &setting) == Err(refusal::INVALID_SETTING)
}

#[test]
fn there_is_a_reason_exactly_where_9_is_given() {
    let mut rng = XorShift::new(9);
    for _ in 0..20_000 {
        for feature in PRIORITY_GROUPS..=APPLICATIONS {
            let valid = random::valid(&mut rng, feature, true);
            assert_eq!(why(feature, &valid), None);
            let invalid = random::invalid(&mut rng, feature, true);
            assert!(why(feature, &invalid).is_some(), "{feature}: {invalid:?}");
            let any = random::near(&mut rng, feature, &valid, false);
            assert_eq!(why(feature, &any).is_some(), refused(feature, &any), "{feature}: {any:?}");
        }
    }
}

#[test]
fn all_of_flow_control_has_its_reason() {
    for mask in 0..=255 {
        for classes in 0..=255 {
            let parameters = [mask, classes];
            let reason = why(FLOW_CONTROL, &parameters);
            assert_eq!(reason.is_some(), refused(FLOW_CONTROL, &parameters), "{parameters:?}");
        }
    }
}

fn read(lines: &[u8]) -> Result<Vec<PortSettings>, Failure> {
    let mut lines = Lines::new(lines, Vec::new());
    setup::ports(&mut lines, Behind::Nothing, &mut Text::default())
}

/// A port's lines of random settings.
fn random_lines(rng: &mut XorShift) -> (OwnedSettings, Vec<u8>) {
    let settings = random::settings(rng);
    let mut recorder = Recorder::blank();
    recorder.create(1, &settings.lend()).expect("valid settings");
    let mut lines = Text::default();
    lines.settings_lines(recorder.port(1).expect("a port"));
    (settings, lines.0)
}

#[test]
fn settings_as_shown_are_settings() {
    let mut rng = XorShift::new(10);
    for _ in 0..5_000 {
        let (settings, lines) = random_lines(&mut rng);
        let ports = read(&lines).expect("settings");
        assert_eq!(ports.len(), 1);
        let read = ports[0].settings.lend();
        assert_eq!(read, settings.lend(), "{}", String::from_utf8_lossy(&lines));
    }
}

#[test]
fn the_first_wrong_word_is_named() {
    let mut rng = XorShift::new(11);
    for _ in 0..200 {
        let text = String::from_utf8(random_lines(&mut rng).1).expect("ASCII");
        let lines: Vec<Vec<&str>> = text.lines().map(|line| line.split(' ').collect()).collect();
        for at in 0..lines.len() {
            // Also one word too many.
            for place in 0..=lines[at].len() {
                let mut wrong = lines.clone();
                wrong[at].truncate(place);
                wrong[at].extend(["?", "?"]);
                let wrong: Vec<String> = wrong.iter().map(|line| line.join(" ")).collect();
                assert_eq!(unread_word(&wrong.join("\n")), (at + 1, place + 1), "{wrong:?}");
            }
        }
    }
}

/// The line and the word that cannot be read.
fn unread_word(text: &str) -> (usize, usize) {
    match read(text.as_bytes()) {
        Err(Failure::Settings(bad)) => match bad.bad {
            Bad::Unread(Unread::Word(word, _)) => (bad.line as usize, word as usize),
            other => panic!("{other:?}"),
        },
        _ => panic!("these can be read: {text}"),
    }
}

/// Two ends, whose lines may stand beside others or not.
#[test]
fn behind_two_ends() {
    let mut rng = XorShift::new(12);
    for _ in 0..500 {
        let ends = [random_lines(&mut rng), random_lines(&mut rng)];
        let count = |lines: &[u8]| lines.iter().filter(|&&octet| octet == b'\n').count() as u32;
        let text = [&b"# two\n\n"[..], &ends[0].1, b"# B\n", &ends[1].1].concat();
        for (more, unread) in [
            ("", None),
            ("\n# nothing\n", None),
            ("A 00\n", Some(Unread::Word(1, Due::Word("control")))),
            ("# one\n\nshow\r\n", Some(Unread::CarriageReturn)),
        ] {
            let all = [&text, more.as_bytes()].concat();
            let mut lines = Lines::new(&all[..], Vec::new());
            let out = &mut Text::default();
            let nothing = setup::two_ends(&mut lines, Behind::Nothing, out);
            match (nothing, unread) {
                (Ok(read), None) => {
                    assert_eq!(read[0].lend(), ends[0].0.lend());
                    assert_eq!(read[1].lend(), ends[1].0.lend());
                }
                (Err(Failure::Settings(bad)), Some(unread)) => {
                    let line = count(&text) + count(more.as_bytes());
                    assert_eq!((bad.line, bad.bad), (line, Bad::Unread(unread)));
                }
                (other, _) => panic!("{other:?}"),
            }
            // What stands behind is not read as lines, and all of it comes.
            let mut lines = Lines::new(&all[..], Vec::new());
            assert!(setup::two_ends(&mut lines, Behind::Anything, out).is_ok());
            assert_eq!(lines.next_block(out), Ok(more.as_bytes()));
            assert_eq!(lines.next_block(out), Ok(&b""[..]));
        }
    }
}
