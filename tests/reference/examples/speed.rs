//! Time for one read, one handled frame and one write, at four ports in turn, in
//! nanoseconds. `cargo run --release --offline --example speed`

use reference::layout::{self, LONGEST_FRAME};
use reference::{Recorder, Revision, Setting, Settings, PORTS};
use std::hint::black_box;
use std::time::Instant;

fn time(name: &str, mut work: impl FnMut(u32)) {
    let times = 2_000_000;
    let start = Instant::now();
    for i in 0..times {
        work(i);
    }
    println!("{name:32} {:7.1} ns", start.elapsed().as_nanos() as f64 / f64::from(times));
}

fn main() {
    let setting =
        |parameters| Setting { advertise: true, enable: true, willing: false, parameters };
    let entries: Vec<u8> = (0..16).flat_map(|i| [0x89, i, 0, 0x1b, 0x21, 8]).collect();
    let port = |i: u32| 1 + (i % PORTS as u32) as u8;
    for applications in [&entries[..6], &entries] {
        let settings = Settings {
            control_max: 0,
            groups: (0, setting(&[0, 1, 0, 0, 50, 50, 0, 0, 0, 0, 0, 0, 2])),
            flow: (0, setting(&[8, 8])),
            applications: Some((0, setting(applications))),
        };
        let mut recorder = Recorder::blank();
        for port in 1..=PORTS as u8 {
            recorder.create(port, &settings).unwrap();
        }
        let mut octets = [0; LONGEST_FRAME];
        let length = recorder.write(1, &mut octets).unwrap();
        println!("a frame of {length} octets");
        let frame = &mut octets[..length];
        time("read", |_| {
            black_box(layout::read(black_box(frame), Revision::R1_01).unwrap());
        });
        time("handle, the same frame", |i| {
            black_box(recorder.frame(port(i), black_box(frame)).unwrap());
        });
        time("handle, AckNo and Error change", |i| {
            frame[13] = i as u8;
            // The peer's mask changes: compatible, then not.
            let flow = 6 + 12 + 19;
            frame[flow + 6] = if i & 4 == 0 { 0x08 } else { 0x10 };
            black_box(recorder.frame(port(i), black_box(frame)).unwrap());
        });
        let mut out = [0; LONGEST_FRAME];
        time("write", |i| {
            black_box(recorder.write(port(i), black_box(&mut out)).unwrap());
        });
    }
    println!("a recorder is {} octets", std::mem::size_of::<Recorder>());
}
