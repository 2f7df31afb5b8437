//! What the programs have in common: arguments, faults, and the standard streams
//! (docs/FORMATS.md).

use crate::setup::{Behind, Failure};
use crate::text::{Fault, Text};
use std::ffi::OsStr;
use std::fs::File;
use std::io::{self, IsTerminal, Write};
use std::os::fd::AsFd;
use std::os::unix::ffi::OsStrExt;

/// The most octets of an argument.
const LONGEST_ARGUMENT: usize = 4095;
/// Lines between two signs of progress.
const STEP: u64 = 1_000_000;

/// Where the settings come from.
pub enum Source {
    Standard,
    File(File),
}

impl Source {
    /// The input of the settings, what may stand behind them there, and the input of the rest if it is another.
    pub fn inputs(self) -> Result<(File, Behind, Option<File>), Fault> {
        match self {
            Source::Standard => Ok((input()?, Behind::Anything, None)),
            Source::File(file) => Ok((file, Behind::Nothing, Some(input()?))),
        }
    }
}

/// Does what the arguments ask for. The program tells itself why settings cannot be used;
/// what else stops the work is told on standard error.
pub fn start(
    name: &str,
    usage: &str,
    bad_settings: impl Fn(&[u8]) -> Result<(), Fault>,
    work: impl FnOnce(Source) -> Result<(), Failure>,
) {
    let mut arguments = std::env::args_os().skip(1);
    let done = match (arguments.next(), arguments.next()) {
        (None, _) => work(Source::Standard),
        (Some(only), None) if only == "--help" => say(usage.as_bytes()).map_err(Failure::Fault),
        (Some(only), None) if may_be_file(&only) => match File::open(&only) {
            Ok(file) => work(Source::File(file)),
            Err(_) => {
                let why = [b"bad settings: ", only.as_bytes(), b" cannot be opened\n"].concat();
                bad_settings(&why).map_err(Failure::Fault)
            }
        },
        _ => {
            tell(usage.as_bytes());
            Ok(())
        }
    };
    let done = done.or_else(|failure| match failure {
        Failure::Settings(bad) => {
            let mut why = Text::default();
            bad.tell(&mut why);
            bad_settings(&why.0)
        }
        Failure::Fault(fault) => Err(fault),
    });
    match done {
        Ok(()) => {}
        Err(Fault::Read) => tell(format!("{name}: cannot read\n").as_bytes()),
        Err(Fault::Write) => tell(format!("{name}: cannot write\n").as_bytes()),
    }
}

fn may_be_file(argument: &OsStr) -> bool {
    let octets = argument.as_bytes();
    !octets.starts_with(b"-") && octets.len() <= LONGEST_ARGUMENT
}

/// Writes to standard output.
pub fn say(text: &[u8]) -> Result<(), Fault> {
    output()?.write_all(text).map_err(|_| Fault::Write)
}

/// Writes to standard error; where that fails, nobody is left to be told.
pub fn tell(text: &[u8]) {
    let _ = io::stderr().write_all(text);
}

/// Standard output has no more than that settings cannot be used; standard error says why.
pub fn bad_settings(why: &[u8]) -> Result<(), Fault> {
    say(b"bad settings\n")?;
    tell(why);
    Ok(())
}

/// Settings that were read; those that cannot be read from their file are bad ones too.
pub fn settings<T>(behind: Behind, read: Result<T, Failure>) -> Result<T, Failure> {
    if let (Behind::Nothing, Err(Failure::Fault(Fault::Read))) = (behind, &read) {
        say(b"bad settings\n")?;
    }
    read
}

/// How far the work is, for one who watches: a line on standard error that is
/// rewritten in place, and gone in the end.
pub struct Progress {
    name: &'static str,
    watched: bool,
    shown: u64,
}

impl Progress {
    pub fn new(name: &'static str) -> Self {
        Progress { name, watched: io::stderr().is_terminal(), shown: 0 }
    }

    pub fn show(&mut self, lines: u64) {
        if self.watched && lines / STEP > self.shown / STEP {
            self.shown = lines - lines % STEP;
            tell(format!("\r{}: {} lines", self.name, self.shown).as_bytes());
        }
    }
}

impl Drop for Progress {
    fn drop(&mut self) {
        if self.shown > 0 {
            tell(b"\r\x1b[K");
        }
    }
}

/// Standard input. That of std takes some failures for the end.
pub fn input() -> Result<File, Fault> {
    plain(io::stdin()).map_err(|_| Fault::Read)
}

/// Standard output. That of std takes some failures for a success; in place of one that was
/// closed, std opens /dev/null before we begin.
pub fn output() -> Result<File, Fault> {
    plain(io::stdout()).map_err(|_| Fault::Write)
}

fn plain(stream: impl AsFd) -> io::Result<File> {
    stream.as_fd().try_clone_to_owned().map(File::from)
}
