//! A reference engine for four DCBX ports with one log, each of Rev 1.0 or 1.01,
//! written from documents 01 and 02 alone.
//!
//! The modules follow the sections of document 01. The engine works in place
//! and allocates nothing; only `dump`, `View`, the event generator and the text
//! forms of the programs do.

pub mod capture;
pub mod change;
pub mod conform;
pub mod dump;
pub mod events;
pub mod layout;
pub mod log;
pub mod outcome;
pub mod port;
pub mod program;
pub mod recorder;
pub mod refusal;
pub mod replay;
pub mod revision;
pub mod rng;
pub mod rounds;
pub mod settings;
pub mod setup;
pub mod show;
pub mod text;
pub mod why;
pub mod words;

pub use dump::{PeerView, View};
pub use layout::{Applications, Entry, FlowControl, Groups, Parameters};
pub use log::{Log, Notice};
pub use outcome::{Advert, Feature, Peer, Reason};
pub use port::{ControlState, Flag, Flags, Port};
pub use recorder::{Recorder, PORTS};
pub use refusal::Refusal;
pub use revision::Revision;
pub use settings::{FeatureSetting, Setting, Settings};
pub use why::Why;
