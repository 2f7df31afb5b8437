//! What has occurred at the reference: engines are compared only where something happens.

use compare::{Step, What};
use reference::events::{Answer, Event};
use reference::layout::{self, Found, APPLICATIONS};
use reference::why::why;
use reference::{Log, Notice, Port, Reason, Recorder, Revision, View};

/// How often what has occurred.
#[derive(Debug, Default)]
pub struct Coverage {
    /// 13 to 15 are not given yet.
    refusals: [u32; 17],
    /// Refusals 5 to 8, which have a place other than 0: at 6, the first, and later.
    places: [[u32; 2]; 4],
    /// By feature, then by reason.
    became: [[u32; 10]; 3],
    notices: [u32; 11],
    broken_controls: BrokenControls,
    old_ports: OldPorts,
    /// By feature.
    waiting: [Waiting; 3],
    dropped_by: DroppedBy,
    /// A dropped count that stayed at its end, by port.
    dropped_stayed: [u32; 4],
    seqno_wrapped: u32,
    featureseqno_wrapped: u32,
    looks: u32,
}

/// What became of the broken control mark, and of notice 1.
#[derive(Debug, Default)]
struct BrokenControls {
    /// By refusal: 7 and 8 where the mark was off, and where it kept the notice back.
    raised: [u32; 2],
    kept_back: [u32; 2],
    /// Notice 1 found the log full.
    dropped_one: u32,
    /// The mark went off: by refusals 3 to 6, by a frame that was taken, by a fresh state.
    cleared_by_refusal: [u32; 4],
    cleared_by_frame: u32,
    cleared_by_fresh_state: u32,
    /// It was on, and another event left it.
    left: u32,
}

impl BrokenControls {
    fn note(&mut self, event: &Event, refusal: u8, before: &Port, after: &Port) {
        let (was, is) = (before.control().broken_control, after.control().broken_control);
        let is_frame = matches!(event, Event::Frame(_));
        let count = match (refusal, was, is) {
            (number @ 7..=8, false, true) => &mut self.raised[usize::from(number) - 7],
            (number @ 7..=8, true, true) => &mut self.kept_back[usize::from(number) - 7],
            (number @ 3..=6, true, false) => &mut self.cleared_by_refusal[usize::from(number) - 3],
            (_, true, false) if is_frame => &mut self.cleared_by_frame,
            (_, true, false) => &mut self.cleared_by_fresh_state,
            (_, true, true) => &mut self.left,
            _ => return,
        };
        *count += 1;
    }

    fn all_occurred(&self) -> bool {
        let rest =
            [self.dropped_one, self.cleared_by_frame, self.cleared_by_fresh_state, self.left];
        let all = [&self.raised[..], &self.kept_back, &self.cleared_by_refusal, &rest];
        all.concat().iter().all(|&count| count > 0)
    }
}

/// What occurred at ports of Rev 1.0.
#[derive(Debug, Default)]
struct OldPorts {
    created: u32,
    /// Of these, beside applications that 1.01 would refuse.
    created_beside_invalid: u32,
    /// A frame was taken with applications that 1.01 would count.
    type_4_skipped: u32,
    /// 11 for a setting of type 4 that is valid, and for one that is not.
    type_4_refused: [u32; 2],
}

impl OldPorts {
    fn note(&mut self, event: &Event, refusal: u8, after: &Port) {
        if after.revision() != Revision::R1_0 {
            return;
        }
        match event {
            Event::Create(settings) if refusal == 0 => {
                let invalid = why(APPLICATIONS, &settings.feature[2].1.parameters).is_some();
                self.created += 1;
                self.created_beside_invalid += u32::from(invalid);
            }
            Event::Frame(octets) if refusal == 0 => {
                let skipped = layout::read(octets, Revision::R1_01)
                    .is_ok_and(|frame| frame.applications != Found::Absent);
                self.type_4_skipped += u32::from(skipped);
            }
            Event::Change { feature: APPLICATIONS, setting } if refusal == 11 => {
                let invalid = why(APPLICATIONS, &setting.parameters).is_some();
                self.type_4_refused[usize::from(invalid)] += 1;
            }
            _ => {}
        }
    }

    fn all_occurred(&self) -> bool {
        let [valid, invalid] = self.type_4_refused;
        [self.created, self.created_beside_invalid, self.type_4_skipped, valid, invalid]
            .iter()
            .all(|&count| count > 0)
    }
}

/// What became of changes that wait for an acknowledgement (document 02, E5), at one feature.
#[derive(Clone, Copy, Debug, Default)]
struct Waiting {
    /// The first change that waits, a further one, and back to what was released.
    changed: u32,
    changed_again: u32,
    changed_back: u32,
    added: u32,
    added_back: u32,
    withdrawn: u32,
    withdrawn_back: u32,
    /// Oper or Error, by a frame.
    outcome: u32,
    /// What waited was released: with a new SeqNo, of these with 0 behind the highest, and in a fresh state.
    released: u32,
    released_at_the_wrap: u32,
    released_fresh: u32,
    /// A withdrawal was released at once, a frame did not acknowledge one, and one did.
    withdrawn_at_once: u32,
    withdrawal_stays: u32,
    withdrawal_acknowledged: u32,
}

impl Waiting {
    fn note(&mut self, event: &Event, ports: [&Port; 2], views: &[View; 2]) {
        let [was, is] = views;
        let [old, new] = ports.map(|port| port.control().seqno);
        if !ports.iter().all(|port| port.running()) {
            return;
        }
        let stays = old == new;
        let count = match (event, was.advertise, is.advertise) {
            _ if was.waits && !is.waits && !stays => {
                self.released_at_the_wrap += u32::from(old == u32::MAX && new == 0);
                &mut self.released
            }
            (Event::Change { .. }, false, true) if is.waits => &mut self.added,
            (Event::Change { .. }, false, true) if stays => &mut self.added_back,
            (Event::Change { .. }, true, false) if is.waits => &mut self.withdrawn,
            (Event::Change { .. }, true, false) if stays => &mut self.withdrawn_back,
            (Event::Change { .. }, true, false) => &mut self.withdrawn_at_once,
            (Event::Change { .. }, ..) if was == is => return,
            (Event::Change { .. }, ..) if is.waits && was.waits => &mut self.changed_again,
            (Event::Change { .. }, ..) if is.waits => &mut self.changed,
            (Event::Change { .. }, ..) if was.waits => &mut self.changed_back,
            (Event::Frame(_), true, _) if is.waits && !was.waits => &mut self.outcome,
            (Event::Frame(_), false, _) if is.syncd && !was.syncd => {
                &mut self.withdrawal_acknowledged
            }
            (Event::Frame(_), false, _) if !is.syncd => &mut self.withdrawal_stays,
            (Event::PeerGone | Event::SetFlag(..), ..) if was.waits && !is.waits => {
                &mut self.released_fresh
            }
            _ => return,
        };
        *count += 1;
    }

    fn all_occurred(&self) -> bool {
        [
            self.changed,
            self.changed_again,
            self.changed_back,
            self.added,
            self.added_back,
            self.withdrawn,
            self.withdrawn_back,
            self.outcome,
            self.released,
            self.released_at_the_wrap,
            self.released_fresh,
            self.withdrawn_at_once,
            self.withdrawal_stays,
            self.withdrawal_acknowledged,
        ]
        .iter()
        .all(|&count| count > 0)
    }
}

/// Whose write found the log full.
#[derive(Debug, Default)]
struct DroppedBy {
    holding_none: u32,
    holding_fewer: u32,
    holding_15: u32,
    holding_16: u32,
    holding_more: u32,
    /// Where several others held most, by the port that lost one.
    tie: [u32; 4],
}

impl DroppedBy {
    /// The first notice that a port wrote in an event.
    fn note(&mut self, before: &Log, writer: u8) {
        let Some(loser) = before.loser(writer) else {
            return;
        };
        let count = match before.held(writer) {
            0 => &mut self.holding_none,
            1..=14 => &mut self.holding_fewer,
            15 => &mut self.holding_15,
            16 => &mut self.holding_16,
            _ => &mut self.holding_more,
        };
        *count += 1;
        let most = (1..=4).filter(|&port| before.held(port) == before.held(loser)).count();
        if before.held(writer) < 16 && most > 1 {
            self.tie[usize::from(loser) - 1] += 1;
        }
    }

    fn all_occurred(&self) -> bool {
        // Port 4 is never the lowest of several.
        let tie = &self.tie[..3];
        [self.holding_none, self.holding_fewer, self.holding_15, self.holding_16]
            .iter()
            .chain([&self.holding_more])
            .chain(tie)
            .all(|&count| count > 0)
    }
}

impl Coverage {
    /// A step and its answer.
    pub fn note(&mut self, step: &Step, answer: &Answer, before: &Recorder, after: &Recorder) {
        self.note_refusal(answer);
        self.looks += u32::from(step.what == What::Look);
        if let (What::Event(event), Ok(was), Ok(is)) =
            (&step.what, before.port(step.port), after.port(step.port))
        {
            self.note_port(event, was, is);
            self.broken_controls.note(event, answer.refusal, was, is);
            self.old_ports.note(event, answer.refusal, is);
            self.note_log(before.log(), &answer.raised);
        }
    }

    fn note_refusal(&mut self, answer: &Answer) {
        self.refusals[usize::from(answer.refusal)] += 1;
        if let 5..=8 = answer.refusal {
            let [first, later] = &mut self.places[usize::from(answer.refusal) - 5];
            *first += u32::from(answer.place == 6);
            *later += u32::from(answer.place > 6);
        }
    }

    /// What an event did to its port.
    fn note_port(&mut self, event: &Event, before: &Port, after: &Port) {
        if before.control().seqno == u32::MAX && after.control().seqno == 0 {
            self.seqno_wrapped += u32::from(after.control().rcvdackno == u32::MAX);
        }
        for ((became, waiting), number) in self.became.iter_mut().zip(&mut self.waiting).zip(2..) {
            let views = [before.feature(number), after.feature(number)];
            waiting.note(event, [before, after], &views);
            let [was, is] = views;
            if was.reason != is.reason {
                became[is.reason as usize] += 1;
            }
            let changed = was.featureseqno != is.featureseqno;
            self.featureseqno_wrapped += u32::from(changed && is.featureseqno == 0);
        }
    }

    /// What an event did to the log.
    fn note_log(&mut self, before: &Log, raised: &[Notice]) {
        for notice in raised {
            self.notices[usize::from(notice.number)] += 1;
        }
        let Some(first) = raised.first() else {
            return;
        };
        self.dropped_by.note(before, first.port);
        if let Some(loser) = before.loser(first.port) {
            let stayed = before.dropped(loser) == u32::MAX;
            self.dropped_stayed[usize::from(loser) - 1] += u32::from(stayed);
            self.broken_controls.dropped_one += u32::from(first.number == 1);
        }
    }

    pub fn all_occurred(&self) {
        for (number, &count) in self.refusals.iter().enumerate() {
            assert_eq!(count > 0, !(13..16).contains(&number), "{self:#?}");
        }
        assert!(self.places.as_flattened().iter().all(|&count| count > 0), "{self:#?}");
        assert!(self.notices[1..].iter().all(|&count| count > 0), "{self:#?}");
        assert!(self.broken_controls.all_occurred(), "{self:#?}");
        assert!(self.old_ports.all_occurred(), "{self:#?}");
        assert!(self.waiting.iter().all(Waiting::all_occurred), "{self:#?}");
        for reason in Reason::ALL {
            let each = self.became.map(|counts| counts[reason as usize]);
            assert!(each.iter().all(|&count| count > 0), "{reason:?} {self:#?}");
        }
        assert!(self.dropped_by.all_occurred(), "{self:#?}");
        assert!(self.dropped_stayed.iter().all(|&count| count > 0), "{self:#?}");
        let rare = [self.seqno_wrapped, self.featureseqno_wrapped, self.looks];
        assert!(rare.iter().all(|&count| count > 0), "{self:#?}");
    }
}
