//! What a port that is given a frame has to say of its peer, if the frame is as the dissector
//! shows it.

use crate::fields::{map_shown, Field, Fields};
use reference::layout::{APPLICATIONS, CONTROL, FLOW_CONTROL, OUI, PRIORITY_GROUPS};
use reference::text::place_name;
use reference::Reason;

/// A port that is given the frame: its highest versions, and what it has to say then, by the names
/// of `words::named`.
pub struct Receiver {
    pub control_max: u8,
    pub feature_max: [u8; 3],
    pub expected: Vec<(String, Vec<u8>)>,
}

/// Three, since a port holds no received version: the control's Oper of the first is the received
/// Max, so are the features' Opers of the second, and the third holds the peer only if each
/// received Oper is its own Max.
pub fn receivers(fields: &Fields) -> [Receiver; 3] {
    let control = SubTlv::find(fields, CONTROL).expect("a control");
    let features = [PRIORITY_GROUPS, FLOW_CONTROL, APPLICATIONS]
        .map(|number| (place_name(number), SubTlv::find(fields, number)));
    let oper = control.octet("dcbx.version");
    let opers = features
        .each_ref()
        .map(|(_, feature)| feature.as_ref().map_or(0, |feature| feature.octet("dcbx.version")));
    let mut maxes = Vec::new();
    let mut held = vec![
        ("Oper".into(), vec![oper]),
        ("AckNo".into(), control.number("dcbx.control.seq")),
        ("RcvdAckNo".into(), control.number("dcbx.control.ack")),
    ];
    for (name, feature) in &features {
        let Some(feature) = feature else {
            held.push((format!("{name} reason"), vec![Reason::Absent as u8]));
            held.push((format!("{name} peer"), vec![0]));
            continue;
        };
        maxes.push((format!("{name} Oper"), vec![feature.octet("dcbx.max_version")]));
        held.push((format!("{name} Oper"), vec![feature.octet("dcbx.version")]));
        held.push((format!("{name} peer"), vec![1]));
        for (flag, shown) in [("enable", "enabled"), ("willing", "willing"), ("error", "error")] {
            let value = feature.octet(&format!("dcbx.feature.{shown}"));
            held.push((format!("{name} peer {flag}"), vec![value]));
        }
        held.push((format!("{name} peer parameters"), feature.parameters()));
    }
    let max = vec![("Oper".into(), vec![control.octet("dcbx.max_version")])];
    [
        Receiver { control_max: 255, feature_max: [255; 3], expected: max },
        Receiver { control_max: oper, feature_max: [255; 3], expected: maxes },
        Receiver { control_max: oper, feature_max: opers, expected: held },
    ]
}

/// Whether the entry at this place is shown under our OUI. The field has the bits above the
/// selector and the two octets behind it.
fn is_ours(fields: &Fields, entry: usize) -> bool {
    fields[&(entry + 2, "dcbx.feature.app.oui".into())].value == 0x00_1b_21
}

/// How many entries are shown under another.
pub fn foreign(fields: &Fields) -> usize {
    let entries = fields.keys().filter(|(_, name)| name == "dcbx.feature.app.proto");
    entries.filter(|(place, _)| !is_ours(fields, *place)).count()
}

/// One sub-TLV as shown: the fields of the frame, and where it begins and ends.
struct SubTlv<'a> {
    fields: &'a Fields,
    from: usize,
    to: usize,
}

impl<'a> SubTlv<'a> {
    fn find(fields: &'a Fields, kind: u8) -> Option<Self> {
        let mut heads = fields.iter().filter(|((_, name), _)| name == "dcbx.type");
        let ((from, _), _) = heads.find(|(_, head)| head.value == kind.into())?;
        let length = fields[&(*from, "dcbx.len".into())].value as usize;
        Some(SubTlv { fields, from: *from, to: from + 2 + length })
    }

    /// All fields of one name, with their places.
    fn all<'b>(&'b self, name: &'b str) -> impl Iterator<Item = (usize, &'b Field)> {
        let part = self.fields.range((self.from, String::new())..(self.to, String::new()));
        part.filter(move |((_, other), _)| other == name).map(|((place, _), field)| (*place, field))
    }

    fn value(&self, name: &str) -> u64 {
        self.all(name).next().unwrap_or_else(|| panic!("no {name}")).1.value
    }

    fn octet(&self, name: &str) -> u8 {
        self.value(name) as u8
    }

    fn number(&self, name: &str) -> Vec<u8> {
        (self.value(name) as u32).to_be_bytes().to_vec()
    }

    /// The parameters of a feature as a port holds them.
    fn parameters(&self) -> Vec<u8> {
        match self.octet("dcbx.type") {
            PRIORITY_GROUPS => {
                let group = |p: u8| self.octet(&format!("dcbx.feature.pg.pgid_prio{p}"));
                let pairs = [0, 2, 4, 6].map(|p| group(p) << 4 | group(p + 1));
                let shares = (0..8).map(|g| self.octet(&format!("dcbx.feature.pg.per{g}")));
                let classes = self.octet("dcbx.feature.pg.numtcs");
                pairs.into_iter().chain(shares).chain([classes]).collect()
            }
            FLOW_CONTROL => {
                let bit = |p: u8| self.octet(&format!("dcbx.feature.pfc.prio{p}")) << p;
                vec![(0..8).map(bit).sum(), self.octet("dcbx.feature.pfc.numtcs")]
            }
            _ => {
                let entry = |(place, id): (usize, &Field)| {
                    let [high, low] = (id.value as u16).to_be_bytes();
                    let selector = self.fields[&(place + 2, "dcbx.feature.app.sf".into())].value;
                    let map = map_shown(self.fields, place);
                    [high, low, OUI[0] | selector as u8, OUI[1], OUI[2], map]
                };
                let ours = |(place, _): &(usize, &Field)| is_ours(self.fields, *place);
                self.all("dcbx.feature.app.proto").filter(ours).flat_map(entry).collect()
            }
        }
    }
}
