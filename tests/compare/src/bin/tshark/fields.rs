//! A frame field by field, in the dissector's names: what document 01's layout makes of the port
//! that wrote it.
//!
//! Known differences of tshark 4.0 from document 01:
//!
//! 1. An application's priority map is taken for one priority: the field's value is the number of
//!    the lowest bit, and there is no field where no bit is set. 001 ("appropriate bits set in
//!    user_priority_map") and 004 have a map, as document 01 has. The field's octet is the whole
//!    map, so no bit goes uncompared: `Layout::map` and `map_shown`.
//! 2. Versions are named by the table of DCBX subtypes (1 is "1.0 CIN"); 001 has plain numbers.
//!    Names are not compared.
//! 3. The last three octets of an LLDPDU, with DCBX or without, are left to Ethernet and shown once
//!    more as its trailer. The fields are shown all the same.
//! 4. A control's length is shown but not followed: frames have to be well-formed.

use crate::ports::Told;
use reference::events::{OwnedSetting, OwnedSettings};
use reference::layout::{self, CONTROL, CONTROL_LENGTH, FLOW_CONTROL, PRIORITY_GROUPS};
use reference::layout::{ENABLE, ERROR, FEATURE_HEAD, OUI, SUBTYPE, TLV_TYPE, WILLING};
use reference::text::place_name;
use reference::{Applications, Entry, FlowControl, Groups, Parameters};
use std::collections::BTreeMap;

#[derive(Clone, Debug, PartialEq, Eq)]
pub struct Field {
    /// All octets that it stands in, alone or with others.
    pub octets: Vec<u8>,
    pub value: u64,
}

/// By place in the frame and name. Names are without `lldp.`, with which all begin.
pub type Fields = BTreeMap<(usize, String), Field>;

/// Lays out a frame and notes what stands where.
#[derive(Default)]
pub struct Layout {
    pub octets: Vec<u8>,
    pub fields: Fields,
}

impl Layout {
    /// The frame of a port with these settings in this state, and the end of the LLDPDU behind it.
    pub fn of(settings: &OwnedSettings, state: &Told) -> Self {
        let features = settings.revision.features().zip(&settings.feature);
        let advertised = features.filter(|(_, (_, setting))| setting.advertise);
        let length = |setting: &OwnedSetting| FEATURE_HEAD + setting.parameters.len();
        let feature_octets = advertised.clone().map(|(_, (_, setting))| 2 + length(setting));
        let octets = OUI.len() + 1 + 2 + CONTROL_LENGTH + feature_octets.sum::<usize>();
        let mut layout = Layout::default();
        layout.head("tlv", TLV_TYPE, octets);
        layout.number("orgtlv.oui", &OUI);
        layout.number("dcbx.proto", &[SUBTYPE]);
        layout.head("dcbx", CONTROL, CONTROL_LENGTH);
        layout.number("dcbx.version", &state["Oper"]);
        layout.number("dcbx.max_version", &[settings.control_max]);
        layout.number("dcbx.control.seq", &state["SeqNo"]);
        layout.number("dcbx.control.ack", &state["AckNo"]);
        for (number, (max, setting)) in advertised {
            let name = place_name(number);
            layout.head("dcbx", number, length(setting));
            layout.number("dcbx.version", &state[&format!("{name} Oper")]);
            layout.number("dcbx.max_version", &[*max]);
            layout.flags(setting, state[&format!("{name} Error")] == [1]);
            layout.number("dcbx.feature.subtype", &[0]);
            layout.parameters(number, &setting.parameters);
        }
        layout.head("tlv", 0, 0);
        layout
    }

    /// Octets and the fields that share them.
    fn put(&mut self, octets: &[u8], fields: impl IntoIterator<Item = (String, u64)>) {
        for (name, value) in fields {
            let field = Field { octets: octets.to_vec(), value };
            self.fields.insert((self.octets.len(), name), field);
        }
        self.octets.extend(octets);
    }

    /// A number that fills its octets.
    fn number(&mut self, name: &str, octets: &[u8]) {
        let value = octets.iter().fold(0, |high, &low| high << 8 | u64::from(low));
        self.put(octets, [(name.into(), value)]);
    }

    fn head(&mut self, of: &str, kind: u8, length: usize) {
        let fields = [(format!("{of}.type"), kind.into()), (format!("{of}.len"), length as u64)];
        self.put(&layout::head(kind, length), fields);
    }

    fn flags(&mut self, setting: &OwnedSetting, error: bool) {
        let flags = [
            ("enabled", ENABLE, setting.enable),
            ("willing", WILLING, setting.willing),
            ("error", ERROR, error),
        ];
        let octet = flags.iter().map(|(_, bit, on)| bit * u8::from(*on)).sum();
        self.put(&[octet], flags.map(|(name, _, on)| (format!("dcbx.feature.{name}"), on.into())));
    }

    fn parameters(&mut self, feature: u8, octets: &[u8]) {
        const VALID: &str = "a valid setting";
        match feature {
            PRIORITY_GROUPS => self.groups(&Groups::read(octets).expect(VALID)),
            FLOW_CONTROL => self.flow(&FlowControl::read(octets).expect(VALID)),
            _ => {
                let applications = Applications::read(octets).expect(VALID);
                applications.entries().iter().for_each(|entry| self.application(entry));
            }
        }
    }

    fn groups(&mut self, groups: &Groups) {
        for (first, half) in [0, 4].into_iter().zip(groups.group.chunks(4)) {
            let octets = [half[0] << 4 | half[1], half[2] << 4 | half[3]];
            let named = |(p, &group)| (format!("dcbx.feature.pg.pgid_prio{p}"), u64::from(group));
            self.put(&octets, (first..).zip(half).map(named));
        }
        for (group, percentage) in groups.percentage.iter().enumerate() {
            self.number(&format!("dcbx.feature.pg.per{group}"), &[*percentage]);
        }
        self.number("dcbx.feature.pg.numtcs", &[groups.classes]);
    }

    fn flow(&mut self, flow: &FlowControl) {
        let bit = |p: u8| (format!("dcbx.feature.pfc.prio{p}"), u64::from(flow.mask >> p & 1));
        self.put(&[flow.mask], (0..8).map(bit));
        self.number("dcbx.feature.pfc.numtcs", &[flow.classes]);
    }

    fn application(&mut self, entry: &Entry) {
        self.number("dcbx.feature.app.proto", &entry.id.to_be_bytes());
        let fields = [("oui", 0x00_1b_21), ("sf", entry.selector.into())];
        let fields = fields.map(|(name, value)| (format!("dcbx.feature.app.{name}"), value));
        self.put(&[OUI[0] | entry.selector, OUI[1], OUI[2]], fields);
        self.map(entry.map);
    }

    fn map(&mut self, map: u8) {
        let lowest = ("dcbx.feature.app.prio".into(), map.trailing_zeros().into());
        self.put(&[map], (map != 0).then_some(lowest));
    }
}

/// The whole priority map of the entry at this place, as shown.
pub fn map_shown(fields: &Fields, entry: usize) -> u8 {
    fields.get(&(entry + 5, "dcbx.feature.app.prio".into())).map_or(0, |field| field.octets[0])
}
