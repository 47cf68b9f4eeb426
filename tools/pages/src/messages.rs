//! The messages by their types: names, senders, and where each field stands in the payload.

/// Who sends a message.
#[derive(Clone, Copy, Debug, PartialEq, Eq)]
pub enum Sender {
    Car,
    Station,
    Modem,
}

/// How many octets a field has.
#[derive(Clone, Copy, Debug)]
pub enum Length {
    Fixed(usize),
    /// As many as the payload's octet at this place says.
    CountedAt(usize),
    /// Half an octet for each carrier; their number stands in the payload's first two octets.
    HalfOfCarriers,
}

/// How a field is shown.
#[derive(Clone, Copy, Debug)]
pub enum Shown {
    Address,
    Octets,
    /// A number, low octet first.
    Number,
    /// A number with a word for each value from 0 on.
    Words(&'static [&'static str]),
    /// Values of carrier groups, in dB.
    Groups,
    /// The NMK, which is not shown.
    Key,
}

#[derive(Clone, Copy, Debug)]
pub struct Field {
    pub name: &'static str,
    /// The first octet in the payload.
    pub at: usize,
    pub length: Length,
    pub shown: Shown,
}

#[derive(Debug)]
pub struct Message {
    pub number: u16,
    pub name: &'static str,
    pub sender: Sender,
    pub fields: &'static [Field],
}

const fn field(name: &'static str, at: usize, octets: usize, shown: Shown) -> Field {
    Field { name, at, length: Length::Fixed(octets), shown }
}

const fn number(name: &'static str, at: usize) -> Field {
    field(name, at, 1, Shown::Number)
}

const fn groups(at: usize, count_at: usize) -> Field {
    Field { name: "AAG", at, length: Length::CountedAt(count_at), shown: Shown::Groups }
}

const APPLICATION: Field = number("APPLICATION_TYPE", 0);
const SECURITY: Field = number("SECURITY_TYPE", 1);
/// Bit results and validation results, by their numbers.
const RESULTS: Shown = Shown::Words(&["success", "failure"]);
const VALIDATION: Shown =
    Shown::Words(&["not ready", "ready", "success", "failure", "not required"]);

pub const PARM_REQ: u16 = 0x6064;
pub const SOUND_IND: u16 = 0x6076;
pub const ATTEN_CHAR_IND: u16 = 0x606E;
pub const VALIDATE_REQ: u16 = 0x6078;
pub const VALIDATE_CNF: u16 = 0x6079;
pub const MATCH_CNF: u16 = 0x607D;
pub const PROFILE_IND: u16 = 0x6086;

/// The thirteen messages.
pub static MESSAGES: [Message; 13] = [
    Message {
        number: PARM_REQ,
        name: "CM_SLAC_PARM.REQ",
        sender: Sender::Car,
        fields: &[APPLICATION, SECURITY, field("RunID", 2, 8, Shown::Octets)],
    },
    Message {
        number: 0x6065,
        name: "CM_SLAC_PARM.CNF",
        sender: Sender::Station,
        fields: &[
            field("M-SOUND_TARGET", 0, 6, Shown::Address),
            number("NUM_SOUNDS", 6),
            number("Time_Out", 7),
            number("RESP_TYPE", 8),
            field("FORWARDING_STA", 9, 6, Shown::Address),
            number("APPLICATION_TYPE", 15),
            number("SECURITY_TYPE", 16),
            field("RunID", 17, 8, Shown::Octets),
        ],
    },
    Message {
        number: 0x606A,
        name: "CM_START_ATTEN_CHAR.IND",
        sender: Sender::Car,
        fields: &[
            APPLICATION,
            SECURITY,
            number("NUM_SOUNDS", 2),
            number("Time_Out", 3),
            number("RESP_TYPE", 4),
            field("FORWARDING_STA", 5, 6, Shown::Address),
            field("RunID", 11, 8, Shown::Octets),
        ],
    },
    Message {
        number: ATTEN_CHAR_IND,
        name: "CM_ATTEN_CHAR.IND",
        sender: Sender::Station,
        fields: &[
            APPLICATION,
            SECURITY,
            field("SOURCE_ADDRESS", 2, 6, Shown::Address),
            field("RunID", 8, 8, Shown::Octets),
            field("SOURCE_ID", 16, 17, Shown::Octets),
            field("RESP_ID", 33, 17, Shown::Octets),
            number("NUM_SOUNDS", 50),
            number("NumGroups", 51),
            groups(52, 51),
        ],
    },
    Message {
        number: 0x606F,
        name: "CM_ATTEN_CHAR.RSP",
        sender: Sender::Car,
        fields: &[
            APPLICATION,
            SECURITY,
            field("SOURCE_ADDRESS", 2, 6, Shown::Address),
            field("RunID", 8, 8, Shown::Octets),
            field("SOURCE_ID", 16, 17, Shown::Octets),
            field("RESP_ID", 33, 17, Shown::Octets),
            field("Result", 50, 1, RESULTS),
        ],
    },
    Message {
        number: SOUND_IND,
        name: "CM_MNBC_SOUND.IND",
        sender: Sender::Car,
        fields: &[
            APPLICATION,
            SECURITY,
            field("SENDER_ID", 2, 17, Shown::Octets),
            number("Cnt", 19),
            field("RunID", 20, 8, Shown::Octets),
            field("RSVD", 28, 8, Shown::Octets),
            field("Rnd", 36, 16, Shown::Octets),
        ],
    },
    Message {
        number: VALIDATE_REQ,
        name: "CM_VALIDATE.REQ",
        sender: Sender::Car,
        fields: &[number("SignalType", 0), number("Timer", 1), field("Result", 2, 1, VALIDATION)],
    },
    Message {
        number: VALIDATE_CNF,
        name: "CM_VALIDATE.CNF",
        sender: Sender::Station,
        fields: &[
            number("SignalType", 0),
            number("ToggleNum", 1),
            field("Result", 2, 1, VALIDATION),
        ],
    },
    Message {
        number: 0x607C,
        name: "CM_SLAC_MATCH.REQ",
        sender: Sender::Car,
        fields: &[
            APPLICATION,
            SECURITY,
            field("MVFLength", 2, 2, Shown::Number),
            field("PEV ID", 4, 17, Shown::Octets),
            field("PEV MAC", 21, 6, Shown::Address),
            field("EVSE ID", 27, 17, Shown::Octets),
            field("EVSE MAC", 44, 6, Shown::Address),
            field("RunID", 50, 8, Shown::Octets),
            field("RSVD", 58, 8, Shown::Octets),
        ],
    },
    Message {
        number: MATCH_CNF,
        name: "CM_SLAC_MATCH.CNF",
        sender: Sender::Station,
        fields: &[
            APPLICATION,
            SECURITY,
            field("MVFLength", 2, 2, Shown::Number),
            field("PEV ID", 4, 17, Shown::Octets),
            field("PEV MAC", 21, 6, Shown::Address),
            field("EVSE ID", 27, 17, Shown::Octets),
            field("EVSE MAC", 44, 6, Shown::Address),
            field("RunID", 50, 8, Shown::Octets),
            field("RSVD", 58, 8, Shown::Octets),
            field("NID", 66, 7, Shown::Octets),
            field("RSVD", 73, 1, Shown::Octets),
            field("NMK", 74, 16, Shown::Key),
        ],
    },
    Message {
        number: PROFILE_IND,
        name: "CM_ATTEN_PROFILE.IND",
        sender: Sender::Modem,
        fields: &[
            field("PEV MAC", 0, 6, Shown::Address),
            number("NumGroups", 6),
            field("RSVD", 7, 1, Shown::Octets),
            groups(8, 6),
        ],
    },
    Message {
        number: 0x601C,
        name: "CM_AMP_MAP.REQ",
        sender: Sender::Car,
        fields: &[
            field("AMLEN", 0, 2, Shown::Number),
            Field { name: "AMDATA", at: 2, length: Length::HalfOfCarriers, shown: Shown::Octets },
        ],
    },
    Message {
        number: 0x601D,
        name: "CM_AMP_MAP.CNF",
        sender: Sender::Station,
        fields: &[field("ResType", 0, 1, RESULTS)],
    },
];
