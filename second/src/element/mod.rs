//! Readers and writers of the four elements with an inner order of their own. They work on the
//! value octets, without the element's type and length.

pub mod f_seid;
pub mod f_teid;
pub mod fq_csid;
pub mod ue_ip;

/// Why a reader refuses a value. `Empty` and `Short` are cause 68, the rest is 69.
#[derive(Clone, Copy, PartialEq, Eq, PartialOrd, Ord, Debug)]
pub enum Refusal {
    Empty,
    Short,
    Bad(Bad),
}

/// What is bad about a value that is long enough.
#[derive(Clone, Copy, PartialEq, Eq, PartialOrd, Ord, Debug)]
pub enum Bad {
    /// F-TEID or F-SEID with neither V4 nor V6.
    NoFamily,
    /// F-TEID with CHID and without CH.
    ChooseIdWithoutChoose,
    /// F-TEID of an endpoint with CHID.
    ChooseIdInEndpoint,
    /// F-SEID with SEID 0.
    NullSeid,
    /// FQ-CSID with a Node-ID type other than 0, 1, 2.
    NodeIdType,
    /// FQ-CSID with a node type of 6 to 15.
    NodeType,
    /// FQ-CSID of Node-ID type 2 whose top 20 bits are over 999,999.
    CountryAndNetwork,
    /// FQ-CSID with m = 0 whose Node-ID type or address is not zero.
    RemovalNotZero,
    /// FQ-CSID whose m is not one for this message.
    NumberOfCsids,
    /// UE IP Address with neither V4 nor CHV4.
    NoAddress,
    /// UE IP Address with both.
    AddressAndChoose,
}

pub const CAUSE_LENGTH: u8 = 68;
pub const CAUSE_INCORRECT: u8 = 69;

impl Refusal {
    pub fn cause(&self) -> u8 {
        match self {
            Refusal::Empty | Refusal::Short => CAUSE_LENGTH,
            Refusal::Bad(_) => CAUSE_INCORRECT,
        }
    }
}

/// The four octets at the front of a part, as a number, if there are four.
pub fn front_u32(part: &[u8]) -> Option<u32> {
    part.first_chunk::<4>().map(|octets| u32::from_be_bytes(*octets))
}

/// Copies a finished value into the space, or refuses for too little space and writes nothing.
/// Octets after the written value stay.
fn put(value: &[u8], space: &mut [u8]) -> Option<usize> {
    space.get_mut(..value.len())?.copy_from_slice(value);
    Some(value.len())
}
