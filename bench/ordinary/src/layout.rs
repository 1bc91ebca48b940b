//! The octets of the table, as `docs/layout.md` gives them.

/// The session limits, and the largest pools of TEIDs and of addresses.
pub const LEAST_SESSIONS: usize = 2;
pub const MOST_SESSIONS: usize = 256;
pub const MOST_TEIDS: usize = 65_536;
pub const MOST_ADDRESSES: usize = 1_024;

pub const MOST_PDRS: usize = 16;
pub const MOST_ENDPOINTS: usize = 8;
pub const MOST_FQ_CSIDS: usize = 6;

/// Offsets in the table.
pub const LIMIT: usize = 37;
pub const PEERS: usize = 39;
pub const PEER: usize = 12;
pub const COUNT: usize = 63;
pub const SLOTS: usize = 65;

pub type Slot = [u8; 604];
pub type PdrSlot = [u8; 24];
pub type EndpointSlot = [u8; 11];
pub type FqCsidSlot = [u8; 20];

/// Values of a PDR's place.
pub const NEITHER: u8 = 0;
pub const TUNNEL: u8 = 1;
pub const ENDPOINT: u8 = 2;

pub const V4: u8 = 1;
pub const V6: u8 = 2;

pub fn u16_at(octets: &[u8], at: usize) -> u16 {
    u16::from_be_bytes([octets[at], octets[at + 1]])
}

pub fn u32_at(octets: &[u8], at: usize) -> u32 {
    u32::from_be_bytes([octets[at], octets[at + 1], octets[at + 2], octets[at + 3]])
}

pub fn u64_at(octets: &[u8], at: usize) -> u64 {
    u64::from(u32_at(octets, at)) << 32 | u64::from(u32_at(octets, at + 4))
}

pub fn put(octets: &mut [u8], at: usize, value: &[u8]) {
    octets[at..at + value.len()].copy_from_slice(value);
}

/// The length of a table for so many sessions, or nothing where a limit is not allowed.
pub fn table_length(limit: usize) -> Option<usize> {
    let allowed = (LEAST_SESSIONS..=MOST_SESSIONS).contains(&limit);
    allowed.then(|| SLOTS + limit * size_of::<Slot>())
}

/// The session slots of a table.
pub fn slots(table: &[u8]) -> &[Slot] {
    table[SLOTS..].as_chunks().0
}

pub fn slots_mut(table: &mut [u8]) -> &mut [Slot] {
    table[SLOTS..].as_chunks_mut().0
}

/// A session's key: its peer, then its SEID.
pub fn key(slot: &Slot) -> (u8, u64) {
    (slot[0], u64_at(slot, SEID))
}

/// A session's records: those in use.
pub struct Records<'a> {
    pub pdrs: &'a [PdrSlot],
    pub endpoints: &'a [EndpointSlot],
    pub fq_csids: &'a [FqCsidSlot],
}

/// Offsets in a slot, after the peer.
pub const SEID: usize = 1;
pub const COUNTS: usize = 9;
const PDRS: usize = 12;
const ENDPOINTS: usize = 396;
const FQ_CSIDS: usize = 484;

/// The areas of a slot, whole.
pub struct Areas<'a> {
    pub pdrs: &'a [PdrSlot],
    pub endpoints: &'a [EndpointSlot],
    pub fq_csids: &'a [FqCsidSlot],
}

pub fn areas(slot: &Slot) -> Areas<'_> {
    Areas {
        pdrs: slot[PDRS..ENDPOINTS].as_chunks().0,
        endpoints: slot[ENDPOINTS..FQ_CSIDS].as_chunks().0,
        fq_csids: slot[FQ_CSIDS..].as_chunks().0,
    }
}

pub fn records(slot: &Slot) -> Records<'_> {
    let whole = areas(slot);
    Records {
        pdrs: &whole.pdrs[..usize::from(slot[COUNTS])],
        endpoints: &whole.endpoints[..usize::from(slot[COUNTS + 1])],
        fq_csids: &whole.fq_csids[..usize::from(slot[COUNTS + 2])],
    }
}

/// One area of a slot that is being changed, with its count.
pub struct Area<'a, const N: usize> {
    count: &'a mut u8,
    room: &'a mut [[u8; N]],
}

/// The areas of a slot for changes: PDRs, endpoints, FQ-CSIDs.
pub fn areas_mut(slot: &mut Slot) -> (Area<'_, 24>, Area<'_, 11>, Area<'_, 20>) {
    let (head, rest) = slot.split_at_mut(PDRS);
    let (pdrs, rest) = rest.split_at_mut(ENDPOINTS - PDRS);
    let (endpoints, fq_csids) = rest.split_at_mut(FQ_CSIDS - ENDPOINTS);
    let [.., of_pdrs, of_endpoints, of_fq_csids] = head else { unreachable!("a head of 12") };
    (
        Area { count: of_pdrs, room: pdrs.as_chunks_mut().0 },
        Area { count: of_endpoints, room: endpoints.as_chunks_mut().0 },
        Area { count: of_fq_csids, room: fq_csids.as_chunks_mut().0 },
    )
}

impl<const N: usize> Area<'_, N> {
    pub fn used(&mut self) -> &mut [[u8; N]] {
        &mut self.room[..usize::from(*self.count)]
    }

    /// Puts a record before the first one with a greater key, in place of one with an equal key.
    pub fn insert<K: Ord>(&mut self, record: [u8; N], key: impl Fn(&[u8; N]) -> K) {
        let count = usize::from(*self.count);
        let at = self.room[..count].partition_point(|other| key(other) < key(&record));
        if at == count || key(&self.room[at]) != key(&record) {
            self.room.copy_within(at..count, at + 1);
            *self.count += 1;
        }
        self.room[at] = record;
    }

    /// Takes out the records that are not wanted and clears the room after the others.
    pub fn retain(&mut self, wanted: impl Fn(&[u8; N]) -> bool) {
        let mut kept = 0;
        for index in 0..usize::from(*self.count) {
            if wanted(&self.room[index]) {
                self.room[kept] = self.room[index];
                kept += 1;
            }
        }
        self.room[kept..usize::from(*self.count)].fill([0; N]);
        *self.count = kept as u8;
    }
}

pub fn pdr_id(pdr: &PdrSlot) -> u16 {
    u16_at(pdr, 0)
}

pub fn endpoint_id(endpoint: &EndpointSlot) -> u8 {
    endpoint[0]
}

pub fn node_type(fq_csid: &FqCsidSlot) -> u8 {
    fq_csid[0]
}

/// The address of a PDR or an endpoint: where it is said to be there, before the address itself.
pub const PDR_ADDRESS: usize = 19;
pub const ENDPOINT_ADDRESS: usize = 6;

/// Whether a record says that an address is there, 1 or 0 in a sound one, and the address.
pub fn address_at<const N: usize>(record: &[u8; N], at: usize) -> (u8, u32) {
    (record[at], u32_at(record, at + 1))
}

/// A record's five octets of an address that is there.
pub fn put_address(record: &mut [u8], at: usize, address: u32) {
    record[at] = 1;
    put(record, at + 1, &address.to_be_bytes());
}
