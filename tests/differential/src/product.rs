//! The calls of a product. Empty slices are passed as null.

use std::net::Ipv4Addr;

use second::settings::Peer;

pub type TableLength = unsafe extern "C" fn(u32) -> usize;
#[rustfmt::skip]
pub type MakeTable = unsafe extern "C" fn(
    *mut u8, usize, u32, *const u8, usize, u32, u32, u32, u32, u32, u32, u32, u32, u32, u32, u32,
) -> u32;
pub type FreeCount = unsafe extern "C" fn(*const u8, usize, *mut u32) -> u32;
#[rustfmt::skip]
pub type Request = unsafe extern "C" fn(
    *mut u8, usize, u32, *const u8, usize, *mut u8, usize, *mut usize, *mut usize,
) -> u32;
#[rustfmt::skip]
pub type WriteRestoration = unsafe extern "C" fn(
    *const u8, usize, usize, *const u8, usize, *const u8, usize, *mut u8, usize, *mut usize, *mut u32,
) -> u32;

pub type StoreLength = unsafe extern "C" fn() -> usize;
pub type MakeStore = unsafe extern "C" fn(*mut u8, usize) -> u32;
#[rustfmt::skip]
pub type RequestOnce = unsafe extern "C" fn(
    *mut u8, usize, u32, *mut u8, usize, *const u8, usize, *mut u8, usize, *mut usize, *mut usize,
) -> u32;

pub type FindSession = unsafe extern "C" fn(*const u8, usize, u32, u64, *mut usize) -> u32;
pub type FindTeid = unsafe extern "C" fn(*const u8, usize, u32, *mut usize) -> u32;
pub type PeerCount = unsafe extern "C" fn(*const u8, usize, u32, *mut u32, *mut u32) -> u32;
#[rustfmt::skip]
pub type Counts = unsafe extern "C" fn(
    *const u8, usize, *mut u32, *mut u32, *mut u32, *mut u32, *mut u32, *mut u32,
) -> u32;

/// The calls that read a table. The first has the same form as the free count.
#[derive(Clone, Copy)]
pub struct Reading {
    pub session_count: FreeCount,
    pub find_session: FindSession,
    pub find_teid: FindTeid,
    pub peer_count: PeerCount,
    pub counts: Counts,
}

impl Reading {
    /// The outcome and the number of sessions.
    pub fn session_count(&self, table: &[u8]) -> (u32, usize) {
        let mut count = 0xA5A5_A5A5;
        let outcome = unsafe { (self.session_count)(pointer(table), table.len(), &mut count) };
        (outcome, count as usize)
    }

    /// The outcome and the place of a peer's SEID.
    pub fn find_session(&self, table: &[u8], peer: u32, seid: u64) -> (u32, usize) {
        let mut place = usize::MAX;
        let outcome =
            unsafe { (self.find_session)(pointer(table), table.len(), peer, seid, &mut place) };
        (outcome, place)
    }

    /// The outcome, and how many sessions and TEIDs a peer has.
    pub fn peer_count(&self, table: &[u8], peer: u32) -> (u32, u32, u32) {
        let (mut sessions, mut teids) = (0xA5A5_A5A5, 0xA5A5_A5A5);
        let outcome = unsafe {
            (self.peer_count)(pointer(table), table.len(), peer, &mut sessions, &mut teids)
        };
        (outcome, sessions, teids)
    }

    /// The outcome and all counts: the sessions and TEIDs of peer 1, those of peer 2, the free TEIDs and
    /// the free addresses.
    pub fn counts(&self, table: &[u8]) -> (u32, [u32; 6]) {
        let mut n = [0xA5A5_A5A5; 6];
        let [a, b, c, d, e, f] = &mut n;
        let outcome = unsafe { (self.counts)(pointer(table), table.len(), a, b, c, d, e, f) };
        (outcome, n)
    }

    /// The outcome and the place of the session that holds a TEID.
    pub fn find_teid(&self, table: &[u8], teid: u32) -> (u32, usize) {
        let mut place = usize::MAX;
        let outcome = unsafe { (self.find_teid)(pointer(table), table.len(), teid, &mut place) };
        (outcome, place)
    }
}

#[derive(Clone, Copy)]
pub struct Product {
    pub table_length: TableLength,
    pub make_table: MakeTable,
    pub free_count: FreeCount,
    pub free_addresses: FreeCount,
    pub request: Request,
    pub store_length: StoreLength,
    pub make_store: MakeStore,
    pub request_once: RequestOnce,
    /// Nothing where the product has no such call.
    pub write_restoration: Option<WriteRestoration>,
    /// Nothing where the product has no such calls.
    pub reading: Option<Reading>,
}

impl Product {
    pub fn table_length(&self, session_limit: u32) -> usize {
        unsafe { (self.table_length)(session_limit) }
    }

    pub fn make_table(
        &self,
        table: &mut [u8],
        ipv4: [u8; 4],
        ipv6: &[u8],
        (first, size): (u32, u32),
        (first_address, addresses): (Ipv4Addr, u32),
        (session_limit, [one, two]): (u32, [Peer; 2]),
    ) -> u32 {
        unsafe {
            (self.make_table)(
                pointer_mut(table),
                table.len(),
                u32::from_be_bytes(ipv4),
                pointer(ipv6),
                ipv6.len(),
                first,
                size,
                first_address.into(),
                addresses,
                session_limit,
                u32::from_be_bytes(one.address),
                one.guarantee,
                one.limit,
                u32::from_be_bytes(two.address),
                two.guarantee,
                two.limit,
            )
        }
    }

    /// The outcome and the number of free addresses.
    pub fn free_addresses(&self, table: &[u8]) -> (u32, u32) {
        let mut count = 0xA5A5_A5A5;
        let outcome = unsafe { (self.free_addresses)(pointer(table), table.len(), &mut count) };
        (outcome, count)
    }

    /// The outcome and the count.
    pub fn free_count(&self, table: &[u8]) -> (u32, u32) {
        let mut count = 0xA5A5_A5A5;
        let outcome = unsafe { (self.free_count)(pointer(table), table.len(), &mut count) };
        (outcome, count)
    }

    /// The outcome, the length of the reply, and the place of a fault.
    pub fn request(
        &self,
        table: &mut [u8],
        peer: u32,
        message: &[u8],
        space: &mut [u8],
    ) -> (u32, usize, usize) {
        let (mut used, mut place) = (usize::MAX, usize::MAX);
        let outcome = unsafe {
            (self.request)(
                pointer_mut(table),
                table.len(),
                peer,
                pointer(message),
                message.len(),
                pointer_mut(space),
                space.len(),
                &mut used,
                &mut place,
            )
        };
        (outcome, used, place)
    }

    pub fn store_length(&self) -> usize {
        unsafe { (self.store_length)() }
    }

    pub fn make_store(&self, store: &mut [u8]) -> u32 {
        unsafe { (self.make_store)(pointer_mut(store), store.len()) }
    }

    /// The outcome, the length of the reply, and the place of a fault.
    pub fn request_once(
        &self,
        table: &mut [u8],
        peer: u32,
        store: &mut [u8],
        message: &[u8],
        space: &mut [u8],
    ) -> (u32, usize, usize) {
        let (mut used, mut place) = (usize::MAX, usize::MAX);
        let outcome = unsafe {
            (self.request_once)(
                pointer_mut(table),
                table.len(),
                peer,
                pointer_mut(store),
                store.len(),
                pointer(message),
                message.len(),
                pointer_mut(space),
                space.len(),
                &mut used,
                &mut place,
            )
        };
        (outcome, used, place)
    }

    /// The outcome, the length of the request and the peer to run it under; a product without the call
    /// gives another outcome than any of its.
    pub fn write_restoration(
        &self,
        table: &[u8],
        place: usize,
        ipv4: &[u8],
        ipv6: &[u8],
        space: &mut [u8],
    ) -> (u32, usize, u32) {
        let Some(write) = self.write_restoration else { return (u32::MAX, 0, 0) };
        let (mut used, mut peer) = (usize::MAX, u32::MAX);
        let outcome = unsafe {
            write(
                pointer(table),
                table.len(),
                place,
                pointer(ipv4),
                ipv4.len(),
                pointer(ipv6),
                ipv6.len(),
                pointer_mut(space),
                space.len(),
                &mut used,
                &mut peer,
            )
        };
        (outcome, used, peer)
    }
}

fn pointer(octets: &[u8]) -> *const u8 {
    match octets.is_empty() {
        true => std::ptr::null(),
        false => octets.as_ptr(),
    }
}

fn pointer_mut(octets: &mut [u8]) -> *mut u8 {
    match octets.is_empty() {
        true => std::ptr::null_mut(),
        false => octets.as_mut_ptr(),
    }
}
