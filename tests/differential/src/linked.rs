//! The archive that the programs of this package link, as a product.

use crate::product::{Product, Reading, WriteRestoration};

extern "C" {
    fn pfcp_table_length(session_limit: u32) -> usize;
    fn pfcp_make_table(
        table: *mut u8,
        table_len: usize,
        ipv4: u32,
        ipv6: *const u8,
        ipv6_len: usize,
        first_teid: u32,
        pool_size: u32,
        first_address: u32,
        address_count: u32,
        session_limit: u32,
        address1: u32,
        guarantee1: u32,
        limit1: u32,
        address2: u32,
        guarantee2: u32,
        limit2: u32,
    ) -> u32;
    fn pfcp_free_count(table: *const u8, table_len: usize, count: *mut u32) -> u32;
    fn pfcp_free_addresses(table: *const u8, table_len: usize, count: *mut u32) -> u32;
    fn pfcp_request(
        table: *mut u8,
        table_len: usize,
        peer: u32,
        message: *const u8,
        message_len: usize,
        reply: *mut u8,
        reply_len: usize,
        reply_used: *mut usize,
        place: *mut usize,
    ) -> u32;
    fn pfcp_store_length() -> usize;
    fn pfcp_make_store(store: *mut u8, store_len: usize) -> u32;
    fn pfcp_request_once(
        table: *mut u8,
        table_len: usize,
        peer: u32,
        store: *mut u8,
        store_len: usize,
        message: *const u8,
        message_len: usize,
        reply: *mut u8,
        reply_len: usize,
        reply_used: *mut usize,
        place: *mut usize,
    ) -> u32;
    #[cfg(feature = "restoration")]
    fn pfcp_write_restoration(
        table: *const u8,
        table_len: usize,
        place: usize,
        cp_ipv4: *const u8,
        cp_ipv4_len: usize,
        cp_ipv6: *const u8,
        cp_ipv6_len: usize,
        space: *mut u8,
        space_len: usize,
        used: *mut usize,
        peer: *mut u32,
    ) -> u32;
    #[cfg(feature = "reading")]
    fn pfcp_session_count(table: *const u8, table_len: usize, count: *mut u32) -> u32;
    #[cfg(feature = "reading")]
    fn pfcp_find_session(
        table: *const u8,
        table_len: usize,
        peer: u32,
        seid: u64,
        place: *mut usize,
    ) -> u32;
    #[cfg(feature = "reading")]
    fn pfcp_find_teid(table: *const u8, table_len: usize, teid: u32, place: *mut usize) -> u32;
    #[cfg(feature = "reading")]
    fn pfcp_peer_count(
        table: *const u8,
        table_len: usize,
        peer: u32,
        sessions: *mut u32,
        teids: *mut u32,
    ) -> u32;
    #[cfg(feature = "reading")]
    fn pfcp_counts(
        table: *const u8,
        table_len: usize,
        sessions1: *mut u32,
        teids1: *mut u32,
        sessions2: *mut u32,
        teids2: *mut u32,
        free_teids: *mut u32,
        free_addresses: *mut u32,
    ) -> u32;
}

#[cfg(feature = "restoration")]
const WRITE_RESTORATION: Option<WriteRestoration> = Some(pfcp_write_restoration);

#[cfg(not(feature = "restoration"))]
const WRITE_RESTORATION: Option<WriteRestoration> = None;

#[cfg(feature = "reading")]
const READING: Option<Reading> = Some(Reading {
    session_count: pfcp_session_count,
    find_session: pfcp_find_session,
    find_teid: pfcp_find_teid,
    peer_count: pfcp_peer_count,
    counts: pfcp_counts,
});

#[cfg(not(feature = "reading"))]
const READING: Option<Reading> = None;

pub fn product() -> Product {
    Product {
        table_length: pfcp_table_length,
        make_table: pfcp_make_table,
        free_count: pfcp_free_count,
        free_addresses: pfcp_free_addresses,
        request: pfcp_request,
        store_length: pfcp_store_length,
        make_store: pfcp_make_store,
        request_once: pfcp_request_once,
        write_restoration: WRITE_RESTORATION,
        reading: READING,
    }
}
