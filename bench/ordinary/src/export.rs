//! The C interface of `include/pfcp_session.h`, under the names `ordinary_*`, or `pfcp_*` with the
//! feature `as_pfcp`. The caller passes pointers as that header says.

use std::slice;

use crate::{free_addresses, free_count, handle, handle_once, make_store, make_table};
use crate::{Peer, Settings};

/// A slice from a pointer and a length; an empty one may have any pointer.
///
/// # Safety
/// Unless the length is 0, the pointer is valid for it.
unsafe fn lent<'a>(octets: *const u8, length: usize) -> &'a [u8] {
    match length {
        0 => &[],
        _ => unsafe { slice::from_raw_parts(octets, length) },
    }
}

/// # Safety
/// As `lent`, and nothing else reads or writes the octets meanwhile.
unsafe fn lent_mut<'a>(octets: *mut u8, length: usize) -> &'a mut [u8] {
    match length {
        0 => &mut [],
        _ => unsafe { slice::from_raw_parts_mut(octets, length) },
    }
}

#[cfg_attr(not(feature = "as_pfcp"), export_name = "ordinary_table_length")]
#[cfg_attr(feature = "as_pfcp", export_name = "pfcp_table_length")]
pub extern "C" fn table_length(session_limit: u32) -> usize {
    crate::table_length(session_limit as usize).unwrap_or(0)
}

/// # Safety
/// As the header says.
#[cfg_attr(not(feature = "as_pfcp"), export_name = "ordinary_make_table")]
#[cfg_attr(feature = "as_pfcp", export_name = "pfcp_make_table")]
pub unsafe extern "C" fn make(
    table: *mut u8,
    table_len: usize,
    ipv4: u32,
    ipv6: *const u8,
    ipv6_len: usize,
    first_teid: u32,
    pool_size: u32,
    first_address: u32,
    address_count: u32,
    session_limit: u32,
    address1: u32,
    guarantee1: u32,
    limit1: u32,
    address2: u32,
    guarantee2: u32,
    limit2: u32,
) -> u32 {
    let (table, ipv6) = unsafe { (lent_mut(table, table_len), lent(ipv6, ipv6_len)) };
    let ipv6 = match (ipv6.len(), ipv6.try_into()) {
        (0, _) => None,
        (_, Ok(address)) => Some(address),
        _ => return 1,
    };
    let settings = Settings {
        ipv4: ipv4.to_be_bytes(),
        ipv6,
        first: first_teid,
        size: pool_size,
        first_address,
        addresses: address_count,
        limit: session_limit as usize,
        peers: [
            Peer { address: address1.to_be_bytes(), guarantee: guarantee1, limit: limit1 },
            Peer { address: address2.to_be_bytes(), guarantee: guarantee2, limit: limit2 },
        ],
    };
    u32::from(!make_table(table, &settings))
}

/// # Safety
/// As the header says.
#[cfg_attr(not(feature = "as_pfcp"), export_name = "ordinary_free_count")]
#[cfg_attr(feature = "as_pfcp", export_name = "pfcp_free_count")]
pub unsafe extern "C" fn free(table: *const u8, table_len: usize, count: *mut u32) -> u32 {
    let answer = free_count(unsafe { lent(table, table_len) });
    unsafe { *count = answer.unwrap_or(0) };
    u32::from(answer.is_none())
}

/// # Safety
/// As the header says.
#[cfg_attr(not(feature = "as_pfcp"), export_name = "ordinary_free_addresses")]
#[cfg_attr(feature = "as_pfcp", export_name = "pfcp_free_addresses")]
pub unsafe extern "C" fn free_of_addresses(
    table: *const u8,
    table_len: usize,
    count: *mut u32,
) -> u32 {
    let answer = free_addresses(unsafe { lent(table, table_len) });
    unsafe { *count = answer.unwrap_or(0) };
    u32::from(answer.is_none())
}

/// # Safety
/// As the header says.
#[cfg_attr(not(feature = "as_pfcp"), export_name = "ordinary_request")]
#[cfg_attr(feature = "as_pfcp", export_name = "pfcp_request")]
pub unsafe extern "C" fn request(
    table: *mut u8,
    table_len: usize,
    peer: u32,
    message: *const u8,
    message_len: usize,
    reply: *mut u8,
    reply_len: usize,
    reply_used: *mut usize,
    place: *mut usize,
) -> u32 {
    let table = unsafe { lent_mut(table, table_len) };
    let (message, space) = unsafe { (lent(message, message_len), lent_mut(reply, reply_len)) };
    let answer = handle(table, peer, message, space);
    let (used, at) = answer.unwrap_or((0, 0));
    unsafe { (*reply_used, *place) = (used, at) };
    answer.err().unwrap_or(0)
}

#[cfg_attr(not(feature = "as_pfcp"), export_name = "ordinary_store_length")]
#[cfg_attr(feature = "as_pfcp", export_name = "pfcp_store_length")]
pub extern "C" fn store_length() -> usize {
    crate::store::LENGTH
}

/// # Safety
/// As the header says.
#[cfg_attr(not(feature = "as_pfcp"), export_name = "ordinary_make_store")]
#[cfg_attr(feature = "as_pfcp", export_name = "pfcp_make_store")]
pub unsafe extern "C" fn make_a_store(store: *mut u8, store_len: usize) -> u32 {
    u32::from(!make_store(unsafe { lent_mut(store, store_len) }))
}

/// # Safety
/// As the header says.
#[cfg_attr(not(feature = "as_pfcp"), export_name = "ordinary_request_once")]
#[cfg_attr(feature = "as_pfcp", export_name = "pfcp_request_once")]
pub unsafe extern "C" fn request_once(
    table: *mut u8,
    table_len: usize,
    peer: u32,
    store: *mut u8,
    store_len: usize,
    message: *const u8,
    message_len: usize,
    reply: *mut u8,
    reply_len: usize,
    reply_used: *mut usize,
    place: *mut usize,
) -> u32 {
    let (table, store) = unsafe { (lent_mut(table, table_len), lent_mut(store, store_len)) };
    let (message, space) = unsafe { (lent(message, message_len), lent_mut(reply, reply_len)) };
    let answer = handle_once(table, peer, store, message, space);
    let (used, at) = answer.unwrap_or((0, 0));
    unsafe { (*reply_used, *place) = (used, at) };
    answer.err().unwrap_or(0)
}
