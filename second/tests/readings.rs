//! The readings of document 01 for framing and reading (stages 2 and 3), row by row. The first
//! fault is compared as (cause, offending type).

mod common;

use common::*;
use second::request::{first_fault, first_place, header, read, Record};

/// A sound Create PDR.
fn sound() -> Vec<u8> {
    create_pdr(1, &[])
}

fn fault_50(parts: &[Vec<u8>]) -> Option<(u8, u16)> {
    first_fault(&establishment(1, parts))
}

fn fault_52(parts: &[Vec<u8>]) -> Option<(u8, u16)> {
    first_fault(&modification(1, parts))
}

fn fault_54(parts: &[Vec<u8>]) -> Option<(u8, u16)> {
    first_fault(&deletion(1, parts))
}

fn fault_14(parts: &[Vec<u8>]) -> Option<(u8, u16)> {
    first_fault(&set_deletion(parts))
}

fn records_52(parts: &[Vec<u8>]) -> Vec<Record> {
    let message = modification(1, parts);
    read(&header::test(&message).unwrap(), &message).unwrap().records
}

/// A group of this type around octets that do not frame.
fn unframed(ie_type: u16) -> Vec<u8> {
    ie(ie_type, &[0, 1, 0])
}

#[test]
fn only_groups_acted_on_are_opened() {
    for opened in [1, 127] {
        assert_eq!(fault_50(&[sound(), unframed(opened)]), Some((68, opened)));
    }
    for opened in [1, 127, 9, 15, 130] {
        assert_eq!(fault_52(&[unframed(opened)]), Some((68, opened)));
        assert_eq!(fault_54(&[unframed(opened)]), None);
    }
    for skipped in [9, 15, 130, 129, 2, 8, 128, 40000] {
        assert_eq!(fault_50(&[sound(), unframed(skipped)]), None, "{skipped}");
    }
    for skipped in [129, 2, 8, 128, 40000] {
        assert_eq!(fault_52(&[unframed(skipped)]), None, "{skipped}");
    }
    // A PDI is opened inside Create PDR and Update PDR, and nowhere else.
    assert_eq!(fault_52(&[group(9, &[pdr_id(1), unframed(2)])]), Some((68, 2)));
    assert_eq!(fault_52(&[group(1, &[pdr_id(1), unframed(2)])]), Some((68, 2)));
    assert_eq!(fault_52(&[group(15, &[pdr_id(1), unframed(2)])]), None);
    let in_pdi = group(2, &[source(0), unframed(2), unframed(1)]);
    assert_eq!(fault_52(&[group(1, &[pdr_id(1), precedence(1), in_pdi])]), None);
}

#[test]
fn framing_goes_depth_first_in_octet_order() {
    let over = |ie_type| ie_claiming(ie_type, 9, &[]);
    assert_eq!(fault_50(&[over(40000)]), Some((68, 40000)));
    assert_eq!(fault_54(&[over(65)]), Some((68, 65)));
    assert_eq!(fault_54(&[over(777)]), Some((68, 777)));
    // Inside a group first, then the next element.
    let inner = group(1, &[group(2, &[over(20)])]);
    assert_eq!(fault_52(&[inner.clone(), vec![0]]), Some((68, 20)));
    assert_eq!(fault_52(&[group(15, &[over(40000)]), inner]), Some((68, 40000)));
    // The group's own frame comes before its members.
    assert_eq!(fault_52(&[ie_claiming(1, 99, &over(56))]), Some((68, 1)));
    // A member may not run past its group although the message goes on.
    let member = ie_claiming(56, 3, &[0, 1]);
    assert_eq!(fault_52(&[group(15, &[member]), remove_pdr(2)]), Some((68, 56)));
    for left in 1..=3 {
        assert_eq!(fault_52(&[vec![0; left]]), Some((68, 0)));
        assert_eq!(fault_52(&[group(130, &[endpoint_id(1), vec![0; left]])]), Some((68, 130)));
        let pdi = group(2, &[source(0), vec![0; left]]);
        assert_eq!(fault_50(&[group(1, &[pdi])]), Some((68, 2)));
    }
    // Four octets are an element of their own: type 0, nothing in it.
    assert_eq!(fault_52(&[vec![0; 4]]), None);
    // Stage 2 goes over the whole message before stage 3.
    assert_eq!(fault_52(&[group(15, &[]), vec![0]]), Some((68, 0)));
}

#[test]
fn a_second_pdi() {
    let pdi = || group(2, &[source(0)]);
    let twice = group(1, &[pdr_id(1), precedence(1), pdi(), pdi()]);
    assert_eq!(fault_50(&[twice]), Some((69, 2)));
    let twice = group(1, &[pdr_id(1), precedence(1), pdi(), unframed(2)]);
    assert_eq!(fault_50(&[twice]), Some((68, 2)));
    // Its value is not read: it lacks a Source Interface.
    let twice = group(1, &[pdi(), group(2, &[])]);
    assert_eq!(fault_50(&[twice]), Some((69, 2)));
    assert_eq!(fault_52(&[update_pdr(1, &[pdi(), pdi()])]), Some((69, 2)));
    // One PDI in an Update PDR is framed, and its members are not read.
    assert_eq!(fault_52(&[update_pdr(1, &[group(2, &[ie(21, &[]), ie(21, &[0])])])]), None);
    assert_eq!(fault_52(&[update_pdr(1, &[unframed(2)])]), Some((68, 2)));
}

#[test]
fn missing_members() {
    // A PDI closes before the next member of its Create PDR is read.
    let pdr = group(1, &[pdr_id(1), group(2, &[endpoint_id(1)]), ie(29, &[])]);
    assert_eq!(fault_50(&[pdr]), Some((66, 20)));
    let pdr = group(1, &[ie(29, &[]), group(2, &[endpoint_id(1)])]);
    assert_eq!(fault_50(&[pdr]), Some((68, 29)));
    // "after a group's own, lowest type first"
    assert_eq!(fault_50(&[group(1, &[ie(108, &[])])]), Some((68, 108)));
    assert_eq!(fault_50(&[group(1, &[])]), Some((66, 2)));
    assert_eq!(fault_50(&[group(1, &[group(2, &[source(0)])])]), Some((66, 29)));
    assert_eq!(fault_50(&[group(1, &[group(2, &[source(0)]), precedence(1)])]), Some((66, 56)));
    assert_eq!(fault_50(&[sound(), group(127, &[])]), Some((67, 21)));
    assert_eq!(fault_50(&[sound(), group(127, &[ie(21, &[5])])]), Some((66, 131)));
    assert_eq!(fault_50(&[sound(), group(127, &[endpoint_id(1)])]), Some((67, 21)));
    assert_eq!(fault_52(&[group(9, &[precedence(1)])]), Some((66, 56)));
    assert_eq!(fault_52(&[group(15, &[])]), Some((66, 56)));
    assert_eq!(fault_52(&[group(130, &[])]), Some((66, 131)));
    // A group's missing member comes before a later element's fault, top-level ones come last.
    assert_eq!(fault_52(&[group(15, &[]), ie(65, &[0x30])]), Some((66, 56)));
    assert_eq!(first_fault(&message(50, 0, 1, &[])), Some((66, 1)));
    assert_eq!(first_fault(&message(50, 0, 1, &[sound()])), Some((66, 57)));
    assert_eq!(first_fault(&message(50, 0, 1, &[ie(65, &[])])), Some((68, 65)));
    assert_eq!(fault_50(&[]), Some((66, 1)));
    // A restoration needs no Create PDR, wherever its flags stand.
    assert_eq!(first_fault(&message(50, 0, 1, &[ie(186, &[1])])), Some((66, 57)));
    assert_eq!(fault_50(&[ie(186, &[1])]), None);
    assert_eq!(fault_50(&[ie(186, &[0xFE])]), Some((66, 1)));
    assert_eq!(fault_52(&[]), None);
    assert_eq!(fault_54(&[]), None);
}

#[test]
fn null_lengths() {
    assert_eq!(fault_52(&[update_pdr(1, &[ie(108, &[])])]), None);
    assert_eq!(fault_52(&[update_pdr(1, &[ie(29, &[])])]), Some((68, 29)));
    let pdi = || group(2, &[source(0)]);
    let pdr = group(1, &[pdr_id(1), precedence(1), pdi(), ie(108, &[])]);
    assert_eq!(fault_52(&[pdr]), Some((68, 108)));
    let pdr = group(1, &[pdr_id(1), ie(29, &[]), pdi()]);
    assert_eq!(fault_52(&[pdr]), Some((68, 29)));
    for count in 1..=3 {
        assert_eq!(fault_52(&[update_pdr(1, &[ie(108, &vec![0; count])])]), Some((68, 108)));
    }
    assert_eq!(fault_52(&[update_pdr(1, &[ie(108, &[0; 9])])]), None);
}

#[test]
fn the_only_fq_csid() {
    let null = || ie(65, &[]);
    assert_eq!(records_52(&[null()]), [Record::RemoveAllFqCsids]);
    assert_eq!(fault_52(&[null(), fq_csid(5, 1)]), Some((68, 65)));
    assert_eq!(fault_52(&[null(), null()]), Some((68, 65)));
    // Faulty and later ones count too; the first fault is at the null one's own place.
    assert_eq!(fault_52(&[null(), ie(65, &[0xF0])]), Some((68, 65)));
    assert_eq!(fault_52(&[ie(65, &[0xF0]), null()]), Some((69, 65)));
    // One inside a group is misplaced and does not count.
    assert_eq!(fault_52(&[null(), update_pdr(1, &[fq_csid(5, 1)])]), None);
    assert_eq!(fault_50(&[sound(), null()]), Some((68, 65)));
}

/// 02 (vii): "an FQ-CSID there is skipped like an unknown element", but framed.
#[test]
fn an_fq_csid_of_a_deletion() {
    let broken = [&[][..], &[0xF0], &[0, 0, 0, 0, 0, 1], &[2, 192, 0, 2, 10, 0, 5, 0, 6]];
    for value in broken {
        assert_eq!(fault_54(&[ie(65, value)]), None);
    }
    assert_eq!(fault_54(&[fq_csid(5, 1), fq_csid(6, 1)]), None);
    assert_eq!(fault_54(&[ie_claiming(65, 9, &[0; 8])]), Some((68, 65)));
    assert_eq!(first_place(&deletion(1, &[fq_csid(5, 1), ie_claiming(65, 9, &[])])), Some(28));
}

#[test]
fn fq_csids_of_each_message() {
    let value = |text: &str| ie(65, &hex(text));
    // A node type repeated, also a set and a removal of one.
    let removal = || value("00 00 00 00 00 01");
    assert_eq!(fault_50(&[sound(), fq_csid(5, 1), fq_csid(6, 1)]), Some((69, 65)));
    assert_eq!(fault_52(&[fq_csid(5, 1), removal()]), Some((69, 65)));
    assert_eq!(fault_52(&[removal(), removal()]), Some((69, 65)));
    // m of each message, after "short".
    let two = || value("02 C0 00 02 0A 00 05 00 06 01");
    assert_eq!(fault_50(&[sound(), two()]), Some((69, 65)));
    assert_eq!(fault_52(&[two()]), Some((69, 65)));
    assert_eq!(fault_14(&[two()]), None);
    let short_two = || value("02 C0 00 02 0A 00 05 00 06");
    assert_eq!(fault_50(&[sound(), short_two()]), Some((68, 65)));
    assert_eq!(fault_52(&[short_two()]), Some((68, 65)));
    assert_eq!(fault_50(&[sound(), removal()]), Some((69, 65)));
    assert_eq!(fault_52(&[removal()]), None);
    assert_eq!(fault_14(&[removal()]), Some((69, 65)));
    // m = 0 with a type or address not zero.
    assert_eq!(fault_52(&[value("00 00 00 00 01 01")]), Some((69, 65)));
    assert_eq!(fault_52(&[value("20 00 00 00 00 01")]), Some((69, 65)));
    assert_eq!(fault_52(&[value("10 00 00 00 00 01")]), Some((68, 65)));
    assert_eq!(fault_52(&[ie(65, &[vec![0x10], vec![0; 16], vec![1]].concat())]), Some((69, 65)));
}

#[test]
fn repeats_come_before_the_value() {
    assert_eq!(fault_50(&[sound(), ie(57, &[])]), Some((69, 57)));
    assert_eq!(fault_50(&[sound(), ie(186, &[0]), ie(186, &[])]), Some((69, 186)));
    assert_eq!(fault_50(&[sound(), ie(186, &[])]), Some((68, 186)));
    let repeated = |member: Vec<u8>, null: u16| group(1, &[member, ie(null, &[])]);
    assert_eq!(fault_50(&[repeated(pdr_id(1), 56)]), Some((69, 56)));
    assert_eq!(fault_50(&[repeated(precedence(1), 29)]), Some((69, 29)));
    assert_eq!(fault_50(&[repeated(far(1), 108)]), Some((69, 108)));
    let pdi = |members: &[Vec<u8>]| group(1, &[group(2, members)]);
    assert_eq!(fault_50(&[pdi(&[source(1), ie(20, &[])])]), Some((69, 20)));
    assert_eq!(fault_50(&[pdi(&[ie(21, &[5]), ie(21, &[])])]), Some((69, 21)));
    assert_eq!(fault_50(&[pdi(&[endpoint_id(1), ie(131, &[])])]), Some((69, 131)));
    assert_eq!(fault_52(&[group(15, &[pdr_id(1), ie(56, &[])])]), Some((69, 56)));
    assert_eq!(fault_52(&[group(130, &[endpoint_id(1), ie(131, &[])])]), Some((69, 131)));
    assert_eq!(fault_52(&[update_pdr(1, &[far(1), ie(108, &[])])]), Some((69, 108)));
}

#[test]
fn misplaced_elements_are_skipped() {
    for ie_type in [57, 186] {
        for value in [&[][..], &[0], &[1]] {
            let twice = [ie(ie_type, value), ie(ie_type, value)];
            assert_eq!(fault_52(&twice), None);
            assert_eq!(fault_54(&twice), None);
        }
    }
    // A Create PDR in a deletion, an F-TEID at top or beside its PDI, a FAR ID in a PDI.
    assert_eq!(fault_54(&[group(1, &[])]), None);
    assert_eq!(fault_52(&[ie(21, &[]), ie(56, &[]), ie(2, &[])]), None);
    let pdi = group(2, &[source(0), ie(108, &[]), ie(56, &[])]);
    let pdr = group(1, &[pdr_id(1), precedence(1), pdi, ie(21, &[]), ie(20, &[]), ie(65, &[])]);
    assert_eq!(fault_50(&[pdr]), None);
    assert_eq!(fault_52(&[group(15, &[pdr_id(1), ie(131, &[]), ie(129, &[])])]), None);
}

#[test]
fn ignored_bits_and_octets() {
    assert_eq!(fault_50(&[ie(186, &[0xFF, 7])]), None);
    let pdi = group(2, &[ie(20, &[0xF3, 9]), ie(131, &[4, 9])]);
    let pdr = group(1, &[ie(56, &[0, 1, 9]), ie(29, &[0, 0, 0, 1, 9]), pdi]);
    let message = modification(1, &[pdr]);
    let request = read(&header::test(&message).unwrap(), &message).unwrap();
    let Record::CreatePdr { id, precedence, pdi, .. } = &request.records[0] else { panic!() };
    assert_eq!((*id, *precedence, pdi.source_interface, pdi.endpoint), (1, 1, 3, Some(4)));
    let mut value = vec![0xFE];
    value.extend([0, 0, 0, 0, 0, 0, 0, 7, 1, 2, 3, 4, 5]);
    assert_eq!(first_fault(&common::message(50, 0, 1, &[ie(57, &value), sound()])), None);
}

#[test]
fn f_teid_of_an_endpoint() {
    let fault = |value: &[u8]| fault_50(&[sound(), create_endpoint(1, value)]);
    assert_eq!(fault(&[0x0D]), Some((69, 21)));
    assert_eq!(fault(&[0x0D, 7]), Some((69, 21)));
    assert_eq!(fault(&[0x09]), Some((69, 21)));
    assert_eq!(fault(&[]), Some((68, 21)));
    assert_eq!(fault(&[1, 0]), Some((68, 21)));
    assert_eq!(fault(&[5]), None);
    let in_pdi = |value: &[u8]| fault_50(&[create_pdr(1, &[ie(21, value)])]);
    assert_eq!(in_pdi(&[0x0D]), Some((68, 21)));
    assert_eq!(in_pdi(&[0x0D, 7]), None);
}

#[test]
fn header_of_a_message() {
    let outcome = |message: &[u8]| header::test(message).err();
    let good = deletion(1, &[]);
    assert_eq!(outcome(&good), None);
    let with = |octet: usize, value: u8| {
        let mut message = deletion(1, &[]);
        message[octet] = value;
        outcome(&message)
    };
    // Version, S, FO, length; the other bits and the spare octet are ignored.
    assert_eq!(
        (with(0, 0x01), with(0, 0x41), with(0, 0x20), with(0, 0x25)),
        (Some(4), Some(4), Some(4), Some(4))
    );
    assert_eq!(
        (with(0, 0x23), with(0, 0x29), with(0, 0x31), with(15, 9)),
        (None, None, None, None)
    );
    assert_eq!((with(3, 11), with(3, 13), with(2, 1)), (Some(4), Some(4), Some(4)));
    for served in 0..=255 {
        let expected = match served {
            50 | 52 | 54 => None,
            // Only with S = 0.
            14 => Some(4),
            _ => Some(5),
        };
        assert_eq!(with(1, served), expected);
    }
    // S is tested before the type: a heartbeat is outcome 4.
    assert_eq!(outcome(&hex("20 01 00 0C 00 00 01 00 00 60 00 04 00 00 00 00")), Some(4));
    assert_eq!(outcome(&good[..15]), Some(4));
    assert_eq!(outcome(&[]), Some(4));
    let filled = |count| deletion(1, &[ie(40000, &vec![0; count])]);
    assert_eq!(filled(2028).len(), 2048);
    assert_eq!(outcome(&filled(2028)), None);
    assert_eq!(outcome(&filled(2029)), Some(3));
    // Over 2,048 comes before a wrong header.
    assert_eq!(outcome(&[0; 2049]), Some(3));
    assert_eq!(outcome(&[0; 2048]), Some(4));
}

/// 02 (vii): "Type 14 needs S = 0 and at least 8 octets; every other type keeps 01's frame rule."
#[test]
fn header_of_a_set_deletion() {
    let outcome = |message: &[u8]| header::test(message).err();
    let good = hex("20 0E 00 04 12 34 56 00");
    assert_eq!(header::test(&good).map(|header| header.sequence), Ok(0x123456));
    let with = |octet: usize, value: u8| {
        let mut message = good.clone();
        message[octet] = value;
        outcome(&message)
    };
    // Version, S, FO, length; the other bits and the spare octet are ignored.
    for (octet, value) in [(0, 0), (0, 0x40), (0, 0x21), (0, 0x24), (3, 3), (3, 5), (2, 1)] {
        assert_eq!(with(octet, value), Some(4), "octet {octet} is {value}");
    }
    for (octet, value) in [(0, 0x22), (0, 0x28), (0, 0x30), (7, 9)] {
        assert_eq!(with(octet, value), None, "octet {octet} is {value}");
    }
    for other in (0..=255).filter(|other| *other != 14) {
        assert_eq!(with(1, other), Some(4), "S = 0 with type {other}");
    }
    for length in 0..8 {
        let mut short = good[..length].to_vec();
        if length >= 4 {
            short[3] = (length - 4) as u8;
        }
        assert_eq!(outcome(&short), Some(4), "{length} octets");
    }
    // With S = 1 it is wrong at any length.
    assert_eq!(outcome(&hex("21 0E 00 0C 00 00 00 00 00 00 00 00 00 00 01 00")), Some(4));
    assert_eq!(outcome(&set_deletion(&[ie(40000, &[0; 2036])])), None);
    assert_eq!(outcome(&set_deletion(&[ie(40000, &[0; 2037])])), Some(3));
}

/// Document 02 (iv), on a modification: its first element starts at octet 16.
#[test]
fn the_place_of_a_fault() {
    let place = |parts: &[Vec<u8>]| first_place(&modification(1, parts));
    // A member has its own place: a Create PDR at 16, its members from 20 on, a PDI's from there.
    let (id, bad) = (ie(56, &[0, 1]), ie(21, &[4]));
    assert_eq!(place(&[group(1, &[id.clone(), group(2, &[bad.clone()])])]), Some(30));
    assert_eq!(place(&[ie(40000, &[0; 5]), group(127, &[bad])]), Some(29));
    // A repeat is the second one, before its value is read.
    assert_eq!(place(&[group(15, &[id.clone(), ie(56, &[])])]), Some(26));
    // What is missing is at the group that lacks it.
    assert_eq!(place(&[group(1, &[id.clone(), group(2, &[])])]), Some(26));
    assert_eq!(place(&[group(1, &[id.clone()])]), Some(16));
    assert_eq!(first_place(&message(50, 0, 1, &[])), Some(0));
    // Under 4 octets left: the group that they stand in; an overrun: the element.
    assert_eq!(place(&[group(1, &[group(2, &[vec![0, 20, 0]])])]), Some(20));
    assert_eq!(place(&[vec![0, 1]]), Some(0));
    assert_eq!(place(&[group(1, &[group(2, &[vec![0, 20, 0, 2, 0]])])]), Some(24));
    assert_eq!(place(&[id, vec![0, 1, 0, 1]]), Some(22));
    // A null FQ-CSID that is not the only one, as the first and as the second.
    let csid = fq_csid(5, 1);
    assert_eq!(place(&[ie(65, &[]), csid.clone()]), Some(16));
    assert_eq!(place(&[csid.clone(), ie(65, &[])]), Some(16 + csid.len()));
    assert_eq!(place(&[csid.clone(), csid.clone()]), Some(16 + csid.len()));
    // No fault of these stages.
    assert_eq!(place(&[csid]), None);
}
