//! Random tables are sound and cover what a table can hold; the list of a table, by example.

use second::element::fq_csid::NodeId;
use second::generate::random::Random;
use second::generate::tables::{self, Filling};
use second::layout;
use second::list;
use second::session::{Endpoint, Families, HeldCsid, Key, Local, Pdr, Session, Sessions, Tunnel};
use second::settings::{Peer, Settings};

#[test]
fn random_tables_are_sound_and_read_back() {
    let mut random = Random::new(7);
    for number in 0..60 {
        let limit = [3, 2, 64, 5, 256, 20][number % 6];
        let settings = tables::settings(&mut random, number % 2 == 1, limit);
        let filling = if number % 10 == 0 { Filling::Full } else { Filling::Some };
        let sessions = tables::sessions(&mut random, &settings, filling);
        let octets = layout::encode(&settings, &sessions);
        assert_eq!(octets.len(), 65 + 604 * usize::from(limit));
        assert_eq!(layout::sound(&octets), Ok((settings, sessions)));
    }
}

#[test]
fn random_tables_hold_every_kind_of_record() {
    let mut random = Random::new(8);
    let settings = tables::settings(&mut random, true, 64);
    let sessions = tables::sessions(&mut random, &settings, Filling::Full);
    let pdrs: Vec<&Pdr> = sessions.values().flat_map(|session| session.pdrs.values()).collect();
    assert_eq!(pdrs.len(), 64 * 16);
    let any = |holds: &dyn Fn(&Pdr) -> bool| pdrs.iter().any(|pdr| holds(pdr));
    assert!(any(&|pdr| pdr.local == Local::Neither));
    assert!(any(&|pdr| matches!(pdr.local, Local::Endpoint(_))));
    for (v4, v6) in [(true, false), (false, true), (true, true)] {
        let families = Families { v4, v6 };
        assert!(any(&|pdr| matches!(pdr.local, Local::Tunnel(t) if t.families == families)));
    }
    assert!(any(&|pdr| pdr.address.is_none()));
    assert!(any(&|pdr| pdr.address.is_some_and(|a| settings.address_place(a).is_some())));
    assert!(any(&|pdr| pdr.address.is_some_and(|a| settings.address_place(a).is_none())));
    assert!(any(&|pdr| pdr.far_id.is_none()));
    assert!(any(&|pdr| pdr.far_id == Some(0)));
    assert!(any(&|pdr| pdr.far_id == Some(u32::MAX)));
    assert!(any(&|pdr| pdr.precedence == u32::MAX));
    let nodes: Vec<NodeId> =
        sessions.values().flat_map(|s| s.fq_csids.values().map(|held| held.node)).collect();
    assert_eq!(nodes.len(), 64 * 6);
    assert!(nodes.iter().any(|node| matches!(node, NodeId::Ipv4(_))));
    assert!(nodes.iter().any(|node| matches!(node, NodeId::Ipv6(_))));
    assert!(nodes.iter().any(|node| matches!(node, NodeId::Operator { .. })));
}

fn example() -> (Settings, Sessions) {
    let addresses = ([10, 45, 0, 0].into(), 4);
    let peer = |octet| Peer { address: [192, 0, 2, octet], guarantee: 3, limit: 7 };
    let peers = [peer(1), peer(2)];
    let settings = Settings::make([192, 0, 2, 1], &[9; 16], (4096, 10), addresses, 4, peers);
    let settings = settings.expect("these are allowed");
    let tunnel = |teid, v4, v6| Tunnel { teid, families: Families { v4, v6 } };
    let mut session = Session::default();
    let pdr = |local| Pdr {
        precedence: 4_294_967_295,
        far_id: None,
        source_interface: 15,
        local,
        address: None,
    };
    let address = Some([10, 45, 0, 3].into());
    session.pdrs.insert(1, Pdr { address: Some([0; 4].into()), ..pdr(Local::Neither) });
    session.pdrs.insert(2, Pdr { far_id: Some(0), ..pdr(Local::Endpoint(255)) });
    session.pdrs.insert(65535, Pdr { address, ..pdr(Local::Tunnel(tunnel(4096, true, true))) });
    session.endpoints.insert(255, Endpoint { tunnel: tunnel(4097, false, true), address });
    session.endpoints.insert(0, Endpoint { tunnel: tunnel(4098, true, false), address: None });
    let mut address = [0; 16];
    address[15] = 1;
    let held = |node| HeldCsid { node, csid: 65535 };
    session.fq_csids.insert(0, held(NodeId::Ipv6(address)));
    session.fq_csids.insert(4, held(NodeId::Ipv4([10, 0, 0, 1])));
    address[12] = 10;
    session.fq_csids.insert(3, held(NodeId::Ipv6(address)));
    let node = NodeId::Operator { country_and_network: 262_001, number: 5 };
    session.fq_csids.insert(5, held(node));
    let key = |peer, seid| Key { peer, seid };
    let empty = [key(1, u64::MAX), key(2, 1)].map(|key| (key, Session::default()));
    let mut sessions = Sessions::from(empty);
    sessions.insert(key(2, u64::MAX), session);
    (settings, sessions)
}

#[test]
fn the_list_as_text() {
    let (settings, sessions) = example();
    let expected = "live sessions: 3; free TEIDs: 7 of 10; free addresses: 3 of 4
  session 18446744073709551615 of peer 1 (0xffffffffffffffff)
  session 1 of peer 2 (0x1)
  session 18446744073709551615 of peer 2 (0xffffffffffffffff)
    PDR 1: precedence 4294967295, no FAR, source interface 15 (spare), address 0.0.0.0
    PDR 2: precedence 4294967295, FAR 0, source interface 15 (spare), endpoint 255
    PDR 65535: precedence 4294967295, no FAR, source interface 15 (spare), TEID 4096 (IPv4 and IPv6), address 10.45.0.3
    endpoint 0: TEID 4098 (IPv4)
    endpoint 255: TEID 4097 (IPv6), address 10.45.0.3
    FQ-CSID of node type 0 (MME): CSID 65535 of ::1
    FQ-CSID of node type 3 (ePDG): CSID 65535 of ::10.0.0.1
    FQ-CSID of node type 4 (TWAN): CSID 65535 of 10.0.0.1
    FQ-CSID of node type 5 (PGW-U, SGW-U or UPF): CSID 65535 of operator node 3FF71005
";
    assert_eq!(list::text(&settings, &sessions), expected);
}

#[test]
fn the_list_as_json() {
    let (settings, sessions) = example();
    let expected = concat!(
        r#"{"live_sessions":3,"free_teids":7,"pool_size":10,"#,
        r#""free_addresses":3,"address_pool_size":4,"sessions":["#,
        r#"{"peer":1,"seid":"18446744073709551615","seid_hex":"0xffffffffffffffff","#,
        r#""pdrs":[],"endpoints":[],"fq_csids":[]},"#,
        "\n",
        r#"{"peer":2,"seid":"1","seid_hex":"0x1","pdrs":[],"endpoints":[],"fq_csids":[]},"#,
        "\n",
        r#"{"peer":2,"seid":"18446744073709551615","seid_hex":"0xffffffffffffffff","pdrs":["#,
        r#"{"id":1,"precedence":4294967295,"source_interface":15,"#,
        r#""source_interface_name":"spare","address":"0.0.0.0"},"#,
        r#"{"id":2,"precedence":4294967295,"far_id":0,"source_interface":15,"#,
        r#""source_interface_name":"spare","endpoint_id":255},"#,
        r#"{"id":65535,"precedence":4294967295,"source_interface":15,"#,
        r#""source_interface_name":"spare","#,
        r#""teid":4096,"ipv4":true,"ipv6":true,"address":"10.45.0.3"}],"#,
        r#""endpoints":[{"id":0,"teid":4098,"ipv4":true,"ipv6":false},"#,
        r#"{"id":255,"teid":4097,"ipv4":false,"ipv6":true,"address":"10.45.0.3"}],"#,
        r#""fq_csids":[{"node_type":0,"node_type_name":"MME","node":"::1","csid":65535},"#,
        r#"{"node_type":3,"node_type_name":"ePDG","node":"::10.0.0.1","csid":65535},"#,
        r#"{"node_type":4,"node_type_name":"TWAN","node":"10.0.0.1","csid":65535},"#,
        r#"{"node_type":5,"node_type_name":"PGW-U, SGW-U or UPF","node":"3FF71005","#,
        r#""csid":65535}]}]}"#,
        "\n"
    );
    assert_eq!(list::json(&settings, &sessions), expected);
}
