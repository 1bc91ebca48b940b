#!/usr/bin/env python3
"""The exchanges of document 01's worked examples, of the errors it has seen, and of document 02's (ii), (v), (vi), (vii), (xi) and
(xiv).

  requests.py FOLDER          writes FOLDER/stdin: tables, requests with their peers, and changes of stores, each after its length in two
                              octets. FOLDER/stdout is what second's program `exchanges` writes for it
  requests.py --paper < LINES holds such lines to what they say of each exchange, where they say something

On paper are the cause, the TEIDs and the addresses of the created PDRs, the free TEIDs and addresses after the call, and sometimes the
whole reply.
"""
import struct
import sys

H = bytes.fromhex
u16 = lambda n: struct.pack(">H", n)
u32 = lambda n: struct.pack(">I", n)
u64 = lambda n: struct.pack(">Q", n)
ACCEPTED, LIVE, UNKNOWN, LENGTH, INCORRECT, RULE, FULL, STRANGE, NO_ADDRESS = 1, 64, 65, 68, 69, 73, 75, 76, 79
MAKING, ONCE, OCTET, PLAIN = 0, 1, 2, 3  # what a part is, by its first octet
POOL = 0x0A2D0001  # 10.45.0.1
UNIT, OTHER = 0xC0000201, 0xC0000202  # 192.0.2.1, which is peer 1's address too, and 192.0.2.2
parts = []


def ie(kind, value):
    return u16(kind) + u16(len(value)) + value


def f_seid(seid, flags=2, addresses=H("C000020A")):
    return ie(57, bytes([flags]) + u64(seid) + addresses)


def create(pdr, f_teid):
    return ie(1, ie(56, u16(pdr)) + ie(29, u32(10)) + ie(2, ie(20, b"\0") + ie(21, H(f_teid))))


def endpoint(number, f_teid):
    return ie(127, ie(131, bytes([number])) + ie(21, H(f_teid)))


def naming(pdr, number):
    return ie(1, ie(56, u16(pdr)) + ie(29, u32(10)) + ie(2, ie(20, b"\0") + ie(131, bytes([number]))))


def update(pdr):
    return ie(9, ie(56, u16(pdr)) + ie(29, u32(20)))


def remove(pdr):
    return ie(15, ie(56, u16(pdr)))


def remove_endpoint(number):
    return ie(130, ie(131, bytes([number])))


def addressed(pdr, value, f_teid=None):
    """A PDR with this UE IP Address, and with an F-TEID or without."""
    pdi = ie(20, b"\0") + (ie(21, H(f_teid)) if f_teid else b"") + ie(93, H(value))
    return ie(1, ie(56, u16(pdr)) + ie(29, u32(10)) + ie(2, pdi))


def given(address):
    return "02" + u32(address).hex()


def making(size, first, limit, addresses=2, peers=None):
    """With these addresses, guarantees and limits of the peers; otherwise both share the pool without a guarantee."""
    unit = u32(UNIT) + u32(first) + u32(size) + u32(POOL) + u32(addresses) + u32(limit)
    return bytes([MAKING]) + unit + b"".join(u32(number) for peer in peers or [(UNIT, 0, size), (OTHER, 0, size)] for number in peer)


def table(size, first=4096, addresses=2, limit=16, peers=None):
    parts.append((making(size, first, limit, addresses, peers), "table 0", None, None, (size, addresses)))


def refuse_table(size=2, first=4096, limit=16, peers=None, *, free, left=2):
    """Settings that are not allowed: the table before stays."""
    parts.append((making(size, first, limit, 2, peers), "table 1", None, None, (free, left)))


def ask(peer, message, cause, free, left, teids=None, chosen=None, whole=None):
    parts.append((bytes([PLAIN, peer]) + message, "outcome 0", (cause, teids or [], chosen or []), whole and H(whole), (free, left)))


def ask_no_peer(peer, message, *, free, left=2):
    """Any number but 1 and 2: outcome 7, whatever the message is."""
    parts.append((bytes([PLAIN, peer]) + message, "outcome 7", None, None, (free, left)))


def head(kind, seid, body):
    return bytes([0x21, kind]) + u16(12 + len(body)) + u64(seid) + u32(1)[1:] + b"\0" + body


def establish(seid, *body, of=1, cause=ACCEPTED, free, left=2, teids=None, chosen=None, whole=None, f_seid_is=None):
    ask(of, head(50, 0, (f_seid_is or f_seid(seid)) + b"".join(body)), cause, free, left, teids, chosen, whole)


def restore(seid, *body, of=1, cause=ACCEPTED, free, left=2):
    ask(of, head(50, 0, f_seid(seid) + ie(186, b"\1") + b"".join(body)), cause, free, left)


def modify(seid, *body, of=1, cause=ACCEPTED, free, left=2, teids=None, chosen=None):
    ask(of, head(52, seid, b"".join(body)), cause, free, left, teids, chosen)


def delete(seid, *body, of=1, cause=ACCEPTED, free, left=2, whole=None):
    ask(of, head(54, seid, b"".join(body)), cause, free, left, whole=whole)


def delete_sets(*body, of=1, cause=ACCEPTED, free, left=2, whole=None):
    elements = b"".join(body)
    ask(of, H("200E") + u16(4 + len(elements)) + H("00000100") + elements, cause, free, left, whole=whole)


def card(node_type, *csids, address="C000020A", id_type=0):
    return ie(65, bytes([id_type << 4 | len(csids)]) + H(address) + b"".join(map(u16, csids)) + bytes([node_type]))


# "Deletion of an unknown session, sequence 1, whole reply"
table(2)
delete(1, cause=UNKNOWN, free=2, whole="21370011 0000000000000000 00000100 0013000141")

# "Empty table, unit 192.0.2.1, pool from 4096, SEID 1, sequence 1, PDR 1 CHOOSE IPv4, whole reply"
establish(1, create(1, "05"), free=1, teids=[4096], whole="""21 33 00 42 00 00 00 00 00 00 00 01 00 00 01 00 00 3C 00 05 00 C0
    00 02 01 00 13 00 01 01 00 39 00 0D 02 00 00 00 00 00 00 00 01 C0 00 02 01 00 08 00 13 00 38 00 02 00 01 00 15 00 09 01 00 00 10 00
    C0 00 02 01""")

# "Pool 4096, 4097: PDRs 1, 2 with ID 7 and PDR 3 without get 4096, 4096, 4097."
table(2)
establish(1, create(1, "0D07"), create(2, "0D07"), create(3, "05"), free=0, teids=[4096, 4096, 4097])
# "Another session's CHOOSE: 75."
establish(2, create(1, "05"), cause=FULL, free=0)
# "Removing PDR 1 keeps 4096;"
modify(1, remove(1), free=0)
establish(2, create(1, "05"), cause=FULL, free=0)
# "removing PDR 2 too frees it."
modify(1, remove(2), free=1)
establish(2, create(1, "05"), free=0, teids=[4096])
# "With both taken, removing PDR 3 and creating a CHOOSE PDR together: 75." In two requests it works.
modify(1, remove(3), create(4, "05"), cause=FULL, free=0)
modify(1, remove(3), free=1)
modify(1, create(4, "05"), free=0, teids=[4097])
# The same on a pool that starts elsewhere, both PDRs removed at once.
table(2, first=4294967294)
establish(1, create(1, "0D07"), create(2, "0D07"), create(3, "05"), free=0, teids=[4294967294, 4294967294, 4294967295])
modify(1, remove(2), remove(1), free=1)
delete(1, free=2)
delete(1, cause=UNKNOWN, free=2)

# Errors seen: "A CHOOSE ID remembered into the next request". ID 7 gets another TEID in each request, also after a refusal.
table(4)
establish(1, create(1, "0D07"), free=3, teids=[4096])
modify(1, create(2, "0D07"), free=2, teids=[4097])
modify(1, create(3, "0D07"), create(1, "0D07"), cause=RULE, free=2)
modify(1, create(3, "0D07"), create(4, "0D07"), free=1, teids=[4098, 4098])
establish(2, create(1, "0D07"), free=0, teids=[4099])

# "a TEID freed with the first of two sharing PDRs". The next CHOOSE gets 4097, and 4096 only after the second.
table(3)
establish(1, create(1, "0D07"), create(2, "0D07"), free=2, teids=[4096, 4096])
modify(1, remove(1), free=2)
modify(1, create(3, "05"), free=1, teids=[4097])
modify(1, remove(2), free=2)
modify(1, create(4, "05"), free=1, teids=[4096])

# "F-SEID's V4 and V6 bits read in F-TEID order". V4 is bit 2 and V6 bit 1: flags 02 need 4 octets of address, flags 01 need 16.
table(8)
establish(1, create(1, "05"), free=7, teids=[4096], f_seid_is=f_seid(1, 2, H("C000020A")))
establish(2, create(1, "05"), cause=LENGTH, free=7, f_seid_is=f_seid(2, 1, H("C000020A")))
establish(2, create(1, "05"), free=6, teids=[4097], f_seid_is=f_seid(2, 1, bytes(16)))
establish(3, create(1, "05"), cause=LENGTH, free=6, f_seid_is=f_seid(3, 1, bytes(15)))
establish(3, create(1, "05"), cause=LENGTH, free=6, f_seid_is=f_seid(3, 2, bytes(3)))
establish(3, create(1, "05"), free=5, teids=[4098], f_seid_is=f_seid(3, 3, bytes(20)))

# "records half made before a 75". Neither the session, nor the PDRs, the endpoint or the removal of a refused request are there.
table(2)
establish(1, create(1, "05"), free=1, teids=[4096])
establish(2, create(1, "05"), create(2, "05"), cause=FULL, free=1)
delete(2, cause=UNKNOWN, free=1)
modify(1, remove(1), create(2, "05"), endpoint(3, "05"), cause=FULL, free=1)
modify(1, remove(2), cause=RULE, free=1)
modify(1, remove_endpoint(3), cause=RULE, free=1)
modify(1, create(2, "05"), free=0, teids=[4097])
modify(1, remove(1), free=1)
delete(1, free=2)

# 02 (ii): "PDRs which name the removed endpoint are removed with it." Endpoint 1 with PDRs 1 and 2, endpoint 2 with PDR 3.
table(2)
establish(1, endpoint(1, "05"), endpoint(2, "05"), naming(1, 1), naming(2, 1), naming(3, 2), free=0)
# "updating one, or creating a PDR that names the endpoint, is 73"
modify(1, remove_endpoint(1), update(2), cause=RULE, free=0)
modify(1, remove_endpoint(1), naming(4, 1), cause=RULE, free=0)
# A created ID that was live at entry is 73 as before, and a TEID that is freed is not free in the same request.
modify(1, remove_endpoint(1), naming(1, 2), cause=RULE, free=0)
modify(1, remove_endpoint(1), create(4, "05"), cause=FULL, free=0)
# Removed alone, "Naming one in Remove PDR as well is allowed": PDRs 1 and 2 are gone, PDR 3 stays.
modify(1, remove_endpoint(1), remove(2), free=1)
modify(1, update(1), cause=RULE, free=1)
modify(1, remove(2), cause=RULE, free=1)
modify(1, update(3), free=1)
modify(1, create(1, "05"), free=0, teids=[4096])
modify(1, remove_endpoint(2), free=1)
modify(1, remove(3), cause=RULE, free=1)
delete(1, free=2)


# 02 (vii): "All sessions that hold an FQ-CSID equal in node type, Node-ID type, address and any one listed CSID are removed."
# Sessions 1 and 3 are of one card, 2 has its CSID on another node type, 4 on another node, 5 as an operator's node, 6 another CSID.
table(6)
establish(1, create(1, "05"), card(1, 5), free=5, teids=[4096])
establish(2, create(1, "05"), card(2, 5), free=4, teids=[4097])
establish(3, create(1, "05"), card(0, 9), card(1, 5), free=3, teids=[4098])
establish(4, create(1, "05"), card(1, 5, address="C000020B"), free=2, teids=[4099])
establish(5, create(1, "05"), card(1, 5, id_type=2), free=1, teids=[4100])
establish(6, create(1, "05"), card(1, 6), free=0, teids=[4101])
# "No match, or no FQ-CSID at all, is accepted; m = 0 is 69"
delete_sets(card(1, 7), free=0)
delete_sets(free=0, whole="200F0012 00000100 003C000500C0000201 0013000101")
delete_sets(ie(60, H("00C0000232")), card(1, 5), card(1), cause=INCORRECT, free=0)
delete_sets(ie(65, H("000000000001")), cause=INCORRECT, free=0,
    whole="200F0018 00000100 003C000500C0000201 0013000145 002800020041")
delete_sets(card(1, 5), ie(65, b""), cause=LENGTH, free=0)
delete_sets(card(1, 5), H("004100"), cause=LENGTH, free=0)
# Two go, and their TEIDs are free; the others stay.
delete_sets(ie(60, H("00C0000232")), card(1, 4, 5), free=2)
delete(1, cause=UNKNOWN, free=2)
delete(3, cause=UNKNOWN, free=2)
modify(2, create(2, "05"), free=1, teids=[4096])
# "a node type may come twice", and a group is not opened
delete_sets(card(1, 6), ie(1, H("0001")), card(1, 5, id_type=2), free=3)
# All that are left, by FQ-CSIDs of 15 CSIDs.
delete_sets(card(2, *[0] * 14, 5), card(1, 5, *[0] * 14, address="C000020B"), free=6)
delete_sets(card(1, 5), free=6)
# "an FQ-CSID there is skipped like an unknown element", but framed
establish(1, create(1, "05"), card(1, 5), free=5, teids=[4096])
delete(1, H("00410009") + bytes(8), cause=LENGTH, free=5)
delete(1, ie(65, b""), ie(65, H("31")), card(1, 5, 6), card(1, 5), free=6)

# 02 (v): "All CHOOSE IPV4 flags in one request share one address, the lowest free at entry."
table(4)
establish(1, addressed(1, "10", "05"), addressed(2, "10"), free=3, left=1, teids=[4096], chosen=[POOL, POOL])
# "Order: empty 68; V6, CHV6, IPv6D or IP6PL 76 [..]; not just one of V4, CHV4 69; short 68"
for value, cause in [("", LENGTH), ("00", INCORRECT), ("120A000001", INCORRECT), ("020A0000", LENGTH), ("01", STRANGE), ("32", STRANGE)]:
    modify(1, addressed(9, value), cause=cause, free=3, left=1)
# "The control plane may give addresses outside our pool; one inside it is 73 unless restoring"
modify(1, addressed(3, given(POOL)), cause=RULE, free=3, left=1)
modify(1, addressed(3, given(POOL + 1)), cause=RULE, free=3, left=1)
modify(1, addressed(3, given(POOL + 2)), free=3, left=1)
establish(2, addressed(1, given(POOL + 2)), free=3, left=1)
# "it is free from the call after the last holder goes"
modify(1, remove(1), free=4, left=1)
modify(2, addressed(2, "10"), free=4, left=0, chosen=[POOL + 1])
# "A CHOOSE with no free address is cause 79, tested after 75."
modify(1, remove(2), addressed(4, "10"), cause=NO_ADDRESS, free=4, left=0)
modify(1, *(addressed(n, "10") for n in range(10, 27)), cause=FULL, free=4, left=0)
modify(1, remove(2), free=4, left=1)
modify(1, addressed(4, "10", "05"), free=3, left=0, teids=[4096], chosen=[POOL])
# "a restored pool address held by another session is 73"; "CHOOSE inside one is 73"
delete(2, free=3, left=1)
restore(3, addressed(1, given(POOL)), cause=RULE, free=3, left=1)
restore(3, addressed(1, "10"), cause=RULE, free=3, left=1)
restore(3, addressed(1, given(POOL + 1)), addressed(2, given(POOL + 1)), free=3, left=0)
delete(1, free=4, left=1)
delete(3, free=4)

# 02 (v) and (vii): the addresses of the sessions that a set deletion takes out are free from the next call on.
table(2)
establish(1, addressed(1, "10"), card(1, 5), free=2, left=1, chosen=[POOL])
establish(2, addressed(1, "10", "05"), card(1, 6), free=1, left=0, teids=[4096], chosen=[POOL + 1])
establish(3, addressed(1, "10"), card(1, 5), cause=NO_ADDRESS, free=1, left=0)
delete_sets(card(1), cause=INCORRECT, free=1, left=0)
delete_sets(card(1, 5), free=1, left=1)
establish(3, addressed(1, "10"), card(1, 5), free=1, left=0, chosen=[POOL])
delete_sets(card(1, 5, 6), free=2)

# 02 (vi): "The session limit [..] becomes a setting, also in cause 75", with (xiv) half of it for each peer. Room for one session: the
# second is 75 though TEIDs are left, a restored one too, and an address that cannot be chosen either is tested after that.
table(4, addresses=1, limit=2)
establish(1, addressed(1, "10", "05"), free=3, left=0, teids=[4096], chosen=[POOL])
establish(2, create(1, "05"), cause=FULL, free=3, left=0)
establish(2, addressed(1, "10", "05"), cause=FULL, free=3, left=0)
restore(2, create(1, "0100001001C0000201"), cause=FULL, free=3, left=0)
restore(2, cause=FULL, free=3, left=0)
# A modification needs no room, and 73 is tested before 75.
modify(1, create(2, "05"), free=2, left=0, teids=[4097])
restore(2, create(1, "0100001001C0000201"), cause=RULE, free=2, left=0)
# Limits that are not allowed: 0, 1, and one too many.
refuse_table(limit=0, free=2, left=0)
refuse_table(limit=1, free=2, left=0)
refuse_table(limit=257, free=2, left=0)
refuse_table(limit=65538, free=2, left=0)
# The room is free with the session that had it.
delete(1, free=4, left=1)
establish(2, create(1, "05"), card(1, 5), free=3, left=1, teids=[4096])
establish(3, create(1, "05"), cause=FULL, free=3, left=1)
delete_sets(card(1, 5), free=4, left=1)
restore(3, create(1, "0100001001C0000201"), free=3, left=1)
# Room for two, rounded down: the third is 75.
table(4, limit=5)
establish(9, create(1, "05"), free=3, teids=[4096])
restore(5, free=3)
establish(1, create(1, "05"), cause=FULL, free=3)
delete(9, free=4)
establish(1, create(1, "05"), free=3, teids=[4096])
# "Raise the limits to [..] 65,536 TEIDs": the last TEID of such a pool is held, and the first is chosen.
table(65536, first=4294901760)
restore(1, create(1, "01FFFFFFFFC0000201"), free=65535)
establish(2, create(1, "0D07"), create(2, "05"), free=65533, teids=[4294901760, 4294901761])
restore(3, create(1, "01FFFEFFFFC0000201"), cause=RULE, free=65533)
refuse_table(size=65537, free=65533)
refuse_table(size=65536, first=4294901761, free=65533)
delete(1, free=65534)

# 02 (xiv): "Two control planes, each with its due." A pool of 8; guarantees 3 and 3, limits 8 and 5.
DUES = [(UNIT, 3, 8), (OTHER, 3, 5)]
table(8, limit=6, peers=DUES)
# "all holdings at entry, the need, and the other peer's unused guarantee together": the first takes five and is refused the sixth.
establish(1, create(1, "05"), create(2, "05"), create(3, "05"), create(4, "05"), create(5, "05"), free=3,
    teids=[4096, 4097, 4098, 4099, 4100])
modify(1, create(6, "05"), cause=FULL, free=3)
establish(2, create(1, "05"), cause=FULL, free=3)
modify(1, addressed(6, given(POOL + 9)), free=3)
# The second still gets its three, "so equal SEIDs may live on both"; its address stands in its replies.
establish(1, create(1, "05"), of=2, free=2, teids=[4101], whole="""21 33 00 42 00 00 00 00 00 00 00 01 00 00 01 00 00 3C 00 05 00 C0
    00 02 02 00 13 00 01 01 00 39 00 0D 02 00 00 00 00 00 00 00 01 C0 00 02 02 00 08 00 13 00 38 00 02 00 01 00 15 00 09 01 00 00 10 05
    C0 00 02 01""")
delete(2, of=2, cause=UNKNOWN, free=2)
modify(1, create(2, "05"), create(3, "05"), of=2, free=0, teids=[4102, 4103])
modify(1, create(4, "05"), of=2, cause=FULL, free=0)
# "any other number is outcome 7, tested first", of the message too
ask_no_peer(3, head(54, 1, b""), free=0)
ask_no_peer(0, b"", free=0)
# What the first gives back beyond its guarantee the second may take, up to its limit.
modify(1, remove(1), remove(2), remove(3), free=3)
modify(1, create(4, "0D07"), create(5, "0D07"), create(6, "05"), of=2, free=1, teids=[4096, 4096, 4097])
modify(1, create(7, "05"), of=2, cause=FULL, free=1)
modify(1, create(7, "05"), free=0, teids=[4098])
# Settings that are not allowed: the addresses are equal, a limit passes the pool, a guarantee its limit, both guarantees the pool.
refuse_table(8, peers=[(UNIT, 3, 8), (UNIT, 3, 5)], free=0)
refuse_table(8, peers=[(UNIT, 3, 9), (OTHER, 3, 5)], free=0)
refuse_table(8, peers=[(UNIT, 3, 8), (OTHER, 6, 5)], free=0)
refuse_table(8, peers=[(UNIT, 4, 8), (OTHER, 5, 5)], free=0)
# "the peer's holdings at entry plus its need pass its limit", where the pool would do: nobody else holds or is due anything.
table(8, limit=6, peers=[(UNIT, 0, 8), (OTHER, 0, 5)])
establish(1, *(create(at, "05") for at in range(1, 7)), of=2, cause=FULL, free=8)
establish(1, *(create(at, "05") for at in range(1, 6)), of=2, free=3, teids=[4096, 4097, 4098, 4099, 4100])
modify(1, remove(1), create(6, "05"), of=2, cause=FULL, free=3)
restore(2, create(1, "0100001007C0000201"), of=2, cause=FULL, free=3)
restore(2, create(1, "0100001007C0000201"), free=2)
# "Restorations use the same test, with the different TEIDs they name as their need."
held = ["01" + u32(4096 + at).hex() + "C0000201" for at in range(8)]
table(8, limit=6, peers=DUES)
restore(1, *(create(at + 1, held[at]) for at in range(6)), of=2, cause=FULL, free=8)
restore(1, *(create(at + 1, held[at]) for at in range(6)), cause=FULL, free=8)
restore(1, create(1, held[0]), create(2, held[0]), endpoint(1, held[1]), of=2, free=6)
restore(1, create(1, held[1]), cause=RULE, free=6)
restore(1, *(create(at + 1, held[at + 2]) for at in range(5)), free=1)
restore(2, create(1, held[7]), cause=FULL, free=1)
restore(2, free=1)
restore(2, create(1, held[7]), of=2, free=0)
# "Sessions, set deletions [..] are kept by peer": the other's session of the same card stays.
table(4, limit=4)
establish(1, create(1, "05"), card(1, 5), free=3, teids=[4096])
establish(1, create(1, "05"), card(1, 5), of=2, free=2, teids=[4097])
establish(1, create(1, "05"), of=2, cause=LIVE, free=2)
delete_sets(card(1, 5), of=2, free=3, whole="200F0012 00000100 003C000500C0000202 0013000101")
delete(1, of=2, cause=UNKNOWN, free=3)
modify(1, create(2, "05"), free=2, teids=[4097])


# Document 02 (xi): "Repeated requests get the old reply." From here on requests go through the store, each with its number. On paper are
# the answers: those of new requests as above, and of a repeat the whole reply that the request got first.
OLD = "outcome 6"
replied = {}


def message(kind, seid, number, *body):
    elements = b"".join(body)
    return bytes([0x21, kind]) + u16(12 + len(elements)) + u64(seid) + u32(number)[1:] + b"\0" + elements


def sets(number, *body):
    elements = b"".join(body)
    return H("200E") + u16(4 + len(elements)) + u32(number)[1:] + b"\0" + elements


def opening(seid, number, *body):
    return message(50, 0, number, f_seid(seid), *body)


def once(request, cause=ACCEPTED, *, of=1, free, left=2, teids=None):
    """A new request."""
    replied[of, request] = len(parts)
    parts.append((bytes([ONCE, of]) + request, "outcome 0", (cause, teids or [], []), None, (free, left)))


def again(request, *, of=1, free, left=2):
    """A repeat: the reply of the line where it was new, with place 0."""
    parts.append((bytes([ONCE, of]) + request, "outcome 0", None, replied[of, request], (free, left)))


def unanswered(request, outcome, *, of=1, free, left=2):
    parts.append((bytes([ONCE, of]) + request, outcome, None, None, (free, left)))


def octet(index, value, of=1):
    """An octet of a peer's store."""
    parts.append((bytes([OCTET, of]) + u16(index) + bytes([value]), f"octet {index}", None, None, None))


# Equal octets get the stored reply and change nothing; without the store the session is one that exists.
HALF = 8388608
table(4)
first = opening(1, 10, create(1, "05"))
once(first, free=3, teids=[4096])
again(first, free=3)
again(first, free=3)
ask(1, first, LIVE, 3, 2)
# The last number with other octets, a number before it, and a difference of 8,388,608 are dropped; none of them moves the last number.
unanswered(opening(2, 10, create(1, "05")), OLD, free=3)
unanswered(opening(2, 9, create(1, "05")), OLD, free=3)
unanswered(opening(2, 10 + HALF, create(1, "05")), OLD, free=3)
# A difference of 8,388,607 is newer, also past the last number of 24 bits: 10, 8,388,617, 8.
second = opening(2, 10 + HALF - 1, create(1, "05"))
third = message(54, 2, 8)
once(second, free=2, teids=[4097])
once(third, free=3)
unanswered(opening(3, 7, create(1, "05")), OLD, free=3)
again(first, free=3)
again(second, free=3)
again(third, free=3)
# Refused requests are stored too, and the place of their fault is told once: an empty Create PDR lacks its PDI.
faulty = opening(3, 9, create(1, "05"), ie(1, b""))
unknown = message(52, 3, 10)
once(faulty, cause=66, free=3)
again(faulty, free=3)
once(unknown, cause=UNKNOWN, free=3)
once(opening(3, 11, create(1, "05")), free=2, teids=[4097])
again(unknown, free=2)
# A set deletion's number stands in its own header, and moves the last number as any other.
unanswered(sets(11, card(1, 5)), OLD, free=2)
once(sets(12, card(1, 5)), free=2)
again(sets(12, card(1, 5)), free=2)
unanswered(message(54, 3, 12), OLD, free=2)
# Outcomes 4 and 5 stand before the store's answer and leave the last number.
unanswered(message(54, 3, 20)[:15], "outcome 4", free=2)
unanswered(message(56, 3, 20), "outcome 5", free=2)
# Eight are kept. The ninth takes the oldest along, which sent again is dropped.
once(message(54, 3, 13), free=3)
again(first, free=3)
once(message(54, 3, 14), cause=UNKNOWN, free=3)
unanswered(first, OLD, free=3)
again(second, free=3)
once(message(54, 3, 15), cause=UNKNOWN, free=3)
again(third, free=3)
# Gone from the store, a request is as any other: 8,388,617 is 8,388,602 after 15, so newer. The session that it made was deleted by then.
once(second, free=2, teids=[4097])
# A new table has an empty store, which takes any number; a refused one leaves the store.
refuse_table(limit=0, free=2)
unanswered(message(54, 3, 9), OLD, free=2)
table(4)
one, two = message(54, 1, 1), message(54, 1, 2)
once(one, cause=UNKNOWN, free=4)
once(two, cause=UNKNOWN, free=4)
# Broken stores: each entry is 41 octets here, a message of 16 and a reply of 21. The octet, what breaks it, and what it was.
for index, value, was in [
    (0, 9, 2),  # counts nine
    (0, 3, 2),  # counts an entry that is not there
    (0, 1, 2),  # does not count its last
    (4, 55, 54),  # a message of another type
    (3, 0x25, 0x21),  # with FO
    (1, 8, 0),  # over 2,048 octets
    (20, 0, 21),  # no reply
    (19, 5, 0),  # a reply of 1,301 octets
    (17, 2, 1),  # two equal messages
    (83, 1, 0),  # the first octet of unused room
    (26656, 1, 0),  # the last one
]:
    octet(index, value)
    unanswered(two, "outcome 1", free=4)
    octet(index, was)
    again(two, free=4)
# Any reply of one octet or more is sound, and given.
octet(82, 7)
parts.append((bytes([ONCE, 1]) + two, "outcome 0", (7, [], []), None, (4, 2)))
# Past the store's end there is nothing to change.
octet(26657, 1)
once(message(54, 1, 3), cause=UNKNOWN, free=4)

# 02 (xi) and (xiv): "stores of repeats are kept by peer (outcome 1 looks at the named peer's store)". Equal octets of both peers are two
# requests, each peer counts its own numbers, and any other peer is outcome 7 before store and table are looked at.
table(4, limit=4)
shared = opening(1, 100, create(1, "05"))
once(shared, free=3, teids=[4096])
once(shared, of=2, free=2, teids=[4097])
again(shared, free=2)
again(shared, of=2, free=2)
once(message(54, 9, 200), cause=UNKNOWN, free=2)
once(message(54, 9, 150), cause=UNKNOWN, of=2, free=2)
unanswered(message(54, 9, 150), OLD, free=2)
octet(0, 9, of=2)
unanswered(message(54, 9, 201), "outcome 1", of=2, free=2)
unanswered(message(54, 9, 201), "outcome 7", of=3, free=2)
unanswered(b"", "outcome 7", of=0, free=2)
once(message(54, 1, 201), free=3)
octet(0, 2, of=2)
again(shared, of=2, free=3)


def members(value):
    at, found = 0, {}
    while at < len(value):
        kind, n = struct.unpack(">HH", value[at : at + 4])
        found[kind] = value[at + 4 : at + 4 + n]
        at += 4 + n
    return found


def told(reply):
    """The cause, and the TEIDs and addresses of the created PDRs."""
    cause, teids, chosen, at = None, [], [], 16 if reply[0] & 1 else 8
    while at < len(reply):
        kind, n = struct.unpack(">HH", reply[at : at + 4])
        value = reply[at + 4 : at + 4 + n]
        if kind == 19:
            cause = value[0]
        if kind == 8:
            group = members(value)
            teids += [struct.unpack(">I", group[21][1:5])[0]] if 21 in group else []
            chosen += [struct.unpack(">I", group[93][1:5])[0]] if 93 in group else []
        at += 4 + n
    return cause, teids, chosen


def paper(lines):
    if len(lines) != len(parts):
        sys.exit(f"{len(lines)} lines for {len(parts)} parts")
    for number, (line, (_, start, answer, whole, counts)) in enumerate(zip(lines, parts), 1):
        told_start, _, reply = line.partition(" reply ")
        wanted = f"{start} free {counts[0]} addresses {counts[1]}" if counts else start
        if told_start.partition(" place ")[0] != wanted:
            sys.exit(f"line {number}: {line}: not {wanted}")
        if answer and told(H(reply)) != answer:
            sys.exit(f"line {number}: {line}: not {answer}")
        if isinstance(whole, int):
            if line.partition(" place ")[2] != "0 reply " + lines[whole].partition(" reply ")[2]:
                sys.exit(f"line {number}: {line}: not the reply of line {whole + 1} with place 0")
        elif whole and H(reply) != whole:
            sys.exit(f"line {number}: {line}: not the whole reply")
    print(f"{len(parts)} lines are as on paper")


if sys.argv[1] == "--paper":
    paper(sys.stdin.read().splitlines())
else:
    with open(sys.argv[1] + "/stdin", "wb") as out:
        for part, *_ in parts:
            out.write(u16(len(part)) + part)
