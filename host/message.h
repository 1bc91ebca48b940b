/* Writes requests, for the demonstration, the tests and the measurements, and finds elements. */
#ifndef MESSAGE_H
#define MESSAGE_H

#include <stdbool.h>
#include <stddef.h>
#include <stdint.h>

enum { MESSAGE_ROOM = 4096, GROUPS_ROOM = 3 };

/* Message types. */
enum { SET_DELETION = 14, ESTABLISHMENT = 50, MODIFICATION = 52, DELETION = 54 };

/* The causes of a request that was accepted, and of one that found no room. */
enum { ACCEPTED = 1, NO_RESOURCES = 75 };

/* Element types. */
enum {
    IE_CREATE_PDR = 1,
    IE_PDI = 2,
    IE_CREATED_PDR = 8,
    IE_UPDATE_PDR = 9,
    IE_REMOVE_PDR = 15,
    IE_CAUSE = 19,
    IE_SOURCE_INTERFACE = 20,
    IE_F_TEID = 21,
    IE_PRECEDENCE = 29,
    IE_OFFENDING_IE = 40,
    IE_PDR_ID = 56,
    IE_F_SEID = 57,
    IE_NODE_ID = 60,
    IE_FQ_CSID = 65,
    IE_UE_IP_ADDRESS = 93,
    IE_FAR_ID = 108,
    IE_CREATE_ENDPOINT = 127,
    IE_CREATED_ENDPOINT = 128,
    IE_UPDATE_ENDPOINT = 129,
    IE_REMOVE_ENDPOINT = 130,
    IE_ENDPOINT_ID = 131,
    IE_FLAGS = 186
};

/* Flags of an F-TEID. */
enum { V4 = 1, V6 = 2, CHOOSE = 4, CHOOSE_ID = 8 };

/* Flags of a UE IP Address. */
enum { UE_V6 = 1, UE_V4 = 2, UE_PREFIX = 8, UE_CHOOSE_V4 = 16, UE_CHOOSE_V6 = 32, UE_LENGTH = 64 };

/* A message that is being written. */
struct message {
    uint8_t octets[MESSAGE_ROOM];
    size_t length;
    size_t groups[GROUPS_ROOM]; /* where the open groups start */
    size_t open;
};

/* Starts a message, with a SEID in its header and without one; message_end sets its length. */
void message_start(struct message *m, uint8_t type, uint64_t seid, uint32_t sequence);
void plain_message_start(struct message *m, uint8_t type, uint32_t sequence);
void message_end(struct message *m);

/* Opens a group, and closes the one opened last. */
void group_start(struct message *m, uint16_t type);
void group_end(struct message *m);

/* One element with this value. */
void put_element(struct message *m, uint16_t type, const void *value, size_t length);

/* One element with a number as its value, of 1, 2, 4 or 8 octets. */
void put_number(struct message *m, uint16_t type, uint64_t value, size_t octets);

/* Whole elements and groups. An F-TEID with CHOOSE is flags and the CHOOSE ID; another one has a
   TEID and the addresses that its flags name. */
struct tunnel {
    uint8_t flags;
    uint8_t choose_id;
    uint32_t teid;
    const uint8_t *ipv4;
    const uint8_t *ipv6;
};

void put_f_seid(struct message *m, uint64_t seid);
void put_f_teid(struct message *m, const struct tunnel *tunnel);
/* A UE IP Address that is given, and one that the unit is to choose. */
void put_address(struct message *m, uint32_t address);
void put_choose_address(struct message *m);
/* FQ-CSIDs of the node 192.0.2.10, with one CSID and with up to 15. */
void put_fq_csid(struct message *m, uint8_t node_type, uint16_t csid);
void put_fq_csids(struct message *m, uint8_t node_type, const uint16_t *csids, size_t count);

/* A Create PDR up to the PDI's source interface, and its end. Further members of the PDI stand
   between the two. A negative FAR ID is none. */
void create_pdr_start(struct message *m, uint16_t id, uint32_t precedence, uint8_t source);
void create_pdr_end(struct message *m, int64_t far_id);

/* A Create PDR with an F-TEID or, without one, neither. */
void create_pdr(struct message *m, uint16_t id, const struct tunnel *tunnel);
/* A Create PDR whose address the unit is to choose, with an F-TEID or without one. */
void create_pdr_with_address(struct message *m, uint16_t id, const struct tunnel *tunnel);
void create_endpoint(struct message *m, uint8_t id, const struct tunnel *tunnel);
void remove_pdr(struct message *m, uint16_t id);
void remove_endpoint(struct message *m, uint8_t id);

/* An element: its value is a part of the octets that it was found in. */
struct element {
    unsigned type;
    const uint8_t *value;
    size_t length;
};

/* Elements one after the other. */
struct elements {
    const uint8_t *octets;
    size_t length;
};

/* The elements of a request or reply, and those in a group. */
struct elements elements_of(const uint8_t *message, size_t length);
struct elements members_of(const struct element *group);

/* Takes the first element off; gives false at the end, and where the frame breaks. */
bool next_element(struct elements *rest, struct element *element);

/* The first element of a type at the top of a request or reply that is sound; its value is NULL and
   its length 0 where there is none, or where the frame breaks before it. */
struct element element_of(const uint8_t *message, size_t length, unsigned type);

/* The number in some octets of an element's value; 0 where it has fewer. */
uint64_t number_in(const struct element *element, size_t at, size_t count);

/* Numbers in octets, the first one on top. */
uint64_t number_at(const uint8_t *octets, size_t count);

#endif
