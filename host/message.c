#include "message.h"

#include <assert.h>
#include <string.h>

uint64_t number_at(const uint8_t *octets, size_t count)
{
    uint64_t number = 0;

    for (size_t i = 0; i < count; i++)
        number = number << 8 | octets[i];
    return number;
}

/* Without S a header has no SEID. */
struct elements elements_of(const uint8_t *message, size_t length)
{
    size_t header = length > 0 && (message[0] & 1) ? 16 : 8;

    if (header > length)
        header = length;
    return (struct elements){.octets = message + header, .length = length - header};
}

struct elements members_of(const struct element *group)
{
    return (struct elements){.octets = group->value, .length = group->length};
}

bool next_element(struct elements *rest, struct element *element)
{
    if (rest->length < 4)
        return false;
    element->type = (unsigned)number_at(rest->octets, 2);
    element->length = (size_t)number_at(rest->octets + 2, 2);
    if (element->length > rest->length - 4)
        return false;
    element->value = rest->octets + 4;
    rest->octets += 4 + element->length;
    rest->length -= 4 + element->length;
    return true;
}

struct element element_of(const uint8_t *message, size_t length, unsigned type)
{
    struct elements rest = elements_of(message, length);
    struct element element;

    while (next_element(&rest, &element))
        if (element.type == type)
            return element;
    return (struct element){.type = type, .value = NULL, .length = 0};
}

uint64_t number_in(const struct element *element, size_t at, size_t count)
{
    if (element->length < at + count)
        return 0;
    return number_at(element->value + at, count);
}

static void write_number(uint8_t *octets, uint64_t number, size_t count)
{
    for (size_t i = count; i > 0; i--) {
        octets[i - 1] = (uint8_t)number;
        number >>= 8;
    }
}

static void add_number(struct message *m, uint64_t number, size_t count)
{
    assert(m->length + count <= MESSAGE_ROOM);
    write_number(m->octets + m->length, number, count);
    m->length += count;
}

static void front_start(struct message *m, uint8_t first, uint8_t type)
{
    m->length = 0;
    m->open = 0;
    add_number(m, first, 1);
    add_number(m, type, 1);
    add_number(m, 0, 2);
}

void message_start(struct message *m, uint8_t type, uint64_t seid, uint32_t sequence)
{
    front_start(m, 0x21, type);
    add_number(m, seid, 8);
    add_number(m, sequence, 3);
    add_number(m, 0, 1);
}

void plain_message_start(struct message *m, uint8_t type, uint32_t sequence)
{
    front_start(m, 0x20, type);
    add_number(m, sequence, 3);
    add_number(m, 0, 1);
}

void message_end(struct message *m)
{
    assert(m->open == 0);
    write_number(m->octets + 2, m->length - 4, 2);
}

void group_start(struct message *m, uint16_t type)
{
    assert(m->open < GROUPS_ROOM);
    m->groups[m->open++] = m->length;
    add_number(m, type, 2);
    add_number(m, 0, 2);
}

void group_end(struct message *m)
{
    assert(m->open > 0);
    size_t start = m->groups[--m->open];
    write_number(m->octets + start + 2, m->length - start - 4, 2);
}

void put_element(struct message *m, uint16_t type, const void *value, size_t length)
{
    add_number(m, type, 2);
    add_number(m, length, 2);
    assert(m->length + length <= MESSAGE_ROOM);
    if (length > 0)
        memcpy(m->octets + m->length, value, length);
    m->length += length;
}

void put_number(struct message *m, uint16_t type, uint64_t value, size_t octets)
{
    add_number(m, type, 2);
    add_number(m, octets, 2);
    add_number(m, value, octets);
}

void put_f_seid(struct message *m, uint64_t seid)
{
    static const uint8_t peer[4] = {127, 0, 0, 1};
    uint8_t value[13] = {2}; /* V4 is bit 2 here */

    write_number(value + 1, seid, 8);
    memcpy(value + 9, peer, sizeof peer);
    put_element(m, IE_F_SEID, value, sizeof value);
}

void put_f_teid(struct message *m, const struct tunnel *tunnel)
{
    uint8_t value[25];
    size_t length = 0;

    value[length++] = tunnel->flags;
    if (tunnel->flags & CHOOSE) {
        if (tunnel->flags & CHOOSE_ID)
            value[length++] = tunnel->choose_id;
    } else {
        write_number(value + length, tunnel->teid, 4);
        length += 4;
        if (tunnel->flags & V4) {
            memcpy(value + length, tunnel->ipv4, 4);
            length += 4;
        }
        if (tunnel->flags & V6) {
            memcpy(value + length, tunnel->ipv6, 16);
            length += 16;
        }
    }
    put_element(m, IE_F_TEID, value, length);
}

void put_address(struct message *m, uint32_t address)
{
    uint8_t value[5] = {UE_V4};

    write_number(value + 1, address, 4);
    put_element(m, IE_UE_IP_ADDRESS, value, sizeof value);
}

void put_choose_address(struct message *m)
{
    put_number(m, IE_UE_IP_ADDRESS, UE_CHOOSE_V4, 1);
}

void put_fq_csid(struct message *m, uint8_t node_type, uint16_t csid)
{
    put_fq_csids(m, node_type, &csid, 1);
}

void put_fq_csids(struct message *m, uint8_t node_type, const uint16_t *csids, size_t count)
{
    uint8_t value[5 + 2 * 15 + 1] = {(uint8_t)count, 192, 0, 2, 10};
    size_t length = 5;

    assert(count <= 15);
    for (size_t i = 0; i < count; i++, length += 2)
        write_number(value + length, csids[i], 2);
    value[length++] = node_type;
    put_element(m, IE_FQ_CSID, value, length);
}

void create_pdr_start(struct message *m, uint16_t id, uint32_t precedence, uint8_t source)
{
    group_start(m, IE_CREATE_PDR);
    put_number(m, IE_PDR_ID, id, 2);
    put_number(m, IE_PRECEDENCE, precedence, 4);
    group_start(m, IE_PDI);
    put_number(m, IE_SOURCE_INTERFACE, source, 1);
}

void create_pdr_end(struct message *m, int64_t far_id)
{
    group_end(m);
    if (far_id >= 0)
        put_number(m, IE_FAR_ID, (uint64_t)far_id, 4);
    group_end(m);
}

void create_pdr(struct message *m, uint16_t id, const struct tunnel *tunnel)
{
    create_pdr_start(m, id, 100, 0);
    if (tunnel)
        put_f_teid(m, tunnel);
    create_pdr_end(m, -1);
}

void create_pdr_with_address(struct message *m, uint16_t id, const struct tunnel *tunnel)
{
    create_pdr_start(m, id, 100, 0);
    if (tunnel)
        put_f_teid(m, tunnel);
    put_choose_address(m);
    create_pdr_end(m, -1);
}

void create_endpoint(struct message *m, uint8_t id, const struct tunnel *tunnel)
{
    group_start(m, IE_CREATE_ENDPOINT);
    put_number(m, IE_ENDPOINT_ID, id, 1);
    put_f_teid(m, tunnel);
    group_end(m);
}

void remove_pdr(struct message *m, uint16_t id)
{
    group_start(m, IE_REMOVE_PDR);
    put_number(m, IE_PDR_ID, id, 2);
    group_end(m);
}

void remove_endpoint(struct message *m, uint8_t id)
{
    group_start(m, IE_REMOVE_ENDPOINT);
    put_number(m, IE_ENDPOINT_ID, id, 1);
    group_end(m);
}
