#include "words.h"

#include <arpa/inet.h>
#include <inttypes.h>

#include "message.h"

const char *cause_in_words(unsigned cause)
{
    switch (cause) {
    case 1:
        return "request accepted";
    case 64:
        return "request rejected";
    case 65:
        return "session context not found";
    case 66:
        return "mandatory element missing";
    case 67:
        return "conditional element missing";
    case 68:
        return "invalid length";
    case 69:
        return "mandatory element incorrect";
    case 71:
        return "invalid F-TEID allocation option";
    case 73:
        return "rule creation or modification failure";
    case 75:
        return "no resources available";
    case 76:
        return "service not supported";
    case 79:
        return "all dynamic addresses are occupied";
    default:
        return "unknown cause";
    }
}

/* Types 1 to 17 speak of nodes and of sets of sessions: their header has no SEID. Of them only the
   Session Set Deletion is served. */
static bool is_of_nodes(unsigned type)
{
    return type >= 1 && type <= 17 && type != SET_DELETION;
}

const char *outcome_in_words(unsigned outcome, bool has_type, unsigned type)
{
    switch (outcome) {
    case 0:
        return "answered";
    case 1:
        return "the table or its store of repeats is broken";
    case 2:
        return "the reply space is too small";
    case 3:
        return "no reply: over 2,048 octets";
    case 4:
        return has_type && is_of_nodes(type) ? "no reply: not a session's message"
                                             : "no reply: the header is wrong";
    case 5:
        return "no reply: this type is not served";
    case 6:
        return "no reply: dropped, its number is not newer";
    case 7:
        return "no such peer";
    default:
        return "unknown outcome";
    }
}

const char *element_in_words(unsigned type)
{
    switch (type) {
    case 0:
        return "the message";
    case IE_CREATE_PDR:
        return "Create PDR";
    case IE_PDI:
        return "PDI";
    case IE_CREATED_PDR:
        return "Created PDR";
    case IE_UPDATE_PDR:
        return "Update PDR";
    case IE_REMOVE_PDR:
        return "Remove PDR";
    case IE_CAUSE:
        return "Cause";
    case IE_SOURCE_INTERFACE:
        return "Source Interface";
    case IE_F_TEID:
        return "F-TEID";
    case IE_PRECEDENCE:
        return "Precedence";
    case IE_OFFENDING_IE:
        return "Offending IE";
    case IE_PDR_ID:
        return "PDR ID";
    case IE_F_SEID:
        return "F-SEID";
    case IE_NODE_ID:
        return "Node ID";
    case IE_FQ_CSID:
        return "FQ-CSID";
    case IE_UE_IP_ADDRESS:
        return "UE IP Address";
    case IE_FAR_ID:
        return "FAR ID";
    case IE_CREATE_ENDPOINT:
        return "Create Traffic Endpoint";
    case IE_CREATED_ENDPOINT:
        return "Created Traffic Endpoint";
    case IE_UPDATE_ENDPOINT:
        return "Update Traffic Endpoint";
    case IE_REMOVE_ENDPOINT:
        return "Remove Traffic Endpoint";
    case IE_ENDPOINT_ID:
        return "Traffic Endpoint ID";
    case IE_FLAGS:
        return "session establishment flags";
    default:
        return type >= 32768 ? "vendor element" : "unknown element";
    }
}

/* TS 29.244, table 8.2.2-1. */
const char *interface_in_words(unsigned interface)
{
    static const char *const words[] = {"access", "core", "SGi-LAN or N6-LAN", "CP function",
                                        "5G VN internal"};

    return interface < sizeof words / sizeof words[0] ? words[interface] : "spare";
}

/* TS 29.244, table 8.2.43-2. */
const char *node_type_in_words(unsigned type)
{
    static const char *const words[] = {"MME",  "SGW-C", "PGW-C or SMF",
                                        "ePDG", "TWAN",  "PGW-U, SGW-U or UPF"};

    return type < sizeof words / sizeof words[0] ? words[type] : "spare";
}

/* TS 29.244, table 7.3-1. */
const char *message_in_words(unsigned type)
{
    static const char *const words[] = {
        [1] = "Heartbeat Request",
        [2] = "Heartbeat Response",
        [3] = "PFD Management Request",
        [4] = "PFD Management Response",
        [5] = "Association Setup Request",
        [6] = "Association Setup Response",
        [7] = "Association Update Request",
        [8] = "Association Update Response",
        [9] = "Association Release Request",
        [10] = "Association Release Response",
        [11] = "Version Not Supported Response",
        [12] = "Node Report Request",
        [13] = "Node Report Response",
        [14] = "Session Set Deletion Request",
        [15] = "Session Set Deletion Response",
        [16] = "Session Set Modification Request",
        [17] = "Session Set Modification Response",
        [50] = "Session Establishment Request",
        [51] = "Session Establishment Response",
        [52] = "Session Modification Request",
        [53] = "Session Modification Response",
        [54] = "Session Deletion Request",
        [55] = "Session Deletion Response",
        [56] = "Session Report Request",
        [57] = "Session Report Response",
    };

    if (type < sizeof words / sizeof words[0] && words[type])
        return words[type];
    return "unknown message";
}

const char *time_in_words(const struct timespec *time, char *room, size_t size)
{
    struct timespec now;
    struct tm parts;

    if (!time) {
        clock_gettime(CLOCK_REALTIME, &now);
        time = &now;
    }
    gmtime_r(&time->tv_sec, &parts);
    size_t length = strftime(room, size, "%Y-%m-%dT%H:%M:%S", &parts);
    snprintf(room + length, size - length, ".%03ldZ", time->tv_nsec / 1000000);
    return room;
}

const char *address_in_words(const uint8_t *address, size_t octets, char *room, size_t size)
{
    const char *text = inet_ntop(octets == 16 ? AF_INET6 : AF_INET, address, room, (socklen_t)size);

    return text ? text : "?";
}

const char *ipv4_in_words(uint32_t address, char *room, size_t size)
{
    const uint8_t octets[4] = {(uint8_t)(address >> 24), (uint8_t)(address >> 16),
                               (uint8_t)(address >> 8), (uint8_t)address};

    return address_in_words(octets, sizeof octets, room, size);
}

void print_octets(FILE *out, const char *margin, const uint8_t *octets, size_t length)
{
    for (size_t i = 0; i < length; i++) {
        if (i % 16 == 0)
            fputs(margin, out);
        fprintf(out, "%02X%c", octets[i], i % 16 == 15 || i + 1 == length ? '\n' : ' ');
    }
}

static void print_f_teid(FILE *out, const uint8_t *value, size_t length)
{
    char room[INET6_ADDRSTRLEN];
    unsigned flags = length > 0 ? value[0] : 0;
    size_t needed = 5u + (flags & V4 ? 4u : 0u) + (flags & V6 ? 16u : 0u);

    if (flags & CHOOSE) {
        fprintf(out, "choose one for%s%s", flags & V4 ? " IPv4" : "", flags & V6 ? " IPv6" : "");
        if ((flags & CHOOSE_ID) && length > 1)
            fprintf(out, ", CHOOSE ID %u", value[1]);
    } else if (length >= needed && (flags & (V4 | V6))) {
        const uint8_t *address = value + 5;

        fprintf(out, "TEID %" PRIu64, number_at(value + 1, 4));
        if (flags & V4) {
            fprintf(out, " at %s", address_in_words(address, 4, room, sizeof room));
            address += 4;
        }
        if (flags & V6)
            fprintf(out, " at %s", address_in_words(address, 16, room, sizeof room));
    } else {
        fputs("not readable", out);
    }
}

static void print_ue_ip_address(FILE *out, const uint8_t *value, size_t length)
{
    char room[INET6_ADDRSTRLEN];
    unsigned flags = length > 0 ? value[0] : 0;

    if (flags & (UE_V6 | UE_PREFIX | UE_CHOOSE_V6 | UE_LENGTH))
        fputs("for IPv6", out);
    else if ((flags & UE_V4) && !(flags & UE_CHOOSE_V4) && length >= 5)
        fputs(address_in_words(value + 1, 4, room, sizeof room), out);
    else if ((flags & UE_CHOOSE_V4) && !(flags & UE_V4))
        fputs("choose one for IPv4", out);
    else
        fputs("not readable", out);
}

static void print_f_seid(FILE *out, const uint8_t *value, size_t length)
{
    char room[INET6_ADDRSTRLEN];

    /* V4 is bit 2 and V6 is bit 1 here. */
    if (length < 9 || (value[0] & 3) == 0) {
        fputs("not readable", out);
        return;
    }
    fprintf(out, "SEID %" PRIu64, number_at(value + 1, 8));
    if ((value[0] & 2) && length >= 13)
        fprintf(out, " at %s", address_in_words(value + 9, 4, room, sizeof room));
}

static void print_fq_csid(FILE *out, const uint8_t *value, size_t length)
{
    char room[INET6_ADDRSTRLEN];
    size_t address = length > 0 && value[0] >> 4 == 1 ? 16 : 4;
    size_t csids = length > 0 ? value[0] & 15 : 0;
    size_t end = 1 + address + 2 * csids;

    if (length == 0) {
        fputs("remove all", out);
    } else if (length <= end) {
        fputs("not readable", out);
    } else if (csids == 0) {
        fprintf(out, "node type %u, no CSID", value[end] & 15);
    } else {
        fprintf(out, "node type %u, CSID", value[end] & 15);
        for (size_t at = 1 + address; at < end; at += 2)
            fprintf(out, "%s %" PRIu64, at == 1 + address ? "" : ",", number_at(value + at, 2));
        fputs(" of ", out);
        if (value[0] >> 4 == 2)
            fprintf(out, "operator node %08" PRIX64, number_at(value + 1, 4));
        else
            fputs(address_in_words(value + 1, address, room, sizeof room), out);
    }
}

static int is_group(unsigned type)
{
    switch (type) {
    case IE_CREATE_PDR:
    case IE_PDI:
    case IE_CREATED_PDR:
    case IE_UPDATE_PDR:
    case IE_REMOVE_PDR:
    case IE_CREATE_ENDPOINT:
    case IE_CREATED_ENDPOINT:
    case IE_REMOVE_ENDPOINT:
        return 1;
    default:
        return 0;
    }
}

static void print_value(FILE *out, unsigned type, const uint8_t *value, size_t length)
{
    char room[INET6_ADDRSTRLEN];

    switch (type) {
    case IE_F_TEID:
        print_f_teid(out, value, length);
        return;
    case IE_F_SEID:
        print_f_seid(out, value, length);
        return;
    case IE_FQ_CSID:
        print_fq_csid(out, value, length);
        return;
    case IE_UE_IP_ADDRESS:
        print_ue_ip_address(out, value, length);
        return;
    case IE_NODE_ID:
        if (length == 5)
            fputs(address_in_words(value + 1, 4, room, sizeof room), out);
        return;
    default:
        break;
    }
    if (length == 0) {
        fputs("empty", out);
        return;
    }
    if (length > 8) {
        fprintf(out, "%zu octets", length);
        return;
    }
    unsigned number = (unsigned)number_at(value, length);

    fprintf(out, "%" PRIu64, number_at(value, length));
    if (type == IE_CAUSE)
        fprintf(out, ", %s", cause_in_words(number));
    else if (type == IE_OFFENDING_IE)
        fprintf(out, ", %s", element_in_words(number));
    else if (type == IE_FLAGS && (number & 1))
        fputs(", restoration", out);
}

/* The elements of a part; deeper ones are indented. A broken frame ends the part. */
static void print_part(FILE *out, int depth, const uint8_t *part, size_t length)
{
    while (length > 0) {
        int margin = 4 + 2 * depth;
        unsigned type = length >= 4 ? (unsigned)number_at(part, 2) : 0;
        size_t claimed = length >= 4 ? (size_t)number_at(part + 2, 2) : 0;

        if (length < 4) {
            fprintf(out, "%*s%zu octets left over\n", margin, "", length);
            return;
        }
        fprintf(out, "%*s%s", margin, "", element_in_words(type));
        if (claimed > length - 4) {
            fprintf(out, ": %zu octets claimed and %zu there\n", claimed, length - 4);
            return;
        }
        if (is_group(type) && depth < 2) {
            fputc('\n', out);
            print_part(out, depth + 1, part + 4, claimed);
        } else {
            fputs(": ", out);
            print_value(out, type, part + 4, claimed);
            fputc('\n', out);
        }
        part += 4 + claimed;
        length -= 4 + claimed;
    }
}

/* A message without a SEID; of its elements only those of sets are known here. */
static void print_plain_message(FILE *out, const uint8_t *message, size_t length)
{
    fprintf(out, "    %s (%u), sequence %" PRIu64 "\n", message_in_words(message[1]), message[1],
            number_at(message + 4, 3));
    if (message[1] == SET_DELETION || message[1] == SET_DELETION + 1)
        print_part(out, 0, message + 8, length - 8);
}

void print_message(FILE *out, const uint8_t *message, size_t length)
{
    if (length >= 8 && message[0] >> 5 == 1 && !(message[0] & 1)) {
        print_plain_message(out, message, length);
        return;
    }
    if (length < 16 || message[0] >> 5 != 1) {
        fprintf(out, "    %zu octets that are not a PFCP message\n", length);
        return;
    }
    fprintf(out, "    %s (%u), SEID %" PRIu64 ", sequence %" PRIu64 "\n",
            message_in_words(message[1]), message[1], number_at(message + 4, 8),
            number_at(message + 12, 3));
    print_part(out, 0, message + 16, length - 16);
}
