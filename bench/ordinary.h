/* The calls of bench/ordinary: those of pfcp_session.h under other names. */
#ifndef ORDINARY_H
#define ORDINARY_H

#include <stddef.h>
#include <stdint.h>

size_t ordinary_table_length(uint32_t session_limit);
uint32_t ordinary_make_table(uint8_t *table, size_t table_len, uint32_t ipv4, const uint8_t *ipv6,
                             size_t ipv6_len, uint32_t first_teid, uint32_t pool_size,
                             uint32_t first_address, uint32_t address_count, uint32_t session_limit,
                             uint32_t address1, uint32_t guarantee1, uint32_t limit1,
                             uint32_t address2, uint32_t guarantee2, uint32_t limit2);
uint32_t ordinary_free_count(const uint8_t *table, size_t table_len, uint32_t *count);
uint32_t ordinary_free_addresses(const uint8_t *table, size_t table_len, uint32_t *count);
uint32_t ordinary_request(uint8_t *table, size_t table_len, uint32_t peer, const uint8_t *message,
                          size_t message_len, uint8_t *reply, size_t reply_len, size_t *reply_used,
                          size_t *place);
size_t ordinary_store_length(void);
uint32_t ordinary_make_store(uint8_t *store, size_t store_len);
uint32_t ordinary_request_once(uint8_t *table, size_t table_len, uint32_t peer, uint8_t *store,
                               size_t store_len, const uint8_t *message, size_t message_len,
                               uint8_t *reply, size_t reply_len, size_t *reply_used, size_t *place);

#endif
