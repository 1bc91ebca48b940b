/* Messages in words. */
#ifndef WORDS_H
#define WORDS_H

#include <stdbool.h>
#include <stddef.h>
#include <stdint.h>
#include <stdio.h>
#include <time.h>

/* Room for a time. */
enum { TIME_ROOM = 32 };

/* Prints a request or a reply: a line for the header, and one for each element, indented. */
void print_message(FILE *out, const uint8_t *message, size_t length);

/* Prints octets in hexadecimal, 16 to a line, each line after the margin. */
void print_octets(FILE *out, const char *margin, const uint8_t *octets, size_t length);

/* What a message type, a cause and an element type mean. */
const char *message_in_words(unsigned type);
const char *cause_in_words(unsigned cause);
const char *element_in_words(unsigned type);

/* What a source interface (clause 8.2.2) and the node type of an FQ-CSID (clause 8.2.43) mean. */
const char *interface_in_words(unsigned interface);
const char *node_type_in_words(unsigned type);

/* What a host outcome of pfcp_request_once means for a message, whose type is known or not. */
const char *outcome_in_words(unsigned outcome, bool has_type, unsigned type);

/* A time as UTC to the millisecond; NULL is the time now. */
const char *time_in_words(const struct timespec *time, char *room, size_t size);

/* An address of 4 or 16 octets as text, and an IPv4 address that is a number; the room is
   INET6_ADDRSTRLEN at least. */
const char *address_in_words(const uint8_t *address, size_t octets, char *room, size_t size);
const char *ipv4_in_words(uint32_t address, char *room, size_t size);

#endif
