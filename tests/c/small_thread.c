/*
 * A thread with as little stack as the header says, which has the message and the reply on it too: a
 * request of the greatest length with a store, and its repeat. The last line is "N passed, M failed";
 * too little stack ends the program by a signal.
 */
#include <pthread.h>
#include <stdint.h>
#include <stdio.h>
#include <string.h>

#include "message.h"
#include "pfcp_session.h"

enum { STACK = 128 * 1024, MESSAGE = 2048, VENDOR = 32768, SESSIONS = 64, CAUSE_AT = 29 };

static uint8_t table[38721];
static uint8_t store[PFCP_STORE_LENGTH];
static const struct tunnel choose = {.flags = V4 | CHOOSE};
static unsigned passed;
static unsigned failed;

static void check(int holds, const char *what)
{
    if (holds)
        passed++;
    else
        failed++;
    if (!holds)
        printf("%s\n", what);
}

/* An establishment that a vendor's element fills up. */
static size_t longest(uint8_t *octets)
{
    static struct message m;
    static uint8_t filling[MESSAGE];

    message_start(&m, ESTABLISHMENT, 0, 1);
    put_f_seid(&m, 1);
    create_pdr(&m, 1, &choose);
    put_element(&m, VENDOR, filling, MESSAGE - m.length - 4);
    message_end(&m);
    memcpy(octets, m.octets, m.length);
    return m.length;
}

static void *serve(void *unused)
{
    uint8_t message[MESSAGE];
    uint8_t reply[PFCP_REPLY_SPACE];
    size_t length = longest(message);
    size_t used = 0;
    size_t place = 0;

    (void)unused;
    check(length == MESSAGE, "the message has the greatest length");
    for (int i = 0; i < 2; i++) {
        memset(reply, 0, sizeof reply);
        check(pfcp_request_once(table, sizeof table, 1, store, sizeof store, message, length, reply,
                                sizeof reply, &used, &place) == PFCP_ANSWERED,
              "it is answered");
        check(reply[CAUSE_AT] == 1 && used > CAUSE_AT, "it is accepted");
    }
    return NULL;
}

int main(void)
{
    pthread_attr_t attributes;
    pthread_t thread;

    check(pfcp_table_length(SESSIONS) == sizeof table, "the table's length");
    check(pfcp_make_table(table, sizeof table, 0xC0000201, NULL, 0, 4096, 16, 0x0A2D0001, 16,
                          SESSIONS, 0xC0000201, 8, 16, 0xC0000202, 8, 8) == 0,
          "a table");
    check(pfcp_make_store(store, sizeof store) == 0, "a store");
    check(pthread_attr_init(&attributes) == 0 &&
              pthread_attr_setstacksize(&attributes, STACK) == 0 &&
              pthread_create(&thread, &attributes, serve, NULL) == 0 &&
              pthread_join(thread, NULL) == 0,
          "a thread");
    printf("%u passed, %u failed\n", passed, failed);
    return failed > 0;
}
