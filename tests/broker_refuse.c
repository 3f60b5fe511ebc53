/* The calls of c/mqtt5_broker.h, with each request for memory refused in turn, over a dialogue of three clients. It is linked
   with --wrap of malloc, realloc and free, and best under the address sanitizer. A call answers 0, or 12 where a request of
   it was refused; then its connection is closed, or the call is made again, and the dialogue goes on. Where no call answers
   12, all is sent as with none refused. What the library takes must be given back once the broker is let go. Prints what it
   did, or what is wrong. */
#include "../c/mqtt5_broker.h"

#include <stdio.h>
#include <stdlib.h>
#include <string.h>

/* The library's memory. The request of this number is refused, counted from 1; none is for 0. */
static long refused;
static long requests;
static long blocks;

static bool is_refused(void) { return ++requests == refused; }

void *__real_malloc(size_t size);
void *__real_realloc(void *block, size_t size);
void __real_free(void *block);

void *__wrap_malloc(size_t size) {
    void *block = is_refused() ? NULL : __real_malloc(size);
    blocks += block != NULL;
    return block;
}

void *__wrap_realloc(void *old, size_t size) {
    void *block = is_refused() ? NULL : __real_realloc(old, size);
    blocks += block != NULL && old == NULL;
    return block;
}

void __wrap_free(void *block) {
    blocks -= block != NULL;
    __real_free(block);
}

static int failures;

#define EXPECT(got, wanted)                                                                              \
    do {                                                                                                 \
        unsigned long long got_ = (got), wanted_ = (wanted);                                             \
        if (got_ != wanted_) {                                                                           \
            printf("line %d, request %ld refused: %s is %llu, not %llu\n", __LINE__, refused, #got, got_, wanted_); \
            failures++;                                                                                  \
        }                                                                                                \
    } while (0)

#define BYTES(literal) (const uint8_t *)(literal), sizeof(literal) - 1

/* Packets of MQTT 5.0 (sections 3.1 to 3.14), by hand. The first client, s, has a keep alive of 10 seconds and a will for
   the topic w with the payload g, which expires after 7 seconds; the others, p and r, have none of these. e is the user eve with the password pass. */
#define CONNECT_S "\x10\x1a\0\x04MQTT\x05\x06\0\x0a\0\0\x01s\x05\x02\0\0\0\x07\0\x01w\0\x01g"
#define CONNECT_P "\x10\x0e\0\x04MQTT\x05\x02\0\0\0\0\x01p"
#define CONNECT_R "\x10\x0e\0\x04MQTT\x05\x02\0\0\0\0\x01r"
#define CONNECT_E "\x10\x19\0\x04MQTT\x05\xc2\0\0\0\0\x01" "e" "\0\x03" "eve" "\0\x04" "pass"
#define SUBSCRIBE "\x82\x07\0\x01\0\0\x01" "a" "\x01"
#define SUBSCRIBE_TO_WILLS "\x82\x07\0\x01\0\0\x01" "w" "\0"
#define SUBSCRIBE_TO_BOTH "\x82\x0b\0\x01\0\0\x01" "a" "\x01\0\x01" "b" "\x01"
#define SUBACK_OF_1_AND_DENIED "\x90\x05\0\x01\0\x01\x87"
#define PUBLISH_TO_B "\x32\x07\0\x01" "b" "\0\x09\0" "x"
#define SUBACK_OF_1 "\x90\x04\0\x01\0\x01"
#define SUBACK_OF_0 "\x90\x04\0\x01\0\0"
#define PUBLISH_OF_P "\x32\x07\0\x01" "a" "\0\x09\0" "x"
#define PUBACK_TO_P "\x40\x02\0\x09"
#define PUBLISH_TO_S "\x32\x07\0\x01" "a" "\0\x01\0" "x"
#define PUBACK_OF_S "\x40\x02\0\x01"
#define LAST "\x30\x05\0\x01" "a" "\0" "y"
#define WILL "\x30\x0a\0\x01" "w" "\x05\x02\0\0\0\x07" "g"

/* What came out of a dialogue: the bytes of each connection, what else was told, and how often memory was refused. */
typedef struct {
    uint8_t bytes[3][128];
    size_t len[3];
    uint64_t moment;
    bool moments, passed[4];
    int refusals;
} told;

/* A connection of whose call memory was refused: it is closed, and its number begins anew. */
static void lose(mqtt5_broker *b, size_t connection, told *t) {
    bool begun = false;
    t->refusals++;
    EXPECT(mqtt5_broker_close(b, connection, 1), MQTT5_BROKER_DONE);
    EXPECT(mqtt5_broker_open(b, connection, 1, &begun), MQTT5_BROKER_DONE);
    EXPECT(begun, true);
}

static void comes(mqtt5_broker *b, size_t connection, const uint8_t *bytes, size_t len, uint64_t at, told *t) {
    uint32_t code = mqtt5_broker_receive(b, connection, bytes, len, at);
    if (code == MQTT5_BROKER_OUT_OF_MEMORY) lose(b, connection, t);
    else EXPECT(code, MQTT5_BROKER_DONE);
}

/* A call that may be made again where memory is refused. */
#define TWICE(call)                                            \
    do {                                                       \
        uint32_t code_ = (call);                               \
        if (code_ == MQTT5_BROKER_OUT_OF_MEMORY) {             \
            t->refusals++;                                     \
            code_ = (call);                                    \
        }                                                      \
        EXPECT(code_, MQTT5_BROKER_DONE);                      \
    } while (0)

/* The same of a client that is asked first who it is: its bytes are held, and taken once it is known. */
static void asked(mqtt5_broker *b, size_t connection, const uint8_t *bytes, size_t len, uint64_t at, told *t) {
    uint8_t name[4] = {0}, password[4] = {0};
    size_t name_len = 9, password_len = 9;
    uint32_t asks = 9;
    TWICE(mqtt5_broker_hold(b, connection, bytes, len));
    TWICE(mqtt5_broker_asks(b, connection, &asks, name, sizeof name, &name_len, password, sizeof password, &password_len));
    EXPECT(asks, MQTT5_BROKER_UNNAMED);
    EXPECT(name_len, 0);
    EXPECT(password_len, 0);
    comes(b, connection, NULL, 0, at, t);
}

/* Another is turned away, and its connection ends; name and password come as far as they fit. */
static void turned_away(mqtt5_broker *b, size_t connection, told *t) {
    uint8_t name[4] = "....", password[2] = "..", out[8];
    size_t name_len = 9, password_len = 9, count = 0;
    uint32_t asks = 9;
    bool is_open = true, begun = false;
    TWICE(mqtt5_broker_hold(b, connection, BYTES(CONNECT_E)));
    TWICE(mqtt5_broker_asks(b, connection, &asks, name, sizeof name, &name_len, password, sizeof password, &password_len));
    EXPECT(asks, MQTT5_BROKER_NAMED);
    EXPECT(name_len == 3 && !memcmp(name, "eve.", 4), true);
    EXPECT(password_len == 2 && !memcmp(password, "pa", 2), true);
    TWICE(mqtt5_broker_reject(b, connection, true));
    EXPECT(mqtt5_broker_is_open(b, connection, &is_open), MQTT5_BROKER_DONE);
    EXPECT(is_open, false);
    EXPECT(mqtt5_broker_output(b, connection, out, sizeof out, &count), MQTT5_BROKER_DONE);
    EXPECT(count == 5 && !memcmp(out, "\x20\x03\0\x86\0", 5), true);
    TWICE(mqtt5_broker_close(b, connection, 0));
    EXPECT(mqtt5_broker_open(b, connection, 0, &begun), MQTT5_BROKER_DONE);
    EXPECT(begun, true);
}

/* eve connects as a user, who may publish to a, and subscribe within a/#: of what goes beyond that each filter, and the publish, is
   answered with 0x87 (3.4.2.1, 3.9.3). Then her connection ends, and her session with it. */
static void as_user(mqtt5_broker *b, size_t connection, told *t) {
    uint8_t out[64];
    size_t user = 9, other = 9, count = 0, at;
    bool begun = false;
    int before = t->refusals;
    TWICE(mqtt5_broker_add_user(b, &user));
    TWICE(mqtt5_broker_add_user(b, &other));
    EXPECT(user == 0 && other == 1, true);
    EXPECT(mqtt5_broker_allow_publish(b, 2, BYTES("a")), MQTT5_BROKER_BAD_ARGUMENT);
    EXPECT(mqtt5_broker_allow_publish(b, user, BYTES("a/#/b")), MQTT5_BROKER_BAD_ARGUMENT);
    EXPECT(mqtt5_broker_allow_subscribe(b, user, BYTES("\xff")), MQTT5_BROKER_BAD_ARGUMENT);
    EXPECT(mqtt5_broker_allow_subscribe(b, user, NULL, 0), MQTT5_BROKER_BAD_ARGUMENT);
    TWICE(mqtt5_broker_allow_publish(b, user, BYTES("a")));
    TWICE(mqtt5_broker_allow_subscribe(b, user, BYTES("a/#")));
    EXPECT(mqtt5_broker_identify(b, connection, 2), MQTT5_BROKER_BAD_ARGUMENT);
    EXPECT(mqtt5_broker_identify(b, connection, user), MQTT5_BROKER_DONE);
    comes(b, connection, BYTES(CONNECT_E), 0, t);
    comes(b, connection, BYTES(SUBSCRIBE_TO_BOTH), 0, t);
    comes(b, connection, BYTES(PUBLISH_TO_B), 0, t);
    EXPECT(mqtt5_broker_output(b, connection, out, sizeof out, &count), MQTT5_BROKER_DONE);
    if (t->refusals == before) {
        EXPECT(count > 4 && out[0] == 0x20 && out[3] == 0, true);
        at = 2 + (size_t)out[1];
        EXPECT(count >= at + 12 && !memcmp(out + at, SUBACK_OF_1_AND_DENIED, 7), true);
        at += 7;
        EXPECT(out[at] == 0x40 && !memcmp(out + at + 2, "\0\x09\x87", 3) && count == at + 2 + out[at + 1], true);
    }
    TWICE(mqtt5_broker_close(b, connection, 0));
    EXPECT(mqtt5_broker_open(b, connection, 0, &begun), MQTT5_BROKER_DONE);
    EXPECT(begun, true);
}

/* The client of connection 0 waits, if the publish came to it, and no other one; there is no client of connection 7. */
static void waits(mqtt5_broker *b, bool has_come, told *t) {
    size_t client = 9, number = 9, none = 9;
    bool some = !has_come, is_one = true;
    EXPECT(mqtt5_broker_number(b, 7, &none, &is_one), MQTT5_BROKER_DONE);
    EXPECT(is_one, false);
    EXPECT(none, 9);
    EXPECT(mqtt5_broker_number(b, 0, &number, &is_one), MQTT5_BROKER_DONE);
    TWICE(mqtt5_broker_next_waiting(b, 0, &client, &some));
    if (!has_come) return;
    EXPECT(is_one, true);
    EXPECT(some, true);
    EXPECT(client, number);
    TWICE(mqtt5_broker_next_waiting(b, client + 1, &client, &some));
    EXPECT(some, false);
    EXPECT(client, number);
}

static void passes(mqtt5_broker *b, size_t connection, bool *some, told *t) {
    uint32_t code = mqtt5_broker_pass(b, connection, 0, some);
    if (code == MQTT5_BROKER_OUT_OF_MEMORY) lose(b, connection, t);
    else EXPECT(code, MQTT5_BROKER_DONE);
}

/* Sends what there is, in pieces of three bytes at most. */
static void sends(mqtt5_broker *b, size_t connection, told *t) {
    size_t count = 1;
    while (count > 0 && t->len[connection] + 3 <= sizeof t->bytes[connection]) {
        EXPECT(mqtt5_broker_output(b, connection, t->bytes[connection] + t->len[connection], 3, &count), MQTT5_BROKER_DONE);
        EXPECT(mqtt5_broker_sent(b, connection, count), MQTT5_BROKER_DONE);
        t->len[connection] += count;
    }
    EXPECT(count, 0);
}

/* Makes the broker; without memory the handle is empty, and may be tried again. */
static void begins(mqtt5_broker *b, told *t) {
    bool some = false;
    uint32_t code = mqtt5_broker_new(b, 3, 64, 10, 0, 2, 0, 0);
    if (code == MQTT5_BROKER_OUT_OF_MEMORY) {
        t->refusals++;
        EXPECT(mqtt5_broker_pass(b, 0, 0, &some), MQTT5_BROKER_NONE);
        code = mqtt5_broker_new(b, 3, 64, 10, 0, 2, 0, 0);
    }
    EXPECT(code, MQTT5_BROKER_DONE);
    EXPECT(mqtt5_broker_bound(b, 3, 2, 1, 0, 1, 100, false), MQTT5_BROKER_DONE);
    for (size_t connection = 0; connection < 3; connection++) {
        bool begun = false;
        EXPECT(mqtt5_broker_open(b, connection, 0, &begun), MQTT5_BROKER_DONE);
        EXPECT(begun, true);
    }
}

/* s subscribes, p publishes to it, s falls silent, and its will is published. r comes, also where what was due is not yet done
   for want of memory, and has its own message. Then the broker ends. */
static void plays(mqtt5_broker *b, told *t) {
    bool is_open, is_late;
    uint32_t code;
    uint64_t dropped = 9;
    int before;
    begins(b, t);
    turned_away(b, 2, t);
    as_user(b, 2, t);
    comes(b, 0, BYTES(CONNECT_S), 1, t);
    comes(b, 1, BYTES(CONNECT_P), 2, t);
    comes(b, 0, BYTES(SUBSCRIBE), 3, t);
    comes(b, 1, BYTES(SUBSCRIBE_TO_WILLS), 4, t);
    comes(b, 1, (const uint8_t *)PUBLISH_OF_P, 4, 5, t);
    comes(b, 1, (const uint8_t *)PUBLISH_OF_P + 4, sizeof PUBLISH_OF_P - 5, 5, t);
    TWICE(mqtt5_broker_trim(b, 5));
    EXPECT(mqtt5_broker_dropped(b, &dropped), MQTT5_BROKER_DONE);
    EXPECT(dropped, 0);
    waits(b, t->refusals == 0, t);
    passes(b, 0, &t->passed[0], t);
    sends(b, 0, t);
    comes(b, 0, BYTES(PUBACK_OF_S), 100, t);
    passes(b, 0, &t->passed[1], t);
    EXPECT(mqtt5_broker_next_moment(b, &t->moment, &t->moments), MQTT5_BROKER_DONE);
    before = t->refusals;
    code = mqtt5_broker_tick(b, 15100);
    is_late = code == MQTT5_BROKER_OUT_OF_MEMORY;
    t->refusals += is_late;
    asked(b, 2, BYTES(CONNECT_R), 15100, t);
    comes(b, 2, BYTES(SUBSCRIBE), 15100, t);
    if (is_late) code = mqtt5_broker_tick(b, 15100);
    EXPECT(code, MQTT5_BROKER_DONE);
    passes(b, 1, &t->passed[2], t);
    EXPECT(mqtt5_broker_is_open(b, 0, &is_open), MQTT5_BROKER_DONE);
    if (before == 0) EXPECT(is_open, false);
    sends(b, 0, t);
    TWICE(mqtt5_broker_close(b, 0, 15101));
    comes(b, 1, BYTES(LAST), 15101, t);
    passes(b, 2, &t->passed[3], t);
    if (is_late) EXPECT(t->passed[3], true);
    TWICE(mqtt5_broker_shut_down(b, 15102));
    sends(b, 1, t);
    sends(b, 2, t);
    EXPECT(mqtt5_broker_free(b), MQTT5_BROKER_DONE);
    EXPECT(blocks, 0);
}

/* Takes these bytes off the front of what was sent. */
static void expect_bytes(const uint8_t **at, const uint8_t *end, const uint8_t *wanted, size_t len, int line) {
    if ((size_t)(end - *at) < len || memcmp(*at, wanted, len)) {
        printf("line %d: other bytes are sent\n", line);
        failures++;
        return;
    }
    *at += len;
}

#define SENT(literal) expect_bytes(&at, end, BYTES(literal), __LINE__)

/* Takes a ConnAck off, of success and without a session (3.2.2.1, 3.2.2.2), whatever its properties; and a Disconnect of a
   reason (3.14.2.1), with or without a length of properties. */
static void expect_connack(const uint8_t **at, const uint8_t *end) {
    EXPECT(end - *at > 4 && (*at)[1] >= 3 && end - *at >= 2 + (*at)[1], true);
    if (failures) return;
    EXPECT((*at)[0], 0x20);
    EXPECT((*at)[2], 0);
    EXPECT((*at)[3], 0);
    *at += 2 + (*at)[1];
}

static void expect_disconnect(const uint8_t *at, const uint8_t *end, uint8_t reason) {
    EXPECT(end - at >= 3 && end - at == 2 + at[1], true);
    if (failures) return;
    EXPECT(at[0], 0xe0);
    EXPECT(at[2], reason);
}

/* With no request refused: each packet in its turn, the will of s after one and a half times its keep alive (3.1.2.10). */
static void expect_whole(const told *t) {
    const uint8_t *at = t->bytes[0], *end = at + t->len[0];
    expect_connack(&at, end);
    SENT(SUBACK_OF_1);
    SENT(PUBLISH_TO_S);
    expect_disconnect(at, end, 0x8d);
    at = t->bytes[1], end = at + t->len[1];
    expect_connack(&at, end);
    SENT(SUBACK_OF_0);
    SENT(PUBACK_TO_P);
    SENT(WILL);
    expect_disconnect(at, end, 0x8b);
    at = t->bytes[2], end = at + t->len[2];
    expect_connack(&at, end);
    SENT(SUBACK_OF_1);
    SENT(LAST);
    expect_disconnect(at, end, 0x8b);
    EXPECT(t->passed[0], true);
    EXPECT(t->passed[1], false);
    EXPECT(t->passed[2], true);
    EXPECT(t->passed[3], true);
    EXPECT(t->moments, true);
    EXPECT(t->moment, 100 + 15000);
    EXPECT(t->refusals, 0);
}

static bool is_same(const told *t, const told *other) {
    return !memcmp(t->bytes, other->bytes, sizeof t->bytes) && !memcmp(t->len, other->len, sizeof t->len)
        && !memcmp(t->passed, other->passed, sizeof t->passed) && t->moment == other->moment && t->moments == other->moments;
}

int main(void) {
    told whole = {0};
    mqtt5_broker first = {0};
    long all, refusals = 0;
    plays(&first, &whole);
    all = requests;
    expect_whole(&whole);
    EXPECT(all > 0, true);
    for (refused = 1; refused <= all && !failures; refused++) {
        told t = {0};
        mqtt5_broker b = {0};
        requests = 0;
        plays(&b, &t);
        EXPECT(t.refusals <= 1, true);
        if (t.refusals == 0) EXPECT(is_same(&t, &whole), true);
        refusals += t.refusals;
    }
    EXPECT(refusals > 0, true);
    if (!failures) printf("each of %ld requests for memory refused in turn, %ld told\n", all, refusals);
    return failures != 0;
}
