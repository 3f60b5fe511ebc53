/* Each call of c/mqtt5.h, under the address sanitizer: on its way, misused, and with memory refused from each request on.
   What the library takes must be given back once the client is let go. Prints what it did, or what is wrong. */
#include "../c/mqtt5.h"
#include "../c/mqtt5_names.h"

#include <stdio.h>
#include <stdlib.h>
#include <string.h>

/* The library's memory. From request `left` on it is refused. */
static long left = -1;
static long requests;
static long blocks;

static bool is_refused(void) {
    requests++;
    return left >= 0 && requests > left;
}

void *__real_malloc(size_t size);
void *__real_realloc(void *block, size_t size);
void __real_free(void *block);

void *__wrap_malloc(size_t size) {
    void *block = is_refused() ? NULL : __real_malloc(size);
    blocks += block != NULL;
    return block;
}

void *__wrap_realloc(void *old, size_t size) {
    void *block = is_refused() ? NULL : __real_realloc(old, size);
    blocks += block != NULL && old == NULL;
    return block;
}

void __wrap_free(void *block) {
    blocks -= block != NULL;
    __real_free(block);
}

static int failures;

#define EXPECT(got, wanted)                                                                              \
    do {                                                                                                 \
        unsigned long long got_ = (got), wanted_ = (wanted);                                             \
        if (got_ != wanted_) {                                                                           \
            printf("line %d: %s is %llu, not %llu\n", __LINE__, #got, got_, wanted_);                    \
            failures++;                                                                                  \
        }                                                                                                \
    } while (0)

#define BYTES(literal) (const uint8_t *)(literal), sizeof(literal) - 1

/* Frames of MQTT 5.0 (sections 3.1 to 3.14), by hand. */
#define CONNECT "\x10\x13\0\x04MQTT\x05\x02\0\x3c\x05\x11\0\0\x0e\x10\0\x01" "c"
#define CONNACK "\x20\x03\0\0\0"
#define CONNACK_WITH_SESSION "\x20\x03\x01\0\0"
#define CONNACK_OF_FIVE_ALIASES "\x20\x06\0\0\x03\x22\0\x05"
#define CONNACK_OF_EIGHT "\x20\x08\x01\0\x05\x27\0\0\0\x08"
/* Server keep alive 10, client identifier z, reason r, user property k vw, maximum QoS 1. */
#define CONNACK_WITH_PROPERTIES \
    "\x20\x18\0\0\x15\x13\0\x0a\x12\0\x01z\x1f\0\x01r\x26\0\x01k\0\x02vw\x24\x01"
#define CONNACK_REFUSED "\x20\x03\0\x86\0"
#define SUBACK_OF_THREE "\x90\x06\0\x01\0\x02\x01\x80"
/* Content type t, response topic q, correlation data 0 and 255, subscription identifiers 5 and 128, expiry 60. */
#define PUBLISH_WITH_PROPERTIES \
    "\x30\x1c\0\x01" "a" "\x17\x03\0\x01t\x08\0\x01q\x09\0\x02\0\xff\x0b\x05\x0b\x80\x01\x02\0\0\0\x3c" "x"
#define SUBSCRIBE "\x82\x07\0\x01\0\0\x01" "a" "\x02"
#define SUBACK "\x90\x04\0\x01\0\x02"
#define PUBLISH_1 "\x32\x07\0\x01" "a" "\0\x01\0" "x"
#define PUBLISH_1_DUP "\x3a\x07\0\x01" "a" "\0\x01\0" "x"
#define PUBACK "\x40\x02\0\x01"
#define PUBLISH_2 "\x34\x07\0\x01" "a" "\0\x02\0" "x"
#define PUBREC "\x50\x02\0\x02"
#define PUBREL_1 "\x62\x02\0\x01"
#define PUBREL "\x62\x02\0\x02"
#define PUBCOMP "\x70\x02\0\x02"
#define PINGREQ "\xc0\0"
#define PINGRESP "\xd0\0"
#define DISCONNECT "\xe0\0"
/* Method m and data s; a yes of the broker's. */
#define AUTH_THAT_GOES_ON "\xf0\x0a\x18\x08\x15\0\x01m\x16\0\x01s"
#define AUTH_OF_SUCCESS "\xf0\x06\0\x04\x15\0\x01m"

/* Stored sessions, by hand (docs/USING.md): the text MQ5S, version 1, the limit, the current maximum, the last identifier, the
   maximum of topic aliases, who sends the acks, whether a publish waits, how many frames follow beside that one's, and the
   frames. Of limit 10 with one publish of QoS 1, which awaits its ack; and once it has it. */
#define SAVED "MQ5S\0\x01" "\0\x0a\0\x0a\0\x01\0\0" "\0\0\0\0" "\0\0\0\0\0\0\0\x01" PUBLISH_1_DUP
#define SAVED_ACKED "MQ5S\0\x01" "\0\x0a\0\x0a\0\x01\0\0" "\0\0\0\0" "\0\0\0\0\0\0\0\0"
/* Limit 10, nothing happened, and the program sends the acks. */
#define SAVED_BY_HAND "MQ5S\0\x01" "\0\x0a\0\x0a\0\0\0\0" "\0\x01\0\0" "\0\0\0\0\0\0\0\0"
/* Limit 3, current maximum 2, last identifier 1, at most 5 topic aliases; a publish of QoS 1 that waits, one of QoS 2 under 1,
   the release of 2, and identifier 7 of the broker's. */
#define ALL_PARTS "MQ5S\0\x01" "\0\x03\0\x02\0\x01\0\x05" "\0\0\0\x01" "\0\0\0\0\0\0\0\x03" \
    PUBLISH_THAT_WAITS PUBLISH_OF_ONE_DUP PUBREL PUBREC_OF_SEVEN
/* No publish, where one waits. */
#define NONE_WAITS "MQ5S\0\x01" "\0\x03\0\x02\0\x01\0\x05" "\0\0\0\x01" "\0\0\0\0\0\0\0\0" PUBREC_OF_SEVEN
#define CONNECT_AGAIN "\x10\x13\0\x04MQTT\x05\0\0\x3c\x05\x11\0\0\x0e\x10\0\x01" "c"
#define CONNACK_OF_TWO_AND_FIVE "\x20\x09\0\0\x06\x21\0\x02\x22\0\x05"
#define PUBLISH_THAT_WAITS "\x32\x07\0\x01" "a" "\0\x01\0" "w"
#define PUBLISH_OF_ONE_DUP "\x3c\x07\0\x01" "a" "\0\x01\0" "x"
#define PUBLISH_OF_SEVEN "\x34\x07\0\x01" "a" "\0\x07\0" "z"
#define PUBLISH_OF_SEVEN_DUP "\x3c\x07\0\x01" "a" "\0\x07\0" "z"
#define PUBREC_OF_SEVEN "\x50\x02\0\x07"

static uint8_t topic[4], payload[4];

/* Whether the output is these bytes, which are then sent; pieces of three at a time. */
static void expect_output(mqtt5_client *h, const uint8_t *wanted, size_t len, int line) {
    uint8_t all[64];
    size_t got = 0, count;
    while (mqtt5_client_output(h, all + got, 3, &count) == MQTT5_DONE && count > 0) {
        got += count;
        EXPECT(mqtt5_client_sent(h, count), MQTT5_DONE);
        if (got > sizeof all - 3) break;
    }
    if (got != len || memcmp(all, wanted, len)) {
        printf("line %d: the output is other bytes:", line);
        for (size_t i = 0; i < got; i++) printf(" %02x", all[i]);
        printf("\n");
        failures++;
    }
}

#define OUTPUT(h, literal) expect_output(h, BYTES(literal), __LINE__)

/* Takes an event out of this kind and type. */
static mqtt5_event expect_event(mqtt5_client *h, uint32_t kind, uint32_t packet, uint32_t pkid, int line) {
    mqtt5_event e;
    memset(&e, 0xaa, sizeof e);
    uint32_t code = mqtt5_client_next_event(h, &e, topic, sizeof topic, payload, sizeof payload);
    if (code || e.kind != kind || e.packet != packet || e.pkid != pkid) {
        printf("line %d: answer %u, event %u %u %u\n", line, code, e.kind, e.packet, e.pkid);
        failures++;
    }
    return e;
}

#define EVENT(h, kind, packet, pkid) expect_event(h, kind, packet, pkid, __LINE__)

/* A property of the oldest event as bytes. */
static void expect_bytes(mqtt5_client *h, uint32_t property, const uint8_t *wanted, size_t len, int line) {
    uint8_t buffer[8];
    size_t count = 99;
    uint32_t code = mqtt5_client_event_bytes(h, property, buffer, sizeof buffer, &count);
    if (code || count != len || memcmp(buffer, wanted, len)) {
        printf("line %d: answer %u, %zu bytes\n", line, code, count);
        failures++;
    }
}

#define EVENT_BYTES(h, property, literal) expect_bytes(h, property, BYTES(literal), __LINE__)

/* Every call but new and load of a handle without a client. */
static void expect_no_client(mqtt5_client *h, int line) {
    uint8_t buffer[4] = {7, 7, 7, 7};
    size_t count = 5, other;
    uint32_t number;
    uint8_t reason;
    uint16_t id;
    bool may = false;
    mqtt5_event e;
    uint32_t answers[] = {
        mqtt5_client_free(h),
        mqtt5_client_connect(h, BYTES("c"), 60, true, 0),
        mqtt5_client_receive(h, BYTES(CONNACK), 0),
        mqtt5_client_output(h, buffer, 4, &count),
        mqtt5_client_sent(h, 1),
        mqtt5_client_publish(h, BYTES("a"), BYTES("x"), 1, false, 0),
        mqtt5_client_subscribe(h, BYTES("a"), 1, 0),
        mqtt5_client_unsubscribe(h, BYTES("a"), 0),
        mqtt5_client_puback(h, 1, 0),
        mqtt5_client_pubrec(h, 1, 0),
        mqtt5_client_ping(h, 0),
        mqtt5_client_disconnect(h, 0),
        mqtt5_client_disconnect_with(h, 4, 0),
        mqtt5_client_auth(h, 24, 0),
        mqtt5_client_next_event(h, &e, topic, 4, payload, 4),
        mqtt5_client_resume(h, 0),
        mqtt5_client_clean(h, &count),
        mqtt5_client_take_up(h, true, 0, &count),
        mqtt5_client_event_number(h, MQTT5_SERVER_KEEP_ALIVE, &number),
        mqtt5_client_event_bytes(h, MQTT5_REASON_STRING, buffer, 4, &count),
        mqtt5_client_event_pair(h, 0, buffer, 2, &count, buffer + 2, 2, &other),
        mqtt5_client_event_subscription(h, 0, &count),
        mqtt5_client_event_reason(h, 0, &reason),
        mqtt5_client_add_number(h, MQTT5_RECEIVE_MAXIMUM, 1),
        mqtt5_client_add_bytes(h, MQTT5_REASON_STRING, BYTES("a")),
        mqtt5_client_add_pair(h, BYTES("a"), BYTES("b")),
        mqtt5_client_set_login(h, BYTES("a"), BYTES("b")),
        mqtt5_client_forget(h),
        mqtt5_client_set_will(h, BYTES("a"), BYTES("b"), 1, false),
        mqtt5_client_add_filter(h, BYTES("a"), 1, false, false, 0),
        mqtt5_client_subscribe_all(h, 0),
        mqtt5_client_next_id(h, &id),
        mqtt5_client_may_publish(h, &may),
        mqtt5_client_next_dropped(h, &e, buffer, 2, buffer + 2, 2),
        mqtt5_client_dropped_number(h, MQTT5_TOPIC_ALIAS, &number),
        mqtt5_client_dropped_bytes(h, MQTT5_CONTENT_TYPE, buffer, 4, &count),
        mqtt5_client_dropped_pair(h, 0, buffer, 2, &count, buffer + 2, 2, &other),
        mqtt5_client_save(h, buffer, 4, &count),
    };
    for (size_t i = 0; i < sizeof answers / sizeof *answers; i++) {
        if (answers[i] != MQTT5_NO_CLIENT) {
            printf("line %d: call %zu answers %u\n", line, i, answers[i]);
            failures++;
        }
    }
    EXPECT(count, 5);
    EXPECT(buffer[0], 7);
}

static void each_call(void) {
    mqtt5_client h = {0};
    EXPECT(mqtt5_client_new(&h, 10, false), MQTT5_DONE);
    EXPECT(mqtt5_client_connect(&h, BYTES("c"), 60, true, 3600), MQTT5_DONE);
    OUTPUT(&h, CONNECT);
    EXPECT(mqtt5_client_receive(&h, BYTES("\x20\x03"), 1), MQTT5_DONE);
    EXPECT(mqtt5_client_receive(&h, BYTES("\0\0\0"), 1), MQTT5_DONE);
    mqtt5_event e = EVENT(&h, 1, 2, 0);
    EXPECT(e.session_present, false);
    EXPECT(e.code, 0);

    EXPECT(mqtt5_client_subscribe(&h, BYTES("a"), 2, 2), MQTT5_DONE);
    OUTPUT(&h, SUBSCRIBE);
    EVENT(&h, 2, 8, 1);
    EXPECT(mqtt5_client_receive(&h, BYTES(SUBACK), 2), MQTT5_DONE);
    EXPECT(EVENT(&h, 1, 9, 1).code, 2);

    EXPECT(mqtt5_client_publish(&h, BYTES("a"), BYTES("x"), 0, false, 3), MQTT5_DONE);
    OUTPUT(&h, "\x30\x05\0\x01" "a" "\0" "x");
    EVENT(&h, 2, 3, 0);

    /* Ours of QoS 1 and 2. */
    EXPECT(mqtt5_client_publish(&h, BYTES("a"), BYTES("x"), 1, true, 3), MQTT5_DONE);
    OUTPUT(&h, "\x33\x07\0\x01" "a" "\0\x02\0" "x");
    EVENT(&h, 2, 3, 2);
    EXPECT(mqtt5_client_receive(&h, BYTES("\x40\x02\0\x02"), 3), MQTT5_DONE);
    EVENT(&h, 1, 4, 2);
    EXPECT(mqtt5_client_publish(&h, BYTES("a"), BYTES("x"), 2, false, 3), MQTT5_DONE);
    OUTPUT(&h, "\x34\x07\0\x01" "a" "\0\x03\0" "x");
    EVENT(&h, 2, 3, 3);
    EXPECT(mqtt5_client_receive(&h, BYTES("\x50\x02\0\x03"), 3), MQTT5_DONE);
    EVENT(&h, 1, 5, 3);
    EVENT(&h, 2, 6, 3);
    OUTPUT(&h, "\x62\x02\0\x03");
    EXPECT(mqtt5_client_receive(&h, BYTES("\x70\x02\0\x03"), 3), MQTT5_DONE);
    EVENT(&h, 1, 7, 3);

    /* Theirs of QoS 2, with a buffer that is too small at first. */
    EXPECT(mqtt5_client_receive(&h, BYTES(PUBLISH_2), 4), MQTT5_DONE);
    OUTPUT(&h, PUBREC);
    EXPECT(mqtt5_client_next_event(&h, &e, topic, 4, payload, 0), MQTT5_SMALL_BUFFER);
    EXPECT(e.payload_len, 1);
    e = EVENT(&h, 1, 3, 2);
    EXPECT(e.qos, 2);
    EXPECT(e.topic_len, 1);
    EXPECT(topic[0], 'a');
    EXPECT(payload[0], 'x');
    EVENT(&h, 2, 5, 2);
    EXPECT(mqtt5_client_receive(&h, BYTES(PUBREL), 4), MQTT5_DONE);
    OUTPUT(&h, PUBCOMP);
    EVENT(&h, 1, 6, 2);
    EVENT(&h, 2, 7, 2);

    EXPECT(mqtt5_client_ping(&h, 5), MQTT5_DONE);
    OUTPUT(&h, PINGREQ);
    EVENT(&h, 2, 12, 0);
    EXPECT(mqtt5_client_receive(&h, BYTES(PINGRESP), 5), MQTT5_DONE);
    EVENT(&h, 1, 13, 0);

    EXPECT(mqtt5_client_unsubscribe(&h, BYTES("a"), 6), MQTT5_DONE);
    OUTPUT(&h, "\xa2\x06\0\x04\0\0\x01" "a");
    EVENT(&h, 2, 10, 4);
    EXPECT(mqtt5_client_receive(&h, BYTES("\xb0\x04\0\x04\0\0"), 6), MQTT5_DONE);
    EVENT(&h, 1, 11, 4);

    EXPECT(mqtt5_client_disconnect(&h, 7), MQTT5_DONE);
    OUTPUT(&h, DISCONNECT);
    EVENT(&h, 2, 14, 0);

    /* Nothing goes behind it (3.14.4), until the next connect. */
    EXPECT(mqtt5_client_publish(&h, BYTES("a"), BYTES("x"), 0, false, 7), MQTT5_DISCONNECTED);
    EXPECT(mqtt5_client_publish(&h, BYTES("a"), BYTES("x"), 1, false, 7), MQTT5_DISCONNECTED);
    EXPECT(mqtt5_client_subscribe(&h, BYTES("a"), 0, 7), MQTT5_DISCONNECTED);
    EXPECT(mqtt5_client_unsubscribe(&h, BYTES("a"), 7), MQTT5_DISCONNECTED);
    EXPECT(mqtt5_client_ping(&h, 7), MQTT5_DISCONNECTED);
    EXPECT(mqtt5_client_disconnect(&h, 7), MQTT5_DISCONNECTED);
    OUTPUT(&h, "");
    EVENT(&h, 0, 0, 0);
    EXPECT(mqtt5_client_connect(&h, BYTES("c"), 60, true, 3600), MQTT5_DONE);
    OUTPUT(&h, CONNECT);
    EXPECT(mqtt5_client_publish(&h, BYTES("a"), BYTES("x"), 0, false, 8), MQTT5_DONE);
    OUTPUT(&h, "\x30\x05\0\x01" "a" "\0" "x");
    EVENT(&h, 2, 3, 0);
    EVENT(&h, 0, 0, 0);
    EXPECT(mqtt5_client_free(&h), MQTT5_DONE);
    EXPECT(blocks, 0);
}

/* What the oldest event has, and what it hasn't. It stays. */
static void properties_that_came(void) {
    mqtt5_client h = {0};
    uint32_t number = 7;
    uint8_t reason = 7, name[2], value[2];
    size_t count = 7, other = 7;
    EXPECT(mqtt5_client_new(&h, 10, false), MQTT5_DONE);
    EXPECT(mqtt5_client_event_number(&h, MQTT5_SERVER_KEEP_ALIVE, &number), MQTT5_ABSENT);
    EXPECT(mqtt5_client_event_reason(&h, 0, &reason), MQTT5_ABSENT);
    EXPECT(number, 7);
    EXPECT(reason, 7);
    EXPECT(mqtt5_client_receive(&h, BYTES(CONNACK_WITH_PROPERTIES), 1), MQTT5_DONE);
    EXPECT(mqtt5_client_event_number(&h, MQTT5_SERVER_KEEP_ALIVE, &number), MQTT5_DONE);
    EXPECT(number, 10);
    EXPECT(mqtt5_client_event_number(&h, MQTT5_MAXIMUM_QOS, &number), MQTT5_DONE);
    EXPECT(number, 1);
    EXPECT(mqtt5_client_event_number(&h, MQTT5_RETAIN_AVAILABLE, &number), MQTT5_ABSENT);
    EVENT_BYTES(&h, MQTT5_ASSIGNED_CLIENT_IDENTIFIER, "z");
    EVENT_BYTES(&h, MQTT5_REASON_STRING, "r");
    EXPECT(mqtt5_client_event_bytes(&h, MQTT5_REASON_STRING, name, 0, &count), MQTT5_SMALL_BUFFER);
    EXPECT(count, 1);
    EXPECT(mqtt5_client_event_bytes(&h, MQTT5_SERVER_REFERENCE, name, 2, &count), MQTT5_ABSENT);
    EXPECT(mqtt5_client_event_pair(&h, 0, name, 2, &count, value, 2, &other), MQTT5_DONE);
    EXPECT(count, 1);
    EXPECT(other, 2);
    EXPECT(name[0], 'k');
    EXPECT(value[0], 'v');
    EXPECT(value[1], 'w');
    EXPECT(mqtt5_client_event_pair(&h, 0, name, 2, &count, value, 1, &other), MQTT5_SMALL_BUFFER);
    EXPECT(mqtt5_client_event_pair(&h, 1, name, 2, &count, value, 2, &other), MQTT5_ABSENT);
    EXPECT(mqtt5_client_event_reason(&h, 0, &reason), MQTT5_DONE);
    EXPECT(reason, 0);
    EXPECT(mqtt5_client_event_reason(&h, 1, &reason), MQTT5_ABSENT);
    EVENT(&h, 1, 2, 0);

    EXPECT(mqtt5_client_receive(&h, BYTES(PUBLISH_WITH_PROPERTIES), 1), MQTT5_DONE);
    EXPECT(mqtt5_client_event_number(&h, MQTT5_MESSAGE_EXPIRY_INTERVAL, &number), MQTT5_DONE);
    EXPECT(number, 60);
    EVENT_BYTES(&h, MQTT5_CONTENT_TYPE, "t");
    EVENT_BYTES(&h, MQTT5_RESPONSE_TOPIC, "q");
    EVENT_BYTES(&h, MQTT5_CORRELATION_DATA, "\0\xff");
    EXPECT(mqtt5_client_event_subscription(&h, 1, &count), MQTT5_DONE);
    EXPECT(count, 128);
    EXPECT(mqtt5_client_event_subscription(&h, 2, &count), MQTT5_ABSENT);
    EXPECT(mqtt5_client_event_reason(&h, 0, &reason), MQTT5_ABSENT);
    EVENT(&h, 1, 3, 0);

    EXPECT(mqtt5_client_subscribe(&h, BYTES("a"), 2, 2), MQTT5_DONE);
    EVENT(&h, 2, 8, 1);
    EXPECT(mqtt5_client_receive(&h, BYTES(SUBACK_OF_THREE), 2), MQTT5_DONE);
    static const uint8_t reasons[] = {2, 1, 128};
    for (size_t i = 0; i < 3; i++) {
        EXPECT(mqtt5_client_event_reason(&h, i, &reason), MQTT5_DONE);
        EXPECT(reason, reasons[i]);
    }
    EXPECT(mqtt5_client_event_reason(&h, 3, &reason), MQTT5_ABSENT);
    EVENT(&h, 1, 9, 1);

    EXPECT(mqtt5_client_publish(&h, BYTES("a"), BYTES("x"), 1, false, 3), MQTT5_DONE);
    EVENT(&h, 2, 3, 2);
    EXPECT(mqtt5_client_receive(&h, BYTES("\x40\x08\0\x02\x10\x04\x1f\0\x01n"), 3), MQTT5_DONE);
    EVENT_BYTES(&h, MQTT5_REASON_STRING, "n");
    EXPECT(mqtt5_client_event_reason(&h, 0, &reason), MQTT5_DONE);
    EXPECT(reason, 16);
    EVENT(&h, 1, 4, 2);

    /* A broker that refuses: its event stands, with its reason. */
    EXPECT(mqtt5_client_receive(&h, BYTES(CONNACK_REFUSED), 4), MQTT5_CONNECTION_REFUSED);
    EXPECT(mqtt5_client_event_reason(&h, 0, &reason), MQTT5_DONE);
    EXPECT(reason, MQTT5_REASON_BAD_USER_NAME_OR_PASSWORD);
    EXPECT(EVENT(&h, 1, 2, 0).code, 0x86);
    EXPECT(mqtt5_client_free(&h), MQTT5_DONE);
    EXPECT(blocks, 0);
}

/* The list of properties goes with the next packet, and with no other. */
static void properties_to_send(void) {
    mqtt5_client h = {0};
    EXPECT(mqtt5_client_new(&h, 10, false), MQTT5_DONE);
    EXPECT(mqtt5_client_add_number(&h, MQTT5_WILL_DELAY_INTERVAL, 5), MQTT5_DONE);
    EXPECT(mqtt5_client_set_will(&h, BYTES("w"), BYTES("y"), 1, true), MQTT5_DONE);
    EXPECT(mqtt5_client_set_login(&h, BYTES("u"), BYTES("p")), MQTT5_DONE);
    EXPECT(mqtt5_client_add_number(&h, MQTT5_RECEIVE_MAXIMUM, 9), MQTT5_DONE);
    EXPECT(mqtt5_client_add_number(&h, MQTT5_RECEIVE_MAXIMUM, 10), MQTT5_DONE);
    EXPECT(mqtt5_client_connect(&h, BYTES("c"), 60, true, 3600), MQTT5_DONE);
    OUTPUT(&h, "\x10\x28\0\x04MQTT\x05\xee\0\x3c\x08\x11\0\0\x0e\x10\x21\0\x0a\0\x01" "c"
        "\x05\x18\0\0\0\x05\0\x01w\0\x01y\0\x01u\0\x01p");
    EXPECT(mqtt5_client_receive(&h, BYTES(CONNACK), 1), MQTT5_DONE);
    EVENT(&h, 1, 2, 0);

    EXPECT(mqtt5_client_add_number(&h, MQTT5_MESSAGE_EXPIRY_INTERVAL, 60), MQTT5_DONE);
    EXPECT(mqtt5_client_add_bytes(&h, MQTT5_RESPONSE_TOPIC, BYTES("q")), MQTT5_DONE);
    EXPECT(mqtt5_client_add_pair(&h, BYTES("k"), BYTES("v")), MQTT5_DONE);
    EXPECT(mqtt5_client_publish(&h, BYTES("a"), BYTES("x"), 0, false, 2), MQTT5_DONE);
    OUTPUT(&h, "\x30\x15\0\x01" "a" "\x10\x02\0\0\0\x3c\x08\0\x01q\x26\0\x01k\0\x01v" "x");
    EXPECT(mqtt5_client_publish(&h, BYTES("a"), BYTES("x"), 0, false, 2), MQTT5_DONE);
    OUTPUT(&h, "\x30\x05\0\x01" "a" "\0" "x");
    EXPECT(mqtt5_client_add_number(&h, MQTT5_SUBSCRIPTION_IDENTIFIER, 5), MQTT5_DONE);
    EXPECT(mqtt5_client_subscribe(&h, BYTES("a"), 2, 2), MQTT5_DONE);
    OUTPUT(&h, "\x82\x09\0\x01\x02\x0b\x05\0\x01" "a" "\x02");
    EXPECT(mqtt5_client_add_pair(&h, BYTES("k"), BYTES("v")), MQTT5_DONE);
    EXPECT(mqtt5_client_unsubscribe(&h, BYTES("a"), 2), MQTT5_DONE);
    OUTPUT(&h, "\xa2\x0d\0\x02\x07\x26\0\x01k\0\x01v\0\x01" "a");

    /* What a packet can't have is refused, and the list is empty then too. */
    EXPECT(mqtt5_client_add_number(&h, MQTT5_RECEIVE_MAXIMUM, 10), MQTT5_DONE);
    EXPECT(mqtt5_client_publish(&h, BYTES("a"), BYTES("x"), 0, false, 2), MQTT5_BAD_ARGUMENT);
    EXPECT(mqtt5_client_publish(&h, BYTES("a"), BYTES("x"), 0, false, 2), MQTT5_DONE);
    OUTPUT(&h, "\x30\x05\0\x01" "a" "\0" "x");
    EXPECT(mqtt5_client_add_number(&h, MQTT5_RECEIVE_MAXIMUM, 65536), MQTT5_BAD_ARGUMENT);
    EXPECT(mqtt5_client_add_number(&h, MQTT5_REASON_STRING, 1), MQTT5_BAD_ARGUMENT);
    EXPECT(mqtt5_client_add_number(&h, 99, 1), MQTT5_BAD_ARGUMENT);
    EXPECT(mqtt5_client_add_bytes(&h, MQTT5_REASON_STRING, BYTES("\xff")), MQTT5_BAD_ARGUMENT);
    EXPECT(mqtt5_client_add_bytes(&h, MQTT5_RECEIVE_MAXIMUM, BYTES("a")), MQTT5_BAD_ARGUMENT);
    EXPECT(mqtt5_client_add_bytes(&h, MQTT5_CORRELATION_DATA, BYTES("\xff")), MQTT5_DONE);
    EXPECT(mqtt5_client_add_pair(&h, BYTES("k"), BYTES("\xff")), MQTT5_BAD_ARGUMENT);
    EXPECT(mqtt5_client_set_login(&h, BYTES("u"), BYTES("\xff")), MQTT5_BAD_ARGUMENT);
    EXPECT(mqtt5_client_set_will(&h, BYTES("w"), BYTES("y"), 3, true), MQTT5_BAD_ARGUMENT);

    EXPECT(mqtt5_client_add_number(&h, MQTT5_RECEIVE_MAXIMUM, 10), MQTT5_DONE);
    EXPECT(mqtt5_client_forget(&h), MQTT5_DONE);
    EXPECT(mqtt5_client_connect(&h, BYTES("c"), 60, true, 3600), MQTT5_DONE);
    OUTPUT(&h, CONNECT);
    EXPECT(mqtt5_client_free(&h), MQTT5_DONE);
    EXPECT(blocks, 0);
}

/* A Disconnect with its reason and the properties of the list; one that a client doesn't send leaves all as it was. */
static void goodbye_for_a_reason(void) {
    mqtt5_client h = {0};
    EXPECT(mqtt5_client_new(&h, 10, false), MQTT5_DONE);
    EXPECT(mqtt5_client_connect(&h, BYTES("c"), 60, true, 3600), MQTT5_DONE);
    OUTPUT(&h, CONNECT);
    EXPECT(mqtt5_client_receive(&h, BYTES(CONNACK), 1), MQTT5_DONE);
    EVENT(&h, 1, 2, 0);
    EXPECT(mqtt5_client_add_bytes(&h, MQTT5_REASON_STRING, BYTES("r")), MQTT5_DONE);
    EXPECT(mqtt5_client_disconnect_with(&h, MQTT5_REASON_SERVER_BUSY, 2), MQTT5_INVALID_STATE);
    EXPECT(mqtt5_client_disconnect_with(&h, 5, 2), MQTT5_BAD_ARGUMENT);
    EXPECT(mqtt5_client_add_number(&h, MQTT5_RECEIVE_MAXIMUM, 1), MQTT5_DONE);
    EXPECT(mqtt5_client_disconnect_with(&h, MQTT5_REASON_DISCONNECT_WITH_WILL, 2), MQTT5_BAD_ARGUMENT);
    OUTPUT(&h, "");
    EVENT(&h, 0, 0, 0);
    EXPECT(mqtt5_client_publish(&h, BYTES("a"), BYTES("x"), 0, false, 2), MQTT5_DONE);
    OUTPUT(&h, "\x30\x05\0\x01" "a" "\0" "x");
    EVENT(&h, 2, 3, 0);

    EXPECT(mqtt5_client_add_bytes(&h, MQTT5_REASON_STRING, BYTES("r")), MQTT5_DONE);
    EXPECT(mqtt5_client_add_pair(&h, BYTES("k"), BYTES("v")), MQTT5_DONE);
    EXPECT(mqtt5_client_disconnect_with(&h, MQTT5_REASON_DISCONNECT_WITH_WILL, 2), MQTT5_DONE);
    OUTPUT(&h, "\xe0\x0d\x04\x0b\x1f\0\x01r\x26\0\x01k\0\x01v");
    EVENT(&h, 2, 14, 0);
    EXPECT(mqtt5_client_disconnect_with(&h, MQTT5_REASON_DISCONNECT_WITH_WILL, 2), MQTT5_DISCONNECTED);
    EXPECT(mqtt5_client_publish(&h, BYTES("a"), BYTES("x"), 0, false, 2), MQTT5_DISCONNECTED);
    OUTPUT(&h, "");

    EXPECT(mqtt5_client_connect(&h, BYTES("c"), 60, true, 3600), MQTT5_DONE);
    OUTPUT(&h, CONNECT);
    EXPECT(mqtt5_client_receive(&h, BYTES(CONNACK_OF_EIGHT), 3), MQTT5_DONE);
    EVENT(&h, 1, 2, 0);
    EXPECT(mqtt5_client_add_bytes(&h, MQTT5_REASON_STRING, BYTES("reason")), MQTT5_DONE);
    EXPECT(mqtt5_client_disconnect_with(&h, MQTT5_REASON_UNSPECIFIED_ERROR, 3), MQTT5_PACKET_TOO_LARGE);
    EXPECT(mqtt5_client_disconnect_with(&h, MQTT5_REASON_UNSPECIFIED_ERROR, 3), MQTT5_DONE);
    OUTPUT(&h, "\xe0\x02\x80\0");
    EVENT(&h, 2, 14, 0);
    EXPECT(mqtt5_client_connect(&h, BYTES("c"), 60, true, 3600), MQTT5_DONE);
    OUTPUT(&h, CONNECT);
    EXPECT(mqtt5_client_disconnect_with(&h, MQTT5_REASON_SUCCESS, 4), MQTT5_DONE);
    OUTPUT(&h, DISCONNECT);
    EXPECT(mqtt5_client_free(&h), MQTT5_DONE);
    EXPECT(blocks, 0);
}

/* An exchange of authentication data before the ConnAck, and one that begins anew (4.12). */
static void extended_authentication(void) {
    mqtt5_client h = {0};
    uint8_t reason;
    EXPECT(mqtt5_client_new(&h, 10, false), MQTT5_DONE);
    EXPECT(mqtt5_client_add_bytes(&h, MQTT5_AUTHENTICATION_METHOD, BYTES("m")), MQTT5_DONE);
    EXPECT(mqtt5_client_add_bytes(&h, MQTT5_AUTHENTICATION_DATA, BYTES("\0")), MQTT5_DONE);
    EXPECT(mqtt5_client_connect(&h, BYTES("c"), 60, true, 3600), MQTT5_DONE);
    OUTPUT(&h, "\x10\x1b\0\x04MQTT\x05\x02\0\x3c\x0d\x11\0\0\x0e\x10\x15\0\x01m\x16\0\x01\0\0\x01" "c");
    EXPECT(mqtt5_client_receive(&h, BYTES(AUTH_THAT_GOES_ON), 1), MQTT5_DONE);
    EVENT_BYTES(&h, MQTT5_AUTHENTICATION_METHOD, "m");
    EVENT_BYTES(&h, MQTT5_AUTHENTICATION_DATA, "s");
    EXPECT(mqtt5_client_event_reason(&h, 0, &reason), MQTT5_DONE);
    EXPECT(reason, MQTT5_REASON_CONTINUE_AUTHENTICATION);
    EVENT(&h, 1, 15, 0);
    OUTPUT(&h, "");
    EXPECT(mqtt5_client_add_bytes(&h, MQTT5_AUTHENTICATION_METHOD, BYTES("m")), MQTT5_DONE);
    EXPECT(mqtt5_client_add_bytes(&h, MQTT5_AUTHENTICATION_DATA, BYTES("\0\xff")), MQTT5_DONE);
    EXPECT(mqtt5_client_auth(&h, MQTT5_REASON_CONTINUE_AUTHENTICATION, 1), MQTT5_DONE);
    OUTPUT(&h, "\xf0\x0b\x18\x09\x15\0\x01m\x16\0\x02\0\xff");
    EVENT(&h, 2, 15, 0);
    EXPECT(mqtt5_client_receive(&h, BYTES(CONNACK), 1), MQTT5_DONE);
    EVENT(&h, 1, 2, 0);

    EXPECT(mqtt5_client_add_bytes(&h, MQTT5_AUTHENTICATION_METHOD, BYTES("m")), MQTT5_DONE);
    EXPECT(mqtt5_client_auth(&h, MQTT5_REASON_REAUTHENTICATE, 2), MQTT5_DONE);
    OUTPUT(&h, "\xf0\x06\x19\x04\x15\0\x01m");
    EVENT(&h, 2, 15, 0);
    EXPECT(mqtt5_client_receive(&h, BYTES(AUTH_OF_SUCCESS), 2), MQTT5_DONE);
    EXPECT(mqtt5_client_event_reason(&h, 0, &reason), MQTT5_DONE);
    EXPECT(reason, MQTT5_REASON_SUCCESS);
    EVENT(&h, 1, 15, 0);

    /* Without a method, of the broker's reason, of no reason, and with what an Auth hasn't. */
    EXPECT(mqtt5_client_auth(&h, MQTT5_REASON_CONTINUE_AUTHENTICATION, 3), MQTT5_INVALID_STATE);
    EXPECT(mqtt5_client_add_bytes(&h, MQTT5_AUTHENTICATION_DATA, BYTES("d")), MQTT5_DONE);
    EXPECT(mqtt5_client_auth(&h, MQTT5_REASON_CONTINUE_AUTHENTICATION, 3), MQTT5_INVALID_STATE);
    EXPECT(mqtt5_client_add_bytes(&h, MQTT5_AUTHENTICATION_METHOD, BYTES("m")), MQTT5_DONE);
    EXPECT(mqtt5_client_auth(&h, MQTT5_REASON_SUCCESS, 3), MQTT5_INVALID_STATE);
    EXPECT(mqtt5_client_auth(&h, 1, 3), MQTT5_BAD_ARGUMENT);
    EXPECT(mqtt5_client_add_number(&h, MQTT5_RECEIVE_MAXIMUM, 1), MQTT5_DONE);
    EXPECT(mqtt5_client_auth(&h, MQTT5_REASON_CONTINUE_AUTHENTICATION, 3), MQTT5_BAD_ARGUMENT);
    OUTPUT(&h, "");
    EVENT(&h, 0, 0, 0);
    EXPECT(mqtt5_client_disconnect(&h, 4), MQTT5_DONE);
    OUTPUT(&h, DISCONNECT);
    EXPECT(mqtt5_client_add_bytes(&h, MQTT5_AUTHENTICATION_METHOD, BYTES("m")), MQTT5_DONE);
    EXPECT(mqtt5_client_auth(&h, MQTT5_REASON_CONTINUE_AUTHENTICATION, 4), MQTT5_DISCONNECTED);
    EXPECT(mqtt5_client_free(&h), MQTT5_DONE);
    EXPECT(blocks, 0);
}

/* An empty topic stands where a topic alias does (3.3.2.1, 3.3.2.3.4), and never in a will (4.7.3). */
static void empty_topics(void) {
    mqtt5_client h = {0};
    EXPECT(mqtt5_client_new(&h, 10, false), MQTT5_DONE);
    EXPECT(mqtt5_client_receive(&h, BYTES(CONNACK_OF_FIVE_ALIASES), 1), MQTT5_DONE);
    EVENT(&h, 1, 2, 0);
    EXPECT(mqtt5_client_publish(&h, BYTES(""), BYTES("x"), 0, false, 2), MQTT5_BAD_ARGUMENT);
    EXPECT(mqtt5_client_add_number(&h, MQTT5_MESSAGE_EXPIRY_INTERVAL, 60), MQTT5_DONE);
    EXPECT(mqtt5_client_publish(&h, BYTES(""), BYTES("x"), 1, false, 2), MQTT5_BAD_ARGUMENT);
    EXPECT(mqtt5_client_set_will(&h, BYTES(""), BYTES("y"), 1, true), MQTT5_BAD_ARGUMENT);
    OUTPUT(&h, "");
    EXPECT(mqtt5_client_add_number(&h, MQTT5_TOPIC_ALIAS, 5), MQTT5_DONE);
    EXPECT(mqtt5_client_publish(&h, BYTES("a"), BYTES("x"), 0, false, 2), MQTT5_DONE);
    OUTPUT(&h, "\x30\x08\0\x01" "a" "\x03\x23\0\x05" "x");
    EXPECT(mqtt5_client_add_number(&h, MQTT5_TOPIC_ALIAS, 5), MQTT5_DONE);
    EXPECT(mqtt5_client_publish(&h, BYTES(""), BYTES("x"), 0, false, 2), MQTT5_DONE);
    OUTPUT(&h, "\x30\x07\0\0\x03\x23\0\x05" "x");
    EXPECT(mqtt5_client_free(&h), MQTT5_DONE);
    EXPECT(blocks, 0);
}

/* Several filters in one Subscribe, with their options. */
static void several_filters(void) {
    mqtt5_client h = {0};
    EXPECT(mqtt5_client_new(&h, 10, false), MQTT5_DONE);
    EXPECT(mqtt5_client_add_filter(&h, BYTES("a"), 2, true, true, 2), MQTT5_DONE);
    EXPECT(mqtt5_client_add_filter(&h, BYTES("b"), 0, false, false, 0), MQTT5_DONE);
    EXPECT(mqtt5_client_add_filter(&h, BYTES("\xff"), 0, false, false, 0), MQTT5_BAD_ARGUMENT);
    EXPECT(mqtt5_client_add_filter(&h, BYTES("b"), 3, false, false, 0), MQTT5_BAD_ARGUMENT);
    EXPECT(mqtt5_client_add_filter(&h, BYTES("b"), 0, false, false, 3), MQTT5_BAD_ARGUMENT);
    EXPECT(mqtt5_client_add_number(&h, MQTT5_SUBSCRIPTION_IDENTIFIER, 5), MQTT5_DONE);
    EXPECT(mqtt5_client_subscribe_all(&h, 1), MQTT5_DONE);
    OUTPUT(&h, "\x82\x0d\0\x01\x02\x0b\x05\0\x01" "a" "\x2e\0\x01" "b" "\0");
    EVENT(&h, 2, 8, 1);
    EXPECT(mqtt5_client_subscribe_all(&h, 1), MQTT5_EMPTY_SUBSCRIPTION);
    OUTPUT(&h, "");
    EXPECT(mqtt5_client_free(&h), MQTT5_DONE);
    EXPECT(blocks, 0);
}

/* A client of two identifiers: a third publish would wait. */
static void next_ids(void) {
    mqtt5_client h = {0};
    uint16_t id = 7;
    bool may = false;
    EXPECT(mqtt5_client_new(&h, 2, false), MQTT5_DONE);
    EXPECT(mqtt5_client_next_id(&h, &id), MQTT5_DONE);
    EXPECT(id, 1);
    EXPECT(mqtt5_client_publish(&h, BYTES("a"), BYTES("x"), 1, false, 1), MQTT5_DONE);
    EVENT(&h, 2, 3, 1);
    EXPECT(mqtt5_client_next_id(&h, &id), MQTT5_DONE);
    EXPECT(id, 2);
    EXPECT(mqtt5_client_may_publish(&h, &may), MQTT5_DONE);
    EXPECT(may, true);
    EXPECT(mqtt5_client_publish(&h, BYTES("a"), BYTES("x"), 2, false, 1), MQTT5_DONE);
    EVENT(&h, 2, 3, 2);
    EXPECT(mqtt5_client_next_id(&h, &id), MQTT5_DONE);
    EXPECT(id, 1);
    EXPECT(mqtt5_client_may_publish(&h, &may), MQTT5_DONE);
    EXPECT(may, false);
    EXPECT(mqtt5_client_receive(&h, BYTES(PUBACK), 2), MQTT5_DONE);
    EXPECT(mqtt5_client_may_publish(&h, &may), MQTT5_DONE);
    EXPECT(may, true);
    EXPECT(mqtt5_client_free(&h), MQTT5_DONE);
    EXPECT(blocks, 0);
}

/* MQTT 5.0 section 4.7, whose examples these are. */
static void topics(void) {
    EXPECT(mqtt5_valid_topic(BYTES("sport/tennis/player1")), true);
    EXPECT(mqtt5_valid_topic(BYTES("/")), true);
    EXPECT(mqtt5_valid_topic(BYTES("")), false);
    EXPECT(mqtt5_valid_topic(BYTES("a/#")), false);
    EXPECT(mqtt5_valid_topic(BYTES("a\0b")), false);
    EXPECT(mqtt5_valid_topic(BYTES("\xff")), false);
    EXPECT(mqtt5_valid_filter(BYTES("sport/tennis/#")), true);
    EXPECT(mqtt5_valid_filter(BYTES("+/tennis/#")), true);
    EXPECT(mqtt5_valid_filter(BYTES("sport/tennis#")), false);
    EXPECT(mqtt5_valid_filter(BYTES("sport/tennis/#/ranking")), false);
    EXPECT(mqtt5_valid_filter(BYTES("sport+")), false);
    EXPECT(mqtt5_valid_filter(BYTES("")), false);
    EXPECT(mqtt5_valid_filter(BYTES("a\0")), false);
    EXPECT(mqtt5_topic_matches(BYTES("sport/tennis/player1/ranking"), BYTES("sport/tennis/player1/#")), true);
    EXPECT(mqtt5_topic_matches(BYTES("sport"), BYTES("sport/#")), true);
    EXPECT(mqtt5_topic_matches(BYTES("sport/tennis/player1/ranking"), BYTES("sport/tennis/+")), false);
    EXPECT(mqtt5_topic_matches(BYTES("/finance"), BYTES("+")), false);
    EXPECT(mqtt5_topic_matches(BYTES("$SYS/"), BYTES("#")), false);
    /* (as the header says, beside 4.7.2) */
    EXPECT(mqtt5_topic_matches(BYTES("$SYS/a"), BYTES("$SYS/#")), false);
    EXPECT(mqtt5_topic_matches(BYTES("$SYS/a"), BYTES("$SYS/a")), false);
    EXPECT(mqtt5_topic_matches(BYTES("\xff"), BYTES("#")), false);
}

/* The header's names are numbers that the crates know: each property has its kind of value, and each reason code is read in a
   ConnAck or in a Disconnect (MQTT 5.0 sections 3.2.2.2 and 3.14.2.1). */
static void names_of_the_header(void) {
    static const uint32_t numbers[] = {
        MQTT5_PAYLOAD_FORMAT_INDICATOR, MQTT5_MESSAGE_EXPIRY_INTERVAL, MQTT5_SUBSCRIPTION_IDENTIFIER,
        MQTT5_SESSION_EXPIRY_INTERVAL, MQTT5_SERVER_KEEP_ALIVE, MQTT5_REQUEST_PROBLEM_INFORMATION,
        MQTT5_WILL_DELAY_INTERVAL, MQTT5_REQUEST_RESPONSE_INFORMATION, MQTT5_RECEIVE_MAXIMUM,
        MQTT5_TOPIC_ALIAS_MAXIMUM, MQTT5_TOPIC_ALIAS, MQTT5_MAXIMUM_QOS, MQTT5_RETAIN_AVAILABLE,
        MQTT5_MAXIMUM_PACKET_SIZE, MQTT5_WILDCARD_SUBSCRIPTION_AVAILABLE,
        MQTT5_SUBSCRIPTION_IDENTIFIER_AVAILABLE, MQTT5_SHARED_SUBSCRIPTION_AVAILABLE,
    };
    static const uint32_t bytes[] = {
        MQTT5_CONTENT_TYPE, MQTT5_RESPONSE_TOPIC, MQTT5_CORRELATION_DATA, MQTT5_ASSIGNED_CLIENT_IDENTIFIER,
        MQTT5_AUTHENTICATION_METHOD, MQTT5_AUTHENTICATION_DATA, MQTT5_RESPONSE_INFORMATION,
        MQTT5_SERVER_REFERENCE, MQTT5_REASON_STRING,
    };
    static const uint8_t refusals[] = {
        MQTT5_REASON_UNSUPPORTED_PROTOCOL_VERSION, MQTT5_REASON_CLIENT_IDENTIFIER_NOT_VALID,
        MQTT5_REASON_BAD_USER_NAME_OR_PASSWORD, MQTT5_REASON_SERVER_UNAVAILABLE, MQTT5_REASON_BANNED,
        MQTT5_REASON_BAD_AUTHENTICATION_METHOD,
    };
    static const uint8_t ends[] = {
        MQTT5_REASON_UNSPECIFIED_ERROR, MQTT5_REASON_MALFORMED_PACKET, MQTT5_REASON_PROTOCOL_ERROR,
        MQTT5_REASON_IMPLEMENTATION_SPECIFIC_ERROR, MQTT5_REASON_NOT_AUTHORIZED, MQTT5_REASON_SERVER_BUSY,
        MQTT5_REASON_SERVER_SHUTTING_DOWN, MQTT5_REASON_KEEP_ALIVE_TIMEOUT, MQTT5_REASON_SESSION_TAKEN_OVER,
        MQTT5_REASON_TOPIC_FILTER_INVALID, MQTT5_REASON_TOPIC_NAME_INVALID,
        MQTT5_REASON_RECEIVE_MAXIMUM_EXCEEDED, MQTT5_REASON_TOPIC_ALIAS_INVALID, MQTT5_REASON_PACKET_TOO_LARGE,
        MQTT5_REASON_MESSAGE_RATE_TOO_HIGH, MQTT5_REASON_QUOTA_EXCEEDED, MQTT5_REASON_ADMINISTRATIVE_ACTION,
        MQTT5_REASON_PAYLOAD_FORMAT_INVALID, MQTT5_REASON_RETAIN_NOT_SUPPORTED,
        MQTT5_REASON_QOS_NOT_SUPPORTED, MQTT5_REASON_USE_ANOTHER_SERVER, MQTT5_REASON_SERVER_MOVED,
        MQTT5_REASON_SHARED_SUBSCRIPTIONS_NOT_SUPPORTED, MQTT5_REASON_CONNECTION_RATE_EXCEEDED,
        MQTT5_REASON_MAXIMUM_CONNECT_TIME, MQTT5_REASON_SUBSCRIPTION_IDENTIFIERS_NOT_SUPPORTED,
        MQTT5_REASON_WILDCARD_SUBSCRIPTIONS_NOT_SUPPORTED,
    };
    mqtt5_client h = {0};
    EXPECT(mqtt5_client_new(&h, 10, false), MQTT5_DONE);
    for (size_t i = 0; i < sizeof numbers / sizeof *numbers; i++)
        EXPECT(mqtt5_client_add_number(&h, numbers[i], 1), MQTT5_DONE);
    for (size_t i = 0; i < sizeof bytes / sizeof *bytes; i++)
        EXPECT(mqtt5_client_add_bytes(&h, bytes[i], BYTES("a")), MQTT5_DONE);
    for (size_t i = 0; i < sizeof refusals; i++) {
        uint8_t connack[] = {0x20, 3, 0, refusals[i], 0};
        EXPECT(mqtt5_client_receive(&h, connack, sizeof connack, 1), MQTT5_CONNECTION_REFUSED);
        EXPECT(EVENT(&h, MQTT5_CAME, MQTT5_CONNACK, 0).code, refusals[i]);
    }
    for (size_t i = 0; i < sizeof ends; i++) {
        uint8_t disconnect[] = {0xe0, 2, ends[i], 0};
        EXPECT(mqtt5_client_receive(&h, disconnect, sizeof disconnect, 1), MQTT5_SERVER_DISCONNECT);
        EXPECT(EVENT(&h, MQTT5_CAME, MQTT5_DISCONNECT, 0).code, ends[i]);
    }
    EXPECT(mqtt5_client_free(&h), MQTT5_DONE);
    EXPECT(blocks, 0);
}

static void acks_by_hand(void) {
    mqtt5_client h = {0};
    EXPECT(mqtt5_client_new(&h, 10, true), MQTT5_DONE);
    EXPECT(mqtt5_client_receive(&h, BYTES(PUBLISH_1 PUBLISH_2), 1), MQTT5_DONE);
    OUTPUT(&h, "");
    EVENT(&h, 1, 3, 1);
    EVENT(&h, 1, 3, 2);
    EXPECT(mqtt5_client_puback(&h, 1, 1), MQTT5_DONE);
    EXPECT(mqtt5_client_pubrec(&h, 2, 1), MQTT5_DONE);
    OUTPUT(&h, PUBACK PUBREC);
    EXPECT(mqtt5_client_free(&h), MQTT5_DONE);
    EXPECT(blocks, 0);
}

static void a_cut(void) {
    mqtt5_client h = {0};
    EXPECT(mqtt5_client_new(&h, 10, false), MQTT5_DONE);
    EXPECT(mqtt5_client_publish(&h, BYTES("a"), BYTES("x"), 1, false, 1), MQTT5_DONE);
    EVENT(&h, 2, 3, 1);
    EXPECT(mqtt5_client_connect(&h, BYTES("c"), 60, true, 3600), MQTT5_DONE);
    OUTPUT(&h, CONNECT);
    EXPECT(mqtt5_client_receive(&h, BYTES(CONNACK_WITH_SESSION), 2), MQTT5_DONE);
    EXPECT(EVENT(&h, 1, 2, 0).session_present, true);
    EXPECT(mqtt5_client_resume(&h, 2), MQTT5_DONE);
    OUTPUT(&h, PUBLISH_1_DUP);

    /* And an end of the session. */
    size_t count = 7;
    EXPECT(mqtt5_client_clean(&h, &count), 1);
    EVENT(&h, 2, 3, 1);
    EXPECT(mqtt5_client_clean(&h, &count), MQTT5_DONE);
    EXPECT(count, 1);
    EXPECT(mqtt5_client_clean(&h, &count), MQTT5_DONE);
    EXPECT(count, 0);
    EXPECT(mqtt5_client_free(&h), MQTT5_DONE);
    EXPECT(blocks, 0);
}

/* Takes the oldest request out that was let go: its type, its identifier, and of a Publish topic and payload, of one byte. */
static mqtt5_event expect_dropped(mqtt5_client *h, uint32_t packet, uint32_t pkid, const char *of, int line) {
    mqtt5_event e;
    memset(&e, 0xaa, sizeof e);
    uint32_t code = mqtt5_client_next_dropped(h, &e, topic, sizeof topic, payload, sizeof payload);
    size_t len = packet == MQTT5_PUBLISH;
    if (code || e.kind != MQTT5_DROPPED || e.packet != packet || e.pkid != pkid || e.code || e.session_present) {
        printf("line %d: answer %u, request %u %u %u\n", line, code, e.kind, e.packet, e.pkid);
        failures++;
    } else if (e.topic_len != len || e.payload_len != len || (len && (topic[0] != of[0] || payload[0] != of[1]))) {
        printf("line %d: another topic or payload\n", line);
        failures++;
    }
    return e;
}

#define LET_GO(h, packet, pkid, of) expect_dropped(h, packet, pkid, of, __LINE__)

/* None is left. */
static void expect_none_dropped(mqtt5_client *h, int line) {
    mqtt5_event e;
    memset(&e, 0xaa, sizeof e);
    uint32_t code = mqtt5_client_next_dropped(h, &e, topic, 0, payload, 0);
    if (code || e.kind || e.packet || e.pkid || e.topic_len || e.payload_len) {
        printf("line %d: answer %u, request %u %u %u\n", line, code, e.kind, e.packet, e.pkid);
        failures++;
    }
}

#define NONE_LET_GO(h) expect_none_dropped(h, __LINE__)

static void take_events_out(mqtt5_client *h) {
    mqtt5_event e;
    do {
        EXPECT(mqtt5_client_next_event(h, &e, topic, sizeof topic, payload, sizeof payload), MQTT5_DONE);
    } while (e.kind && !failures);
}

/* A broker that has lost the session, and one that takes packets of eight bytes at most. */
static void a_lost_session(void) {
    mqtt5_client h = {0};
    size_t count = 7;
    EXPECT(mqtt5_client_new(&h, 10, false), MQTT5_DONE);
    EXPECT(mqtt5_client_publish(&h, BYTES("a"), BYTES("x"), 1, false, 1), MQTT5_DONE);
    EVENT(&h, 2, 3, 1);
    EXPECT(mqtt5_client_connect(&h, BYTES("c"), 60, true, 3600), MQTT5_DONE);
    OUTPUT(&h, CONNECT);
    EXPECT(mqtt5_client_receive(&h, BYTES(CONNACK), 2), MQTT5_DONE);
    EXPECT(mqtt5_client_take_up(&h, false, 2, &count), 1);
    EXPECT(EVENT(&h, 1, 2, 0).session_present, false);
    EXPECT(mqtt5_client_take_up(&h, false, 2, &count), MQTT5_DONE);
    EXPECT(count, 1);
    LET_GO(&h, MQTT5_PUBLISH, 1, "ax");
    NONE_LET_GO(&h);
    OUTPUT(&h, "");
    EXPECT(mqtt5_client_publish(&h, BYTES("a"), BYTES("x"), 1, false, 2), MQTT5_DONE);
    OUTPUT(&h, PUBLISH_1);
    EVENT(&h, 2, 3, 1);

    EXPECT(mqtt5_client_connect(&h, BYTES("c"), 60, true, 3600), MQTT5_DONE);
    OUTPUT(&h, CONNECT);
    EXPECT(mqtt5_client_receive(&h, BYTES(CONNACK_OF_EIGHT), 3), MQTT5_DONE);
    EXPECT(EVENT(&h, 1, 2, 0).session_present, true);
    EXPECT(mqtt5_client_take_up(&h, true, 3, &count), MQTT5_DONE);
    EXPECT(count, 1);
    LET_GO(&h, MQTT5_PUBLISH, 1, "ax");
    NONE_LET_GO(&h);
    OUTPUT(&h, PUBREL_1);
    EVENT(&h, 2, 6, 1);
    EXPECT(mqtt5_client_publish(&h, BYTES("a"), BYTES("x"), 1, false, 3), 9);
    EVENT(&h, 0, 0, 0);
    EXPECT(mqtt5_client_free(&h), MQTT5_DONE);
    EXPECT(blocks, 0);
}

/* The properties of the oldest request that was let go: an expiry of 60, response topic q, user property k vw. It stays. */
static void expect_properties(mqtt5_client *h) {
    uint32_t number = 7;
    uint8_t name[2] = {7, 7}, value[2] = {7, 7};
    size_t count = 7, other = 7;
    EXPECT(mqtt5_client_dropped_number(h, MQTT5_TOPIC_ALIAS, &number), MQTT5_ABSENT);
    EXPECT(number, 7);
    EXPECT(mqtt5_client_dropped_number(h, MQTT5_MESSAGE_EXPIRY_INTERVAL, &number), MQTT5_DONE);
    EXPECT(number, 60);
    EXPECT(mqtt5_client_dropped_bytes(h, MQTT5_CONTENT_TYPE, name, 2, &count), MQTT5_ABSENT);
    EXPECT(count, 7);
    EXPECT(mqtt5_client_dropped_bytes(h, MQTT5_RESPONSE_TOPIC, name, 0, &count), MQTT5_SMALL_BUFFER);
    EXPECT(count, 1);
    EXPECT(name[0], 7);
    EXPECT(mqtt5_client_dropped_bytes(h, MQTT5_RESPONSE_TOPIC, name, 2, &count), MQTT5_DONE);
    EXPECT(name[0], 'q');
    EXPECT(mqtt5_client_dropped_pair(h, 1, name, 2, &count, value, 2, &other), MQTT5_ABSENT);
    EXPECT(mqtt5_client_dropped_pair(h, 0, name, 2, &count, value, 1, &other), MQTT5_SMALL_BUFFER);
    EXPECT(count, 1);
    EXPECT(other, 2);
    EXPECT(name[0], 'q');
    EXPECT(value[0], 7);
    EXPECT(mqtt5_client_dropped_pair(h, 0, name, 2, &count, value, 2, &other), MQTT5_DONE);
    EXPECT(name[0], 'k');
    EXPECT(value[0], 'v');
    EXPECT(value[1], 'w');
}

/* What a session lets go comes out one by one: the publishes that await their ack by rising identifier, as they would be sent
   again (4.4, 3.3.1.1), the releases, and the publish that waits. It takes no memory. */
static void what_is_let_go(void) {
    mqtt5_client h = {0};
    mqtt5_event e;
    uint32_t number = 7;
    size_t count = 7;
    EXPECT(mqtt5_client_new(&h, 3, false), MQTT5_DONE);
    NONE_LET_GO(&h);
    EXPECT(mqtt5_client_dropped_number(&h, MQTT5_MESSAGE_EXPIRY_INTERVAL, &number), MQTT5_ABSENT);
    EXPECT(mqtt5_client_add_number(&h, MQTT5_MESSAGE_EXPIRY_INTERVAL, 60), MQTT5_DONE);
    EXPECT(mqtt5_client_add_bytes(&h, MQTT5_RESPONSE_TOPIC, BYTES("q")), MQTT5_DONE);
    EXPECT(mqtt5_client_add_pair(&h, BYTES("k"), BYTES("vw")), MQTT5_DONE);
    EXPECT(mqtt5_client_publish(&h, BYTES("a"), BYTES("x"), 1, false, 1), MQTT5_DONE);
    EXPECT(mqtt5_client_publish(&h, BYTES("b"), BYTES("x"), 2, false, 1), MQTT5_DONE);
    EXPECT(mqtt5_client_publish(&h, BYTES("c"), BYTES("y"), 2, true, 1), MQTT5_DONE);
    EXPECT(mqtt5_client_publish(&h, BYTES("d"), BYTES("z"), 1, false, 1), MQTT5_DONE);
    EXPECT(mqtt5_client_receive(&h, BYTES(PUBREC), 1), MQTT5_DONE);
    EXPECT(mqtt5_client_clean(&h, &count), MQTT5_INVALID_STATE);
    NONE_LET_GO(&h);
    take_events_out(&h);
    EXPECT(mqtt5_client_clean(&h, &count), MQTT5_DONE);
    EXPECT(count, 4);

    long taken = requests;
    expect_properties(&h);
    payload[0] = topic[0] = 7;
    EXPECT(mqtt5_client_next_dropped(&h, &e, topic, sizeof topic, payload, 0), MQTT5_SMALL_BUFFER);
    EXPECT(mqtt5_client_next_dropped(&h, &e, topic, 0, payload, sizeof payload), MQTT5_SMALL_BUFFER);
    EXPECT(e.payload_len, 1);
    EXPECT(topic[0], 7);
    EXPECT(payload[0], 7);
    e = LET_GO(&h, MQTT5_PUBLISH, 1, "ax");
    EXPECT(e.qos, 1);
    EXPECT(e.dup, true);
    EXPECT(e.retain, false);
    e = LET_GO(&h, MQTT5_PUBLISH, 3, "cy");
    EXPECT(e.qos, 2);
    EXPECT(e.dup, true);
    EXPECT(e.retain, true);
    EXPECT(mqtt5_client_dropped_number(&h, MQTT5_MESSAGE_EXPIRY_INTERVAL, &number), MQTT5_ABSENT);
    LET_GO(&h, MQTT5_PUBREL, 2, "");
    e = LET_GO(&h, MQTT5_PUBLISH, 1, "dz");
    EXPECT(e.qos, 1);
    EXPECT(e.dup, false);
    NONE_LET_GO(&h);
    EXPECT(requests, taken);

    /* What wasn't taken out stands until the next one that is done, whatever else is asked for. */
    EXPECT(mqtt5_client_publish(&h, BYTES("a"), BYTES("x"), 1, false, 2), MQTT5_DONE);
    EXPECT(mqtt5_client_publish(&h, BYTES("b"), BYTES("y"), 1, false, 2), MQTT5_DONE);
    take_events_out(&h);
    EXPECT(mqtt5_client_clean(&h, &count), MQTT5_DONE);
    EXPECT(count, 2);
    EXPECT(mqtt5_client_connect(&h, BYTES("c"), 60, true, 3600), MQTT5_DONE);
    EXPECT(mqtt5_client_receive(&h, BYTES(CONNACK), 3), MQTT5_DONE);
    EXPECT(mqtt5_client_forget(&h), MQTT5_DONE);
    EXPECT(mqtt5_client_publish(&h, BYTES("c"), BYTES("z"), 1, false, 3), MQTT5_DONE);
    EXPECT(mqtt5_client_clean(&h, &count), MQTT5_INVALID_STATE);
    LET_GO(&h, MQTT5_PUBLISH, 1, "ax");
    take_events_out(&h);
    EXPECT(mqtt5_client_take_up(&h, false, 3, &count), MQTT5_DONE);
    EXPECT(count, 1);
    LET_GO(&h, MQTT5_PUBLISH, 1, "cz");
    NONE_LET_GO(&h);

    /* Or until the client is let go. */
    EXPECT(mqtt5_client_publish(&h, BYTES("a"), BYTES("x"), 1, false, 4), MQTT5_DONE);
    take_events_out(&h);
    EXPECT(mqtt5_client_clean(&h, &count), MQTT5_DONE);
    EXPECT(mqtt5_client_free(&h), MQTT5_DONE);
    EXPECT(blocks, 0);
    EXPECT(mqtt5_client_new(&h, 3, false), MQTT5_DONE);
    NONE_LET_GO(&h);
    EXPECT(mqtt5_client_free(&h), MQTT5_DONE);
    EXPECT(blocks, 0);
}

/* Whether a session is saved as these bytes. */
static void expect_saved(mqtt5_client *h, const uint8_t *wanted, size_t len, int line) {
    uint8_t all[64];
    size_t count = 0;
    uint32_t code = mqtt5_client_save(h, all, sizeof all, &count);
    if (code || count != len || memcmp(all, wanted, len)) {
        printf("line %d: answer %u, and %zu other bytes\n", line, code, count);
        failures++;
    }
}

#define SAVED_AS(h, literal) expect_saved(h, BYTES(literal), __LINE__)

/* A session that outlives its client: once saved it is loaded, also where other bytes follow it, and what awaits its ack is
   sent again (4.4, 3.3.1.1). */
static void a_saved_session(void) {
    mqtt5_client h = {0}, loaded = {0};
    uint8_t buffer[sizeof SAVED - 1] = {7};
    size_t count = 5;
    uint16_t id = 0;
    EXPECT(mqtt5_client_new(&h, 10, false), MQTT5_DONE);
    EXPECT(mqtt5_client_publish(&h, BYTES("a"), BYTES("x"), 1, false, 1), MQTT5_DONE);
    EXPECT(mqtt5_client_save(&h, buffer, sizeof buffer, &count), MQTT5_INVALID_STATE);
    EXPECT(count, 5);
    EXPECT(buffer[0], 7);
    EVENT(&h, 2, 3, 1);
    EXPECT(mqtt5_client_save(&h, buffer, sizeof buffer - 1, &count), MQTT5_SMALL_BUFFER);
    EXPECT(count, sizeof buffer);
    EXPECT(buffer[0], 7);
    count = 5;
    EXPECT(mqtt5_client_save(&h, buffer, sizeof buffer, &count), MQTT5_DONE);
    EXPECT(count, sizeof buffer);
    EXPECT(memcmp(buffer, SAVED, sizeof buffer), 0);
    /* It is as before. */
    OUTPUT(&h, PUBLISH_1);
    SAVED_AS(&h, SAVED);
    EXPECT(mqtt5_client_load(&h, BYTES(SAVED_ACKED)), MQTT5_HAS_CLIENT);
    SAVED_AS(&h, SAVED);
    EXPECT(mqtt5_client_free(&h), MQTT5_DONE);
    EXPECT(blocks, 0);

    EXPECT(mqtt5_client_load(&loaded, BYTES(SAVED "more")), MQTT5_DONE);
    SAVED_AS(&loaded, SAVED);
    OUTPUT(&loaded, "");
    EVENT(&loaded, 0, 0, 0);
    NONE_LET_GO(&loaded);
    EXPECT(mqtt5_client_connect(&loaded, BYTES("c"), 60, false, 3600), MQTT5_DONE);
    OUTPUT(&loaded, CONNECT_AGAIN);
    EXPECT(mqtt5_client_receive(&loaded, BYTES(CONNACK_WITH_SESSION), 2), MQTT5_DONE);
    EXPECT(EVENT(&loaded, 1, 2, 0).session_present, true);
    EXPECT(mqtt5_client_take_up(&loaded, true, 2, &count), MQTT5_DONE);
    EXPECT(count, 0);
    OUTPUT(&loaded, PUBLISH_1_DUP);
    EVENT(&loaded, 2, 3, 1);
    EXPECT(mqtt5_client_next_id(&loaded, &id), MQTT5_DONE);
    EXPECT(id, 2);
    EXPECT(mqtt5_client_receive(&loaded, BYTES(PUBACK), 2), MQTT5_DONE);
    EVENT(&loaded, 1, 4, 1);
    SAVED_AS(&loaded, SAVED_ACKED);
    EXPECT(mqtt5_client_free(&loaded), MQTT5_DONE);
    EXPECT(blocks, 0);
}

/* All parts of one: a publish and a release that await their acks, a publish that waits, an identifier of the broker's, both of
   the broker's maxima; and who sends the acks. */
static void all_parts_of_a_session(void) {
    mqtt5_client h = {0};
    size_t count;
    EXPECT(mqtt5_client_new(&h, 3, false), MQTT5_DONE);
    EXPECT(mqtt5_client_receive(&h, BYTES(CONNACK_OF_TWO_AND_FIVE), 1), MQTT5_DONE);
    EXPECT(mqtt5_client_publish(&h, BYTES("a"), BYTES("x"), 2, false, 1), MQTT5_DONE);
    EXPECT(mqtt5_client_publish(&h, BYTES("a"), BYTES("y"), 2, false, 1), MQTT5_DONE);
    EXPECT(mqtt5_client_receive(&h, BYTES(PUBREC), 1), MQTT5_DONE);
    EXPECT(mqtt5_client_publish(&h, BYTES("a"), BYTES("w"), 1, false, 1), MQTT5_DONE);
    EXPECT(mqtt5_client_receive(&h, BYTES(PUBLISH_OF_SEVEN), 1), MQTT5_DONE);
    take_events_out(&h);
    SAVED_AS(&h, ALL_PARTS);
    EXPECT(mqtt5_client_free(&h), MQTT5_DONE);

    EXPECT(mqtt5_client_load(&h, BYTES(ALL_PARTS)), MQTT5_DONE);
    SAVED_AS(&h, ALL_PARTS);
    EXPECT(mqtt5_client_connect(&h, BYTES("c"), 60, false, 3600), MQTT5_DONE);
    OUTPUT(&h, CONNECT_AGAIN);
    EXPECT(mqtt5_client_receive(&h, BYTES(CONNACK_WITH_SESSION), 2), MQTT5_DONE);
    EVENT(&h, 1, 2, 0);
    EXPECT(mqtt5_client_take_up(&h, true, 2, &count), MQTT5_DONE);
    EXPECT(count, 0);
    OUTPUT(&h, PUBLISH_OF_ONE_DUP PUBREL);
    take_events_out(&h);
    /* The broker's copy is answered, and not told again (4.3.3). */
    EXPECT(mqtt5_client_receive(&h, BYTES(PUBLISH_OF_SEVEN_DUP), 2), MQTT5_DONE);
    OUTPUT(&h, PUBREC_OF_SEVEN);
    EVENT(&h, 2, 5, 7);
    EVENT(&h, 0, 0, 0);
    /* What waits goes once its identifier is free. */
    EXPECT(mqtt5_client_receive(&h, BYTES("\x50\x02\0\x01"), 2), MQTT5_DONE);
    OUTPUT(&h, PUBREL_1);
    EXPECT(mqtt5_client_receive(&h, BYTES("\x70\x02\0\x01"), 2), MQTT5_DONE);
    OUTPUT(&h, PUBLISH_THAT_WAITS);
    EXPECT(mqtt5_client_free(&h), MQTT5_DONE);

    EXPECT(mqtt5_client_new(&h, 10, true), MQTT5_DONE);
    SAVED_AS(&h, SAVED_BY_HAND);
    EXPECT(mqtt5_client_free(&h), MQTT5_DONE);
    EXPECT(mqtt5_client_load(&h, BYTES(SAVED_BY_HAND)), MQTT5_DONE);
    EXPECT(mqtt5_client_receive(&h, BYTES(PUBLISH_1), 1), MQTT5_DONE);
    OUTPUT(&h, "");
    EXPECT(mqtt5_client_free(&h), MQTT5_DONE);
    EXPECT(blocks, 0);
}

/* Bytes that are no session: there is no client then. */
static void bytes_of_no_session(void) {
    /* A place of all parts, another byte there, and what comes of it: the text, the version; a current maximum above the
       limit, a last identifier that isn't below it; of QoS 0 the publish that waits, and the one that awaits its ack; a release
       above the limit, under 0 and under an identifier in use; a frame of no type, of QoS 3, of identifier 0; and another
       payload. */
    static const struct {
        size_t place;
        uint8_t byte;
        uint32_t code;
    } changes[] = {
        {0, 0, MQTT5_STORE_FOREIGN},
        {5, 2, MQTT5_STORE_VERSION},
        {9, 4, MQTT5_STORE_BAD_NUMBERS},
        {11, 3, MQTT5_STORE_BAD_NUMBERS},
        {26, 0x30, MQTT5_STORE_NOT_STORED},
        {35, 0x30, MQTT5_STORE_NOT_STORED},
        {47, 4, MQTT5_STORE_OUT_OF_RANGE},
        {47, 0, MQTT5_STORE_OUT_OF_RANGE},
        {47, 1, MQTT5_STORE_TWICE},
        {48, 0, MQTT5_E_INVALID_PACKET_TYPE},
        {35, 0x3e, MQTT5_E_INVALID_QOS},
        {41, 0, MQTT5_E_PACKET_ID_ZERO},
        {43, 'q', MQTT5_DONE},
    };
    mqtt5_client h = {0};
    uint8_t bytes[sizeof ALL_PARTS - 1];
    for (size_t i = 0; i < sizeof changes / sizeof *changes; i++) {
        memcpy(bytes, ALL_PARTS, sizeof bytes);
        bytes[changes[i].place] = changes[i].byte;
        EXPECT(mqtt5_client_load(&h, bytes, sizeof bytes), changes[i].code);
        EXPECT(mqtt5_client_free(&h), changes[i].code ? MQTT5_NO_CLIENT : MQTT5_DONE);
        EXPECT(blocks, 0);
    }
    EXPECT(mqtt5_client_load(&h, BYTES(NONE_WAITS)), MQTT5_STORE_NOT_STORED);
    for (size_t len = 0; len < sizeof bytes; len++)
        EXPECT(mqtt5_client_load(&h, (const uint8_t *)ALL_PARTS, len), MQTT5_STORE_CUT);
    expect_no_client(&h, __LINE__);
    EXPECT(blocks, 0);
}

/* Memory is refused from each request on: of a save nothing is told, and of a load there is no client. */
static void refused_store(void) {
    mqtt5_client h = {0}, other = {0};
    EXPECT(mqtt5_client_load(&h, BYTES(ALL_PARTS)), MQTT5_DONE);
    long before = blocks;
    for (left = 0;; left++) {
        uint8_t buffer[64] = {7};
        size_t count = 5;
        requests = 0;
        uint32_t code = mqtt5_client_save(&h, buffer, sizeof buffer, &count);
        EXPECT(blocks, before);
        if (code == MQTT5_DONE) break;
        EXPECT(code, MQTT5_OUT_OF_MEMORY);
        EXPECT(count, 5);
        EXPECT(buffer[0], 7);
        if (failures) break;
    }
    EXPECT(left > 0, true);
    for (left = 0;; left++) {
        requests = 0;
        uint32_t code = mqtt5_client_load(&other, BYTES(ALL_PARTS));
        if (code == MQTT5_DONE) break;
        EXPECT(code, MQTT5_OUT_OF_MEMORY);
        EXPECT(mqtt5_client_free(&other), MQTT5_NO_CLIENT);
        EXPECT(blocks, before);
        if (failures) break;
    }
    EXPECT(left > 0, true);
    left = -1;
    SAVED_AS(&h, ALL_PARTS);
    SAVED_AS(&other, ALL_PARTS);
    EXPECT(mqtt5_client_free(&h), MQTT5_DONE);
    EXPECT(mqtt5_client_free(&other), MQTT5_DONE);
    EXPECT(blocks, 0);
}

/* A null pointer of no bytes is as good as another one: each call that takes bytes, or a buffer. */
static void null_pointers(void) {
    mqtt5_client h = {0};
    mqtt5_event e;
    size_t count = 7, other = 7;
    EXPECT(mqtt5_client_new(&h, 10, false), MQTT5_DONE);
    EXPECT(mqtt5_client_set_login(&h, NULL, 0, NULL, 0), MQTT5_DONE);
    EXPECT(mqtt5_client_set_will(&h, NULL, 0, NULL, 0, 0, false), MQTT5_BAD_ARGUMENT);
    EXPECT(mqtt5_client_set_will(&h, BYTES("w"), NULL, 0, 0, false), MQTT5_DONE);
    EXPECT(mqtt5_client_connect(&h, NULL, 0, 60, true, 3600), MQTT5_DONE);
    EXPECT(mqtt5_client_output(&h, NULL, 0, &count), MQTT5_DONE);
    EXPECT(count, 0);
    OUTPUT(&h, "\x10\x18\0\x04MQTT\x05\x06\0\x3c\x05\x11\0\0\x0e\x10\0\0\0\0\x01w\0\0");
    EXPECT(mqtt5_client_receive(&h, NULL, 0, 1), MQTT5_DONE);
    EXPECT(mqtt5_client_receive(&h, BYTES(CONNACK_WITH_PROPERTIES), 1), MQTT5_DONE);
    EXPECT(mqtt5_client_event_bytes(&h, MQTT5_REASON_STRING, NULL, 0, &count), MQTT5_SMALL_BUFFER);
    EXPECT(count, 1);
    EXPECT(mqtt5_client_event_pair(&h, 0, NULL, 0, &count, NULL, 0, &other), MQTT5_SMALL_BUFFER);
    EXPECT(other, 2);
    EXPECT(mqtt5_client_next_event(&h, &e, NULL, 0, NULL, 0), MQTT5_DONE);
    EXPECT(e.packet, MQTT5_CONNACK);
    EXPECT(mqtt5_client_receive(&h, BYTES("\x30\x05\0\x01" "a" "\0" "x"), 1), MQTT5_DONE);
    EXPECT(mqtt5_client_next_event(&h, &e, NULL, 0, NULL, 0), MQTT5_SMALL_BUFFER);
    EVENT(&h, 1, 3, 0);

    EXPECT(mqtt5_client_subscribe(&h, NULL, 0, 0, 2), MQTT5_BAD_ARGUMENT);
    EXPECT(mqtt5_client_add_filter(&h, NULL, 0, 0, false, false, 0), MQTT5_BAD_ARGUMENT);
    EXPECT(mqtt5_client_unsubscribe(&h, NULL, 0, 2), MQTT5_BAD_ARGUMENT);
    EXPECT(mqtt5_client_publish(&h, NULL, 0, NULL, 0, 1, false, 2), MQTT5_BAD_ARGUMENT);
    EXPECT(mqtt5_client_add_bytes(&h, MQTT5_CORRELATION_DATA, NULL, 0), MQTT5_DONE);
    EXPECT(mqtt5_client_add_pair(&h, NULL, 0, NULL, 0), MQTT5_DONE);
    EXPECT(mqtt5_client_publish(&h, BYTES("a"), NULL, 0, 1, false, 2), MQTT5_DONE);
    OUTPUT(&h, "\x32\x0e\0\x01" "a" "\0\x01\x08\x09\0\0\x26\0\0\0\0");
    EVENT(&h, 2, 3, 1);
    EXPECT(mqtt5_client_clean(&h, &count), MQTT5_DONE);
    EXPECT(mqtt5_client_dropped_bytes(&h, MQTT5_CORRELATION_DATA, NULL, 0, &count), MQTT5_DONE);
    EXPECT(count, 0);
    EXPECT(mqtt5_client_dropped_pair(&h, 0, NULL, 0, &count, NULL, 0, &other), MQTT5_DONE);
    EXPECT(mqtt5_client_next_dropped(&h, &e, NULL, 0, NULL, 0), MQTT5_SMALL_BUFFER);
    EXPECT(mqtt5_client_next_dropped(&h, &e, topic, sizeof topic, NULL, 0), MQTT5_DONE);
    EXPECT(e.packet, MQTT5_PUBLISH);
    EXPECT(mqtt5_client_next_dropped(&h, &e, NULL, 0, NULL, 0), MQTT5_DONE);
    EXPECT(e.kind, 0);
    EXPECT(mqtt5_client_save(&h, NULL, 0, &count), MQTT5_SMALL_BUFFER);
    EXPECT(count, sizeof SAVED_ACKED - 1);
    EXPECT(mqtt5_client_free(&h), MQTT5_DONE);
    EXPECT(mqtt5_client_load(&h, NULL, 0), MQTT5_STORE_CUT);
    EXPECT(mqtt5_client_free(&h), MQTT5_NO_CLIENT);
    EXPECT(blocks, 0);

    EXPECT(mqtt5_valid_topic(NULL, 0), false);
    EXPECT(mqtt5_valid_filter(NULL, 0), false);
    EXPECT(mqtt5_topic_matches(NULL, 0, BYTES("a")), false);
    EXPECT(mqtt5_topic_matches(BYTES("a"), NULL, 0), false);
    EXPECT(mqtt5_version(NULL, 0, &count), MQTT5_SMALL_BUFFER);
}

/* The library that is linked is that of the header. */
static void version(void) {
    uint8_t told[16];
    size_t count = 7;
    EXPECT(mqtt5_version(told, sizeof MQTT5_VERSION - 2, &count), MQTT5_SMALL_BUFFER);
    EXPECT(count, sizeof MQTT5_VERSION - 1);
    EXPECT(mqtt5_version(told, sizeof told, &count), MQTT5_DONE);
    EXPECT(count, sizeof MQTT5_VERSION - 1);
    EXPECT(memcmp(told, MQTT5_VERSION, count), 0);
}

static void misuse(void) {
    mqtt5_client h = {0};
    expect_no_client(&h, __LINE__);
    EXPECT(mqtt5_client_new(&h, 0, false), MQTT5_BAD_ARGUMENT);
    EXPECT(mqtt5_client_new(&h, 1, false), MQTT5_DONE);
    EXPECT(mqtt5_client_new(&h, 1, false), MQTT5_HAS_CLIENT);
    EXPECT(mqtt5_client_connect(&h, BYTES("\xff"), 60, true, 0), MQTT5_BAD_ARGUMENT);
    EXPECT(mqtt5_client_connect(&h, BYTES("c"), 4, true, 0), MQTT5_BAD_ARGUMENT);
    EXPECT(mqtt5_client_publish(&h, BYTES("\xff"), BYTES("x"), 1, false, 0), MQTT5_BAD_ARGUMENT);
    EXPECT(mqtt5_client_publish(&h, BYTES("a"), BYTES("x"), 3, false, 0), MQTT5_BAD_ARGUMENT);
    EXPECT(mqtt5_client_subscribe(&h, BYTES("\xc3"), 1, 0), MQTT5_BAD_ARGUMENT);
    EXPECT(mqtt5_client_subscribe(&h, BYTES("a"), 3, 0), MQTT5_BAD_ARGUMENT);
    EXPECT(mqtt5_client_unsubscribe(&h, BYTES("\xff"), 0), MQTT5_BAD_ARGUMENT);
    EXPECT(mqtt5_client_publish(&h, BYTES("a/#"), BYTES("x"), 0, false, 0), MQTT5_BAD_ARGUMENT);
    EXPECT(mqtt5_client_publish(&h, BYTES("a\0b"), BYTES("x"), 0, false, 0), MQTT5_BAD_ARGUMENT);
    EXPECT(mqtt5_client_subscribe(&h, BYTES("a#"), 1, 0), MQTT5_BAD_ARGUMENT);
    EXPECT(mqtt5_client_subscribe(&h, BYTES(""), 1, 0), MQTT5_BAD_ARGUMENT);
    EXPECT(mqtt5_client_unsubscribe(&h, BYTES("#/a"), 0), MQTT5_BAD_ARGUMENT);
    EXPECT(mqtt5_client_add_filter(&h, BYTES("+a"), 0, false, false, 0), MQTT5_BAD_ARGUMENT);
    EXPECT(mqtt5_client_set_will(&h, BYTES("+"), BYTES("y"), 0, false), MQTT5_BAD_ARGUMENT);
    /* An ack of nothing, a frame of no packet, a ping that isn't answered. */
    EXPECT(mqtt5_client_receive(&h, BYTES(PUBACK), 0), 2);
    EXPECT(mqtt5_client_receive(&h, BYTES("\0\0"), 0), 105);
    EXPECT(mqtt5_client_ping(&h, 1), MQTT5_DONE);
    EXPECT(mqtt5_client_ping(&h, 2), 3);
    EXPECT(mqtt5_client_sent(&h, 1000), MQTT5_DONE);
    EXPECT(mqtt5_client_free(&h), MQTT5_DONE);
    /* After it is let go, and let go again. */
    expect_no_client(&h, __LINE__);
    EXPECT(mqtt5_client_new(&h, 1, false), MQTT5_DONE);
    EXPECT(mqtt5_client_free(&h), MQTT5_DONE);
    EXPECT(mqtt5_client_free(&h), MQTT5_NO_CLIENT);
    EXPECT(blocks, 0);
}

/* Makes the calls one after the other until one is refused; whether none was. */
static bool all_calls(mqtt5_client *h, uint32_t *code) {
    uint8_t buffer[256];
    size_t count, saved;
    mqtt5_event e;
    bool whole = !(*code = mqtt5_client_new(h, 10, true))
        && !(*code = mqtt5_client_set_login(h, BYTES("u"), BYTES("p")))
        && !(*code = mqtt5_client_add_bytes(h, MQTT5_CONTENT_TYPE, BYTES("t")))
        && !(*code = mqtt5_client_set_will(h, BYTES("w"), BYTES("y"), 1, true))
        && !(*code = mqtt5_client_add_pair(h, BYTES("k"), BYTES("v")))
        && !(*code = mqtt5_client_connect(h, BYTES("c"), 60, true, 3600))
        && !(*code = mqtt5_client_receive(h, BYTES(CONNACK_WITH_SESSION), 1))
        && !(*code = mqtt5_client_subscribe(h, BYTES("a"), 2, 1))
        && !(*code = mqtt5_client_add_filter(h, BYTES("b"), 1, true, false, 1))
        && !(*code = mqtt5_client_subscribe_all(h, 1))
        && !(*code = mqtt5_client_publish(h, BYTES("a"), BYTES("x"), 1, false, 1))
        && !(*code = mqtt5_client_publish(h, BYTES("a"), BYTES("x"), 2, false, 1))
        && !(*code = mqtt5_client_receive(h, BYTES(PUBLISH_1 PUBLISH_2), 1))
        && !(*code = mqtt5_client_puback(h, 1, 1))
        && !(*code = mqtt5_client_pubrec(h, 2, 1))
        && !(*code = mqtt5_client_unsubscribe(h, BYTES("a"), 1))
        && !(*code = mqtt5_client_ping(h, 1))
        && !(*code = mqtt5_client_resume(h, 1))
        && !(*code = mqtt5_client_take_up(h, true, 1, &count))
        && !(*code = mqtt5_client_add_bytes(h, MQTT5_AUTHENTICATION_METHOD, BYTES("m")))
        && !(*code = mqtt5_client_receive(h, BYTES(AUTH_THAT_GOES_ON), 1))
        && !(*code = mqtt5_client_auth(h, MQTT5_REASON_CONTINUE_AUTHENTICATION, 1))
        && !(*code = mqtt5_client_add_bytes(h, MQTT5_REASON_STRING, BYTES("r")))
        && !(*code = mqtt5_client_disconnect_with(h, MQTT5_REASON_DISCONNECT_WITH_WILL, 1))
        && !(*code = mqtt5_client_forget(h))
        && !(*code = mqtt5_client_output(h, buffer, sizeof buffer, &count))
        && !(*code = mqtt5_client_sent(h, count));
    if (!whole) return false;
    do {
        if ((*code = mqtt5_client_next_event(h, &e, topic, sizeof topic, payload, sizeof payload))) return false;
    } while (e.kind);
    if ((*code = mqtt5_client_save(h, buffer, sizeof buffer, &saved))) return false;
    if ((*code = mqtt5_client_clean(h, &count))) return false;
    do {
        if ((*code = mqtt5_client_next_dropped(h, &e, topic, sizeof topic, payload, sizeof payload))) return false;
    } while (e.kind);
    return !(*code = mqtt5_client_free(h)) && !(*code = mqtt5_client_load(h, buffer, saved));
}

/* Memory is refused from each request on; every call answers 12 or is done, and nothing is left behind. */
static void refused(void) {
    long told = 0;
    for (left = 0;; left++) {
        mqtt5_client h = {0};
        uint32_t code;
        requests = 0;
        bool whole = all_calls(&h, &code);
        if (!whole) {
            EXPECT(code, MQTT5_OUT_OF_MEMORY);
            told++;
        }
        mqtt5_client_free(&h);
        EXPECT(blocks, 0);
        if (whole || failures) break;
    }
    printf("memory refused from each of %ld requests on, %ld times told\n", left, told);
    EXPECT(told > 0, true);
    left = -1;
}

/* By the tables of docs/PROGRAM.md, and of MQTT 5.0 section 2.4. */
static void numbers_by_name(void) {
    static const struct {
        uint32_t code;
        const char *name;
    } errors[] = {
        {MQTT5_DONE, "Done"},
        {MQTT5_AWAIT_PINGRESP, "AwaitPingResp"},
        {MQTT5_PACKET_TOO_LARGE, "OutgoingPacketTooLarge"},
        {MQTT5_OUT_OF_MEMORY, "OutOfMemory"},
        {MQTT5_DESERIALIZATION, "Deserialization"},
        {MQTT5_E_INVALID_CONNECT_RETURN_CODE, "InvalidConnectReturnCode"},
        {MQTT5_E_MALFORMED_PACKET, "MalformedPacket"},
        {MQTT5_E_OUT_OF_MEMORY, "OutOfMemory"},
        {MQTT5_NO_CLIENT, "NoClient"},
        {MQTT5_ABSENT, "Absent"},
        {MQTT5_STORE_FOREIGN, "StoreForeign"},
        {MQTT5_STORE_TWICE, "StoreTwice"},
        {99, "unknown"},
    }, reasons[] = {
        {MQTT5_REASON_SUCCESS, "Success"},
        {MQTT5_REASON_NOT_AUTHORIZED, "Not authorized"},
        {MQTT5_REASON_PACKET_IDENTIFIER_NOT_FOUND, "Packet Identifier not found"},
        {MQTT5_REASON_WILDCARD_SUBSCRIPTIONS_NOT_SUPPORTED, "Wildcard Subscriptions not supported"},
        {3, "unknown"},
    };
    for (size_t i = 0; i < sizeof errors / sizeof *errors; i++)
        EXPECT(strcmp(mqtt5_error_name(errors[i].code), errors[i].name), 0);
    for (size_t i = 0; i < sizeof reasons / sizeof *reasons; i++)
        EXPECT(strcmp(mqtt5_reason_name((uint8_t)reasons[i].code), reasons[i].name), 0);
}

int main(void) {
    numbers_by_name();
    each_call();
    properties_that_came();
    properties_to_send();
    goodbye_for_a_reason();
    extended_authentication();
    empty_topics();
    several_filters();
    names_of_the_header();
    next_ids();
    topics();
    acks_by_hand();
    a_cut();
    a_lost_session();
    what_is_let_go();
    a_saved_session();
    all_parts_of_a_session();
    bytes_of_no_session();
    null_pointers();
    version();
    misuse();
    refused();
    refused_store();
    if (!failures) printf("each call of c/mqtt5.h, a goodbye for a reason, extended authentication, acks by hand, a cut, a lost session, a saved one, null pointers, and misuse: as they should be\n");
    return failures != 0;
}
