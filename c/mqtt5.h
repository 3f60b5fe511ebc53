/* An MQTT 5.0 client without sockets and without a clock: bytes that came in and requests go in, bytes to send and
   events come out. docs/C.md says how it is linked and what the caller owes. */
#ifndef MQTT5_H
#define MQTT5_H

#include <stdbool.h>
#include <stddef.h>
#include <stdint.h>

#ifdef __cplusplus
extern "C" {
#endif

#define MQTT5_VERSION "0.1.0"

/* What every call answers. 1 to 13 are the refusals S1 to S13 of a session and of its client, of which 7 (a frame that
   can't be read, a packet that can't be written) is told as 100 + n of E1 to E21, which says why: docs/PROGRAM.md has
   both as tables, and mqtt5_names.h their names. */
enum {
    MQTT5_DONE = 0,
    /* A publish whose identifier is in use while another waits, a clean or a save while an event isn't taken out, a reason of
       a Disconnect that only a broker gives, or an Auth of reason 0 or without a method. */
    MQTT5_INVALID_STATE = 1,
    /* An ack of an identifier that awaits none. */
    MQTT5_UNSOLICITED = 2,
    /* The last ping isn't answered. */
    MQTT5_AWAIT_PINGRESP = 3,
    /* A packet that a client doesn't take. */
    MQTT5_WRONG_PACKET = 4,
    /* A second ping while a publish waits. */
    MQTT5_COLLISION_TIMEOUT = 5,
    /* A Subscribe without a filter. */
    MQTT5_EMPTY_SUBSCRIPTION = 6,
    /* Never answered: 100 + n says why. */
    MQTT5_DESERIALIZATION = 7,
    /* A topic alias above the broker's maximum. */
    MQTT5_INVALID_ALIAS = 8,
    /* A packet over the broker's maximum packet size. */
    MQTT5_PACKET_TOO_LARGE = 9,
    /* The broker ended the connection, or refused it: the event of its Disconnect or its ConnAck says why. */
    MQTT5_SERVER_DISCONNECT = 10,
    MQTT5_CONNECTION_REFUSED = 11,
    MQTT5_OUT_OF_MEMORY = 12,
    /* A request after a Disconnect, until the next mqtt5_client_connect. */
    MQTT5_DISCONNECTED = 13,
    /* The handle has no client. */
    MQTT5_NO_CLIENT = 200,
    /* A text isn't UTF-8, a topic or a topic filter isn't one, a number is out of range, or a packet can't have a
       property of the list. The handle is as before, but that the lists that the call takes are empty. */
    MQTT5_BAD_ARGUMENT = 201,
    /* mqtt5_client_new or mqtt5_client_load of a handle that has a client, which stays. */
    MQTT5_HAS_CLIENT = 202,
    /* A buffer is too small: nothing is copied, and an event stays. */
    MQTT5_SMALL_BUFFER = 203,
    /* The oldest event, or the oldest request that was let go, hasn't what is asked for. */
    MQTT5_ABSENT = 204,
    /* Why mqtt5_client_load makes no client, beside 100 + n of a frame that can't be read: the bytes don't begin as a stored
       session does, are of another version of its form, or are cut short; they have numbers that no session has, a frame that
       isn't stored (or no publish where one waits), or a packet identifier in use that is 0 or above the limit, or in use
       twice. */
    MQTT5_STORE_FOREIGN = 205,
    MQTT5_STORE_VERSION = 206,
    MQTT5_STORE_CUT = 207,
    MQTT5_STORE_BAD_NUMBERS = 208,
    MQTT5_STORE_NOT_STORED = 209,
    MQTT5_STORE_OUT_OF_RANGE = 210,
    MQTT5_STORE_TWICE = 211
};

/* Why a frame can't be read, or a packet can't be written: 100 + n of E1 to E21. */
enum {
    MQTT5_E_INVALID_CONNECT_RETURN_CODE = 101,
    MQTT5_E_INVALID_PROTOCOL = 102,
    MQTT5_E_INVALID_PROTOCOL_LEVEL = 103,
    MQTT5_E_INCORRECT_PACKET_FORMAT = 104,
    MQTT5_E_INVALID_PACKET_TYPE = 105,
    MQTT5_E_INVALID_RETAIN_FORWARD_RULE = 106,
    MQTT5_E_INVALID_QOS = 107,
    MQTT5_E_INVALID_SUBSCRIBE_REASON_CODE = 108,
    MQTT5_E_PACKET_ID_ZERO = 109,
    MQTT5_E_EMPTY_SUBSCRIPTION = 110,
    MQTT5_E_PAYLOAD_TOO_LONG = 111,
    MQTT5_E_PAYLOAD_SIZE_LIMIT_EXCEEDED = 112,
    MQTT5_E_PAYLOAD_REQUIRED = 113,
    MQTT5_E_TOPIC_NOT_UTF8 = 114,
    MQTT5_E_BOUNDARY_CROSSED = 115,
    MQTT5_E_MALFORMED_PACKET = 116,
    MQTT5_E_MALFORMED_REMAINING_LENGTH = 117,
    MQTT5_E_INVALID_PROPERTY_TYPE = 118,
    MQTT5_E_INSUFFICIENT_BYTES = 119,
    MQTT5_E_OUTGOING_PACKET_TOO_LARGE = 120,
    MQTT5_E_OUT_OF_MEMORY = 121
};

/* Properties by their identifiers (MQTT 5.0 section 2.2.2.2). */
enum {
    MQTT5_PAYLOAD_FORMAT_INDICATOR = 1,
    MQTT5_MESSAGE_EXPIRY_INTERVAL = 2,
    MQTT5_CONTENT_TYPE = 3,
    MQTT5_RESPONSE_TOPIC = 8,
    MQTT5_CORRELATION_DATA = 9,
    MQTT5_SUBSCRIPTION_IDENTIFIER = 11,
    MQTT5_SESSION_EXPIRY_INTERVAL = 17,
    MQTT5_ASSIGNED_CLIENT_IDENTIFIER = 18,
    MQTT5_SERVER_KEEP_ALIVE = 19,
    MQTT5_AUTHENTICATION_METHOD = 21,
    MQTT5_AUTHENTICATION_DATA = 22,
    MQTT5_REQUEST_PROBLEM_INFORMATION = 23,
    MQTT5_WILL_DELAY_INTERVAL = 24,
    MQTT5_REQUEST_RESPONSE_INFORMATION = 25,
    MQTT5_RESPONSE_INFORMATION = 26,
    MQTT5_SERVER_REFERENCE = 28,
    MQTT5_REASON_STRING = 31,
    MQTT5_RECEIVE_MAXIMUM = 33,
    MQTT5_TOPIC_ALIAS_MAXIMUM = 34,
    MQTT5_TOPIC_ALIAS = 35,
    MQTT5_MAXIMUM_QOS = 36,
    MQTT5_RETAIN_AVAILABLE = 37,
    MQTT5_USER_PROPERTY = 38,
    MQTT5_MAXIMUM_PACKET_SIZE = 39,
    MQTT5_WILDCARD_SUBSCRIPTION_AVAILABLE = 40,
    MQTT5_SUBSCRIPTION_IDENTIFIER_AVAILABLE = 41,
    MQTT5_SHARED_SUBSCRIPTION_AVAILABLE = 42
};

/* Reason codes (MQTT 5.0 section 2.4). 0 is also a normal disconnection, and QoS 0 of a SubAck. */
enum {
    MQTT5_REASON_SUCCESS = 0,
    MQTT5_REASON_GRANTED_QOS_1 = 1,
    MQTT5_REASON_GRANTED_QOS_2 = 2,
    MQTT5_REASON_DISCONNECT_WITH_WILL = 4,
    MQTT5_REASON_NO_MATCHING_SUBSCRIBERS = 16,
    MQTT5_REASON_NO_SUBSCRIPTION_EXISTED = 17,
    MQTT5_REASON_CONTINUE_AUTHENTICATION = 24,
    MQTT5_REASON_REAUTHENTICATE = 25,
    MQTT5_REASON_UNSPECIFIED_ERROR = 128,
    MQTT5_REASON_MALFORMED_PACKET = 129,
    MQTT5_REASON_PROTOCOL_ERROR = 130,
    MQTT5_REASON_IMPLEMENTATION_SPECIFIC_ERROR = 131,
    MQTT5_REASON_UNSUPPORTED_PROTOCOL_VERSION = 132,
    MQTT5_REASON_CLIENT_IDENTIFIER_NOT_VALID = 133,
    MQTT5_REASON_BAD_USER_NAME_OR_PASSWORD = 134,
    MQTT5_REASON_NOT_AUTHORIZED = 135,
    MQTT5_REASON_SERVER_UNAVAILABLE = 136,
    MQTT5_REASON_SERVER_BUSY = 137,
    MQTT5_REASON_BANNED = 138,
    MQTT5_REASON_SERVER_SHUTTING_DOWN = 139,
    MQTT5_REASON_BAD_AUTHENTICATION_METHOD = 140,
    MQTT5_REASON_KEEP_ALIVE_TIMEOUT = 141,
    MQTT5_REASON_SESSION_TAKEN_OVER = 142,
    MQTT5_REASON_TOPIC_FILTER_INVALID = 143,
    MQTT5_REASON_TOPIC_NAME_INVALID = 144,
    MQTT5_REASON_PACKET_IDENTIFIER_IN_USE = 145,
    MQTT5_REASON_PACKET_IDENTIFIER_NOT_FOUND = 146,
    MQTT5_REASON_RECEIVE_MAXIMUM_EXCEEDED = 147,
    MQTT5_REASON_TOPIC_ALIAS_INVALID = 148,
    MQTT5_REASON_PACKET_TOO_LARGE = 149,
    MQTT5_REASON_MESSAGE_RATE_TOO_HIGH = 150,
    MQTT5_REASON_QUOTA_EXCEEDED = 151,
    MQTT5_REASON_ADMINISTRATIVE_ACTION = 152,
    MQTT5_REASON_PAYLOAD_FORMAT_INVALID = 153,
    MQTT5_REASON_RETAIN_NOT_SUPPORTED = 154,
    MQTT5_REASON_QOS_NOT_SUPPORTED = 155,
    MQTT5_REASON_USE_ANOTHER_SERVER = 156,
    MQTT5_REASON_SERVER_MOVED = 157,
    MQTT5_REASON_SHARED_SUBSCRIPTIONS_NOT_SUPPORTED = 158,
    MQTT5_REASON_CONNECTION_RATE_EXCEEDED = 159,
    MQTT5_REASON_MAXIMUM_CONNECT_TIME = 160,
    MQTT5_REASON_SUBSCRIPTION_IDENTIFIERS_NOT_SUPPORTED = 161,
    MQTT5_REASON_WILDCARD_SUBSCRIPTIONS_NOT_SUPPORTED = 162
};

/* Packet types (MQTT 5.0 section 2.1.2), and the kinds of an event and of a request that was let go. */
enum {
    MQTT5_CONNACK = 2,
    MQTT5_PUBLISH = 3,
    MQTT5_PUBACK = 4,
    MQTT5_PUBREC = 5,
    MQTT5_PUBREL = 6,
    MQTT5_PUBCOMP = 7,
    MQTT5_SUBSCRIBE = 8,
    MQTT5_SUBACK = 9,
    MQTT5_UNSUBSCRIBE = 10,
    MQTT5_UNSUBACK = 11,
    MQTT5_PINGREQ = 12,
    MQTT5_PINGRESP = 13,
    MQTT5_DISCONNECT = 14,
    MQTT5_AUTH = 15
};
enum {
    MQTT5_NO_EVENT = 0,
    MQTT5_CAME = 1,
    MQTT5_SENT = 2,
    MQTT5_WAITS = 3,
    MQTT5_DROPPED = 4
};

/* A handle. All zero is one without a client, and so it must start: mqtt5_client h = {0}. It is never copied and never
   written to, and goes to one call at a time. A pointer to bytes, or to a buffer, may be null where its length is 0; no
   other pointer is null. The moment `at` is a number of seconds, or of another unit. */
typedef struct {
    bool live;
    void *client;
} mqtt5_client;

/* An event, or a request that was let go, as numbers; what it hasn't is 0. */
typedef struct {
    /* 0: there is none; 1: a packet came; 2: one was answered to send; 3: a publish waits until its packet identifier
       is free; 4: a request was let go. */
    uint32_t kind;
    /* The packet's type (MQTT 5.0 section 2.1.2), as 3 of a Publish. */
    uint32_t packet;
    uint32_t pkid;
    /* The reason code of a ConnAck, a Disconnect, a PubAck or a PubRec, or of the first filter of a SubAck or an
       UnsubAck. */
    uint32_t code;
    /* Of a Publish that came or was let go: its QoS, whether it is sent again, and whether the broker had kept it, or is
       to keep it. */
    uint32_t qos;
    bool dup;
    bool retain;
    /* Of a ConnAck, whether the broker has the session: hand it to mqtt5_client_take_up. */
    bool session_present;
    /* Of that Publish, how many bytes its topic and its payload have. */
    size_t topic_len;
    size_t payload_len;
} mqtt5_event;

/* Makes a client in an empty handle. `limit`, at least 1, is the greatest packet identifier, and so the most publishes
   without an ack at a time. With `manual_acks` the program sends the acks of what comes in. */
uint32_t mqtt5_client_new(mqtt5_client *h, uint16_t limit, bool manual_acks);

/* Lets the client go, with all that it holds; the handle is empty again. */
uint32_t mqtt5_client_free(mqtt5_client *h);

/* Begins a connection: the output is the Connect alone, and what came in of an earlier connection is forgotten.
   `keep_alive` is the longest time in seconds without a packet from the client, at least 5; after `session_expiry`
   seconds without a connection the broker forgets the session. For a connection with clean start call mqtt5_client_clean
   before. After a refusal the client is as before. */
uint32_t mqtt5_client_connect(mqtt5_client *h, const uint8_t *client_id, size_t client_id_len, uint16_t keep_alive,
                              bool clean_start, uint32_t session_expiry);

/* The next packet that the program makes takes a list of properties, and empties it, also where it is refused: the next
   connect, publish, subscribe, subscribe_all, unsubscribe, disconnect_with or auth, or the will of set_will. These add to
   its end: a number, a text or binary data, or a user property. Of a property that may stand once the last one counts. A
   packet that can't have one of them is refused with 201. */
uint32_t mqtt5_client_add_number(mqtt5_client *h, uint32_t property, uint32_t number);
uint32_t mqtt5_client_add_bytes(mqtt5_client *h, uint32_t property, const uint8_t *bytes, size_t len);
uint32_t mqtt5_client_add_pair(mqtt5_client *h, const uint8_t *name, size_t name_len, const uint8_t *value,
                               size_t value_len);

/* What each later connect says: a user name and a password, texts of which an empty one is left out; and a will, with
   the properties of the list, whose topic isn't empty. */
uint32_t mqtt5_client_set_login(mqtt5_client *h, const uint8_t *user_name, size_t user_name_len,
                                const uint8_t *password, size_t password_len);
uint32_t mqtt5_client_set_will(mqtt5_client *h, const uint8_t *topic, size_t topic_len, const uint8_t *payload,
                               size_t payload_len, uint8_t qos, bool retain);

/* Forgets the login and the will, and empties the lists of properties and of filters. */
uint32_t mqtt5_client_forget(mqtt5_client *h);

/* Takes a piece of the bytes that came in, cut anywhere. After a refusal the connection must be closed. */
uint32_t mqtt5_client_receive(mqtt5_client *h, const uint8_t *bytes, size_t len, uint64_t at);

/* Copies the first bytes of what is to be sent, as many as fit, and tells how many. They stay until mqtt5_client_sent. */
uint32_t mqtt5_client_output(mqtt5_client *h, uint8_t *buffer, size_t buffer_len, size_t *count);

/* The first `count` bytes of the output were sent; all of it where it has fewer. */
uint32_t mqtt5_client_sent(mqtt5_client *h, size_t count);

/* Asks for a publish of QoS 0, 1 or 2. The topic is empty only where a topic alias of the list stands for it. After a
   refusal, as of one that the broker's limit doesn't let pass (9), the client is as before. */
uint32_t mqtt5_client_publish(mqtt5_client *h, const uint8_t *topic, size_t topic_len, const uint8_t *payload,
                              size_t payload_len, uint8_t qos, bool retain, uint64_t at);

/* Asks for a subscription to one topic filter, of this QoS at most. */
uint32_t mqtt5_client_subscribe(mqtt5_client *h, const uint8_t *filter, size_t filter_len, uint8_t qos, uint64_t at);

/* A Subscribe to several filters: each is added with its options (MQTT 5.0 section 3.8.3.1), and then they are asked for,
   with the properties of the list. They are taken, also where the Subscribe is refused. */
uint32_t mqtt5_client_add_filter(mqtt5_client *h, const uint8_t *filter, size_t filter_len, uint8_t qos, bool no_local,
                                 bool retain_as_published, uint8_t retain_handling);
uint32_t mqtt5_client_subscribe_all(mqtt5_client *h, uint64_t at);

/* The packet identifier that the next publish of QoS 1 or 2, subscribe or unsubscribe gets. */
uint32_t mqtt5_client_next_id(mqtt5_client *h, uint16_t *id);

/* Whether that one is free: else a publish of QoS 1 or 2 waits (kind 3), or is refused with 1 where one waits. */
uint32_t mqtt5_client_may_publish(mqtt5_client *h, bool *may);

/* Asks for the end of a subscription. */
uint32_t mqtt5_client_unsubscribe(mqtt5_client *h, const uint8_t *filter, size_t filter_len, uint64_t at);

/* With manual acks: answers a publish that came, of QoS 1 by a PubAck and of QoS 2 by a PubRec. One of QoS 2 that comes
   again before its PubRel has no event: after a resume answer each that was told of and isn't released again. */
uint32_t mqtt5_client_puback(mqtt5_client *h, uint16_t pkid, uint64_t at);
uint32_t mqtt5_client_pubrec(mqtt5_client *h, uint16_t pkid, uint64_t at);

/* Asks for a ping, which is due where nothing was sent for the keep alive. 3: the last one isn't answered, so the broker
   is gone. */
uint32_t mqtt5_client_ping(mqtt5_client *h, uint64_t at);

/* Asks for a Disconnect, which ends the connection. Nothing is sent behind it (MQTT 5.0 section 3.14.4): each later request
   is answered by 13, until the next connect. */
uint32_t mqtt5_client_disconnect(mqtt5_client *h, uint64_t at);

/* The same for a reason (MQTT 5.0 section 3.14.2.1), as 4, after which the broker publishes the will, with the properties of
   the list: a session expiry interval (other than 0 only where the Connect said one that isn't 0, section 3.14.2.2.2), a
   reason string, user properties. 1: only a broker gives that reason. 201: it is no reason of a Disconnect. After a refusal
   the connection goes on. */
uint32_t mqtt5_client_disconnect_with(mqtt5_client *h, uint8_t reason, uint64_t at);

/* Extended authentication (MQTT 5.0 section 4.12), which the Connect's properties 21 (the method) and 22 (data) begin. The
   broker asks for more by an Auth of reason 24, which comes as an event, also before the ConnAck, and is answered by an Auth
   of reason 24; an Auth of reason 25 begins anew on a connection that stands, and the broker's yes is an Auth of reason 0.
   The list has the method of the Connect, and the data. 1: reason 0, which only a broker gives, or no method. 201: it is no
   reason of an Auth. A broker sends none where the Connect names no method: end the connection then, for reason 130. */
uint32_t mqtt5_client_auth(mqtt5_client *h, uint8_t reason, uint64_t at);

/* Tells of the oldest event, copies topic and payload of a Publish that came, and takes the event out. */
uint32_t mqtt5_client_next_event(mqtt5_client *h, mqtt5_event *event, uint8_t *topic, size_t topic_len,
                                 uint8_t *payload, size_t payload_len);

/* The oldest event, which stays: a property of the packet that came, by its identifier, as a number, or as a text or
   binary data; `count` tells how many bytes it has, also where the buffer is too small. */
uint32_t mqtt5_client_event_number(mqtt5_client *h, uint32_t property, uint32_t *number);
uint32_t mqtt5_client_event_bytes(mqtt5_client *h, uint32_t property, uint8_t *buffer, size_t buffer_len, size_t *count);

/* The same of what may stand often, from 0 on: a user property, and a subscription identifier of a Publish. */
uint32_t mqtt5_client_event_pair(mqtt5_client *h, size_t index, uint8_t *name, size_t name_len, size_t *name_count,
                                 uint8_t *value, size_t value_len, size_t *value_count);
uint32_t mqtt5_client_event_subscription(mqtt5_client *h, size_t index, size_t *identifier);

/* The same of a reason code: of a SubAck and an UnsubAck one for each filter, of a ConnAck, a PubAck, a PubRec, a PubRel,
   a PubComp, a Disconnect and an Auth one at 0. */
uint32_t mqtt5_client_event_reason(mqtt5_client *h, size_t index, uint8_t *reason);

/* After a cut, once the ConnAck's event was taken out, which says whether the broker has the session. With it, all that
   awaits an ack is sent again, but the publishes that the broker's limit doesn't let pass; without it the session ends,
   and all that awaits an ack is let go. `count` tells how many requests were let go; mqtt5_client_next_dropped gives them
   out. 1: a session ends, and an event isn't taken out yet. After a refusal the client is as before. */
uint32_t mqtt5_client_take_up(mqtt5_client *h, bool session_present, uint64_t at, size_t *count);

/* After a cut, once the ConnAck's event says that the broker has the session: all that awaits an ack is sent again. After
   a refusal, as of a publish that the broker's limit doesn't let pass (9), the output is as before. */
uint32_t mqtt5_client_resume(mqtt5_client *h, uint64_t at);

/* Ends the session: what awaits an ack is let go, and `count` tells how many requests that were;
   mqtt5_client_next_dropped gives them out. 1: an event isn't taken out yet. After a refusal the client is as before. */
uint32_t mqtt5_client_clean(mqtt5_client *h, size_t *count);

/* The oldest of the requests that the last take_up or clean let go: as numbers, of kind 4, a Publish (its identifier, QoS,
   dup, retain and lengths) or a PubRel, the release of an identifier whose message the broker has. Copies topic and
   payload of a Publish, and takes the request out; kind 0 where none is left. 203: a buffer is too small, and it stays.
   What isn't taken out goes with the next take_up or clean that is done, or with the client; no other call changes it. */
uint32_t mqtt5_client_next_dropped(mqtt5_client *h, mqtt5_event *dropped, uint8_t *topic, size_t topic_len,
                                   uint8_t *payload, size_t payload_len);

/* A property of the oldest of these, a Publish, which stays: as the calls of events tell it. */
uint32_t mqtt5_client_dropped_number(mqtt5_client *h, uint32_t property, uint32_t *number);
uint32_t mqtt5_client_dropped_bytes(mqtt5_client *h, uint32_t property, uint8_t *buffer, size_t buffer_len,
                                    size_t *count);
uint32_t mqtt5_client_dropped_pair(mqtt5_client *h, size_t index, uint8_t *name, size_t name_len, size_t *name_count,
                                   uint8_t *value, size_t value_len, size_t *value_count);

/* Copies the session as bytes, of which mqtt5_client_load makes a client in this process or in a later one, and tells how many
   they are, also where the buffer is too small (203). What isn't sent yet is no part of it: the session sends again what
   awaits an ack. So that the end of the process is no more than a lost connection, a program takes the events out and deals
   with them, saves, writes the bytes beside the old ones, syncs, renames, and only then sends the output. 1: an event isn't
   taken out yet. After 1, 12, and 100 + n of a publish that can't be written, the buffer and `count` are as before. */
uint32_t mqtt5_client_save(mqtt5_client *h, uint8_t *buffer, size_t buffer_len, size_t *count);

/* Makes a client in an empty handle, whose session is the one that was saved as these bytes; what follows them is ignored. It
   has neither limits on packets nor login nor will, as a new one: a connection begins with mqtt5_client_connect, without clean
   start, and once its ConnAck came mqtt5_client_take_up sends again what awaits an ack. 202: there is a client, which stays.
   Else there is none where the answer isn't 0: 12, or the first fault of the bytes, 205 to 211 or 100 + n. */
uint32_t mqtt5_client_load(mqtt5_client *h, const uint8_t *bytes, size_t len);

/* Whether bytes can be the topic of a publish, or a topic filter, and whether a topic matches a filter (MQTT 5.0 section 4.7);
   but a topic that begins with `$` matches no filter, `$SYS/a` not even `$SYS/#` or itself, where 4.7.2 bars filters that
   begin with a wildcard alone. */
bool mqtt5_valid_topic(const uint8_t *topic, size_t len);
bool mqtt5_valid_filter(const uint8_t *filter, size_t len);
bool mqtt5_topic_matches(const uint8_t *topic, size_t topic_len, const uint8_t *filter, size_t filter_len);

/* Copies the version of the library, without a zero behind it, and tells how many bytes it has. With this header's library
   that is MQTT5_VERSION. 203: the buffer is too small. */
uint32_t mqtt5_version(uint8_t *buffer, size_t buffer_len, size_t *count);

#ifdef __cplusplus
}
#endif

#endif
