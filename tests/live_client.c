/* Clients of the C library at a broker: one row of tests/live_rows, by its name.
   Usage: live_client ROW HOST PORT USER PASSWORD. What a row needs beside that is in the environment: KEEP_ALIVE, the most that
   the broker grants, in seconds; GO, a file that comes when the broker was stopped; CA and OTHER_CA, the certificates of its
   authority and of another one. */
#define _POSIX_C_SOURCE 200809L
#include "mqtt5.h"
#include "mqtt5_names.h"

#include <netdb.h>
#include <poll.h>
#include <stdio.h>
#include <stdlib.h>
#include <string.h>
#include <sys/socket.h>
#include <time.h>
#include <unistd.h>

/* How many milliseconds each wait may take: for a packet, and for a broker that is started again. */
enum { PATIENCE = 20000, LONG_PATIENCE = 90000 };

static const char *host, *port, *user, *password;

typedef struct {
    char topic[64], payload[64], content_type[64], response_topic[64], name[16], value[16];
    uint8_t correlation_data[16];
    size_t correlation_data_len;
    uint32_t expiry, qos; /* expiry: 0 where there is none */
    bool retain;
} message;

/* A client with its connection, and what came. */
typedef struct {
    mqtt5_client client;
    int s;
    bool is_cut, connected, session_present;
    uint32_t refusal, keep_alive, server_keep_alive;
    uint64_t written;
    uint8_t codes[128]; /* of the last SubAck */
    size_t code_count, given_up;
    int acked, subscribed, pings, proven;
    message came[64];
    size_t taken, count;
} peer;

/* What a Connect says. */
typedef struct {
    const char *id;
    uint16_t keep_alive;
    bool goes_on; /* no clean start */
    uint32_t session_expiry;
} settings;

static uint64_t now(void) {
    struct timespec t;
    clock_gettime(CLOCK_MONOTONIC, &t);
    return (uint64_t)t.tv_sec * 1000 + (uint64_t)t.tv_nsec / 1000000;
}

static void fail(const char *what) {
    fprintf(stderr, "%s\n", what);
    exit(1);
}

static void is(size_t found, size_t wanted, const char *what) {
    if (found == wanted) return;
    fprintf(stderr, "%s: %zu, and not %zu\n", what, found, wanted);
    exit(1);
}

static void is_text(const char *found, const char *wanted, const char *what) {
    if (strcmp(found, wanted) == 0) return;
    fprintf(stderr, "%s: '%s', and not '%s'\n", what, found, wanted);
    exit(1);
}

static void pause_for(long milliseconds) {
    struct timespec t = {milliseconds / 1000, milliseconds % 1000 * 1000000};
    nanosleep(&t, NULL);
}

static const uint8_t *bytes(const char *text) { return (const uint8_t *)text; }

/* ---- Connections. ---- */

/* -1 where nobody listens. */
static int dial(void) {
    struct addrinfo *found, wanted = {.ai_socktype = SOCK_STREAM, .ai_family = AF_INET};
    is(getaddrinfo(host, port, &wanted, &found) == 0, 1, "an address");
    int s = socket(found->ai_family, found->ai_socktype, found->ai_protocol);
    if (connect(s, found->ai_addr, found->ai_addrlen)) {
        close(s);
        s = -1;
    }
    freeaddrinfo(found);
    return s;
}

/* A stream whose other end is openssl, which speaks TLS and trusts this authority. */
static int dial_by_tls(const char *authority) {
    int ends[2];
    char address[64];
    snprintf(address, sizeof address, "%s:%s", host, port);
    is(socketpair(AF_UNIX, SOCK_STREAM, 0, ends) == 0, 1, "a pair of sockets");
    pid_t child = fork();
    is(child >= 0, 1, "a process");
    if (child == 0) {
        dup2(ends[1], 0);
        dup2(ends[1], 1);
        close(ends[0]);
        close(ends[1]);
        execlp("openssl", "openssl", "s_client", "-quiet", "-verify_return_error", "-verify_hostname", "localhost",
               "-CAfile", authority, "-connect", address, (char *)NULL);
        _exit(127);
    }
    close(ends[1]);
    return ends[0];
}

static void flush_output(peer *p) {
    uint8_t buffer[4096];
    size_t count;
    while (!p->is_cut) {
        is(mqtt5_client_output(&p->client, buffer, sizeof buffer, &count), 0, "output");
        if (count == 0) return;
        ssize_t sent = send(p->s, buffer, count, MSG_NOSIGNAL);
        if (sent <= 0) {
            p->is_cut = true;
            return;
        }
        is(mqtt5_client_sent(&p->client, (size_t)sent), 0, "sent");
        p->written = now();
    }
}

static void event_text(peer *p, uint32_t property, char *text, size_t len) {
    size_t count = 0;
    if (mqtt5_client_event_bytes(&p->client, property, (uint8_t *)text, len - 1, &count)) count = 0;
    text[count] = 0;
}

/* The oldest event's properties, in the form of a message. */
static message properties_of(peer *p) {
    message m = {0};
    size_t name_count, value_count;
    event_text(p, MQTT5_CONTENT_TYPE, m.content_type, sizeof m.content_type);
    event_text(p, MQTT5_RESPONSE_TOPIC, m.response_topic, sizeof m.response_topic);
    if (mqtt5_client_event_bytes(&p->client, MQTT5_CORRELATION_DATA, m.correlation_data, sizeof m.correlation_data,
                                 &m.correlation_data_len))
        m.correlation_data_len = 0;
    if (mqtt5_client_event_number(&p->client, MQTT5_MESSAGE_EXPIRY_INTERVAL, &m.expiry)) m.expiry = 0;
    /* (all zero, so each text has its end) */
    mqtt5_client_event_pair(&p->client, 0, (uint8_t *)m.name, sizeof m.name - 1, &name_count, (uint8_t *)m.value,
                            sizeof m.value - 1, &value_count);
    return m;
}

/* The reason codes of the oldest event. */
static size_t codes_of(peer *p, uint8_t codes[128]) {
    size_t count = 0;
    while (count < 128 && mqtt5_client_event_reason(&p->client, count, &codes[count]) == 0) count++;
    return count;
}

/* Answers the letter of the broker's Auth, which is the oldest event, by the next one. */
static void answer_auth(peer *p) {
    uint8_t letter;
    size_t count;
    is(mqtt5_client_event_bytes(&p->client, MQTT5_AUTHENTICATION_DATA, &letter, 1, &count), 0, "a letter");
    letter++;
    is(mqtt5_client_add_bytes(&p->client, MQTT5_AUTHENTICATION_METHOD, bytes("letters"), 7), 0, "add_bytes");
    is(mqtt5_client_add_bytes(&p->client, MQTT5_AUTHENTICATION_DATA, &letter, 1), 0, "add_bytes");
    is(mqtt5_client_auth(&p->client, MQTT5_REASON_CONTINUE_AUTHENTICATION, 0), 0, "auth");
}

/* Takes the oldest event out; false where there is none. */
static bool take_event(peer *p) {
    mqtt5_event e;
    uint8_t codes[128];
    message m = properties_of(p);
    size_t code_count = codes_of(p, codes);
    uint32_t seconds;
    /* (of what comes an Auth alone has this reason) */
    if (code_count == 1 && codes[0] == MQTT5_REASON_CONTINUE_AUTHENTICATION) answer_auth(p);
    if (mqtt5_client_event_number(&p->client, MQTT5_SERVER_KEEP_ALIVE, &seconds)) seconds = 0;
    is(mqtt5_client_next_event(&p->client, &e, (uint8_t *)m.topic, sizeof m.topic - 1, (uint8_t *)m.payload,
                               sizeof m.payload - 1), 0, "next_event");
    if (e.kind != MQTT5_CAME) return e.kind != MQTT5_NO_EVENT;
    if (e.packet == MQTT5_CONNACK) {
        p->connected = e.code == 0;
        p->session_present = e.session_present;
        p->server_keep_alive = seconds;
    }
    if ((e.packet == MQTT5_CONNACK || e.packet == MQTT5_DISCONNECT) && e.code) p->refusal = e.code;
    if (e.packet == MQTT5_PUBLISH) {
        is(p->count < 64, 1, "room for a message");
        m.qos = e.qos, m.retain = e.retain;
        p->came[p->count++] = m;
    }
    if (e.packet == MQTT5_PUBACK || e.packet == MQTT5_PUBCOMP) p->acked++;
    if (e.packet == MQTT5_SUBACK) {
        memcpy(p->codes, codes, code_count);
        p->code_count = code_count;
        p->subscribed++;
    }
    p->pings += e.packet == MQTT5_PINGRESP;
    p->proven += e.packet == MQTT5_AUTH && codes[0] == MQTT5_REASON_SUCCESS;
    return true;
}

/* Sends and takes what there is, until this moment at most, with a ping where one is due. */
static void move_on(peer *p, uint64_t until) {
    uint8_t buffer[4096];
    flush_output(p);
    if (p->is_cut) return;
    uint64_t due = p->connected ? p->written + 1000 * p->keep_alive : until, end = due < until ? due : until;
    struct pollfd ready = {.fd = p->s, .events = POLLIN};
    if (poll(&ready, 1, end > now() ? (int)(end - now()) : 0) == 0) {
        if (p->connected && now() >= due) is(mqtt5_client_ping(&p->client, now() / 1000), 0, "ping");
        flush_output(p);
        return;
    }
    ssize_t count = recv(p->s, buffer, sizeof buffer, 0);
    if (count <= 0) {
        p->is_cut = true;
        return;
    }
    uint32_t answer = mqtt5_client_receive(&p->client, buffer, (size_t)count, now() / 1000);
    while (take_event(p)) {}
    if (answer != MQTT5_SERVER_DISCONNECT && answer != MQTT5_CONNECTION_REFUSED) is(answer, 0, "receive");
    is(answer != 0, p->refusal != 0, "a refusal with its reason code");
    p->is_cut = p->is_cut || answer != 0;
}

#define AWAIT_LONG(p, condition, what, patience)                                                             \
    for (uint64_t until_ = now() + (patience); !(condition); move_on((p), until_)) {                         \
        if (now() >= until_ || (p)->is_cut) fail((p)->is_cut ? what ": cut off" : what ": none in time");     \
    }
#define AWAIT(p, condition, what) AWAIT_LONG(p, condition, what, PATIENCE)

/* Begins a connection over a stream that was opened. It ends with the ConnAck, or cut off. */
static void begin_over(peer *p, settings with, int s) {
    p->s = s;
    p->is_cut = p->connected = false;
    p->keep_alive = with.keep_alive ? with.keep_alive : 60;
    is(mqtt5_client_set_login(&p->client, bytes(user), strlen(user), bytes(password), strlen(password)), 0, "set_login");
    is(mqtt5_client_connect(&p->client, bytes(with.id), strlen(with.id), (uint16_t)p->keep_alive, !with.goes_on,
                            with.session_expiry), 0, "connect");
    AWAIT(p, p->connected || p->is_cut, "a ConnAck");
    if (p->is_cut) return;
    /* The broker's keep alive is the one to use (3.2.2.3.14). */
    if (p->server_keep_alive) p->keep_alive = p->server_keep_alive;
    is(mqtt5_client_take_up(&p->client, p->session_present, 0, &p->given_up), 0, "take_up");
    flush_output(p);
}

static void make(peer *p) {
    memset(p, 0, sizeof *p);
    is(mqtt5_client_new(&p->client, 100, false), 0, "new");
}

static void begin(peer *p, settings with) {
    make(p);
    begin_over(p, with, dial());
    is(p->is_cut, false, "cut off");
}

/* The same once the broker is there again. */
static void begin_again(peer *p, settings with) {
    int s = -1;
    for (uint64_t until = now() + LONG_PATIENCE; s < 0; pause_for(100)) {
        is(now() < until, 1, "a broker that is there again");
        s = dial();
        if (s < 0) continue;
        begin_over(p, with, s);
        if (p->is_cut) close(s), s = -1;
    }
}

static void leave(peer *p) {
    is(mqtt5_client_disconnect(&p->client, 0), 0, "disconnect");
    flush_output(p);
    close(p->s);
    is(mqtt5_client_free(&p->client), 0, "free");
}

/* ---- Requests, each awaited. ---- */

static void subscribe(peer *p, const char *filter, uint8_t qos) {
    int before = p->subscribed;
    is(mqtt5_client_subscribe(&p->client, bytes(filter), strlen(filter), qos, 0), 0, "subscribe");
    AWAIT(p, p->subscribed > before, "a SubAck");
    is(p->codes[0], qos, "the QoS that is granted");
}

static void ask_publish(peer *p, const char *topic, const char *payload, uint8_t qos, bool retain) {
    is(mqtt5_client_publish(&p->client, bytes(topic), strlen(topic), bytes(payload), strlen(payload), qos, retain, 0), 0,
       "publish");
}

static void publish(peer *p, const char *topic, const char *payload, uint8_t qos, bool retain) {
    int before = p->acked;
    ask_publish(p, topic, payload, qos, retain);
    if (qos) AWAIT(p, p->acked > before, "an ack");
    flush_output(p);
}

static message *next_of(peer *p) {
    AWAIT(p, p->taken < p->count, "a message");
    return &p->came[p->taken++];
}

static void add_expiry(peer *p, uint32_t seconds) {
    is(mqtt5_client_add_number(&p->client, MQTT5_MESSAGE_EXPIRY_INTERVAL, seconds), 0, "add_number");
}

static void add_text(peer *p, uint32_t property, const char *text) {
    is(mqtt5_client_add_bytes(&p->client, property, bytes(text), strlen(text)), 0, "add_bytes");
}

/* What a request and a will have beside their text. */
static void add_properties(peer *p, const char *response_topic) {
    add_text(p, MQTT5_CONTENT_TYPE, "text");
    add_text(p, MQTT5_RESPONSE_TOPIC, response_topic);
    is(mqtt5_client_add_bytes(&p->client, MQTT5_CORRELATION_DATA, bytes("\0\7"), 2), 0, "add_bytes");
    is(mqtt5_client_add_pair(&p->client, bytes("k"), 1, bytes("v"), 1), 0, "add_pair");
}

static void has_properties(message *m, const char *response_topic) {
    is_text(m->content_type, "text", "content type");
    is_text(m->response_topic, response_topic, "response topic");
    is(m->correlation_data_len == 2 && memcmp(m->correlation_data, "\0\7", 2) == 0, 1, "correlation data");
    is_text(m->name, "k", "a user property's name");
    is_text(m->value, "v", "a user property's value");
}

/* ---- The rows. ---- */

static peer one, two;

static void run_login(void) {
    begin(&one, (settings){.id = "c-login"});
    publish(&one, "a/c/login", "taken", 1, false);
    leave(&one);
    password = "wrong";
    make(&two);
    begin_over(&two, (settings){.id = "c-login"}, dial());
    is(two.connected, false, "a connection with a wrong password");
    printf("refused: %s (%u)\n", mqtt5_reason_name((uint8_t)two.refusal), two.refusal);
}

static void set_will(peer *p, const char *topic, const char *payload) {
    add_properties(p, "a/c/back");
    is(mqtt5_client_set_will(&p->client, bytes(topic), strlen(topic), bytes(payload), strlen(payload), 1, false), 0,
       "set_will");
}

static void run_will(void) {
    begin(&one, (settings){.id = "c-heir"});
    subscribe(&one, "a/c/will", 1);
    make(&two);
    set_will(&two, "a/c/will", "cut off");
    begin_over(&two, (settings){.id = "c-leaves"}, dial());
    close(two.s);
    message *m = next_of(&one);
    is_text(m->payload, "cut off", "a will");
    has_properties(m, "a/c/back");
    is(mqtt5_client_forget(&two.client), 0, "forget");
    set_will(&two, "a/c/will", "disconnected");
    begin_over(&two, (settings){.id = "c-leaves"}, dial());
    is(two.connected, true, "a connection");
    leave(&two);
    /* (a will would come before this) */
    pause_for(500);
    publish(&one, "a/c/will", "nothing else", 1, false);
    is_text(next_of(&one)->payload, "nothing else", "what comes after a Disconnect");
    leave(&one);
}

static void run_goodbye(void) {
    begin(&one, (settings){.id = "c-stays"});
    subscribe(&one, "a/c/goodbye", 1);
    make(&two);
    set_will(&two, "a/c/goodbye", "left");
    begin_over(&two, (settings){.id = "c-goes"}, dial());
    add_text(&two, MQTT5_REASON_STRING, "gone");
    is(mqtt5_client_disconnect_with(&two.client, MQTT5_REASON_DISCONNECT_WITH_WILL, 0), 0, "disconnect_with");
    flush_output(&two);
    close(two.s);
    is(mqtt5_client_free(&two.client), 0, "free");
    is_text(next_of(&one)->payload, "left", "a will");
    leave(&one);
}

/* The method, and the first letter. */
static void begin_proof(peer *p, const char *letter) {
    add_text(p, MQTT5_AUTHENTICATION_METHOD, "letters");
    add_text(p, MQTT5_AUTHENTICATION_DATA, letter);
}

static void run_proof(void) {
    make(&one);
    begin_proof(&one, "a");
    begin_over(&one, (settings){.id = "c-proves"}, dial());
    is(one.connected, true, "a connection with a proof");
    subscribe(&one, "a/c/proof", 1);
    begin_proof(&one, "d");
    is(mqtt5_client_auth(&one.client, MQTT5_REASON_REAUTHENTICATE, 0), 0, "auth");
    AWAIT(&one, one.proven, "an Auth of success");
    publish(&one, "a/c/proof", "proven", 1, false);
    is_text(next_of(&one)->payload, "proven", "a message");
    leave(&one);
    make(&two);
    begin_proof(&two, "x");
    begin_over(&two, (settings){.id = "c-fails"}, dial());
    is(two.connected, false, "a connection without a proof");
    printf("refused: %s (%u)\n", mqtt5_reason_name((uint8_t)two.refusal), two.refusal);
}

static void run_response(void) {
    begin(&one, (settings){.id = "c-asks"});
    subscribe(&one, "a/c/answers", 1);
    begin(&two, (settings){.id = "c-answers"});
    subscribe(&two, "a/c/requests", 1);
    add_properties(&one, "a/c/answers");
    publish(&one, "a/c/requests", "6 * 7", 1, false);
    message *request = next_of(&two);
    is_text(request->payload, "6 * 7", "a request");
    has_properties(request, "a/c/answers");
    is(mqtt5_client_add_bytes(&two.client, MQTT5_CORRELATION_DATA, request->correlation_data,
                              request->correlation_data_len), 0, "add_bytes");
    publish(&two, request->response_topic, "42", 1, false);
    message *answer = next_of(&one);
    is_text(answer->payload, "42", "an answer");
    is(answer->correlation_data_len == 2 && memcmp(answer->correlation_data, "\0\7", 2) == 0, 1, "its correlation data");
    leave(&one);
    leave(&two);
}

/* What is left of an expiry interval of 100 seconds: less what it waited at the broker, in whole seconds (3.3.2.3.3). */
static void has_left(message *m, uint64_t asked, uint64_t acked, uint64_t awaited) {
    double left = m->expiry, most = 100 - (double)(awaited - acked) / 1000, least = 100 - (double)(now() - asked) / 1000;
    if (left > least - 1 && left < most + 1) return;
    fprintf(stderr, "%s: %g seconds are left, and not %g to %g\n", m->payload, left, least, most);
    exit(1);
}

static void run_expiry(void) {
    begin(&two, (settings){.id = "c-late", .session_expiry = 100});
    subscribe(&two, "a/c/late", 1);
    leave(&two);
    begin(&one, (settings){.id = "c-early"});
    uint64_t asked = now();
    /* (a broker may have begun to deliver this one when the client left, and one that it began with doesn't expire) */
    publish(&one, "a/c/late", "first", 1, false);
    for (int kept = 0; kept < 2; kept++) {
        add_expiry(&one, 1);
        publish(&one, kept ? "a/c/expiry/gone" : "a/c/late", "gone", 1, kept);
        add_expiry(&one, 100);
        publish(&one, kept ? "a/c/expiry/stays" : "a/c/late", "stays", 1, kept);
    }
    uint64_t acked = now();
    pause_for(2500);
    uint64_t awaited = now();
    subscribe(&one, "a/c/expiry/#", 1);
    message *m = next_of(&one);
    is_text(m->payload, "stays", "a retained message");
    has_left(m, asked, acked, awaited);
    publish(&one, "a/c/expiry/end", "end", 1, false);
    is_text(next_of(&one)->payload, "end", "what comes behind it");
    make(&two);
    begin_over(&two, (settings){.id = "c-late", .goes_on = true, .session_expiry = 0}, dial());
    is(two.session_present, true, "the session is there");
    is_text(next_of(&two)->payload, "first", "a queued message");
    m = next_of(&two);
    is_text(m->payload, "stays", "another queued message");
    has_left(m, asked, acked, awaited);
    leave(&one);
    leave(&two);
}

static void run_filters(void) {
    begin(&one, (settings){.id = "c-filters"});
    char topic[64];
    for (int i = 0; i < 100; i++) {
        snprintf(topic, sizeof topic, "a/c/filters/%d", i);
        is(mqtt5_client_add_filter(&one.client, bytes(topic), strlen(topic), (uint8_t)(i % 3), false, false, 0), 0,
           "add_filter");
    }
    is(mqtt5_client_subscribe_all(&one.client, 0), 0, "subscribe_all");
    AWAIT(&one, one.subscribed, "a SubAck");
    is(one.code_count, 100, "reason codes");
    for (int i = 0; i < 100; i++) is(one.codes[i], (size_t)i % 3, "a reason code");
    for (int i = 0; i < 100; i += 11) {
        snprintf(topic, sizeof topic, "a/c/filters/%d", i);
        publish(&one, topic, topic, 2, false);
        message *m = next_of(&one);
        is_text(m->topic, topic, "a topic");
        is_text(m->payload, topic, "a message");
        is(m->qos, (size_t)i % 3, "its QoS");
    }
    leave(&one);
}

/* Silent for longer than the broker bears: one and a half of its keep alive (3.1.2.10). */
static void run_keep_alive(void) {
    uint32_t most = (uint32_t)atoi(getenv("KEEP_ALIVE"));
    begin(&one, (settings){.id = "c-quiet", .keep_alive = 1000});
    is(one.server_keep_alive, most, "server keep alive");
    subscribe(&one, "a/c/quiet", 1);
    uint64_t until = now() + 1500 * most + 3000;
    while (now() < until && !one.is_cut) move_on(&one, until);
    is(one.pings > 0, 1, "an answer to a ping");
    publish(&one, "a/c/quiet", "still here", 1, false);
    is_text(next_of(&one)->payload, "still here", "a message after the silence");
    leave(&one);
}

/* Goes on until the broker was stopped. */
static void await_stop(peer *p) {
    const char *go = getenv("GO");
    printf("ready\n");
    fflush(stdout);
    for (uint64_t until = now() + LONG_PATIENCE; access(go, F_OK) != 0; move_on(p, now() + 50))
        is(now() < until && !p->is_cut, 1, "a broker that is stopped");
}

/* Publishes ten numbers from this one on to a broker that was stopped, at QoS 1 and 2 by turns, and waits for its end. */
static void publish_to_the_end(peer *p, const char *topic, int first) {
    char number[16];
    await_stop(p);
    int before = p->acked;
    for (int i = first; i < first + 10; i++) {
        snprintf(number, sizeof number, "%d", i);
        ask_publish(p, topic, number, (uint8_t)(1 + i % 2), false);
    }
    flush_output(p);
    printf("sent\n");
    fflush(stdout);
    AWAIT_LONG(p, p->is_cut, "a broker's end", LONG_PATIENCE);
    is((size_t)p->acked, (size_t)before, "acks of a broker that was stopped");
    close(p->s);
}

static void run_kept(void) {
    /* (mosquitto saves no session that began by a clean start) */
    const settings takes = {.id = "c-takes", .goes_on = true, .session_expiry = 100};
    const settings sends = {.id = "c-sends", .goes_on = true, .session_expiry = 100};
    char number[16];
    int times[20] = {0};
    begin(&two, takes);
    subscribe(&two, "a/c/kept", 2);
    leave(&two);
    begin(&one, sends);
    for (int i = 0; i < 10; i++) {
        snprintf(number, sizeof number, "%d", i);
        publish(&one, "a/c/kept", number, (uint8_t)(1 + i % 2), false);
    }
    publish_to_the_end(&one, "a/c/kept", 10);
    begin_again(&one, sends);
    is(one.session_present, true, "the broker has the session");
    is(one.given_up, 0, "requests that are let go");
    AWAIT(&one, one.acked == 20, "the acks of what was sent again");
    publish(&one, "a/c/kept", "end", 2, false);
    make(&two);
    begin_over(&two, takes, dial());
    is(two.session_present, true, "the broker has the other session");
    for (message *m; strcmp((m = next_of(&two))->payload, "end") != 0;) times[atoi(m->payload) % 20]++;
    for (int i = 0; i < 20; i++)
        if (i % 2) is((size_t)times[i], 1, "how often a message of QoS 2 came");
        else is(times[i] > 0, 1, "whether a message of QoS 1 came");
    leave(&one);
    leave(&two);
}

static void run_lost(void) {
    begin(&one, (settings){.id = "c-lost", .session_expiry = 100});
    subscribe(&one, "a/c/lost", 2);
    publish(&one, "a/c/lost", "before", 2, false);
    is_text(next_of(&one)->payload, "before", "a message");
    publish_to_the_end(&one, "a/c/lost", 0);
    begin_again(&one, (settings){.id = "c-lost", .session_expiry = 100, .goes_on = true});
    is(one.session_present, false, "the broker has a session");
    is(one.given_up, 10, "requests that are let go");
    subscribe(&one, "a/c/lost", 2);
    for (uint8_t qos = 1; qos <= 2; qos++) {
        publish(&one, "a/c/lost", qos == 1 ? "once more" : "and again", qos, false);
        message *m = next_of(&one);
        is_text(m->payload, qos == 1 ? "once more" : "and again", "a message");
        is(m->qos, qos, "its QoS");
    }
    leave(&one);
}

static void run_tls(void) {
    make(&one);
    begin_over(&one, (settings){.id = "c-tls"}, dial_by_tls(getenv("CA")));
    is(one.connected, true, "a connection by TLS");
    subscribe(&one, "a/c/tls", 1);
    publish(&one, "a/c/tls", "hidden", 1, false);
    is_text(next_of(&one)->payload, "hidden", "a message");
    leave(&one);
    make(&two);
    begin_over(&two, (settings){.id = "c-tls"}, dial_by_tls(getenv("OTHER_CA")));
    is(two.connected, false, "a connection by the wrong authority");
    printf("refused: a certificate\n");
}

int main(int argc, char **argv) {
    const struct {
        const char *name;
        void (*run)(void);
    } rows[] = {{"login", run_login}, {"will", run_will}, {"goodbye", run_goodbye}, {"proof", run_proof},
                {"response", run_response}, {"expiry", run_expiry}, {"filters", run_filters},
                {"keep_alive", run_keep_alive}, {"kept", run_kept}, {"lost", run_lost}, {"tls", run_tls}};
    if (argc != 6) return 2;
    host = argv[2], port = argv[3], user = argv[4], password = argv[5];
    for (size_t i = 0; i < sizeof rows / sizeof *rows; i++) {
        if (strcmp(rows[i].name, argv[1]) != 0) continue;
        rows[i].run();
        printf("done\n");
        return 0;
    }
    return 2;
}
