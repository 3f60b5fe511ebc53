/* A client of the C library at a broker whose limits and whose end get in its way.
   Usage: c_cuts HOST PORT limit|lost|ten [USER PASSWORD]
   limit: the broker takes packets of at most 1,000 bytes. A publish of 2,000 is refused and leaves nothing behind; the
   next ones come through, also over a cut.
   lost: once a publish was sent, `cut` is printed and a line awaited, and the broker is to come back meanwhile without
   its session. The session ends, what awaited its ack is given up, and publishing goes on.
   ten: the connection is cut ten times while numbers are published at QoS 2; each comes once. */
#define _POSIX_C_SOURCE 200809L
#include "mqtt5.h"

#include <netdb.h>
#include <stdio.h>
#include <stdlib.h>
#include <string.h>
#include <sys/socket.h>
#include <unistd.h>

static const char *host, *port;
static mqtt5_client client;
static int acked, s;
static char last[256]; /* the last message that came */
static bool connected, session_present;
/* Whether a cut is no fault, whether there was one, whether it was a refusal, and how often each number came. */
static bool bears_cuts, is_cut, is_refused;
static int came[100000];

static void is(size_t found, size_t wanted, const char *what) {
    if (found != wanted) {
        fprintf(stderr, "%s: %zu, and not %zu\n", what, found, wanted);
        exit(1);
    }
}

static const uint8_t *bytes(const char *text) { return (const uint8_t *)text; }

static void flush_output(void) {
    uint8_t buffer[4096];
    size_t count;
    for (;;) {
        is(mqtt5_client_output(&client, buffer, sizeof buffer, &count), 0, "output");
        if (count == 0) return;
        ssize_t sent = send(s, buffer, count, MSG_NOSIGNAL);
        if (sent <= 0 && bears_cuts) is_cut = true;
        if (is_cut) return;
        is(sent > 0, 1, "send");
        is(mqtt5_client_sent(&client, (size_t)sent), 0, "sent");
    }
}

static void take_input(void) {
    uint8_t buffer[4096], topic[256], payload[4096];
    ssize_t count = recv(s, buffer, sizeof buffer, 0);
    if (count <= 0 && bears_cuts) is_cut = true;
    if (is_cut) return;
    is(count > 0, 1, "the broker is there");
    uint32_t received = mqtt5_client_receive(&client, buffer, (size_t)count, 0);
    for (;;) {
        mqtt5_event e;
        is(mqtt5_client_next_event(&client, &e, topic, sizeof topic, payload, sizeof payload), 0, "next_event");
        if (e.kind == 0) break;
        if (e.kind != 1) continue;
        if (e.packet == 2) connected = true, session_present = e.session_present;
        /* (ejabberd refuses by 128 who comes back while it still hands the session on to the last connection) */
        if (e.packet == 2 && e.code == 128 && bears_cuts) is_cut = is_refused = true;
        else if (e.packet == 2 || e.packet == 14) is(e.code, 0, "the reason code of the broker");
        if (e.packet == 3) {
            snprintf(last, sizeof last, "%.*s", (int)e.payload_len, payload);
            if (bears_cuts) came[atoi(last)]++;
            else printf("came: %s\n", last);
        }
        if (e.packet == 4 || e.packet == 7) acked++;
    }
    if (!is_refused) is(received, 0, "receive");
}

/* Connects, takes the session up or ends it, and answers how many requests are given up. */
static size_t begin(bool clean_start) {
    struct addrinfo *found, wanted = {.ai_socktype = SOCK_STREAM};
    is(getaddrinfo(host, port, &wanted, &found) == 0, 1, "an address");
    s = socket(found->ai_family, found->ai_socktype, found->ai_protocol);
    is(connect(s, found->ai_addr, found->ai_addrlen) == 0, 1, "a connection");
    freeaddrinfo(found);
    connected = false;
    is(mqtt5_client_connect(&client, bytes("cuts"), 4, 60, clean_start, 3600), 0, "connect");
    flush_output();
    while (!connected && !is_cut) take_input();
    if (is_cut) return 0;
    size_t given_up;
    is(mqtt5_client_take_up(&client, session_present, 0, &given_up), 0, "take_up");
    flush_output();
    return given_up;
}

static uint32_t publish(const char *payload, size_t len, uint8_t qos) {
    return mqtt5_client_publish(&client, bytes("cuts/a"), 6, bytes(payload), len, qos, false, 0);
}

static void publish_acked(const char *payload, uint8_t qos) {
    int before = acked;
    is(publish(payload, strlen(payload), qos), 0, "publish");
    while (acked == before) {
        flush_output();
        take_input();
    }
}

/* What was published comes in order, but for what is sent again. */
static void await_message(const char *wanted) {
    while (strcmp(last, wanted) != 0) {
        flush_output();
        take_input();
    }
}

static void run_limit(void) {
    static char large[2000];
    memset(large, 'x', sizeof large);
    is(mqtt5_client_subscribe(&client, bytes("cuts/#"), 6, 2, 0), 0, "subscribe");
    is(publish(large, sizeof large, 1), 9, "a publish over the limit");
    publish_acked("one", 1);
    is(publish(large, sizeof large, 2), 9, "another one");
    is(publish("two", 3, 1), 0, "publish");
    is(publish("three", 5, 2), 0, "publish");
    flush_output();
    close(s);
    is(begin(false), 0, "given up");
    is(session_present, 1, "the broker has the session");
    while (acked < 3) {
        flush_output();
        take_input();
    }
    publish_acked("four", 2);
    await_message("four");
}

static void run_lost(void) {
    is(publish("lost", 4, 2), 0, "publish");
    flush_output();
    printf("cut\n");
    fflush(stdout);
    is(getchar(), '\n', "a line");
    close(s);
    is(begin(false), 1, "given up");
    is(session_present, 0, "the broker has no session");
    is(mqtt5_client_subscribe(&client, bytes("cuts/#"), 6, 2, 0), 0, "subscribe");
    acked = 0;
    publish_acked("lost", 2);
    publish_acked("one", 1);
    publish_acked("two", 2);
    publish_acked("three", 1);
    await_message("three");
}

/* Sends and takes what there is, over a new connection where the last one was cut; answers how many cuts there were. */
static int go_on(void) {
    int cuts = 0;
    flush_output();
    if (!is_cut) take_input();
    while (is_cut) {
        cuts += !is_refused;
        close(s);
        is_cut = is_refused = false;
        is(begin(false), 0, "given up");
    }
    return cuts;
}

static void run_ten(void) {
    is(mqtt5_client_subscribe(&client, bytes("cuts/#"), 6, 2, 0), 0, "subscribe");
    flush_output();
    take_input();
    bears_cuts = true;
    int sent = 0, cuts = 0;
    while (cuts < 10 || acked < sent) {
        bool may;
        is(mqtt5_client_may_publish(&client, &may), 0, "may_publish");
        char number[16];
        snprintf(number, sizeof number, "%d", sent);
        if (cuts < 10 && may) {
            is(publish(number, strlen(number), 2), 0, "publish");
            is(++sent < 100000, 1, "cuts come in time");
        }
        else cuts += go_on();
    }
    for (int i = 0; i < sent; i++)
        while (came[i] == 0) go_on();
    /* (one that comes twice would come before this) */
    publish_acked("99999", 2);
    while (came[99999] == 0) go_on();
    for (int i = 0; i < sent; i++) is((size_t)came[i], 1, "how often a number came");
    printf("%d messages over %d cuts\n", sent, cuts);
}

int main(int argc, char **argv) {
    if (argc != 4 && argc != 6) return 2;
    host = argv[1], port = argv[2];
    /* Two ids: were one left in use, publishing would come to a stop. */
    is(mqtt5_client_new(&client, 2, false), 0, "new");
    if (argc == 6)
        is(mqtt5_client_set_login(&client, bytes(argv[4]), strlen(argv[4]), bytes(argv[5]), strlen(argv[5])), 0, "set_login");
    begin(true);
    if (strcmp(argv[3], "limit") == 0) run_limit();
    else if (strcmp(argv[3], "ten") == 0) run_ten();
    else run_lost();
    is(mqtt5_client_disconnect(&client, 0), 0, "disconnect");
    flush_output();
    close(s);
    is(mqtt5_client_free(&client), 0, "free");
    printf("done\n");
    return 0;
}
