/* A client over TCP: it subscribes, publishes at QoS 0, 1 and 2, loses its connection in the middle of a publish and takes
   the session up on a new one. The session is kept in a file, so it outlives the process too. Usage: example HOST PORT FILE */
#define _POSIX_C_SOURCE 200809L
#include "mqtt5.h"
#include "mqtt5_names.h"

#include <errno.h>
#include <fcntl.h>
#include <netdb.h>
#include <stdio.h>
#include <stdlib.h>
#include <string.h>
#include <sys/socket.h>
#include <time.h>
#include <unistd.h>

static const char *host, *port, *kept; /* kept: the file of the session */
static char beside[4096];             /* the file that a save is written to */
static mqtt5_client client;           /* all zero: empty */
static bool connected, session_present;
static int came;  /* how many publishes came */
static int acked; /* how many of ours the broker has */

static uint64_t now(void) {
    struct timespec t;
    clock_gettime(CLOCK_MONOTONIC, &t);
    return (uint64_t)t.tv_sec;
}

static void done(uint32_t code, const char *what) {
    if (code != MQTT5_DONE) {
        fprintf(stderr, "%s: %s (%u)\n", what, mqtt5_error_name(code), code);
        exit(1);
    }
}

static void end_failed(const char *what) {
    perror(what);
    exit(1);
}

static void end_refused(const char *what, uint32_t reason) {
    fprintf(stderr, "%s: %s (%u)\n", what, mqtt5_reason_name((uint8_t)reason), reason);
    exit(1);
}

static const uint8_t *bytes(const char *text) { return (const uint8_t *)text; }

static int dial(void) {
    struct addrinfo *found, wanted = {.ai_socktype = SOCK_STREAM};
    if (getaddrinfo(host, port, &wanted, &found)) {
        fprintf(stderr, "no address of %s\n", host);
        exit(1);
    }
    int s = socket(found->ai_family, found->ai_socktype, found->ai_protocol);
    if (s < 0 || connect(s, found->ai_addr, found->ai_addrlen)) end_failed("connect");
    freeaddrinfo(found);
    return s;
}

/* Tells of what happened. Where the broker refuses or ends the connection (11, 10), an event has its reason. */
static void tell(void) {
    uint8_t topic[256], payload[1024];
    for (;;) {
        mqtt5_event e;
        done(mqtt5_client_next_event(&client, &e, topic, sizeof topic, payload, sizeof payload), "next_event");
        if (e.kind == MQTT5_NO_EVENT) return;
        if (e.kind != MQTT5_CAME) continue;
        switch (e.packet) {
        case MQTT5_CONNACK:
            if (e.code) end_refused("the broker refuses the connection", e.code);
            connected = true;
            session_present = e.session_present;
            break;
        case MQTT5_DISCONNECT:
            end_refused("the broker ends the connection", e.code);
            break;
        case MQTT5_PUBLISH:
            printf("came: %.*s: %.*s, QoS %u\n", (int)e.topic_len, topic, (int)e.payload_len, payload, e.qos);
            came++;
            break;
        case MQTT5_PUBACK:
        case MQTT5_PUBCOMP:
            acked++;
            break;
        case MQTT5_SUBACK:
            printf("subscribed, QoS %u\n", e.code);
            break;
        }
    }
}

/* Makes the client, of the session in the file where there is one. Whether there is. */
static bool load(void) {
    uint8_t stored[4096];
    int file = open(kept, O_RDONLY);
    if (file < 0 && errno == ENOENT) {
        done(mqtt5_client_new(&client, 10, false), "new");
        return false;
    }
    ssize_t count = file < 0 ? -1 : read(file, stored, sizeof stored);
    if (count < 0 || close(file)) end_failed(kept);
    done(mqtt5_client_load(&client, stored, (size_t)count), "load");
    return true;
}

/* Tells, and then saves: writes the session beside the file, syncs it, and puts it in the file's place. A message that was
   saved as taken and is told only then is lost where the process ends in between. (A sync of the folder behind it all makes
   the new name outlast a loss of power, too.) */
static void save(void) {
    uint8_t stored[4096]; /* 203: the session is longer, and count says how long */
    size_t count;
    tell();
    fflush(stdout);
    done(mqtt5_client_save(&client, stored, sizeof stored, &count), "save");
    int file = open(beside, O_WRONLY | O_CREAT | O_TRUNC, 0600);
    if (file < 0 || write(file, stored, count) != (ssize_t)count || fsync(file) || close(file) || rename(beside, kept))
        end_failed(kept);
}

/* Saves, and then sends what there is to send: what is sent before it is saved may come twice, or never. */
static void flush_output(int s) {
    uint8_t buffer[1024];
    size_t count;
    save();
    for (;;) {
        done(mqtt5_client_output(&client, buffer, sizeof buffer, &count), "output");
        if (count == 0) return;
        ssize_t sent = send(s, buffer, count, 0);
        if (sent < 0) end_failed("send");
        done(mqtt5_client_sent(&client, (size_t)sent), "sent");
    }
}

/* Reads once, and tells of what came. */
static void take_input(int s) {
    uint8_t buffer[1024];
    ssize_t count = recv(s, buffer, sizeof buffer, 0);
    if (count <= 0) {
        fprintf(stderr, "the broker is gone\n");
        exit(1);
    }
    uint32_t received = mqtt5_client_receive(&client, buffer, (size_t)count, now());
    tell();
    done(received, "receive");
}

/* Tells of the oldest request that the session let go, which a program may publish again. */
static void tell_dropped(void) {
    uint8_t topic[256], payload[1024];
    mqtt5_event e;
    done(mqtt5_client_next_dropped(&client, &e, topic, sizeof topic, payload, sizeof payload), "next_dropped");
    if (e.packet == MQTT5_PUBLISH)
        printf("let go: %.*s to %.*s\n", (int)e.payload_len, (char *)payload, (int)e.topic_len, (char *)topic);
    else
        printf("let go: the release of %u\n", e.pkid);
}

/* Connects, and takes an old session up. */
static int begin(bool clean_start) {
    int s = dial();
    connected = false;
    done(mqtt5_client_connect(&client, bytes("mqtt5 in C"), 10, 60, clean_start, 3600), "connect");
    flush_output(s);
    while (!connected) take_input(s);
    printf("connected, %s\n", session_present ? "the broker has the session" : "a new session");
    size_t dropped;
    done(mqtt5_client_take_up(&client, session_present, now(), &dropped), "take_up");
    for (; dropped > 0; dropped--) tell_dropped();
    flush_output(s);
    return s;
}

/* Publishes, once the next packet identifier is free: an earlier process may have left some that await their acks. */
static void publish(int s, const char *payload, uint8_t qos) {
    for (;;) {
        bool may;
        done(mqtt5_client_may_publish(&client, &may), "may_publish");
        if (may) break;
        flush_output(s);
        take_input(s);
    }
    done(mqtt5_client_publish(&client, bytes("mqtt5/c"), 7, bytes(payload), strlen(payload), qos, false, now()), "publish");
}

static void wait_for(int s, int publishes, int acks) {
    while (came < publishes || acked < acks) {
        flush_output(s);
        take_input(s);
    }
}

int main(int argc, char **argv) {
    if (argc != 4 || snprintf(beside, sizeof beside, "%s.new", argv[3]) >= (int)sizeof beside) return 2;
    host = argv[1], port = argv[2], kept = argv[3];
    int s = begin(!load());
    done(mqtt5_client_subscribe(&client, bytes("mqtt5/#"), 7, 2, now()), "subscribe");
    publish(s, "at most once", 0);
    publish(s, "at least once", 1);
    publish(s, "exactly once", 2);
    wait_for(s, 3, 2);
    /* The connection is cut before this one is sent, and the client ends, as it does with its process. */
    publish(s, "after a cut", 2);
    save();
    close(s);
    done(mqtt5_client_free(&client), "free");
    load();
    s = begin(false);
    wait_for(s, 4, 3);
    done(mqtt5_client_disconnect(&client, now()), "disconnect");
    flush_output(s);
    close(s);
    done(mqtt5_client_free(&client), "free");
    printf("done\n");
    return 0;
}
