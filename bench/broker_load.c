/* Load for an MQTT 5.0 broker on this machine, for bench/broker: one thread, poll and sockets that never block.
   broker_load PORT flow QOS SUBSCRIBERS MESSAGES: one publisher, and so many subscribers to its topic, which take each message
       at its QoS. Prints the seconds from the first publish until every subscriber has every message.
   broker_load PORT idle COUNT [filters]: so many clients that say nothing, or that each subscribe to a filter of their own. Prints a
       line once all are connected, and goes on until its input ends. */
#define _POSIX_C_SOURCE 200809L
#include <arpa/inet.h>
#include <errno.h>
#include <fcntl.h>
#include <netinet/in.h>
#include <netinet/tcp.h>
#include <poll.h>
#include <stdbool.h>
#include <stdint.h>
#include <stdio.h>
#include <stdlib.h>
#include <string.h>
#include <sys/resource.h>
#include <sys/socket.h>
#include <time.h>
#include <unistd.h>

enum {
    PAYLOAD = 100,  /* bytes of a message */
    AHEAD = 200,    /* messages that are on their way to the slowest subscriber at most */
    ROOM = 1 << 18, /* bytes that wait to be sent on a connection at most */
};

typedef struct {
    int socket;
    uint8_t in[4096], *out;
    size_t in_len, out_at, out_len;
    bool connected, subscribed;
    size_t came;
} client;

static client *clients;
static struct pollfd *polled;
static size_t count;
static int port, qos;
static size_t acked;               /* of the publisher: how many messages the broker has */
static const char *prefix = "load"; /* of the names of the clients */

static void fail(const char *what) {
    fprintf(stderr, "broker_load: %s: %s\n", what, strerror(errno));
    exit(1);
}

static double now(void) {
    struct timespec t;
    clock_gettime(CLOCK_MONOTONIC, &t);
    return (double)t.tv_sec + (double)t.tv_nsec / 1e9;
}

static size_t room(const client *c) { return ROOM - c->out_len; }

static void put(client *c, const void *bytes, size_t len) {
    if (!c->out && !(c->out = malloc(ROOM))) fail("memory");
    if (c->out_at > 0 && c->out_len + len > ROOM) {
        memmove(c->out, c->out + c->out_at, c->out_len - c->out_at);
        c->out_len -= c->out_at;
        c->out_at = 0;
    }
    if (c->out_len + len > ROOM) {
        errno = ENOBUFS;
        fail("acks that aren't taken");
    }
    memcpy(c->out + c->out_len, bytes, len);
    c->out_len += len;
}

static void put_ack(client *c, uint8_t first, const uint8_t *id) { put(c, (uint8_t[]){first, 2, id[0], id[1]}, 4); }

/* A Connect (3.1) with a Receive Maximum that is no bound. */
static void put_connect(client *c, size_t number) {
    char name[32];
    uint8_t frame[64] = {0x10, 0, 0, 4, 'M', 'Q', 'T', 'T', 5, 2, 0, 0, 3, 0x21, 0xFF, 0xFF, 0};
    int len = snprintf(name, sizeof name, "%s-%zu", prefix, number);
    frame[1] = (uint8_t)(16 + len);
    frame[17] = (uint8_t)len;
    memcpy(frame + 18, name, (size_t)len);
    put(c, frame, 18 + (size_t)len);
}

/* A Subscribe (3.8) to a filter of at most 121 bytes, and a Publish (3.3). */
static void put_subscribe(client *c, const char *filter) {
    size_t len = strlen(filter);
    put(c, (uint8_t[]){0x82, (uint8_t)(6 + len), 0, 1, 0, 0, (uint8_t)len}, 7);
    put(c, filter, len);
    put(c, (uint8_t[]){(uint8_t)qos}, 1);
}
static void put_publish(client *c, size_t number) {
    uint8_t frame[16 + PAYLOAD] = {(uint8_t)(0x30 | qos << 1), (uint8_t)(7 + (qos ? 2 : 0) + PAYLOAD), 0, 4, 'l', 'o', 'a', 'd'};
    size_t at = 8;
    if (qos) {
        uint16_t id = (uint16_t)(number % 65535 + 1);
        frame[at++] = (uint8_t)(id >> 8);
        frame[at++] = (uint8_t)id;
    }
    frame[at++] = 0;
    put(c, frame, at + PAYLOAD);
}

/* A frame came: its first byte and its body. */
static void take(client *c, uint8_t first, const uint8_t *body, size_t len) {
    switch (first >> 4) {
        case 2:
            if (len < 2 || body[1]) {
                fprintf(stderr, "broker_load: no connection: reason %d\n", len < 2 ? -1 : body[1]);
                exit(1);
            }
            c->connected = true;
            break;
        case 3: {
            const uint8_t *id = body + 2 + (body[0] << 8 | body[1]);
            c->came++;
            if ((first >> 1 & 3) == 1) put_ack(c, 0x40, id);
            if ((first >> 1 & 3) == 2) put_ack(c, 0x50, id);
            break;
        }
        case 4: acked++; break;
        case 5: put_ack(c, 0x62, body); break;
        case 6: put_ack(c, 0x70, body); break;
        case 7: acked++; break;
        case 9:
            if (len < 1 || body[len - 1] >= 0x80) {
                fprintf(stderr, "broker_load: no subscription\n");
                exit(1);
            }
            c->subscribed = true;
            break;
        default:
            fprintf(stderr, "broker_load: a packet of type %d\n", first >> 4);
            exit(1);
    }
}

/* Takes what came; every packet here is shorter than the buffer. */
static void hear(client *c) {
    ssize_t got = recv(c->socket, c->in + c->in_len, sizeof c->in - c->in_len, 0);
    if (got < 0 && (errno == EAGAIN || errno == EINTR)) return;
    if (got <= 0) fail("a connection is lost");
    c->in_len += (size_t)got;
    size_t at = 0;
    for (;;) {
        size_t len = 0, body = at + 1;
        unsigned shift = 0;
        while (body < c->in_len && c->in[body] >= 128) {
            len |= (size_t)(c->in[body++] & 127) << shift;
            shift += 7;
        }
        if (body >= c->in_len) break;
        len |= (size_t)c->in[body++] << shift;
        if (body + len > c->in_len) break;
        take(c, c->in[at], c->in + body, len);
        at = body + len;
    }
    memmove(c->in, c->in + at, c->in_len - at);
    c->in_len -= at;
}

static void say(client *c) {
    if (c->out_at == c->out_len) return;
    ssize_t sent = send(c->socket, c->out + c->out_at, c->out_len - c->out_at, MSG_NOSIGNAL);
    if (sent < 0 && errno != EAGAIN && errno != EINTR) fail("send");
    if (sent > 0) c->out_at += (size_t)sent;
    if (c->out_at == c->out_len) {
        c->out_at = c->out_len = 0;
        /* (an idle client keeps no buffer) */
        if (!c->subscribed) {
            free(c->out);
            c->out = NULL;
        }
    }
}

/* One round of those from a number on. */
static void turn(size_t first) {
    for (size_t i = first; i < count; i++) {
        say(&clients[i]);
        polled[i] = (struct pollfd){clients[i].socket, (short)(POLLIN | (clients[i].out_len > 0 ? POLLOUT : 0)), 0};
    }
    int ready = poll(polled + first, count - first, 30000);
    if (ready < 0 && errno != EINTR) fail("poll");
    if (ready == 0) {
        errno = ETIMEDOUT;
        fail("nothing comes");
    }
    for (size_t i = first; i < count; i++)
        if (polled[i].revents & ~POLLOUT) hear(&clients[i]);
}

static void dial(client *c) {
    struct sockaddr_in a = {.sin_family = AF_INET, .sin_port = htons((uint16_t)port), .sin_addr.s_addr = htonl(INADDR_LOOPBACK)};
    int one = 1;
    c->socket = socket(AF_INET, SOCK_STREAM, 0);
    if (c->socket < 0 || connect(c->socket, (struct sockaddr *)&a, sizeof a) < 0) fail("connect");
    setsockopt(c->socket, IPPROTO_TCP, TCP_NODELAY, &one, sizeof one);
    if (fcntl(c->socket, F_SETFL, O_NONBLOCK) < 0) fail("fcntl");
}

/* Connects all, some at a time. */
static void connect_all(size_t all) {
    clients = calloc(all, sizeof *clients);
    polled = calloc(all, sizeof *polled);
    if (!clients || !polled) fail("memory");
    while (count < all) {
        size_t first = count;
        for (; count < all && count < first + 100; count++) {
            dial(&clients[count]);
            put_connect(&clients[count], count);
        }
        for (size_t i = first; i < count; i++)
            while (!clients[i].connected) turn(i);
    }
}

static void await_subscribed(size_t first) {
    for (size_t i = first; i < count; i++)
        while (!clients[i].subscribed) turn(i);
}

/* Each to a filter of its own. */
static void subscribe_apart(void) {
    char filter[32];
    for (size_t i = 0; i < count; i++) {
        snprintf(filter, sizeof filter, "idle/%zu/+", i);
        put_subscribe(&clients[i], filter);
        say(&clients[i]);
    }
    await_subscribed(0);
}

static size_t least(void) {
    size_t came = SIZE_MAX;
    for (size_t i = 1; i < count; i++)
        if (clients[i].came < came) came = clients[i].came;
    return came;
}

static void flow(size_t subscribers, size_t messages) {
    connect_all(subscribers + 1);
    for (size_t i = 1; i < count; i++) put_subscribe(&clients[i], "load");
    await_subscribed(1);
    double begun = now();
    size_t sent = 0;
    clients[0].subscribed = true;
    for (size_t came; (came = least()) < messages || (qos && acked < messages);) {
        while (sent < messages && sent < came + AHEAD && (!qos || sent < acked + AHEAD) && room(&clients[0]) > 2 * PAYLOAD)
            put_publish(&clients[0], sent++);
        turn(0);
    }
    printf("%.6f\n", now() - begun);
}

int main(int argc, char **argv) {
    struct rlimit files;
    if (getrlimit(RLIMIT_NOFILE, &files) == 0) {
        files.rlim_cur = files.rlim_max;
        setrlimit(RLIMIT_NOFILE, &files);
    }
    if (argc == 6 && !strcmp(argv[2], "flow")) {
        port = atoi(argv[1]);
        qos = atoi(argv[3]);
        flow(strtoul(argv[4], NULL, 10), strtoul(argv[5], NULL, 10));
    } else if ((argc == 4 || (argc == 5 && !strcmp(argv[4], "filters"))) && !strcmp(argv[2], "idle")) {
        port = atoi(argv[1]);
        prefix = "idle";
        connect_all(strtoul(argv[3], NULL, 10));
        if (argc == 5) subscribe_apart();
        printf("all are connected\n");
        fflush(stdout);
        while (getchar() != EOF) {}
    } else {
        fprintf(stderr, "usage: broker_load PORT flow QOS SUBSCRIBERS MESSAGES | PORT idle COUNT [filters]\n");
        return 2;
    }
    return 0;
}
