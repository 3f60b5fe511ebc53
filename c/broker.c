/* An MQTT 5.0 server: sockets and a clock around the broker of mqtt5_broker.h. The broker is proved (docs/PROVED.md); this file
   isn't, it is only tested (tests/broker). One thread, poll and sockets that never block. docs/BROKER.md says how it is used. */
#define _POSIX_C_SOURCE 200809L
#include "broker_frames.h"
#include "broker_log.h"
#include "broker_options.h"
#include "broker_rights.h"
#include "broker_users.h"
#include "mqtt5_broker.h"

#include <errno.h>
#include <fcntl.h>
#include <limits.h>
#include <netinet/in.h>
#include <netinet/tcp.h>
#include <poll.h>
#include <signal.h>
#include <stdio.h>
#include <stdlib.h>
#include <string.h>
#include <sys/socket.h>
#include <time.h>
#include <unistd.h>

/* ---- Limits of its own. ---- */

enum {
    PIECE = 65536,         /* bytes that are read, and sent, at a time, at most */
    FIRST = 4096,          /* bytes that are read at first */
    LEAST = 512,           /* bytes that are read at a time where what came before took long */
    TURNS = 8,             /* pieces of one connection before the next one has its turn */
    PASSES = 16,           /* publishes passed before the waiting output is looked at, at most */
    FEW = 64,              /* connections that are looked at by themselves, at most */
    MANY = 512,            /* where there are numbers of connections beyond this */
    SECOND = 1000,         /* milliseconds */
    UNREAD = 4194304,      /* bytes that are read of a client while its own socket takes nothing */
    REST = 1000,           /* milliseconds for the last bytes of a connection that has ended, and between measures of queues */
    AGAIN = 100            /* milliseconds after which a call that had no memory is tried again */
};

enum state {
    UNUSED,
    OPEN,
    ENDING,  /* the broker takes no more of it, and its last bytes are being sent */
    DRAINED, /* all is sent: what still comes is dropped, so that no reset overtakes the last packet */
    LEAVING  /* its socket is closed, and the broker has still to be told */
};

struct connection {
    enum state state;
    int socket;
    uint64_t number;   /* counts all connections, for the log */
    uint64_t deadline; /* of ENDING and DRAINED, and of OPEN without a client */
    size_t piece;      /* bytes that are read at a time */
    bool is_client;    /* whether a client has connected on it */
    bool waits;        /* its socket takes no more bytes for now */
    size_t unread;     /* bytes that were read since then, but for those that were sent */
    struct frames frames; /* that are sent on it */
};

static mqtt5_broker broker;
static struct connection *connections;
static struct pollfd *polled; /* the listener, the signals, and then each connection by its number */
static size_t *connection_of; /* the last one of each client, by the number that the broker has for it */
static size_t numbers;        /* how many of these there is room for */
static size_t used;           /* all connections from this number on are unused */
static uint64_t now, count;
static uint64_t due_at, sought_at;             /* when the broker has something to do, and when it was asked for that */
static uint64_t tries_at, listens_at, ends_by; /* when it does that and takes connections again, and waits no longer */
static uint64_t passes_at;                     /* when what came is passed on again, where that had no memory; else 0 */
static uint64_t measures_at;                   /* when it measures what is kept again */
static int listener, signals[2];
static bool ends, grows;  /* whether it ends, and something may have come into any queue since these were measured */
static bool came, others; /* in this round: what may be in any queue, and what may have ended any connection */
static bool judged;       /* and whether a user was judged */
static size_t busy[FEW], few; /* the connections that had something to do, or wait for their sockets, and how many these are */
static bool acted;        /* whether anything happened since the broker was asked when it has something to do */
static size_t first;      /* the connection that is looked at first in it */
static size_t free_from;  /* all connections before this number are in use */
static size_t drained;    /* how many are DRAINED */
static uint8_t in[PIECE], out[PIECE];

static uint64_t moment(void) {
    struct timespec t;
    clock_gettime(CLOCK_MONOTONIC, &t);
    return (uint64_t)t.tv_sec * 1000 + (uint64_t)t.tv_nsec / 1000000;
}

/* The number of the first name that is given: another one at each start. */
static uint64_t first_name(void) {
    struct timespec t;
    clock_gettime(CLOCK_REALTIME, &t);
    return (uint64_t)t.tv_sec * 1000 + (uint64_t)t.tv_nsec / 1000000;
}

/* ---- A connection ends. ---- */

/* Its socket is closed, and the broker is told; where that has no memory for a will, it is told again later. */
static void leave(size_t c) {
    struct connection *k = &connections[c];
    if (k->socket >= 0) close(k->socket);
    if (k->state == DRAINED) drained--;
    k->socket = -1;
    k->state = LEAVING;
    came = grows = true; /* (its will) */
    if (mqtt5_broker_close(&broker, c, now) != MQTT5_BROKER_DONE) return;
    k->state = UNUSED;
    if (c < free_from) free_from = c;
    while (used > 0 && connections[used - 1].state == UNUSED) used--;
}

/* Memory was refused for it. */
static void drop(size_t c) {
    say("%llu: ended: out of memory\n", (unsigned long long)connections[c].number);
    leave(c);
}

static void say_ended(const struct connection *k) {
    unsigned long long number = k->number;
    int reason = k->frames.reason;
    const char *other = k->is_client || reason == 0 ? "the client disconnected" : "without a Connect";
    if (reason > 0) say("%llu: ended: %s (0x%02X)\n", number, reason_name(reason), (unsigned)reason);
    else say("%llu: ended: %s\n", number, other);
}

/* Whether the broker takes nothing more of it: then its last bytes are sent, for a while. */
static bool has_ended(size_t c) {
    struct connection *k = &connections[c];
    bool is_open = false;
    if (k->state != OPEN) return true;
    mqtt5_broker_is_open(&broker, c, &is_open);
    if (is_open) return false;
    k->state = ENDING;
    k->deadline = now + REST;
    return true;
}

/* Its last byte is sent. */
static void finish(size_t c) {
    struct connection *k = &connections[c];
    say_ended(k);
    k->state = DRAINED;
    k->deadline = now + REST;
    k->waits = false;
    k->unread = 0;
    drained++;
    shutdown(k->socket, SHUT_WR);
}

/* ---- What is sent. ---- */

/* Publishes of its client's queue go into its output, until there are none, or a piece waits. Whether there may be more; how much
   waits, up to a piece, is copied to `out`. */
static bool fill(size_t c, size_t *waiting) {
    struct connection *k = &connections[c];
    bool some = k->state == OPEN && k->is_client;
    mqtt5_broker_output(&broker, c, out, sizeof out, waiting);
    for (int batch = 1; some && *waiting < sizeof out; batch = batch < PASSES ? 2 * batch : batch) {
        for (int i = 0; some && i < batch; i++) {
            if (mqtt5_broker_pass(&broker, c, now, &some) == MQTT5_BROKER_DONE) continue;
            drop(c);
            return false;
        }
        mqtt5_broker_output(&broker, c, out, sizeof out, waiting);
    }
    return some;
}

/* Sends what waits on it and in its client's queue, as long as its socket takes it and others needn't wait long. A client that
   reads nothing has at most a piece and a few publishes in its output, and answers to as much as is read of it: the rest stays in
   its queue, and is not read. */
static void serve(size_t c) {
    struct connection *k = &connections[c];
    if (k->state != OPEN && k->state != ENDING) return;
    k->waits = true;
    for (int turn = 0;; turn++) {
        size_t waiting;
        bool more = fill(c, &waiting);
        if (k->state != OPEN && k->state != ENDING) return;
        if (waiting == 0) break;
        if (turn == TURNS) return;
        ssize_t sent = send(k->socket, out, waiting, MSG_NOSIGNAL);
        if (sent < 0 && errno != EAGAIN && errno != EWOULDBLOCK && errno != EINTR) {
            say_lost(k->number, errno);
            leave(c);
            return;
        }
        if (sent > 0) {
            if (follow_frames(&k->frames, out, (size_t)sent))
                say("%llu: denied: Not authorized (0x87)\n", (unsigned long long)k->number);
            k->unread -= k->unread < (size_t)sent ? k->unread : (size_t)sent;
            mqtt5_broker_sent(&broker, c, (size_t)sent);
        }
        if (sent < (ssize_t)waiting) return;
        if (!more && waiting < sizeof out) break;
    }
    k->waits = false;
    k->unread = 0;
    if (k->state == ENDING) finish(c);
}

/* ---- What comes in. ---- */

/* Notes whose connection it is. Whether there was memory for that. */
static bool note_client(size_t c) {
    size_t client = 0;
    bool some = false;
    mqtt5_broker_number(&broker, c, &client, &some);
    if (some && client >= numbers) {
        size_t more = 2 * client + 64, *grown = realloc(connection_of, more * sizeof *grown);
        if (!grown) return false;
        connection_of = grown;
        numbers = more;
    }
    if (some) connection_of[client] = c;
    return true;
}

static void say_client(size_t c) {
    uint8_t name[65];
    char shown[4 * sizeof name + 1];
    size_t len = 0;
    mqtt5_broker_client(&broker, c, name, sizeof name, &len);
    if (len == 0) return;
    connections[c].is_client = true;
    show_name(name, len < 64 ? len : 64, shown);
    say("%llu: client \"%s\"%s\n", (unsigned long long)connections[c].number, shown, len == sizeof name ? " .." : "");
}

/* Hands in what was read. Where there are users, who isn't connected yet is asked who it is: the bytes are held, and are taken
   once it is known, or it is turned away. A judgement takes its time, so there is one in a round at most, and the next round
   begins behind that connection. */
static uint32_t hand_in(size_t c, size_t len) {
    static uint8_t name[65535], password[65535]; /* (as long as one can be: 1.5.4) */
    enum judgement judgement = UNKNOWN;
    uint32_t asks = 0, done;
    size_t name_len = 0, password_len = 0, user = 0;
    if (!options.users || connections[c].is_client) return mqtt5_broker_receive(&broker, c, in, len, now);
    done = mqtt5_broker_hold(&broker, c, in, len);
    if (done == MQTT5_BROKER_DONE)
        done = mqtt5_broker_asks(
            &broker, c, &asks, name, sizeof name, &name_len, password, sizeof password, &password_len);
    if (done != MQTT5_BROKER_DONE) return done;
    if (asks == MQTT5_BROKER_NAMED) {
        judgement = users_judge(name, name_len, password, password_len, &user);
        judged = true;
        first = c + 1;
        now = moment();
    }
    if (judgement == NO_MEMORY) return MQTT5_BROKER_OUT_OF_MEMORY;
    if (asks != MQTT5_BROKER_NOBODY && judgement != KNOWN) return mqtt5_broker_reject(&broker, c, asks == MQTT5_BROKER_NAMED);
    if (judgement == KNOWN) done = mqtt5_broker_identify(&broker, c, user);
    if (done != MQTT5_BROKER_DONE) return done;
    return mqtt5_broker_receive(&broker, c, in, 0, now);
}

/* Until when a connection may be without a client that nothing comes on from now on. */
static uint64_t connects_by(void) { return options.wait_for ? now + 1000 * options.wait_for : UINT64_MAX; }

/* Reads a piece, and hands it in. The next one is shorter where that took long, so that nobody else waits for it long. */
static void hear(size_t c) {
    struct connection *k = &connections[c];
    if (k->state == OPEN && !k->is_client) {
        k->deadline = connects_by();
        if (judged) return; /* (its bytes wait for the next round) */
    }
    ssize_t len = recv(k->socket, in, k->piece, 0);
    if (len < 0 && (errno == EAGAIN || errno == EWOULDBLOCK || errno == EINTR)) return;
    if (k->state != OPEN && len > 0) return;
    if (len <= 0) {
        if (k->state != DRAINED) say_lost(k->number, len == 0 ? 0 : errno);
        leave(c);
        return;
    }
    came = true;
    if (k->waits) k->unread += (size_t)len;
    uint64_t from = moment();
    if (hand_in(c, (size_t)len) != MQTT5_BROKER_DONE || (!k->is_client && !note_client(c))) {
        others = true;
        drop(c);
        return;
    }
    uint64_t took = moment() - from;
    if (took > 50 && k->piece > LEAST) k->piece /= 2;
    if (took < 20 && k->piece < PIECE) k->piece *= 2;
    bool was_client = k->is_client;
    if (!was_client) say_client(c);
    if ((has_ended(c) || k->is_client) && !was_client) others = true;
    serve(c);
}

/* ---- Connections begin. ---- */

/* The first number that is free, or that of a connection that waits for nothing but its client's end. */
static bool free_number(size_t *c) {
    while (free_from < options.most && connections[free_from].state != UNUSED) free_from++;
    *c = free_from;
    if (*c < options.most || drained == 0) return *c < options.most;
    for (*c = 0; connections[*c].state != DRAINED; (*c)++) {}
    leave(*c);
    return connections[*c].state == UNUSED;
}

static void set_flags(int s) {
    if (fcntl(s, F_SETFL, O_NONBLOCK) < 0 || fcntl(s, F_SETFD, FD_CLOEXEC) < 0) fail("fcntl");
}

/* Takes a connection. Whether there was one. */
static bool take(void) {
    struct sockaddr_storage address;
    socklen_t len = sizeof address;
    size_t c;
    bool begun = false;
    int one = 1, s = accept(listener, (struct sockaddr *)&address, &len);
    if (s < 0) {
        if (errno == EMFILE || errno == ENFILE || errno == ENOBUFS || errno == ENOMEM) {
            say("no connection is taken for a moment: %s\n", strerror(errno));
            listens_at = now + AGAIN;
        }
        return errno == EINTR || errno == ECONNABORTED;
    }
    count++;
    set_flags(s);
    setsockopt(s, IPPROTO_TCP, TCP_NODELAY, &one, sizeof one);
    if (free_number(&c)) mqtt5_broker_open(&broker, c, now, &begun);
    if (!begun) {
        say_address(count, &address, len, "refused, since all connections are taken:");
        close(s);
        return true;
    }
    say_address(count, &address, len, "connection from");
    connections[c] = (struct connection){
        .state = OPEN, .socket = s, .number = count, .deadline = connects_by(), .piece = FIRST, .frames.reason = -1};
    if (c >= used) used = c + 1;
    return true;
}

/* ---- The loop. ---- */

static void note_signal(int number) {
    int kept = errno;
    (void)number;
    if (write(signals[1], "", 1) < 0) errno = kept; /* (where the pipe is full one is noted already) */
}

/* The milliseconds until a moment, and no more than those before. */
static int sooner(int before, uint64_t at) {
    uint64_t left = at > now ? at - now : 0;
    if (left > INT_MAX) left = INT_MAX;
    return before >= 0 && before < (int)left ? before : (int)left;
}

/* What a connection waits for. */
static struct pollfd awaited(const struct connection *k) {
    bool is_closed = k->state == UNUSED || k->state == LEAVING;
    short events = (short)((k->unread > UNREAD ? 0 : POLLIN) | (k->waits ? POLLOUT : 0));
    return (struct pollfd){.fd = is_closed ? -1 : k->socket, .events = events};
}

/* When the broker has something to do is sought among all connections and sessions. What isn't set yet is due a second after it is
   set, or later, since all that is set are whole seconds: so it is asked again when something is due, and a second after it was
   asked, if anything happened since. */
static void seek_due(void) {
    bool some = false;
    if (now < due_at && (now < sought_at + SECOND || !acted)) return;
    mqtt5_broker_next_moment(&broker, &due_at, &some);
    if (!some) due_at = UINT64_MAX;
    sought_at = now;
    acted = false;
}

/* Whether it ends at its deadline. */
static bool has_deadline(const struct connection *k) {
    return k->state == ENDING || k->state == DRAINED || (k->state == OPEN && !k->is_client);
}

/* What all wait for; until when there is nothing to do but by them. */
static int plan(void) {
    int timeout = -1;
    now = moment();
    seek_due();
    if (due_at < UINT64_MAX) timeout = sooner(timeout, due_at < tries_at ? tries_at : due_at);
    if (acted) timeout = sooner(timeout, sought_at + SECOND);
    if (grows) timeout = sooner(timeout, measures_at);
    if (passes_at) timeout = sooner(timeout, passes_at);
    polled[0] = (struct pollfd){.fd = ends || now < listens_at ? -1 : listener, .events = POLLIN};
    if (!ends && now < listens_at) timeout = sooner(timeout, listens_at);
    polled[1] = (struct pollfd){.fd = signals[0], .events = POLLIN};
    for (size_t c = 0; c < used; c++) {
        struct connection *k = &connections[c];
        polled[c + 2] = awaited(k);
        if (has_deadline(k)) timeout = sooner(timeout, k->deadline);
        if (k->state == LEAVING) timeout = sooner(timeout, now + AGAIN);
    }
    return timeout;
}

/* All that is due: at the broker, and of connections whose last bytes nobody takes. */
static void do_due(void) {
    if (due_at <= now) seek_due(); /* (who was to be silent may have been heard since) */
    if (due_at <= now && tries_at <= now) {
        came = others = true;
        due_at = 0; /* (it is asked again) */
        if (mqtt5_broker_tick(&broker, now) != MQTT5_BROKER_DONE) {
            say("no memory for what is due\n");
            tries_at = now + AGAIN;
        }
    }
    for (size_t c = used; c-- > 0;) {
        struct connection *k = &connections[c];
        bool is_over = has_deadline(k) && k->deadline <= now;
        if (is_over && k->state == OPEN) {
            k->state = ENDING;
            k->deadline = now + REST;
            serve(c);
            continue;
        }
        if (is_over && k->state == ENDING) say("%llu: ended: its last bytes were not taken\n", (unsigned long long)k->number);
        if (is_over || k->state == LEAVING) leave(c);
    }
}

/* The broker tells each client that it ends. */
static void begin_end(void) {
    char noted[16];
    if (read(signals[0], noted, sizeof noted) < 0 || ends) return;
    ends = true;
    ends_by = now + 2 * REST;
    close(listener);
    if (mqtt5_broker_shut_down(&broker, now) != MQTT5_BROKER_DONE) say("no memory to tell all clients of the end\n");
    for (size_t c = used; c-- > 0;) {
        if (connections[c].state != OPEN) continue;
        has_ended(c);
        connections[c].state = ENDING;
        connections[c].deadline = now + REST;
        serve(c);
    }
}

static void note_busy(size_t c) {
    size_t i = 0;
    while (i < few && i < FEW && busy[i] != c) i++;
    if (i == few && few++ < FEW) busy[i] = c;
}

/* A publish or a will that came may be in any client's queue: those are looked at, once for all that came in a round, in whose queues
   something is. Those whose sockets take nothing are looked at when they do. Whether a connection has ended beside the one that
   something came on is asked of all where that can be: a client that connects may displace another. */
static void pass_all(void) {
    bool some = true;
    for (size_t c = 0; others && c < used; c++) {
        if (connections[c].state == OPEN && has_ended(c)) serve(c);
    }
    passes_at = 0;
    for (size_t client = 0;; client++) {
        if (mqtt5_broker_next_waiting(&broker, client, &client, &some) != MQTT5_BROKER_DONE) {
            say("no memory to pass on what came\n");
            passes_at = now + AGAIN;
            return;
        }
        if (!some) return;
        size_t c = client < numbers ? connection_of[client] : options.most;
        if (c >= used || connections[c].state != OPEN || connections[c].waits || !connections[c].is_client) continue;
        if (mqtt5_broker_pass(&broker, c, now, &some) != MQTT5_BROKER_DONE) drop(c);
        else if (some) serve(c);
        if (connections[c].waits || (some && few < FEW)) note_busy(c); /* (it may answer soon) */
    }
}

/* Says how many messages were let go of queues that were too long, where it is more than before. */
static void tell_dropped(void) {
    static uint64_t told;
    uint64_t count = told;
    if (mqtt5_broker_dropped(&broker, &count) != MQTT5_BROKER_DONE || count == told) return;
    say("messages dropped from queues that were too long: %llu, %llu in all\n", (unsigned long long)(count - told),
        (unsigned long long)count);
    told = count;
}

/* Shortens queues, and ends the sessions for which more is kept than may be: now and then, since it looks at all that is. Whether it
   did that. */
static bool measure(void) {
    if (!grows || now < measures_at) return false;
    uint64_t from = moment(), to;
    grows = mqtt5_broker_trim(&broker, now) != MQTT5_BROKER_DONE;
    tell_dropped();
    to = moment();
    measures_at = to + REST + 9 * (to - from);
    return came = others = true;
}

/* What a connection waited for is done. */
static void answer(size_t c, const struct pollfd *p) {
    if (p->revents & POLLOUT) serve(c);
    if (p->revents & ~POLLOUT && connections[c].socket == p->fd) hear(c);
}

/* What came goes out; a client that is lost by that may have a will. */
static void hand_out(void) {
    for (; came; pass_all()) came = false;
}

/* Where there are many connections a look at all takes long, so the few that are busy are then looked at by themselves, with those
   that something is sent to, as long as they have something to do, for up to a time that grows with the number of all. It ends where
   the socket of another one takes no more, and where a user was judged. */
static void turn_few(uint64_t until) {
    struct pollfd near[FEW];
    while (few > 0 && few <= FEW && now < until && !ends && !judged) {
        size_t looked = few;
        for (size_t i = 0; i < looked; i++) near[i] = awaited(&connections[busy[i]]);
        if (poll(near, looked, 0) <= 0) return;
        now = moment();
        came = others = false;
        for (size_t i = 0; i < looked; i++) answer(busy[i], &near[i]);
        grows = grows || came;
        hand_out();
    }
}

/* One round: what came is handed in, and what there is to send goes out. */
static void turn(void) {
    size_t all = used;
    int timeout = plan(), ready = poll(polled, all + 2, timeout);
    now = moment();
    came = passes_at && passes_at <= now;
    others = judged = false;
    few = 0;
    if (ready < 0 && errno != EINTR && errno != EAGAIN && errno != ENOMEM) fail("poll");
    if (ready < 0 && errno != EINTR) poll(NULL, 0, AGAIN); /* (no memory for it) */
    for (size_t i = 0, from = first; ready > 0 && i < all; i++) {
        size_t c = (from + i) % all;
        if ((polled[c + 2].revents || connections[c].waits) && few++ < FEW) busy[few - 1] = c;
        answer(c, &polled[c + 2]);
    }
    for (int i = 0; ready > 0 && polled[0].revents && i < 64 && take(); i++) {}
    if (ready > 0 && polled[1].revents) begin_end();
    do_due();
    grows = grows || came;
    acted = acted || came || ready != 0;
    do hand_out();
    while (measure());
    if (all > MANY) turn_few(now + 1 + (all < 25000 ? all : 25000) / 500);
}

/* ---- It begins. ---- */

static void listen_there(void) {
    struct sockaddr_storage a;
    socklen_t len = find_address(&a);
    int one = 1;
    bool is_six = a.ss_family == AF_INET6;
    listener = socket(a.ss_family, SOCK_STREAM, 0);
    if (listener < 0) fail("socket");
    setsockopt(listener, SOL_SOCKET, SO_REUSEADDR, &one, sizeof one);
    set_flags(listener);
    if (bind(listener, (struct sockaddr *)&a, len) < 0 || listen(listener, 1024) < 0) fail(options.bound);
    if (getsockname(listener, (struct sockaddr *)&a, &len) < 0) fail("getsockname");
    options.port = ntohs(is_six ? ((struct sockaddr_in6 *)&a)->sin6_port : ((struct sockaddr_in *)&a)->sin_port);
    const char *bound = strcmp(options.bound, "localhost") ? options.bound : "127.0.0.1";
    say(is_six ? "listening on [%s]:%lu\n" : "listening on %s:%lu\n", bound, options.port);
}

static void catch_signals(void) {
    struct sigaction noted = {.sa_handler = note_signal}, ignored = {.sa_handler = SIG_IGN};
    if (pipe(signals) < 0) fail("pipe");
    set_flags(signals[0]);
    set_flags(signals[1]);
    if (sigaction(SIGINT, &noted, NULL) < 0 || sigaction(SIGTERM, &noted, NULL) < 0 || sigaction(SIGPIPE, &ignored, NULL) < 0)
        fail("sigaction");
}

int main(int argc, char **argv) {
    if (argc > 0) read_options(argv + 1);
    if (options.users) users_read(options.users);
    /* (no socket gets the number of a log that is closed) */
    int s = 0;
    while (s >= 0 && s < 3) s = open("/dev/null", O_RDWR);
    close(s);
    raise_files();
    connections = calloc(options.most, sizeof *connections);
    polled = calloc(options.most + 2, sizeof *polled);
    /* (how long a connection may be without a client is judged here: who waits to be judged has said who it is) */
    uint32_t made = mqtt5_broker_new(&broker, options.most, (uint32_t)options.longest, (uint16_t)options.ids, 0,
        (uint16_t)options.alias_max, (uint16_t)options.keep_alive_max, first_name());
    if (!connections || !polled || made != MQTT5_BROKER_DONE) {
        fprintf(stderr, "broker: no memory for %lu connections\n", options.most);
        return 1;
    }
    mqtt5_broker_bound(&broker, options.clients, options.subscriptions, options.shared, options.retained, options.queued,
        options.queued_bytes, options.oldest);
    if (options.users) rights_read(&broker, options.rights);
    catch_signals();
    listen_there();
    now = moment();
    while (!ends || (used > 0 && now < ends_by)) turn();
    mqtt5_broker_free(&broker);
    return 0;
}
