/* What an operator sets, by the words of the command. */
#define _POSIX_C_SOURCE 200809L
#include "broker_options.h"

#include <arpa/inet.h>
#include <errno.h>
#include <limits.h>
#include <netinet/in.h>
#include <stdio.h>
#include <stdlib.h>
#include <string.h>
#include <sys/resource.h>

struct options options = {
    .port = 1883, .most = 1024, .longest = 1048576, .ids = 1024, .wait_for = 10, .alias_max = 10,
    .clients = 10000, .subscriptions = 1000, .shared = 100, .retained = 10000, .queued = 100000, .queued_bytes = 67108864,
    .bound = "127.0.0.1",
};

static const char help[] =
    "usage: mqtt5 broker [OPTIONS]\n"
    "An MQTT 5.0 broker. Without users it listens at loopback addresses alone, which other machines don't reach.\n"
    "\n"
    "  -p, --port PORT          the port, else 1883; 0 takes a free one, and the first line of the log says which\n"
    "  --bind ADDRESS           the address, else 127.0.0.1; without users one of 127.0.0.0/8, ::1, or localhost\n"
    "  --users FILE             who may connect: lines NAME:HASH, with hashes as mkpasswd makes them\n"
    "  --acl-file FILE          what each may do, in the form of mosquitto's acl_file; else all that doesn't begin with $\n"
    "  --max-connections N      how many connections there are at once, else 1024\n"
    "  --max-packet-size N      the greatest remaining length of a packet that is taken, in bytes, else 1048576\n"
    "  --max-inflight N         how many messages of QoS 1 and 2 a client is sent ahead of their acks, else 1024\n"
    "  --max-sessions N         how many clients have a session, connected or away, else 10000\n"
    "  --max-subscriptions N    how many subscriptions a client has, else 1000\n"
    "  --max-shared N           how many filters of shared subscriptions there are, of all clients, else 100\n"
    "  --max-retained N         how many messages are retained, else 10000\n"
    "  --max-queued-messages N  how many messages wait for a client, else 100000\n"
    "  --max-queued-bytes N     and how many bytes these have, else 67108864\n"
    "  --discard-oldest         where more wait the oldest are dropped, of any QoS; else those of QoS 0 alone\n"
    "  --max-topic-alias N      the greatest topic alias of a client, else 10; 0 for none\n"
    "  --max-keepalive SECONDS  the longest keep alive of a client; else, or with 0, it is any\n"
    "  --wait SECONDS           how long one that hasn't connected may say nothing, else 10; 0 for any time\n"
    "  -q, --quiet              no log\n"
    "  -h, --help               this text\n"
    "\n"
    "docs/BROKER.md says more of each.\n";

_Noreturn void refuse(const char *word, const char *why) {
    fprintf(stderr, "broker: %s: %s\n", word, why);
    exit(2);
}

static const struct number {
    const char *option;
    unsigned long *value, least, greatest;
} numbers[] = {
    {"-p", &options.port, 0, 65535}, {"--port", &options.port, 0, 65535}, {"--wait", &options.wait_for, 0, 4294967},
    {"--max-connections", &options.most, 1, 1000000}, {"--max-packet-size", &options.longest, 1, 268435455},
    {"--max-inflight", &options.ids, 1, 65535}, {"--max-topic-alias", &options.alias_max, 0, 65535},
    {"--max-keepalive", &options.keep_alive_max, 0, 65535},
    {"--max-sessions", &options.clients, 1, ULONG_MAX}, {"--max-subscriptions", &options.subscriptions, 0, ULONG_MAX},
    {"--max-shared", &options.shared, 0, ULONG_MAX}, {"--max-retained", &options.retained, 0, ULONG_MAX},
    {"--max-queued-messages", &options.queued, 0, ULONG_MAX}, {"--max-queued-bytes", &options.queued_bytes, 0, ULONG_MAX},
    {NULL, NULL, 0, 0},
};

static void set_number(const char *option, const char *text) {
    const struct number *k = numbers;
    char *end, why[80];
    while (k->option && strcmp(option, k->option)) k++;
    if (!k->option) refuse(option, "no such option; --help has them all");
    errno = 0;
    *k->value = text && *text >= '0' && *text <= '9' ? strtoul(text, &end, 10) : (end = "?", 0);
    snprintf(why, sizeof why, "takes a number of %lu to %lu", k->least, k->greatest);
    if (errno || *end || *k->value < k->least || *k->value > k->greatest) refuse(option, why);
}

void read_options(char **words) {
    for (; *words; words++) {
        const char *option = *words;
        if (!strcmp(option, "--help") || !strcmp(option, "-h")) {
            fputs(help, stdout);
            exit(0);
        }
        if (!strcmp(option, "-q") || !strcmp(option, "--quiet")) {
            options.quiet = true;
            continue;
        }
        if (!strcmp(option, "--discard-oldest")) {
            options.oldest = true;
            continue;
        }
        const char *value = words[1], **text = NULL;
        if (!strcmp(option, "--bind")) text = &options.bound;
        if (!strcmp(option, "--users")) text = &options.users;
        if (!strcmp(option, "--acl-file")) text = &options.rights;
        if (!text) set_number(option, value);
        else if (!(*text = value)) refuse(option, text == &options.bound ? "takes an address" : "takes a file");
        words++;
    }
    if (options.rights && !options.users) refuse("--acl-file", "is for users, and there is no --users");
}

void raise_files(void) {
    struct rlimit files;
    rlim_t wanted = options.most + 16;
    bool has = getrlimit(RLIMIT_NOFILE, &files) == 0;
    if (has && files.rlim_cur >= wanted) return;
    files.rlim_cur = wanted;
    if (!has || files.rlim_max < wanted || setrlimit(RLIMIT_NOFILE, &files) < 0)
        refuse("--max-connections", "more than the files that a process may have open (ulimit -Hn)");
}

socklen_t find_address(struct sockaddr_storage *a) {
    struct sockaddr_in *four = (void *)a;
    struct sockaddr_in6 *six = (void *)a;
    const char *text = strcmp(options.bound, "localhost") ? options.bound : "127.0.0.1";
    bool is_any = options.users != NULL;
    memset(a, 0, sizeof *a);
    if (inet_pton(AF_INET, text, &four->sin_addr) == 1 && (is_any || ntohl(four->sin_addr.s_addr) >> 24 == 127)) {
        four->sin_family = AF_INET;
        four->sin_port = htons((uint16_t)options.port);
        return sizeof *four;
    }
    if (inet_pton(AF_INET6, text, &six->sin6_addr) == 1 && (is_any || IN6_IS_ADDR_LOOPBACK(&six->sin6_addr))) {
        six->sin6_family = AF_INET6;
        six->sin6_port = htons((uint16_t)options.port);
        return sizeof *six;
    }
    if (is_any) refuse(options.bound, "takes an address of this machine, in digits, or localhost");
    refuse(options.bound, "without --users the broker takes only addresses of this machine: 127.0.0.0/8, ::1, localhost");
}
