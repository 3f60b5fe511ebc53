/* What the server says. */
#define _POSIX_C_SOURCE 200809L
#include "broker_log.h"
#include "broker_options.h"

#include <errno.h>
#include <netdb.h>
#include <stdarg.h>
#include <stdio.h>
#include <stdlib.h>
#include <string.h>

void say(const char *format, ...) {
    va_list words;
    if (options.quiet) return;
    va_start(words, format);
    vfprintf(stderr, format, words);
    va_end(words);
}

_Noreturn void fail(const char *what) {
    fprintf(stderr, "broker: %s: %s\n", what, strerror(errno));
    exit(1);
}

void say_address(uint64_t number, const struct sockaddr_storage *a, socklen_t len, const char *what) {
    char host[64] = "?", at[16] = "?";
    getnameinfo((const struct sockaddr *)a, len, host, sizeof host, at, sizeof at, NI_NUMERICHOST | NI_NUMERICSERV);
    say(strchr(host, ':') ? "%llu: %s [%s]:%s\n" : "%llu: %s %s:%s\n", (unsigned long long)number, what, host, at);
}

void say_lost(uint64_t number, int fault) {
    int is_peer = fault == 0 || fault == ECONNRESET || fault == EPIPE;
    say("%llu: ended: %s\n", (unsigned long long)number, is_peer ? "closed by peer" : strerror(fault));
}

void show_name(const uint8_t *name, size_t len, char *shown) {
    for (size_t i = 0; i < len; i++) {
        if (name[i] >= ' ' && name[i] <= '~' && name[i] != '"' && name[i] != '\\') *shown++ = (char)name[i];
        else shown += sprintf(shown, "\\x%02x", name[i]);
    }
    *shown = 0;
}
