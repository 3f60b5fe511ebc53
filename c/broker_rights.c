/* What each user may publish and subscribe to, by a file in the form of mosquitto's acl_file. */
#define _POSIX_C_SOURCE 200809L
#include "broker_rights.h"
#include "broker_lines.h"
#include "broker_options.h"
#include "broker_users.h"

#include <errno.h>
#include <stdbool.h>
#include <stdio.h>
#include <stdlib.h>
#include <string.h>

static mqtt5_broker *broker;
static size_t user = SIZE_MAX; /* the one that the last line `user` names */

/* One user may publish or subscribe within a filter, or both. */
static void allow(size_t number, const char *filter, bool reads, bool writes) {
    const uint8_t *bytes = (const uint8_t *)filter;
    uint32_t done = MQTT5_BROKER_DONE;
    if (reads) done = mqtt5_broker_allow_subscribe(broker, number, bytes, strlen(filter));
    if (writes && done == MQTT5_BROKER_DONE) done = mqtt5_broker_allow_publish(broker, number, bytes, strlen(filter));
    if (done == MQTT5_BROKER_BAD_ARGUMENT) refuse_line("has no topic filter");
    if (done != MQTT5_BROKER_DONE) refuse("users", strerror(ENOMEM));
}

/* The filter of a pattern for a user: where a level is %u its name stands in its place. NULL for one whose name has what isn't part of a
   level. */
static char *filter_for(const char *pattern, const char *name) {
    size_t names = 0, len = strlen(name);
    for (const char *at = pattern; (at = strstr(at, "%u")); at += 2) {
        bool begins = at == pattern || at[-1] == '/', ends = at[2] == 0 || at[2] == '/';
        if (!begins || !ends) refuse_line("has %u within a level");
        names++;
    }
    if (names > 0 && strpbrk(name, "/+#")) return NULL;
    char *made = malloc(strlen(pattern) + names * len + 1), *end = made;
    if (!made) refuse("users", strerror(ENOMEM));
    while (*pattern) {
        if (!strncmp(pattern, "%u", 2)) {
            memcpy(end, name, len);
            end += len;
            pattern += 2;
        } else {
            *end++ = *pattern++;
        }
    }
    *end = 0;
    return made;
}

/* The rest of a line behind a word, if it begins with that. */
static char *behind(char *line, const char *word) {
    size_t len = strlen(word);
    if (strncmp(line, word, len) || (line[len] != ' ' && line[len] != '\t')) return NULL;
    return line + len + strspn(line + len, " \t");
}

/* What a line `topic` or `pattern` allows, and its filter. */
static char *access_of(char *rest, bool *reads, bool *writes) {
    char *filter;
    *reads = *writes = true;
    if (behind(rest, "deny")) refuse_line("has deny, which isn't taken: what no line allows is denied");
    if ((filter = behind(rest, "readwrite"))) return filter;
    if ((filter = behind(rest, "read"))) *writes = false;
    else if ((filter = behind(rest, "write"))) *reads = false;
    if (!filter && strpbrk(rest, " \t")) refuse_line("has none of read, write and readwrite before a filter with a blank");
    return filter ? filter : rest;
}

static void read_line(char *line) {
    char *rest;
    bool reads, writes;
    if (strchr(" \t\r", line[strlen(line) - 1])) refuse_line("ends with white space");
    if ((rest = behind(line, "user"))) {
        user = users_find((const uint8_t *)rest, strlen(rest));
        if (!users_name(user)) refuse_line("names a user that --users hasn't");
    } else if ((rest = behind(line, "topic"))) {
        rest = access_of(rest, &reads, &writes);
        if (!users_name(user)) refuse_line("stands before the first user: without a name nobody connects");
        allow(user, rest, reads, writes);
    } else if ((rest = behind(line, "pattern"))) {
        rest = access_of(rest, &reads, &writes);
        if (strstr(rest, "%c")) refuse_line("has %c, which isn't taken");
        for (size_t each = 0; users_name(each); each++) {
            char *filter = filter_for(rest, users_name(each));
            if (filter) allow(each, filter, reads, writes);
            free(filter);
        }
    } else {
        refuse_line("isn't user NAME, topic [read|write|readwrite] FILTER or pattern [read|write|readwrite] FILTER");
    }
}

void rights_read(mqtt5_broker *of, const char *file) {
    size_t number;
    broker = of;
    for (size_t each = 0; users_name(each); each++) {
        if (mqtt5_broker_add_user(broker, &number) != MQTT5_BROKER_DONE || number != each) refuse("users", strerror(ENOMEM));
        if (!file) allow(each, "#", true, true);
    }
    if (file) each_line(file, read_line);
}
