/* Files that are read once, at the start, line by line. */
#define _POSIX_C_SOURCE 200809L
#include "broker_lines.h"
#include "broker_options.h"

#include <errno.h>
#include <stdio.h>
#include <stdlib.h>
#include <string.h>

static const char *name;
static size_t number;

_Noreturn void refuse_line(const char *why) {
    char words[160];
    snprintf(words, sizeof words, "line %zu %s", number, why);
    refuse(name, words);
}

void each_line(const char *file, void (*take)(char *line)) {
    FILE *from = fopen(file, "r");
    char *line = NULL;
    size_t size = 0;
    ssize_t len;
    name = file;
    if (!from) refuse(file, strerror(errno));
    for (number = 1; errno = 0, (len = getline(&line, &size, from)) >= 0; number++) {
        if (len > 0 && line[len - 1] == '\n') line[--len] = 0;
        if (strlen(line) != (size_t)len) refuse_line("has a zero byte");
        if (len > 0 && line[0] != '#') take(line);
    }
    if (errno || ferror(from)) refuse(file, strerror(errno));
    free(line);
    fclose(from);
}
