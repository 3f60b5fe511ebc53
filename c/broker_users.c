/* Who may connect. The hashes are judged by libcrypt alone. */
#define _GNU_SOURCE
#include "broker_users.h"
#include "broker_lines.h"
#include "broker_options.h"

#include <crypt.h>
#include <errno.h>
#include <stdio.h>
#include <stdlib.h>
#include <string.h>
#include <time.h>

struct user {
    char *name, *hash;
};
static struct user *users;
static size_t count, dearest; /* the number of the one whose hash takes the longest */
static struct crypt_data room;

/* The methods that take every byte of a password, and a salt: yescrypt, scrypt, bcrypt, and SHA-512 and SHA-256 in rounds. */
static const char *const methods[] = {"$y$", "$gy$", "$7$", "$2b$", "$2y$", "$6$", "$5$"};

const char *users_name(size_t user) { return user < count ? users[user].name : NULL; }

size_t users_find(const uint8_t *name, size_t len) {
    size_t i = 0;
    while (i < count && (strlen(users[i].name) != len || memcmp(users[i].name, name, len))) i++;
    return i;
}

static bool is_method(const char *hash) {
    for (size_t i = 0; i < sizeof methods / sizeof *methods; i++) {
        if (!strncmp(hash, methods[i], strlen(methods[i]))) return true;
    }
    return false;
}

/* What a hash makes of a password, or NULL. */
static const char *hashed(const char *password, const char *hash) {
    const char *made = crypt_r(password, hash, &room);
    return made && *made != '*' && strlen(made) == strlen(hash) ? made : NULL;
}

static void read_line(char *line) {
    static double longest;
    struct timespec from, to;
    char *colon = strchr(line, ':');
    if (!colon || colon == line) refuse_line("isn't NAME:HASH");
    *colon = 0;
    if (strchr(" \t", *line) || strchr(" \t\r", colon[-1])) refuse_line("has a name that begins or ends with white space");
    if (users_find((const uint8_t *)line, strlen(line)) < count) refuse_line("has a name that another line has");
    clock_gettime(CLOCK_PROCESS_CPUTIME_ID, &from);
    if (!is_method(colon + 1) || !hashed("", colon + 1)) refuse_line("has no hash of a method that is taken");
    clock_gettime(CLOCK_PROCESS_CPUTIME_ID, &to);
    double took = (double)(to.tv_sec - from.tv_sec) + (double)(to.tv_nsec - from.tv_nsec) / 1e9;
    if (took > longest) {
        longest = took;
        dearest = count;
    }
    users = realloc(users, (count + 1) * sizeof *users);
    if (users) users[count] = (struct user){strdup(line), strdup(colon + 1)};
    if (!users || !users[count].name || !users[count].hash) refuse("--users", strerror(ENOMEM));
    count++;
}

void users_read(const char *file) {
    each_line(file, read_line);
    if (count == 0) refuse(file, "has no user");
}

enum judgement users_judge(
    const uint8_t *name, size_t name_len, const uint8_t *password, size_t password_len, size_t *number) {
    char words[CRYPT_MAX_PASSPHRASE_SIZE];
    size_t user = users_find(name, name_len), len = password_len < sizeof words ? password_len : sizeof words - 1;
    const char *hash = users[user < count ? user : dearest].hash, *made;
    memcpy(words, password, len);
    words[len] = 0;
    /* (a password that is longer, or has a zero byte, is nobody's: libcrypt takes none) */
    bool is_whole = strlen(words) == password_len;
    made = hashed(words, hash);
    explicit_bzero(words, sizeof words);
    if (!made) return NO_MEMORY;
    unsigned differs = 0;
    for (size_t i = 0; hash[i]; i++) differs |= (unsigned char)(made[i] ^ hash[i]);
    *number = user;
    return user < count && is_whole && differs == 0 ? KNOWN : UNKNOWN;
}
