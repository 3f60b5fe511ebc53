// Loaded before the C library, this refuses the request for memory whose number is in REFUSED, counted from 1, and
// tells on standard error how many requests there were.
#include <errno.h>
#include <stdio.h>
#include <stdlib.h>
#include <unistd.h>

extern void *__libc_malloc(size_t size);
extern void *__libc_realloc(void *old, size_t size);

static unsigned long made, refused;

__attribute__((constructor)) static void start(void) {
    const char *word = getenv("REFUSED");
    refused = word ? strtoul(word, NULL, 10) : 0;
    made = 0;
}

__attribute__((destructor)) static void tell(void) {
    char line[32];
    int length = snprintf(line, sizeof line, "%lu\n", made);
    if (write(STDERR_FILENO, line, (size_t)length) != length) _exit(3);
}

static int is_refused(void) {
    made++;
    if (made != refused) return 0;
    errno = ENOMEM;
    return 1;
}

void *malloc(size_t size) { return is_refused() ? NULL : __libc_malloc(size); }

void *realloc(void *old, size_t size) { return is_refused() ? NULL : __libc_realloc(old, size); }
