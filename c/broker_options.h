/* What an operator sets, by the words of the command. */
#ifndef BROKER_OPTIONS_H
#define BROKER_OPTIONS_H

#include <stdbool.h>
#include <sys/socket.h>

struct options {
    unsigned long port, most, longest, ids, wait_for; /* most connections, the longest packet, messages in flight, and seconds */
    unsigned long alias_max, keep_alive_max;          /* the greatest alias, and seconds */
    unsigned long clients, subscriptions, shared, retained, queued, queued_bytes;
    const char *bound, *users, *rights; /* an address, and files or NULL */
    bool oldest, quiet; /* of long queues the oldest messages are dropped; no log */
};
extern struct options options;

/* Takes the words in, and ends the program where one is wrong, or asks for help. */
void read_options(char **words);

/* Has as many files as connections, or ends the program. */
void raise_files(void);

/* The address to listen at, which is one that only this machine reaches unless there are users. */
socklen_t find_address(struct sockaddr_storage *a);

/* Says why a word isn't taken, and ends the program. */
_Noreturn void refuse(const char *word, const char *why);

#endif
