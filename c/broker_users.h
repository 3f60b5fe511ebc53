/* Who may connect. */
#ifndef BROKER_USERS_H
#define BROKER_USERS_H

#include <stddef.h>
#include <stdint.h>

/* Reads a file of lines NAME:HASH, each a name and the hash of a password as mkpasswd makes it, and tries each hash once; empty
   lines, and those that begin with #, are passed over. Ends the program where the file can't be read, or a line of it isn't that. */
void users_read(const char *file);

/* The name of a user, or NULL where there is none of that number; and the number of the one of a name, or one that no user has. Users
   are numbered from 0, as they stand in the file. */
const char *users_name(size_t user);
size_t users_find(const uint8_t *name, size_t len);

/* Whether there is a user of this name and password, and its number then. For a name that there isn't it takes as long as for the user
   whose hash takes the longest. */
enum judgement { UNKNOWN, KNOWN, NO_MEMORY };
enum judgement users_judge(
    const uint8_t *name, size_t name_len, const uint8_t *password, size_t password_len, size_t *number);

#endif
