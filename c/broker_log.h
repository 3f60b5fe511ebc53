/* The log: lines on standard error. */
#ifndef BROKER_LOG_H
#define BROKER_LOG_H

#include <stddef.h>
#include <stdint.h>
#include <sys/socket.h>

/* Says a line, unless --quiet is set. */
void say(const char *format, ...);

/* Ends the program, since this failed, with errno and status 1. */
_Noreturn void fail(const char *what);

/* Says what becomes of the connection of a number, with its address. */
void say_address(uint64_t number, const struct sockaddr_storage *a, socklen_t len, const char *what);

/* Says that the connection of a number is lost, by its peer, which is no fault, or by a fault. */
void say_lost(uint64_t number, int fault);

/* The bytes of a name as a text, those that aren't plain as \xNN: four characters for each byte at most, and the end. */
void show_name(const uint8_t *name, size_t len, char *shown);

#endif
