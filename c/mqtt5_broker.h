/* An MQTT 5.0 broker without sockets and without a clock: bytes of connections come in, bytes for connections go out. A
   connection is a number of the caller's, below the count that the broker was made for; a moment is a number of
   milliseconds of any clock that doesn't go back. docs/BROKER.md says how it is linked and what the caller owes. */
#ifndef MQTT5_BROKER_H
#define MQTT5_BROKER_H

#include <stdbool.h>
#include <stddef.h>
#include <stdint.h>

#ifdef __cplusplus
extern "C" {
#endif

/* What every call answers. A call writes to a place of the caller's, as `begun` or `buffer`, only where it answers 0. */
enum {
    MQTT5_BROKER_DONE = 0,
    /* Memory was refused; each call says what is to be done then. The handle has its broker all the same, if it had one. */
    MQTT5_BROKER_OUT_OF_MEMORY = 12,
    /* The handle has no broker. */
    MQTT5_BROKER_NONE = 200,
    /* An argument isn't taken, and nothing changes: `ids` 0, a filter that is none, a user that there isn't. */
    MQTT5_BROKER_BAD_ARGUMENT = 201,
    /* mqtt5_broker_new of a handle that has a broker, which stays. */
    MQTT5_BROKER_THERE = 202
};

/* A place for a broker. All zero is a place without one. It is not copied while it has one. */
typedef struct {
    bool live;
    void *broker;
} mqtt5_broker;

/* Makes a broker in an empty handle, for connections of the numbers 0 to connections - 1. `longest` is the greatest
   remaining length of a packet that a client may send; `ids`, at least 1, how many publishes of QoS 1 and 2 a client is
   sent ahead of their acks at most; `wait` for how many milliseconds a connection may be open without a Connect, or 0 for
   any time; `alias_max` the greatest topic alias of a client, or 0 for none; `keep_alive_max` its longest keep alive in
   seconds, which one is told that asks for none or for a longer one, or 0 for any; and `first_name` the number of the
   first name that a client is given which says none: auto- and the number, and then the next. A name that comes again
   after a start of the program may be that of a client which still goes by it, so begin at another number each time.
   Where memory is refused the handle stays empty. */
uint32_t mqtt5_broker_new(mqtt5_broker *b, size_t connections, uint32_t longest, uint16_t ids, uint32_t wait, uint16_t alias_max,
    uint16_t keep_alive_max, uint64_t first_name);

/* What may be kept at most, from now on; before that there is no bound. How many clients are known at once, connected or away,
   and how many messages are retained: one more is refused with Quota exceeded (0x97), but a will is retained all the same, and
   as many clients are taken as there once were. How many subscriptions a client has, and how many filters of shared
   subscriptions there are, of all clients. How many publishes wait in its queue, and how many bytes these have as frames.
   Where more wait, mqtt5_broker_trim lets messages of QoS 0 at the front of the queue go, or with `oldest` the first of any
   QoS, and it ends the sessions of clients that have more all the same. A Subscribe of more filters than there may be
   subscriptions, that brings more shared ones which nobody has yet than there is room for, or of which the copies of retained
   messages may have no room in the queue, ends its connection by 0x97. */
uint32_t mqtt5_broker_bound(mqtt5_broker *b, size_t clients, size_t subscriptions, size_t shared, size_t retained,
    size_t queued, uint64_t bytes, bool oldest);

/* Lets the broker go, with all that it holds; the handle is empty again. */
uint32_t mqtt5_broker_free(mqtt5_broker *b);

/* A connection begins: `begun` tells whether it does, which it doesn't where one of that number is open, or where there is
   no such number. What was still to be sent on one that isn't open is dropped. */
uint32_t mqtt5_broker_open(mqtt5_broker *b, size_t connection, uint64_t at, bool *begun);

/* Takes bytes of a connection, in any pieces. Where memory is refused the connection is to be closed. */
uint32_t mqtt5_broker_receive(mqtt5_broker *b, size_t connection, const uint8_t *bytes, size_t len, uint64_t at);

/* Who wants to connect may be asked before the answer: bytes of a connection without a client are only held, then what they say
   is looked at, and then mqtt5_broker_receive takes them, also with no bytes more, or the client is turned away. Where memory
   is refused all is as before. */
uint32_t mqtt5_broker_hold(mqtt5_broker *b, size_t connection, const uint8_t *bytes, size_t len);

/* What mqtt5_broker_asks tells: nobody, where no whole Connect is held, or the connection has its client; a client that says no
   name and no password, or empty ones; and one that says at least one of them. */
enum { MQTT5_BROKER_NOBODY = 0, MQTT5_BROKER_UNNAMED = 1, MQTT5_BROKER_NAMED = 2 };

/* Copies the beginning of the name and of the password, as much as fits, and tells how many bytes; one that isn't said has none.
   Each has at most 65,535 bytes: a smaller buffer may cut it, which isn't told. */
uint32_t mqtt5_broker_asks(
    mqtt5_broker *b, size_t connection, uint32_t *asks, uint8_t *name, size_t name_len, size_t *name_count,
    uint8_t *password, size_t password_len, size_t *password_count);

/* Users. There is none at first. One more: `user` tells its number, counted from 0. It may neither publish nor subscribe to
   anything yet. Where memory is refused all is as before. */
uint32_t mqtt5_broker_add_user(mqtt5_broker *b, size_t *user);

/* What a user may do, from now on: publish to the topics that this topic filter matches; or subscribe to the filters that lie
   within this one, as a/+ and a/b do within a/#. A filter, or a topic, that begins with $ lies within none. Where memory is
   refused all is as before. */
uint32_t mqtt5_broker_allow_publish(mqtt5_broker *b, size_t user, const uint8_t *filter, size_t filter_len);
uint32_t mqtt5_broker_allow_subscribe(mqtt5_broker *b, size_t user, const uint8_t *filter, size_t filter_len);

/* The client of a connection that isn't connected yet will connect as this user; of one that is connected, or isn't open, nothing
   changes. What it may not do is answered with Not authorized (0x87), its Connect where its will is of that; a publish of QoS 0 is
   dropped. And it has sessions of that user alone: by the identifier of another's it is refused with Client Identifier not valid
   (0x85). Clients that connect as no user may do everything, but with sessions of no user. */
uint32_t mqtt5_broker_identify(mqtt5_broker *b, size_t connection, size_t user);

/* Turns a client away that isn't connected yet, with Bad User Name or Password (0x86) where `named` is true, and else with Not
   authorized (0x87). Nothing more of its connection is taken. It is for one of whom mqtt5_broker_asks tells UNNAMED or NAMED:
   before a Connect there is no answer (3.2). */
uint32_t mqtt5_broker_reject(mqtt5_broker *b, size_t connection, bool named);

/* Whether bytes of it are taken. Where none are, its output is to be sent, and then it is to be closed. */
uint32_t mqtt5_broker_is_open(mqtt5_broker *b, size_t connection, bool *is_open);

/* Copies the first bytes of what is to be sent on it, as many as fit, and tells how many. They stay until
   mqtt5_broker_sent. */
uint32_t mqtt5_broker_output(mqtt5_broker *b, size_t connection, uint8_t *buffer, size_t buffer_len, size_t *count);
uint32_t mqtt5_broker_sent(mqtt5_broker *b, size_t connection, size_t count);

/* The first publish of the queue of its client is taken out and goes into its output, if there is one and it may be sent; or it
   is only taken out, where it has expired at this moment (3.3.2.3.3). `some` tells whether either was done. One that is longer
   than the client takes isn't written. Where memory is refused the connection is to be closed. */
uint32_t mqtt5_broker_pass(mqtt5_broker *b, size_t connection, uint64_t at, bool *some);

/* The first client, from a number on, that is connected and has something in its queue: of any other connected one
   mqtt5_broker_pass passes nothing on, and takes nothing out. So who asks for the one behind each that it tells, until `some` says
   that there is none, needn't ask all. Where memory is refused all is as before, and the call may be made again. */
uint32_t mqtt5_broker_next_waiting(mqtt5_broker *b, size_t from, size_t *client, bool *some);

/* The number of its client, if `some` says that it has one. That has it as long as it is known, and then another one may. Numbers
   begin at 0, and none is given while a smaller one is free. */
uint32_t mqtt5_broker_number(mqtt5_broker *b, size_t connection, size_t *client, bool *some);

/* At this moment lets messages at the front of queues go in which more waits than may, those of QoS 0 (4.3.1), or of any QoS where
   mqtt5_broker_bound said so, and then ends the sessions of all clients for which more is kept all the same: those that are
   connected are told Quota exceeded (0x97), and no more bytes of them are taken. It looks at all that waits. Where memory is
   refused it may have done a part of that: the call may be made again. */
uint32_t mqtt5_broker_trim(mqtt5_broker *b, uint64_t at);

/* Tells how many messages mqtt5_broker_trim has let go of queues so far; those that go with a session that ends aren't among them. */
uint32_t mqtt5_broker_dropped(mqtt5_broker *b, uint64_t *count);

/* Its transport has ended, or was ended: its number is free. Where memory is refused all is as before, and the call may be
   made again. */
uint32_t mqtt5_broker_close(mqtt5_broker *b, size_t connection, uint64_t at);

/* All that is due at this moment happens: keep alive, wills with a delay, and sessions that end. Where memory is refused
   some of it may not have happened: the call may be made again. */
uint32_t mqtt5_broker_tick(mqtt5_broker *b, uint64_t at);

/* The first moment at which something is due, if `some` says that there is one. */
uint32_t mqtt5_broker_next_moment(mqtt5_broker *b, uint64_t *at, bool *some);

/* Tells each client that the broker ends (reason 0x8B), and takes no more bytes of any connection. Where memory is refused
   some may not be told: the call may be made again. */
uint32_t mqtt5_broker_shut_down(mqtt5_broker *b, uint64_t at);

/* Copies the beginning of the identifier of the connection's client, as much as fits, and tells how many bytes; 0 where
   it has no client. */
uint32_t mqtt5_broker_client(mqtt5_broker *b, size_t connection, uint8_t *buffer, size_t buffer_len, size_t *count);

#ifdef __cplusplus
}
#endif

#endif
