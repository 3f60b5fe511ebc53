/* Follows the frames that are sent on a connection, to know why it ends, and what is denied. */
#ifndef BROKER_FRAMES_H
#define BROKER_FRAMES_H

#include <stdbool.h>
#include <stddef.h>
#include <stdint.h>

/* The frame that is being sent, as far as it is known, and the last reason that was sent in a ConnAck or a Disconnect. All is 0 at first,
   and the reason -1. */
struct frames {
    enum { FIRST_BYTE, LENGTH, BODY } part;
    uint8_t first;
    uint32_t length, at;
    unsigned shift;
    int reason;
    bool denied; /* whether a publish or a filter was */
};

/* These bytes are sent. Whether that is the first time that something is denied. */
bool follow_frames(struct frames *f, const uint8_t *bytes, size_t len);

/* The name of a reason from 0x80 on (MQTT 5.0 section 2.4). */
const char *reason_name(int reason);

#endif
