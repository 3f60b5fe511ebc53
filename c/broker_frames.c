/* Follows the frames that are sent on a connection (MQTT 5.0 section 2.1), and has the names of reasons. */
#include "broker_frames.h"

/* From 0x80 on, by number. */
static const char *const reasons[] = {
    "Unspecified error", "Malformed Packet", "Protocol Error", "Implementation specific error",
    "Unsupported Protocol Version", "Client Identifier not valid", "Bad User Name or Password", "Not authorized",
    "Server unavailable", "Server busy", "Banned", "Server shutting down", "Bad authentication method", "Keep Alive timeout",
    "Session taken over", "Topic Filter invalid", "Topic Name invalid", "reason", "reason", "Receive Maximum exceeded",
    "Topic Alias invalid", "Packet too large", "Message rate too high", "Quota exceeded", "Administrative action",
    "Payload format invalid", "Retain not supported", "QoS not supported", "Use another server", "Server moved",
    "Shared Subscriptions not supported", "Connection rate exceeded", "Maximum connect time",
    "Subscription Identifiers not supported", "Wildcard Subscriptions not supported",
};

const char *reason_name(int reason) {
    int i = reason - 0x80;
    return i >= 0 && i < (int)(sizeof reasons / sizeof *reasons) ? reasons[i] : "reason";
}

/* A byte of the body of a packet that is sent. The reason of a ConnAck is the second one (3.2.2.2), and that of a Disconnect the first
   (3.14.2.1). That of a PubAck and a PubRec is the third (3.4.2, 3.5.2), and a SubAck, which has no properties here, has codes from the
   fourth on (3.9.3). Of a publish of QoS 0 that is denied nothing is sent. */
static void note(struct frames *f, uint8_t byte) {
    unsigned kind = f->first >> 4, at = f->at;
    if ((kind == 2 && at == 1) || (kind == 14 && at == 0)) f->reason = byte;
    if (byte == 0x87 && (((kind == 4 || kind == 5) && at == 2) || (kind == 9 && at >= 3))) f->denied = true;
}

/* A Disconnect without a body has reason 0 (3.14.2.1). */
bool follow_frames(struct frames *f, const uint8_t *bytes, size_t len) {
    bool was_denied = f->denied;
    for (size_t i = 0; i < len;) {
        if (f->part == BODY && f->at >= 2 && (f->denied || f->first >> 4 == 3)) {
            size_t rest = f->length - f->at, step = rest < len - i ? rest : len - i;
            f->at += (uint32_t)step;
            i += step;
        } else if (f->part == BODY) {
            note(f, bytes[i++]);
            f->at++;
        } else if (f->part == LENGTH) {
            f->length |= (uint32_t)(bytes[i] & 127) << f->shift;
            f->shift += 7;
            if (bytes[i++] < 128) f->part = BODY;
        } else {
            f->first = bytes[i++];
            f->length = f->at = f->shift = 0;
            f->part = LENGTH;
        }
        if (f->part == BODY && f->at == f->length) {
            if (f->first >> 4 == 14 && f->length == 0) f->reason = 0;
            f->part = FIRST_BYTE;
        }
    }
    return f->denied && !was_denied;
}
