/* Linked with the server of c/broker.c, with --wrap of the calls below, this answers one in ten of the first 1,500 of them as where
   memory is refused, in an order that is the same each time. */
#include "../c/mqtt5_broker.h"

static bool is_refused(void) {
    static uint32_t calls, chance = 5;
    chance = chance * 1664525 + 1013904223;
    return ++calls <= 1500 && (chance >> 8) % 10 == 0;
}

#define WRAP(name, words, values)                                                    \
    uint32_t __real_mqtt5_broker_##name words;                                       \
    uint32_t __wrap_mqtt5_broker_##name words {                                      \
        return is_refused() ? MQTT5_BROKER_OUT_OF_MEMORY : __real_mqtt5_broker_##name values; \
    }

WRAP(receive, (mqtt5_broker *b, size_t c, const uint8_t *bytes, size_t len, uint64_t at), (b, c, bytes, len, at))
WRAP(hold, (mqtt5_broker *b, size_t c, const uint8_t *bytes, size_t len), (b, c, bytes, len))
WRAP(asks,
    (mqtt5_broker *b, size_t c, uint32_t *asks, uint8_t *name, size_t name_len, size_t *name_count, uint8_t *password,
     size_t password_len, size_t *password_count),
    (b, c, asks, name, name_len, name_count, password, password_len, password_count))
WRAP(reject, (mqtt5_broker *b, size_t c, bool named), (b, c, named))
WRAP(pass, (mqtt5_broker *b, size_t c, uint64_t at, bool *some), (b, c, at, some))
WRAP(next_waiting, (mqtt5_broker *b, size_t from, size_t *client, bool *some), (b, from, client, some))
WRAP(close, (mqtt5_broker *b, size_t c, uint64_t at), (b, c, at))
WRAP(tick, (mqtt5_broker *b, uint64_t at), (b, at))
WRAP(trim, (mqtt5_broker *b, uint64_t at), (b, at))
