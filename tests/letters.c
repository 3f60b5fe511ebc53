/* A plugin of mosquitto: extended authentication (MQTT 5.0 section 4.12) by the method "letters". Of a client that begins with
   the letter a or d the next letter is given, and the one after that is wanted. */
#include <mosquitto.h>
#include <mosquitto_broker.h>
#include <mosquitto_plugin.h>
#include <stdint.h>
#include <string.h>

static mosquitto_plugin_id_t *plugin;

/* The only letter that came; 0 where it isn't one. */
static uint8_t letter_of(const struct mosquitto_evt_extended_auth *auth) {
    return auth->data_in_len == 1 ? *(const uint8_t *)auth->data_in : 0;
}

static int begin(int event, void *data, void *user) {
    (void)event, (void)user;
    struct mosquitto_evt_extended_auth *auth = data;
    uint8_t letter = letter_of(auth);
    if (strcmp(auth->auth_method, "letters") != 0 || (letter != 'a' && letter != 'd')) return MOSQ_ERR_AUTH;
    /* (the broker lets it go) */
    uint8_t *next = mosquitto_malloc(1);
    if (next == NULL) return MOSQ_ERR_NOMEM;
    *next = (uint8_t)(letter + 1);
    auth->data_out = next;
    auth->data_out_len = 1;
    return MOSQ_ERR_AUTH_CONTINUE;
}

/* (mosquitto 2.0.11 says no method here) */
static int go_on(int event, void *data, void *user) {
    (void)event, (void)user;
    uint8_t letter = letter_of(data);
    return letter == 'c' || letter == 'f' ? MOSQ_ERR_SUCCESS : MOSQ_ERR_AUTH;
}

int mosquitto_plugin_version(int count, const int *versions) {
    for (int i = 0; i < count; i++)
        if (versions[i] == 5) return 5;
    return -1;
}

int mosquitto_plugin_init(mosquitto_plugin_id_t *id, void **user, struct mosquitto_opt *options, int count) {
    (void)user, (void)options, (void)count;
    plugin = id;
    int failed = mosquitto_callback_register(id, MOSQ_EVT_EXT_AUTH_START, begin, NULL, NULL);
    return failed ? failed : mosquitto_callback_register(id, MOSQ_EVT_EXT_AUTH_CONTINUE, go_on, NULL, NULL);
}

int mosquitto_plugin_cleanup(void *user, struct mosquitto_opt *options, int count) {
    (void)user, (void)options, (void)count;
    mosquitto_callback_unregister(plugin, MOSQ_EVT_EXT_AUTH_START, begin, NULL);
    mosquitto_callback_unregister(plugin, MOSQ_EVT_EXT_AUTH_CONTINUE, go_on, NULL);
    return MOSQ_ERR_SUCCESS;
}
