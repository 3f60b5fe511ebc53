/* What each user may publish and subscribe to. */
#ifndef BROKER_RIGHTS_H
#define BROKER_RIGHTS_H

#include "mqtt5_broker.h"

/* Makes the users known to the broker, by the numbers that users_name has, and what each may do: what a file says of it, in the form
   of mosquitto's acl_file, and without a file everything but what begins with $. Ends the program where the file can't be read, or a
   line of it isn't taken. */
void rights_read(mqtt5_broker *broker, const char *file);

#endif
