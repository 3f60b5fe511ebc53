"""The C library, by ctypes: its structures, its calls and what they answer. docs/C.md has them in words."""

import ctypes as c
import ctypes.util
import functools
import os
from pathlib import Path

# What a call answers.
AWAITS_PING = 3
PACKET_TOO_LARGE = 9
BAD_ARGUMENT = 201
SMALL_BUFFER = 203
ABSENT = 204

# The kinds of an event, and the types of packets (MQTT 5.0 section 2.1.2).
CAME = 1
CONNACK, PUBLISH, PUBACK, PUBREC, PUBCOMP, SUBACK, UNSUBACK, DISCONNECT, AUTH = 2, 3, 4, 5, 7, 9, 11, 14, 15

# Reason codes (2.4): of an exchange of authentication data that goes on, of one that begins anew, and of a protocol error.
CONTINUE, REAUTHENTICATE, PROTOCOL_ERROR = 24, 25, 130


class Handle(c.Structure):
    """All zero is one without a client. Never copied."""

    _fields_ = [("live", c.c_bool), ("client", c.c_void_p)]


class EventInfo(c.Structure):
    """An event, or a request that was let go, as numbers."""

    _fields_ = (
        [(name, c.c_uint32) for name in ("kind", "packet", "pkid", "code", "qos")]
        + [(name, c.c_bool) for name in ("dup", "retain", "session_present")]
        + [(name, c.c_size_t) for name in ("topic_len", "payload_len")]
    )


def _number(kind):
    """A type of C that takes no number which is too large for it, of which ctypes would take the lower bits."""

    class Number(kind):
        @classmethod
        def from_param(cls, value):
            if not 0 <= value < 1 << 8 * c.sizeof(kind):
                raise ValueError(f"{value} is no number of {8 * c.sizeof(kind)} bits")
            return kind(value)

    return Number


U8, U16, U32, U64 = (_number(kind) for kind in (c.c_uint8, c.c_uint16, c.c_uint32, c.c_uint64))
BYTES = [c.c_char_p, c.c_size_t]
COUNT = [c.POINTER(c.c_size_t)]
MOMENT = [U64]
CALLS = {
    "new": [U16, c.c_bool],
    "free": [],
    "forget": [],
    "add_number": [U32, U32],
    "add_bytes": [U32] + BYTES,
    "add_pair": BYTES + BYTES,
    "add_filter": BYTES + [U8, c.c_bool, c.c_bool, U8],
    "set_login": BYTES + BYTES,
    "set_will": BYTES + BYTES + [U8, c.c_bool],
    "connect": BYTES + [U16, c.c_bool, U32],
    "receive": BYTES + MOMENT,
    "output": BYTES + COUNT,
    "sent": [c.c_size_t],
    "publish": BYTES + BYTES + [U8, c.c_bool] + MOMENT,
    "subscribe_all": MOMENT,
    "unsubscribe": BYTES + MOMENT,
    "next_id": [c.POINTER(c.c_uint16)],
    "may_publish": [c.POINTER(c.c_bool)],
    "ping": MOMENT,
    "disconnect_with": [U8] + MOMENT,
    "auth": [U8] + MOMENT,
    "next_event": [c.POINTER(EventInfo)] + BYTES + BYTES,
    "event_number": [U32, c.POINTER(c.c_uint32)],
    "event_bytes": [U32] + BYTES + COUNT,
    "event_pair": [c.c_size_t] + BYTES + COUNT + BYTES + COUNT,
    "event_subscription": [c.c_size_t] + COUNT,
    "event_reason": [c.c_size_t, c.POINTER(c.c_uint8)],
    "take_up": [c.c_bool] + MOMENT + COUNT,
    "next_dropped": [c.POINTER(EventInfo)] + BYTES + BYTES,
    "dropped_number": [U32, c.POINTER(c.c_uint32)],
    "dropped_bytes": [U32] + BYTES + COUNT,
    "dropped_pair": [c.c_size_t] + BYTES + COUNT + BYTES + COUNT,
    "save": BYTES + COUNT,
    "load": BYTES,
}


def _file():
    """Where BISTORTPOST_LIBRARY says, beside this package, or where the system finds it."""
    beside = Path(__file__).with_name("libmqtt5_c.so")
    named = os.environ.get("BISTORTPOST_LIBRARY") or (str(beside) if beside.exists() else None)
    found = named or ctypes.util.find_library("mqtt5_c")
    if not found:
        raise OSError("no libmqtt5_c.so: build it, and name it by BISTORTPOST_LIBRARY")
    return found


@functools.cache
def calls():
    """The calls by their names, each of a handle first."""
    library = c.CDLL(_file())
    by_name = {}
    for name, parameters in CALLS.items():
        call = getattr(library, f"mqtt5_client_{name}")
        call.argtypes, call.restype = [c.POINTER(Handle), *parameters], c.c_uint32
        by_name[name] = call
    return by_name
