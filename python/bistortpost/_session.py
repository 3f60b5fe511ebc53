"""One client of the library: bytes that came in and requests go in, bytes to send and events come out."""

from __future__ import annotations

import ctypes as c
import weakref
from dataclasses import dataclass, field

from . import _library as library
from .errors import Fault
from .values import BINARY, IDENTIFIERS, PAIRS, TEXTS, Message, Properties, Subscription, Will

# How many bytes are taken out of the output at a time.
PIECE = 65536
# The most bytes of a text (MQTT 5.0 section 1.5.4).
LONGEST = 65535
SUBSCRIPTION_IDENTIFIER, USER_PROPERTY = IDENTIFIERS["subscription_identifier"], IDENTIFIERS["user_property"]


@dataclass
class Settings:
    """What a Connect says (MQTT 5.0 section 3.1)."""

    client_id: str = ""
    username: str = ""
    password: str = ""
    will: Will | None = None
    keep_alive: int = 60
    clean_start: bool = True
    session_expiry_interval: int = 0
    properties: Properties | None = None


@dataclass
class Event:
    """A packet that came, with its reason codes and its properties; of a Publish the message."""

    packet: int
    pkid: int
    session_present: bool = False
    reasons: list[int] = field(default_factory=list)
    properties: Properties = field(default_factory=Properties)
    message: Message | None = None


@dataclass
class Dropped:
    """What a session let go under a packet identifier: a message; or None, the release of one that the broker has."""

    pkid: int
    message: Message | None


class Session:
    def __init__(self, limit: int):
        self._handle = Handle = library.Handle()
        self._calls = library.calls()
        self._done("new", limit, False)
        # (not at the interpreter's end, when a thread may still be within a call)
        weakref.finalize(self, self._calls["free"], c.byref(Handle)).atexit = False

    def _ask(self, name, *arguments):
        try:
            return self._calls[name](c.byref(self._handle), *arguments)
        except c.ArgumentError as error:
            raise Fault(library.BAD_ARGUMENT, str(error)) from None

    def _done(self, name, *arguments, texts=()):
        """Fault where the call is refused, which says so of the first of these texts that no packet can say."""
        code = self._ask(name, *arguments)
        if code:
            raise Fault(code, next((f"{what} is over {LONGEST} bytes" for what, n in texts if n > LONGEST), None))

    # ---- Requests.

    def connect(self, settings: Settings):
        """The output becomes the Connect of these settings."""
        self._begin()
        self._done("set_login", *_bytes(settings.username), *_bytes(settings.password))
        will = settings.will
        if will:
            self._add(will.properties)
            self._done("set_will", *_bytes(will.topic), *_bytes(will.payload), will.qos, will.retain)
        self._add(settings.properties)
        self._done(
            "connect",
            *_bytes(settings.client_id),
            settings.keep_alive,
            settings.clean_start,
            settings.session_expiry_interval,
            texts=[("the will's topic", _bytes(will.topic)[1])] if will else [],
        )

    def publish(self, topic, payload, qos, retain, properties, at) -> int:
        """The packet identifier, 0 at QoS 0."""
        pkid = self.next_id() if qos else 0
        self._begin()
        self._add(properties)
        name = _bytes(topic)
        self._done("publish", *name, *_bytes(payload), qos, retain, at, texts=[("the topic", name[1])])
        return pkid

    def subscribe(self, subscriptions: list[Subscription], properties, at) -> int:
        pkid = self.next_id()
        self._begin()
        for s in subscriptions:
            options = s.qos, s.no_local, s.retain_as_published, s.retain_handling
            self._done("add_filter", *_bytes(s.filter), *options, texts=_filter(s.filter))
        self._add(properties)
        self._done("subscribe_all", at, texts=[text for s in subscriptions for text in _filter(s.filter)])
        return pkid

    def unsubscribe(self, topic_filter, properties, at) -> int:
        pkid = self.next_id()
        self._begin()
        self._add(properties)
        self._done("unsubscribe", *_bytes(topic_filter), at, texts=_filter(topic_filter))
        return pkid

    def ping(self, at):
        self._done("ping", at)

    def disconnect(self, reason, properties, at):
        self._begin()
        self._add(properties)
        self._done("disconnect_with", reason, at)

    def auth(self, reason, properties, at):
        self._begin()
        self._add(properties)
        self._done("auth", reason, at)

    def take_up(self, session_present, at) -> list[Dropped]:
        """What the session lets go on the new connection: with the broker's session the messages over its limit, without it
        all. The events of the ConnAck were taken out before."""
        self._done("take_up", session_present, at, c.byref(c.c_size_t()))
        return list(iter(self._next_dropped, None))

    def _next_dropped(self) -> Dropped | None:
        """The oldest request that was let go, taken out; None where there is none."""
        info, properties = library.EventInfo(), self._properties("dropped")
        if self._ask("next_dropped", c.byref(info), b"", 0, b"", 0) == library.SMALL_BUFFER:
            return Dropped(info.pkid, self._message("next_dropped", info, properties))
        if info.packet == library.PUBLISH:
            return Dropped(info.pkid, _message(info, b"", b"", properties))
        return Dropped(info.pkid, None) if info.kind else None

    def may_publish(self) -> bool:
        may = c.c_bool()
        self._done("may_publish", c.byref(may))
        return may.value

    def next_id(self) -> int:
        """The packet identifier that the next publish of QoS 1 or 2, subscribe or unsubscribe gets."""
        pkid = c.c_uint16()
        self._done("next_id", c.byref(pkid))
        return pkid.value

    def _begin(self):
        """Empties the lists of properties and filters, in which those of a packet that was refused may stand. (The login
        and the will go too: each Connect sets them anew.)"""
        self._done("forget")

    def _add(self, properties: Properties | None):
        for name, identifier in IDENTIFIERS.items() if properties else ():
            value = getattr(properties, name)
            for item in value if isinstance(value, list) else [] if value is None else [value]:
                self._add_one(identifier, item)

    def _add_one(self, identifier, value):
        if identifier in PAIRS:
            self._done("add_pair", *_bytes(value[0]), *_bytes(value[1]))
        elif identifier in TEXTS or identifier in BINARY:
            self._done("add_bytes", identifier, *_bytes(value))
        else:
            self._done("add_number", identifier, value)

    # ---- Bytes.

    def receive(self, data: bytes, at):
        self._done("receive", data, len(data), at)

    def output(self) -> bytes:
        """All that is to be sent, taken out."""
        room, count, pieces = c.create_string_buffer(PIECE), c.c_size_t(), []
        while True:
            self._done("output", room, len(room), c.byref(count))
            if not count.value:
                return b"".join(pieces)
            pieces.append(room.raw[: count.value])
            self._done("sent", count.value)

    # ---- Events.

    def events(self):
        """The events of what came, oldest first, each taken out."""
        while True:
            reasons = self._reasons()
            properties = self._properties("event") if reasons else None
            info = library.EventInfo()
            message = None
            if self._ask("next_event", c.byref(info), b"", 0, b"", 0) == library.SMALL_BUFFER:
                message = self._message("next_event", info, self._properties("event"))
            if info.kind == 0:
                return
            if info.kind == library.CAME:
                yield Event(
                    info.packet, info.pkid, info.session_present, reasons, properties or Properties(), message
                )

    def _message(self, call, info, properties) -> Message:
        """The Publish that was told of as numbers, taken out by this call."""
        topic, payload = (c.create_string_buffer(max(n, 1)) for n in (info.topic_len, info.payload_len))
        self._done(call, c.byref(info), topic, info.topic_len, payload, info.payload_len)
        return _message(info, topic.raw[: info.topic_len], payload.raw[: info.payload_len], properties)

    def _reasons(self):
        reason, reasons = c.c_uint8(), []
        while self._ask("event_reason", len(reasons), c.byref(reason)) == 0:
            reasons.append(reason.value)
        return reasons

    def _properties(self, of) -> Properties:
        """The properties of the oldest `event`, or of the oldest request that was `dropped`."""
        subscriptions = self._subscriptions() if of == "event" else []
        properties = Properties(subscription_identifier=subscriptions, user_property=self._pairs(of))
        for name, identifier in IDENTIFIERS.items():
            if identifier in (SUBSCRIPTION_IDENTIFIER, USER_PROPERTY):
                continue
            if identifier in TEXTS or identifier in BINARY:
                value = self._bytes_of(of, identifier)
                if value is not None and identifier in TEXTS:
                    value = value.decode()
            else:
                value = self._number_of(of, identifier)
            setattr(properties, name, value)
        return properties

    def _number_of(self, of, identifier):
        number = c.c_uint32()
        return number.value if self._ask(f"{of}_number", identifier, c.byref(number)) == 0 else None

    def _bytes_of(self, of, identifier):
        count = c.c_size_t()
        code = self._ask(f"{of}_bytes", identifier, b"", 0, c.byref(count))
        if code not in (0, library.SMALL_BUFFER):
            return None
        room = c.create_string_buffer(max(count.value, 1))
        self._done(f"{of}_bytes", identifier, room, count.value, c.byref(count))
        return room.raw[: count.value]

    def _pairs(self, of):
        pairs, name_count, value_count = [], c.c_size_t(), c.c_size_t()
        while True:
            counts = c.byref(name_count), c.byref(value_count)
            code = self._ask(f"{of}_pair", len(pairs), b"", 0, counts[0], b"", 0, counts[1])
            if code not in (0, library.SMALL_BUFFER):
                return pairs
            name, value = (c.create_string_buffer(max(n.value, 1)) for n in (name_count, value_count))
            sizes = name_count.value, value_count.value
            self._done(f"{of}_pair", len(pairs), name, sizes[0], counts[0], value, sizes[1], counts[1])
            pairs.append((name.raw[: sizes[0]].decode(), value.raw[: sizes[1]].decode()))

    def _subscriptions(self):
        identifiers, identifier = [], c.c_size_t()
        while self._ask("event_subscription", len(identifiers), c.byref(identifier)) == 0:
            identifiers.append(identifier.value)
        return identifiers


def _message(info, topic: bytes, payload: bytes, properties) -> Message:
    text = topic.decode(errors="surrogateescape")
    return Message(text, payload, info.qos, info.retain, info.dup, properties)


def _bytes(value) -> tuple[bytes, int]:
    """A text or bytes, with the length in bytes."""
    if isinstance(value, str):
        data = value.encode(errors="surrogateescape")
    elif isinstance(value, (bytes, bytearray, memoryview)):
        data = bytes(value)
    else:
        raise TypeError(f"neither text nor bytes: {value!r}")
    return data, len(data)


def _filter(topic_filter) -> list[tuple[str, int]]:
    return [("the topic filter", _bytes(topic_filter)[1])]
