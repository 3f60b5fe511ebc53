"""A client of MQTT 5.0 over a socket of its own, for tests/broker_rows.py: its frames are laid out by hand from the standard, and
what comes is parted by hand."""

import asyncio
import socket
import struct
from dataclasses import dataclass

# How many seconds a packet may take.
PATIENCE = 10

CONNACK, PUBLISH, PUBACK, PUBREC, PUBREL, PUBCOMP = 2, 3, 4, 5, 6, 7
SUBACK, UNSUBACK, PINGRESP, DISCONNECT = 9, 11, 13, 14


def number(n):
    """A variable byte integer (1.5.5)."""
    out = b""
    while True:
        n, low = divmod(n, 128)
        out += bytes([low | (128 if n else 0)])
        if not n:
            return out


def text(s):
    """A text or bytes behind their length (1.5.4, 1.5.6)."""
    s = s.encode() if isinstance(s, str) else s
    return struct.pack(">H", len(s)) + s


def frame(first, body):
    return bytes([first]) + number(len(body)) + body


def block(properties):
    """Properties behind their length (2.2.2)."""
    return number(len(properties)) + properties


def expiry(seconds):
    """A Session Expiry Interval (3.1.2.11.2, 3.14.2.2.2)."""
    return b"\x11" + struct.pack(">I", seconds)


def receive_maximum(n):
    return b"\x21" + struct.pack(">H", n)


def longest_packet(n):
    """A Maximum Packet Size (3.1.2.11.4)."""
    return b"\x27" + struct.pack(">I", n)


def message_expiry(seconds):
    """A Message Expiry Interval (3.3.2.3.3, 3.1.3.2.4)."""
    return b"\x02" + struct.pack(">I", seconds)


def topic_alias(n):
    """A Topic Alias (3.3.2.3.4)."""
    return b"\x23" + struct.pack(">H", n)


def identifier(n):
    """A Subscription Identifier (3.3.2.3.8, 3.8.2.1.2)."""
    return b"\x0b" + number(n)


@dataclass
class Will:
    topic: str
    payload: bytes
    qos: int = 0
    retain: int = 0
    delay: int = 0
    properties: bytes = b""

    def body(self):
        delay = b"\x18" + struct.pack(">I", self.delay) if self.delay else b""
        return block(delay + self.properties) + text(self.topic) + text(self.payload)


def connect_frame(name, clean=True, keep=0, properties=b"", will=None, version=5, login=(None, None)):
    """A Connect (3.1); its login is a user name and a password, each of them or none."""
    flags = (2 if clean else 0) | (4 | will.qos << 3 | will.retain << 5 if will else 0)
    flags |= (128 if login[0] is not None else 0) | (64 if login[1] is not None else 0)
    body = text("MQTT") + struct.pack(">BBH", version, flags, keep) + (block(properties) if version == 5 else b"")
    body += text(name) + (will.body() if will else b"")
    return frame(0x10, body + b"".join(text(part) for part in login if part is not None))


def publish_frame(topic, payload, qos=0, retain=0, id=0, dup=0, properties=b""):
    """A Publish (3.3)."""
    body = text(topic) + (struct.pack(">H", id) if qos else b"") + block(properties) + payload
    return frame(0x30 | dup << 3 | qos << 1 | retain, body)


def subscribe_frame(id, filters, properties=b""):
    """A Subscribe (3.8): filters with their options, which are the QoS, 4 for No Local, 8 for Retain As Published, and 16 and 32
    for Retain Handling."""
    return frame(0x82, struct.pack(">H", id) + block(properties) + b"".join(text(f) + bytes([o]) for f, o in filters))


def ack_frame(kind, id):
    """A PubAck, PubRec, PubRel or PubComp of success (3.4 to 3.7)."""
    return frame(kind << 4 | (2 if kind == PUBREL else 0), struct.pack(">H", id))


def disconnect_frame(reason=0, properties=b""):
    """A Disconnect (3.14)."""
    return frame(0xE0, bytes([reason]) + block(properties) if reason or properties else b"")


class Cursor:
    def __init__(self, data):
        self.data, self.at = data, 0

    def take(self, count):
        self.at += count
        assert self.at <= len(self.data), f"{self.data.hex()} is cut short"
        return self.data[self.at - count:self.at]

    def short(self):
        return int.from_bytes(self.take(2), "big")

    def long(self):
        return int.from_bytes(self.take(4), "big")

    def text(self):
        return self.take(self.short())

    def number(self):
        out = shift = 0
        while True:
            byte = self.take(1)[0]
            out |= (byte & 127) << shift
            shift += 7
            if byte < 128:
                return out

    def block(self):
        return self.take(self.number())

    def rest(self):
        return self.take(len(self.data) - self.at)


# How the value of each property is laid out (2.2.2.2).
BYTES, SHORTS, LONGS = (0x01, 0x17, 0x19, 0x24, 0x25, 0x28, 0x29, 0x2A), (0x13, 0x21, 0x22, 0x23), (0x02, 0x11, 0x18, 0x27)


def properties_of(data):
    """Properties as a list of numbers and values."""
    at, out = Cursor(data), []
    while at.at < len(data):
        kind = at.number()
        if kind in BYTES:
            value = at.take(1)[0]
        elif kind in SHORTS:
            value = at.short()
        elif kind in LONGS:
            value = at.long()
        elif kind == 0x0B:
            value = at.number()
        else:
            value = (at.text(), at.text()) if kind == 0x26 else at.text()
        out.append((kind, value))
    return out


@dataclass
class Message:
    topic: str
    payload: bytes
    qos: int
    retain: int
    dup: int
    id: int
    properties: bytes

    def identifiers(self):
        """The identifiers of the subscriptions that it comes for (3.3.2.3.8)."""
        return [value for kind, value in properties_of(self.properties) if kind == 0x0B]


def message_of(first, body):
    at, qos = Cursor(body), first >> 1 & 3
    topic = at.text().decode()
    id = at.short() if qos else 0
    properties = at.block()
    return Message(topic, at.rest(), qos, first & 1, first >> 3 & 1, id, properties)


class Ended(Exception):
    """The other side has closed."""


class Client:
    """A connection, and the client that it is of. It acknowledges what comes, unless `manual` is set. Over its connections it keeps
    the identifiers of what came at QoS 2 and wasn't released, as a receiver does (4.3.3)."""

    def __init__(self, port, name="", host="127.0.0.1", buffer=0):
        self.port, self.name, self.host, self.buffer = port, name, host, buffer
        self.inbox, self.held, self.manual, self.last_id, self.is_up = [], set(), False, 0, False

    async def dial(self):
        s = socket.socket(socket.AF_INET6 if ":" in self.host else socket.AF_INET)
        if self.buffer:
            s.setsockopt(socket.SOL_SOCKET, socket.SO_RCVBUF, self.buffer)
        s.setblocking(False)
        await asyncio.get_running_loop().sock_connect(s, (self.host, self.port))
        self.reader, self.writer = await asyncio.open_connection(sock=s, limit=max(self.buffer, 1 << 16))
        return self

    async def connect(self, **settings):
        """Connects, and answers whether the session is present; `connack` has the properties."""
        await self.dial()
        self.send(connect_frame(self.name, **settings))
        first, body = await self.frame()
        assert first == 0x20 and body[1] == 0, f"{self.name}: no ConnAck of success: {first:02x} {body.hex()}"
        self.is_up = True
        self.connack = dict(properties_of(Cursor(body[2:]).block()))
        return body[0] & 1

    async def __aenter__(self):
        await self.connect()
        return self

    async def __aexit__(self, *_):
        self.cut()

    def cut(self):
        """The connection is lost, without a word (a reset)."""
        self.is_up = False
        s = self.writer.get_extra_info("socket")
        if s is not None and s.fileno() >= 0:
            s.setsockopt(socket.SOL_SOCKET, socket.SO_LINGER, struct.pack("ii", 1, 0))
        self.writer.transport.abort()

    def send(self, data):
        # (what is sent on a connection that is lost is lost with it)
        if not self.writer.transport.is_closing():
            self.writer.write(data)

    async def frame(self, within=PATIENCE):
        """The next frame: its first byte and its body."""
        try:
            return await asyncio.wait_for(self.read_frame(), within)
        except (asyncio.IncompleteReadError, ConnectionError) as end:
            raise Ended() from end

    async def read_frame(self):
        first, length, shift = (await self.reader.readexactly(1))[0], 0, 0
        while True:
            byte = (await self.reader.readexactly(1))[0]
            length |= (byte & 127) << shift
            shift += 7
            if byte < 128:
                return first, await self.reader.readexactly(length)

    async def step(self, within=PATIENCE):
        """The next frame, of which a message goes into the inbox, and is acknowledged."""
        first, body = await self.frame(within)
        if first >> 4 == PUBLISH:
            self.hear(message_of(first, body))
        elif first >> 4 == PUBREL and not self.manual:
            assert first == 0x62, f"a PubRel with flags {first:02x}"
            id = int.from_bytes(body[:2], "big")
            self.held.discard(id)
            self.send(ack_frame(PUBCOMP, id))
        return first, body

    def hear(self, message):
        if message.qos == 2 and not self.manual:
            self.send(ack_frame(PUBREC, message.id))
            if message.id in self.held:
                return
            self.held.add(message.id)
        elif message.qos == 1 and not self.manual:
            self.send(ack_frame(PUBACK, message.id))
        self.inbox.append(message)

    async def take(self, within=PATIENCE):
        """The next message."""
        while not self.inbox:
            first, body = await self.step(within)
            assert first >> 4 in (PUBLISH, PUBREL), f"{self.name}: {first:02x} {body.hex()} and no message"
        return self.inbox.pop(0)

    async def payloads(self, count, within=PATIENCE):
        return [(await self.take(within)).payload for _ in range(count)]

    async def answer(self, kind, within=PATIENCE):
        """The body of the next packet of a kind; messages and releases may come before."""
        while True:
            first, body = await self.step(within)
            if first >> 4 == kind:
                return body
            assert first >> 4 in (PUBLISH, PUBREL), f"{self.name}: {first:02x} {body.hex()} and no packet {kind}"

    def next_id(self):
        self.last_id = self.last_id % 65535 + 1
        return self.last_id

    async def publish(self, topic, payload, qos=0, **words):
        """Publishes, and waits for the acks. Answers the reason of the first one (3.4.2.1, 3.5.2.1)."""
        id = self.next_id() if qos else 0
        self.send(publish_frame(topic, payload, qos, id=id, **words))
        if not qos:
            return 0
        body = await self.answer(PUBACK if qos == 1 else PUBREC)
        assert int.from_bytes(body[:2], "big") == id
        reason = body[2] if len(body) > 2 else 0
        if qos == 2 and reason < 128:
            self.send(ack_frame(PUBREL, id))
            assert int.from_bytes((await self.answer(PUBCOMP))[:2], "big") == id
        return reason

    async def subscribe(self, *filters, properties=b""):
        """Subscribes, each filter a text or a pair with its options, and answers the reasons (3.9.3)."""
        filters = [f if isinstance(f, tuple) else (f, 2) for f in filters]
        id = self.next_id()
        self.send(subscribe_frame(id, filters, properties))
        body = await self.answer(SUBACK)
        assert int.from_bytes(body[:2], "big") == id
        return list(body[3 + body[2]:])

    async def unsubscribe(self, *filters):
        id = self.next_id()
        self.send(frame(0xA2, struct.pack(">H", id) + b"\0" + b"".join(text(f) for f in filters)))
        body = await self.answer(UNSUBACK)
        return list(body[3 + body[2]:])

    async def ping(self, within=PATIENCE):
        self.send(b"\xc0\0")
        await self.answer(PINGRESP, within)

    async def disconnect(self, reason=0, properties=b""):
        """Says that it ends, and waits for the end."""
        self.send(disconnect_frame(reason, properties))
        await self.ends()

    async def is_quiet(self, seconds):
        """Nothing comes for so long."""
        try:
            got = await asyncio.wait_for(self.reader.read(1), seconds)
        except asyncio.TimeoutError:
            return
        raise AssertionError(f"{self.name}: {got.hex()} or an end, and nothing was to come")

    async def ends(self, within=PATIENCE):
        """The other side closes, and nothing comes before."""
        try:
            got = await asyncio.wait_for(self.reader.read(1 << 16), within)
            assert got == b"", f"{self.name}: {got.hex()} and no end"
        except ConnectionError:
            pass
        self.writer.transport.abort()

    async def ends_by(self, *reasons, within=PATIENCE):
        """The other side says why it ends (3.14.2.1), and closes. Messages may come before."""
        body = await self.answer(DISCONNECT, within)
        reason = body[0] if body else 0
        assert reason in reasons, f"{self.name}: reason {reason:02x}"
        await self.ends(within)

    async def is_refused(self, *reasons, within=PATIENCE):
        """A ConnAck says why there is no connection (3.2.2.2), and the other side closes."""
        first, body = await self.frame(within)
        assert first == 0x20 and body[0] == 0 and body[1] in reasons, f"{first:02x} {body.hex()}"
        await self.ends(within)
