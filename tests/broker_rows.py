"""Rows of tests/broker: each is a few clients at a broker, with what MQTT 5.0 says that comes of it. All rows of a broker run side
by side. Usage: broker_rows.py FOLDER BROKER [ROW..], where the broker is mosquitto or the path of this repository's server, and
the folder takes logs. A row whose name isn't in the list of one of the brokers has no word of it, for the reason beside it."""

import asyncio
import os
import random
import signal
import socket
import subprocess
import sys
import time
import traceback
from contextlib import asynccontextmanager

from broker_client import (
    PINGRESP, PUBACK, PUBCOMP, PUBLISH, PUBREC, PUBREL, SUBACK, Client, Ended, Will, ack_frame, connect_frame,
    disconnect_frame, expiry, frame, identifier, longest_packet, message_expiry, message_of, number, properties_of, publish_frame,
    receive_maximum, subscribe_frame, text, topic_alias)

FOLDER, BROKER = sys.argv[1], sys.argv[2]
WANTED = sys.argv[3:]
NAMES = set()
IS_OURS = BROKER != "mosquitto"
# How many seconds a row may take.
LIMIT = 60
# The most bytes of a packet that both brokers are told to take.
LONGEST = 1048576
# The hostile frames, and the moments of kills, are the same each time.
SEED = int(os.environ.get("SEED", "5"))
KEPT = dict(clean=False, properties=expiry(1000))

ROWS = []


def row(ours=True, mosquitto=True):
    def note(function):
        NAMES.add(function.__name__)
        if ours if IS_OURS else mosquitto:
            ROWS.append(function)
        return function
    return note


# ---- A broker. ----


class Server:
    def __init__(self, process, port, log):
        self.process, self.port, self.log = process, port, log

    def client(self, name, **words):
        return Client(self.port, name, **words)

    @asynccontextmanager
    async def connected(self, name, **settings):
        """A client that is connected; at the end its connection is lost."""
        client = Client(self.port, name)
        client.present = await client.connect(**settings)
        try:
            yield client
        finally:
            client.cut()

    def logged(self):
        with open(self.log, errors="replace") as log:
            return log.read()

    async def says(self, line, within=5):
        """Its log has this in a line."""
        end = time.monotonic() + within
        while line not in self.logged():
            assert time.monotonic() < end and self.process.returncode is None, f"no '{line}' in {self.logged()[-2000:]}"
            await asyncio.sleep(0.02)


COUNT = 0


def hash_of(password, setting="$6$rounds=1000$saltsalt"):
    """As mkpasswd makes one, by libcrypt."""
    made = subprocess.run(["perl", "-e", "print crypt($ARGV[0], $ARGV[1])", password.encode(), setting], capture_output=True, check=True)
    return made.stdout.decode()


def write_users(path, users):
    """A file of users with their passwords, as the broker takes it."""
    if IS_OURS:
        with open(path, "w", encoding="utf-8") as file:
            file.write("# who may connect\n\n" + "".join(f"{name}:{hash_of(password)}\n" for name, password in users.items()))
        return ["--users", path]
    # (which takes no empty password)
    for i, (name, password) in enumerate((name, password) for name, password in users.items() if password):
        subprocess.run(["mosquitto_passwd", *(["-c"] if i == 0 else []), "-b", path, name, password], check=True, capture_output=True)
    os.chmod(path, 0o644)
    return [f"allow_anonymous false\npassword_file {path}\n"]


async def start(*words, program=BROKER, users=None, rights=None):
    """Starts a broker: words are this server's own. What users may do is a file in the form that both brokers take."""
    global COUNT
    COUNT += 1
    path = f"{FOLDER}/log.{COUNT}"
    who = write_users(f"{FOLDER}/users.{COUNT}", users) if users else [] if IS_OURS else ["allow_anonymous true\n"]
    if rights is not None:
        with open(f"{FOLDER}/rights.{COUNT}", "w", encoding="utf-8") as file:
            file.write(rights)
        os.chmod(file.name, 0o644)
        who += ["--acl-file", file.name] if IS_OURS else [f"acl_file {file.name}\n"]
    port, command, is_up = 0, [program, "-p", "0", *words, *who], "listening on "
    if not IS_OURS:
        port, command, is_up = free_port(), ["mosquitto", "-v", "-c", f"{FOLDER}/conf.{COUNT}"], " running\n"
        with open(command[-1], "w") as conf:
            conf.write(f"listener {port} 127.0.0.1\nmax_queued_messages 0\nmax_inflight_messages 1000\n"
                       f"max_packet_size {LONGEST}\n" + "".join(who))
    with open(path, "w") as log:
        process = await asyncio.create_subprocess_exec(*command, stdout=log, stderr=log)
    server = Server(process, port, path)
    await server.says(is_up, 20)
    if IS_OURS:
        server.port = int(server.logged().split("\n")[0].rsplit(":", 1)[1])
    return server


def free_port():
    with socket.socket() as s:
        s.bind(("127.0.0.1", 0))
        return s.getsockname()[1]


async def stop(server, sign=signal.SIGTERM):
    """Stops a broker, whose memory was in order, and answers its status."""
    if server.process.returncode is None:
        server.process.send_signal(sign)
    status = await asyncio.wait_for(server.process.wait(), 10)
    assert "Sanitizer" not in server.logged() and "runtime error" not in server.logged(), server.logged()[-4000:]
    assert not IS_OURS or status == 0, f"status {status}: {server.logged()[-2000:]}"
    return status


@asynccontextmanager
async def started(*words, program=BROKER, users=None, rights=None):
    server = await start(*words, program=program, users=users, rights=rights)
    try:
        yield server
    finally:
        await stop(server)


# ---- Messages. ----


@row()
async def qualities(b):
    """Each QoS of a message to each QoS of a subscription (3.8.4, 4.3)."""
    for granted in (0, 1, 2):
        async with b.connected(f"qualities-{granted}") as sub, b.connected("qualities-pub") as pub:
            assert await sub.subscribe((f"qualities/{granted}/+", granted)) == [granted]
            for qos in (0, 1, 2):
                for payload in (b"", b"\x00\xff bytes", b"x" * 100000):
                    assert await pub.publish(f"qualities/{granted}/x", payload, qos) == 0
                    got = await sub.take()
                    assert (got.topic, got.payload, got.qos) == (f"qualities/{granted}/x", payload, min(qos, granted))
                    assert (got.retain, got.dup) == (0, 0)


@row()
async def order(b):
    """Messages of one QoS come in the order in which they were published (4.6)."""
    async with b.connected("order-sub") as sub, b.connected("order-pub") as pub:
        await sub.subscribe("order/#")
        for qos in (0, 1, 2):
            for i in range(300):
                pub.send(publish_frame("order/x", b"%d" % i, qos, id=i + 1 if qos else 0))
            for i in range(300 if qos else 0):
                body = await pub.answer(PUBACK if qos == 1 else PUBREC)
                if qos == 2:
                    pub.send(ack_frame(PUBREL, int.from_bytes(body[:2], "big")))
            for i in range(300 if qos == 2 else 0):
                await pub.answer(PUBCOMP)
            assert await sub.payloads(300) == [b"%d" % i for i in range(300)]


@row()
async def properties(b):
    """What a message has beside its text is forwarded as it is (3.3.2.3)."""
    given = [(0x01, 1), (0x03, b"text/plain"), (0x08, b"answer/to"), (0x09, b"\x00\x07"), (0x26, (b"k", b"v")), (0x26, (b"k", b"w"))]
    laid = (b"\x01\x01\x03" + text("text/plain") + b"\x08" + text("answer/to") + b"\x09" + text(b"\x00\x07") +
            b"\x26" + text("k") + text("v") + b"\x26" + text("k") + text("w"))
    async with b.connected("properties-sub") as sub, b.connected("properties-pub") as pub:
        await sub.subscribe("properties")
        for qos in (0, 1, 2):
            await pub.publish("properties", b"x", qos, properties=laid)
            got = properties_of((await sub.take()).properties)
            assert sorted(got, key=lambda item: item[0]) == given, got


@row()
async def topics(b):
    """Which filters match (4.7), a subscription that ends (3.10), and one that takes another's place (3.8.4)."""
    matches = [("topics/+/c", "topics/b/c"), ("topics/#", "topics"), ("topics//+", "topics//"), ("topics/é", "topics/é")]
    others = [("topics/+", "topics/b/c"), ("topics/b", "topics/B"), ("topics/+/c", "topics/c")]
    async with b.connected("topics-pub") as pub:
        for filter, topic in matches + others:
            async with b.connected("topics-sub") as sub:
                await sub.subscribe(filter, "topics-end")
                await pub.publish(topic, b"x", 1)
                await pub.publish("topics-end", b"end", 1)
                assert await sub.payloads(2 if (filter, topic) in matches else 1) == [b"x", b"end"][-2 if (filter, topic) in matches else -1:]
        async with b.connected("topics-sub") as sub:
            # (of filters that are no subscription the answer is No subscription existed: 3.11.3)
            assert await sub.subscribe(("topics/a", 0), ("topics/b", 1)) == [0, 1]
            assert await sub.subscribe(("topics/a", 2)) == [2]
            await pub.publish("topics/a", b"x", 2)
            assert (await sub.take()).qos == 2
            assert await sub.unsubscribe("topics/a", "topics/none") == [0, 0x11]
            await pub.publish("topics/a", b"x", 2)
            await pub.publish("topics/b", b"y", 1)
            assert (await sub.take()).payload == b"y"


@row()
async def dollar(b):
    """A filter that starts with a wildcard matches no topic that starts with a dollar sign (4.7.2)."""
    async with b.connected("dollar-sub") as sub, b.connected("dollar-pub") as pub:
        await sub.subscribe(("#", 0), ("+/dollar", 0))
        await pub.publish("$dollar/dollar", b"x", 1)
        await pub.publish("z/dollar", b"end", 1)
        seen = set()
        while b"end" not in seen:
            got = await sub.take()
            assert not got.topic.startswith("$")
            seen.add(got.payload)


@row()
async def no_local(b):
    """What a client publishes doesn't come back to it under No Local (3.8.3.1)."""
    async with b.connected("local-one") as one, b.connected("local-two") as two:
        await one.subscribe(("local/not", 2 | 4), ("local/too", 2))
        for topic, who, comes in (("local/not", one, False), ("local/not", two, True), ("local/too", one, True)):
            await who.publish(topic, b"x", 1)
            await two.publish("local/too", b"end", 1)
            assert await one.payloads(2 if comes else 1) == ([b"x"] if comes else []) + [b"end"]


@row()
async def retained(b):
    """A retained message goes to a new subscription as such, to one that stands as any, and is cleared by an empty one
    (3.3.1.3)."""
    async with b.connected("retained-sub") as sub, b.connected("retained-pub") as pub:
        await sub.subscribe("retained/+")
        await pub.publish("retained/a", b"old", 1, retain=1)
        await pub.publish("retained/a", b"new", 1, retain=1)
        await pub.publish("retained/b", b"other", 2, retain=1)
        got = [await sub.take() for _ in range(3)]
        assert [(m.payload, m.retain) for m in got] == [(b"old", 0), (b"new", 0), (b"other", 0)]
        async with b.connected("retained-late") as late:
            await late.subscribe(("retained/#", 1))
            got = sorted([await late.take(), await late.take()], key=lambda m: m.topic)
            assert [(m.topic, m.payload, m.retain, m.qos) for m in got] == [("retained/a", b"new", 1, 1), ("retained/b", b"other", 1, 1)]
        await pub.publish("retained/a", b"", 1, retain=1)
        assert (await sub.take()).payload == b""
        await pub.publish("retained/b", b"", 0, retain=1)
        assert (await sub.take()).payload == b""
        async with b.connected("retained-last") as last:
            await last.subscribe("retained/#")
            await pub.publish("retained/end", b"end", 1)
            assert (await last.take()).payload == b"end"


@row()
async def retain_handling(b):
    """When a Subscribe brings retained messages (3.8.3.1)."""
    async with b.connected("handling-sub") as sub, b.connected("handling-pub") as pub:
        await pub.publish("handling", b"kept", 1, retain=1)
        for handling, again, comes in ((2, False, False), (1, True, False), (0, True, True), (1, False, True), (0, False, True)):
            if not again:
                await sub.unsubscribe("handling")
            await sub.subscribe(("handling", 1 | handling << 4))
            if comes:
                got = await sub.take()
                assert (got.payload, got.retain) == (b"kept", 1)
            await sub.is_quiet(0.1)
        await pub.publish("handling", b"", 1, retain=1)


@row()
async def receive_max(b):
    """No more publishes of QoS 1 and 2 than a client's Receive Maximum are sent ahead of their acks (3.3.4); those of QoS 2 are
    under way until PubComp (4.9)."""
    async with b.connected("maximum-pub") as pub, b.connected("maximum-sub", properties=receive_maximum(2)) as sub:
        await sub.subscribe("maximum")
        sub.manual = True
        for qos in (1, 2):
            for i in range(5):
                await pub.publish("maximum", b"%d" % i, qos)
            ids = [(await sub.take()).id for _ in range(2)]
            await sub.is_quiet(0.2)
            if not IS_OURS:
                # (mosquitto 2.0.11 sends one too many once an ack came)
                return
            for i in range(5):
                if qos == 1:
                    sub.send(ack_frame(PUBACK, ids.pop(0)))
                else:
                    sub.send(ack_frame(PUBREC, ids[0]))
                    assert (await sub.answer(PUBREL))[:2] == ids[0].to_bytes(2, "big")
                    await sub.is_quiet(0.1)
                    sub.send(ack_frame(PUBCOMP, ids.pop(0)))
                if i < 3:
                    got = await sub.take()
                    assert got.payload == b"%d" % (i + 2)
                    ids.append(got.id)
                await sub.is_quiet(0.1)


@row()
async def longest_of_client(b):
    """A packet longer than a client takes isn't sent to it, and the others are (3.1.2.11.4)."""
    async with b.connected("long-sub", properties=longest_packet(100)) as sub, b.connected("long-pub") as pub:
        await sub.subscribe("long")
        for qos in (0, 1, 2):
            await pub.publish("long", b"x" * 200, qos)
            await pub.publish("long", b"y", qos)
            assert (await sub.take()).payload == b"y"


@row()
async def pieces(b):
    """Bytes come in any pieces: one at a time, and all at once."""
    async def by_bytes():
        slow = await b.client("pieces-slow").dial()
        frames = connect_frame("pieces-slow") + subscribe_frame(1, [("pieces/slow", 1)]) + publish_frame("pieces/slow", b"slow", 1, id=7)
        for byte in frames:
            slow.send(bytes([byte]))
            await asyncio.sleep(0.01)
        assert (await slow.frame())[0] == 0x20
        assert [await slow.answer(SUBACK), await slow.answer(PUBACK)] == [b"\0\1\0\1", b"\0\7"]
        assert (await slow.take()).payload == b"slow"
        await slow.disconnect()

    async def at_once():
        fast = await b.client("pieces-fast").dial()
        fast.send(connect_frame("pieces-fast") + subscribe_frame(1, [("pieces/fast", 0)]) +
                  b"".join(publish_frame("pieces/fast", b"%d" % i) for i in range(5000)) + b"\xc0\0" + disconnect_frame())
        assert (await fast.frame())[0] == 0x20
        await fast.answer(SUBACK)
        await fast.answer(PINGRESP)

    await asyncio.gather(by_bytes(), at_once())


# ---- Wills. ----


async def cut_with(b, name, will, properties=b""):
    """A client with a will loses its connection."""
    async with b.connected(name, will=will, properties=properties):
        pass


@row()
async def wills(b):
    """A will is published once the connection is lost, with its properties, and retained where it asks for it (3.1.2.5)."""
    async with b.connected("wills-sub") as sub:
        await sub.subscribe("wills/#")
        for qos in (0, 1, 2):
            laid = b"\x01\x01\x03" + text("text") + b"\x26" + text("k") + text("v")
            await cut_with(b, "wills-one", Will("wills/x", b"gone", qos, qos & 1, properties=laid))
            got = await sub.take()
            assert (got.topic, got.payload, got.qos, got.retain) == ("wills/x", b"gone", qos, 0)
            assert sorted(properties_of(got.properties)) == [(1, 1), (3, b"text"), (0x26, (b"k", b"v"))]
        async with b.connected("wills-late") as late:
            await late.subscribe("wills/#")
            assert (await late.take()).retain == 1
            await late.publish("wills/x", b"", 1, retain=1)
            assert (await late.take()).payload == b""


@row()
async def will_after_disconnect(b):
    """A Disconnect of reason 0 drops the will; one of reason 4 doesn't (3.14.2.1), nor does an end without a word."""
    async with b.connected("said-sub") as sub:
        await sub.subscribe("said/#")
        for reason, comes in ((0, False), (4, True)):
            one = b.client("said-one")
            await one.connect(will=Will("said/x", b"gone", 1))
            await one.disconnect(reason)
            if comes:
                assert (await sub.take()).payload == b"gone"
            await sub.is_quiet(0.2)


@row()
async def will_delay(b):
    """A will with a delay comes that much later (3.1.3.2.2); not where its client is back before, with its session; and at once
    where the session ends before."""
    # (mosquitto looks once a second)
    slack = 0.0 if IS_OURS else 1.0

    async def late():
        async with b.connected("delay-sub1") as sub:
            await sub.subscribe("delay/late")
            begun = time.monotonic()
            await cut_with(b, "delay-late", Will("delay/late", b"late", 1, delay=2), expiry(100))
            assert (await sub.take()).payload == b"late"
            assert 2 - slack <= time.monotonic() - begun <= 6, time.monotonic() - begun

    async def back():
        async with b.connected("delay-sub2") as sub:
            await sub.subscribe("delay/back")
            await cut_with(b, "delay-back", Will("delay/back", b"back", 1, delay=2), expiry(100))
            async with b.connected("delay-back", clean=False, properties=expiry(100)) as one:
                assert one.present == 1
                await sub.is_quiet(3.5)
                await one.disconnect()

    async def over():
        async with b.connected("delay-sub3") as sub:
            await sub.subscribe("delay/over")
            await cut_with(b, "delay-over", Will("delay/over", b"over", 1, delay=50))
            assert (await sub.take(3)).payload == b"over"

    # (mosquitto 2.0.11 lets that will wait)
    await asyncio.gather(late(), back(), *([over()] if IS_OURS else []))


# ---- What a subscription asks for. ----


async def shown(pub, topic, payload, clients, qos=1, **words):
    """What each of the clients is sent of a publish. All of them have subscribed to the end that comes behind it."""
    await pub.publish(topic, payload, qos, **words)
    await pub.publish(f"{pub.name}/end", b"end", 1)
    out = [[] for _ in clients]
    for client, messages in zip(clients, out):
        while (message := await client.take()).topic != f"{pub.name}/end":
            assert (message.topic, message.payload) == (topic, payload), (client.name, message)
            messages.append(message)
    return out


@row()
async def identifiers(b):
    """The identifier of a Subscribe is on each message that its filters bring (3.8.2.1.2, 3.3.2.3.8)."""
    laid = b"\x26" + text("k") + text("v")
    async with b.connected("identifiers-one") as one, b.connected("identifiers-two") as two, b.connected("identifiers-pub") as pub:
        await one.subscribe("identifiers/a", "identifiers/b/#", properties=identifier(1) + laid)
        await one.subscribe("identifiers/c", properties=identifier(128))
        await one.subscribe("identifiers/d", properties=identifier(268435455))
        await one.subscribe("identifiers/e")
        await two.subscribe("identifiers/#", properties=identifier(2))
        wanted = [("a", [1]), ("b/x", [1]), ("c", [128]), ("d", [268435455]), ("e", [])]

        async def come():
            for topic, ids in wanted:
                for qos in (0, 1, 2):
                    await pub.publish(f"identifiers/{topic}", b"x", qos, properties=laid)
                    for client, numbers in ((one, ids), (two, [2])):
                        got = await client.take()
                        assert (got.topic, got.payload, got.qos) == (f"identifiers/{topic}", b"x", qos)
                        assert sorted(properties_of(got.properties)) == [(0x0B, n) for n in numbers] + [(0x26, (b"k", b"v"))], got

        await come()
        # A Subscribe anew takes the place of the one that there was, also without an identifier (3.8.4).
        await one.subscribe("identifiers/e", properties=identifier(16384))
        await one.subscribe("identifiers/a", "identifiers/d")
        wanted = [("a", []), ("b/x", [1]), ("c", [128]), ("d", []), ("e", [16384])]
        await come()
        await cut_with(b, "identifiers-will", Will("identifiers/c", b"gone", 1))
        assert ((await one.take()).identifiers(), (await two.take()).identifiers()) == ([128], [2])


@row()
async def identifiers_stay(b):
    """A session keeps the identifiers of its subscriptions, and those of what waits (4.1). A retained message comes with that of the
    subscription that it comes for (3.3.4)."""
    one, topic = b.client("identifying"), "identifying/x"
    async with b.connected("identifying-pub") as pub:
        await pub.publish(topic, b"kept", 1, retain=1)
        await one.connect(**KEPT)
        for filter, laid, ids in ((topic, identifier(5), [5]), ("identifying/+", identifier(300), [300]), (topic, b"", []), (topic, identifier(6), [6])):
            await one.subscribe(filter, properties=laid)
            got = await one.take()
            assert (got.payload, got.retain, got.identifiers()) == (b"kept", 1, ids)
        await pub.publish(topic, b"", 1, retain=1)
        # (mosquitto sends one more for the other subscription)
        for _ in range(1 if IS_OURS else 2):
            await one.take()
        assert await one.unsubscribe(topic) == [0]
        await one.ping()
        await one.disconnect()
        for qos in (1, 2):
            await pub.publish(topic, b"x", qos)
        assert await one.connect(**KEPT) == 1
        await pub.publish(topic, b"x", 2)
        assert [(m.qos, m.identifiers()) for m in [await one.take() for _ in range(3)]] == [(1, [300]), (2, [300]), (2, [300])]
        await one.ping()
        await one.disconnect(0, expiry(0))


@row(mosquitto=False)  # (mosquitto sends a message once for each of the subscriptions, as it may)
async def identifiers_of_several(b):
    """What several subscriptions of a client hold for comes once, at the greatest QoS of them, with the identifiers of all
    (3.3.4): in the order of the last Subscribes, and twice where two have the same."""
    async with b.connected("several-sub") as sub, b.connected("several-pub") as pub:
        for filter, qos, laid in (("several/#", 0, identifier(900)), ("several/+", 2, identifier(4)), ("several/x", 1, b"")):
            await sub.subscribe((filter, qos), properties=laid)
        await sub.subscribe(("several/y", 1), "several-pub/end", properties=identifier(7))

        async def comes(topic, qos, ids):
            for sent in (0, 1, 2):
                [messages] = await shown(pub, topic, b"x", [sub], sent)
                assert [(m.qos, m.identifiers()) for m in messages] == [(min(sent, qos), ids)], messages

        await comes("several/x", 2, [900, 4])
        await comes("several/y", 2, [900, 4, 7])
        await comes("several/y/z", 0, [900])
        await sub.subscribe(("several/#", 1), properties=identifier(7))
        await comes("several/y", 2, [4, 7, 7])
        await comes("several/y/z", 1, [7])
        await sub.subscribe(("several/+", 0))
        await comes("several/y", 1, [7, 7])
        await sub.subscribe(("several/x", 0), properties=identifier(1))
        await comes("several/x", 1, [7, 1])
        await sub.unsubscribe("several/#")
        await comes("several/x", 0, [1])
        # Of a retained one each filter of a Subscribe has its copy.
        await pub.publish("several/x", b"kept", 1, retain=1)
        assert (await sub.take()).identifiers() == [1]
        await sub.subscribe("several/x", "several/#", properties=identifier(3))
        assert [(m.retain, m.identifiers()) for m in [await sub.take(), await sub.take()]] == [(1, [3])] * 2
        await pub.publish("several/x", b"", 1, retain=1)


@row(mosquitto=False)  # (mosquitto 2.0.11 sends a byte more)
async def identifiers_are_long(b):
    """An identifier counts for the length that a client takes (3.1.2.11.4)."""
    async with b.connected("counted-sub", properties=longest_packet(60)) as sub, b.connected("counted-pub") as pub:
        await sub.subscribe(("counted", 0), properties=identifier(1))
        # (two bytes before the body, nine of the topic, and three of the properties)
        for count in (47, 46, 45):
            await pub.publish("counted", b"x" * count, 0)
        assert await sub.payloads(2) == [b"x" * 46, b"x" * 45]


@row()
async def identifiers_refused(b):
    """The identifier 0 is a protocol error (3.8.2.1.2). (Mosquitto calls it malformed.)"""
    one = b.client("identifiers-refused")
    await one.connect()
    one.send(subscribe_frame(1, [("identifiers-refused", 0)], identifier(0)))
    await (one.ends_by(0x82) if IS_OURS else until_end(one))


AS_PUBLISHED = 8


@row()
async def retain_as_published(b):
    """A message that is forwarded keeps its retain flag under Retain As Published, and has it cleared else. The copy for a Subscribe
    has it in each case (3.3.1.3, 3.8.3.1)."""
    flags = [(1 | AS_PUBLISHED, 1), (1, 0)]
    topic = "published/x"
    async with b.connected("published-pub") as pub:
        subs = [b.client(f"published-{i}") for i in range(2)]
        # (a Subscribe anew takes the option away, and gives it; not so at mosquitto 2.0.11)
        for _ in range(2 if IS_OURS else 1):
            for sub, (options, _) in zip(subs, flags):
                await sub.connect(**KEPT)
                await sub.subscribe((topic, options))
            for qos in (0, 1, 2):
                for retain in (1, 0):
                    await pub.publish(topic, b"x", qos, retain=retain)
                    for sub, (_, keeps) in zip(subs, flags):
                        got = await sub.take()
                        assert (got.qos, got.retain) == (min(qos, 1), retain and keeps), (sub.name, got)
            # A retained one with a Subscribe, and one that clears it.
            for sub, (options, _) in zip(subs, flags):
                await sub.subscribe((topic, options))
                assert (await sub.take()).retain == 1
            await pub.publish(topic, b"", 1, retain=1)
            await cut_with(b, "published-will", Will(topic, b"gone", 1, 1))
            for sub, (_, keeps) in zip(subs, flags):
                assert [(m.payload, m.retain) for m in [await sub.take(), await sub.take()]] == [(b"", keeps), (b"gone", keeps)]
            # What waits for a client that is away.
            for sub in subs:
                await sub.disconnect()
            await pub.publish(topic, b"waits", 1, retain=1)
            await pub.publish(topic, b"", 1, retain=1)
            for sub, (_, keeps) in zip(subs, flags):
                assert await sub.connect(**KEPT) == 1
                assert [(m.payload, m.retain) for m in [await sub.take(), await sub.take()]] == [(b"waits", keeps), (b"", keeps)]
                await sub.disconnect()
            flags.reverse()
        for sub in subs:
            await sub.connect(clean=True)
            await sub.disconnect()


@row(mosquitto=False)  # (mosquitto sends a message once for each of the subscriptions, as it may)
async def retain_of_several(b):
    """Where a client has a message by several subscriptions, its retain flag stays if each of them has Retain As Published."""
    async with b.connected("retains-sub") as sub, b.connected("retains-pub") as pub:
        await sub.subscribe(("retains/+", 2 | AS_PUBLISHED), ("retains/x", 0 | AS_PUBLISHED), ("retains/y", 1), ("retains/", 2), "retains-pub/end")
        for topic, qos, keeps in (("retains/x", 2, 1), ("retains/y", 2, 0), ("retains/z", 2, 1)):
            for retain in (1, 0):
                [messages] = await shown(pub, topic, b"x", [sub], 2, retain=retain)
                assert [(m.qos, m.retain) for m in messages] == [(qos, retain and keeps)], messages
            await shown(pub, topic, b"", [sub], 1, retain=1)


# ---- Messages that expire. ----


def seconds_left(message):
    return dict(properties_of(message.properties)).get(2)


@row()
async def messages_expire(b):
    """What waits for longer than its Message Expiry Interval isn't sent any more; before that it comes with what is left of it, less
    than a second more or less than it waited (3.3.2.3.3). One without comes at any time, and a copy of a retained one in its."""
    sub = b.client("lapse-sub")
    await sub.connect(**KEPT)
    await sub.subscribe("lapse/#")
    await sub.disconnect()
    async with b.connected("lapse-pub") as pub, b.connected("lapse-here") as here:
        await here.subscribe("lapse/#")
        begun = time.monotonic()
        sent = [(qos, seconds, 0) for qos in (1, 2) for seconds in (1, 100, None)] + [(1, 1, 1), (1, 100, 1)]
        for qos, seconds, retain in sent:
            topic = f"lapse/{seconds}{'/kept' if retain else ''}"
            await pub.publish(topic, b"x", qos, retain=retain, properties=b"" if seconds is None else message_expiry(seconds))
            got = await here.take()
            assert (got.topic, got.qos) == (topic, qos)
            # (it may have come at the end of a second; mosquitto leaves an interval out of which nothing is left)
            left = seconds_left(got)
            if left is None and seconds is not None and not IS_OURS:
                left = 0
            assert left is None if seconds is None else max(0, seconds - 2) <= left <= seconds, got
        published = time.monotonic()
        await asyncio.sleep(3.2)
        waited = time.monotonic()

        def is_left(message, seconds):
            left, most, least = seconds_left(message), 100 - (waited - published), 100 - (time.monotonic() - begun)
            assert left is None if seconds is None else least - 1 < left < most + 1, (message, most, least)

        assert await sub.connect(**KEPT) == 1
        for qos, seconds, retain in sent:
            if seconds == 1:
                continue
            got = await sub.take()
            assert (got.topic, got.qos, got.retain) == (f"lapse/{seconds}{'/kept' if retain else ''}", qos, 0), got
            is_left(got, seconds)
        async with b.connected("lapse-late") as late:
            await late.subscribe("lapse/#", "lapse-end")
            got = await late.take()
            assert (got.topic, got.retain) == ("lapse/100/kept", 1), got
            is_left(got, 100)
            await pub.publish("lapse-end", b"end", 1)
            assert (await late.take()).payload == b"end"
        for seconds in (1, 100):
            await pub.publish(f"lapse/{seconds}/kept", b"", 1, retain=1)
    await sub.connect(clean=True)
    await sub.disconnect()


@row()
async def wills_expire(b):
    """The lifetime of a will begins once it is published (3.1.3.2.4): where it waits then, it comes with what is left, or not any more
    (3.3.2.3.3)."""
    sub = b.client("lapse-away")
    await sub.connect(**KEPT)
    await sub.subscribe("lapse-will")
    await sub.disconnect()
    async with b.connected("lapse-wills") as here:
        await here.subscribe("lapse-will")
        for seconds in (1, 100):
            one = b.client("lapse-will")
            await one.connect(will=Will("lapse-will", b"gone", 1, properties=message_expiry(seconds)))
            await asyncio.sleep(2.2)
            begun = time.monotonic()
            one.cut()
            left = seconds_left(await here.take())
            # (it may have come at the end of a second)
            assert max(0, seconds - 2) <= left <= seconds, left
            published = time.monotonic()
        await asyncio.sleep(3.2)
        waited = time.monotonic()
        assert await sub.connect(**KEPT) == 1
        left, most, least = seconds_left(await sub.take()), 100 - (waited - published), 100 - (time.monotonic() - begun)
        assert least - 1 < left < most + 1, (left, most, least)
        await sub.is_quiet(0.1)
    await sub.connect(clean=True)
    await sub.disconnect()


@row(mosquitto=False)  # (its order is another one)
async def expires_behind(b):
    """A message that has expired stands in the way of none behind it, also where it waits for an identifier."""
    async with b.connected("behind-pub") as pub:
        sub = b.client("behind-sub")
        sub.manual = True
        await sub.connect(properties=receive_maximum(1))
        await sub.subscribe("behind")
        for payload, seconds in ((b"one", None), (b"two", 1), (b"three", 1), (b"four", 60)):
            await pub.publish("behind", payload, 1, properties=b"" if seconds is None else message_expiry(seconds))
        one = await sub.take()
        assert one.payload == b"one"
        await asyncio.sleep(2.5)
        sub.send(ack_frame(PUBACK, one.id))
        # (the second one was taken on already, and waits at the session for the identifier: so it doesn't expire)
        two = await sub.take()
        assert (two.payload, seconds_left(two)) == (b"two", 0), two
        sub.send(ack_frame(PUBACK, two.id))
        four = await sub.take()
        assert four.payload == b"four" and 55 < seconds_left(four) < 60, four
        sub.send(ack_frame(PUBACK, four.id))
        await sub.disconnect()


# ---- Shared subscriptions. ----


async def turns(pub, topic, clients, count, retain=0):
    """Which of the clients is sent each publish: one of them, and once."""
    out = []
    for i in range(count):
        came = await shown(pub, topic, b"%d" % i, clients, retain=retain)
        out += [who for who, messages in enumerate(came) for _ in messages]
        assert len(out) == i + 1, (topic, out)
    return out


def is_in_turn(who, *members):
    """Each message went to the member behind the one that had the message before (4.8.2 leaves the choice to the server)."""
    behind = dict(zip(members, members[1:] + members[:1]))
    return all(behind.get(one) == next_one for one, next_one in zip(who, who[1:]))


@row()
async def shared(b):
    """Each message goes to one client of a group, in turn, at the QoS that is granted to it (4.8.2)."""
    topic_filter = "$share/g/shared/+"
    async with b.connected("shared-0") as zero, b.connected("shared-1") as one, b.connected("shared-2") as two, b.connected("shared-pub") as pub:
        members = [zero, one, two]
        for granted, member in enumerate(members):
            assert await member.subscribe((topic_filter, granted), "shared-pub/end") == [granted, 2]
        who = []
        for i in range(9):
            came = await shown(pub, f"shared/{i % 2}", b"%d" % i, members, 2)
            [(at, message)] = [(at, message) for at, messages in enumerate(came) for message in messages]
            assert (message.qos, message.retain, message.dup) == (at, 0, 0)
            who.append(at)
            # What the filter doesn't match takes no turn.
            for topic in ("shared", "shared/x/y", "Shared/x"):
                assert await shown(pub, topic, b"none", members) == [[], [], []]
        assert is_in_turn(who, 0, 1, 2), who
        # A member that subscribes anew is one member still, in its place, as what it says now.
        assert await one.subscribe((topic_filter, 2), properties=identifier(9)) == [2]
        got = []
        for i in range(6):
            got += [(at, m.qos, m.identifiers()) for at, messages in enumerate(await shown(pub, "shared/x", b"x", members, 2)) for m in messages]
        assert is_in_turn([at for at, _, _ in got], 0, 1, 2), got
        assert all((qos, ids) == ((2, [9]) if at == 1 else (at, [])) for at, qos, ids in got), got
        # A member's own message takes a turn as any other.
        for member in members:
            await member.subscribe("shared-1/end")
        assert sorted(await turns(one, "shared/x", members, 3)) == [0, 1, 2]
        # (so does a will at mosquitto; here it goes to the one whose turn it is, and leaves it the turn)
        await pub.subscribe("shared/will")
        for _ in range(3):
            await cut_with(b, "shared-will", Will("shared/will", b"gone", 1))
            await pub.take()
        assert sorted(len(messages) for messages in await shown(pub, "shared/will", b"gone", members)) == ([0, 1, 3] if IS_OURS else [1, 1, 2])


@row()
async def shared_groups(b):
    """Each group has each message once, whatever other groups and subscriptions there are, and nothing that was retained before
    (4.8.2)."""
    groups = ["$share/g/groups/+", "$share/G/groups/+", "$share/grün/groups/+", "$share/g/groups/#", "$share/g/groups/x", "$share/$x/groups/x"]
    members, beside, other = [b.client(f"groups-{i}") for i in range(2 * len(groups))], b.client("groups-beside"), b.client("groups-other")
    everyone = members + [beside, other]
    async with b.connected("groups-pub") as pub:
        await pub.publish("groups/x", b"kept", 1, retain=1)
        for client in everyone:
            await client.connect()
            await client.subscribe("groups-pub/end")
        for i, member in enumerate(members):
            # (mosquitto 2.0.11 brings what is retained)
            for handling in (1, 0) if IS_OURS else (2,):
                options = 1 | handling << 4 | (AS_PUBLISHED if i < 2 else 0)
                assert await member.subscribe((groups[i // 2], options)) == [1]
        await pub.publish("groups-pub/end", b"end", 1)
        for client in everyone:
            assert await client.payloads(1) == [b"end"]
        await beside.subscribe("groups/#")
        assert (await beside.take()).payload == b"kept"
        # What begins in another way is a filter as any other.
        await other.subscribe("$shared/g/groups/x", "$SHARE/+/groups/x")
        counts = [0] * len(everyone)
        for i in range(4):
            came = await shown(pub, "groups/x", b"%d" % i, everyone, retain=i & 1)
            for at, messages in enumerate(came):
                counts[at] += len(messages)
                assert all(m.retain == (i & 1 if at < 2 else 0) for m in messages), messages
            assert sum(counts) == (i + 1) * (len(groups) + 1), counts
        assert counts == [2] * len(members) + [4, 0], counts
        # (mosquitto denies topics that begin with $share; ours forwards none that begins with $)
        for topic in ("$SHARE/g/groups/x", "$shared/g/groups/x")[:2 if IS_OURS else 1]:
            came = await shown(pub, topic, b"x", everyone)
            assert [len(messages) for messages in came] == [0] * (len(everyone) - 1) + [0 if IS_OURS else 1], came
        await pub.publish("groups/x", b"", 1, retain=1)
        for client in everyone:
            client.cut()


@row(mosquitto=False)  # (mosquitto sends a message once for each of the subscriptions, as it may)
async def shared_beside(b):
    """A client with a shared and a normal subscription has one copy of a message: by both where it has the turn, and else by the
    normal one."""
    topic = "beside/x"
    async with b.connected("beside-0") as both, b.connected("beside-1") as one, b.connected("beside-pub") as pub:
        clients = [both, one]
        for client in clients:
            await client.subscribe("beside-pub/end", "beside-0/end")
        await both.subscribe(("$share/g/beside/+", 2 | AS_PUBLISHED), properties=identifier(3))
        await both.subscribe(("beside/#", 1 | 4), properties=identifier(4))
        await one.subscribe(("$share/g/beside/+", 1), properties=identifier(5))
        at_turn, at_others = [(2, 0, [3, 4])], [(1, 0, [4])]

        async def come(pub, at_turn, at_others):
            came = []
            for _ in range(4):
                shows = await shown(pub, topic, b"x", clients, 2, retain=1)
                came.append([[(m.qos, m.retain, m.identifiers()) for m in messages] for messages in shows])
            wanted = [[at_turn, []], [at_others, [(1, 0, [5])]]]
            assert came in (wanted * 2, wanted[::-1] * 2), came

        await come(pub, at_turn, at_others)
        # Its own messages are none for the normal one, which has No Local.
        await come(both, [(2, 1, [3])], [])
        # Other options.
        await both.subscribe(("$share/g/beside/+", 0), "beside-none", properties=identifier(6))
        await both.subscribe(("beside/#", 2 | AS_PUBLISHED | 2 << 4))
        await come(pub, [(2, 0, [6])], [(2, 1, [])])
        await both.subscribe(("beside/#", 1 | 2 << 4), properties=identifier(7))
        await come(pub, [(1, 0, [6, 7])], [(1, 0, [7])])
        # The shared one is the last.
        await both.subscribe(("$share/g/beside/+", 0), properties=identifier(6))
        await come(pub, [(1, 0, [7, 6])], [(1, 0, [7])])
        await both.unsubscribe("beside/#")
        await come(pub, [(0, 0, [6])], [])
        await pub.publish(topic, b"", 1, retain=1)


@row()
async def shared_leaving(b):
    """Who unsubscribes, or whose session ends, has no turn any more (3.10.4, 4.1)."""
    group, topic = "$share/g/leaving/+", "leaving/x"
    async with b.connected("leaving-0") as stays, b.connected("leaving-pub") as pub:
        await stays.subscribe(group, "leaving-pub/end")

        async def begins():
            one = b.client("leaving-1")
            await one.connect(**KEPT)
            assert await one.subscribe(group, "leaving-pub/end") == [2, 2]
            return one

        async def ends():
            assert await turns(pub, topic, [stays], 3) == [0] * 3

        for count in (1, 2):
            # (the turn is with the one, and with the other)
            one = await begins()
            assert is_in_turn(await turns(pub, topic, [stays, one], 2 + count), 0, 1)
            assert await one.unsubscribe("leaving/+", "$share/h/leaving/+", group, group) == [0x11, 0x11, 0, 0x11]
            assert await turns(pub, topic, [stays, one], 3) == [0] * 3
            await one.disconnect(0, expiry(0))

            one = await begins()
            assert is_in_turn(await turns(pub, topic, [stays, one], 2 + count), 0, 1)
            await one.disconnect(0, expiry(0))
            await ends()

            one = await begins()
            assert is_in_turn(await turns(pub, topic, [stays, one], 2 + count), 0, 1)
            await one.disconnect()
            assert await one.connect(clean=True) == 0
            await one.subscribe("leaving-pub/end")
            assert await turns(pub, topic, [stays, one], 3) == [0] * 3
            await one.disconnect()
        # What waits for one that unsubscribes goes to no other.
        slow = b.client("leaving-2")
        slow.manual = True
        await slow.connect(properties=receive_maximum(1))
        await slow.subscribe(group)
        came = [len(messages) for _ in range(6) for messages in await shown(pub, topic, b"x", [stays])]
        assert came in ([0, 1] * 3, [1, 0] * 3), came
        assert await slow.unsubscribe(group) == [0]
        await ends()
        await slow.disconnect()
        await ends()
        # The last one leaves, and then others come.
        await stays.unsubscribe(group)
        assert await shown(pub, topic, b"none", [stays]) == [[]]
        one = await begins()
        assert await turns(pub, topic, [stays, one], 2) == [1, 1]
        await stays.subscribe(group)
        assert is_in_turn(await turns(pub, topic, [stays, one], 4), 1, 0)
        await one.disconnect(0, expiry(0))


@row(mosquitto=False)  # (mosquitto 2.0.11 gives those that are away their turns)
async def shared_away(b):
    """A member that is away is passed over while another is connected. Where none is, messages wait for the one that had the last,
    and for nobody else, also where its session ends."""
    group, topic, last = "$share/g/away/+", "away/x", None
    members = [b.client(f"away-{i}") for i in range(3)]
    async with b.connected("away-pub") as pub:
        for member in members:
            await member.connect(**KEPT)
            await member.subscribe(group, "away-pub/end")

        async def come(*here):
            """Each message goes to the next one of those that are here."""
            nonlocal last
            for at in await turns(pub, topic, [members[i] for i in here], 2 * len(here)):
                assert last is None or here[at] == next(i % 3 for i in range(last + 1, last + 4) if i % 3 in here), (last, here, at)
                last = here[at]

        await come(0, 1, 2)
        for gone, here in ((0, (1, 2)), (1, (0, 2)), (2, (0, 1))):
            await members[gone].disconnect()
            await come(*here)
            await members[gone].connect(**KEPT)
            assert await members[gone].payloads(4) == [b"end"] * 4
            await come(0, 1, 2)
        await members[0].disconnect()
        await members[2].disconnect()
        await come(1)
        for at in (0, 2):
            assert await members[at].connect(**KEPT) == 1
            assert await members[at].payloads(2) == [b"end"] * 2
        # A client that takes its own session over is one member still.
        await members[1].ping()
        members[1], old = b.client("away-1"), members[1]
        assert await members[1].connect(**KEPT) == 1
        await old.ends_by(0x8E)
        # All are away.
        for _ in range(2):
            await come(0, 1, 2)
            for member in members:
                await member.disconnect()
            for i in range(3):
                await pub.publish(topic, b"%d" % i, 1 + i % 2)
            for at, member in enumerate(members):
                assert await member.connect(**KEPT) == 1
                if at == last:
                    assert await member.payloads(3) == [b"0", b"1", b"2"]
                    await member.ping()
            for messages in await shown(pub, "away", b"none", members):
                assert not messages
            # (which is another one the next time)
            [last] = await turns(pub, topic, members, 1)
        # What waits for a session that ends goes to nobody.
        await come(0, 1, 2)
        others = [member for at, member in enumerate(members) if at != last]
        for member in members:
            await member.disconnect()
        await pub.publish(topic, b"lost", 1)
        for member in others:
            await member.connect(**KEPT)
        assert await members[last].connect(clean=True) == 0
        assert await shown(pub, "away", b"none", others) == [[], []]
        assert is_in_turn(await turns(pub, topic, others, 4), 0, 1)
        await members[last].ping()
        assert not members[last].inbox
        # Where the session of the one that had the last ends while all are away, another has what comes.
        for seconds, after in ((0, 0), (1, 2.2)):
            [at] = await turns(pub, topic, others, 1)
            one, other = others[at], others[1 - at]
            await other.disconnect()
            await one.disconnect(0, expiry(seconds))
            await asyncio.sleep(after)
            await pub.publish(topic, b"waits", 1)
            assert await other.connect(**KEPT) == 1
            assert await other.payloads(1) == [b"waits"]
            assert await one.connect(**KEPT) == 0
            await one.subscribe(group, "away-pub/end")
        for one in others:
            await one.disconnect(0, expiry(0))


@row()
async def shared_resent(b):
    """What a member of a group has begun to receive comes to it again, and to no other (4.4, 4.8.2)."""
    one, other = b.client("group-resent-1"), b.client("group-resent-2")
    async with b.connected("group-resent-pub") as pub:
        for client in (one, other):
            client.manual = True
            await client.connect(**KEPT)
            await client.subscribe("$share/g/group-resent")
        for i in range(4):
            await pub.publish("group-resent", b"%d" % i, 2)
        # (of the one the first isn't received, and the second not released)
        first, second = await one.take(), await one.take()
        got = [await other.take(), await other.take()]
        assert sorted(m.payload for m in [first, second, *got]) == [b"0", b"1", b"2", b"3"]
        one.send(ack_frame(PUBREC, second.id))
        assert (await one.answer(PUBREL))[:2] == second.id.to_bytes(2, "big")
        for _ in range(2):
            one.cut()
            await other.is_quiet(0.2)
            assert await one.connect(**KEPT) == 1
            frames = [await one.frame() for _ in range(2)]
            assert [f[1][:2] for f in frames if f[0] == 0x62] == [second.id.to_bytes(2, "big")]
            [again] = [message_of(*f) for f in frames if f[0] >> 4 == PUBLISH]
            assert (again.payload, again.qos, again.dup, again.id) == (first.payload, 2, 1, first.id)
            await one.is_quiet(0.1)
        one.send(ack_frame(PUBREC, first.id) + ack_frame(PUBCOMP, second.id))
        assert (await one.answer(PUBREL))[:2] == first.id.to_bytes(2, "big")
        one.send(ack_frame(PUBCOMP, first.id))
        await one.ping()
        await one.disconnect(0, expiry(0))
        await other.is_quiet(0.1)
        await other.disconnect(0, expiry(0))


@row(mosquitto=False)  # (mosquitto 2.0.11 takes most of them)
async def shared_refused(b):
    """Shared subscriptions that are none are invalid, and one with No Local is a protocol error (4.8.2, 3.8.3.1): each ends its
    connection, and leaves the groups as they are."""
    wrong = ["$share/a", "$share//a", "$share/a/", "$share/+/a", "$share/a#/b", "$share/g/a/#/b", "$share/", "$share/#", "$share/g/a+"]
    cases = [(filter, 0, 0x8F) for filter in wrong] + [("$share/refused/refused", 4, 0x82)]
    async with b.connected("refused-member") as member, b.connected("refused-pub") as pub:
        # (a filter may begin with a slash, and have empty levels)
        assert await member.subscribe("$share/refused/refused", "$share/refused//refused/", "refused-pub/end") == [2] * 3
        for filter, options, reason in cases:
            one = b.client("refused-one")
            await one.connect(clean=False)
            one.send(subscribe_frame(1, [("refused-pub/end", 0), (filter, options)]))
            try:
                await one.ends_by(reason)
            except (AssertionError, Ended, asyncio.TimeoutError) as fault:
                raise AssertionError(f"{filter}: {fault!r}") from fault
            for topic in ("refused", "/refused/"):
                assert await turns(pub, topic, [member], 2) == [0, 0]


# ---- Sessions. ----


@row()
async def sessions(b):
    """What a session keeps (4.1), whether it is present (3.2.2.1.1), and a clean start (3.1.2.4)."""
    async with b.connected("sessions-pub") as pub:
        for settings, present in ((KEPT, 0), (KEPT, 1), (dict(KEPT, clean=True), 0), (KEPT, 1), (dict(clean=False), 1), (KEPT, 0)):
            async with b.connected("sessions-one", **settings) as one:
                assert one.present == present, (settings, one.present)
                await one.disconnect()
        async with b.connected("sessions-two", **KEPT) as two:
            assert await two.subscribe("sessions/x", ("sessions/y", 1)) == [2, 1]
            await two.disconnect()
        for i in range(20):
            await pub.publish("sessions/x" if i & 1 else "sessions/y", b"%d" % i, 1 + (i >> 1 & 1))
        two = b.client("sessions-two")
        assert await two.connect(**KEPT) == 1
        got = [await two.take() for _ in range(20)]
        assert [m.payload for m in got if m.topic == "sessions/x"] == [b"%d" % i for i in range(1, 20, 2)]
        assert [m.payload for m in got if m.topic == "sessions/y"] == [b"%d" % i for i in range(0, 20, 2)]
        await two.ping()
        await two.disconnect()
        async with b.connected("sessions-two", properties=expiry(1000)) as two:
            assert two.present == 0
            await pub.publish("sessions/x", b"x", 1)
            await two.ping()
            assert not two.inbox
            await two.disconnect(0, expiry(0))


@row()
async def resent(b):
    """What wasn't acknowledged comes again on the next connection: a publish under its own identifier with dup, and of one that was
    received its release (4.4)."""
    async with b.connected("resent-pub") as pub:
        sub = b.client("resent-sub")
        sub.manual = True
        await sub.connect(**KEPT)
        await sub.subscribe("resent")
        for qos in (1, 2, 2):
            await pub.publish("resent", b"%d" % qos, qos)
        first, second, third = [await sub.take() for _ in range(3)]
        sub.send(ack_frame(PUBREC, third.id))
        await sub.answer(PUBREL)
        for _ in range(3):
            sub.cut()
            assert await sub.connect(**KEPT) == 1
            frames = [await sub.frame() for _ in range(3)]
            again = {m.id: m for m in (message_of(*f) for f in frames if f[0] >> 4 == PUBLISH)}
            assert again.keys() == {first.id, second.id}
            assert all(m.dup == 1 for m in again.values())
            assert (again[first.id].qos, again[second.id].qos) == (1, 2)
            assert [f[1][:2] for f in frames if f[0] == 0x62] == [third.id.to_bytes(2, "big")]
            await sub.is_quiet(0.1)
        sub.send(ack_frame(PUBACK, first.id) + ack_frame(PUBREC, second.id) + ack_frame(PUBCOMP, third.id))
        await sub.answer(PUBREL)
        sub.send(ack_frame(PUBCOMP, second.id))
        await sub.ping()
        sub.cut()
        assert await sub.connect(**KEPT) == 1
        await sub.is_quiet(0.2)
        await sub.disconnect(0, expiry(0))


@row()
async def session_expiry(b):
    """A session ends so many seconds after its connection, and not before (3.1.2.11.2); a Disconnect may say another time
    (3.14.2.2.2)."""
    async def comes_back(name, first, last, after, present):
        one = b.client(name)
        await one.connect(clean=False, properties=expiry(first))
        await one.subscribe("expiry/none")
        await one.disconnect(0, b"" if last is None else expiry(last))
        await asyncio.sleep(after)
        got = await one.connect(clean=False, properties=expiry(0))
        assert got == present, f"{name}: session present {got}"
        await one.disconnect()

    # (mosquitto looks at sessions every few seconds, so the row gives it time)
    long = 2.2 if IS_OURS else 8
    await asyncio.gather(
        comes_back("expiry-over", 1, None, long, 0), comes_back("expiry-there", 60, None, 2.2, 1),
        comes_back("expiry-shorter", 60, 1, long, 0), comes_back("expiry-none", 60, 0, 0.1, 0),
        comes_back("expiry-longer", 1, 60, 2.2, 1), comes_back("expiry-ever", 0xFFFFFFFF, None, 2.2, 1))


@row(mosquitto=False)  # (mosquitto 2.0 takes that Disconnect)
async def expiry_from_zero(b):
    """A session that ends with its connection can't be kept by the Disconnect: a protocol error (3.14.2.2.2)."""
    one = b.client("from-zero")
    await one.connect()
    one.send(disconnect_frame(0, expiry(10)))
    await one.ends_by(0x82)


@row()
async def take_over(b):
    """A second connection of a client ends the first one, which is told so (3.1.4), and its will is published (3.1.3.2.2)."""
    async with b.connected("over-sub") as sub:
        await sub.subscribe("over/will")
        one, two = b.client("over-one"), b.client("over-one")
        await one.connect(clean=False, properties=expiry(100), will=Will("over/will", b"gone", 1))
        await one.subscribe("over/x")
        assert await two.connect(**KEPT) == 1
        # (mosquitto 2.0.11 doesn't say why, and publishes no will then)
        await (one.ends_by(0x8E) if IS_OURS else until_end(one))
        if IS_OURS:
            assert (await sub.take()).payload == b"gone"
        await sub.publish("over/x", b"x", 1)
        assert (await two.take()).payload == b"x"
        await two.disconnect(0, expiry(0))


# ---- Time. ----


@row()
async def keep_alive(b):
    """A client that is silent for one and a half times its keep alive is ended, and its will is published; one that pings isn't
    (3.1.2.10)."""
    async def silent():
        async with b.connected("alive-sub") as sub:
            await sub.subscribe("alive/will")
            one, begun = b.client("alive-silent"), time.monotonic()
            await one.connect(keep=1, will=Will("alive/will", b"gone", 1))
            # (mosquitto 2.0.11 looks every few seconds, and doesn't say why)
            await (one.ends_by(0x8D) if IS_OURS else until_end(one))
            took = time.monotonic() - begun
            assert 1.5 <= took <= (5 if IS_OURS else 10), took
            assert (await sub.take()).payload == b"gone"

    async def pings():
        async with b.connected("alive-pings", keep=2) as one:
            for _ in range(10):
                await one.ping()
                await asyncio.sleep(0.5)

    async def is_off():
        async with b.connected("alive-off") as one:
            await asyncio.sleep(4)
            await one.ping()

    await asyncio.gather(silent(), pings(), is_off())


@row(mosquitto=False)  # (its own option stands in a file)
async def keep_alive_of_server(_):
    """A client that asks for no keep alive, or for one that is too long, is told the longest, which holds then (3.2.2.3.14)."""
    async with started("--max-keepalive", "2") as b:
        for asked, told in ((0, 2), (3, 2), (65535, 2), (2, None), (1, None)):
            async with b.connected("alive-told", keep=asked) as one:
                assert one.connack.get(0x13) == told, (asked, one.connack)
        one, begun = b.client("alive-told"), time.monotonic()
        await one.connect()
        await one.ends_by(0x8D)
        assert 3 <= time.monotonic() - begun <= 7, time.monotonic() - begun


@row(mosquitto=False)  # (mosquitto has no option for it)
async def wait_for_connect(_):
    """A connection on which no Connect comes is closed after the wait (--wait)."""
    async with started("--wait", "3") as b:
        async with b.connected("wait-client") as client:
            none, part, begun = b.client("wait-none"), b.client("wait-part"), time.monotonic()
            await none.dial()
            await part.dial()
            part.send(connect_frame("wait-part")[:5])
            await asyncio.gather(none.ends(), part.ends())
            assert 3 <= time.monotonic() - begun <= 9, time.monotonic() - begun
            await client.ping()


# ---- Refusals. ----


@row()
async def empty_identifier(b):
    """A client that says no identifier is given one of its own, by which it can come back (3.1.3.1, 3.2.2.3.7)."""
    one, two = b.client(""), b.client("")
    await one.connect(properties=expiry(100))
    await two.connect()
    names = [client.connack[0x12].decode() for client in (one, two)]
    assert all(names) and names[0] != names[1], names
    await one.disconnect()
    await two.disconnect()
    async with b.connected(names[0], clean=False, properties=expiry(100)) as back:
        assert back.present == 1
    async with b.connected(names[1], clean=False) as back:
        assert back.present == 0
    # and none of those comes again after another start
    async with started() as other, other.connected("") as three:
        assert three.connack[0x12].decode() not in names, (names, three.connack)


@row()
async def refusals(b):
    """Connects that a broker refuses: an authentication method that it doesn't know (4.12), and maxima of 0 (3.1.2.11.3,
    3.1.2.11.4). Mosquitto closes without a word, or names another error, as it may."""
    for properties, reason in ((b"\x15" + text("none"), 0x8C), (receive_maximum(0), 0x82), (b"\x27\0\0\0\0", 0x82)):
        one = await b.client("refused").dial()
        one.send(connect_frame("refused", properties=properties))
        if IS_OURS or reason == 0x8C:
            await one.is_refused(reason)
        else:
            await until_end(one)


@row()
async def first_packet(b):
    """The first packet is a Connect, and there is one of them (3.1.0); other versions aren't spoken (3.1.2.2)."""
    for data in (b"\xc0\0", publish_frame("first", b"x"), b"GET / HTTP/1.1\r\nHost: localhost\r\nUser-Agent: one of those that try each port\r\n\r\n",
                 connect_frame("first", version=6), b"\x00\x00"):
        one = await b.client("first").dial()
        one.send(data)
        # (mosquitto answers the version as in MQTT 3.1.1)
        await until_end(one, 0x84, *([] if IS_OURS else [1]))
    one = b.client("first")
    await one.connect()
    one.send(connect_frame("first"))
    await (one.ends_by(0x82) if IS_OURS else until_end(one))


async def until_end(one, *reasons):
    """The connection ends, behind a ConnAck or Disconnect at most, whose reason is an error."""
    try:
        while True:
            first, body = await one.frame()
            assert first in (0x20, 0xE0), f"{first:02x} {body.hex()}"
            reason = body[1] if first == 0x20 else body[0]
            assert reason in reasons or (reason >= 0x80 and not reasons), f"{first:02x} {body.hex()}"
    except Ended:
        one.cut()


MALFORMED = {
    "a QoS of 3 (3.3.1.2)": frame(0x36, text("m") + b"\0\1\0x"),
    "a length of five bytes (1.5.5)": b"\x30\xff\xff\xff\xff\x01",
    "properties past the end of the packet (2.2.2.1)": frame(0x30, text("m") + b"\x05\x01\x01"),
    "a property that a Publish hasn't (2.2.2.2)": frame(0x30, text("m") + b"\x05" + expiry(1)),
    "a topic past the end of the packet (1.5.4)": frame(0x30, b"\x00\x09m"),
    "an ack without an identifier (3.4.2)": frame(0x40, b"\x00"),
    "filters that are cut short (3.8.3)": frame(0x82, b"\0\1\0" + text("m") + b"\0" + b"\0\7m"),
}


@row()
async def malformed(b):
    """A frame that can't be read ends its connection with Malformed Packet (4.13.1), and no other one. (Mosquitto closes after some
    of them without a word, and takes others for protocol errors.)"""
    async with b.connected("malformed-other") as other:
        await other.subscribe("malformed")
        for what, data in MALFORMED.items():
            one = b.client("malformed-one")
            await one.connect()
            one.send(data)
            try:
                await (one.ends_by(0x81) if IS_OURS else until_end(one))
            except (AssertionError, Ended, asyncio.TimeoutError) as fault:
                raise AssertionError(f"{what}: {fault!r}") from fault
            await other.publish("malformed", what.encode(), 1)
            assert (await other.take()).payload == what.encode()


@row()
async def protocol_errors(b):
    """Packets that a client may not send end its connection with their reasons (4.13.1)."""
    cases = [
        (frame(0x20, b"\0\0\0"), 0x82),                                     # a ConnAck (3.2)
        (frame(0xF0, b"\x18\0"), 0x82),                                      # an Auth without a method (4.12)
        (publish_frame("errors/#", b"x"), 0x90),                             # a wildcard in a topic (3.3.2.1)
        (publish_frame("errors", b"x", properties=topic_alias(65535)), 0x94),  # an alias over the maximum (3.3.2.3.4)
        (publish_frame("errors", b"x", properties=topic_alias(0)), 0x94),     # and one of 0
        (publish_frame("", b"x", properties=topic_alias(1)), 0x82),           # one that stands for nothing
        (publish_frame("", b"x"), 0x82),                                     # no topic, and no alias (3.3.2.1)
    ]
    if IS_OURS:
        # (mosquitto takes them)
        cases.append((frame(0x90, b"\0\1\0\0"), 0x82))                       # a SubAck (3.9)
        cases.append((publish_frame("errors", b"x", properties=b"\x0b\x01"), 0x82))  # a subscription's identifier (3.3.4)
    for data, reason in cases:
        one = b.client("errors")
        await one.connect()
        one.send(data)
        # (mosquitto calls some of them protocol errors, or closes without a word)
        await (one.ends_by(reason) if IS_OURS else until_end(one))


@row()
async def too_long(b):
    """A packet over the maximum that the ConnAck says ends its connection (3.2.2.3.6), before it has come whole; and the word of
    that comes, whatever is still being sent."""
    for more in (0, 10, 100000, 1000000):
        one = b.client("too-long")
        await one.connect()
        assert one.connack.get(0x27) == LONGEST, one.connack
        one.send(b"\x30" + number(LONGEST + 1) + text("too-long"))
        await one.writer.drain()
        one.send(b"x" * more)
        # (mosquitto closes at once, and what it said may be lost with that)
        await (one.ends_by(0x95) if IS_OURS or not more else until_end(one))
    async with b.connected("too-long") as two:
        await two.subscribe("too-long")
        whole = b"x" * (LONGEST - 100)
        await two.publish("too-long", whole, 1)
        assert (await two.take()).payload == whole


@row()
async def topic_aliases(b):
    """A client's aliases stand for the topics that it says, as long as its connection, and each message comes with its topic
    (3.3.2.3.4)."""
    async with b.connected("alias-sub") as sub, b.connected("alias-pub") as pub:
        assert pub.connack[0x22] == 10, pub.connack
        await sub.subscribe("alias/#")
        sent = [("alias/one", 1), ("", 1), ("alias/ten", 10), ("", 1), ("", 10), ("alias/two", 1), ("", 1), ("", 10), ("alias/no", None)]
        topics = {}
        for qos in (0, 1, 2):
            for i, (topic, alias) in enumerate(sent):
                topics[alias] = topic or topics[alias]
                await pub.publish(topic, b"%d" % i, qos, properties=topic_alias(alias) if alias else b"")
                message = await sub.take()
                assert (message.topic, message.payload, message.qos) == (topics[alias], b"%d" % i, qos), message
                assert topic_alias(alias or 0)[:1] not in message.properties, message
        # one of another connection stands for nothing here
        await pub.disconnect()
        await pub.connect()
        pub.send(publish_frame("", b"x", properties=topic_alias(1)))
        await (pub.ends_by(0x82) if IS_OURS else until_end(pub))
        await sub.ping()
    # and without a maximum each is too great
    if IS_OURS:
        async with started("--max-topic-alias", "0") as none, none.connected("alias-none") as one:
            assert 0x22 not in one.connack, one.connack
            one.send(publish_frame("a", b"x", properties=topic_alias(1)))
            await one.ends_by(0x94)


@row()
async def offered(b):
    """The ConnAck says of nothing that there isn't (3.2.2.3.4 to 3.2.2.3.13): of each QoS, of what is retained, of wildcards,
    subscription identifiers and shared subscriptions. A filter that is none is invalid (4.7.1)."""
    one = b.client("offered")
    await one.connect()
    assert not one.connack.keys() & {0x24, 0x25, 0x28, 0x29, 0x2A}, one.connack
    one.send(subscribe_frame(1, [("a/#/b", 0)]))
    await (one.ends_by(0x8F) if IS_OURS else until_end(one))


@row(mosquitto=False)  # (mosquitto ends such connections without an answer)
async def shortest_of_client(b):
    """A client that takes less than the ConnAck of its Connect may need is refused with Packet too large (3.1.2.11.4)."""
    for name, least in (("shortest", 16), ("", 44)):
        one = await b.client(name).dial()
        one.send(connect_frame(name, properties=longest_packet(least - 1)))
        await one.is_refused(0x95)
        one = await b.client(name).dial()
        one.send(connect_frame(name, properties=longest_packet(least)))
        first, body = await one.frame()
        assert (first, body[:2]) == (0x20, b"\0\0") and 2 + len(body) <= least, body
        await one.ping()
        one.cut()


# ---- Many, slow and hostile clients. ----


@row()
async def thousand(b):
    """A thousand clients at once: a message to each, and one to all."""
    clients = [b.client(f"thousand-{i}") for i in range(1000)]

    async def begin(i):
        async with door:
            await clients[i].connect()
            await clients[i].subscribe((f"thousand/{i}", 1), ("thousand/all", 0))

    door = asyncio.Semaphore(100)
    await asyncio.gather(*(begin(i) for i in range(1000)))
    for i in range(1000):
        clients[i].send(publish_frame(f"thousand/{(i + 1) % 1000}", b"%d" % i, 1, id=1))
    for i in range(1000):
        await clients[i].answer(PUBACK)
        assert (await clients[i].take()).payload == b"%d" % ((i - 1) % 1000)
    await clients[0].publish("thousand/all", b"all", 1)
    for client in clients:
        assert (await client.take()).payload == b"all"
    begun = time.monotonic()
    for i in range(100):
        await clients[500].publish("thousand/7", b"x", 1)
        await clients[7].take()
    took = time.monotonic() - begun
    assert took < 20, f"100 messages beside 998 idle clients take {took:.1f} s"
    for client in clients:
        client.cut()


async def stays_quick(b, name, until, most=5):
    """A client's messages to itself come soon, as long as something goes on."""
    worst = 0
    async with b.connected(name) as one:
        await one.subscribe((name, 1))
        while not until.is_set():
            begun = time.monotonic()
            await one.publish(name, b"x", 1)
            await one.take()
            worst = max(worst, time.monotonic() - begun)
            await asyncio.sleep(0.02)
    assert worst < most, f"{name} waits for {worst:.1f} s"


@row()
async def busy_ones_beside_many(b):
    """Where two of hundreds of clients are busy, all comes in order, and neither a third one nor one that connects waits long."""
    idle = [b.client(f"busy-idle-{i}") for i in range(600)]

    async def begin(client):
        async with door:
            await client.connect()

    async def floods():
        for i in range(0, 40000, 100):
            pub.send(b"".join(publish_frame("busy", b"%d" % n) for n in range(i, i + 100)))
            await pub.writer.drain()
            await asyncio.sleep(0)

    async def connects():
        while not done.is_set():
            begun = time.monotonic()
            async with b.connected("busy-new") as new:
                await new.ping()
            assert time.monotonic() - begun < 3, "who connects beside busy ones waits for more than three seconds"

    door = asyncio.Semaphore(100)
    await asyncio.gather(*(begin(client) for client in idle))
    done = asyncio.Event()
    others = [asyncio.create_task(stays_quick(b, "busy-other", done, 3)), asyncio.create_task(connects())]
    async with b.connected("busy-sub") as sub, b.connected("busy-pub") as pub:
        await sub.subscribe(("busy", 0))
        flood = asyncio.create_task(floods())
        for n in range(40000):
            assert (await sub.take()).payload == b"%d" % n
        await flood
    done.set()
    await asyncio.gather(*others)
    for client in idle:
        client.cut()


@row()
async def reads_nothing(b):
    """A client that reads nothing holds nobody up, and has all messages once it reads."""
    done = asyncio.Event()
    other = asyncio.create_task(stays_quick(b, "nothing-other", done))
    sub = b.client("nothing-sub", buffer=4096)
    await sub.connect()
    await sub.subscribe(("nothing", 1))
    async with b.connected("nothing-pub") as pub:
        for i in range(200):
            await pub.publish("nothing", b"%d:" % i + b"x" * 100000, 1)
    await asyncio.sleep(0.5)
    done.set()
    await other
    for i in range(200):
        assert (await sub.take(30)).payload.startswith(b"%d:" % i)
    sub.cut()


@row(mosquitto=False)  # (there are others at that broker)
async def will_of_one_who_reads_nothing(_):
    """The will of a client whose messages wait is published once its connection is lost, though nobody else says anything."""
    async with started() as b, b.connected("blocked-pub") as pub, b.connected("blocked-sub") as sub:
        await sub.subscribe("blocked/will")
        one = b.client("blocked", buffer=4096)
        await one.connect(will=Will("blocked/will", b"gone", 1))
        await one.subscribe(("blocked", 0))
        for _ in range(100):
            await pub.publish("blocked", b"x" * 100000, 1)
        await asyncio.sleep(0.2)
        one.cut()
        assert (await sub.take(5)).payload == b"gone"


@row(mosquitto=False)  # (mosquitto goes on reading)
async def answers_unread(b):
    """The server stops reading from a client that asks for answers and reads none."""
    done = asyncio.Event()
    other = asyncio.create_task(stays_quick(b, "unread-other", done))
    one = b.client("unread", buffer=4096)
    await one.connect()
    sent, pings = 0, b"\xc0\0" * 32768
    try:
        while sent < 200000000:
            one.send(pings)
            await asyncio.wait_for(one.writer.drain(), 2)
            sent += len(pings)
        raise AssertionError("the server takes 200 MB of pings without an answer being read")
    except asyncio.TimeoutError:
        pass
    done.set()
    await other
    one.cut()


@row(mosquitto=False)  # (mosquitto seeks among retained messages by levels)
async def costly_subscribes(_):
    """Subscribes that come together, each of which is compared with thousands of retained messages, hold nobody up for as long as
    all of them take."""
    async with started() as b, b.connected("costly-pub") as pub:
        for i in range(0, 8000, 100):
            pub.send(b"".join(publish_frame(f"costly/{n}", b"x", retain=1) for n in range(i, i + 100)))
            await pub.writer.drain()
        await pub.ping()
        done = asyncio.Event()
        other = asyncio.create_task(stays_quick(b, "costly-other", done))
        async with b.connected("costly") as one:
            # (more bytes than are read at a time)
            one.send(b"".join(subscribe_frame(id, 60 * [("none", 0)]) for id in range(1, 181)))
            for id in range(1, 181):
                body = await one.answer(SUBACK, 40)
                assert int.from_bytes(body[:2], "big") == id
        done.set()
        await other


def hostile_frames(chance):
    """Frames by the standard, some bent: bytes that are changed, left out, doubled or added, and lengths that lie."""
    name = f"hostile-{chance.randrange(20)}"
    whole = [
        connect_frame(name, chance.random() < 0.5, 60, expiry(chance.randrange(3)), Will(f"hostile/{name}", b"will", chance.randrange(3))),
        subscribe_frame(chance.randrange(1, 9), [(chance.choice(["hostile/#", "hostile/+", "+/hostile", "$share/g/hostile/+"]), chance.randrange(64))],
                        chance.choice([b"", identifier(chance.randrange(1, 300))])),
        publish_frame("hostile/x", b"x" * chance.randrange(50), 0),
        publish_frame("hostile/y", b"y", chance.choice([1, 2]), chance.randrange(2), chance.randrange(1, 9), chance.randrange(2)),
        ack_frame(chance.choice([PUBACK, PUBREC, PUBREL, PUBCOMP]), chance.randrange(9)), b"\xc0\0",
        frame(0xA2, b"\0\1\0" + text("hostile/#")), disconnect_frame(chance.choice([0, 4, 0x82]), expiry(chance.randrange(3))),
    ]
    out = b"" if chance.random() < 0.1 else connect_frame(name, True, 60)
    for _ in range(chance.randrange(1, 12)):
        data = bytearray(chance.choice(whole))
        for _ in range(chance.choice([0, 0, 1, 1, 2, 5])):
            at, way = chance.randrange(len(data)), chance.randrange(4)
            if way == 0:
                data[at] = chance.choice([0, 1, 0x7F, 0x80, 0xFF, data[at] ^ 1 << chance.randrange(8)])
            elif way == 1 and len(data) > 1:
                del data[at]
            elif way == 2:
                data[at:at] = data[at:at + 1]
            else:
                data[at:at] = chance.randbytes(chance.randrange(4))
        out += data
    return out


@row()
async def hostile(b):
    """Hostile frames touch nobody else."""
    chance, done = random.Random(SEED), asyncio.Event()
    other = asyncio.create_task(stays_quick(b, "apart-other", done))

    async def attack(data):
        async with door:
            one = await b.client("").dial()
            try:
                one.send(data)
                await asyncio.wait_for(one.reader.read(1 << 16), 0.3)
            except (asyncio.TimeoutError, ConnectionError):
                pass
            one.cut()

    door = asyncio.Semaphore(50)
    await asyncio.gather(*(attack(hostile_frames(chance)) for _ in range(1500)))
    done.set()
    await other


# ---- Exactly once. ----


async def kill_now_and_then(one, chance):
    """The connection of a client is lost twenty times, at any moment."""
    for _ in range(20):
        await asyncio.sleep(chance.random() * 0.08)
        while not one.is_up:
            await asyncio.sleep(0.001)
        one.cut()


async def is_back(one):
    """It connects again, and its session is there."""
    one.is_up = False
    assert await one.connect(**KEPT) == 1


@row()
async def killed_subscriber(b):
    """Twenty kills of a subscriber that keeps its session: at QoS 2 all messages come, and none twice (4.3.3)."""
    sub, seen, total = b.client("killed-sub"), [], 400
    await sub.connect(**KEPT)
    await sub.subscribe("killed/sub")

    async def listen():
        while len(seen) < total or not killing.done():
            try:
                seen.append((await sub.take(1)).payload)
            except Ended:
                await is_back(sub)
            except asyncio.TimeoutError:
                assert not sending.done() or len(seen) == total, f"{len(set(seen))} of {total}"

    async def send():
        async with b.connected("killed-feeder") as pub:
            for i in range(total):
                await pub.publish("killed/sub", b"%d" % i, 2)
                await asyncio.sleep(0.003)

    sending = asyncio.create_task(send())
    killing = asyncio.create_task(kill_now_and_then(sub, random.Random(SEED)))
    await asyncio.gather(listen(), sending, killing)
    if not sub.is_up:
        await is_back(sub)
    await sub.ping()
    assert not sub.inbox and sorted(map(int, seen)) == list(range(total)), f"{len(seen)} messages, {len(set(seen))} of {total}"
    await sub.disconnect(0, expiry(0))


class Publisher:
    """Publishes at QoS 2 over connections that are lost, and keeps what isn't done (4.3.3, 4.4)."""

    def __init__(self, one):
        self.one, self.stored, self.released = one, {}, set()

    def resend(self):
        for id, payload in self.stored.items():
            self.one.send(publish_frame("killed/pub", payload, 2, id=id, dup=1))
        for id in self.released:
            self.one.send(ack_frame(PUBREL, id))

    def give(self, payload):
        id = next(i for i in range(1, 65536) if i not in self.stored and i not in self.released)
        self.stored[id] = payload
        self.one.send(publish_frame("killed/pub", payload, 2, id=id))

    async def hear(self):
        first, body = await self.one.frame(1)
        id = int.from_bytes(body[:2], "big")
        if first >> 4 == PUBREC:
            self.stored.pop(id, None)
            self.released.add(id)
            self.one.send(ack_frame(PUBREL, id))
        else:
            assert first >> 4 == PUBCOMP, f"{first:02x} {body.hex()}"
            self.released.discard(id)


@row()
async def killed_publisher(b):
    """Twenty kills of a publisher that keeps its session: at QoS 2 all messages come, and none twice (4.3.3)."""
    pub, total = b.client("killed-pub"), 400
    await pub.connect(**KEPT)
    session = Publisher(pub)

    async def send():
        given = 0
        while given < total or session.stored or session.released or not killing.done():
            if given < total and len(session.stored) < 10:
                session.give(b"%d" % given)
                given += 1
                await asyncio.sleep(0.002)
                continue
            try:
                await session.hear()
            except Ended:
                await is_back(pub)
                session.resend()
            except asyncio.TimeoutError:
                assert not (session.stored or session.released), "no ack in a second"

    async with b.connected("killed-watcher") as sub:
        await sub.subscribe("killed/pub")
        killing = asyncio.create_task(kill_now_and_then(pub, random.Random(SEED)))
        _, _, seen = await asyncio.gather(killing, send(), sub.payloads(total, 30))
        await sub.ping()
        assert not sub.inbox and sorted(map(int, seen)) == list(range(total)), f"{len(seen)} messages, {len(set(seen))} of {total}"
    if not pub.is_up:
        await is_back(pub)
    await pub.disconnect(0, expiry(0))


@row()
async def shared_killed(b):
    """Forty kills in a group that keeps its sessions: at QoS 2 each message comes to one of its members, and once (4.3.3, 4.8.2)."""
    members, total = [b.client(f"killed-member-{i}") for i in range(3)], 200
    seen = [[] for _ in members]
    for member in members:
        await member.connect(**KEPT)
        await member.subscribe("$share/g/killed/shared")

    async def listen(i):
        while sum(map(len, seen)) < total or not all(task.done() for task in killing):
            try:
                seen[i].append((await members[i].take(1)).payload)
            except Ended:
                await is_back(members[i])
            except asyncio.TimeoutError:
                assert not sending.done() or sum(map(len, seen)) >= total, f"{sum(map(len, seen))} of {total}"

    async def send():
        async with b.connected("killed-sharer") as pub:
            for i in range(total):
                await pub.publish("killed/shared", b"%d" % i, 2)
                await asyncio.sleep(0.005)

    sending = asyncio.create_task(send())
    # (the third one is always there)
    killing = [asyncio.create_task(kill_now_and_then(members[i], random.Random(SEED + i))) for i in range(2)]
    await asyncio.gather(sending, *killing, *(listen(i) for i in range(3)))
    for member in members:
        if not member.is_up:
            await is_back(member)
        await member.ping()
        assert not member.inbox, member.inbox
        await member.disconnect(0, expiry(0))
    assert sorted(int(payload) for payloads in seen for payload in payloads) == list(range(total)), [len(payloads) for payloads in seen]
    assert all(seen), [len(payloads) for payloads in seen]


# ---- Clients of others, and of this repository. ----

PEERS = os.environ.get("PEERS", "").split()


def peer(name, mosquitto=True):
    """A row that is there where this client is installed or built: tests/broker says which are."""
    return row(name in PEERS, mosquitto and name in PEERS)


async def runs(*words, input=b"", status=0, within=LIMIT, env=None):
    """A program that ends so; answers what it printed."""
    process = await asyncio.create_subprocess_exec(*words, stdin=asyncio.subprocess.PIPE, stdout=asyncio.subprocess.PIPE,
                                                   stderr=asyncio.subprocess.PIPE, env=env)
    try:
        out, err = await asyncio.wait_for(process.communicate(input), within)
    except asyncio.TimeoutError:
        process.kill()
        raise
    assert process.returncode == status, f"{' '.join(words)}: status {process.returncode}: {(out + err).decode(errors='replace')[-1000:]}"
    return out


def theirs(b, program, name, *words):
    return [f"mosquitto_{program}", "-V", "5", "-p", str(b.port), "-i", name, *words]


async def until_subscribed(b, topic):
    """A publisher's messages reach the subscribers of this topic: a retained message is there before them, which they show first."""
    async with b.connected(f"ready-{topic}") as one:
        await one.publish(topic, b"ready", 1, retain=1)


@peer("mosquitto_sub")
async def mosquitto_clients(b):
    """mosquitto_pub and mosquitto_sub: each QoS, retained messages, a will, a session that is kept, and many lines."""
    await until_subscribed(b, "theirs/ready")
    for qos in "012":
        process = await asyncio.create_subprocess_exec(
            *theirs(b, "sub", "theirs-sub", "-q", qos, "-t", f"theirs/{qos}", "-t", "theirs/ready", "-C", "4", "-F", "%p %q %r"), stdout=asyncio.subprocess.PIPE)
        assert (await asyncio.wait_for(process.stdout.readline(), 10)) == b"ready %d 1\n" % min(int(qos), 1)
        for other in "012":
            await runs(*theirs(b, "pub", "theirs-pub", "-q", other, "-t", f"theirs/{qos}", "-m", f"at {other}"))
        out, _ = await asyncio.wait_for(process.communicate(), 10)
        assert out.decode() == "".join(f"at {other} {min(int(qos), int(other))} 0\n" for other in range(3)), out
    await runs(*theirs(b, "sub", "theirs-kept", "-q", "2", "-c", "-x", "100", "-t", "theirs/kept", "-E"))
    lines = b"".join(b"%d\n" % i for i in range(1000))
    await runs(*theirs(b, "pub", "theirs-pub", "-q", "2", "-t", "theirs/kept", "-l"), input=lines)
    # (mosquitto 2.0.11 passes the Receive Maximum of 20 that its client says else)
    more = () if IS_OURS else ("-D", "connect", "receive-maximum", "2000")
    out = await runs(*theirs(b, "sub", "theirs-kept", "-q", "2", "-c", "-x", "0", "-t", "theirs/kept", "-C", "1000", *more))
    assert out == lines
    async with b.connected("theirs-watcher") as sub:
        await sub.subscribe("theirs/will")
        process = await asyncio.create_subprocess_exec(
            *theirs(b, "sub", "theirs-will", "-t", "theirs/ready", "--will-topic", "theirs/will", "--will-payload", "gone", "--will-qos", "2"), stdout=asyncio.subprocess.PIPE)
        await asyncio.wait_for(process.stdout.readline(), 10)
        process.kill()
        assert (await sub.take()).payload == b"gone"
        await process.communicate()


@peer("paho")
async def paho(b):
    """Paho for Python: tests/broker_paho.py."""
    out = await runs(os.environ["PAHO_PYTHON"], "tests/broker_paho.py", str(b.port))
    assert out.endswith(b"done\n"), out


@peer("paho_c")
async def paho_c(b):
    """The examples of Paho for C, over its calls that wait (paho_cs_sub, paho_cs_pub) and over those that don't: each QoS both ways, a
    retained message, properties, a will, and many lines."""
    def words(program, name, *more):
        # (--quiet: nothing but what comes)
        return [f"paho_{program}", "-V", "5", "-h", "127.0.0.1", "-p", str(b.port), "-i", name, "-k", "60", "--quiet", *more]

    async def begun(kind, name, topic, qos, *more):
        await until_subscribed(b, topic)
        process = await asyncio.create_subprocess_exec(
            *words(f"{kind}_sub", name, "-q", qos, "-t", topic, *more), stdout=asyncio.subprocess.PIPE)
        assert await asyncio.wait_for(process.stdout.readline(), 10) == b"ready\n"
        return process

    async def ended(process, lines):
        for line in lines:
            assert await asyncio.wait_for(process.stdout.readline(), 10) == line + b"\n", line
        process.send_signal(signal.SIGINT)
        out, _ = await asyncio.wait_for(process.communicate(), 10)
        assert not out and process.returncode == 0, (out, process.returncode)

    async def at_each_qos(kind):
        for qos in "012":
            topic = f"paho-c/{kind}/{qos}"
            process = await begun(kind, f"paho-{kind}-sub", topic, qos)
            for other in "012":
                more = ("--user-property", "at", other, "--message-expiry", "60") if other == "2" else ()
                await runs(*words(f"{kind}_pub", f"paho-{kind}-pub", "-q", other, "-t", topic, "-m", f"at {other}", *more))
            await ended(process, [b"at %d" % other for other in range(3)])

    async with b.connected("paho-c-watcher") as watcher:
        await watcher.subscribe("paho-c/all", "paho-c/will")
        await asyncio.gather(at_each_qos("c"), at_each_qos("cs"))
        # Many lines, as only the one that waits takes them to their end.
        process = await begun("c", "paho-c-lines", "paho-c/lines", "2")
        lines = [b"%d" % i for i in range(200)]
        await runs(*words("cs_pub", "paho-cs-lines", "-q", "2", "-t", "paho-c/lines"), input=b"".join(line + b"\n" for line in lines))
        await ended(process, lines)
        await runs(*words("c_pub", "paho-c-pub", "-q", "1", "-t", "paho-c/all", "-m", "kept", "-r", "--user-property", "k", "v"))
        got = await watcher.take()
        assert (got.payload, got.qos, properties_of(got.properties)) == (b"kept", 1, [(38, (b"k", b"v"))]), got
        process = await begun("cs", "paho-c-late", "paho-c/late", "1")
        await runs(*words("cs_pub", "paho-cs-pub", "-q", "1", "-t", "paho-c/late", "-m", "last", "-r"))
        await ended(process, [b"last"])
        process = await asyncio.create_subprocess_exec(
            *words("c_sub", "paho-c-late", "-q", "1", "-t", "paho-c/late"), stdout=asyncio.subprocess.PIPE)
        await ended(process, [b"last"])
        for kind in ("c", "cs"):
            will = ("--will-topic", "paho-c/will", "--will-payload", f"gone {kind}", "--will-qos", "2")
            process = await begun(kind, f"paho-{kind}-will", f"paho-c/{kind}", "0", *will)
            process.kill()
            assert (await watcher.take()).payload == f"gone {kind}".encode()
            await process.communicate()


@peer("mqttjs")
async def mqttjs(b):
    """mqtt.js: tests/broker_mqttjs.js."""
    out = await runs("node", "tests/broker_mqttjs.js", str(b.port))
    assert out.endswith(b"done\n"), out


@peer("own", mosquitto=False)  # (tests/live_rows has them at mosquitto)
async def own(b):
    """This repository's clients in C and Python, by rows of tests/live_rows."""
    async def one(*words):
        out = await runs(*words)
        assert out.endswith(b"done\n"), (words, out)

    at = ("127.0.0.1", str(b.port), "one", "right")
    python = [("python3", "tests/live_clients.py", kind, name, *at) for kind, names in
              (("asyncio", "will goodbye response expiry filters cuts thirty leaving qualities"), ("blocking", "will response qualities"))
              for name in names.split()]
    in_c = [(os.environ["C_CLIENT"], name, *at) for name in ("will", "goodbye", "response", "expiry", "filters")]
    example = (os.environ["C_EXAMPLE"], "127.0.0.1", str(b.port), f"{FOLDER}/kept.{os.path.basename(BROKER)}")
    await asyncio.gather(*(one(*words) for words in python + in_c + [example]))
    await one(*example)


@peer("pubsub", mosquitto=False)  # (tests/live has them at mosquitto)
async def pubsub(b):
    """./mqtt5 pub and sub, as they are built."""
    program = os.environ["PUBSUB"]

    async def runs_on(words, lines=b""):
        # (the program's connection is its standard input and output; it shows messages as standard error)
        line = f'exec "$0" "$@" <> /dev/tcp/127.0.0.1/{b.port} >&0'
        process = await asyncio.create_subprocess_exec("bash", "-c", line, program, *words, stderr=asyncio.subprocess.PIPE)
        _, shown = await asyncio.wait_for(process.communicate(), LIMIT)
        assert process.returncode == 0, (words, shown)
        return shown

    await runs_on(["sub", "-i", "pubsub-sub", "-E", "-c", "-x", "100", "-q", "2", "pubsub/#"])
    for qos in "012":
        await runs_on(["pub", "-i", "pubsub-pub", "-q", qos, "-t", "pubsub/x", "-m", f"at {qos}"])
    shown = await runs_on(["sub", "-i", "pubsub-sub", "-c", "-x", "0", "-q", "2", "-C", "2", "pubsub/#"])
    # (of those of QoS 0 a broker may let go of what waits for nobody: 3.1.2.11.2)
    assert shown.split(b"\n")[-3:-1] in ([b"at 1", b"at 2"], [b"at 0", b"at 1"]), shown


# ---- The server by itself. ----


@row(mosquitto=False)  # (mosquitto 2.0 closes without a word)
async def shut_down(_):
    """INT and TERM: each client is told (0x8B), and the server ends with status 0; nobody is taken any more."""
    for sign in (signal.SIGINT, signal.SIGTERM):
        b = await start()
        clients = [b.client(f"down-{i}") for i in range(20)]
        for client in clients:
            await client.connect()
        silent = await b.client("").dial()
        ending = asyncio.create_task(stop(b, sign))
        for client in clients:
            await client.ends_by(0x8B)
        await silent.ends()
        assert await ending == 0
        assert b.logged().count("Server shutting down (0x8B)") == 20


@row(mosquitto=False)  # (its limits have other names)
async def limits(_):
    """--max-connections, and --max-inflight ids."""
    async with started("--max-connections", "3", "--max-inflight", "4") as b:
        async with b.connected("limits-1") as pub, b.connected("limits-2") as sub:
            third = b.client("limits-3")
            await third.connect()
            fourth = await b.client("limits-4").dial()
            await fourth.ends()
            await b.says("refused, since all connections are taken")
            await third.disconnect()
            await b.client("limits-4").connect()
            await sub.subscribe("limits")
            sub.manual = True
            for i in range(6):
                await pub.publish("limits", b"%d" % i, 1)
            ids = [(await sub.take()).id for _ in range(4)]
            await sub.is_quiet(0.2)
            assert sorted(ids) == [1, 2, 3, 4]
            sub.send(ack_frame(PUBACK, ids[1]))
            assert (await sub.take()).id == ids[1]


@row(mosquitto=False)  # (it drops messages)
async def copies_beyond_bounds(_):
    """A Subscribe that may bring more copies of retained messages than may wait ends the connection, though a hundred more come behind
    it, and so does one with too many filters (4.13, Quota exceeded); what is in the bounds is served, and others go on."""
    async with started("--max-queued-messages", "10", "--max-subscriptions", "3") as b, b.connected("copies-pub") as pub:
        for i in range(11):
            await pub.publish(f"copies/{i}", b"%d" % i, 1, retain=1)
        one = b.client("copies-one")
        await one.connect()
        one.send(100 * subscribe_frame(1, [("copies/+", 0)]))
        await one.ends_by(0x97)
        two = b.client("copies-two")
        await two.connect()
        two.send(subscribe_frame(1, [(f"copies/{i}", 0) for i in range(4)]))
        await two.ends_by(0x97)
        async with b.connected("copies-three") as three:
            await three.subscribe("copies/1", "copies/2", "copies/3")
            assert await three.payloads(3) == [b"1", b"2", b"3"]
        await pub.ping()


@row(mosquitto=False)  # (it has no such bound)
async def shared_beyond_bounds(_):
    """A Subscribe that brings more filters of shared subscriptions than there may be ends the connection (4.13, Quota exceeded);
    others take part in those that there are, and there is room again once nobody has one."""
    async with started("--max-shared", "2") as b, b.connected("shared-one") as one:
        await one.subscribe("$share/a/shared/x", "$share/b/shared/x")
        two = b.client("shared-two")
        await two.connect()
        two.send(subscribe_frame(1, [("$share/c/shared/x", 0)]))
        await two.ends_by(0x97)
        async with b.connected("shared-three") as three:
            await three.subscribe("$share/a/shared/x", "shared/+")
            await one.unsubscribe("$share/b/shared/x")
            await three.subscribe("$share/c/shared/x")
            await one.ping()


@row(mosquitto=False)  # (its bounds have other names, and it drops messages)
async def bounds(_):
    """What is kept at most: sessions, also of clients that are away, and retained messages; and what the server measures once a
    second, the subscriptions of a client and what waits for it, of which messages of QoS 0 are let go."""
    words = "--max-sessions 5 --max-retained 2 --max-subscriptions 2 --max-queued-messages 50 --max-queued-bytes 200000"
    async with started(*words.split()) as b, b.connected("bounds-pub") as pub:
        away, many, slow = b.client("bounds-away"), b.client("bounds-many"), b.client("bounds-slow", buffer=4096)
        lossy = b.client("bounds-lossy", buffer=4096)
        await away.connect(**KEPT)
        await away.subscribe(("bounds/away", 1))
        away.cut()
        await many.connect()
        await slow.connect()
        await lossy.connect()
        sixth = await b.client("").dial()
        sixth.send(connect_frame("bounds-sixth"))
        await sixth.is_refused(0x97)
        assert await many.subscribe("bounds/1", "bounds/2") == [2, 2]
        assert await many.subscribe("bounds/1") == [2]
        await asyncio.sleep(1.5)
        await many.ping()
        await many.subscribe("bounds/3")
        await many.ends_by(0x97)
        await slow.subscribe(("bounds/slow", 1))
        for _ in range(40):
            await pub.publish("bounds/slow", bytes(400000), 1)
        await b.says("ended: its last bytes were not taken")
        # Of QoS 0 the first that wait are let go (4.3.1).
        await lossy.subscribe(("bounds/lossy", 0))
        for i in range(1600):
            await pub.publish("bounds/lossy", i.to_bytes(2, "big") + bytes(9998), 1)
        await b.says("messages dropped", 10)
        got = []
        while got[-1:] != [1599]:
            got.append(int.from_bytes((await lossy.take()).payload[:2], "big"))
        assert len(got) < 1600 and got == sorted(got), f"{len(got)} of 1600"
        await lossy.ping()
        for _ in range(60):
            await pub.publish("bounds/away", b"x", 1)
        await asyncio.sleep(4)
        assert await away.connect(**KEPT) == 0
        for topic in ("bounds/a", "bounds/b", "bounds/a"):
            await pub.publish(topic, b"x", 1, retain=1)
        pub.send(publish_frame("bounds/c", b"x", retain=1))
        await pub.ends_by(0x97)
        await away.ping()
        away.cut()


@row(mosquitto=False)  # (it drops the newest)
async def discard_oldest(_):
    """Where the operator wants that, the oldest messages of a queue that is too long are dropped, of any QoS, and counted in the log:
    the session stays, with the last ones."""
    words = "--max-queued-messages 50 --max-queued-bytes 20000 --discard-oldest"
    async with started(*words.split()) as b, b.connected("oldest-pub") as pub:
        for qos, payload, kept, dropped in ((1, 4, 50, 70), (2, 996, 19, 171)):
            away = b.client(f"oldest-{qos}")
            await away.connect(**KEPT)
            await away.subscribe((f"oldest/{qos}", qos))
            await away.disconnect()
            for i in range(120):
                await pub.publish(f"oldest/{qos}", i.to_bytes(4, "big") + bytes(payload - 4), qos)
            await b.says(f", {dropped} in all", 15)
            assert await away.connect(**KEPT) == 1
            got = [int.from_bytes((await away.take()).payload[:4], "big") for _ in range(kept)]
            assert got == list(range(120 - kept, 120)), got
            await away.ping()
            assert not away.inbox, away.inbox
            await away.disconnect()


async def says(*words):
    process = await asyncio.create_subprocess_exec(BROKER, *words, stdout=asyncio.subprocess.PIPE, stderr=asyncio.subprocess.PIPE)
    try:
        out, err = await asyncio.wait_for(process.communicate(), 10)
    finally:
        if process.returncode is None:
            process.kill()
    return process.returncode, out.decode(), err.decode()


@row(mosquitto=False)
async def refused_memory(_):
    """Where memory is refused a connection ends, and the server goes on (tests/broker_short.c): once there is memory all is well,
    and each number has come free."""
    async with started("--max-connections", "10", program=os.environ["SHORT_BROKER"], users={"short": "x"}) as b:
        # (who isn't held is closed by Python)
        in_a_row, tries, held = 0, 0, []
        while in_a_row < 40:
            tries += 1
            assert tries < 2000, "clients are still refused"
            try:
                one = b.client(f"short-{tries % 7}")
                held.append(one)
                await one.connect(
                    keep=1, properties=expiry(1), will=Will("short/will", b"gone", 1, delay=tries % 3), login=("short", "x"))
                await one.subscribe("short/+")
                await one.publish(f"short/{tries % 7}", b"x", 1 + tries % 2)
                in_a_row += 1
            except Ended:
                in_a_row = 0
                await asyncio.sleep(0.005)
            # (the others end by their keep alive)
            if tries % 5:
                one.cut()
        await b.says("ended: out of memory")
        await asyncio.sleep(3)
        last = [b.client(f"short-{i}") for i in range(10)]
        for one in last:
            await one.connect(login=("short", "x"))
        for one in last:
            await one.ping()


LONG = "x" * 511
USERS = {"ada": "first secret", "b\u00e9 b": "s\u00e9cond", "none": "", "long": LONG}


@row()
async def users(_):
    """Who has the name and the password of a user may connect (3.1.3.5, 3.1.3.6), and nobody else: such a client is refused by its
    ConnAck (3.2.2.2), and nothing that it sends behind its Connect is taken."""
    async with started(users=USERS) as b:
        sub = b.client("users-sub")
        await sub.connect(login=("ada", USERS["ada"]))
        await sub.subscribe("#")
        wrong = [
            (None, None), ("ada", None), ("ada", ""), ("ada", "first secre"), ("ada", "first secret "), ("ada", "FIRST SECRET"),
            ("Ada", "first secret"), ("ad", "first secret"), ("", "first secret"), ("b\u00e9 b", "first secret"), ("eve", "x" * 60000),
            ("x" * 65535, "first secret"), ("ada", hash_of("first secret")), ("# who may connect", "")]
        # (without a user name a Connect of version 5 may have a password)
        wrong += [(None, "first secret")] if IS_OURS else []
        for login in wrong:
            one = await b.client("users-one").dial()
            one.send(connect_frame("users-one", login=login) + publish_frame("users", b"of nobody"))
            await one.is_refused(0x86, 0x87)
        # Nobody takes the session of another over by its identifier.
        other = await b.client("users-sub").dial()
        other.send(connect_frame("users-sub", login=("ada", "wrong")))
        await other.is_refused(0x86, 0x87)
        await sub.ping()
        # In pieces of a byte, and with a publish behind it; the last password has no byte of ASCII alone.
        for name in ("ada", "b\u00e9 b"):
            one = await b.client("users-one").dial()
            for byte in connect_frame("users-one", login=(name, USERS[name])) + publish_frame("users", name.encode()):
                one.send(bytes([byte]))
                await asyncio.sleep(0.001)
            assert (await one.frame())[1][1] == 0
            assert (await sub.take()).payload == name.encode()
            await one.disconnect()
        assert not sub.inbox


@row(mosquitto=False)
async def users_file(_):
    """Which files of users are taken, and that with users it listens anywhere."""
    async with started("--bind", "0.0.0.0", users=USERS) as b:
        one = Client(b.port, "users-anywhere", "127.0.0.1")
        await one.connect(login=("ada", USERS["ada"]))
        await one.ping()
        # An empty password is one as any other; whether a client says it or none can't be told apart.
        for login in (("none", ""), ("none", None), ("long", LONG)):
            other = b.client("users-other")
            await other.connect(login=login)
            await other.disconnect()
        # One that is longer than libcrypt takes, or has a zero byte, is nobody's.
        for login, code in ((("ada", "x"), 0x86), (("long", LONG + "y"), 0x86), (("none", "\0"), 0x86), ((None, "x"), 0x86), (("ada", None), 0x86),
                            ((None, None), 0x87), (("", ""), 0x87), (("", None), 0x87)):
            refused = await b.client("users-refused").dial()
            refused.send(connect_frame("users-refused", login=login))
            await refused.is_refused(code)
        await b.says("Bad User Name or Password (0x86)")
        await b.says("Not authorized (0x87)")
    known = hash_of("x")
    for lines, why in (
            ("", "has no user"), ("# nobody\n", "has no user"), ("ada\n", "line 1 isn't NAME:HASH"), (f"\n:{known}\n", "line 2 isn't NAME:HASH"),
            ("ada:\n", "line 1 has no hash"), ("ada:x\n", "line 1 has no hash"), ("ada:secret\n", "line 1 has no hash"),
            (f"ada:{hash_of('longpassword', 'ab')}\n", "line 1 has no hash"), ("ada:$6$rounds=abc$x\n", "line 1 has no hash"),
            ("ada:$2b$99$" + 53 * "a" + "\n", "line 1 has no hash"), (f"ada:{known}\r\n", "line 1 has no hash"), (f"a:b:{known}\n", "line 1 has no hash"), (f" ada:{known}\n", "line 1 has a name that begins or ends"),
            (f"ada:{known}\nada:{known}\n", "line 2 has a name that another line has"), (f"a\0da:{known}\n", "line 1 has a zero byte")):
        path = f"{FOLDER}/users-file"
        with open(path, "w", newline="") as file:
            file.write(lines)
        status, _, told = await says("--users", path, "-p", "0")
        assert status == 2 and why in told and told.count("\n") == 1, (lines, status, told)
    for words in (("--users", f"{FOLDER}/no such file"), ("--users", FOLDER), ("--users",)):
        assert (await says(*words))[0] == 2


RIGHTS = """# what each may do
user ada
topic readwrite ada/#
topic read news/+
topic write inbox/bé b

user bé b
topic readwrite inbox/bé b
topic write  news/a b

pattern readwrite of/%u/#
pattern read all
"""
ADA, BE = dict(login=("ada", USERS["ada"])), dict(login=("bé b", USERS["bé b"]))


# (mosquitto 2.0 closes the connection behind each publish that it denies)
@row(mosquitto=False)
async def rights(_):
    """A user publishes within its filters alone: else QoS 1 and 2 are answered with Not authorized, QoS 0 is dropped, and nothing is
    retained (3.3.1.3, 3.4.2.1, 3.5.2.1). It is sent what lies within them alone."""
    async with started(users=USERS, rights=RIGHTS) as b:
        ada, be = b.client("rights-ada"), b.client("rights-be")
        await ada.connect(**ADA)
        await be.connect(**BE)
        # (mosquitto grants each subscription, and looks at each message)
        if IS_OURS:
            assert await ada.subscribe("#") == [0x87]
            assert await ada.unsubscribe("#") == [0x11]
        else:
            await ada.subscribe("inbox/+")
        await ada.subscribe("ada/#", "news/+", "of/ada/#", "all")
        await be.subscribe("inbox/bé b", "of/bé b/x")
        for topic, is_allowed in (
                ("news/a b", True), ("news/a", False), ("news", False), ("inbox/bé b", True), ("inbox/be b", False), ("of/bé b/x", True),
                ("of/bé b", True), ("of/ada/x", False), ("of", False), ("all", False), ("ada/x", False), ("other", False)):
            for qos in (0, 1, 2):
                code = await be.publish(topic, f"{topic} {qos}".encode(), qos, retain=1)
                assert (code < 128) if is_allowed or qos == 0 else (code == 0x87), (topic, qos, code)
        # Its own messages come to it, and what it may not publish to nobody.
        wanted = [f"{topic} {qos}" for topic in ("inbox/bé b", "of/bé b/x") for qos in (0, 1, 2)]
        assert sorted([(await be.take()).payload.decode() for _ in wanted]) == sorted(wanted)
        assert sorted(await ada.payloads(3)) == [f"news/a b {qos}".encode() for qos in (0, 1, 2)]
        # Of the retained ones a new subscription brings what it may subscribe to.
        await ada.publish("ada/own", b"own", 1, retain=1)
        assert (await ada.take()).payload == b"own"
        late = b.client("rights-late")
        await late.connect(**ADA)
        for topic_filter in ("news/+", "of/ada/+", "ada/+", "#"):
            await late.subscribe(topic_filter)
        assert sorted(set(await late.payloads(2))) == [b"news/a b 2", b"own"]
        await ada.ping()
        await be.ping()
        assert not ada.inbox and not be.inbox


@row(mosquitto=False)
async def rights_subscribe(_):
    """Each filter of a Subscribe is granted where it lies, level by level, within one of the user's, and else denied, by itself
    (3.9.3); a will beyond them refuses the Connect (3.2.2.2)."""
    async with started(users=USERS, rights=RIGHTS) as b:
        ada = b.client("rights-subscribe")
        await ada.connect(**ADA)
        for topic_filter, code in (
                ("ada/#", 2), ("ada", 2), ("ada/+/x", 2), ("ada/+", 2), ("ada/x/#", 2), ("news/+", 2), ("news/x", 2), ("news/#", 0x87), ("news", 0x87),
                ("news/x/y", 0x87), ("+/x", 0x87), ("+", 0x87), ("#", 0x87), ("adas/x", 0x87), ("inbox/bé b", 0x87), ("of/ada", 2),
                ("of/ada/#", 2), ("of/+", 0x87), ("of/bé b", 0x87), ("all", 2), ("$SYS/#", 0x87), ("Ada", 0x87)):
            assert await ada.subscribe(topic_filter) == [code], topic_filter
        many = await ada.subscribe(("news/a b", 0), ("news/#", 1), ("all", 1), ("#", 0), ("+/+", 2), ("ada/x", 2))
        assert many == [0, 0x87, 1, 0x87, 0x87, 2]
        await b.says("denied: Not authorized (0x87)")
        # Those that are denied bring nothing, and take nothing of what was granted away.
        be = b.client("rights-subscribe-be")
        await be.connect(**BE)
        assert await be.publish("news/a b", b"x", 2) == 0
        assert (await ada.take()).qos == 2
        assert await be.publish("inbox/bé b", b"y", 2) in (0, 0x10)
        await ada.ping()
        assert not ada.inbox
        # (a fault of a filter ends the connection all the same)
        ada.send(subscribe_frame(9, [("news/#", 0), ("ada+", 0)]))
        await ada.ends_by(0x8F)
        for topic, is_allowed in (("ada/gone", True), ("news/a b", False), ("all", False)):
            one = await b.client("rights-will").dial()
            one.send(connect_frame("rights-will", will=Will(topic, b"gone"), **ADA))
            if is_allowed:
                assert (await one.frame())[1][1] == 0
                one.cut()
            else:
                await one.is_refused(0x87)
        # One without lines of its own has those for all.
        none = b.client("rights-none")
        await none.connect(login=("none", ""))
        assert await none.subscribe("all", "of/none/x", "ada/x") == [2, 2, 0x87]
        assert await none.publish("ada/x", b"", 1) == 0x87


@row(mosquitto=False)  # (mosquitto grants each subscription, and looks at each message)
async def rights_shared(_):
    """A shared subscription is granted where the filter behind its name lies within one of the user's (4.8.2, 3.9.3). Who was denied
    is no member of the group."""
    async with started(users=USERS, rights=RIGHTS) as b:
        ada, be, late = b.client("rights-shared"), b.client("rights-shared-be"), b.client("rights-shared-late")
        await ada.connect(**ADA)
        await be.connect(**BE)
        await late.connect(**ADA)
        for topic_filter, code in (
                ("ada/#", 1), ("ada/x", 1), ("news/+", 1), ("news/#", 0x87), ("news", 0x87), ("#", 0x87), ("+/x", 0x87), ("inbox/bé b", 0x87),
                ("of/ada", 1), ("of/bé b", 0x87), ("all", 1), ("$SYS/#", 0x87), ("/ada", 0x87)):
            for name in ("g", "ada", "$x"):
                assert await ada.subscribe((f"$share/{name}/{topic_filter}", 1)) == [code], topic_filter
        # A name that is a level of a filter of the user's is none.
        assert await ada.subscribe("$share/ada/x", "$share/news/x", ("$share/all/all", 0), "news/#") == [0x87, 0x87, 0, 0x87]
        await b.says("denied: Not authorized (0x87)")
        assert await ada.unsubscribe("$share/ada/news/+", "$share/$x/news/+", "$share/g/news/#", "$share/ada/x") == [0, 0, 0x11, 0x11]
        assert await be.publish("news/a b", b"news", 1) == 0
        assert (await ada.take()).payload == b"news"
        assert await ada.unsubscribe("$share/g/news/+") == [0]
        for topic_filter in ("inbox/bé b", "of/bé b/x"):
            assert await late.subscribe((f"$share/h/{topic_filter}", 2)) == [0x87]
            assert await be.subscribe((f"$share/h/{topic_filter}", 2)) == [2]
            for i in range(4):
                assert await be.publish(topic_filter, b"%d" % i, 1) == 0
            assert await be.payloads(4) == [b"%d" % i for i in range(4)]
        assert await be.publish("news/a b", b"x", 1) in (0, 0x10)
        for client in (ada, be, late):
            await client.ping()
            assert not client.inbox, client.inbox
        # (a fault of a filter ends the connection all the same)
        late.send(subscribe_frame(9, [("$share/g/news/#", 0), ("$share/g", 0)]))
        await late.ends_by(0x8F)


@row(mosquitto=False)
async def rights_sessions(_):
    """A session is of the user who began it: another is refused by its identifier (3.1.4, 3.2.2.2), and takes nothing over, until
    the session has ended."""
    async with started(users=USERS) as b:
        ada = b.client("rights-session")
        assert not await ada.connect(clean=False, properties=expiry(100), **ADA)
        await ada.subscribe("rights-session/#")
        for words in (dict(clean=False), dict(clean=True)):
            be = await b.client("rights-session").dial()
            be.send(connect_frame("rights-session", **words, **BE))
            await be.is_refused(0x85)
        await b.says("Client Identifier not valid (0x85)")
        await ada.ping()
        ada.cut()
        other = b.client("rights-session-other")
        await other.connect(**BE)
        assert await other.publish("rights-session/x", b"waits", 1) == 0
        be = await b.client("rights-session").dial()
        be.send(connect_frame("rights-session", **BE))
        await be.is_refused(0x85)
        assert await ada.connect(clean=False, properties=expiry(0), **ADA)
        assert (await ada.take()).payload == b"waits"
        await ada.disconnect()
        be = b.client("rights-session")
        assert not await be.connect(**BE)
        # One that is given its identifier has a session as any other.
        given = b.client("")
        await given.connect(properties=expiry(100), **ADA)
        name = given.connack[0x12].decode()
        given.cut()
        taker = await b.client(name).dial()
        taker.send(connect_frame(name, **BE))
        await taker.is_refused(0x85)
        assert await b.client(name).connect(clean=False, **ADA)


@row(mosquitto=False)
async def rights_file(_):
    """Which files of rights are taken."""
    path, who = f"{FOLDER}/rights-file", write_users(f"{FOLDER}/rights-file-users", {"ada": "x", "b/b": "x"})
    for lines, why in (
            ("topic a\n", "line 1 stands before the first user"), ("user eve\n", "line 1 names a user that --users hasn't"),
            ("\nuser ada\ntopic a/#/b\n", "line 3 has no topic filter"), ("user ada\ntopic read \n", "line 2 ends with white space"),
            ("user ada\ntopic deny a\n", "line 2 has deny"), ("pattern of/%c\n", "line 1 has %c"), ("pattern of/x%u\n", "line 1 has %u within"),
            ("pattern of/%ux\n", "line 1 has %u within"), ("user ada\ntopics a\n", "line 2 isn't user"), ("user\n", "line 1 isn't user"),
            ("user ada\ntopic \xff\n", "line 2 has no topic filter"), ("user ada\r\n", "line 1 ends with white space"), ("user ada\ntopic raed a\n", "line 2 has none of read"),
            ("a\0\n", "line 1 has a zero byte")):
        with open(path, "w", newline="", encoding="latin-1") as file:
            file.write(lines)
        status, _, told = await says(*who, "--acl-file", path, "-p", "0")
        assert status == 2 and why in told and told.count("\n") == 1, (lines, status, told)
    for words in ((*who, "--acl-file", f"{FOLDER}/no such file"), (*who, "--acl-file"), ("--acl-file", path)):
        assert (await says(*words))[0] == 2
    # One that no line is for may do nothing.
    async with started(users={"ada": "x", "bo": "x"}, rights="user ada\ntopic a\n") as b:
        one = b.client("rights-nothing")
        await one.connect(login=("bo", "x"))
        assert await one.subscribe("a", "bo") == [0x87, 0x87]
        assert await one.publish("a", b"", 1) == 0x87
    # With users a topic that begins with $ is nobody's (4.7.2). What is retained isn't told by a bound either.
    async with started("--max-retained", "0", users=USERS, rights=RIGHTS) as b:
        one = b.client("rights-bound")
        await one.connect(**ADA)
        assert await one.subscribe("$SYS/#", "$x") == [0x87, 0x87]
        assert await one.publish("secret", b"x", 1, retain=1) == 0x87
        one.send(publish_frame("ada/x", b"x", 1, retain=1, id=9))
        await one.ends_by(0x97)
    # A name that isn't part of a level has nothing of a pattern with it.
    async with started(users={"ada": "x", "b/b": "x"}, rights="pattern of/%u/#\npattern read both\n") as b:
        for login, codes in ((("ada", "x"), [2, 2, 0x87]), (("b/b", "x"), [0x87, 2, 0x87])):
            one = b.client("rights-file")
            await one.connect(login=login)
            assert await one.subscribe(f"of/{login[0]}/x", "both", "of/x") == codes
            await one.disconnect()


@row(mosquitto=False)
async def users_wait(_):
    """Judging names and passwords holds nobody up for long: each round has one of them at most, and who connects has its turn."""
    slow = hash_of("x", "$6$rounds=200000$saltsalt")
    path = f"{FOLDER}/users-wait"
    with open(path, "w") as file:
        file.write(f"slow:{slow}\nquick:{hash_of('y')}\n")
    # (all of them take longer than a connection may say nothing: who waits to be judged has said something)
    async with started("--users", path, "--wait", "3") as b:
        one = b.client("users-wait")
        await one.connect(login=("quick", "y"))

        async def stranger():
            other = await b.client("users-stranger").dial()
            other.send(connect_frame("users-stranger", login=("slow", "wrong")))
            await other.is_refused(0x86, within=40)

        strangers = [asyncio.create_task(stranger()) for _ in range(40)]
        pings = 0
        while not all(task.done() for task in strangers):
            await one.ping()
            pings += 1
        await asyncio.gather(*strangers)
        # (a ping takes up to two rounds of the server, and its answer is read late where the machine is busy)
        assert pings >= 10, f"{pings} pings beside 40 judgements"


@row(mosquitto=False)
async def options(b):
    """Which words the server takes."""
    assert (await says("--help"))[:2][0] == 0
    for words in ("--bind 0.0.0.0", "--bind 192.168.0.1", "--bind ::", "--bind example.org", "--bind", "--port 70000", "-p", "-p 1x", "--nothing 1",
                  "--max-connections 0", "--max-inflight 65536", "--max-topic-alias 65536", "--max-keepalive -1", "--max-packet-size 268435456", "--max-sessions 0",
                  "--max-queued-bytes 18446744073709551616", "--wait -1", "--acl-file x"):
        status, _, told = await says(*words.split())
        assert status == 2 and told.count("\n") == 1, (words, status, told)
    assert "only addresses of this machine" in (await says("--bind", "0.0.0.0"))[2]
    assert (await says("-p", str(b.port)))[0] == 1
    for address, host in (("localhost", "127.0.0.1"), ("127.0.0.2", "127.0.0.2"), ("::1", "::1")):
        async with started("--bind", address) as other:
            async with Client(other.port, "options", host) as one:
                await one.ping()
    port = free_port()
    quiet = await asyncio.create_subprocess_exec(BROKER, "-q", "-p", str(port), stderr=asyncio.subprocess.PIPE)
    for tries in range(100):
        try:
            async with Client(port, "options-quiet") as one:
                await one.ping()
            break
        except OSError:
            await asyncio.sleep(0.1)
    quiet.terminate()
    assert (await quiet.communicate())[1] == b"" and quiet.returncode == 0


@row(mosquitto=False)
async def log(_):
    """A line for each connection, each client and each end."""
    async with started() as b:
        one = b.client('a"\n\x1b[2Jé')
        await one.connect()
        await one.disconnect()
        async with b.connected("lost"):
            pass
        silent = await b.client("").dial()
        silent.send(b"\xc0\0")
        await silent.ends()
        bent = b.client("bent")
        await bent.connect()
        bent.send(b"\x36\0")
        await bent.ends_by(0x81)
        refused = await b.client("").dial()
        refused.send(connect_frame("refused", properties=b"\x15" + text("none")))
        await refused.is_refused(0x8C)
        for line in ('1: client "a\\x22\\x0a\\x1b[2J\\xc3\\xa9"\n', "1: ended: the client disconnected\n", "2: ended: closed by peer\n",
                     "3: ended: without a Connect\n", "4: ended: Malformed Packet (0x81)\n", "4: connection from 127.0.0.1:",
                     "5: ended: Bad authentication method (0x8C)\n"):
            await b.says("\n" + line)


# ---- All at once. ----


async def run_row(b, function):
    begun = time.monotonic()
    try:
        await asyncio.wait_for(function(b), LIMIT)
    except Exception as fault:
        calls = [f"{call.name}:{call.lineno}" for call in traceback.extract_tb(fault.__traceback__) if "tests/broker" in call.filename]
        print(f"{function.__name__}: fails after {time.monotonic() - begun:.1f} s: {fault!r} at {' '.join(calls[1:])}", flush=True)
        return False
    if os.environ.get("TIMES"):
        print(f"{function.__name__}: {time.monotonic() - begun:.1f} s", flush=True)
    return True


async def main():
    unknown = [name for name in WANTED if name not in NAMES]
    if unknown:
        print(f"no such rows: {' '.join(unknown)}")
        return False
    rows = [function for function in ROWS if not WANTED or function.__name__ in WANTED]
    if not rows:
        return True
    # (one thousand of them, and others beside)
    b = await start("--max-connections", "2000", "--max-packet-size", str(LONGEST))
    try:
        good = await asyncio.gather(*(run_row(b, function) for function in rows))
    finally:
        await stop(b)
    name = "mosquitto" if not IS_OURS else "broker"
    print(f"{name}: {sum(good)} of {len(rows)} rows: {' '.join(function.__name__ for function in rows)}")
    return all(good)


if __name__ == "__main__":
    sys.exit(0 if asyncio.run(main()) else 1)
