"""Both Python clients at a broker: one row of tests/live_rows, by its name. Usage: live_clients.py asyncio|blocking ROW HOST
PORT USER PASSWORD. What a row needs beside that is in the environment: KEEP_ALIVE, the most that the broker grants, in
seconds; GO, a file that comes when the broker was stopped; CA and OTHER_CA, the certificates of its authority and of another
one."""

import asyncio
import os
import random
import ssl
import sys
import time
from concurrent.futures import ThreadPoolExecutor

from bistortpost import Client, ConnectionLost, Properties, Refused, SessionLost, Subscription, Will, aio
from relay import Relay

KIND, ROW, HOST, PORT, USER, PASSWORD = sys.argv[1:4] + [int(sys.argv[4])] + sys.argv[5:]
CUTS, MESSAGES = 10, 200
# How many seconds a wait for a packet may take, one for a broker that is started again, and a row.
PATIENCE, LONG_PATIENCE, LIMIT = 20, 90, 150
# (the same cuts each time)
CHANCE = random.Random(5)
# What a request and a will have beside their text.
PROPERTIES = {"content_type": "text", "correlation_data": b"\0\7", "user_property": [("k", "v")]}
KEPT = {"clean_start": False, "session_expiry_interval": 100}


class Blocking:
    """The client whose calls wait, each in a thread, by the names of the one for asyncio."""

    def __init__(self, *words, **settings):
        self.client = Client(*words, **settings)

    async def __aenter__(self):
        await asyncio.to_thread(self.client.__enter__)
        return self

    async def __aexit__(self, *_):
        await asyncio.to_thread(self.client.__exit__, None, None, None)

    @property
    def connack(self):
        return self.client.connack

    async def publish(self, *words, **settings):
        return await asyncio.to_thread(self.client.publish, *words, **settings)

    async def subscribe(self, *words, **settings):
        return await asyncio.to_thread(self.client.subscribe, *words, **settings)

    async def unsubscribe(self, *words):
        await asyncio.to_thread(self.client.unsubscribe, *words)

    async def disconnect(self, *words):
        await asyncio.to_thread(self.client.disconnect, *words)

    async def reauthenticate(self, *words):
        return await asyncio.to_thread(self.client.reauthenticate, *words)

    async def next_message(self, timeout):
        message = await asyncio.to_thread(next, self.client.messages(timeout), None)
        if message is None:
            raise asyncio.TimeoutError
        return message


def client(name, port=PORT, password=PASSWORD, host=HOST, **settings):
    made = Blocking if KIND == "blocking" else aio.Client
    return made(host, port, identifier=f"{KIND}-{name}", username=USER, password=password, **settings)


def topic(name):
    return f"a/{KIND}/{name}"


async def next_of(client, seconds=PATIENCE):
    return await client.next_message(seconds)


async def login():
    async with client("login") as right:
        await right.publish(topic("login"), b"taken", 1)
    try:
        async with client("login", password="wrong"):
            raise AssertionError("a connection with a wrong password")
    except Refused as refused:
        print(f"refused: {refused.name} ({refused.reason})")


async def will():
    """Published once the connection is cut, and not after a Disconnect."""
    properties = Properties(response_topic="r", **PROPERTIES)
    async with client("heir") as heir, Relay(HOST, PORT) as relay:
        await heir.subscribe(topic("will"), 1)
        last = Will(topic("will"), b"cut off", 1, properties=properties)
        async with client("leaves", relay.port, will=last, reconnect=False):
            relay.cut()
            message = await next_of(heir)
            assert message.payload == b"cut off", message
            assert message.properties == properties, message
        async with client("leaves", will=Will(topic("will"), b"disconnected", 1)):
            pass
        # (a will would come before this)
        await asyncio.sleep(0.5)
        await heir.publish(topic("will"), b"nothing else", 1)
        assert (message := await next_of(heir)).payload == b"nothing else", message


async def goodbye():
    """A Disconnect with Will Message, after which the will is published."""
    async with client("stays") as stays:
        await stays.subscribe(topic("goodbye"), 1)
        async with client("goes", will=Will(topic("goodbye"), b"left", 1)) as goes:
            await goes.disconnect(4, Properties(reason_string="gone"))
        assert (message := await next_of(stays)).payload == b"left", message


def proving(first):
    """Extended authentication by letters: each is answered by the next one."""
    return {
        "properties": Properties(authentication_method="letters", authentication_data=first),
        "authenticate": lambda came: bytes([came.authentication_data[0] + 1]),
    }


async def proof():
    async with client("proves", **proving(b"a")) as proves:
        await proves.subscribe(topic("proof"), 1)
        assert (last := await proves.reauthenticate(b"d")).authentication_method == "letters", last
        await proves.publish(topic("proof"), b"proven", 1)
        assert (message := await next_of(proves)).payload == b"proven", message
    try:
        async with client("fails", **proving(b"x")):
            raise AssertionError("a connection without a proof")
    except Refused as refused:
        print(f"refused: {refused.name} ({refused.reason})")


async def response():
    async with client("asks") as asks, client("answers") as answers:
        await asks.subscribe(topic("answers"), 1)
        await answers.subscribe(topic("requests"), 1)
        properties = Properties(response_topic=topic("answers"), **PROPERTIES)
        await asks.publish(topic("requests"), b"6 * 7", 1, properties=properties)
        request = await next_of(answers)
        assert (request.payload, request.properties) == (b"6 * 7", properties), request
        back = Properties(correlation_data=request.properties.correlation_data)
        await answers.publish(request.properties.response_topic, b"42", 1, properties=back)
        answer = await next_of(asks)
        assert (answer.payload, answer.properties.correlation_data) == (b"42", b"\0\7"), answer


def has_left(message, asked, acked, awaited):
    """What is left of an expiry interval of 100 seconds: less what it waited at the broker, in whole seconds (3.3.2.3.3)."""
    left, most, least = message.properties.message_expiry_interval, 100 - (awaited - acked), 100 - (time.monotonic() - asked)
    assert least - 1 < left < most + 1, f"{left} seconds are left, and not {least} to {most}"


async def expiry():
    """What is queued for a client that is away, and what is retained."""
    async with client("late", **KEPT) as late:
        await late.subscribe(topic("late"), 1)
    async with client("early") as early:
        asked = time.monotonic()
        # (a broker may have begun to deliver this one when the client left, and one that it began with doesn't expire)
        await early.publish(topic("late"), b"first", 1)
        for kept in False, True:
            for payload, seconds in (b"gone", 1), (b"stays", 100):
                at = topic(f"expiry/{payload.decode()}" if kept else "late")
                await early.publish(at, payload, 1, kept, properties=Properties(message_expiry_interval=seconds))
        acked = time.monotonic()
        await asyncio.sleep(2.5)
        awaited = time.monotonic()
        await early.subscribe(topic("expiry/#"), 1)
        assert (message := await next_of(early)).payload == b"stays", message
        has_left(message, asked, acked, awaited)
        await early.publish(topic("expiry/end"), b"end", 1)
        assert (message := await next_of(early)).payload == b"end", message
    async with client("late", **KEPT) as late:
        assert (message := await next_of(late)).payload == b"first", message
        assert (message := await next_of(late)).payload == b"stays", message
        has_left(message, asked, acked, awaited)


async def filters():
    """A hundred in one Subscribe."""
    async with client("filters") as c:
        granted = await c.subscribe([Subscription(topic(f"filters/{i}"), i % 3, no_local=i == 50) for i in range(100)])
        assert granted == [i % 3 for i in range(100)], granted
        await c.publish(topic("filters/50"), b"its own", 1)
        for i in range(0, 100, 11):
            await c.publish(topic(f"filters/{i}"), str(i), 2)
            message = await next_of(c)
            came = message.topic, message.payload, message.qos
            assert came == (topic(f"filters/{i}"), str(i).encode(), i % 3), message


async def thirty():
    """More requests at once than many a broker's receive maximum: each is answered."""
    async with client("thirty") as c:
        topics = [topic(f"thirty/{i}") for i in range(30)]
        granted = await asyncio.gather(*[c.subscribe(name, 1) for name in topics])
        assert granted == [[1]] * 30, granted
        await asyncio.gather(*[c.publish(name, b"x", 1) for name in topics])
        came = [(await next_of(c)).topic for _ in topics]
        assert sorted(came) == sorted(topics), came
        await asyncio.gather(*[c.unsubscribe(name) for name in topics])


async def keep_alive():
    """Its connection stands for longer than the broker bears a client that is silent: one and a half of its keep alive
    (3.1.2.10)."""
    most = int(os.environ["KEEP_ALIVE"])
    async with client("quiet", keep_alive=1000, reconnect=False) as quiet:
        assert quiet.connack.server_keep_alive == most, quiet.connack
        await quiet.subscribe(topic("quiet"), 1)
        await asyncio.sleep(1.5 * most + 3)
        await quiet.publish(topic("quiet"), b"still here", 1)
        assert (await next_of(quiet)).payload == b"still here"


async def publish_to_the_end(sends, name, first):
    """Begins to publish ten numbers from this one on to a broker that was stopped, at QoS 1 and 2 by turns; the tasks."""
    print("ready", flush=True)
    began = time.monotonic()
    while not os.path.exists(os.environ["GO"]):
        assert time.monotonic() - began < LONG_PATIENCE, "a broker that is stopped: none in time"
        await asyncio.sleep(0.05)
    sending = [asyncio.create_task(sends.publish(topic(name), str(i), 1 + i % 2)) for i in range(first, first + 10)]
    # (until they are handed to the connection)
    await asyncio.sleep(1)
    print("sent", flush=True)
    return sending


async def kept():
    """The broker is killed and has its sessions again: nothing is lost, and nothing of QoS 2 comes twice."""
    async with client("takes", **KEPT) as takes:
        await takes.subscribe(topic("kept"), 2)
    async with client("sends", **KEPT) as sends:
        for i in range(10):
            await sends.publish(topic("kept"), str(i), 1 + i % 2)
        sending = await publish_to_the_end(sends, "kept", 10)
        await asyncio.wait_for(asyncio.gather(*sending), LONG_PATIENCE)
        await sends.publish(topic("kept"), b"end", 2)
    async with client("takes", **KEPT) as takes:
        came = []
        while (message := await next_of(takes)).payload != b"end":
            came.append(int(message.payload))
        assert set(came) == set(range(20)), came
        assert sorted(i for i in came if i % 2) == list(range(1, 20, 2)), came


async def lost():
    """The broker is killed and has lost the session. A message of QoS 1 is sent anew, of one of QoS 2 its sender is told, and
    publishing goes on, also to the subscription of before."""
    async with client("lost", **KEPT) as c:
        await c.subscribe(topic("lost"), 2)
        await c.publish(topic("lost"), b"before", 2)
        assert (message := await next_of(c)).payload == b"before", message
        sending = await publish_to_the_end(c, "lost", 0)
        ends = await asyncio.wait_for(asyncio.gather(*sending, return_exceptions=True), LONG_PATIENCE)
        for i, end in enumerate(ends):
            assert isinstance(end, SessionLost if i % 2 else int), ends
        for qos in 1, 2:
            await c.publish(topic("lost"), f"on at {qos}", qos)
        # (a message that is sent anew may come too, since the subscription is renewed beside it)
        came = []
        while b"on at 2" not in came:
            came.append((await next_of(c)).payload)
        assert came.count(b"on at 1") == came.count(b"on at 2") == 1, came


async def tls():
    right, wrong = (ssl.create_default_context(cafile=os.environ[name]) for name in ("CA", "OTHER_CA"))
    async with client("tls", host="localhost", tls=right) as c:
        await c.subscribe(topic("tls"), 1)
        await c.publish(topic("tls"), b"hidden", 1)
        assert (message := await next_of(c)).payload == b"hidden", message
    try:
        async with client("tls", host="localhost", tls=wrong):
            raise AssertionError("a connection by the wrong authority")
    except ConnectionLost as lost:
        assert "certificate" in str(lost), lost
        print("refused: a certificate")


async def cuts():
    """At QoS 2 nothing is lost and nothing comes twice, while both connections are cut."""
    async with Relay(HOST, PORT) as up, Relay(HOST, PORT) as down:
        async with client("sends", up.port, **KEPT) as sends, client("takes", down.port, **KEPT) as takes:
            await takes.subscribe(topic("cuts"), 2)

            async def cut():
                while up.cuts + down.cuts < CUTS:
                    await asyncio.sleep(CHANCE.uniform(0.1, 0.5))
                    CHANCE.choice([up, down]).cut()

            async def send():
                number = 0
                while number < MESSAGES or not cutting.done():
                    await sends.publish(topic("cuts"), str(number).encode(), 2)
                    number += 1
                return number

            async def take():
                while True:
                    came.append(int((await next_of(takes, LIMIT)).payload))

            came = []
            cutting, taking = asyncio.create_task(cut()), asyncio.create_task(take())
            sent = await send()
            while len(came) < sent:
                await asyncio.sleep(0.1)
            # (one that comes twice would come by then)
            await asyncio.sleep(1)
            taking.cancel()
            assert sorted(came) == list(range(sent)), came
            print(f"{len(came)} messages over {up.cuts + down.cuts} cuts")


async def leaving():
    """A client that is left while messages come ends at once, each of thirty."""
    async with client("floods") as floods:

        async def flood():
            while True:
                await floods.publish(topic("leaving"), b"x" * 100)
                await asyncio.sleep(0.001)

        flooding = asyncio.create_task(flood())
        for i in range(30):
            leaves = client(f"leaves-{i}")
            await leaves.__aenter__()
            await leaves.subscribe(topic("leaving"))
            await next_of(leaves)
            await asyncio.wait_for(leaves.__aexit__(None, None, None), PATIENCE)
        flooding.cancel()


async def qualities():
    """Each quality of service, by a subscription that is ended."""
    async with client("qualities") as c:
        assert await c.subscribe(topic("qualities/+"), 2) == [2]
        for qos in 0, 1, 2:
            await c.publish(topic(f"qualities/{qos}"), f"at {qos}", qos)
        came = [(m.topic, m.payload, m.qos) for m in [await next_of(c) for _ in range(3)]]
        assert came == [(topic(f"qualities/{q}"), b"at %d" % q, q) for q in (0, 1, 2)], came
        await c.unsubscribe(topic("qualities/+"))


ROWS = [
    login, will, goodbye, proof, response, expiry, filters, thirty, keep_alive, kept, lost, tls, cuts, leaving, qualities
]  # fmt: skip


async def main():
    asyncio.get_running_loop().set_default_executor(ThreadPoolExecutor(64))
    row = next(row for row in ROWS if row.__name__ == ROW)
    try:
        await asyncio.wait_for(row(), LIMIT)
    except TimeoutError as error:
        # (a wait of its own says so too)
        raise AssertionError(f"{ROW} waits for too long") from error


asyncio.run(main())
print("done")
