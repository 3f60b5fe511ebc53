"""Both Python clients against a broker that follows a script: the frames that it gets and says are written by hand, from
the sections of MQTT 5.0 that stand beside them."""

import asyncio
import faulthandler
import socket
import sys
import threading
import time
import unittest
from unittest import mock

from bistortpost import (
    Client,
    ConnectionLost,
    Fault,
    LetGo,
    Message,
    Properties,
    Refused,
    SessionLost,
    Subscription,
    TooLarge,
    Will,
    aio,
)

# A Connect (3.1): client id "c", clean start, keep alive 60, session expiry 0. The ConnAck (3.2) of a new session.
CONNECT = "10 13 0004 4D515454 05 02 003C 05 11 00000000 0001 63"
CONNACK = "20 03 00 00 00"
# A Connect without clean start, and the ConnAck of a session that is there.
CONNECT_AGAIN = "10 13 0004 4D515454 05 00 003C 05 11 00000000 0001 63"
CONNACK_AGAIN = "20 03 01 00 00"
# A normal Disconnect (3.14).
DISCONNECT = "E0 00"
GETS, SAYS, NOTHING, ENDS = "gets", "says", "nothing", "ends"
# How many seconds each wait may take, in all and of one step; and how long nothing is to come where nothing may.
LIMIT, PATIENCE, SILENCE = 40, 20, 0.3


class Broker:
    """One conversation for each connection, in order: (GETS, bytes) and (SAYS, bytes), each in hexadecimal; (NOTHING, why),
    where nothing may come; and (ENDS, why), where the client ends the connection, as it does after a Disconnect. Then it
    ends the connection."""

    def __init__(self, *conversations):
        self.wrong = []
        self.listening = socket.create_server(("127.0.0.1", 0))
        self.listening.settimeout(PATIENCE)
        self.port = self.listening.getsockname()[1]
        self.thread = threading.Thread(target=self.talk, args=(conversations,))

    def talk(self, conversations):
        for conversation in conversations:
            step = "its connection"
            try:
                connection, _ = self.listening.accept()
                with connection:
                    for step in conversation:
                        self.take(connection, *step)
                    if conversation and conversation[-1][0] == GETS and conversation[-1][1].startswith("E0"):
                        self.take(connection, ENDS, "a Disconnect came")
            except (AssertionError, OSError) as error:
                self.wrong.append(f"connection {conversations.index(conversation) + 1}, at {step}: {error}")
                # (the client may wait for what doesn't come now)
                print("broker:", self.wrong[0], file=sys.stderr)
                return

    def take(self, connection, way, wanted):
        connection.settimeout(SILENCE if way == NOTHING else PATIENCE)
        if way == SAYS:
            connection.sendall(bytes.fromhex(wanted))
        elif way == GETS:
            got = self.read(connection, len(bytes.fromhex(wanted)))
            assert got == bytes.fromhex(wanted), f"got {got.hex()}"
        elif way == ENDS:
            got = connection.recv(1000)
            assert got == b"", f"got {got.hex()}"
        else:
            try:
                got = connection.recv(1000)
            except TimeoutError:
                return
            raise AssertionError(f"got {got.hex()}")

    @staticmethod
    def read(connection, count):
        got = b""
        while len(got) < count and (piece := connection.recv(count - len(got))):
            got += piece
        return got

    def __enter__(self):
        self.thread.start()
        return self

    def __exit__(self, *_):
        self.thread.join()
        self.listening.close()
        if self.wrong:
            raise AssertionError(self.wrong[0])


def runs(use, *scripts, **settings):
    """Runs what uses a client for asyncio against a broker that follows these scripts."""

    async def run(port):
        async with aio.Client("127.0.0.1", port, **{"identifier": "c", **settings}) as client:
            await use(client)

    with Broker(*scripts) as broker:
        asyncio.run(asyncio.wait_for(run(broker.port), PATIENCE))


class Clients(unittest.TestCase):
    def setUp(self):
        # (then it prints what each thread waits for)
        faulthandler.dump_traceback_later(LIMIT, exit=True)

    def tearDown(self):
        faulthandler.cancel_dump_traceback_later()

    def test_settings(self):
        # User name, password, a retained will of QoS 1 with a delay of 5 and a content type (3.1.2, 3.1.3).
        connect = (
            "10 2F 0004 4D515454 05 EE 003C 08 11 0000000A 21 0014 0001 63"
            " 09 18 00000005 03 0001 74 0001 77 0004 676F6E65 0001 75 0001 70"
        )
        # Server keep alive 30, assigned client identifier "x", receive maximum 2 (3.2.2.3).
        connack = "20 0D 00 00 0A 13 001E 12 0001 78 21 0002"
        will = Will("w", b"gone", 1, True, Properties(will_delay_interval=5, content_type="t"))
        settings = {"identifier": "c", "username": "u", "password": "p", "will": will, "session_expiry_interval": 10}
        with (
            Broker([(GETS, connect), (SAYS, connack), (GETS, DISCONNECT)]) as broker,
            Client("127.0.0.1", broker.port, properties=Properties(receive_maximum=20), **settings) as client,
        ):
            self.assertEqual(client.connack.server_keep_alive, 30)
            self.assertEqual(client.connack.assigned_client_identifier, "x")
            self.assertEqual(client.connack.receive_maximum, 2)

    def test_subscribe(self):
        # Two filters with their options, a subscription identifier and a user property (3.8).
        subscribe = "82 16 0001 09 0B07 26 0001 6B 0001 76 0003 612F23 2D 0001 62 02"
        filters = [Subscription("a/#", 1, True, True, 2), Subscription("b", 2)]
        properties = Properties(subscription_identifier=[7], user_property=[("k", "v")])
        # A message of QoS 1 for it, and its PubAck (3.3, 3.4).
        message = "32 11 0001 61 0005 09 0B07 26 0001 6B 0001 76 78 79"
        script = [
            (GETS, CONNECT), (SAYS, CONNACK), (GETS, subscribe), (SAYS, "90 05 0001 00 01 02"),
            (SAYS, message), (GETS, "40 02 0005"), (GETS, "A2 06 0002 00 0001 62"), (SAYS, "B0 04 0002 00 00"),
            (GETS, DISCONNECT),
        ]  # fmt: skip
        with Broker(script) as broker, Client("127.0.0.1", broker.port, identifier="c") as client:
            self.assertEqual(client.subscribe(filters, properties=properties), [1, 2])
            message = next(client.messages())
            self.assertEqual((message.topic, message.payload, message.qos), ("a", b"xy", 1))
            self.assertEqual(message.properties, properties)
            client.unsubscribe("b")

    def test_publish(self):
        # With an expiry, a response topic, correlation data and a content type (3.3.2.3); nobody subscribes (16).
        first = "32 19 0001 61 0001 12 02 0000000A 08 0001 72 09 0002 0102 03 0001 74 78"
        properties = Properties(
            message_expiry_interval=10, response_topic="r", correlation_data=b"\1\2", content_type="t"
        )
        script = [
            (GETS, CONNECT), (SAYS, CONNACK), (GETS, "30 05 0001 61 00 78"), (GETS, first), (SAYS, "40 03 0001 10"),
            # QoS 2 in its four packets (4.3.3).
            (GETS, "34 07 0001 61 0002 00 78"), (SAYS, "50 02 0002"), (GETS, "62 02 0002"), (SAYS, "70 02 0002"),
            # Refused by a PubAck with a reason string, and by a PubRec (3.4.2, 3.5.2).
            (GETS, "32 07 0001 61 0003 00 78"), (SAYS, "40 0A 0003 97 06 1F 0003 666F6F"),
            (GETS, "34 07 0001 61 0004 00 78"), (SAYS, "50 03 0004 87"),
            # A PubRec that says that nobody subscribes (3.5.2.1).
            (GETS, "34 07 0001 61 0005 00 78"), (SAYS, "50 03 0005 10"), (GETS, "62 02 0005"), (SAYS, "70 02 0005"),
            (GETS, DISCONNECT),
        ]  # fmt: skip
        with Broker(script) as broker, Client("127.0.0.1", broker.port, identifier="c") as client:
            self.assertEqual(client.publish("a", b"x"), 0)
            self.assertEqual(client.publish("a", "x", 1, properties=properties), 16)
            self.assertEqual(client.publish("a", b"x", 2), 0)
            with self.assertRaises(Refused) as refused:
                client.publish("a", b"x", 1)
            self.assertEqual((refused.exception.reason, refused.exception.text), (151, "foo"))
            with self.assertRaises(Refused) as refused:
                client.publish("a", b"x", 2)
            self.assertEqual(refused.exception.name, "Not authorized")
            self.assertEqual(client.publish("a", b"x", 2), 16)
            with self.assertRaises(Fault) as fault:
                client.publish("a/#", b"x", 1)
            self.assertEqual(fault.exception.name, "BadArgument")

    def test_cut(self):
        # Cut after the Publish, and after the PubRel: each is sent again where the broker has the session (4.4).
        publish = "34 07 0001 61 0001 00 78"
        again = "3C 07 0001 61 0001 00 78"
        scripts = [
            [(GETS, CONNECT), (SAYS, CONNACK), (GETS, publish)],
            [(GETS, CONNECT_AGAIN), (SAYS, CONNACK_AGAIN), (GETS, again), (SAYS, "50 02 0001"), (GETS, "62 02 0001")],
            [(GETS, CONNECT_AGAIN), (SAYS, CONNACK_AGAIN), (GETS, "62 02 0001"), (SAYS, "70 02 0001"), (GETS, DISCONNECT)],
        ]  # fmt: skip
        with Broker(*scripts) as broker, Client("127.0.0.1", broker.port, identifier="c") as client:
            self.assertEqual(client.publish("a", b"x", 2), 0)

    def test_cut_before_the_end(self):
        # The PubComp is lost, and the broker knows nothing of the release that comes again: no error (3.7.2.1).
        scripts = [
            [
                (GETS, CONNECT), (SAYS, CONNACK), (GETS, "34 07 0001 61 0001 00 78"), (SAYS, "50 02 0001"),
                (GETS, "62 02 0001"),
            ],
            [
                (GETS, CONNECT_AGAIN), (SAYS, CONNACK_AGAIN), (GETS, "62 02 0001"), (SAYS, "70 03 0001 92"),
                (GETS, DISCONNECT),
            ],
        ]  # fmt: skip
        with Broker(*scripts) as broker, Client("127.0.0.1", broker.port, identifier="c") as client:
            self.assertEqual(client.publish("a", b"x", 2), 0)

    def test_lost_session(self):
        # The broker comes back without the session: the subscription and then a message of QoS 1 are asked for again.
        subscribe, suback = "82 07 0001 00 0001 62 01", "90 04 0001 00 01"
        scripts = [
            [(GETS, CONNECT), (SAYS, CONNACK), (GETS, subscribe), (SAYS, suback), (GETS, "32 07 0001 61 0002 00 78")],
            [
                (GETS, CONNECT_AGAIN), (SAYS, CONNACK), (GETS, subscribe), (GETS, "32 07 0001 61 0002 00 78"),
                (SAYS, suback), (SAYS, "40 02 0002"), (GETS, DISCONNECT),
            ],
        ]  # fmt: skip
        with Broker(*scripts) as broker, Client("127.0.0.1", broker.port, identifier="c") as client:
            client.subscribe("b", 1)
            self.assertEqual(client.publish("a", b"x", 1), 0)

    def test_lost_message(self):
        # Of a message of QoS 2 nobody knows then whether it arrived: it comes back, as it would be sent again (3.3.1.1).
        publish = "35 13 0001 61 0001 0C 02 0000000A 26 0001 6B 0001 76 78"
        scripts = [
            [(GETS, CONNECT), (SAYS, CONNACK), (GETS, publish)],
            [(GETS, CONNECT_AGAIN), (SAYS, CONNACK), (GETS, DISCONNECT)],
        ]
        properties = Properties(message_expiry_interval=10, user_property=[("k", "v")])
        with Broker(*scripts) as broker, Client("127.0.0.1", broker.port, identifier="c") as client:
            with self.assertRaises(SessionLost) as lost:
                client.publish("a", b"x", 2, True, properties)
            self.assertEqual(lost.exception.message, Message("a", b"x", 2, True, True, properties))

    def test_lost_messages(self):
        # Each goes back to who waits for it; the broker has the third one, whose PubRec came, and its release is let go.
        scripts = [
            [
                (GETS, CONNECT), (SAYS, CONNACK), (GETS, "34 07 0001 61 0001 00 78"), (GETS, "34 07 0001 62 0002 00 79"),
                (GETS, "34 07 0001 63 0003 00 7A"), (SAYS, "50 02 0003"), (GETS, "62 02 0003"),
            ],
            [(GETS, CONNECT_AGAIN), (SAYS, CONNACK), (GETS, DISCONNECT)],
        ]  # fmt: skip

        async def use(client):
            asked = [client.publish(topic, payload, 2) for topic, payload in ("ax", "by", "cz")]
            lost = await asyncio.gather(*asked, return_exceptions=True)
            self.assertEqual([type(error) for error in lost], 3 * [SessionLost])
            first, second, third = (error.message for error in lost)
            self.assertEqual((first.topic, first.payload), ("a", b"x"))
            self.assertEqual((second.topic, second.payload), ("b", b"y"))
            self.assertIsNone(third)

        runs(use, *scripts)

    def test_receive_maximum(self):
        # The broker takes one message at a time (3.2.2.3.3), so the second one goes once the first is acknowledged.
        script = [
            (GETS, CONNECT), (SAYS, "20 06 00 00 03 21 0001"), (GETS, "32 07 0001 61 0001 00 78"), (SAYS, "40 02 0001"),
            (GETS, "32 07 0001 61 0001 00 79"), (SAYS, "40 02 0001"), (GETS, DISCONNECT),
        ]  # fmt: skip

        async def use(client):
            await asyncio.gather(client.publish("a", b"x", 1), client.publish("a", b"y", 1))

        runs(use, script)

    def test_receive_maximum_of_each_connection(self):
        # One message at a time on the first connection, ten on the second one.
        scripts = [
            [(GETS, CONNECT), (SAYS, "20 06 00 00 03 21 0001")],
            [
                (GETS, CONNECT_AGAIN), (SAYS, "20 06 01 00 03 21 000A"), (GETS, "32 07 0001 61 0001 00 78"),
                (GETS, "32 07 0001 61 0002 00 79"), (SAYS, "40 02 0001"), (SAYS, "40 02 0002"), (GETS, DISCONNECT),
            ],
        ]  # fmt: skip

        async def use(client):
            await asyncio.sleep(0.5)
            await asyncio.gather(client.publish("a", b"x", 1), client.publish("a", b"y", 1))

        runs(use, *scripts)

    def test_identifiers(self):
        # Each is given again once its request is answered (2.2.1): of Subscribes, and beside publishes, an Unsubscribe.
        script = [
            (GETS, CONNECT), (SAYS, "20 06 00 00 03 21 0002"), (GETS, "82 07 0001 00 0001 61 00"),
            (GETS, "82 07 0002 00 0001 62 01"), (NOTHING, "may be asked for"), (SAYS, "90 04 0002 00 01"),
            (NOTHING, "may be asked for"), (SAYS, "90 04 0001 00 00"), (GETS, "82 07 0001 00 0001 63 02"),
            (SAYS, "90 04 0001 00 02"), (GETS, "32 07 0001 61 0002 00 78"), (GETS, "32 07 0001 61 0001 00 79"),
            (NOTHING, "may be asked for"), (SAYS, "40 02 0002"), (GETS, "A2 06 0002 00 0001 62"), (SAYS, "40 02 0001"),
            (SAYS, "B0 04 0002 00 00"), (GETS, DISCONNECT),
        ]  # fmt: skip

        async def use(client):
            asked = [client.subscribe(name, qos) for qos, name in enumerate("abc")]
            self.assertEqual(await asyncio.gather(*asked), [[0], [1], [2]])
            await asyncio.gather(client.publish("a", b"x", 1), client.publish("a", b"y", 1), client.unsubscribe("b"))

        runs(use, script)

    def test_refused_lists(self):
        # What a refused request has added isn't in the next one.
        script = [
            (GETS, CONNECT), (SAYS, CONNACK), (GETS, "32 07 0001 61 0001 00 78"), (SAYS, "40 02 0001"),
            (GETS, "82 07 0002 00 0001 63 01"), (SAYS, "90 04 0002 00 01"), (GETS, "A2 06 0003 00 0001 63"),
            (SAYS, "B0 04 0003 00 00"), (GETS, DISCONNECT),
        ]  # fmt: skip
        too_large = Properties(message_expiry_interval=5, topic_alias=70000)
        with Broker(script) as broker, Client("127.0.0.1", broker.port, identifier="c") as client:
            with self.assertRaises(Fault):
                client.publish("a", b"x", 1, properties=too_large)
            client.publish("a", b"x", 1)
            with self.assertRaises(Fault):
                client.subscribe(["a", "b#"], 1)
            client.subscribe("c", 1)
            with self.assertRaises(Fault):
                client.unsubscribe("c", too_large)
            client.unsubscribe("c")

    def test_long_topics(self):
        # More bytes than two bytes can say (1.5.4).
        script = [(GETS, CONNECT), (SAYS, CONNACK), (GETS, DISCONNECT)]
        long = "a" * 70000
        with Broker(script) as broker, Client("127.0.0.1", broker.port, identifier="c") as client:
            for qos in 0, 1:
                with self.assertRaisesRegex(Fault, "the topic is over 65535 bytes"):
                    client.publish(long, b"x", qos)
            for asked in lambda: client.subscribe(["a", long]), lambda: client.unsubscribe(long):
                with self.assertRaisesRegex(Fault, "the topic filter is over 65535 bytes"):
                    asked()
        with Broker([]) as broker:
            with self.assertRaisesRegex(Fault, "the will's topic is over 65535 bytes"):
                Client("127.0.0.1", broker.port, identifier="c", will=Will(long)).__enter__()

    def test_given_up(self):
        # Whoever waited for a message of QoS 2 gives up, and the session is lost: the client goes on.
        scripts = [
            [(GETS, CONNECT), (SAYS, CONNACK), (GETS, "34 07 0001 61 0001 00 78")],
            [
                (GETS, CONNECT_AGAIN), (SAYS, CONNACK), (GETS, "32 07 0001 61 0001 00 79"), (SAYS, "40 02 0001"),
                (GETS, DISCONNECT),
            ],
        ]  # fmt: skip

        async def use(client):
            with self.assertRaises(asyncio.TimeoutError):
                await asyncio.wait_for(client.publish("a", b"x", 2), 0.3)
            self.assertEqual(await client.publish("a", b"y", 1), 0)

        runs(use, *scripts)

    def test_unforeseen(self):
        # Whatever ends the client's task, all who wait are told.
        script = [(GETS, CONNECT), (SAYS, CONNACK), (GETS, "32 07 0001 61 0001 00 78"), (SAYS, "40 02 0001")]

        async def use(client):
            with mock.patch.object(client._session, "receive", side_effect=ZeroDivisionError):
                with self.assertRaisesRegex(ConnectionLost, "ZeroDivisionError"):
                    await client.publish("a", b"x", 1)
            for asked in client.publish("a", b"x", 1), client.publish("a", b"x"), client.subscribe("a"):
                with self.assertRaises(ConnectionLost):
                    await asked
            with self.assertRaises(ConnectionLost):
                await client.next_message()

        runs(use, script)

    def test_messages_of_a_lost_session(self):
        # Those of QoS 1 are asked for again, as many at a time as the broker takes now.
        scripts = [
            [
                (GETS, CONNECT), (SAYS, CONNACK), (GETS, "32 07 0001 61 0001 00 78"), (GETS, "32 07 0001 61 0002 00 79"),
                (GETS, "32 07 0001 61 0003 00 7A"),
            ],
            [
                (GETS, CONNECT_AGAIN), (SAYS, "20 06 00 00 03 21 0001"), (GETS, "32 07 0001 61 0001 00 78"),
                (NOTHING, "may be asked for"), (SAYS, "40 02 0001"), (GETS, "32 07 0001 61 0001 00 79"),
                (NOTHING, "may be asked for"), (SAYS, "40 02 0001"), (GETS, "32 07 0001 61 0001 00 7A"),
                (SAYS, "40 02 0001"), (GETS, DISCONNECT),
            ],
        ]  # fmt: skip

        async def use(client):
            self.assertEqual(await asyncio.gather(*[client.publish("a", payload, 1) for payload in "xyz"]), [0, 0, 0])

        runs(use, *scripts)

    def test_unsubscribe_over_a_lost_session(self):
        # Its filter isn't subscribed to again; the other one is.
        scripts = [
            [
                (GETS, CONNECT), (SAYS, CONNACK), (GETS, "82 07 0001 00 0001 61 01"), (SAYS, "90 04 0001 00 01"),
                (GETS, "82 07 0002 00 0001 62 01"), (SAYS, "90 04 0002 00 01"), (GETS, "A2 06 0003 00 0001 62"),
            ],
            [
                (GETS, CONNECT_AGAIN), (SAYS, CONNACK), (GETS, "82 07 0001 00 0001 61 01"), (GETS, "A2 06 0002 00 0001 62"),
                (NOTHING, "may be asked for"), (SAYS, "90 04 0001 00 01"), (SAYS, "B0 04 0002 00 11"), (GETS, DISCONNECT),
            ],
        ]  # fmt: skip
        with Broker(*scripts) as broker, Client("127.0.0.1", broker.port, identifier="c") as client:
            client.subscribe("a", 1)
            client.subscribe("b", 1)
            client.unsubscribe("b")

    def test_refused_unsubscribe(self):
        # Not authorized (3.11.3): the subscription stands, and is asked for again where the session is lost.
        scripts = [
            [
                (GETS, CONNECT), (SAYS, CONNACK), (GETS, "82 07 0001 00 0001 62 01"), (SAYS, "90 04 0001 00 01"),
                (GETS, "A2 06 0002 00 0001 62"), (SAYS, "B0 04 0002 00 87"),
            ],
            [
                (GETS, CONNECT_AGAIN), (SAYS, CONNACK), (GETS, "82 07 0001 00 0001 62 01"), (SAYS, "90 04 0001 00 01"),
                (SAYS, "30 05 0001 62 00 78"), (GETS, DISCONNECT),
            ],
        ]  # fmt: skip
        with Broker(*scripts) as broker, Client("127.0.0.1", broker.port, identifier="c") as client:
            client.subscribe("b", 1)
            with self.assertRaises(Refused):
                client.unsubscribe("b")
            self.assertEqual(next(client.messages(PATIENCE)).payload, b"x")

    def test_smaller_packets(self):
        # The broker takes packets of 10 bytes now (3.2.2.3.6), so a message of 20 can't be sent again.
        first = "32 1A 0001 61 0001 00" + 20 * "78"
        scripts = [
            [(GETS, CONNECT), (SAYS, CONNACK), (GETS, first)],
            [
                (GETS, CONNECT_AGAIN), (SAYS, "20 08 01 00 05 27 0000000A"), (GETS, "62 02 0001"), (SAYS, "70 03 0001 92"),
                (GETS, "32 07 0001 61 0002 00 79"), (SAYS, "40 02 0002"), (GETS, DISCONNECT),
            ],
        ]  # fmt: skip
        with Broker(*scripts) as broker, Client("127.0.0.1", broker.port, identifier="c") as client:
            with self.assertRaises(TooLarge) as fault:
                client.publish("a", 20 * b"x", 1)
            self.assertEqual(fault.exception.name, "OutgoingPacketTooLarge")
            self.assertEqual(fault.exception.message, Message("a", 20 * b"x", 1, False, True))
            self.assertIsInstance(fault.exception, LetGo)
            self.assertEqual(client.publish("a", b"y", 1), 0)

    def test_assigned_identifier(self):
        # The broker assigns "x" to a client without an identifier, which goes on with the session of "x" (3.2.2.3.7).
        scripts = [
            [
                (GETS, "10 12 0004 4D515454 05 02 003C 05 11 00000000 0000"), (SAYS, "20 07 00 00 04 12 0001 78"),
                (GETS, "34 07 0001 61 0001 00 78"),
            ],
            [
                (GETS, "10 13 0004 4D515454 05 00 003C 05 11 00000000 0001 78"), (SAYS, CONNACK_AGAIN),
                (GETS, "3C 07 0001 61 0001 00 78"), (SAYS, "50 02 0001"), (GETS, "62 02 0001"), (SAYS, "70 02 0001"),
                (GETS, DISCONNECT),
            ],
        ]  # fmt: skip
        with Broker(*scripts) as broker, Client("127.0.0.1", broker.port) as client:
            self.assertEqual(client.publish("a", b"x", 2), 0)

    def test_shutting_down(self):
        # Server shutting down, and, as it comes back, server unavailable (3.14.2.1, 3.2.2.2). What came before is shown.
        scripts = [
            [(GETS, CONNECT), (SAYS, CONNACK), (GETS, "30 05 0001 61 00 77"), (SAYS, "30 05 0001 61 00 78" + "E0 01 8B")],
            [(GETS, CONNECT_AGAIN), (SAYS, "20 03 00 88 00")],
            [(GETS, CONNECT_AGAIN), (SAYS, CONNACK_AGAIN), (SAYS, "30 05 0001 61 00 79"), (GETS, DISCONNECT)],
        ]
        with Broker(*scripts) as broker, Client("127.0.0.1", broker.port, identifier="c") as client:
            client.publish("a", b"w")
            messages = client.messages(PATIENCE)
            self.assertEqual([next(messages).payload, next(messages).payload], [b"x", b"y"])

    def test_taken_over(self):
        # Session taken over: another connection has it, so this client ends.
        with Broker([(GETS, CONNECT), (SAYS, CONNACK), (GETS, "30 05 0001 61 00 77"), (SAYS, "E0 01 8E")]) as broker:
            with Client("127.0.0.1", broker.port, identifier="c") as client, self.assertRaises(Refused) as refused:
                client.publish("a", b"w")
                next(client.messages(PATIENCE))
            self.assertEqual(refused.exception.name, "Session taken over")

    def test_refused_connection(self):
        # Bad user name or password (3.2.2.2).
        with Broker([(GETS, CONNECT), (SAYS, "20 03 00 86 00")]) as broker:
            with self.assertRaises(Refused) as refused:
                Client("127.0.0.1", broker.port, identifier="c").__enter__()
            self.assertEqual(refused.exception.reason, 134)

    def test_ended_at_once(self):
        # A ConnAck and a Disconnect in one piece: its reason is told.
        with Broker([(GETS, CONNECT), (SAYS, CONNACK + "E0 01 8E")]) as broker:
            with self.assertRaises(Refused) as refused:
                Client("127.0.0.1", broker.port, identifier="c").__enter__()
            self.assertEqual(refused.exception.reason, 142)

    def test_other_first_packet(self):
        with Broker([(GETS, CONNECT), (SAYS, "30 05 0001 61 00 78")]) as broker:
            with self.assertRaisesRegex(ConnectionLost, "no ConnAck"):
                Client("127.0.0.1", broker.port, identifier="c").__enter__()

    def test_lost_connection(self):
        with Broker([(GETS, CONNECT), (SAYS, CONNACK)]) as broker:
            with Client("127.0.0.1", broker.port, identifier="c", reconnect=False) as client:
                with self.assertRaises(ConnectionLost):
                    for _ in client.messages():
                        pass

    def test_left_while_bytes_come(self):
        # A message of QoS 0 (3.3) that comes just before the end doesn't hold it up.
        opened, readers = asyncio.open_connection, []

        async def open_connection(*words, **settings):
            reader, writer = await opened(*words, **settings)
            readers.append(reader)
            return reader, writer

        async def use(client):
            readers[0].feed_data(bytes.fromhex("30 05 0001 61 00 78"))
            await client.disconnect()

        with mock.patch.object(asyncio, "open_connection", open_connection):
            runs(use, [(GETS, CONNECT), (SAYS, CONNACK), (GETS, DISCONNECT)])

    def test_goodbye_for_a_reason(self):
        # Disconnect with Will Message, and a reason string (3.14.2); server busy is the broker's reason, 5 none.
        script = [(GETS, CONNECT), (SAYS, CONNACK), (GETS, "30 05 0001 61 00 78"), (GETS, "E0 06 04 04 1F 0001 72")]
        with Broker(script) as broker, Client("127.0.0.1", broker.port, identifier="c") as client:
            for reason, name in (137, "InvalidState"), (5, "BadArgument"):
                with self.assertRaises(Fault) as fault:
                    client.disconnect(reason)
                self.assertEqual(fault.exception.name, name)
            with self.assertRaises(Fault):
                client.disconnect(4, Properties(receive_maximum=1))
            client.publish("a", b"x")
            client.disconnect(4, Properties(reason_string="r"))
            with self.assertRaises(ConnectionLost):
                client.publish("a", b"x", 1)

    def test_authentication(self):
        # Method "m": data 1, answered by 2 and asked again by 3, answered by 4; the last word of the broker is 5 (4.12). Then
        # it begins anew with 6, and is answered by 7, by which the broker asks once more (4.12.1).
        connect = "10 1B 0004 4D515454 05 02 003C 0D 11 00000000 15 0001 6D 16 0001 01 0001 63"
        script = [
            (GETS, connect), (SAYS, "F0 0A 18 08 15 0001 6D 16 0001 02"), (GETS, "F0 0A 18 08 15 0001 6D 16 0001 03"),
            (SAYS, "F0 0A 18 08 15 0001 6D 16 0001 04"), (GETS, "F0 0A 18 08 15 0001 6D 16 0001 05"),
            (SAYS, "20 0B 00 00 08 15 0001 6D 16 0001 05"), (GETS, "F0 0A 19 08 15 0001 6D 16 0001 06"),
            (SAYS, "F0 0A 18 08 15 0001 6D 16 0001 07"), (GETS, "F0 0A 18 08 15 0001 6D 16 0001 08"),
            (SAYS, "F0 0A 00 08 15 0001 6D 16 0001 09"), (GETS, DISCONNECT),
        ]  # fmt: skip
        settings = {
            "properties": Properties(authentication_method="m", authentication_data=b"\1"),
            "authenticate": lambda came: bytes([came.authentication_data[0] + 1]),
        }
        with Broker(script) as broker, Client("127.0.0.1", broker.port, identifier="c", **settings) as client:
            self.assertEqual(client.connack.authentication_data, b"\5")
            self.assertEqual(client.reauthenticate(b"\6").authentication_data, b"\t")

    def test_authentication_anew_is_refused(self):
        # The broker ends the connection: not authorized (4.12.1, 3.14.2.1).
        connect = "10 17 0004 4D515454 05 02 003C 09 11 00000000 15 0001 6D 0001 63"
        script = [(GETS, connect), (SAYS, CONNACK), (GETS, "F0 06 19 04 15 0001 6D"), (SAYS, "E0 01 87")]
        settings = {"properties": Properties(authentication_method="m"), "authenticate": lambda _: b""}
        with Broker(script) as broker, Client("127.0.0.1", broker.port, identifier="c", **settings) as client:
            with self.assertRaises(Refused) as refused:
                client.reauthenticate()
            self.assertEqual(refused.exception.name, "Not authorized")

    def test_auth_that_nobody_asked_for(self):
        # No method was named, so an Auth is a protocol error (4.12): before the ConnAck, and after it.
        refused = [(SAYS, "F0 0A 18 08 15 0001 6D 16 0001 02"), (GETS, "E0 02 82 00")]
        with Broker([(GETS, CONNECT), *refused]) as broker:
            with self.assertRaisesRegex(ConnectionLost, "no method was named"):
                Client("127.0.0.1", broker.port, identifier="c").__enter__()
        script = [(GETS, CONNECT), (SAYS, CONNACK), (GETS, "30 05 0001 61 00 78"), *refused]
        with Broker(script) as broker, Client("127.0.0.1", broker.port, identifier="c", reconnect=False) as client:
            client.publish("a", b"x")
            with self.assertRaisesRegex(ConnectionLost, "no method was named"):
                next(client.messages(PATIENCE))

    def test_asyncio(self):
        # Two publishes under way at once; a ping where nothing was sent for the keep alive of 5 seconds (3.12).
        connect = "10 13 0004 4D515454 05 02 0005 05 11 00000000 0001 63"
        script = [
            (GETS, connect), (SAYS, CONNACK), (GETS, "32 07 0001 61 0001 00 78"), (GETS, "32 07 0001 61 0002 00 79"),
            (SAYS, "40 02 0002"), (SAYS, "40 02 0001"), (GETS, "C0 00"), (SAYS, "D0 00"),
            (SAYS, "30 05 0001 61 00 7A"), (GETS, DISCONNECT),
        ]  # fmt: skip

        async def use(client):
            reasons = await asyncio.gather(client.publish("a", b"x", 1), client.publish("a", b"y", 1))
            self.assertEqual(reasons, [0, 0])
            async for message in client.messages:
                self.assertEqual(message.payload, b"z")
                break

        runs(use, script, keep_alive=5)

    def test_ping_under_a_stream(self):
        # Messages that come all the time don't keep a ping from going out where nothing was sent (3.1.2.10, 3.12).
        opened, readers, reads = asyncio.open_connection, [], []

        async def open_connection(*words, **settings):
            reader, writer = await opened(*words, **settings)
            readers.append(reader)
            return reader, writer

        async def use(client):
            read = readers[0].read

            async def read_at_once(count):
                if ping.called or len(reads) == 1000:
                    return await read(count)
                reads.append(count)
                return bytes.fromhex("30 05 0001 61 00 78")

            with mock.patch.object(client._session, "ping", wraps=client._session.ping) as ping:
                readers[0].read = read_at_once
                client._written -= 100
                readers[0].feed_data(bytes.fromhex("30 05 0001 61 00 78"))
                while not ping.called:
                    await asyncio.sleep(0.01)
            self.assertLess(len(reads), 1000)

        with mock.patch.object(asyncio, "open_connection", open_connection):
            runs(use, [(GETS, CONNECT), (SAYS, CONNACK), (GETS, "C0 00"), (SAYS, "D0 00"), (GETS, DISCONNECT)])

    def test_ping_beside_publishes(self):
        # A ping goes out where nothing comes, whatever is sent; where that isn't answered the connection is another one.
        connect = "10 13 0004 4D515454 05 02 0005 05 11 00000000 0001 63"
        again = "10 13 0004 4D515454 05 00 0005 05 11 00000000 0001 63"
        pings = []

        class Counting(Broker):
            def talk(self, _):
                for steps in [(GETS, connect), (SAYS, CONNACK)], [(GETS, again), (SAYS, CONNACK_AGAIN)]:
                    connection, _ = self.listening.accept()
                    with connection:
                        for step in steps:
                            self.take(connection, *step)
                        got = b""
                        while piece := connection.recv(1000):
                            got += piece
                        pings.append(got.count(bytes.fromhex("C000")))

        async def use(port):
            async with aio.Client("127.0.0.1", port, identifier="c", keep_alive=5) as client:
                lost = client._session, client._writer
                while client._writer is lost[1]:
                    await client.publish("a", b"x")
                    await asyncio.sleep(0.1)
                while not client._writer:
                    await asyncio.sleep(0.1)

        with Counting() as broker:
            asyncio.run(asyncio.wait_for(use(broker.port), PATIENCE))
        self.assertEqual(pings, [1, 0])

    def test_lost_session_beside_a_fault(self):
        # The ConnAck says that there is no session, and in one piece with it the broker is busy (3.14.2.1). The next one has the
        # new session, in which the subscription doesn't stand.
        subscribe = "82 07 0001 00 0001 62 01"
        scripts = [
            [(GETS, CONNECT), (SAYS, CONNACK), (GETS, subscribe), (SAYS, "90 04 0001 00 01")],
            [(GETS, CONNECT_AGAIN), (SAYS, CONNACK + "E0 01 89")],
            [
                (GETS, CONNECT_AGAIN), (SAYS, CONNACK_AGAIN), (GETS, subscribe), (SAYS, "90 04 0001 00 01"),
                (SAYS, "30 05 0001 62 00 78"), (GETS, DISCONNECT),
            ],
        ]  # fmt: skip
        with Broker(*scripts) as broker, Client("127.0.0.1", broker.port, identifier="c") as client:
            client.subscribe("b", 1)
            self.assertEqual(next(client.messages(PATIENCE)).payload, b"x")

    def test_refused_again(self):
        # A subscription that stood is refused when it is asked for again: not authorized (3.9.3).
        subscribe = "82 07 0001 00 0001 62 01"
        scripts = [
            [(GETS, CONNECT), (SAYS, CONNACK), (GETS, subscribe), (SAYS, "90 04 0001 00 01")],
            [(GETS, CONNECT_AGAIN), (SAYS, CONNACK), (GETS, subscribe), (SAYS, "90 04 0001 00 87"), (ENDS, "it is refused")],
        ]
        with Broker(*scripts) as broker, Client("127.0.0.1", broker.port, identifier="c") as client:
            client.subscribe("b", 1)
            with self.assertRaises(Refused) as refused:
                next(client.messages(PATIENCE))
            self.assertEqual(refused.exception.name, "Not authorized")

    def test_given_up_without_a_connection(self):
        # Whoever gives up while there is no connection isn't sent for later.
        scripts = [
            [(GETS, CONNECT), (SAYS, CONNACK)],
            [(GETS, CONNECT_AGAIN), (SAYS, CONNACK_AGAIN), (GETS, "32 07 0001 61 0001 00 79"), (SAYS, "40 02 0001"), (GETS, DISCONNECT)],
        ]

        async def use(client):
            while client._writer:
                await asyncio.sleep(0.01)
            with self.assertRaises(asyncio.TimeoutError):
                await asyncio.wait_for(client.publish("a", b"x", 1), 0.1)
            self.assertEqual(len(client._waiting), 0)
            self.assertEqual(await client.publish("a", b"y", 1), 0)

        with mock.patch.object(aio, "FIRST_PAUSE", 3):
            runs(use, *scripts)

    def test_numbers_out_of_range(self):
        # More than the field of a packet can say (3.1.2.10, 3.1.2.11.2), and what is neither text nor bytes.
        for settings in {"keep_alive": 65536}, {"session_expiry_interval": 1 << 32}, {"keep_alive": -1}:
            with Broker([]) as broker, self.assertRaises(Fault) as fault:
                Client("127.0.0.1", broker.port, identifier="c", **settings).__enter__()
            self.assertEqual(fault.exception.name, "BadArgument")
        for limit in 65537, -1:
            with self.assertRaises(Fault):
                aio.Client("127.0.0.1", limit=limit)
        script = [(GETS, CONNECT), (SAYS, CONNACK), (GETS, DISCONNECT)]
        with Broker(script) as broker, Client("127.0.0.1", broker.port, identifier="c") as client:
            for qos in 257, -1:
                with self.assertRaises(Fault):
                    client.publish("a", b"x", qos)
            for payload in 5, None:
                with self.assertRaises(TypeError):
                    client.publish("a", payload)
            # (a code point that UTF-8 hasn't: 1.5.4)
            with self.assertRaisesRegex(UnicodeEncodeError, "surrogates not allowed"):
                client.publish("\ud800", b"x", 1)

    def test_auth_beside_a_fault(self):
        # An Auth in one piece with a malformed packet isn't answered; the client connects again (4.12, 4.13).
        connect = "10 17 0004 4D515454 05 02 003C 09 11 00000000 15 0001 6D 0001 63"
        script = [(GETS, connect), (SAYS, "F0 0A 18 08 15 0001 6D 16 0001 02" + "00 00")]
        settings = {"properties": Properties(authentication_method="m"), "authenticate": lambda _: b""}
        with Broker(script) as broker, self.assertRaises(Fault):
            Client("127.0.0.1", broker.port, identifier="c", **settings).__enter__()

    def test_cancelled_while_it_enters(self):
        # Who gives up before the ConnAck leaves no connection behind.
        async def use(port):
            client = aio.Client("127.0.0.1", port, identifier="c")
            with self.assertRaises(TimeoutError):
                async with asyncio.timeout(0.3), client:
                    self.fail("it is connected")
            self.assertTrue(client._running.done())

        with Broker([(GETS, CONNECT), (ENDS, "nobody waits for it")]) as broker:
            asyncio.run(use(broker.port))

    def test_entered_twice(self):
        async def use(client):
            with self.assertRaises(RuntimeError):
                await client.__aenter__()
            other = aio.Client("127.0.0.1")
            for asked in other.publish("a"), other.publish("a", b"", 1), other.subscribe("a"), other.next_message():
                with self.assertRaises(RuntimeError):
                    await asked

        runs(use, [(GETS, CONNECT), (SAYS, CONNACK), (GETS, DISCONNECT)])

    def test_slow_reader(self):
        # All that was written is sent before the client ends, the Disconnect too.
        count, size = 50, 65536
        frame = bytes.fromhex("30 84 80 04 0001 61 00") + size * b"x"
        came = []

        class Slow(Broker):
            def talk(self, _):
                connection, _ = self.listening.accept()
                with connection:
                    connection.setsockopt(socket.SOL_SOCKET, socket.SO_RCVBUF, 65536)
                    self.take(connection, GETS, CONNECT)
                    self.take(connection, SAYS, CONNACK)
                    while piece := connection.recv(65536):
                        came.append(piece)
                        time.sleep(0.01)

        async def use(client):
            for _ in range(count):
                await client.publish("a", size * b"x")

        opened = asyncio.open_connection

        async def open_connection(*words, **settings):
            reader, writer = await opened(*words, **settings)
            writer.get_extra_info("socket").setsockopt(socket.SOL_SOCKET, socket.SO_SNDBUF, 16384)
            return reader, writer

        patches = mock.patch.object(sys.modules[__name__], "Broker", Slow), mock.patch.object(asyncio, "open_connection", open_connection)
        with patches[0], patches[1]:
            runs(use)
        self.assertEqual(len(b"".join(came)), count * len(frame) + 2)
        self.assertEqual(b"".join(came), count * frame + bytes.fromhex(DISCONNECT))

    def test_nothing_is_read(self):
        # A client ends within its time also where the broker takes nothing of what was written.
        left = threading.Event()

        class Deaf(Broker):
            def talk(self, _):
                connection, _ = self.listening.accept()
                with connection:
                    self.take(connection, GETS, CONNECT)
                    self.take(connection, SAYS, CONNACK)
                    left.wait(LIMIT)

        async def use(client):
            asked = asyncio.gather(*[client.publish("a", 65536 * b"x") for _ in range(400)])
            await asyncio.sleep(0.1)
            begun = time.monotonic()
            await client.disconnect()
            left.set()
            self.assertLess(time.monotonic() - begun, 5)
            await asked

        with mock.patch.object(sys.modules[__name__], "Broker", Deaf), mock.patch.object(aio, "PATIENCE", 1):
            runs(use)

    def test_threads_at_the_end(self):
        # All who wait for a message, or ask for something, come back when the client ends, on any thread.
        script = [(GETS, CONNECT), (SAYS, CONNACK), (GETS, DISCONNECT)]
        ended = []

        def wait(client):
            ended.append(list(client.messages()))

        with Broker(script) as broker:
            with Client("127.0.0.1", broker.port, identifier="c") as client:
                threads = [threading.Thread(target=wait, args=(client,), daemon=True) for _ in range(64)]
                for thread in threads:
                    thread.start()
                time.sleep(0.3)
            for thread in threads:
                thread.join(5)
        self.assertEqual(ended, 64 * [[]])
        with self.assertRaises(ConnectionLost):
            client.publish("a", b"x")


if __name__ == "__main__":
    unittest.main()
