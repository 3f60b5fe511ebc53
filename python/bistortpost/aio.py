"""A client for asyncio."""

from __future__ import annotations

import asyncio
import contextlib
import ssl
import time
from collections import deque
from collections.abc import AsyncIterator, Callable
from dataclasses import replace

from . import _library as library
from ._session import Event, Session, Settings
from .errors import ConnectionLost, Fault, MqttError, Refused, SessionLost, TooLarge
from .values import Message, Properties, Subscription, Will

# How many bytes are read at a time.
PIECE = 65536
# The pauses before a connection is opened again grow from the first to the last, in seconds.
FIRST_PAUSE, LAST_PAUSE = 1, 60
# How long a broker may take to be reached, to answer a Connect, and to take what is sent, in seconds.
PATIENCE = 20
# After so many seconds the next address of a name is tried beside the one before.
NEXT_ADDRESS = 0.25
# The reason codes of what passes by itself, after which a connection is opened again (MQTT 5.0 sections 2.4, 4.13): a normal
# end, unspecified error (ejabberd's to a client that comes back while it still hands the session on), server unavailable,
# server busy, server shutting down, keep alive timeout, message rate too high, connection rate exceeded, maximum connect time.
PASSING = {0, 128, 136, 137, 139, 141, 150, 159, 160}
# Why a client ends that was asked to.
DISCONNECTED = ConnectionLost("disconnected")


class _Request:
    """What awaits an answer of the broker: how it is asked for, what is kept of a yes, and the future of the answer."""

    def __init__(self, what, packet, ask, qos=0, keep=lambda reasons: None):
        self.what, self.packet, self.ask, self.qos, self.keep = what, packet, ask, qos, keep
        # Of a message of QoS 2, the reason of its PubRec, once that came.
        self.received: int | None = None
        self.answer = asyncio.get_running_loop().create_future()
        # (nobody may wait for it)
        self.answer.add_done_callback(lambda answer: answer.cancelled() or answer.exception())

    def fail(self, why):
        # (whoever waited may have given up)
        if not self.answer.done():
            self.answer.set_exception(_anew(why))


class Client:
    """A client of a broker. Its connection is opened by `async with`, and again after each loss, with growing pauses:
    what awaits an ack is then sent again, or subscribed to again where the broker lost the session.

    async with Client("127.0.0.1") as client:
        await client.subscribe("a/#", qos=1)
        await client.publish("a/b", b"hi", qos=1)
        async for message in client.messages:
            print(message.topic, message.payload)

    `keep_alive` is in seconds, at least 5. With `clean_start` off the broker's session of this `identifier` is gone on
    with, and kept for `session_expiry_interval` seconds without a connection. `properties` are those of the Connect.
    `tls` is True, or a context of `ssl`. With `reconnect` off a connection that is lost isn't opened again.

    Extended authentication (MQTT 5.0 section 4.12): `properties` name its method and have its first data, and `authenticate`
    is called with the properties of each Auth that the broker sends to go on, and answers the data of the next one.
    """

    def __init__(
        self,
        hostname: str,
        port: int | None = None,
        *,
        identifier: str = "",
        username: str = "",
        password: str = "",
        will: Will | None = None,
        keep_alive: int = 60,
        clean_start: bool = True,
        session_expiry_interval: int = 0,
        properties: Properties | None = None,
        tls: bool | ssl.SSLContext = False,
        reconnect: bool = True,
        limit: int = 65535,
        authenticate: Callable[[Properties], bytes] | None = None,
    ):
        self._address = hostname, port or (8883 if tls else 1883)
        self._tls = ssl.create_default_context() if tls is True else tls or None
        self._settings = Settings(
            identifier, username, password, will, keep_alive, clean_start, session_expiry_interval, properties
        )
        self._reconnect, self._limit, self._most = reconnect, limit, limit
        self._session = Session(limit)
        self._writer: asyncio.StreamWriter | None = None
        self._connected: asyncio.Future[Properties] | None = None
        self._changed = asyncio.Event()
        # The requests that are to be asked for, in order, and by its packet identifier each that awaits its answer.
        self._waiting: deque[_Request] = deque()
        self._awaited: dict[int, _Request] = {}
        self._subscribed: dict[str, tuple[Subscription, Properties | None]] = {}
        self._messages: asyncio.Queue[Message | None] = asyncio.Queue()
        self._ended: MqttError | None = None
        # When something was sent last, and when something came last, or was asked for by a ping.
        self._written = self._heard = 0.0
        # Whether the broker said that it has no session, and the session wasn't taken up since.
        self._is_lost = False
        self._pause = FIRST_PAUSE
        self._keep_alive = keep_alive
        self._running: asyncio.Task[None] | None = None
        self._authenticate = authenticate
        # What awaits the end of an exchange of authentication data that began anew.
        self._proven: asyncio.Future[Properties] | None = None
        self.connack = Properties()

    # ---- The life of a client.

    async def __aenter__(self) -> Client:
        if self._running:
            raise RuntimeError("a client is entered once: make another one")
        self._connected = asyncio.get_running_loop().create_future()
        self._running = asyncio.create_task(self._run())
        try:
            await asyncio.shield(self._connected)
        except BaseException:
            await self._leave()
            raise
        return self

    async def __aexit__(self, *_):
        await self.disconnect()

    async def _leave(self):
        """Ends the client. What was written is sent, as far as the broker takes it within its time."""
        writer = self._writer
        self._end(DISCONNECTED)
        if self._running:
            self._running.cancel()
            await asyncio.gather(self._running, return_exceptions=True)
        if writer:
            with contextlib.suppress(OSError):
                await writer.wait_closed()

    async def disconnect(self, reason: int = 0, properties: Properties | None = None):
        """Ends the connection by a Disconnect with this reason code, as 4 after which the broker publishes the will. A client
        that ended does nothing. Fault of a reason that only a broker gives, and of a property that a Disconnect can't have:
        the connection then goes on."""
        if self._writer and not self._ended:
            self._session.disconnect(reason, properties, _now())
            self._flush()
        await self._leave()

    # ---- Requests.

    async def publish(
        self,
        topic: str,
        payload: bytes | str = b"",
        qos: int = 0,
        retain: bool = False,
        properties: Properties | None = None,
    ) -> int:
        """Publishes. At QoS 0 it returns once the message is handed to the connection, else once the broker has it; the
        answer is the reason code, as 16 where nobody subscribes. Refused, Fault, ConnectionLost; SessionLost and TooLarge,
        which have the message."""

        def ask():
            return self._session.publish(topic, payload, qos, retain, properties, _now())

        if qos == 0:
            await self._until_connected()
            ask()
            self._flush()
            await self._drain()
            return 0
        packet = library.PUBACK if qos == 1 else library.PUBCOMP
        event = await self._answer_of(_Request(f"the message to {topic}", packet, ask, qos))
        return event.reasons[0]

    async def subscribe(
        self,
        filters: str | Subscription | list[str | Subscription],
        qos: int = 0,
        properties: Properties | None = None,
    ) -> list[int]:
        """Subscribes to topic filters, and answers the QoS that was granted for each. Refused at the first refusal."""
        filters = filters if isinstance(filters, list) else [filters]
        wanted = [f if isinstance(f, Subscription) else Subscription(f, qos) for f in filters]
        event = await self._answer_of(self._subscription(wanted, properties))
        return event.reasons

    async def unsubscribe(self, topic_filter: str, properties: Properties | None = None):
        """Ends the subscription to a topic filter."""

        def ask():
            return self._session.unsubscribe(topic_filter, properties, _now())

        def keep(reasons):
            if all(reason < 128 for reason in reasons):
                self._subscribed.pop(topic_filter, None)

        what = f"the end of the subscription to {topic_filter}"
        await self._answer_of(_Request(what, library.UNSUBACK, ask, keep=keep))

    async def reauthenticate(self, data: bytes | None = None) -> Properties:
        """Authenticates anew (MQTT 5.0 section 4.12.1), with this data first, and answers the properties of the Auth by which
        the broker says yes. Where it says no, it ends the connection: Refused, ConnectionLost."""
        await self._until_connected()
        if not self._proven:
            self._say_auth(library.REAUTHENTICATE, data)
            self._flush()
            self._proven = asyncio.get_running_loop().create_future()
            # (nobody may wait for it)
            self._proven.add_done_callback(lambda proven: proven.cancelled() or proven.exception())
        return await asyncio.shield(self._proven)

    async def next_message(self, timeout: float | None = None) -> Message | None:
        """The next message that comes; None once the client ended by `disconnect`, ConnectionLost where it is lost.
        TimeoutError where none comes for so many seconds."""
        self._must_be_entered()
        async with asyncio.timeout(timeout):
            message = await self._messages.get()
        if message is None:
            # (for whoever asks next)
            self._messages.put_nowait(None)
            if self._ended is not DISCONNECTED:
                raise _anew(self._ended)
        return message

    @property
    async def messages(self) -> AsyncIterator[Message]:
        """The messages that come, in order, until the client ends by `disconnect`; ConnectionLost where it is lost."""
        while message := await self.next_message():
            yield message

    def _subscription(self, wanted, properties):
        def ask():
            return self._session.subscribe(wanted, properties, _now())

        def keep(reasons):
            granted = (s for s, reason in zip(wanted, reasons) if reason < 128)
            self._subscribed.update((s.filter, (s, properties)) for s in granted)

        what = "the subscription to " + ", ".join(s.filter for s in wanted)
        return _Request(what, library.SUBACK, ask, keep=keep)

    async def _answer_of(self, request) -> Event:
        """Asks for it in its turn, and waits for the answer."""
        self._must_run()
        self._waiting.append(request)
        self._ask_waiting()
        try:
            return await request.answer
        except asyncio.CancelledError:
            with contextlib.suppress(ValueError):
                self._waiting.remove(request)
            raise

    def _must_run(self):
        self._must_be_entered()
        if self._ended:
            raise _anew(self._ended)

    def _must_be_entered(self):
        if not self._running:
            raise RuntimeError("the client isn't entered yet, by `async with`")

    def _ask_waiting(self):
        """Asks for what waits, in order, as far as it may be asked for."""
        while self._writer and self._waiting:
            request = self._waiting[0]
            if not request.answer.done():
                if not self._may_ask(request):
                    break
                try:
                    self._awaited[request.ask()] = request
                except Exception as error:
                    request.fail(error)
            self._waiting.popleft()
        self._flush()

    def _may_ask(self, request):
        """Whether nothing else has its packet identifier (2.2.1), and the broker takes one more message (3.2.2.3.3)."""
        if self._session.next_id() in self._awaited or not self._session.may_publish():
            return False
        if not request.qos or len(self._awaited) < self._most:
            return True
        return sum(1 for awaited in self._awaited.values() if awaited.qos) < self._most

    async def _until_connected(self):
        self._must_run()
        while not self._writer:
            await self._changed.wait()
            self._must_run()

    def _has_changed(self):
        self._changed.set()
        self._changed = asyncio.Event()

    # ---- The connection.

    async def _run(self):
        """Holds connections, until one is lost for good. However it ends, all who wait are told."""
        why = ConnectionLost("the client stopped")
        try:
            why = await self._hold_connections()
        except Exception as error:
            why = ConnectionLost(f"the client failed: {error!r}")
            why.__cause__ = error
        finally:
            self._end(why)

    async def _hold_connections(self):
        while True:
            try:
                await self._hold_connection()
                lost = ConnectionLost("the broker closed the connection")
            except (OSError, TimeoutError, asyncio.IncompleteReadError) as error:
                lost = ConnectionLost(str(error) or "the broker doesn't answer")
            except MqttError as error:
                lost = error
            self._writer = None
            self._is_proven(lost)
            is_refused = isinstance(lost, Refused) and lost.reason not in PASSING
            if not self._reconnect or not self._connected.done() or is_refused:
                return lost
            pause, self._pause = self._pause, min(2 * self._pause, LAST_PAUSE)
            await asyncio.sleep(pause)

    async def _hold_connection(self):
        host, port = self._address
        # (not by wait_for, which in Python 3.11 forgets that it is cancelled where what it waits for comes just then)
        async with asyncio.timeout(PATIENCE):
            reader, writer = await asyncio.open_connection(host, port, ssl=self._tls, happy_eyeballs_delay=NEXT_ADDRESS)
        try:
            self._session.connect(self._settings)
            writer.write(self._session.output())
            self._written = self._heard = time.monotonic()
            await self._open(reader, writer)
            while data := await self._read(reader):
                self._handle(self._take(data))
                async with asyncio.timeout(PATIENCE):
                    await self._drain()
        finally:
            self._writer = None
            # (what is written goes out, as long as the broker takes it)
            writer.close()
            asyncio.get_running_loop().call_later(PATIENCE, writer.transport.abort)

    async def _open(self, reader, writer):
        """Reads until the ConnAck came, and takes the session up."""
        events = []
        while not events:
            async with asyncio.timeout(PATIENCE):
                data = await reader.read(PIECE)
            if not data:
                raise ConnectionLost("the broker closed the connection")
            events = self._take(data)
            # (an exchange of authentication data comes before the ConnAck)
            while events and events[0].packet == library.AUTH:
                self._go_on(events.pop(0), writer)
        connack = events[0]
        if connack.packet != library.CONNACK:
            raise ConnectionLost("the broker's first packet is no ConnAck")
        self.connack = connack.properties
        self._pause = FIRST_PAUSE
        self._keep_alive = self._settings.keep_alive
        if connack.properties.server_keep_alive is not None:
            self._keep_alive = connack.properties.server_keep_alive
        self._most = min(self._limit, connack.properties.receive_maximum or 65535)
        present = connack.session_present and not self._is_lost
        dropped = self._session.take_up(present, _now())
        self._is_lost = False
        # From now on the session is gone on with, as long as the broker keeps it: under the client identifier that it
        # assigned, where it did (3.2.2.3.7).
        client_id = self._settings.client_id or connack.properties.assigned_client_identifier or ""
        self._settings = replace(self._settings, client_id=client_id, clean_start=False)
        self._writer = writer
        self._ask_again(present, {one.pkid: one.message for one in dropped})
        self._handle(events[1:])
        if not self._connected.done():
            self._connected.set_result(connack.properties)

    def _ask_again(self, session_present, dropped: dict[int, Message | None]):
        """Asks again for what the new connection doesn't send by itself, before what waits. Who awaits a message that can't
        be sent again gets it back."""
        awaited, self._awaited, again = self._awaited, {}, []
        for pkid, request in awaited.items():
            if session_present and pkid in dropped:
                request.fail(TooLarge(dropped[pkid]))
            elif session_present and request.qos:
                self._awaited[pkid] = request
            elif request.qos == 2:
                request.fail(SessionLost(request.what, dropped.get(pkid)))
            else:
                again.append(request)
            if not session_present and request.packet == library.UNSUBACK:
                # (what it was to end, ended with the session)
                request.keep([])
        if not session_present:
            # (before what awaits an ack, which may be one for the same filter, or a message that it is to bring)
            again = [self._subscription([s], properties) for s, properties in self._subscribed.values()] + again
            for request in again[: len(self._subscribed)]:
                request.answer.add_done_callback(self._hear_subscribed)
        self._waiting.extendleft(reversed(again))
        self._ask_waiting()

    def _hear_subscribed(self, answer):
        """A subscription that stood is refused when it is asked for again: the client ends, rather than hear nothing of it."""
        error = None if answer.cancelled() else answer.exception()
        if isinstance(error, (Refused, Fault)) and not self._ended:
            self._end(error)
            self._running.cancel()

    async def _read(self, reader):
        """The next bytes, with a ping where nothing was sent for the keep alive, or nothing came; b"" at the end."""
        while True:
            left = None
            if self._keep_alive:
                left = min(self._written, self._heard) + self._keep_alive - time.monotonic()
                if left <= 0:
                    self._session.ping(_now())
                    self._flush()
                    self._heard = time.monotonic()
                    continue
            limit = asyncio.timeout(left)
            try:
                async with limit:
                    data = await reader.read(PIECE)
            except TimeoutError:
                # (else it is the connection's)
                if limit.expired():
                    continue
                raise
            self._heard = time.monotonic()
            return data

    def _flush(self):
        data = self._session.output() if self._writer else b""
        if data:
            self._writer.write(data)
            self._written = time.monotonic()

    async def _drain(self):
        """Waits until most of what was written is sent, or the connection has ended, which is told elsewhere."""
        if self._writer:
            with contextlib.suppress(OSError):
                await self._writer.drain()

    # ---- Extended authentication.

    def _say_auth(self, reason, data):
        method = self._settings.properties.authentication_method if self._settings.properties else None
        self._session.auth(reason, Properties(authentication_method=method, authentication_data=data), _now())

    def _go_on(self, event, writer):
        """Answers the broker's Auth, on this connection."""
        try:
            if not self._authenticate:
                self._session.disconnect(library.PROTOCOL_ERROR, None, _now())
                raise ConnectionLost("the broker sends an Auth, and no method was named")
            self._say_auth(library.CONTINUE, self._authenticate(event.properties))
        finally:
            writer.write(self._session.output())
            self._written = time.monotonic()

    def _is_proven(self, answer: Properties | MqttError):
        """Tells who waits for it how an authentication ended that began anew."""
        proven, self._proven = self._proven, None
        if not proven or proven.done():
            return
        if isinstance(answer, MqttError):
            proven.set_exception(_anew(answer))
        else:
            proven.set_result(answer)

    # ---- What comes.

    def _take(self, data) -> list[Event]:
        """The events of these bytes. Refused where the broker refuses or ends the connection, and Fault: what came before
        that is handed on."""
        try:
            self._session.receive(data, _now())
        except Fault as fault:
            events = self._events()
            # (an Auth isn't answered any more)
            self._hand_on([event for event in events if event.packet != library.AUTH])
            for event in events:
                is_refusal = event.packet == library.CONNACK and event.reasons[0] >= 128
                if is_refusal or event.packet == library.DISCONNECT:
                    raise Refused("the connection", event.reasons[0], event.properties.reason_string) from fault
            raise
        return self._events()

    def _events(self) -> list[Event]:
        events = list(self._session.events())
        for event in events:
            if event.packet == library.CONNACK and event.reasons[0] < 128 and not event.session_present:
                self._is_lost = True
        return events

    def _handle(self, events):
        self._hand_on(events)
        self._ask_waiting()
        self._has_changed()

    def _hand_on(self, events):
        for event in events:
            if event.message:
                self._messages.put_nowait(event.message)
            elif event.packet == library.AUTH:
                self._hear_auth(event)
            else:
                self._answer(event)

    def _hear_auth(self, event):
        if event.reasons[0] == library.CONTINUE:
            self._go_on(event, self._writer)
        else:
            self._is_proven(event.properties)

    def _answer(self, event):
        request = self._awaited.get(event.pkid)
        # A PubRec that says no ends a message of QoS 2 (4.3.3).
        packet = library.PUBCOMP if event.packet == library.PUBREC else event.packet
        if not request or request.packet != packet:
            return
        if event.packet == library.PUBREC and event.reasons[0] < 128:
            request.received = event.reasons[0]
            return
        del self._awaited[event.pkid]
        # The PubRec says what became of the message. (A release that goes out again after a cut may be of one that was done,
        # of which the PubComp says so: that is no error, 3.7.2.1.)
        if packet == library.PUBCOMP and request.received is not None:
            event.reasons = [request.received]
        request.keep(event.reasons)
        refusal = next((reason for reason in event.reasons if reason >= 128), None)
        if refusal is not None:
            request.fail(Refused(request.what, refusal, event.properties.reason_string))
        elif not request.answer.done():
            request.answer.set_result(event)

    def _end(self, why):
        if self._ended:
            return
        self._ended = why
        self._messages.put_nowait(None)
        self._has_changed()
        for request in [*self._awaited.values(), *self._waiting]:
            request.fail(why)
        self._is_proven(why)
        if self._connected and not self._connected.done():
            self._connected.set_exception(_anew(why))


def _now() -> int:
    return int(time.monotonic())


def _anew(why: Exception) -> Exception:
    """Another refusal that says the same. (One that is raised again keeps what stood on the stack each time.)"""
    if not isinstance(why, MqttError):
        return why
    other = why.__class__.__new__(why.__class__, *why.args)
    other.__dict__.update(why.__dict__)
    other.__cause__ = why.__cause__
    return other
