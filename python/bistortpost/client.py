"""A client whose calls wait."""

from __future__ import annotations

import asyncio
import threading
from collections.abc import Iterator

from . import aio
from .errors import ConnectionLost
from .values import Message, Properties, Subscription

# How long the calls of other threads may take once the client has ended, in seconds.
PATIENCE = 1


class Client:
    """The client of `aio`, with the same settings and the same calls, each of which waits until it is done. A thread of
    its own keeps the connection up; the calls may come from any thread.

    with Client("127.0.0.1") as client:
        client.subscribe("a/#", qos=1)
        client.publish("a/b", b"hi", qos=1)
        for message in client.messages():
            print(message.topic, message.payload)
    """

    def __init__(self, hostname: str, port: int | None = None, **settings):
        self._loop = asyncio.new_event_loop()
        self._thread = threading.Thread(target=self._loop.run_forever, daemon=True)
        self._hostname, self._port, self._settings = hostname, port, settings
        self._client: aio.Client | None = None
        # (no call comes once the thread is to stop)
        self._lock, self._is_stopped = threading.Lock(), False

    def _do(self, call):
        with self._lock:
            if self._is_stopped:
                call.close()
                raise ConnectionLost("disconnected")
            asked = asyncio.run_coroutine_threadsafe(call, self._loop)
        try:
            return asked.result()
        except BaseException:
            # (an interrupt ends the wait alone)
            asked.cancel()
            raise

    def __enter__(self) -> Client:
        self._thread.start()
        try:
            self._client = self._do(self._open())
        except BaseException:
            self._stop()
            raise
        return self

    async def _open(self):
        # (made on the thread that calls it from then on)
        return await aio.Client(self._hostname, self._port, **self._settings).__aenter__()

    def __exit__(self, *_):
        try:
            self._do(self._client.disconnect())
        finally:
            self._stop()

    def _stop(self):
        with self._lock:
            self._is_stopped = True
            ended = asyncio.run_coroutine_threadsafe(self._end_calls(), self._loop)
        ended.result()
        self._loop.call_soon_threadsafe(self._loop.stop)
        self._thread.join()
        self._loop.close()

    async def _end_calls(self):
        """Waits for the calls that are under way, each of which ends with the client."""
        calls = asyncio.all_tasks() - {asyncio.current_task()}
        if calls:
            _, left = await asyncio.wait(calls, timeout=PATIENCE)
            for call in left:
                call.cancel()
            await asyncio.gather(*left, return_exceptions=True)

    @property
    def connack(self) -> Properties:
        """The properties of the ConnAck."""
        return self._client.connack

    def publish(self, topic: str, payload: bytes | str = b"", qos=0, retain=False, properties=None) -> int:
        return self._do(self._client.publish(topic, payload, qos, retain, properties))

    def subscribe(self, filters: str | Subscription | list, qos=0, properties=None) -> list[int]:
        return self._do(self._client.subscribe(filters, qos, properties))

    def unsubscribe(self, topic_filter: str, properties=None):
        self._do(self._client.unsubscribe(topic_filter, properties))

    def disconnect(self, reason: int = 0, properties=None):
        """Ends the connection for a reason. At the end of `with` that is done by itself, for the normal one."""
        self._do(self._client.disconnect(reason, properties))

    def next_message(self, timeout: float | None = None) -> Message | None:
        return self._do(self._client.next_message(timeout))

    def reauthenticate(self, data: bytes | None = None) -> Properties:
        return self._do(self._client.reauthenticate(data))

    def messages(self, timeout: float | None = None) -> Iterator[Message]:
        """The messages that come, in order. Ends where none comes for `timeout` seconds, or the client ends."""
        while True:
            try:
                message = self._do(self._client.next_message(timeout))
            except asyncio.TimeoutError:
                return
            except ConnectionLost:
                if self._is_stopped:
                    return
                raise
            if message is None:
                return
            yield message
