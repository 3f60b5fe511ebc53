"""A client over TCP, by ctypes: it subscribes, publishes at QoS 0, 1 and 2, loses its connection in the middle of a
publish and takes the session up on a new one. The session is kept in a file, so it outlives the process too.
Usage: example.py LIBRARY HOST PORT FILE"""

import ctypes as c
import os
import socket
import sys
import time


class Handle(c.Structure):
    """All zero is one without a client. Never copied."""

    _fields_ = [("live", c.c_bool), ("client", c.c_void_p)]


class Event(c.Structure):
    _fields_ = (
        [(name, c.c_uint32) for name in ("kind", "packet", "pkid", "code", "qos")]
        + [(name, c.c_bool) for name in ("dup", "retain", "session_present")]
        + [(name, c.c_size_t) for name in ("topic_len", "payload_len")]
    )


BYTES = [c.c_char_p, c.c_size_t]
TIME = [c.c_uint64]
# What `receive` answers where the broker ends the connection, or refuses it: an event has its reason.
SERVER_DISCONNECT, CONNECTION_REFUSED = 10, 11
CALLS = {
    "new": [c.c_uint16, c.c_bool],
    "free": [],
    "connect": BYTES + [c.c_uint16, c.c_bool, c.c_uint32],
    "receive": BYTES + TIME,
    "output": BYTES + [c.POINTER(c.c_size_t)],
    "sent": [c.c_size_t],
    "publish": BYTES + BYTES + [c.c_uint8, c.c_bool] + TIME,
    "may_publish": [c.POINTER(c.c_bool)],
    "subscribe": BYTES + [c.c_uint8] + TIME,
    "disconnect": TIME,
    "next_event": [c.POINTER(Event)] + BYTES + BYTES,
    "take_up": [c.c_bool] + TIME + [c.POINTER(c.c_size_t)],
    "save": BYTES + [c.POINTER(c.c_size_t)],
    "load": BYTES,
}


class Refused(RuntimeError):
    """A call that is refused, by its number."""

    def __init__(self, name, code):
        super().__init__(f"{name}: {code}")
        self.code = code


class Client:
    """The library's calls by their names; one that is refused raises its number."""

    def __init__(self, library):
        self.handle = Handle()
        self.calls = {}
        for name, parameters in CALLS.items():
            call = getattr(library, "mqtt5_client_" + name)
            call.argtypes, call.restype = [c.POINTER(Handle)] + parameters, c.c_uint32
            self.calls[name] = call

    def __getattr__(self, name):
        def checked(*arguments):
            code = self.calls[name](c.byref(self.handle), *arguments)
            if code:
                raise Refused(name, code)

        return checked


def now():
    return int(time.monotonic())


class Connection:
    def __init__(self, client, address, file):
        self.client, self.address, self.file = client, address, file
        self.socket, self.came, self.acked, self.connected = None, [], 0, None

    def load(self):
        """Makes the client, of the session in the file where there is one. Whether there is."""
        try:
            with open(self.file, "rb") as file:
                stored = file.read()
        except FileNotFoundError:
            self.client.new(10, False)
            return False
        self.client.load(stored, len(stored))
        return True

    def save(self):
        """Tells, and then saves: writes the session beside the file, syncs it, and puts it in the file's place. A message
        that was saved as taken and is told only then is lost where the process ends in between. (A sync of the folder behind
        it all makes the new name outlast a loss of power, too.)"""
        self.tell()
        sys.stdout.flush()
        # (203: the session is longer, and count says how long)
        room, count = c.create_string_buffer(4096), c.c_size_t()
        self.client.save(room, len(room), c.byref(count))
        with open(self.file + ".new", "wb") as file:
            file.write(room.raw[: count.value])
            file.flush()
            os.fsync(file.fileno())
        os.replace(self.file + ".new", self.file)

    def flush(self):
        """Saves, and then sends what there is to send: what is sent before it is saved may come twice, or never."""
        self.save()
        room, count = c.create_string_buffer(1024), c.c_size_t()
        while True:
            self.client.output(room, len(room), c.byref(count))
            if not count.value:
                return
            self.client.sent(self.socket.send(room.raw[: count.value]))

    def take(self):
        piece = self.socket.recv(1024)
        if not piece:
            raise RuntimeError("the broker is gone")
        try:
            self.client.receive(piece, len(piece), now())
        except Refused as refused:
            if refused.code in (SERVER_DISCONNECT, CONNECTION_REFUSED):
                self.tell()
            raise
        self.tell()

    def tell(self):
        """Tells of what happened."""
        event, topic, payload = Event(), c.create_string_buffer(256), c.create_string_buffer(1024)
        while True:
            self.client.next_event(c.byref(event), topic, len(topic), payload, len(payload))
            if event.kind == 0:
                return
            if event.kind != 1:
                continue
            if event.packet == 2:
                if event.code:
                    sys.exit(f"the broker refuses the connection: {event.code}")
                self.connected = event.session_present
            elif event.packet == 14:
                sys.exit(f"the broker ends the connection: {event.code}")
            elif event.packet == 3:
                self.came.append((topic.raw[: event.topic_len], payload.raw[: event.payload_len], event.qos))
                print("came:", *self.came[-1])
            elif event.packet in (4, 7):
                self.acked += 1

    def begin(self, clean_start):
        self.socket, self.connected = socket.create_connection(self.address, 5), None
        self.client.connect(b"mqtt5 in Python", 15, 60, clean_start, 3600)
        self.flush()
        while self.connected is None:
            self.take()
        print("connected,", "the broker has the session" if self.connected else "a new session")
        given_up = c.c_size_t()
        self.client.take_up(self.connected, now(), c.byref(given_up))
        if given_up.value:
            print(given_up.value, "requests are given up")
        self.flush()

    def publish(self, payload, qos):
        """Publishes, once the next packet identifier is free: an earlier process may have left some that await their acks."""
        may = c.c_bool()
        self.client.may_publish(c.byref(may))
        while not may.value:
            self.flush()
            self.take()
            self.client.may_publish(c.byref(may))
        self.client.publish(b"mqtt5/python", 12, payload, len(payload), qos, False, now())

    def wait(self, came, acked):
        while len(self.came) < came or self.acked < acked:
            self.flush()
            self.take()


def main(library, host, port, file):
    client = Client(c.CDLL(library))
    connection = Connection(client, (host, int(port)), file)
    connection.begin(not connection.load())
    client.subscribe(b"mqtt5/#", 7, 2, now())
    for qos, payload in enumerate([b"at most once", b"at least once", b"exactly once"]):
        connection.publish(payload, qos)
    connection.wait(3, 2)
    # The connection is cut before this one is sent, and the client ends, as it does with its process.
    connection.publish(b"after a cut", 2)
    connection.save()
    connection.socket.close()
    client.free()
    connection.load()
    connection.begin(False)
    connection.wait(4, 3)
    client.disconnect(now())
    connection.flush()
    connection.socket.close()
    client.free()
    print("done")


main(*sys.argv[1:])
