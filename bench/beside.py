"""What paho-mqtt takes to read and to write a Publish and a PubAck: nanoseconds of the processor, the middle of five. It has no
reader and no writer by themselves: a client reads from a socket that gives these bytes, with its session, and its writer's
queue is left as it is. A Publish of QoS 1 that is read is answered."""
import statistics
import time

import paho.mqtt.client as mqtt

COUNT, BATCH = 20000, 1000
TOPIC, PAYLOAD = b"sensors/kitchen/temperature", b"x" * 16


class NoSocket:
    def close(self):
        pass


def new_client():
    client = mqtt.Client(client_id="x", protocol=mqtt.MQTTv5)
    client._sock = NoSocket()
    client._sockpairW = None
    client._call_socket_register_write = lambda: None
    return client


def publish_frame(number):
    body = bytes([0, len(TOPIC)]) + TOPIC + number.to_bytes(2, "big") + b"\0" + PAYLOAD
    return bytes([0x32, len(body)]) + body


def ack_frame(number):
    return bytes([0x40, 2]) + number.to_bytes(2, "big")


def reads(frame):
    stream = b"".join(frame(at + 1) for at in range(BATCH))
    client, place = new_client(), 0

    def receive(size):
        nonlocal place
        place += size
        return stream[place - size : place]

    client._sock_recv = receive
    began = time.process_time()
    for _ in range(COUNT // BATCH):
        place = 0
        for _ in range(BATCH):
            client._packet_read()
    return time.process_time() - began


def writes(send):
    client = new_client()
    began = time.process_time()
    for at in range(COUNT):
        send(client, at % 65535 + 1)
    return time.process_time() - began


def middle(work):
    work()
    return round(statistics.median(work() for _ in range(5)) / COUNT * 1e9)


def send_publish(client, number):
    client._send_publish(number, TOPIC, PAYLOAD, 1)


def send_ack(client, number):
    client._send_puback(number)


print(*map(middle, (
    lambda: reads(publish_frame),
    lambda: reads(ack_frame),
    lambda: writes(send_publish),
    lambda: writes(send_ack),
)))
