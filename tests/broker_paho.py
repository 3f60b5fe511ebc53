"""Paho 1 for Python at a broker on this machine: each QoS both ways, properties, a retained message, a will, a session that is kept,
and a shared subscription. Usage: broker_paho.py PORT"""

import queue
import sys

import paho.mqtt.client as mqtt
from paho.mqtt.packettypes import PacketTypes
from paho.mqtt.properties import Properties

PORT = int(sys.argv[1])
PATIENCE = 20


def properties_of(kind, **values):
    out = Properties(kind)
    for name, value in values.items():
        setattr(out, name, value)
    return out


class One:
    """A client, whose messages and answers wait in queues."""

    def __init__(self, name, clean=True, expiry=0, will=None):
        self.messages, self.answers, self.connacks = queue.Queue(), queue.Queue(), queue.Queue()
        self.client = mqtt.Client(name, protocol=mqtt.MQTTv5)
        self.client.on_message = lambda _, __, message: self.messages.put(message)
        self.client.on_connect = lambda _, __, flags, reason, ___: self.connacks.put((flags["session present"], reason.value))
        self.client.on_subscribe = lambda _, __, ___, reasons, ____: self.answers.put([reason.value for reason in reasons])
        if will:
            self.client.will_set(*will)
        self.client.connect("127.0.0.1", PORT, clean_start=clean,
                            properties=properties_of(PacketTypes.CONNECT, SessionExpiryInterval=expiry))
        self.client.loop_start()
        self.present, reason = self.connacks.get(timeout=PATIENCE)
        assert reason == 0, reason

    def subscribe(self, topic, qos):
        self.client.subscribe(topic, qos)
        assert self.answers.get(timeout=PATIENCE) == [qos]

    def publish(self, *words, **settings):
        self.client.publish(*words, **settings).wait_for_publish(PATIENCE)

    def next(self):
        return self.messages.get(timeout=PATIENCE)

    def end(self):
        self.client.disconnect()
        self.client.loop_stop()

    def is_lost(self):
        self.client.loop_stop()
        self.client._sock_close()


pub = One("paho-pub")
for granted in (0, 1, 2):
    sub = One("paho-sub")
    sub.subscribe(f"paho/{granted}/+", granted)
    for qos in (0, 1, 2):
        pub.publish(f"paho/{granted}/x", b"\0\xff%d" % qos, qos, properties=properties_of(
            PacketTypes.PUBLISH, ContentType="text", UserProperty=("k", "v"), ResponseTopic="r", CorrelationData=b"\7"))
        got = sub.next()
        assert (got.payload, got.qos, got.retain) == (b"\0\xff%d" % qos, min(qos, granted), 0)
        assert (got.properties.ContentType, got.properties.UserProperty) == ("text", [("k", "v")])
        assert (got.properties.ResponseTopic, got.properties.CorrelationData) == ("r", b"\7")
    sub.end()

pub.publish("paho/kept", "kept", 1, retain=True)
sub = One("paho-sub", expiry=100)
sub.subscribe("paho/kept", 2)
assert sub.next().retain
sub.end()
for i in range(100):
    pub.publish("paho/kept", str(i), 1 + i % 2)
sub = One("paho-sub", clean=False)
assert sub.present == 1
# (paho hands a message of QoS 2 on at its release)
assert sorted(int(sub.next().payload) for _ in range(100)) == list(range(100))
pub.publish("paho/kept", None, 1, retain=True)
assert sub.next().payload == b""

sub.subscribe("paho/will", 1)
One("paho-will", will=("paho/will", "gone", 1)).is_lost()
assert sub.next().payload == b"gone"
sub.end()

pair = [One("paho-one"), One("paho-two")]
for one in pair:
    one.subscribe("$share/g/paho/shared", 2)
for i in range(10):
    pub.publish("paho/shared", str(i), 2)
came = [[int(one.next().payload) for _ in range(5)] for one in pair]
assert sorted(came[0] + came[1]) == list(range(10)), came
for one in pair:
    one.end()
pub.end()
print("done")
