"""Writes the stream of bench/show, and the same as a capture for tshark. Usage: show.py STREAM CAPTURE"""

import struct
import sys

TOPIC, PAYLOAD, PROPERTY = b"sensors/kitchen/temperature", b"x" * 16, b"\x26\x00\x01k\x00\x01v"
COUNT = 100_000


def publish(pkid):
    body = struct.pack(">H", len(TOPIC)) + TOPIC + struct.pack(">H", pkid) + bytes([len(PROPERTY)]) + PROPERTY + PAYLOAD
    return bytes([0x32, len(body)]) + body


def packets():
    yield b"\x10\x0e\x00\x04MQTT\x05\x02\x00\x00\x00\x00\x01c"
    for at in range(COUNT):
        yield publish(at % 65535 + 1)
        yield b"\x40\x02" + struct.pack(">H", at % 65535 + 1)


def frame(at, segment):
    tcp = struct.pack(">HHIIBBHHH", 40000, 1883, at & 0xFFFFFFFF, 1, 0x50, 0x18, 65535, 0, 0)
    ip = struct.pack(">BBHHHBBH4s4s", 0x45, 0, 40 + len(segment), 0, 0, 64, 6, 0, b"\x7f\0\0\1", b"\x7f\0\0\1")
    return b"\0" * 12 + b"\x08\0" + ip + tcp + segment


def main(stream, capture):
    at = 1
    with open(stream, "wb") as plain, open(capture, "wb") as pcap:
        pcap.write(struct.pack("<IHHiIII", 0xA1B2C3D4, 2, 4, 0, 0, 65535, 1))
        for packet in packets():
            plain.write(packet)
            ethernet = frame(at, packet)
            pcap.write(struct.pack("<IIII", 0, 0, len(ethernet), len(ethernet)) + ethernet)
            at += len(packet)


if __name__ == "__main__":
    main(*sys.argv[1:])
