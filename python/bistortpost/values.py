"""What is published, subscribed to and shown, with the properties of MQTT 5.0 by their standard names."""

from __future__ import annotations

from dataclasses import dataclass, field, fields


@dataclass
class Properties:
    """The properties of a packet (MQTT 5.0 section 2.2.2.2). None, or an empty list, is one that isn't there."""

    payload_format_indicator: int | None = None
    message_expiry_interval: int | None = None
    content_type: str | None = None
    response_topic: str | None = None
    correlation_data: bytes | None = None
    subscription_identifier: list[int] = field(default_factory=list)
    session_expiry_interval: int | None = None
    assigned_client_identifier: str | None = None
    server_keep_alive: int | None = None
    authentication_method: str | None = None
    authentication_data: bytes | None = None
    request_problem_information: int | None = None
    will_delay_interval: int | None = None
    request_response_information: int | None = None
    response_information: str | None = None
    server_reference: str | None = None
    reason_string: str | None = None
    receive_maximum: int | None = None
    topic_alias_maximum: int | None = None
    topic_alias: int | None = None
    maximum_qos: int | None = None
    retain_available: int | None = None
    user_property: list[tuple[str, str]] = field(default_factory=list)
    maximum_packet_size: int | None = None
    wildcard_subscription_available: int | None = None
    subscription_identifier_available: int | None = None
    shared_subscription_available: int | None = None

    def __repr__(self):
        there = ((f.name, getattr(self, f.name)) for f in fields(self))
        return f"Properties({', '.join(f'{name}={value!r}' for name, value in there if value not in (None, []))})"


# The identifier of each (MQTT 5.0 table 2-4).
IDENTIFIERS = {
    "payload_format_indicator": 1,
    "message_expiry_interval": 2,
    "content_type": 3,
    "response_topic": 8,
    "correlation_data": 9,
    "subscription_identifier": 11,
    "session_expiry_interval": 17,
    "assigned_client_identifier": 18,
    "server_keep_alive": 19,
    "authentication_method": 21,
    "authentication_data": 22,
    "request_problem_information": 23,
    "will_delay_interval": 24,
    "request_response_information": 25,
    "response_information": 26,
    "server_reference": 28,
    "reason_string": 31,
    "receive_maximum": 33,
    "topic_alias_maximum": 34,
    "topic_alias": 35,
    "maximum_qos": 36,
    "retain_available": 37,
    "user_property": 38,
    "maximum_packet_size": 39,
    "wildcard_subscription_available": 40,
    "subscription_identifier_available": 41,
    "shared_subscription_available": 42,
}
NAMES = {identifier: name for name, identifier in IDENTIFIERS.items()}
# Which of them are texts, bytes and pairs of texts; the others are numbers.
TEXTS = {3, 8, 18, 21, 26, 28, 31}
BINARY = {9, 22}
PAIRS = {38}


@dataclass
class Message:
    """A message that came, or that was let go (MQTT 5.0 section 3.3)."""

    topic: str
    payload: bytes
    qos: int = 0
    retain: bool = False
    dup: bool = False
    properties: Properties = field(default_factory=Properties)


@dataclass
class Will:
    """What the broker publishes once the connection is lost (MQTT 5.0 section 3.1.2.5)."""

    topic: str
    payload: bytes = b""
    qos: int = 0
    retain: bool = False
    properties: Properties | None = None


@dataclass
class Subscription:
    """A topic filter with its options (MQTT 5.0 section 3.8.3.1)."""

    filter: str
    qos: int = 0
    no_local: bool = False
    retain_as_published: bool = False
    retain_handling: int = 0
