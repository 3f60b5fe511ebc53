"""Numbers by their names."""

# Reason codes (MQTT 5.0 section 2.4).
REASONS = {
    0: "Success",
    1: "Granted QoS 1",
    2: "Granted QoS 2",
    4: "Disconnect with Will Message",
    16: "No matching subscribers",
    17: "No subscription existed",
    24: "Continue authentication",
    25: "Re-authenticate",
    128: "Unspecified error",
    129: "Malformed Packet",
    130: "Protocol Error",
    131: "Implementation specific error",
    132: "Unsupported Protocol Version",
    133: "Client Identifier not valid",
    134: "Bad User Name or Password",
    135: "Not authorized",
    136: "Server unavailable",
    137: "Server busy",
    138: "Banned",
    139: "Server shutting down",
    140: "Bad authentication method",
    141: "Keep Alive timeout",
    142: "Session taken over",
    143: "Topic Filter invalid",
    144: "Topic Name invalid",
    145: "Packet Identifier in use",
    146: "Packet Identifier not found",
    147: "Receive Maximum exceeded",
    148: "Topic Alias invalid",
    149: "Packet too large",
    150: "Message rate too high",
    151: "Quota exceeded",
    152: "Administrative action",
    153: "Payload format invalid",
    154: "Retain not supported",
    155: "QoS not supported",
    156: "Use another server",
    157: "Server moved",
    158: "Shared Subscriptions not supported",
    159: "Connection rate exceeded",
    160: "Maximum connect time",
    161: "Subscription Identifiers not supported",
    162: "Wildcard Subscriptions not supported",
}

# What the library answers (docs/C.md).
_SESSION = (
    "InvalidState Unsolicited AwaitPingResp WrongPacket CollisionTimeout EmptySubscription Deserialization InvalidAlias "
    "OutgoingPacketTooLarge ServerDisconnect ConnFail OutOfMemory Disconnected"
)
_PACKETS = (
    "InvalidConnectReturnCode InvalidProtocol InvalidProtocolLevel IncorrectPacketFormat InvalidPacketType "
    "InvalidRetainForwardRule InvalidQoS InvalidSubscribeReasonCode PacketIdZero EmptySubscription PayloadTooLong "
    "PayloadSizeLimitExceeded PayloadRequired TopicNotUtf8 BoundaryCrossed MalformedPacket MalformedRemainingLength "
    "InvalidPropertyType InsufficientBytes OutgoingPacketTooLarge OutOfMemory"
)
_HANDLE = (
    "NoClient BadArgument HasClient SmallBuffer Absent StoreForeign StoreVersion StoreCut StoreBadNumbers StoreNotStored "
    "StoreOutOfRange StoreTwice"
)
FAULTS = {
    first + at: name
    for first, names in ((1, _SESSION), (101, _PACKETS), (200, _HANDLE))
    for at, name in enumerate(names.split())
}
