/* Numbers of mqtt5.h by their names. */
#ifndef MQTT5_NAMES_H
#define MQTT5_NAMES_H

#include <stdint.h>

#ifdef __cplusplus
extern "C" {
#endif

/* The name of what a call answers: of 1 to 13 and of 100 + n those of docs/PROGRAM.md. */
static inline const char *mqtt5_error_name(uint32_t code) {
    switch (code) {
        case 0: return "Done";
        case 1: return "InvalidState";
        case 2: return "Unsolicited";
        case 3: return "AwaitPingResp";
        case 4: return "WrongPacket";
        case 5: return "CollisionTimeout";
        case 6: return "EmptySubscription";
        case 7: return "Deserialization";
        case 8: return "InvalidAlias";
        case 9: return "OutgoingPacketTooLarge";
        case 10: return "ServerDisconnect";
        case 11: return "ConnFail";
        case 12: return "OutOfMemory";
        case 13: return "Disconnected";
        case 101: return "InvalidConnectReturnCode";
        case 102: return "InvalidProtocol";
        case 103: return "InvalidProtocolLevel";
        case 104: return "IncorrectPacketFormat";
        case 105: return "InvalidPacketType";
        case 106: return "InvalidRetainForwardRule";
        case 107: return "InvalidQoS";
        case 108: return "InvalidSubscribeReasonCode";
        case 109: return "PacketIdZero";
        case 110: return "EmptySubscription";
        case 111: return "PayloadTooLong";
        case 112: return "PayloadSizeLimitExceeded";
        case 113: return "PayloadRequired";
        case 114: return "TopicNotUtf8";
        case 115: return "BoundaryCrossed";
        case 116: return "MalformedPacket";
        case 117: return "MalformedRemainingLength";
        case 118: return "InvalidPropertyType";
        case 119: return "InsufficientBytes";
        case 120: return "OutgoingPacketTooLarge";
        case 121: return "OutOfMemory";
        case 200: return "NoClient";
        case 201: return "BadArgument";
        case 202: return "HasClient";
        case 203: return "SmallBuffer";
        case 204: return "Absent";
        case 205: return "StoreForeign";
        case 206: return "StoreVersion";
        case 207: return "StoreCut";
        case 208: return "StoreBadNumbers";
        case 209: return "StoreNotStored";
        case 210: return "StoreOutOfRange";
        case 211: return "StoreTwice";
        default: return "unknown";
    }
}

/* The standard's name of a reason code (MQTT 5.0 section 2.4). */
static inline const char *mqtt5_reason_name(uint8_t code) {
    switch (code) {
        case 0: return "Success";
        case 1: return "Granted QoS 1";
        case 2: return "Granted QoS 2";
        case 4: return "Disconnect with Will Message";
        case 16: return "No matching subscribers";
        case 17: return "No subscription existed";
        case 24: return "Continue authentication";
        case 25: return "Re-authenticate";
        case 128: return "Unspecified error";
        case 129: return "Malformed Packet";
        case 130: return "Protocol Error";
        case 131: return "Implementation specific error";
        case 132: return "Unsupported Protocol Version";
        case 133: return "Client Identifier not valid";
        case 134: return "Bad User Name or Password";
        case 135: return "Not authorized";
        case 136: return "Server unavailable";
        case 137: return "Server busy";
        case 138: return "Banned";
        case 139: return "Server shutting down";
        case 140: return "Bad authentication method";
        case 141: return "Keep Alive timeout";
        case 142: return "Session taken over";
        case 143: return "Topic Filter invalid";
        case 144: return "Topic Name invalid";
        case 145: return "Packet Identifier in use";
        case 146: return "Packet Identifier not found";
        case 147: return "Receive Maximum exceeded";
        case 148: return "Topic Alias invalid";
        case 149: return "Packet too large";
        case 150: return "Message rate too high";
        case 151: return "Quota exceeded";
        case 152: return "Administrative action";
        case 153: return "Payload format invalid";
        case 154: return "Retain not supported";
        case 155: return "QoS not supported";
        case 156: return "Use another server";
        case 157: return "Server moved";
        case 158: return "Shared Subscriptions not supported";
        case 159: return "Connection rate exceeded";
        case 160: return "Maximum connect time";
        case 161: return "Subscription Identifiers not supported";
        case 162: return "Wildcard Subscriptions not supported";
        default: return "unknown";
    }
}

#ifdef __cplusplus
}
#endif

#endif
