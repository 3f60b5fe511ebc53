//! Packets and events, by the names of rumqttc.

use crate::Properties;

/// A quality of service (MQTT 5.0 section 4.3).
#[derive(Clone, Copy, Debug, Default, PartialEq, Eq, PartialOrd, Ord)]
pub enum QoS {
    #[default]
    AtMostOnce = 0,
    AtLeastOnce = 1,
    ExactlyOnce = 2,
}

impl QoS {
    pub(crate) fn of(number: u32) -> QoS {
        match number {
            0 => QoS::AtMostOnce,
            1 => QoS::AtLeastOnce,
            _ => QoS::ExactlyOnce,
        }
    }
}

/// Which retained messages a subscription is sent (MQTT 5.0 section 3.8.3.1).
#[derive(Clone, Copy, Debug, Default, PartialEq, Eq)]
pub enum RetainForwardRule {
    #[default]
    OnEverySubscribe = 0,
    OnNewSubscribe = 1,
    Never = 2,
}

/// A topic filter with its options (MQTT 5.0 section 3.8.3.1).
#[derive(Clone, Debug, Default, PartialEq, Eq)]
pub struct Filter {
    pub path: String,
    pub qos: QoS,
    pub nolocal: bool,
    pub preserve_retain: bool,
    pub retain_forward_rule: RetainForwardRule,
}

impl Filter {
    pub fn new(path: impl Into<String>, qos: QoS) -> Filter {
        Filter { path: path.into(), qos, ..Filter::default() }
    }
}

/// A message (MQTT 5.0 section 3.3).
#[derive(Clone, Debug, Default, PartialEq, Eq)]
pub struct Publish {
    pub dup: bool,
    pub qos: QoS,
    pub retain: bool,
    pub topic: Vec<u8>,
    pub pkid: u16,
    pub payload: Vec<u8>,
    pub properties: Option<Properties>,
}

/// A packet that came. A reason is a reason code (MQTT 5.0 section 2.4).
#[derive(Clone, Debug, PartialEq, Eq)]
pub enum Packet {
    ConnAck {
        session_present: bool,
        code: u8,
        properties: Properties,
    },
    Publish(Publish),
    PubAck {
        pkid: u16,
        reason: u8,
        properties: Properties,
    },
    PubRec {
        pkid: u16,
        reason: u8,
        properties: Properties,
    },
    PubRel {
        pkid: u16,
        reason: u8,
        properties: Properties,
    },
    PubComp {
        pkid: u16,
        reason: u8,
        properties: Properties,
    },
    SubAck {
        pkid: u16,
        return_codes: Vec<u8>,
        properties: Properties,
    },
    UnsubAck {
        pkid: u16,
        reasons: Vec<u8>,
        properties: Properties,
    },
    PingResp,
    Disconnect {
        reason_code: u8,
        properties: Properties,
    },
    Auth {
        reason_code: u8,
        properties: Properties,
    },
    /// One that a broker doesn't send; its type.
    Other(u32),
}

/// A packet that the session answered to send, with its packet identifier.
#[derive(Clone, Copy, Debug, PartialEq, Eq)]
pub enum Outgoing {
    Publish(u16),
    PubAck(u16),
    PubRec(u16),
    PubRel(u16),
    PubComp(u16),
    Subscribe(u16),
    Unsubscribe(u16),
    PingReq,
    Disconnect,
    Auth,
    /// A publish waits until this packet identifier is free.
    AwaitAck(u16),
}

/// What a session let go.
#[derive(Clone, Debug, PartialEq, Eq)]
pub enum Dropped {
    /// A message that awaited its ack; `dup` says whether it was sent before.
    Publish(Publish),
    /// The release of this packet identifier, whose message of QoS 2 the broker has.
    PubRel(u16),
}

/// What happened in a session.
#[derive(Clone, Debug, PartialEq, Eq)]
pub enum Event {
    Incoming(Packet),
    Outgoing(Outgoing),
}
