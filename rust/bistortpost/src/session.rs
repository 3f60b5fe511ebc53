//! A handle of the library, safe.

use crate::ffi::*;
use crate::options::{LastWill, MqttOptions};
use crate::packets::{Dropped, Event, Filter, Outgoing, Packet, Publish, QoS};
use crate::properties::{Place, Properties, Value};
use std::fmt;

/// What a call of the library answers that isn't done (docs/C.md has the numbers): 1 to 13 are S1 to S13, 100 + n is En.
#[derive(Clone, Copy, Debug, PartialEq, Eq)]
pub struct Fault(pub u32);

impl fmt::Display for Fault {
    fn fmt(&self, f: &mut fmt::Formatter<'_>) -> fmt::Result {
        match self.0 {
            session @ 1..=13 => write!(f, "S{session}"),
            packet @ 101..=121 => write!(f, "S7 E{}", packet - 100),
            other => write!(f, "refused by {other}"),
        }
    }
}

impl std::error::Error for Fault {}

const SMALL_BUFFER: u32 = 203;
/// How many bytes are taken out of the output at a time.
const PIECE: usize = 16384;

/// What is told of and taken out: the oldest event, or the oldest request that was let go.
#[derive(Clone, Copy)]
enum Oldest {
    Event,
    Dropped,
}

/// A client without sockets and without a clock: bytes that came in and requests go in, bytes to send and events come out.
/// A moment `at` is a number of seconds, or of another unit.
pub struct Session {
    handle: Box<Handle>,
}

// The library has no thread of its own and keeps nothing outside the handle (docs/C.md).
unsafe impl Send for Session {}

fn done(code: u32) -> Result<(), Fault> {
    if code == 0 {
        Ok(())
    } else {
        Err(Fault(code))
    }
}

impl Session {
    /// `limit`, at least 1, is the greatest packet identifier.
    pub fn new(limit: u16, manual_acks: bool) -> Result<Session, Fault> {
        let mut handle = Box::new(Handle { live: false, client: std::ptr::null_mut() });
        done(unsafe { mqtt5_client_new(&mut *handle, limit, manual_acks) })?;
        Ok(Session { handle })
    }

    /// Begins a connection: the output is the Connect of these settings alone.
    pub fn connect(&mut self, options: &MqttOptions, clean_start: bool) -> Result<(), Fault> {
        let (username, password) = options.credentials.clone().unwrap_or_default();
        self.begin()?;
        let h = &mut *self.handle;
        done(unsafe {
            mqtt5_client_set_login(h, username.as_ptr(), username.len(), password.as_ptr(), password.len())
        })?;
        if let Some(will) = &options.last_will {
            self.set_will(will)?;
        }
        self.add(Some(&options.properties))?;
        let id = &options.client_id;
        // (a keep alive that no Connect can say is refused by the library)
        let keep_alive = u16::try_from(options.keep_alive.as_secs()).unwrap_or(0);
        let h = &mut *self.handle;
        done(unsafe { mqtt5_client_connect(h, id.as_ptr(), id.len(), keep_alive, clean_start, options.session_expiry) })
    }

    fn set_will(&mut self, will: &LastWill) -> Result<(), Fault> {
        self.add(will.properties.as_ref())?;
        let (topic, message, qos) = (&will.topic, &will.message, will.qos as u8);
        let h = &mut *self.handle;
        done(unsafe {
            mqtt5_client_set_will(h, topic.as_ptr(), topic.len(), message.as_ptr(), message.len(), qos, will.retain)
        })
    }

    /// Empties the lists of properties and filters, in which those of a packet that was refused may stand. (The login and
    /// the will go too: each Connect sets them anew.)
    fn begin(&mut self) -> Result<(), Fault> {
        done(unsafe { mqtt5_client_forget(&mut *self.handle) })
    }

    /// Properties of the next packet.
    fn add(&mut self, properties: Option<&Properties>) -> Result<(), Fault> {
        let h: *mut Handle = &mut *self.handle;
        properties.map_or(Ok(()), |properties| {
            properties.each(|identifier, value| {
                done(match value {
                    Value::Number(number) => unsafe { mqtt5_client_add_number(h, identifier, number) },
                    Value::Bytes(b) => unsafe { mqtt5_client_add_bytes(h, identifier, b.as_ptr(), b.len()) },
                    Value::Pair(n, v) => unsafe { mqtt5_client_add_pair(h, n.as_ptr(), n.len(), v.as_ptr(), v.len()) },
                })
            })
        })
    }

    pub fn publish(
        &mut self,
        topic: &str,
        qos: QoS,
        retain: bool,
        payload: &[u8],
        properties: Option<&Properties>,
        at: u64,
    ) -> Result<(), Fault> {
        self.begin()?;
        self.add(properties)?;
        let (t, p, q) = (topic.as_bytes(), payload, qos as u8);
        let h = &mut *self.handle;
        done(unsafe { mqtt5_client_publish(h, t.as_ptr(), t.len(), p.as_ptr(), p.len(), q, retain, at) })
    }

    pub fn subscribe(&mut self, filters: &[Filter], properties: Option<&Properties>, at: u64) -> Result<(), Fault> {
        self.begin()?;
        for f in filters {
            let (path, qos, rule) = (f.path.as_bytes(), f.qos as u8, f.retain_forward_rule as u8);
            let h = &mut *self.handle;
            done(unsafe {
                mqtt5_client_add_filter(h, path.as_ptr(), path.len(), qos, f.nolocal, f.preserve_retain, rule)
            })?;
        }
        self.add(properties)?;
        done(unsafe { mqtt5_client_subscribe_all(&mut *self.handle, at) })
    }

    pub fn unsubscribe(&mut self, filter: &str, properties: Option<&Properties>, at: u64) -> Result<(), Fault> {
        self.begin()?;
        self.add(properties)?;
        done(unsafe { mqtt5_client_unsubscribe(&mut *self.handle, filter.as_ptr(), filter.len(), at) })
    }

    /// Whether a publish of QoS 1 or 2 needn't wait for its packet identifier.
    pub fn may_publish(&mut self) -> Result<bool, Fault> {
        let mut may = false;
        done(unsafe { mqtt5_client_may_publish(&mut *self.handle, &mut may) })?;
        Ok(may)
    }

    pub fn puback(&mut self, pkid: u16, at: u64) -> Result<(), Fault> {
        done(unsafe { mqtt5_client_puback(&mut *self.handle, pkid, at) })
    }

    pub fn pubrec(&mut self, pkid: u16, at: u64) -> Result<(), Fault> {
        done(unsafe { mqtt5_client_pubrec(&mut *self.handle, pkid, at) })
    }

    pub fn ping(&mut self, at: u64) -> Result<(), Fault> {
        done(unsafe { mqtt5_client_ping(&mut *self.handle, at) })
    }

    pub fn disconnect(&mut self, at: u64) -> Result<(), Fault> {
        done(unsafe { mqtt5_client_disconnect(&mut *self.handle, at) })
    }

    /// Ends the connection for a reason, as 4, after which the broker publishes the will. A reason that only a broker gives
    /// is refused, and the connection goes on.
    pub fn disconnect_with(&mut self, reason: u8, properties: Option<&Properties>, at: u64) -> Result<(), Fault> {
        self.begin()?;
        self.add(properties)?;
        done(unsafe { mqtt5_client_disconnect_with(&mut *self.handle, reason, at) })
    }

    /// Sends an Auth, of which the properties name the method: reason 24 goes on with the exchange, 25 begins anew.
    pub fn auth(&mut self, reason: u8, properties: &Properties, at: u64) -> Result<(), Fault> {
        self.begin()?;
        self.add(Some(properties))?;
        done(unsafe { mqtt5_client_auth(&mut *self.handle, reason, at) })
    }

    /// Takes a piece of the bytes that came in, cut anywhere.
    pub fn receive(&mut self, bytes: &[u8], at: u64) -> Result<(), Fault> {
        done(unsafe { mqtt5_client_receive(&mut *self.handle, bytes.as_ptr(), bytes.len(), at) })
    }

    /// All that is to be sent, taken out.
    pub fn output(&mut self) -> Result<Vec<u8>, Fault> {
        let mut all = Vec::new();
        loop {
            let (mut piece, mut count) = ([0; PIECE], 0);
            done(unsafe { mqtt5_client_output(&mut *self.handle, piece.as_mut_ptr(), piece.len(), &mut count) })?;
            if count == 0 {
                return Ok(all);
            }
            all.extend_from_slice(&piece[..count]);
            done(unsafe { mqtt5_client_sent(&mut *self.handle, count) })?;
        }
    }

    /// After a cut, once the ConnAck's event was taken out: what awaits an ack is sent again, or let go. What was let go, in
    /// order: with the broker's session the messages over its limit, without it all.
    pub fn take_up(&mut self, session_present: bool, at: u64) -> Result<Vec<Dropped>, Fault> {
        let mut count = 0;
        done(unsafe { mqtt5_client_take_up(&mut *self.handle, session_present, at, &mut count) })?;
        (0..count).map(|_| self.next_dropped()).collect()
    }

    /// Ends the session. What was let go, in order.
    pub fn clean(&mut self) -> Result<Vec<Dropped>, Fault> {
        let mut count = 0;
        done(unsafe { mqtt5_client_clean(&mut *self.handle, &mut count) })?;
        (0..count).map(|_| self.next_dropped()).collect()
    }

    fn next_dropped(&mut self) -> Result<Dropped, Fault> {
        // (a message with neither topic nor payload is taken out at once)
        let properties = self.properties(Oldest::Dropped)?;
        let mut info = EventInfo::default();
        let (mut topic, mut payload) = (Vec::new(), Vec::new());
        let mut code = self.take_out(Oldest::Dropped, &mut info, &mut topic, &mut payload);
        if code == Err(Fault(SMALL_BUFFER)) {
            code = self.take_with_room(Oldest::Dropped, &mut info, &mut topic, &mut payload);
        }
        code?;
        Ok(match info.packet {
            3 => Dropped::Publish(publish_of(&info, properties, topic, payload)),
            _ => Dropped::PubRel(info.pkid as u16),
        })
    }

    /// The oldest event, taken out.
    pub fn next_event(&mut self) -> Result<Option<Event>, Fault> {
        let reasons = self.reasons();
        let mut properties = Properties::default();
        if !reasons.is_empty() {
            properties = self.properties(Oldest::Event)?;
        }
        let mut info = EventInfo::default();
        let (mut topic, mut payload) = (Vec::new(), Vec::new());
        let mut code = self.take_out(Oldest::Event, &mut info, &mut topic, &mut payload);
        if code == Err(Fault(SMALL_BUFFER)) {
            properties = self.properties(Oldest::Event)?;
            code = self.take_with_room(Oldest::Event, &mut info, &mut topic, &mut payload);
        }
        code?;
        Ok(event_of(&info, reasons, properties, topic, payload))
    }

    fn take_out(
        &mut self,
        oldest: Oldest,
        info: &mut EventInfo,
        topic: &mut [u8],
        payload: &mut [u8],
    ) -> Result<(), Fault> {
        let (t, p) = (topic.as_mut_ptr(), payload.as_mut_ptr());
        let next = match oldest {
            Oldest::Event => mqtt5_client_next_event,
            Oldest::Dropped => mqtt5_client_next_dropped,
        };
        done(unsafe { next(&mut *self.handle, info, t, topic.len(), p, payload.len()) })
    }

    /// The same with as much room as was told.
    fn take_with_room(
        &mut self,
        oldest: Oldest,
        info: &mut EventInfo,
        topic: &mut Vec<u8>,
        payload: &mut Vec<u8>,
    ) -> Result<(), Fault> {
        topic.resize(info.topic_len, 0);
        payload.resize(info.payload_len, 0);
        self.take_out(oldest, info, topic, payload)
    }

    fn reasons(&mut self) -> Vec<u8> {
        let (mut reasons, mut reason) = (Vec::new(), 0);
        while unsafe { mqtt5_client_event_reason(&mut *self.handle, reasons.len(), &mut reason) } == 0 {
            reasons.push(reason);
        }
        reasons
    }

    /// The properties of the oldest one, which stays.
    fn properties(&mut self, oldest: Oldest) -> Result<Properties, Fault> {
        let mut properties = Properties { user_properties: self.pairs(oldest)?, ..Properties::default() };
        if let Oldest::Event = oldest {
            properties.subscription_identifiers = self.subscriptions();
        }
        for (identifier, place) in properties.places() {
            match place {
                Place::Byte(byte) => *byte = self.number(oldest, identifier).map(|number| number as u8),
                Place::Two(two) => *two = self.number(oldest, identifier).map(|number| number as u16),
                Place::Four(four) => *four = self.number(oldest, identifier),
                Place::Text(text) => *text = self.bytes(oldest, identifier)?.map(text_of),
                Place::Binary(binary) => *binary = self.bytes(oldest, identifier)?,
            }
        }
        Ok(properties)
    }

    fn number(&mut self, oldest: Oldest, identifier: u32) -> Option<u32> {
        let mut number = 0;
        let tell = match oldest {
            Oldest::Event => mqtt5_client_event_number,
            Oldest::Dropped => mqtt5_client_dropped_number,
        };
        (unsafe { tell(&mut *self.handle, identifier, &mut number) } == 0).then_some(number)
    }

    fn bytes(&mut self, oldest: Oldest, identifier: u32) -> Result<Option<Vec<u8>>, Fault> {
        let (mut bytes, mut count) = (Vec::new(), 0);
        let h: *mut Handle = &mut *self.handle;
        let copy = match oldest {
            Oldest::Event => mqtt5_client_event_bytes,
            Oldest::Dropped => mqtt5_client_dropped_bytes,
        };
        let code = unsafe { copy(h, identifier, bytes.as_mut_ptr(), 0, &mut count) };
        if code != 0 && code != SMALL_BUFFER {
            return Ok(None);
        }
        bytes.resize(count, 0);
        done(unsafe { copy(h, identifier, bytes.as_mut_ptr(), bytes.len(), &mut count) })?;
        Ok(Some(bytes))
    }

    fn pairs(&mut self, oldest: Oldest) -> Result<Vec<(String, String)>, Fault> {
        let mut pairs = Vec::new();
        loop {
            let (mut name, mut value, mut counts) = (Vec::new(), Vec::new(), (0, 0));
            let code = self.pair(oldest, pairs.len(), &mut name, &mut value, &mut counts);
            if code != Ok(()) && code != Err(Fault(SMALL_BUFFER)) {
                return Ok(pairs);
            }
            name.resize(counts.0, 0);
            value.resize(counts.1, 0);
            self.pair(oldest, pairs.len(), &mut name, &mut value, &mut counts)?;
            pairs.push((text_of(name), text_of(value)));
        }
    }

    fn pair(
        &mut self,
        oldest: Oldest,
        index: usize,
        name: &mut [u8],
        value: &mut [u8],
        counts: &mut (usize, usize),
    ) -> Result<(), Fault> {
        let (n, v) = (name.as_mut_ptr(), value.as_mut_ptr());
        let copy = match oldest {
            Oldest::Event => mqtt5_client_event_pair,
            Oldest::Dropped => mqtt5_client_dropped_pair,
        };
        let h = &mut *self.handle;
        done(unsafe { copy(h, index, n, name.len(), &mut counts.0, v, value.len(), &mut counts.1) })
    }

    fn subscriptions(&mut self) -> Vec<usize> {
        let (mut identifiers, mut identifier) = (Vec::new(), 0);
        let h: *mut Handle = &mut *self.handle;
        while unsafe { mqtt5_client_event_subscription(h, identifiers.len(), &mut identifier) } == 0 {
            identifiers.push(identifier);
        }
        identifiers
    }
}

impl Drop for Session {
    fn drop(&mut self) {
        unsafe { mqtt5_client_free(&mut *self.handle) };
    }
}

/// A text of the library, which is UTF-8.
fn text_of(bytes: Vec<u8>) -> String {
    String::from_utf8_lossy(&bytes).into_owned()
}

fn event_of(
    info: &EventInfo,
    reasons: Vec<u8>,
    properties: Properties,
    topic: Vec<u8>,
    payload: Vec<u8>,
) -> Option<Event> {
    let pkid = info.pkid as u16;
    match info.kind {
        0 => None,
        1 => Some(Event::Incoming(packet_of(info, pkid, reasons, properties, topic, payload))),
        2 => Some(Event::Outgoing(match info.packet {
            3 => Outgoing::Publish(pkid),
            4 => Outgoing::PubAck(pkid),
            5 => Outgoing::PubRec(pkid),
            6 => Outgoing::PubRel(pkid),
            7 => Outgoing::PubComp(pkid),
            8 => Outgoing::Subscribe(pkid),
            10 => Outgoing::Unsubscribe(pkid),
            12 => Outgoing::PingReq,
            15 => Outgoing::Auth,
            _ => Outgoing::Disconnect,
        })),
        _ => Some(Event::Outgoing(Outgoing::AwaitAck(pkid))),
    }
}

fn publish_of(info: &EventInfo, properties: Properties, topic: Vec<u8>, payload: Vec<u8>) -> Publish {
    Publish {
        dup: info.dup,
        qos: QoS::of(info.qos),
        retain: info.retain,
        topic,
        pkid: info.pkid as u16,
        payload,
        properties: (properties != Properties::default()).then_some(properties),
    }
}

fn packet_of(
    info: &EventInfo,
    pkid: u16,
    reasons: Vec<u8>,
    properties: Properties,
    topic: Vec<u8>,
    payload: Vec<u8>,
) -> Packet {
    let reason = reasons.first().copied().unwrap_or(0);
    match info.packet {
        2 => Packet::ConnAck { session_present: info.session_present, code: reason, properties },
        3 => Packet::Publish(publish_of(info, properties, topic, payload)),
        4 => Packet::PubAck { pkid, reason, properties },
        5 => Packet::PubRec { pkid, reason, properties },
        6 => Packet::PubRel { pkid, reason, properties },
        7 => Packet::PubComp { pkid, reason, properties },
        9 => Packet::SubAck { pkid, return_codes: reasons, properties },
        11 => Packet::UnsubAck { pkid, reasons, properties },
        13 => Packet::PingResp,
        14 => Packet::Disconnect { reason_code: reason, properties },
        15 => Packet::Auth { reason_code: reason, properties },
        other => Packet::Other(other),
    }
}
