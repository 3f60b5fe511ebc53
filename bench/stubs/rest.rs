//! What the original's `src/v5` asks of the rest of its crate: names, and as good as nothing behind them.

/// A line for the log: its text is type-checked and never made, as where no logger is set.
macro_rules! unlogged {
    ($($text:tt)*) => {
        if false {
            let _ = format_args!($($text)*);
        }
    };
}
macro_rules! debug { ($($text:tt)*) => { unlogged!($($text)*) }; }
macro_rules! error { ($($text:tt)*) => { unlogged!($($text)*) }; }
macro_rules! info { ($($text:tt)*) => { unlogged!($($text)*) }; }
macro_rules! warn { ($($text:tt)*) => { unlogged!($($text)*) }; }

pub mod v5;

#[derive(Clone, Debug, PartialEq, Eq)]
pub enum Outgoing {
    PingReq,
    PingResp,
    Disconnect,
    Publish(u16),
    PubAck(u16),
    PubRec(u16),
    PubRel(u16),
    PubComp(u16),
    Subscribe(u16),
    Unsubscribe(u16),
    AwaitAck(u16),
}

#[derive(Clone, Debug)]
pub struct Transport;

impl Transport {
    pub fn tcp() -> Self {
        Self
    }
}

#[derive(Clone, Debug)]
pub struct NetworkOptions;

impl NetworkOptions {
    pub fn new() -> Self {
        Self
    }
}

/// The names of the client.
pub mod client {
    pub struct AsyncClient;
    pub struct Client;
    pub struct ClientError;
    pub struct Connection;
    pub struct Iter;
    pub struct RecvError;
    pub struct RecvTimeoutError;
    pub struct TryRecvError;
}

/// The names of the event loop, with the session's events.
pub mod eventloop {
    use crate::v5::Incoming;
    use crate::Outgoing;

    pub struct ConnectionError;
    pub struct EventLoop;

    #[derive(Clone, Debug, PartialEq, Eq)]
    pub enum Event {
        Incoming(Incoming),
        Outgoing(Outgoing),
    }
}

/// Nothing of it is used.
pub mod framed {}
