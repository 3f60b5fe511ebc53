//! A client and its connection, by the names of rumqttc's blocking ones.

use crate::inbox::{is_end, Came, Inbox};
use crate::mqttbytes::QoS;
use crate::options::MqttOptions;
use crate::packets::{Dropped, Event, Filter, Outgoing, Packet, Publish};
use crate::properties::Properties;
use crate::session::{Fault, Session};
use std::collections::VecDeque;
use std::fmt;
use std::io::{self, ErrorKind, Read, Write};
use std::net::{Shutdown, TcpStream, ToSocketAddrs};
use std::sync::Arc;
use std::thread;
use std::time::{Duration, Instant};

/// How many bytes are read at a time.
const PIECE: usize = 65536;
/// How long an address may take to be reached, and a broker to answer a Connect, or to take more of what is written.
const PATIENCE: Duration = Duration::from_secs(20);
/// The most bytes of a text (MQTT 5.0 section 1.5.4).
const LONGEST: usize = 65535;
/// Reason codes (MQTT 5.0 section 2.4).
const NORMAL: u8 = 0;
const CONTINUE: u8 = 24;
const REAUTHENTICATE: u8 = 25;
const PROTOCOL_ERROR: u8 = 130;
/// S3: a ping while the last one isn't answered.
const AWAITS_PING: Fault = Fault(3);
/// S4: a packet that a client doesn't take.
const WRONG_PACKET: Fault = Fault(4);
/// S5: a second ping while a publish waits for its packet identifier.
const AWAITS_ACK: Fault = Fault(5);

/// Why a connection stops. The next `recv` opens it again.
#[derive(Debug)]
pub enum ConnectionError {
    Io(io::Error),
    /// The session refuses what came, or what was asked for.
    MqttState(Fault),
    /// The session refuses a topic or a topic filter of so many bytes, of which 65,535 are the most.
    TopicTooLong(usize),
    /// The broker refuses the connection; the reason code of its ConnAck.
    ConnectionRefused(u8),
    /// The broker doesn't answer a Connect, or takes nothing of what is written.
    NetworkTimeout,
    /// The broker lost the session: these requests were let go, in order. The connection stands.
    SessionLost(Vec<Dropped>),
    /// These messages can't be sent again, since they are over the packet size that the broker takes now. The connection
    /// stands.
    TooLarge(Vec<Dropped>),
    /// No client is left.
    RequestsDone,
}

impl fmt::Display for ConnectionError {
    fn fmt(&self, f: &mut fmt::Formatter<'_>) -> fmt::Result {
        match self {
            ConnectionError::Io(error) => write!(f, "{error}"),
            ConnectionError::MqttState(fault) => write!(f, "{fault}"),
            ConnectionError::TopicTooLong(count) => {
                write!(f, "the topic or topic filter has {count} bytes, over {LONGEST}")
            }
            ConnectionError::ConnectionRefused(code) => write!(f, "the broker refused the connection: {code}"),
            ConnectionError::NetworkTimeout => write!(f, "the broker doesn't answer"),
            ConnectionError::SessionLost(dropped) => {
                write!(f, "the broker lost the session: {} requests are let go", dropped.len())
            }
            ConnectionError::TooLarge(dropped) => {
                write!(f, "{} messages are over the packet size that the broker takes now", dropped.len())
            }
            ConnectionError::RequestsDone => write!(f, "no client is left"),
        }
    }
}

impl std::error::Error for ConnectionError {}

impl From<io::Error> for ConnectionError {
    fn from(error: io::Error) -> ConnectionError {
        ConnectionError::Io(error)
    }
}

impl From<Fault> for ConnectionError {
    fn from(fault: Fault) -> ConnectionError {
        ConnectionError::MqttState(fault)
    }
}

/// A request isn't taken: the connection is gone, or, of the calls that don't wait, has no room.
#[derive(Debug)]
pub struct ClientError;

impl fmt::Display for ClientError {
    fn fmt(&self, f: &mut fmt::Formatter<'_>) -> fmt::Result {
        write!(f, "the request isn't taken")
    }
}

impl std::error::Error for ClientError {}

enum Request {
    Publish(Publish),
    Subscribe(Vec<Filter>, Option<Properties>),
    Unsubscribe(String, Option<Properties>),
    Ack(u16, QoS),
    Disconnect(u8, Option<Properties>),
    Reauthenticate(Option<Vec<u8>>),
}

impl Request {
    /// How many bytes its longest topic or topic filter has.
    fn topic_len(&self) -> usize {
        match self {
            Request::Publish(publish) => publish.topic.len(),
            Request::Subscribe(filters, _) => filters.iter().map(|filter| filter.path.len()).max().unwrap_or(0),
            Request::Unsubscribe(filter, _) => filter.len(),
            Request::Ack(..) | Request::Disconnect(..) | Request::Reauthenticate(_) => 0,
        }
    }
}

/// Why the session refuses something with a topic, or a topic filter, of so many bytes.
fn refusal_of(fault: Fault, topic_len: usize) -> ConnectionError {
    if topic_len > LONGEST {
        ConnectionError::TopicTooLong(topic_len)
    } else {
        fault.into()
    }
}

/// Asks a connection, from any thread.
pub struct Client {
    inbox: Arc<Inbox<Request>>,
}

impl Client {
    /// A client and its connection over TCP, which takes `cap` requests before `publish` waits. The connection is opened by
    /// its first `recv`. Each address of the host has 20 seconds to be reached, and so long may a write wait for the broker
    /// to take more.
    pub fn new(options: MqttOptions, cap: usize) -> (Client, Connection) {
        let address = options.address.clone();
        Client::over(options, cap, move || {
            let stream = reach(&address.0, address.1)?;
            stream.set_nodelay(true)?;
            stream.set_write_timeout(Some(PATIENCE))?;
            Ok((stream.try_clone()?, Closing(stream)))
        })
    }

    /// The same over any reader and writer, which the function opens, anew for each connection. A thread reads until a read
    /// has nothing or fails, so:
    ///
    /// - Once the writer is dropped, the reader's read ends, also one that waits. Else each connection that stops leaves its
    ///   thread and its reader behind.
    /// - A read waits as long as nothing comes.
    /// - The function and each write have a limit on how long they wait, as `TcpStream::set_write_timeout` sets one. `recv`
    ///   waits for them, and does nothing else meanwhile.
    pub fn over<R, W, F>(options: MqttOptions, cap: usize, mut open: F) -> (Client, Connection)
    where
        R: Read + Send + 'static,
        W: Write + Send + 'static,
        F: FnMut() -> io::Result<(R, W)> + Send + 'static,
    {
        let (inbox, now) = (Arc::new(Inbox::new(cap)), Instant::now());
        let open = Box::new(move || {
            let (reader, writer) = open()?;
            Ok((Box::new(reader) as Box<dyn Read + Send>, Box::new(writer) as Box<dyn Write + Send>))
        });
        let connection = Connection {
            keep_alive: options.keep_alive,
            options,
            inbox: inbox.clone(),
            open,
            session: None,
            writer: None,
            is_acked: false,
            was_acked: false,
            is_lost: false,
            written: now,
            heard: now,
            pinged: now,
            came: VecDeque::new(),
        };
        (Client { inbox }, connection)
    }

    fn ask(&self, request: Request, may_wait: bool) -> Result<(), ClientError> {
        self.inbox.send(request, may_wait).map_err(|_| ClientError)
    }

    pub fn publish(
        &self,
        topic: impl Into<String>,
        qos: QoS,
        retain: bool,
        payload: impl Into<Vec<u8>>,
    ) -> Result<(), ClientError> {
        self.ask(publish_of(topic.into(), qos, retain, payload.into(), None), true)
    }

    pub fn try_publish(
        &self,
        topic: impl Into<String>,
        qos: QoS,
        retain: bool,
        payload: impl Into<Vec<u8>>,
    ) -> Result<(), ClientError> {
        self.ask(publish_of(topic.into(), qos, retain, payload.into(), None), false)
    }

    pub fn publish_with_properties(
        &self,
        topic: impl Into<String>,
        qos: QoS,
        retain: bool,
        payload: impl Into<Vec<u8>>,
        properties: Properties,
    ) -> Result<(), ClientError> {
        self.ask(publish_of(topic.into(), qos, retain, payload.into(), Some(properties)), true)
    }

    pub fn subscribe(&self, topic: impl Into<String>, qos: QoS) -> Result<(), ClientError> {
        self.ask(Request::Subscribe(vec![Filter::new(topic, qos)], None), true)
    }

    pub fn subscribe_many(&self, topics: impl IntoIterator<Item = Filter>) -> Result<(), ClientError> {
        self.ask(Request::Subscribe(topics.into_iter().collect(), None), true)
    }

    pub fn subscribe_many_with_properties(
        &self,
        topics: impl IntoIterator<Item = Filter>,
        properties: Properties,
    ) -> Result<(), ClientError> {
        self.ask(Request::Subscribe(topics.into_iter().collect(), Some(properties)), true)
    }

    pub fn unsubscribe(&self, topic: impl Into<String>) -> Result<(), ClientError> {
        self.ask(Request::Unsubscribe(topic.into(), None), true)
    }

    /// Acknowledges a publish that came, where the options have manual acks.
    pub fn ack(&self, publish: &Publish) -> Result<(), ClientError> {
        self.ask(Request::Ack(publish.pkid, publish.qos), true)
    }

    pub fn disconnect(&self) -> Result<(), ClientError> {
        self.ask(Request::Disconnect(NORMAL, None), true)
    }

    /// Ends the connection for a reason (MQTT 5.0 section 3.14.2.1), as 4, after which the broker publishes the will. A
    /// reason that only a broker gives is refused, and the connection goes on.
    pub fn disconnect_with(&self, reason: u8, properties: Properties) -> Result<(), ClientError> {
        self.ask(Request::Disconnect(reason, Some(properties)), true)
    }

    /// Authenticates anew, with this data first (MQTT 5.0 section 4.12.1). The broker's yes comes as an Auth with reason 0; by
    /// a no it ends the connection.
    pub fn reauthenticate(&self, data: Option<Vec<u8>>) -> Result<(), ClientError> {
        self.ask(Request::Reauthenticate(data), true)
    }
}

impl Clone for Client {
    fn clone(&self) -> Client {
        self.inbox.add_client();
        Client { inbox: self.inbox.clone() }
    }
}

impl Drop for Client {
    fn drop(&mut self) {
        self.inbox.drop_client();
    }
}

/// A stream to the first address of a host that takes one.
fn reach(host: &str, port: u16) -> io::Result<TcpStream> {
    let mut refusal = io::Error::new(ErrorKind::NotFound, "the host has no address");
    for address in (host, port).to_socket_addrs()? {
        match TcpStream::connect_timeout(&address, PATIENCE) {
            Ok(stream) => return Ok(stream),
            Err(error) => refusal = error,
        }
    }
    Err(refusal)
}

/// A stream that ends for its reader too once it is dropped.
struct Closing(TcpStream);

impl Write for Closing {
    fn write(&mut self, bytes: &[u8]) -> io::Result<usize> {
        self.0.write(bytes)
    }

    fn flush(&mut self) -> io::Result<()> {
        self.0.flush()
    }
}

impl Drop for Closing {
    fn drop(&mut self) {
        // (one that is closed already is no error)
        let _ = self.0.shutdown(Shutdown::Both);
    }
}

fn publish_of(topic: String, qos: QoS, retain: bool, payload: Vec<u8>, properties: Option<Properties>) -> Request {
    Request::Publish(Publish { dup: false, qos, retain, topic: topic.into_bytes(), pkid: 0, payload, properties })
}

type Opened = (Box<dyn Read + Send>, Box<dyn Write + Send>);

/// A connection, which moves on by `recv` and by `iter` alone, also its pings, and is opened again after it stopped.
pub struct Connection {
    options: MqttOptions,
    inbox: Arc<Inbox<Request>>,
    open: Box<dyn FnMut() -> io::Result<Opened> + Send>,
    session: Option<Session>,
    writer: Option<Box<dyn Write + Send>>,
    /// Whether this connection's ConnAck came, and whether one ever did.
    is_acked: bool,
    was_acked: bool,
    /// Whether a ConnAck said that the broker has no session, and ours isn't taken up since.
    is_lost: bool,
    keep_alive: Duration,
    /// When something was written last, when something that came was taken, and when a ping was sent.
    written: Instant,
    heard: Instant,
    pinged: Instant,
    came: VecDeque<Result<Event, ConnectionError>>,
}

impl Connection {
    /// The next event. `RequestsDone` once no client is left and no request of one; where a connection can't be opened, or
    /// stopped, after its error.
    pub fn recv(&mut self) -> Result<Event, ConnectionError> {
        loop {
            let moved = if self.came.is_empty() { self.turn() } else { self.ping_between() };
            if let Err(error) = moved {
                self.stop(error);
            }
            if let Some(next) = self.came.pop_front() {
                return next;
            }
        }
    }

    /// The events, until `recv` answers `RequestsDone`, as it does from then on.
    pub fn iter(&mut self) -> Iter<'_> {
        Iter { connection: self }
    }

    fn stop(&mut self, error: ConnectionError) {
        if let Some(session) = &mut self.session {
            // What came before the fault is told of first.
            while let Ok(Some(event)) = session.next_event() {
                self.is_lost |= is_new_session(&event);
                self.came.push_back(Ok(event));
            }
        }
        self.writer = None;
        self.is_acked = false;
        self.inbox.begin_stream();
        let error = self.refusal().unwrap_or(error);
        self.came.push_back(Err(error));
    }

    /// Why the broker refused the connection, if it did.
    fn refusal(&self) -> Option<ConnectionError> {
        self.came.iter().find_map(|came| match came {
            Ok(Event::Incoming(Packet::ConnAck { code, .. })) if *code != 0 => {
                Some(ConnectionError::ConnectionRefused(*code))
            }
            _other => None,
        })
    }

    fn turn(&mut self) -> Result<(), ConnectionError> {
        if self.writer.is_none() {
            if self.is_done()? {
                return Err(ConnectionError::RequestsDone);
            }
            self.connect()?;
        }
        self.flush()?;
        let session = self.session.as_mut().expect("a connection has a session");
        let takes_requests = self.is_acked && session.may_publish()?;
        match self.inbox.receive(takes_requests, self.due()) {
            Came::Read(read) => self.take(&read?),
            Came::Request(request) => self.ask(&request),
            Came::NoClient => Err(ConnectionError::RequestsDone),
            Came::Due if self.is_acked => self.ping(),
            Came::Due => Err(ConnectionError::NetworkTimeout),
        }
    }

    /// Whether another connection would have nothing to do: no client is left, no request, and no publish that waits.
    fn is_done(&mut self) -> Result<bool, Fault> {
        // (the first connection is opened also without clients)
        self.session.as_mut().map_or(Ok(false), |session| Ok(session.may_publish()? && self.inbox.is_done()))
    }

    /// When a ping is due, or the ConnAck is overdue. A ping is due where nothing was written for the keep alive, or nothing
    /// came, and a keep alive after the last one at the earliest.
    fn due(&self) -> Option<Instant> {
        if !self.is_acked {
            return Some(self.written + PATIENCE);
        }
        let from = self.written.min(self.heard).max(self.pinged);
        (!self.keep_alive.is_zero()).then(|| from + self.keep_alive)
    }

    /// Sends a ping that is due while the events of one piece are told of.
    fn ping_between(&mut self) -> Result<(), ConnectionError> {
        let is_due = self.is_acked && self.due().is_some_and(|due| due <= Instant::now());
        if is_due && !self.inbox.has_ended() {
            return self.ping();
        }
        Ok(())
    }

    /// Sends a ping, or says why the connection is given up. While what came isn't all taken, an answer may be in it, and
    /// while something comes, it may be behind that. A ping that the session refuses then is sent all the same.
    fn ping(&mut self) -> Result<(), ConnectionError> {
        let has_more = !self.came.is_empty() || self.inbox.has_read();
        let is_coming = has_more || self.heard.elapsed() < self.keep_alive;
        match self.session.as_mut().expect("a connection has a session").ping(0) {
            Err(AWAITS_PING) if is_coming => self.ping_all_the_same()?,
            Err(AWAITS_ACK) if has_more => self.ping_all_the_same()?,
            asked => {
                asked?;
                self.flush()?;
            }
        }
        self.pinged = Instant::now();
        Ok(())
    }

    /// The ping is that of another session, which awaits none.
    fn ping_all_the_same(&mut self) -> Result<(), ConnectionError> {
        let mut session = Session::new(1, true)?;
        session.ping(0)?;
        self.write(&session.output()?)?;
        self.came.push_front(Ok(Event::Outgoing(Outgoing::PingReq)));
        Ok(())
    }

    fn connect(&mut self) -> Result<(), ConnectionError> {
        if self.session.is_none() {
            self.session = Some(Session::new(self.options.limit, self.options.manual_acks)?);
        }
        let session = self.session.as_mut().expect("it was made");
        let will_len = self.options.last_will.as_ref().map_or(0, |will| will.topic.len());
        session
            .connect(&self.options, self.options.clean_start && !self.was_acked)
            .map_err(|fault| refusal_of(fault, will_len))?;
        let (reader, writer) = (self.open)()?;
        self.writer = Some(writer);
        self.heard = Instant::now();
        self.pinged = self.heard;
        let stream = self.inbox.begin_stream();
        let inbox = self.inbox.clone();
        thread::spawn(move || read_on(&inbox, stream, reader));
        Ok(())
    }

    fn flush(&mut self) -> Result<(), ConnectionError> {
        let output = self.session.as_mut().expect("a connection has a session").output()?;
        if output.is_empty() {
            return Ok(());
        }
        self.write(&output)
    }

    fn write(&mut self, bytes: &[u8]) -> Result<(), ConnectionError> {
        let writer = self.writer.as_mut().expect("a connection has a writer");
        writer.write_all(bytes).and_then(|()| writer.flush()).map_err(|error| match error.kind() {
            // (so a stream says that its limit on waiting is over)
            ErrorKind::WouldBlock | ErrorKind::TimedOut => ConnectionError::NetworkTimeout,
            _other => error.into(),
        })?;
        self.written = Instant::now();
        Ok(())
    }

    fn take(&mut self, bytes: &[u8]) -> Result<(), ConnectionError> {
        if bytes.is_empty() {
            return Err(io::Error::from(ErrorKind::UnexpectedEof).into());
        }
        self.heard = Instant::now();
        let session = self.session.as_mut().expect("a connection has a session");
        session.receive(bytes, 0)?;
        self.tell()
    }

    /// Takes the events out, and the session up where one is a ConnAck.
    fn tell(&mut self) -> Result<(), ConnectionError> {
        let session = self.session.as_mut().expect("a connection has a session");
        let (mut present, mut answered) = (None, Ok(()));
        while let Some(event) = session.next_event()? {
            if let Event::Incoming(Packet::Auth { reason_code: CONTINUE, properties }) = &event {
                answered = answer_auth(session, &self.options, properties);
            }
            self.is_lost |= is_new_session(&event);
            if let Event::Incoming(Packet::ConnAck { session_present, properties, .. }) = &event {
                present = Some(*session_present);
                self.keep_alive = settle(&mut self.options, properties);
            }
            self.came.push_back(Ok(event));
        }
        if answered.is_err() {
            self.flush()?;
            return answered;
        }
        let Some(present) = present else { return Ok(()) };
        let present = present && !self.is_lost;
        let session = self.session.as_mut().expect("a connection has a session");
        let dropped = session.take_up(present, 0)?;
        self.is_lost = false;
        self.is_acked = true;
        self.was_acked = true;
        if !dropped.is_empty() {
            let told = if present { ConnectionError::TooLarge } else { ConnectionError::SessionLost };
            self.came.push_back(Err(told(dropped)));
        }
        while let Some(event) = session.next_event()? {
            self.came.push_back(Ok(event));
        }
        Ok(())
    }

    fn ask(&mut self, request: &Request) -> Result<(), ConnectionError> {
        let session = self.session.as_mut().expect("a connection has a session");
        let asked = match request {
            Request::Publish(p) => {
                let topic = String::from_utf8_lossy(&p.topic);
                session.publish(&topic, p.qos, p.retain, &p.payload, p.properties.as_ref(), 0)
            }
            Request::Subscribe(filters, properties) => session.subscribe(filters, properties.as_ref(), 0),
            Request::Unsubscribe(filter, properties) => session.unsubscribe(filter, properties.as_ref(), 0),
            Request::Ack(pkid, QoS::AtLeastOnce) => session.puback(*pkid, 0),
            Request::Ack(pkid, QoS::ExactlyOnce) => session.pubrec(*pkid, 0),
            Request::Ack(_, QoS::AtMostOnce) => Ok(()),
            Request::Disconnect(reason, properties) => session.disconnect_with(*reason, properties.as_ref(), 0),
            Request::Reauthenticate(data) => session.auth(REAUTHENTICATE, &proof(&self.options, data.clone()), 0),
        };
        // A request that is refused changes nothing, and the connection goes on.
        if let Err(fault) = asked {
            self.came.push_back(Err(refusal_of(fault, request.topic_len())));
        }
        self.tell()
    }
}

/// The keep alive that a ConnAck with these properties settles. The session is gone on with under the client identifier that
/// the broker assigned (3.2.2.3.7).
fn settle(options: &mut MqttOptions, properties: &Properties) -> Duration {
    if let (true, Some(assigned)) = (options.client_id.is_empty(), &properties.assigned_client_identifier) {
        options.client_id = assigned.clone();
    }
    properties.server_keep_alive.map_or(options.keep_alive, |seconds| Duration::from_secs(u64::from(seconds)))
}

/// Whether this is the ConnAck of a broker that has no session of ours but a new one.
fn is_new_session(event: &Event) -> bool {
    matches!(event, Event::Incoming(Packet::ConnAck { session_present: false, code: 0, .. }))
}

/// The properties of an Auth with this data, of the method that the options name.
fn proof(options: &MqttOptions, data: Option<Vec<u8>>) -> Properties {
    Properties {
        authentication_method: options.properties.authentication_method.clone(),
        authentication_data: data,
        ..Properties::default()
    }
}

/// Answers the broker's Auth; one that nobody asked for by a Disconnect.
fn answer_auth(session: &mut Session, options: &MqttOptions, properties: &Properties) -> Result<(), ConnectionError> {
    let Some(authenticator) = &options.authenticator else {
        session.disconnect_with(PROTOCOL_ERROR, None, 0)?;
        return Err(WRONG_PACKET.into());
    };
    session.auth(CONTINUE, &proof(options, Some(authenticator.answer(properties))), 0)?;
    Ok(())
}

impl Drop for Connection {
    fn drop(&mut self) {
        self.inbox.close();
        self.inbox.begin_stream();
    }
}

/// Reads a stream to its end, or until it is no longer wanted.
fn read_on(inbox: &Inbox<Request>, stream: u64, mut reader: Box<dyn Read + Send>) {
    let mut piece = vec![0; PIECE];
    loop {
        let read = match reader.read(&mut piece) {
            Err(error) if error.kind() == ErrorKind::Interrupted => continue,
            read => read.map(|count| piece[..count].to_vec()),
        };
        let is_last = is_end(&read);
        if !inbox.hand_on(stream, read) || is_last {
            return;
        }
    }
}

/// The events of a connection, until no client is left.
pub struct Iter<'a> {
    connection: &'a mut Connection,
}

impl Iterator for Iter<'_> {
    type Item = Result<Event, ConnectionError>;

    fn next(&mut self) -> Option<Self::Item> {
        match self.connection.recv() {
            Err(ConnectionError::RequestsDone) => None,
            next => Some(next),
        }
    }
}
