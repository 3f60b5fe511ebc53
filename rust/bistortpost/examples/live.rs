//! Clients at a broker: one row of tests/live_rows, by its name. Usage: live ROW HOST PORT USER PASSWORD. What a row needs
//! beside that is in the environment: KEEP_ALIVE, the most that the broker grants, in seconds; GO, a file that comes when the
//! broker was stopped; CA and OTHER_CA, the certificates of its authority and of another one.

use bistortpost::mqttbytes::QoS;
use bistortpost::{
    Client, ConnectionError, Event, Filter, LastWill, MqttOptions, Outgoing, Packet, Properties, Publish,
};
use std::io::{self, Read, Write};
use std::net::{Shutdown, TcpStream};
use std::path::Path;
use std::process::{Child, ChildStdin, Command, Stdio};
use std::sync::mpsc::{self, Receiver};
use std::sync::{Arc, Mutex};
use std::thread;
use std::time::{Duration, Instant};

/// How long each wait may take: for a packet, and for a broker that is started again.
const PATIENCE: Duration = Duration::from_secs(20);
const LONG_PATIENCE: Duration = Duration::from_secs(90);

type Happening = Result<Event, ConnectionError>;

/// A client, whose connection a thread moves on, and what happened.
struct Peer {
    client: Client,
    happened: Receiver<Happening>,
    stream: Arc<Mutex<Option<TcpStream>>>,
    /// The messages that came beside what was waited for, oldest first.
    came: Vec<Publish>,
    acked: usize,
}

fn env(name: &str) -> String {
    std::env::var(name).unwrap_or_else(|_| panic!("{name} is not set"))
}

fn word(index: usize) -> String {
    std::env::args().nth(index).expect("usage: live ROW HOST PORT USER PASSWORD")
}

fn options(id: &str, password: &str) -> MqttOptions {
    let mut options = MqttOptions::new(format!("rust-{id}"), word(2), word(3).parse().expect("a port"));
    options.set_credentials(word(4), password);
    options
}

/// Those of a client of the right password.
fn usual(id: &str) -> MqttOptions {
    options(id, &word(5))
}

/// Those of one whose session is kept.
fn kept(id: &str) -> MqttOptions {
    let mut options = usual(id);
    options.set_clean_start(false).set_session_expiry_interval(Some(100));
    options
}

/// A stream that ends for its reader too once it is dropped.
struct Closing(TcpStream);

impl Write for Closing {
    fn write(&mut self, bytes: &[u8]) -> io::Result<usize> {
        self.0.write(bytes)
    }

    fn flush(&mut self) -> io::Result<()> {
        self.0.flush()
    }
}

impl Drop for Closing {
    fn drop(&mut self) {
        // (one that is closed already is no error)
        let _ = self.0.shutdown(Shutdown::Both);
    }
}

impl Peer {
    /// Begins; the first thing that happens is its ConnAck, or why there is none.
    fn new<R, W, F>(options: MqttOptions, reconnects: bool, open: F) -> Peer
    where
        R: Read + Send + 'static,
        W: Write + Send + 'static,
        F: FnMut() -> io::Result<(R, W)> + Send + 'static,
    {
        let (client, mut connection) = Client::over(options, 100, open);
        let (sender, happened) = mpsc::channel();
        thread::spawn(move || {
            for event in connection.iter() {
                let (is_cut, is_left) = (event.is_err(), matches!(event, Ok(Event::Outgoing(Outgoing::Disconnect))));
                if sender.send(event).is_err() || is_cut && !reconnects {
                    return;
                }
                // (the broker may be gone for a while)
                thread::sleep(Duration::from_millis(if is_cut { 100 } else { 0 }));
                if is_left {
                    // (it is on its way once the next event is asked for, which is the end)
                    let _ = connection.recv();
                    return;
                }
            }
        });
        Peer { client, happened, stream: Arc::default(), came: Vec::new(), acked: 0 }
    }

    /// Over TCP, by a stream that can be cut.
    fn over_tcp(options: MqttOptions, reconnects: bool) -> Peer {
        let address = format!("{}:{}", word(2), word(3));
        let stream: Arc<Mutex<Option<TcpStream>>> = Arc::default();
        let held = stream.clone();
        let mut peer = Peer::new(options, reconnects, move || {
            let stream = TcpStream::connect(&address)?;
            stream.set_nodelay(true)?;
            stream.set_write_timeout(Some(PATIENCE))?;
            *held.lock().expect("a lock") = Some(stream.try_clone()?);
            Ok((stream.try_clone()?, Closing(stream)))
        });
        peer.stream = stream;
        peer
    }

    /// One that is connected, with the ConnAck's properties.
    fn connected(options: MqttOptions) -> (Peer, Properties) {
        let mut peer = Peer::over_tcp(options, true);
        let (_, properties) = peer.conn_ack();
        (peer, properties)
    }

    fn cut(&self) {
        let stream = self.stream.lock().expect("a lock").take().expect("a stream");
        stream.shutdown(Shutdown::Both).expect("a stream to cut");
    }

    /// The first that happens of what the function takes; messages that come meanwhile are kept.
    fn awaits<T>(&mut self, what: &str, patience: Duration, mut take: impl FnMut(&Happening) -> Option<T>) -> T {
        let began = Instant::now();
        loop {
            let left = patience.saturating_sub(began.elapsed());
            let happening = self.happened.recv_timeout(left).unwrap_or_else(|_| panic!("{what}: none in time"));
            let taken = take(&happening);
            match happening {
                Ok(Event::Incoming(Packet::Publish(publish))) => self.came.push(publish),
                Ok(Event::Incoming(Packet::PubAck { .. } | Packet::PubComp { .. })) => self.acked += 1,
                _ => {}
            }
            if let Some(taken) = taken {
                return taken;
            }
        }
    }

    /// The session present flag and the properties of the next ConnAck.
    fn conn_ack(&mut self) -> (bool, Properties) {
        self.awaits("a ConnAck", LONG_PATIENCE, |happening| match happening {
            Ok(Event::Incoming(Packet::ConnAck { session_present, properties, code: 0 })) => {
                Some((*session_present, properties.clone()))
            }
            // (an exchange of authentication data comes before it)
            Ok(Event::Incoming(Packet::Auth { .. }) | Event::Outgoing(Outgoing::Auth)) => None,
            Err(ConnectionError::Io(_)) => None,
            other => panic!("no ConnAck: {other:?}"),
        })
    }

    fn subscribe(&mut self, filters: Vec<Filter>) -> Vec<u8> {
        self.client.subscribe_many(filters).expect("a request is taken");
        self.awaits("a SubAck", PATIENCE, |happening| match happening {
            Ok(Event::Incoming(Packet::SubAck { return_codes, .. })) => Some(return_codes.clone()),
            _ => None,
        })
    }

    /// Subscribes to one filter, which must be granted.
    fn takes(&mut self, filter: &str, qos: QoS) {
        assert_eq!(self.subscribe(vec![Filter::new(filter, qos)]), [qos as u8], "{filter}");
    }

    /// Asks for a publish without waiting for its ack.
    fn asks(&self, topic: &str, qos: QoS, payload: &str) {
        self.client.publish(topic, qos, false, payload).expect("a request is taken");
    }

    fn publish(&mut self, topic: &str, qos: QoS, payload: &str) {
        let wanted = self.acked + 1;
        self.asks(topic, qos, payload);
        self.await_acks(wanted);
    }

    fn publish_with(&mut self, topic: &str, retain: bool, payload: &str, properties: Properties) {
        let wanted = self.acked + 1;
        let asked = self.client.publish_with_properties(topic, QoS::AtLeastOnce, retain, payload, properties);
        asked.expect("a request is taken");
        self.await_acks(wanted);
    }

    fn await_acks(&mut self, wanted: usize) {
        while self.acked < wanted {
            self.awaits("an ack", PATIENCE, |happening| match happening {
                Ok(Event::Incoming(Packet::PubAck { .. } | Packet::PubComp { .. })) => Some(()),
                _ => None,
            });
        }
    }

    /// The next message.
    fn next(&mut self) -> Publish {
        if self.came.is_empty() {
            self.awaits("a message", PATIENCE, |happening| match happening {
                Ok(Event::Incoming(Packet::Publish(_))) => Some(()),
                _ => None,
            });
        }
        self.came.remove(0)
    }

    fn leave(mut self) {
        self.client.disconnect().expect("a request is taken");
        self.awaits("a Disconnect", PATIENCE, |happening| match happening {
            Ok(Event::Outgoing(Outgoing::Disconnect)) => Some(()),
            _ => None,
        });
        // (it is sent once the thread ends)
        while self.happened.recv_timeout(PATIENCE).is_ok() {}
    }
}

fn text_of(publish: &Publish) -> &str {
    std::str::from_utf8(&publish.payload).expect("a text")
}

/// What a request and a will have beside their text.
fn properties(response_topic: &str) -> Properties {
    Properties {
        content_type: Some("text".to_owned()),
        response_topic: Some(response_topic.to_owned()),
        correlation_data: Some(vec![0, 7]),
        user_properties: vec![("k".to_owned(), "v".to_owned())],
        ..Properties::default()
    }
}

/// Of a number, QoS 1 or 2 by turns.
fn quality_of(number: usize) -> QoS {
    if number % 2 == 0 {
        QoS::AtLeastOnce
    } else {
        QoS::ExactlyOnce
    }
}

// ---- The rows. ----

fn login() {
    let (mut right, _) = Peer::connected(usual("login"));
    right.publish("a/rust/login", QoS::AtLeastOnce, "taken");
    right.leave();
    let mut wrong = Peer::over_tcp(options("login", "wrong"), false);
    let code = wrong.awaits("a refusal", PATIENCE, |happening| match happening {
        Err(ConnectionError::ConnectionRefused(code)) => Some(*code),
        Err(other) => panic!("{other}"),
        Ok(_) => None,
    });
    println!("refused: {code}");
}

fn with_will(payload: &str) -> MqttOptions {
    let mut options = usual("leaves");
    let will = LastWill::new("a/rust/will", payload, QoS::AtLeastOnce, false, Some(properties("r")));
    options.set_last_will(will);
    options
}

fn will() {
    let (mut heir, _) = Peer::connected(usual("heir"));
    heir.takes("a/rust/will", QoS::AtLeastOnce);
    let mut leaves = Peer::over_tcp(with_will("cut off"), false);
    leaves.conn_ack();
    leaves.cut();
    let message = heir.next();
    assert_eq!((text_of(&message), message.properties.as_ref()), ("cut off", Some(&properties("r"))));
    let (leaves, _) = Peer::connected(with_will("disconnected"));
    leaves.leave();
    // (a will would come before this)
    thread::sleep(Duration::from_millis(500));
    heir.publish("a/rust/will", QoS::AtLeastOnce, "nothing else");
    assert_eq!(text_of(&heir.next()), "nothing else");
    heir.leave();
}

fn goodbye() {
    let (mut stays, _) = Peer::connected(usual("stays"));
    stays.takes("a/rust/goodbye", QoS::AtLeastOnce);
    let mut options = usual("goes");
    options.set_last_will(LastWill::new("a/rust/goodbye", "left", QoS::AtLeastOnce, false, None));
    let (goes, _) = Peer::connected(options);
    let reason_string = Some("gone".to_owned());
    goes.client.disconnect_with(4, Properties { reason_string, ..Properties::default() }).expect("a request is taken");
    assert_eq!(text_of(&stays.next()), "left");
    stays.leave();
}

/// Extended authentication by letters: each is answered by the next one.
fn proving(id: &str, first: u8) -> MqttOptions {
    let mut options = usual(id);
    options.set_authentication("letters", Some(vec![first]), |came| {
        vec![came.authentication_data.as_ref().expect("a letter")[0] + 1]
    });
    options
}

fn proof() {
    let (mut proves, _) = Peer::connected(proving("proves", b'a'));
    proves.takes("a/rust/proof", QoS::AtLeastOnce);
    proves.client.reauthenticate(Some(vec![b'd'])).expect("a request is taken");
    proves.awaits("an Auth of success", PATIENCE, |happening| match happening {
        Ok(Event::Incoming(Packet::Auth { reason_code: 0, .. })) => Some(()),
        _ => None,
    });
    proves.publish("a/rust/proof", QoS::AtLeastOnce, "proven");
    assert_eq!(text_of(&proves.next()), "proven");
    proves.leave();
    let mut fails = Peer::over_tcp(proving("fails", b'x'), false);
    let code = fails.awaits("a refusal", PATIENCE, |happening| match happening {
        Err(ConnectionError::ConnectionRefused(code)) => Some(*code),
        Err(other) => panic!("{other}"),
        Ok(_) => None,
    });
    println!("refused: {code}");
}

fn response() {
    let (mut asks, _) = Peer::connected(usual("asks"));
    asks.takes("a/rust/answers", QoS::AtLeastOnce);
    let (mut answers, _) = Peer::connected(usual("answers"));
    answers.takes("a/rust/requests", QoS::AtLeastOnce);
    asks.publish_with("a/rust/requests", false, "6 * 7", properties("a/rust/answers"));
    let request = answers.next();
    let came = request.properties.as_ref().expect("properties");
    assert_eq!((text_of(&request), came), ("6 * 7", &properties("a/rust/answers")));
    let back = Properties { correlation_data: came.correlation_data.clone(), ..Properties::default() };
    answers.publish_with(came.response_topic.as_ref().expect("a response topic"), false, "42", back);
    let answer = asks.next();
    assert_eq!(text_of(&answer), "42");
    assert_eq!(answer.properties.expect("properties").correlation_data, Some(vec![0, 7]));
    asks.leave();
    answers.leave();
}

fn expiring(seconds: u32) -> Properties {
    Properties { message_expiry_interval: Some(seconds), ..Properties::default() }
}

/// What is left of an expiry interval of 100 seconds: less what it waited at the broker, in whole seconds (3.3.2.3.3).
fn has_left(message: &Publish, asked: Instant, acked: Instant, awaited: Instant) {
    let properties = message.properties.as_ref().expect("properties");
    let left = f64::from(properties.message_expiry_interval.expect("an expiry"));
    let (most, least) = (100.0 - (awaited - acked).as_secs_f64(), 100.0 - asked.elapsed().as_secs_f64());
    assert!(left > least - 1.0 && left < most + 1.0, "{left} seconds are left, and not {least} to {most}");
}

fn expiry() {
    let (mut late, _) = Peer::connected(kept("late"));
    late.takes("a/rust/late", QoS::AtLeastOnce);
    late.leave();
    let (mut early, _) = Peer::connected(usual("early"));
    let asked = Instant::now();
    // (a broker may have begun to deliver this one when the client left, and one that it began with doesn't expire)
    early.publish("a/rust/late", QoS::AtLeastOnce, "first");
    for (payload, seconds) in [("gone", 1), ("stays", 100)] {
        early.publish_with("a/rust/late", false, payload, expiring(seconds));
        early.publish_with(&format!("a/rust/expiry/{payload}"), true, payload, expiring(seconds));
    }
    let acked = Instant::now();
    thread::sleep(Duration::from_millis(2500));
    let awaited = Instant::now();
    early.takes("a/rust/expiry/#", QoS::AtLeastOnce);
    let message = early.next();
    assert_eq!(text_of(&message), "stays");
    has_left(&message, asked, acked, awaited);
    early.publish("a/rust/expiry/end", QoS::AtLeastOnce, "end");
    assert_eq!(text_of(&early.next()), "end");
    let (mut late, _) = Peer::connected(kept("late"));
    assert_eq!(text_of(&late.next()), "first");
    let message = late.next();
    assert_eq!(text_of(&message), "stays");
    has_left(&message, asked, acked, awaited);
    early.leave();
    late.leave();
}

fn filters() {
    const QUALITIES: [QoS; 3] = [QoS::AtMostOnce, QoS::AtLeastOnce, QoS::ExactlyOnce];
    let (mut peer, _) = Peer::connected(usual("filters"));
    let topic = |i: usize| format!("a/rust/filters/{i}");
    let granted = peer.subscribe((0..100).map(|i| Filter::new(topic(i), QUALITIES[i % 3])).collect());
    assert_eq!(granted, (0..100).map(|i| i % 3).collect::<Vec<u8>>());
    for i in (0..100).step_by(11) {
        peer.publish(&topic(i), QoS::ExactlyOnce, &i.to_string());
        let message = peer.next();
        assert_eq!((message.topic.as_slice(), message.qos), (topic(i).as_bytes(), QUALITIES[i % 3]));
        assert_eq!(text_of(&message), i.to_string());
    }
    peer.leave();
}

/// Silent for longer than the broker bears: one and a half of its keep alive (3.1.2.10).
fn keep_alive() {
    let most: u16 = env("KEEP_ALIVE").parse().expect("seconds");
    let mut options = usual("quiet");
    options.set_keep_alive(Duration::from_secs(1000));
    let mut peer = Peer::over_tcp(options, false);
    let (_, properties) = peer.conn_ack();
    assert_eq!(properties.server_keep_alive, Some(most));
    peer.takes("a/rust/quiet", QoS::AtLeastOnce);
    thread::sleep(Duration::from_millis(1500 * u64::from(most) + 3000));
    peer.publish("a/rust/quiet", QoS::AtLeastOnce, "still here");
    assert_eq!(text_of(&peer.next()), "still here");
    peer.leave();
}

/// Publishes ten numbers from this one on to a broker that was stopped.
fn publish_to_the_end(peer: &mut Peer, topic: &str, first: usize) {
    println!("ready");
    let began = Instant::now();
    while !Path::new(&env("GO")).exists() {
        assert!(began.elapsed() < LONG_PATIENCE, "a broker that is stopped: none in time");
        thread::sleep(Duration::from_millis(50));
    }
    let (mut asked, before) = (0, peer.acked);
    for number in first..first + 10 {
        peer.asks(topic, quality_of(number), &number.to_string());
    }
    while asked < 10 {
        asked += peer.awaits("a publish", PATIENCE, |happening| match happening {
            Ok(Event::Outgoing(Outgoing::Publish(_))) => Some(1),
            _ => None,
        });
    }
    // (until the last one is written)
    thread::sleep(Duration::from_millis(500));
    println!("sent");
    assert_eq!(peer.acked, before);
}

fn kept_session() {
    let (mut takes, _) = Peer::connected(kept("takes"));
    takes.takes("a/rust/kept", QoS::ExactlyOnce);
    takes.leave();
    let (mut sends, _) = Peer::connected(kept("sends"));
    for number in 0..10 {
        sends.publish("a/rust/kept", quality_of(number), &number.to_string());
    }
    publish_to_the_end(&mut sends, "a/rust/kept", 10);
    assert!(sends.conn_ack().0, "the broker has the session");
    sends.await_acks(20);
    sends.publish("a/rust/kept", QoS::ExactlyOnce, "end");
    let mut takes = Peer::over_tcp(kept("takes"), true);
    assert!(takes.conn_ack().0, "the broker has the other session");
    let mut times = [0; 20];
    loop {
        let message = takes.next();
        if text_of(&message) == "end" {
            break;
        }
        times[text_of(&message).parse::<usize>().expect("a number")] += 1;
    }
    for (number, times) in times.into_iter().enumerate() {
        assert!(times == 1 || times > 1 && quality_of(number) == QoS::AtLeastOnce, "{number} came {times} times");
    }
    sends.leave();
    takes.leave();
}

/// How many requests were let go, where the broker lost the session.
fn let_go(happening: &Happening) -> Option<usize> {
    match happening {
        Err(ConnectionError::SessionLost(dropped)) => Some(dropped.len()),
        _ => None,
    }
}

fn lost_session() {
    let (mut peer, _) = Peer::connected(kept("lost"));
    peer.takes("a/rust/lost", QoS::ExactlyOnce);
    peer.publish("a/rust/lost", QoS::ExactlyOnce, "before");
    assert_eq!(text_of(&peer.next()), "before");
    publish_to_the_end(&mut peer, "a/rust/lost", 0);
    assert!(!peer.conn_ack().0, "the broker has a session");
    assert_eq!(peer.awaits("what is let go", PATIENCE, let_go), 10);
    peer.takes("a/rust/lost", QoS::ExactlyOnce);
    for (qos, payload) in [(QoS::AtLeastOnce, "once more"), (QoS::ExactlyOnce, "and again")] {
        peer.publish("a/rust/lost", qos, payload);
        let message = peer.next();
        assert_eq!((text_of(&message), message.qos), (payload, qos));
    }
    peer.leave();
}

/// The input of a process, which is waited for once this is dropped.
struct Ending(ChildStdin, Child);

impl Write for Ending {
    fn write(&mut self, bytes: &[u8]) -> io::Result<usize> {
        self.0.write(bytes)
    }

    fn flush(&mut self) -> io::Result<()> {
        self.0.flush()
    }
}

impl Drop for Ending {
    fn drop(&mut self) {
        // (one that ended is no error)
        let _ = self.1.kill();
        let _ = self.1.wait();
    }
}

/// A client over openssl, which speaks TLS and trusts this authority.
fn over_tls(authority: String) -> Peer {
    let address = format!("{}:{}", word(2), word(3));
    Peer::new(usual("tls"), false, move || {
        let mut child = Command::new("openssl")
            .args(["s_client", "-quiet", "-verify_return_error", "-verify_hostname", "localhost"])
            .args(["-CAfile", &authority, "-connect", &address])
            .stdin(Stdio::piped())
            .stdout(Stdio::piped())
            .spawn()?;
        let (input, output) = (child.stdin.take().expect("an input"), child.stdout.take().expect("an output"));
        Ok((output, Ending(input, child)))
    })
}

fn tls() {
    let mut peer = over_tls(env("CA"));
    peer.conn_ack();
    peer.takes("a/rust/tls", QoS::AtLeastOnce);
    peer.publish("a/rust/tls", QoS::AtLeastOnce, "hidden");
    assert_eq!(text_of(&peer.next()), "hidden");
    peer.leave();
    let mut wrong = over_tls(env("OTHER_CA"));
    wrong.awaits("an end", PATIENCE, |happening| match happening {
        Err(ConnectionError::Io(_)) => Some(()),
        other => panic!("a connection by the wrong authority: {other:?}"),
    });
    println!("refused: a certificate");
}

fn main() {
    let rows: [(&str, fn()); 11] = [
        ("login", login),
        ("will", will),
        ("goodbye", goodbye),
        ("proof", proof),
        ("response", response),
        ("expiry", expiry),
        ("filters", filters),
        ("keep_alive", keep_alive),
        ("kept", kept_session),
        ("lost", lost_session),
        ("tls", tls),
    ];
    let name = word(1);
    let (_, run) = rows.iter().find(|(row, _)| *row == name).expect("a row");
    run();
    println!("done");
}
