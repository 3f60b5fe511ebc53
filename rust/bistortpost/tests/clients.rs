//! The client against a broker that follows a script: the frames that it gets and says are written by hand, from the sections
//! of MQTT 5.0 that stand beside them.

use bistortpost::mqttbytes::QoS;
use bistortpost::{
    Client, ConnectionError, Dropped, Event, Filter, LastWill, MqttOptions, Outgoing, Packet, Properties, Publish,
};
use std::io::{self, ErrorKind, Read, Write};
use std::net::{Shutdown, TcpListener, TcpStream};
use std::sync::mpsc::{self, RecvTimeoutError, Sender};
use std::thread::{self, JoinHandle};
use std::time::{Duration, Instant};

// A Connect (3.1): client id "c", clean start, keep alive 60, session expiry 0. The ConnAck (3.2) of a new session.
const CONNECT: &str = "10 13 0004 4D515454 05 02 003C 05 11 00000000 0001 63";
const CONNACK: &str = "20 03 00 00 00";
// Without clean start, and the ConnAck of a session that is there.
const CONNECT_AGAIN: &str = "10 13 0004 4D515454 05 00 003C 05 11 00000000 0001 63";
const CONNACK_AGAIN: &str = "20 03 01 00 00";
// The ConnAck of a broker that wants a packet each second: server keep alive 1 (3.2.2.3.14).
const CONNACK_OF_A_SECOND: &str = "20 06 00 00 03 13 0001";
const PINGREQ: &str = "C0 00"; // (3.12)
const PINGRESP: &str = "D0 00"; // (3.13)
                                // A normal Disconnect (3.14).
const DISCONNECT: &str = "E0 00";
// A message of QoS 0 (3.3): "x" to "a".
const MESSAGE: &str = "30 05 0001 61 00 78";

/// How long each wait of the broker may take, and how long a test.
const PATIENCE: Duration = Duration::from_secs(20);
const LIMIT: Duration = Duration::from_secs(60);

/// Ends all where the test, which waits on a client, takes too long.
struct Limit(#[allow(dead_code)] Sender<()>);

fn limit(test: &'static str) -> Limit {
    let (sender, ended) = mpsc::channel();
    thread::spawn(move || {
        if ended.recv_timeout(LIMIT) == Err(RecvTimeoutError::Timeout) {
            eprintln!("{test}: the client has no end within {LIMIT:?}");
            std::process::exit(1);
        }
    });
    Limit(sender)
}

enum Step {
    Gets(&'static str),
    /// Gets the second frame over and over, and then the first.
    GetsAfter(&'static str, &'static str),
    /// Gets the frame over and over, until the client ends the connection.
    GetsToTheEnd(&'static str),
    Says(&'static str),
    /// From now on says messages with so many bytes over and over, between all else that it says.
    Floods(usize),
}
use Step::{Floods, Gets, GetsAfter, GetsToTheEnd, Says};

fn bytes_of(digits: &str) -> Vec<u8> {
    let digits: Vec<u8> = digits.bytes().filter(|digit| *digit != b' ').collect();
    let byte = |pair: &[u8]| u8::from_str_radix(std::str::from_utf8(pair).unwrap(), 16).unwrap();
    digits.chunks(2).map(byte).collect()
}

/// A message of QoS 0 to "a" with so many bytes (3.3), of which the length goes by 1.5.5.
fn message_of(count: usize) -> Vec<u8> {
    let (mut message, mut length) = (vec![0x30], count + 4);
    while length >= 128 {
        message.push((length % 128) as u8 | 128);
        length /= 128;
    }
    message.extend([length as u8, 0, 1, b'a', 0]);
    message.resize(message.len() + count, b'x');
    message
}

/// Says messages with so many bytes to the end, and between them what is handed on.
fn flood(mut stream: TcpStream, count: usize) -> Sender<Vec<u8>> {
    let (sender, handed_on) = mpsc::channel::<Vec<u8>>();
    let messages = message_of(count).repeat(1 + 10_000 / count);
    thread::spawn(move || {
        while stream.write_all(&messages).is_ok() {
            for bytes in handed_on.try_iter() {
                let _ = stream.write_all(&bytes);
            }
        }
    });
    sender
}

fn read(stream: &mut TcpStream, count: usize, what: &str) -> Vec<u8> {
    let mut got = vec![0; count];
    stream.read_exact(&mut got).unwrap_or_else(|error| panic!("waiting for {what}: {error}"));
    got
}

/// Whether the other frame comes, and not the wanted one.
fn gets_other(stream: &mut TcpStream, wanted: &str, other: &str) -> bool {
    let (wanted_bytes, other_bytes) = (bytes_of(wanted), bytes_of(other));
    let mut got = read(stream, 2, wanted);
    let is_other = got == other_bytes[..2];
    let rest = if is_other { other_bytes.len() } else { wanted_bytes.len() } - 2;
    got.extend(read(stream, rest, wanted));
    assert_eq!(got, if is_other { other_bytes } else { wanted_bytes });
    is_other
}

fn follow(mut stream: TcpStream, script: Vec<Step>) {
    let mut flooding = None;
    for step in script {
        match (step, &flooding) {
            (Says(digits), None) => stream.write_all(&bytes_of(digits)).unwrap(),
            (Says(digits), Some(sender)) => Sender::send(sender, bytes_of(digits)).unwrap(),
            (Floods(count), _) => flooding = Some(flood(stream.try_clone().unwrap(), count)),
            (Gets(digits), _) => {
                let wanted = bytes_of(digits);
                assert_eq!(read(&mut stream, wanted.len(), digits), wanted, "{digits}");
            }
            (GetsAfter(wanted, other), _) => {
                let began = Instant::now();
                while gets_other(&mut stream, wanted, other) {
                    assert!(began.elapsed() < PATIENCE, "waiting for {wanted}");
                }
            }
            (GetsToTheEnd(digits), _) => {
                let mut got = Vec::new();
                // (a client that leaves what is said unread resets the connection)
                let _ = stream.read_to_end(&mut got);
                let wanted = bytes_of(digits);
                assert!(got.chunks(wanted.len()).all(|frame| frame == wanted), "{got:?}");
            }
        }
    }
    // (a flood may hold the stream)
    let _ = stream.shutdown(Shutdown::Both);
}

/// The next connection.
fn next_of(listener: &TcpListener, index: usize) -> TcpStream {
    let began = Instant::now();
    listener.set_nonblocking(true).unwrap();
    loop {
        match listener.accept() {
            Ok((stream, _)) => {
                stream.set_nonblocking(false).unwrap();
                stream.set_read_timeout(Some(PATIENCE)).unwrap();
                return stream;
            }
            Err(error) if error.kind() == ErrorKind::WouldBlock => thread::sleep(Duration::from_millis(10)),
            Err(error) => panic!("{error}"),
        }
        assert!(began.elapsed() < PATIENCE, "waiting for connection {index}");
    }
}

/// A broker that follows one script for each connection, and ends it then.
fn broker(scripts: Vec<Vec<Step>>) -> (MqttOptions, JoinHandle<()>) {
    let (port, following) = broker_at(scripts);
    (MqttOptions::new("c", "127.0.0.1", port), following)
}

/// The same, with its port.
fn broker_at(scripts: Vec<Vec<Step>>) -> (u16, JoinHandle<()>) {
    let listener = TcpListener::bind("127.0.0.1:0").unwrap();
    let port = listener.local_addr().unwrap().port();
    let following = thread::spawn(move || {
        for (index, script) in scripts.into_iter().enumerate() {
            follow(next_of(&listener, index), script);
        }
    });
    (port, following)
}

#[test]
fn settings() {
    let _limit = limit("settings");
    // User name, password, a retained will of QoS 1 with a delay of 5 and a content type, receive maximum 20 (3.1.2, 3.1.3).
    let connect = "10 2F 0004 4D515454 05 EE 003C 08 11 0000000A 21 0014 0001 63 \
                   09 18 00000005 03 0001 74 0001 77 0004 676F6E65 0001 75 0001 70";
    // Server keep alive 30, assigned client identifier "x", a user property (3.2.2.3).
    let connack = "20 11 00 00 0E 13 001E 12 0001 78 26 0001 6B 0001 76";
    let (mut options, following) = broker(vec![vec![Gets(connect), Says(connack), Gets(DISCONNECT)]]);
    let properties =
        Properties { will_delay_interval: Some(5), content_type: Some("t".to_owned()), ..Properties::default() };
    options
        .set_credentials("u", "p")
        .set_last_will(LastWill::new("w", "gone", QoS::AtLeastOnce, true, Some(properties)))
        .set_session_expiry_interval(Some(10))
        .set_receive_maximum(Some(20));
    let (client, mut connection) = Client::new(options, 10);
    let Ok(Event::Incoming(Packet::ConnAck { session_present, code, properties })) = connection.recv() else {
        panic!("no ConnAck");
    };
    assert_eq!((session_present, code), (false, 0));
    assert_eq!(properties.server_keep_alive, Some(30));
    assert_eq!(properties.assigned_client_identifier.as_deref(), Some("x"));
    assert_eq!(properties.user_properties, [("k".to_owned(), "v".to_owned())]);
    client.disconnect().unwrap();
    assert_eq!(connection.recv().unwrap(), Event::Outgoing(Outgoing::Disconnect));
    drop(client);
    while connection.recv().is_ok() {}
    following.join().unwrap();
}

#[test]
fn messages() {
    let _limit = limit("messages");
    // Two filters with their options (3.8); a message of QoS 2 in its four packets, ours and theirs (4.3.3).
    let script = vec![
        Gets(CONNECT),
        Says(CONNACK),
        Gets("82 0D 0001 00 0003 612F23 0D 0001 62 02"),
        Says("90 05 0001 00 01 02"),
        Gets("34 07 0001 61 0002 00 78"),
        Says("50 02 0002"),
        Gets("62 02 0002"),
        Says("70 02 0002"),
        Says("34 0C 0001 62 0007 05 02 0000000A 79"),
        Gets("50 02 0007"),
        Says("62 02 0007"),
        Gets("70 02 0007"),
        Gets(DISCONNECT),
    ];
    let (options, following) = broker(vec![script]);
    let (client, mut connection) = Client::new(options, 10);
    let first = Filter { nolocal: true, preserve_retain: true, ..Filter::new("a/#", QoS::AtLeastOnce) };
    client.subscribe_many([first, Filter::new("b", QoS::ExactlyOnce)]).unwrap();
    client.publish("a", QoS::ExactlyOnce, false, "x").unwrap();
    let mut told = Vec::new();
    for event in connection.iter() {
        let Ok(Event::Incoming(packet)) = event else { continue };
        match packet {
            Packet::SubAck { pkid, return_codes, .. } => told.push(format!("suback {pkid} {return_codes:?}")),
            Packet::PubComp { pkid, reason, .. } => told.push(format!("pubcomp {pkid} {reason}")),
            Packet::Publish(publish) => {
                let expiry = publish.properties.unwrap().message_expiry_interval.unwrap();
                told.push(format!("publish {:?} {:?} {expiry}", publish.topic, publish.payload));
            }
            Packet::PubRel { .. } => break,
            _other => {}
        }
    }
    assert_eq!(told, ["suback 1 [1, 2]", "pubcomp 2 0", "publish [98] [121] 10"]);
    client.disconnect().unwrap();
    drop(client);
    while connection.recv().is_ok() {}
    following.join().unwrap();
}

#[test]
fn a_cut() {
    let _limit = limit("a_cut");
    // Cut after the Publish: it is sent again where the broker has the session (4.4).
    let scripts = vec![
        vec![Gets(CONNECT), Says(CONNACK), Gets("34 07 0001 61 0001 00 78")],
        vec![
            Gets(CONNECT_AGAIN),
            Says(CONNACK_AGAIN),
            Gets("3C 07 0001 61 0001 00 78"),
            Says("50 02 0001"),
            Gets("62 02 0001"),
            Says("70 02 0001"),
        ],
    ];
    let (options, following) = broker(scripts);
    let (client, mut connection) = Client::new(options, 10);
    client.publish("a", QoS::ExactlyOnce, false, "x").unwrap();
    let mut cuts = 0;
    for event in connection.iter() {
        match event {
            Ok(Event::Incoming(Packet::PubComp { .. })) => break,
            Err(ConnectionError::Io(_)) => cuts += 1,
            _other => {}
        }
    }
    assert_eq!(cuts, 1);
    following.join().unwrap();
}

#[test]
fn refusals() {
    let _limit = limit("refusals");
    // A login that is refused (3.2.2.2); a session that the broker lost (3.2.2.1.1).
    let scripts = vec![
        vec![Gets(CONNECT), Says("20 03 00 86 00")],
        vec![Gets(CONNECT), Says(CONNACK), Gets("33 13 0001 61 0001 0C 02 0000000A 26 0001 6B 0001 76 78")],
        vec![Gets(CONNECT_AGAIN), Says(CONNACK)],
    ];
    let (options, following) = broker(scripts);
    let (client, mut connection) = Client::new(options, 10);
    let Ok(Event::Incoming(Packet::ConnAck { code: 134, .. })) = connection.recv() else {
        panic!("no refusal told");
    };
    let Err(ConnectionError::ConnectionRefused(134)) = connection.recv() else {
        panic!("no refusal");
    };
    let properties = Properties {
        message_expiry_interval: Some(10),
        user_properties: vec![("k".to_owned(), "v".to_owned())],
        ..Properties::default()
    };
    client.publish_with_properties("a", QoS::AtLeastOnce, true, "x", properties.clone()).unwrap();
    let lost = connection.iter().find_map(|event| match event {
        Err(ConnectionError::SessionLost(dropped)) => Some(dropped),
        _other => None,
    });
    // The message comes back as it would be sent again (3.3.1.1).
    assert_eq!(
        lost.unwrap(),
        [Dropped::Publish(Publish {
            dup: true,
            qos: QoS::AtLeastOnce,
            retain: true,
            topic: b"a".to_vec(),
            pkid: 1,
            payload: b"x".to_vec(),
            properties: Some(properties),
        })]
    );
    following.join().unwrap();
}

#[test]
fn a_release_that_is_let_go() {
    let _limit = limit("a_release_that_is_let_go");
    // The broker has the first message, whose PubRec came, and loses the session before its PubComp (4.3.3).
    let scripts = vec![
        vec![
            Gets(CONNECT),
            Says(CONNACK),
            Gets("34 07 0001 61 0001 00 78"),
            Gets("34 07 0001 62 0002 00 79"),
            Says("50 02 0001"),
            Gets("62 02 0001"),
        ],
        vec![Gets(CONNECT_AGAIN), Says(CONNACK)],
    ];
    let (options, following) = broker(scripts);
    let (client, mut connection) = Client::new(options, 10);
    client.publish("a", QoS::ExactlyOnce, false, "x").unwrap();
    client.publish("b", QoS::ExactlyOnce, false, "y").unwrap();
    let lost = connection.iter().find_map(|event| match event {
        Err(ConnectionError::SessionLost(dropped)) => Some(dropped),
        _other => None,
    });
    let publish = Publish {
        dup: true,
        qos: QoS::ExactlyOnce,
        topic: b"b".to_vec(),
        pkid: 2,
        payload: b"y".to_vec(),
        ..Publish::default()
    };
    assert_eq!(lost.unwrap(), [Dropped::Publish(publish), Dropped::PubRel(1)]);
    following.join().unwrap();
}

#[test]
fn smaller_packets() {
    let _limit = limit("smaller_packets");
    // The broker takes packets of 10 bytes now (3.2.2.3.6), so a message of 20 can't be sent again; its identifier is
    // released (3.7.2.1), and the connection goes on.
    let scripts = vec![
        vec![Gets(CONNECT), Says(CONNACK), Gets("32 1A 0001 61 0001 00 7878787878787878787878787878787878787878")],
        vec![
            Gets(CONNECT_AGAIN),
            Says("20 08 01 00 05 27 0000000A"),
            Gets("62 02 0001"),
            Says("70 03 0001 92"),
            Gets("32 07 0001 61 0002 00 79"),
        ],
    ];
    let (options, following) = broker(scripts);
    let (client, mut connection) = Client::new(options, 10);
    client.publish("a", QoS::AtLeastOnce, false, [b'x'; 20]).unwrap();
    let over = connection.iter().find_map(|event| match event {
        Err(ConnectionError::TooLarge(dropped)) => Some(dropped),
        _other => None,
    });
    let [Dropped::Publish(publish)] = &over.unwrap()[..] else {
        panic!("another request is let go");
    };
    assert_eq!((&publish.topic[..], &publish.payload[..], publish.pkid), (&b"a"[..], &[b'x'; 20][..], 1));
    client.publish("a", QoS::AtLeastOnce, false, "y").unwrap();
    let sent = connection.iter().any(|event| matches!(event, Ok(Event::Outgoing(Outgoing::Publish(2)))));
    assert!(sent);
    // (the output goes out at the next turn, before the broker ends the connection)
    while connection.recv().is_ok() {}
    following.join().unwrap();
}

#[test]
fn refused_lists() {
    let _limit = limit("refused_lists");
    // What a refused request has added isn't in the next one.
    let script = vec![
        Gets(CONNECT),
        Says(CONNACK),
        Gets("32 07 0001 61 0001 00 78"),
        Gets("82 07 0002 00 0001 63 01"),
        Says("40 02 0001"),
        Says("90 04 0002 00 01"),
        Gets(DISCONNECT),
    ];
    let (options, following) = broker(vec![script]);
    let (client, mut connection) = Client::new(options, 10);
    // (a subscription identifier is at most 268,435,455, and none is for a client to send: 3.3.2.3.8)
    let too_large = Properties {
        message_expiry_interval: Some(5),
        subscription_identifiers: vec![300_000_000],
        ..Properties::default()
    };
    client.publish_with_properties("a", QoS::AtLeastOnce, false, "x", too_large).unwrap();
    client.publish("a", QoS::AtLeastOnce, false, "x").unwrap();
    client.subscribe_many([Filter::new("a", QoS::AtLeastOnce), Filter::new("b#", QoS::AtLeastOnce)]).unwrap();
    client.subscribe("c", QoS::AtLeastOnce).unwrap();
    let mut refused = 0;
    for event in connection.iter() {
        match event {
            Ok(Event::Incoming(Packet::SubAck { .. })) => break,
            Err(ConnectionError::MqttState(_)) => refused += 1,
            Err(error) => panic!("{error}"),
            Ok(_) => {}
        }
    }
    assert_eq!(refused, 2);
    client.disconnect().unwrap();
    drop(client);
    while connection.recv().is_ok() {}
    following.join().unwrap();
}

#[test]
fn long_topics() {
    let _limit = limit("long_topics");
    // More bytes than two bytes can say (1.5.4).
    let (options, following) = broker(vec![vec![Gets(CONNECT), Says(CONNACK), Gets(DISCONNECT)]]);
    let (client, mut connection) = Client::new(options, 10);
    let long = "a".repeat(70000);
    client.publish(&long, QoS::AtMostOnce, false, "x").unwrap();
    client.subscribe_many([Filter::new("a", QoS::AtMostOnce), Filter::new(&long, QoS::AtMostOnce)]).unwrap();
    client.unsubscribe(&long).unwrap();
    client.disconnect().unwrap();
    let mut refused = 0;
    for event in connection.iter() {
        match event {
            Ok(Event::Outgoing(Outgoing::Disconnect)) => break,
            Err(error) => {
                let told = error.to_string();
                assert!(told.contains("topic") && told.contains("70000") && told.contains("65535"), "{told}");
                refused += 1;
            }
            Ok(_) => {}
        }
    }
    assert_eq!(refused, 3);
    drop(client);
    while connection.recv().is_ok() {}
    following.join().unwrap();
}

#[test]
fn an_assigned_identifier() {
    let _limit = limit("an_assigned_identifier");
    // The broker assigns "x" to a client without an identifier, which goes on with the session of "x" (3.2.2.3.7).
    let scripts = vec![
        vec![
            Gets("10 12 0004 4D515454 05 02 003C 05 11 00000000 0000"),
            Says("20 07 00 00 04 12 0001 78"),
            Gets("34 07 0001 61 0001 00 78"),
        ],
        vec![
            Gets("10 13 0004 4D515454 05 00 003C 05 11 00000000 0001 78"),
            Says(CONNACK_AGAIN),
            Gets("3C 07 0001 61 0001 00 78"),
            Says("50 02 0001"),
            Gets("62 02 0001"),
            Says("70 02 0001"),
        ],
    ];
    let (port, following) = broker_at(scripts);
    let (client, mut connection) = Client::new(MqttOptions::new("", "127.0.0.1", port), 10);
    client.publish("a", QoS::ExactlyOnce, false, "x").unwrap();
    let acked = connection.iter().take(40).any(|event| matches!(event, Ok(Event::Incoming(Packet::PubComp { .. }))));
    assert!(acked);
    following.join().unwrap();
}

#[test]
fn a_broker_that_shuts_down() {
    let _limit = limit("a_broker_that_shuts_down");
    // A Disconnect of "server shutting down" (3.14.2.1): the next `recv` opens the connection again.
    let scripts = vec![
        vec![Gets(CONNECT), Says(CONNACK), Gets("30 05 0001 61 00 77"), Says("30 05 0001 61 00 78 E0 01 8B")],
        vec![Gets(CONNECT_AGAIN), Says(CONNACK_AGAIN), Says("30 05 0001 61 00 79"), Gets(DISCONNECT)],
    ];
    let (options, following) = broker(scripts);
    let (client, mut connection) = Client::new(options, 10);
    client.publish("a", QoS::AtMostOnce, false, "w").unwrap();
    let (mut came, mut reasons) = (Vec::new(), Vec::new());
    for event in connection.iter() {
        match event {
            Ok(Event::Incoming(Packet::Publish(publish))) => came.extend(publish.payload),
            Ok(Event::Incoming(Packet::Disconnect { reason_code, .. })) => reasons.push(reason_code),
            _other => {}
        }
        if came.len() == 2 {
            break;
        }
    }
    assert_eq!((came, reasons), (b"xy".to_vec(), vec![139]));
    client.disconnect().unwrap();
    drop(client);
    while connection.recv().is_ok() {}
    following.join().unwrap();
}

#[test]
fn goodbye_for_a_reason() {
    let _limit = limit("goodbye_for_a_reason");
    // Disconnect with Will Message, and a reason string (3.14.2); server busy is the broker's reason.
    let (options, following) =
        broker(vec![vec![Gets(CONNECT), Says(CONNACK), Gets("30 05 0001 61 00 78"), Gets("E0 06 04 04 1F 0001 72")]]);
    let (client, mut connection) = Client::new(options, 10);
    client.disconnect_with(137, Properties::default()).unwrap();
    client.publish("a", QoS::AtMostOnce, false, "x").unwrap();
    let reason_string = Some("r".to_owned());
    client.disconnect_with(4, Properties { reason_string, ..Properties::default() }).unwrap();
    let (mut refused, mut left) = (0, false);
    for event in connection.iter() {
        match event {
            Err(ConnectionError::MqttState(fault)) => {
                assert_eq!(fault.to_string(), "S1");
                refused += 1;
            }
            Ok(Event::Outgoing(Outgoing::Disconnect)) => left = true,
            Err(ConnectionError::Io(_)) => break,
            Err(error) => panic!("{error}"),
            Ok(_) => {}
        }
    }
    following.join().unwrap();
    assert_eq!((refused, left), (1, true));
}

#[test]
fn authentication() {
    let _limit = limit("authentication");
    // Method "m": data 1, answered by 2, which is answered by 3 before the ConnAck; then anew with 6, answered by 7, and 8
    // (4.12, 4.12.1).
    let (mut options, following) = broker(vec![vec![
        Gets("10 1B 0004 4D515454 05 02 003C 0D 11 00000000 15 0001 6D 16 0001 01 0001 63"),
        Says("F0 0A 18 08 15 0001 6D 16 0001 02"),
        Gets("F0 0A 18 08 15 0001 6D 16 0001 03"),
        Says(CONNACK),
        Gets("F0 0A 19 08 15 0001 6D 16 0001 06"),
        Says("F0 0A 18 08 15 0001 6D 16 0001 07"),
        Gets("F0 0A 18 08 15 0001 6D 16 0001 08"),
        Says("F0 06 00 04 15 0001 6D"),
        Gets(DISCONNECT),
    ]]);
    options
        .set_authentication("m", Some(vec![1]), |came| vec![came.authentication_data.as_ref().expect("data")[0] + 1]);
    let (client, mut connection) = Client::new(options, 10);
    client.reauthenticate(Some(vec![6])).unwrap();
    let mut reasons = Vec::new();
    for event in connection.iter() {
        match event.unwrap() {
            Event::Incoming(Packet::Auth { reason_code, .. }) => {
                reasons.push(reason_code);
                if reason_code == 0 {
                    client.disconnect().unwrap();
                }
            }
            Event::Outgoing(Outgoing::Disconnect) => break,
            _ => {}
        }
    }
    connection.recv().unwrap_err();
    following.join().unwrap();
    assert_eq!(reasons, [24, 24, 0]);
}

#[test]
fn an_auth_that_nobody_asked_for() {
    let _limit = limit("an_auth_that_nobody_asked_for");
    // No method was named, so it is a protocol error (4.12).
    let (options, following) = broker(vec![vec![
        Gets(CONNECT),
        Says(CONNACK),
        Says("F0 0A 18 08 15 0001 6D 16 0001 02"),
        Gets("E0 02 82 00"),
    ]]);
    let (_client, mut connection) = Client::new(options, 10);
    let fault = connection.iter().find_map(Result::err).expect("a fault");
    assert_eq!(fault.to_string(), "S4");
    following.join().unwrap();
}

/// Ten milliseconds for each message.
fn take_slowly(event: &Event) {
    if let Event::Incoming(Packet::Publish(_)) = event {
        thread::sleep(Duration::from_millis(10));
    }
}

/// A ping goes out each second (3.1.2.10), though messages come without end, and the answers to the pings are behind them.
fn pings_under(flood: Step) {
    let (options, following) = broker(vec![vec![
        Gets(CONNECT),
        Says(CONNACK_OF_A_SECOND),
        flood,
        Gets(PINGREQ),
        Says(PINGRESP),
        Gets(PINGREQ),
        Says(PINGRESP),
        Gets(PINGREQ),
    ]]);
    let (_client, mut connection) = Client::new(options, 10);
    let began = Instant::now();
    while !following.is_finished() {
        take_slowly(&connection.recv().unwrap());
    }
    let took = began.elapsed();
    following.join().unwrap();
    assert!(took >= Duration::from_secs(3) && took < Duration::from_secs(8), "three pings within {took:?}");
}

#[test]
fn pings_under_a_flood() {
    let _limit = limit("pings_under_a_flood");
    // Each read has thousands of messages.
    pings_under(Floods(1));
}

#[test]
fn pings_under_a_flood_of_long_messages() {
    let _limit = limit("pings_under_a_flood_of_long_messages");
    // Each read has one message at most.
    pings_under(Floods(100_000));
}

#[test]
fn requests_under_a_flood() {
    let _limit = limit("requests_under_a_flood");
    // Messages come faster than they are taken.
    let (options, following) =
        broker(vec![vec![Gets(CONNECT), Says(CONNACK), Floods(1000), Gets(MESSAGE), Gets(MESSAGE), Gets(DISCONNECT)]]);
    let (client, mut connection) = Client::new(options, 10);
    let mut came = 0;
    loop {
        let event = connection.recv().unwrap();
        if event == Event::Outgoing(Outgoing::Disconnect) {
            break;
        }
        came += usize::from(matches!(event, Event::Incoming(Packet::Publish(_))));
        if came == 100 {
            client.publish("a", QoS::AtMostOnce, false, "x").unwrap();
            client.publish("a", QoS::AtMostOnce, false, "x").unwrap();
            client.disconnect().unwrap();
        }
        take_slowly(&event);
    }
    // (the output goes out at the next turn)
    let _ = connection.recv();
    following.join().unwrap();
}

#[test]
fn a_flood_for_nobody() {
    let _limit = limit("a_flood_for_nobody");
    // The events end with the clients, though messages come without end.
    let (options, following) = broker(vec![vec![Gets(CONNECT), Says(CONNACK), Floods(1000), GetsToTheEnd(MESSAGE)]]);
    let (client, mut connection) = Client::new(options, 10);
    client.publish("a", QoS::AtMostOnce, false, "x").unwrap();
    let mut client = Some(client);
    for event in connection.iter() {
        let event = event.unwrap();
        if let Event::Incoming(Packet::Publish(_)) = event {
            client = None;
        }
        take_slowly(&event);
    }
    assert!(client.is_none());
    drop(connection);
    following.join().unwrap();
}

#[test]
fn a_request_at_the_end_of_a_stream() {
    let _limit = limit("a_request_at_the_end_of_a_stream");
    // The broker has closed the connection when a message is asked for, and there is an event of it yet: the message goes over
    // the next one.
    let (options, following) = broker(vec![
        vec![Gets(CONNECT), Says(CONNACK), Says("30 05 0001 61 00 77 30 05 0001 61 00 77")],
        vec![Gets(CONNECT_AGAIN), Says(CONNACK_AGAIN), Gets(MESSAGE), Gets(DISCONNECT)],
    ]);
    let (client, mut connection) = Client::new(options, 10);
    let mut came = 0;
    for event in connection.iter() {
        match event {
            Ok(Event::Incoming(Packet::Publish(_))) => came += 1,
            Ok(Event::Outgoing(Outgoing::Publish(_))) => break,
            _other => continue,
        }
        if came == 1 {
            thread::sleep(Duration::from_millis(500));
            client.publish("a", QoS::AtMostOnce, false, "x").unwrap();
        }
    }
    assert_eq!(came, 2);
    client.disconnect().unwrap();
    while connection.recv().is_ok() {}
    following.join().unwrap();
}

#[test]
fn a_ping_that_isnt_answered() {
    let _limit = limit("a_ping_that_isnt_answered");
    // The broker takes what comes and is silent. The client sends messages all the time, and a ping since nothing comes.
    let script = vec![Gets(CONNECT), Says(CONNACK_OF_A_SECOND), GetsAfter(PINGREQ, MESSAGE), GetsToTheEnd(MESSAGE)];
    let (options, following) = broker(vec![script]);
    let (client, mut connection) = Client::new(options, 10);
    let publishing = thread::spawn(move || {
        while client.publish("a", QoS::AtMostOnce, false, "x").is_ok() {
            thread::sleep(Duration::from_millis(20));
        }
    });
    let fault = connection.iter().find_map(Result::err).expect("a fault");
    assert_eq!(fault.to_string(), "S3");
    drop(connection);
    publishing.join().unwrap();
    following.join().unwrap();
}

#[test]
fn a_loss_with_a_fault_behind_it() {
    let _limit = limit("a_loss_with_a_fault_behind_it");
    // The broker lost the session (3.2.2.1.1). It says so in one piece with a Disconnect of "server shutting down" (3.14.2.1), or
    // with a packet of type 0, which is forbidden (2.1.2). The session that it has from then on is the new one.
    for faulty in ["20 03 00 00 00 E0 01 8B", "20 03 00 00 00 00 00"] {
        let (options, following) = broker(vec![
            vec![Gets(CONNECT), Says(CONNACK), Gets("32 07 0001 61 0001 00 78")],
            vec![Gets(CONNECT_AGAIN), Says(faulty)],
            vec![Gets(CONNECT_AGAIN), Says(CONNACK_AGAIN), Gets("32 07 0001 62 0001 00 79")],
            vec![Gets(CONNECT_AGAIN), Says(CONNACK_AGAIN), Gets("3A 07 0001 62 0001 00 79"), Says("40 02 0001")],
        ]);
        let (client, mut connection) = Client::new(options, 10);
        client.publish("a", QoS::AtLeastOnce, false, "x").unwrap();
        let (mut present, mut lost) = (Vec::new(), Vec::new());
        for event in connection.iter() {
            match event {
                Ok(Event::Incoming(Packet::ConnAck { session_present, .. })) => present.push(session_present),
                Ok(Event::Incoming(Packet::PubAck { .. })) => break,
                Err(ConnectionError::SessionLost(dropped)) => {
                    lost.push(dropped.len());
                    client.publish("b", QoS::AtLeastOnce, false, "y").unwrap();
                }
                _other => {}
            }
        }
        following.join().unwrap();
        assert_eq!((present, lost), (vec![false, false, true, true], vec![1]), "{faulty}");
    }
}

#[test]
fn an_end_that_stays() {
    let _limit = limit("an_end_that_stays");
    let (options, following) = broker(vec![vec![Gets(CONNECT), Says(CONNACK), GetsToTheEnd(MESSAGE)]]);
    let (client, mut connection) = Client::new(options, 10);
    client.publish("a", QoS::AtMostOnce, false, "x").unwrap();
    drop(client);
    assert!(connection.iter().all(|event| event.is_ok()));
    assert!(connection.iter().next().is_none());
    assert!(matches!(connection.recv(), Err(ConnectionError::RequestsDone)));
    following.join().unwrap();
}

#[test]
fn an_end_without_a_broker() {
    let _limit = limit("an_end_without_a_broker");
    let open = || -> io::Result<(TcpStream, TcpStream)> { Err(ErrorKind::ConnectionRefused.into()) };
    let (client, mut connection) = Client::over(MqttOptions::new("c", "", 0), 10, open);
    for _ in 0..3 {
        assert!(matches!(connection.recv(), Err(ConnectionError::Io(_))));
    }
    drop(client);
    assert!(connection.iter().next().is_none());
}
