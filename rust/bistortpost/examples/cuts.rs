//! Publishes numbers at QoS 2 to a topic that it subscribes to itself, over a connection that is cut, and says whether each
//! came once. Usage: cuts HOST PORT CUTS [USER PASSWORD]

use bistortpost::mqttbytes::QoS;
use bistortpost::{Client, ConnectionError, Event, MqttOptions, Outgoing, Packet};
use std::sync::atomic::{AtomicUsize, Ordering};
use std::sync::Arc;
use std::thread;
use std::time::Duration;

const TOPIC: &str = "a/rust";

/// Publishes until there were so many cuts, and answers how many messages that were.
fn publish_on(client: &Client, cuts: &AtomicUsize, wanted: usize) -> usize {
    let mut number = 0;
    while cuts.load(Ordering::SeqCst) < wanted {
        client.publish(TOPIC, QoS::ExactlyOnce, false, number.to_string()).expect("the connection is there");
        number += 1;
        thread::sleep(Duration::from_millis(1));
    }
    number
}

fn main() {
    let words: Vec<String> = std::env::args().collect();
    let wanted: usize = words[3].parse().expect("a number of cuts");
    let mut options = MqttOptions::new("live-rust", words[1].clone(), words[2].parse().expect("a port"));
    options.set_clean_start(false).set_session_expiry_interval(Some(100)).set_outgoing_inflight_upper_limit(20);
    if let [user, password] = &words[4..] {
        options.set_credentials(user, password);
    }
    let (client, mut connection) = Client::new(options, 10);
    let cuts = Arc::new(AtomicUsize::new(0));
    client.subscribe(TOPIC, QoS::ExactlyOnce).expect("the connection is there");
    let (seen, sender) = (cuts.clone(), client.clone());
    let sending = thread::spawn(move || publish_on(&sender, &seen, wanted));

    let (mut came, mut acked, mut ending) = (Vec::new(), 0, false);
    for event in connection.iter() {
        match event {
            Ok(Event::Incoming(Packet::Publish(publish))) => {
                let number = String::from_utf8(publish.payload).expect("digits");
                came.push(number.parse::<usize>().expect("a number"));
            }
            Ok(Event::Incoming(Packet::PubComp { .. })) => acked += 1,
            Ok(Event::Outgoing(Outgoing::Disconnect)) => break,
            Err(ConnectionError::Io(_)) => {
                cuts.fetch_add(1, Ordering::SeqCst);
            }
            // (ejabberd refuses by 128 who comes back while it still hands the session on to the last connection)
            Err(ConnectionError::ConnectionRefused(128)) => thread::sleep(Duration::from_millis(50)),
            Err(error) => panic!("{error}"),
            Ok(_) => {}
        }
        if !ending && sending.is_finished() && came.len() >= acked && acked > 0 && cuts.load(Ordering::SeqCst) >= wanted
        {
            ending = true;
            let client = client.clone();
            // (one that comes twice would come by then)
            thread::spawn(move || {
                thread::sleep(Duration::from_secs(2));
                client.disconnect().expect("the connection is there");
            });
        }
    }
    let sent = sending.join().expect("it ended");
    came.sort_unstable();
    assert!(came.iter().copied().eq(0..sent), "{sent} were sent, and there came {came:?}");
    println!("{sent} messages over {} cuts", cuts.load(Ordering::SeqCst));
}
