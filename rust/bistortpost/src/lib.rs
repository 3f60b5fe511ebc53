//! An MQTT 5.0 client with the names of rumqttc's blocking one, over a protocol layer that is proved.
//!
//! ```no_run
//! use bistortpost::mqttbytes::QoS;
//! use bistortpost::{Client, Event, MqttOptions, Packet};
//!
//! let mut options = MqttOptions::new("name", "127.0.0.1", 1883);
//! options.set_keep_alive(std::time::Duration::from_secs(30));
//! let (client, mut connection) = Client::new(options, 10);
//! client.subscribe("a/#", QoS::AtLeastOnce).unwrap();
//! client.publish("a/b", QoS::AtLeastOnce, false, "hi").unwrap();
//! for event in connection.iter() {
//!     if let Ok(Event::Incoming(Packet::Publish(publish))) = event {
//!         println!("{:?}", publish.payload);
//!         break;
//!     }
//! }
//! ```

mod client;
mod ffi;
mod inbox;
mod options;
mod packets;
mod properties;
mod session;

pub use client::{Client, ClientError, Connection, ConnectionError, Iter};
pub use options::{LastWill, MqttOptions};
pub use packets::{Dropped, Event, Filter, Outgoing, Packet, Publish, RetainForwardRule};
pub use properties::Properties;
pub use session::{Fault, Session};

/// The names of `rumqttc::v5::mqttbytes`.
pub mod mqttbytes {
    pub use crate::packets::QoS;

    /// The names of `rumqttc::v5::mqttbytes::v5`.
    pub mod v5 {
        pub use crate::options::LastWill;
        pub use crate::packets::{Filter, Packet, Publish, RetainForwardRule};
        pub use crate::properties::Properties;
    }
}
