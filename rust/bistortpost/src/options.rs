//! The settings of a client.

use crate::mqttbytes::QoS;
use crate::Properties;
use std::fmt;
use std::sync::{Arc, Mutex};
use std::time::Duration;

type Answer = dyn FnMut(&Properties) -> Vec<u8> + Send;

/// What answers the broker's Auths.
#[derive(Clone)]
pub(crate) struct Authenticator(Arc<Mutex<Answer>>);

impl Authenticator {
    /// The data that answers an Auth with these properties.
    pub(crate) fn answer(&self, properties: &Properties) -> Vec<u8> {
        let mut answer = self.0.lock().expect("no answer panics");
        answer(properties)
    }
}

impl fmt::Debug for Authenticator {
    fn fmt(&self, f: &mut fmt::Formatter<'_>) -> fmt::Result {
        write!(f, "Authenticator")
    }
}

/// What the broker publishes once the connection is lost (MQTT 5.0 section 3.1.2.5).
#[derive(Clone, Debug, PartialEq, Eq)]
pub struct LastWill {
    pub topic: String,
    pub message: Vec<u8>,
    pub qos: QoS,
    pub retain: bool,
    pub properties: Option<Properties>,
}

impl LastWill {
    pub fn new(
        topic: impl Into<String>,
        payload: impl Into<Vec<u8>>,
        qos: QoS,
        retain: bool,
        properties: Option<Properties>,
    ) -> LastWill {
        LastWill { topic: topic.into(), message: payload.into(), qos, retain, properties }
    }
}

/// The settings of a client. A connection begins with them.
#[derive(Clone, Debug)]
pub struct MqttOptions {
    pub(crate) client_id: String,
    pub(crate) address: (String, u16),
    pub(crate) keep_alive: Duration,
    pub(crate) clean_start: bool,
    pub(crate) session_expiry: u32,
    pub(crate) credentials: Option<(String, String)>,
    pub(crate) last_will: Option<LastWill>,
    pub(crate) properties: Properties,
    pub(crate) manual_acks: bool,
    pub(crate) limit: u16,
    pub(crate) authenticator: Option<Authenticator>,
}

impl MqttOptions {
    /// A keep alive of 60 seconds, clean start, and at most 100 publishes without an ack.
    pub fn new(id: impl Into<String>, host: impl Into<String>, port: u16) -> MqttOptions {
        MqttOptions {
            client_id: id.into(),
            address: (host.into(), port),
            keep_alive: Duration::from_secs(60),
            clean_start: true,
            session_expiry: 0,
            credentials: None,
            last_will: None,
            properties: Properties::default(),
            manual_acks: false,
            limit: 100,
            authenticator: None,
        }
    }

    /// In whole seconds, from 5 to 65,535 (3.1.2.10); one out of that is refused by the first `recv`.
    pub fn set_keep_alive(&mut self, duration: Duration) -> &mut Self {
        self.keep_alive = duration;
        self
    }

    /// Without clean start the broker's session is gone on with (3.1.2.4).
    pub fn set_clean_start(&mut self, clean_start: bool) -> &mut Self {
        self.clean_start = clean_start;
        self
    }

    /// How many seconds the broker keeps the session without a connection (3.1.2.11.2).
    pub fn set_session_expiry_interval(&mut self, seconds: Option<u32>) -> &mut Self {
        self.session_expiry = seconds.unwrap_or(0);
        self
    }

    /// The login (3.1.3.5, 3.1.3.6).
    pub fn set_credentials(&mut self, username: impl Into<String>, password: impl Into<String>) -> &mut Self {
        self.credentials = Some((username.into(), password.into()));
        self
    }

    pub fn set_last_will(&mut self, will: LastWill) -> &mut Self {
        self.last_will = Some(will);
        self
    }

    /// The other properties of the Connect (3.1.2.11).
    pub fn set_connect_properties(&mut self, properties: Properties) -> &mut Self {
        self.properties = properties;
        self
    }

    pub fn set_receive_maximum(&mut self, maximum: Option<u16>) -> &mut Self {
        self.properties.receive_maximum = maximum;
        self
    }

    pub fn set_max_packet_size(&mut self, size: Option<u32>) -> &mut Self {
        self.properties.maximum_packet_size = size;
        self
    }

    pub fn set_user_properties(&mut self, pairs: Vec<(String, String)>) -> &mut Self {
        self.properties.user_properties = pairs;
        self
    }

    /// Extended authentication (4.12): its method, its first data, and what answers each Auth that the broker sends to go
    /// on, given its properties, by the data of the next one.
    pub fn set_authentication(
        &mut self,
        method: impl Into<String>,
        data: Option<Vec<u8>>,
        answer: impl FnMut(&Properties) -> Vec<u8> + Send + 'static,
    ) -> &mut Self {
        self.properties.authentication_method = Some(method.into());
        self.properties.authentication_data = data;
        self.authenticator = Some(Authenticator(Arc::new(Mutex::new(answer))));
        self
    }

    /// With manual acks `Client::ack` answers what comes.
    pub fn set_manual_acks(&mut self, manual_acks: bool) -> &mut Self {
        self.manual_acks = manual_acks;
        self
    }

    /// The most publishes without an ack, at least 1.
    pub fn set_outgoing_inflight_upper_limit(&mut self, limit: u16) -> &mut Self {
        self.limit = limit.max(1);
        self
    }
}
