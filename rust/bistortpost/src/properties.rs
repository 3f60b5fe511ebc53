//! The properties of packets.

/// The properties of a packet (MQTT 5.0 section 2.2.2.2). None, or an empty list, is one that isn't there.
#[derive(Clone, Debug, Default, PartialEq, Eq)]
pub struct Properties {
    pub payload_format_indicator: Option<u8>,
    pub message_expiry_interval: Option<u32>,
    pub content_type: Option<String>,
    pub response_topic: Option<String>,
    pub correlation_data: Option<Vec<u8>>,
    pub subscription_identifiers: Vec<usize>,
    pub session_expiry_interval: Option<u32>,
    pub assigned_client_identifier: Option<String>,
    pub server_keep_alive: Option<u16>,
    pub authentication_method: Option<String>,
    pub authentication_data: Option<Vec<u8>>,
    pub request_problem_information: Option<u8>,
    pub will_delay_interval: Option<u32>,
    pub request_response_information: Option<u8>,
    pub response_information: Option<String>,
    pub server_reference: Option<String>,
    pub reason_string: Option<String>,
    pub receive_maximum: Option<u16>,
    pub topic_alias_maximum: Option<u16>,
    pub topic_alias: Option<u16>,
    pub maximum_qos: Option<u8>,
    pub retain_available: Option<u8>,
    pub user_properties: Vec<(String, String)>,
    pub maximum_packet_size: Option<u32>,
    pub wildcard_subscription_available: Option<u8>,
    pub subscription_identifiers_available: Option<u8>,
    pub shared_subscription_available: Option<u8>,
}

/// A property's value, as the library takes it.
pub(crate) enum Value<'a> {
    Number(u32),
    Bytes(&'a [u8]),
    Pair(&'a str, &'a str),
}

/// What each property's value is, and where it stands (MQTT 5.0 table 2-4).
pub(crate) enum Place<'a> {
    Byte(&'a mut Option<u8>),
    Two(&'a mut Option<u16>),
    Four(&'a mut Option<u32>),
    Text(&'a mut Option<String>),
    Binary(&'a mut Option<Vec<u8>>),
}

impl Properties {
    /// Each property that may stand once, by its identifier.
    pub(crate) fn places(&mut self) -> [(u32, Place<'_>); 25] {
        [
            (1, Place::Byte(&mut self.payload_format_indicator)),
            (2, Place::Four(&mut self.message_expiry_interval)),
            (3, Place::Text(&mut self.content_type)),
            (8, Place::Text(&mut self.response_topic)),
            (9, Place::Binary(&mut self.correlation_data)),
            (17, Place::Four(&mut self.session_expiry_interval)),
            (18, Place::Text(&mut self.assigned_client_identifier)),
            (19, Place::Two(&mut self.server_keep_alive)),
            (21, Place::Text(&mut self.authentication_method)),
            (22, Place::Binary(&mut self.authentication_data)),
            (23, Place::Byte(&mut self.request_problem_information)),
            (24, Place::Four(&mut self.will_delay_interval)),
            (25, Place::Byte(&mut self.request_response_information)),
            (26, Place::Text(&mut self.response_information)),
            (28, Place::Text(&mut self.server_reference)),
            (31, Place::Text(&mut self.reason_string)),
            (33, Place::Two(&mut self.receive_maximum)),
            (34, Place::Two(&mut self.topic_alias_maximum)),
            (35, Place::Two(&mut self.topic_alias)),
            (36, Place::Byte(&mut self.maximum_qos)),
            (37, Place::Byte(&mut self.retain_available)),
            (39, Place::Four(&mut self.maximum_packet_size)),
            (40, Place::Byte(&mut self.wildcard_subscription_available)),
            (41, Place::Byte(&mut self.subscription_identifiers_available)),
            (42, Place::Byte(&mut self.shared_subscription_available)),
        ]
    }

    /// Hands each property that is there to a function, with its identifier.
    pub(crate) fn each<E>(&self, mut take: impl FnMut(u32, Value<'_>) -> Result<(), E>) -> Result<(), E> {
        for (identifier, place) in self.clone().places() {
            match place {
                Place::Byte(Some(number)) => take(identifier, Value::Number(u32::from(*number)))?,
                Place::Two(Some(number)) => take(identifier, Value::Number(u32::from(*number)))?,
                Place::Four(Some(number)) => take(identifier, Value::Number(*number))?,
                Place::Text(Some(text)) => take(identifier, Value::Bytes(text.as_bytes()))?,
                Place::Binary(Some(bytes)) => take(identifier, Value::Bytes(bytes))?,
                _absent => {}
            }
        }
        for identifier in &self.subscription_identifiers {
            take(11, Value::Number(*identifier as u32))?;
        }
        for (name, value) in &self.user_properties {
            take(38, Value::Pair(name, value))?;
        }
        Ok(())
    }
}
