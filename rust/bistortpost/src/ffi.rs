//! The calls of c/mqtt5.h.

use std::os::raw::c_void;

/// All zero is one without a client. Never copied.
#[repr(C)]
pub(crate) struct Handle {
    pub live: bool,
    pub client: *mut c_void,
}

/// An event, or a request that was let go, as numbers.
#[repr(C)]
#[derive(Default)]
pub(crate) struct EventInfo {
    pub kind: u32,
    pub packet: u32,
    pub pkid: u32,
    pub code: u32,
    pub qos: u32,
    pub dup: bool,
    pub retain: bool,
    pub session_present: bool,
    pub topic_len: usize,
    pub payload_len: usize,
}

extern "C" {
    pub(crate) fn mqtt5_client_new(h: *mut Handle, limit: u16, manual_acks: bool) -> u32;
    pub(crate) fn mqtt5_client_free(h: *mut Handle) -> u32;
    pub(crate) fn mqtt5_client_forget(h: *mut Handle) -> u32;
    pub(crate) fn mqtt5_client_add_number(h: *mut Handle, property: u32, number: u32) -> u32;
    pub(crate) fn mqtt5_client_add_bytes(h: *mut Handle, property: u32, bytes: *const u8, len: usize) -> u32;
    pub(crate) fn mqtt5_client_add_pair(
        h: *mut Handle,
        name: *const u8,
        name_len: usize,
        value: *const u8,
        value_len: usize,
    ) -> u32;
    pub(crate) fn mqtt5_client_add_filter(
        h: *mut Handle,
        filter: *const u8,
        filter_len: usize,
        qos: u8,
        no_local: bool,
        retain_as_published: bool,
        retain_handling: u8,
    ) -> u32;
    pub(crate) fn mqtt5_client_set_login(
        h: *mut Handle,
        user_name: *const u8,
        user_name_len: usize,
        password: *const u8,
        password_len: usize,
    ) -> u32;
    pub(crate) fn mqtt5_client_set_will(
        h: *mut Handle,
        topic: *const u8,
        topic_len: usize,
        payload: *const u8,
        payload_len: usize,
        qos: u8,
        retain: bool,
    ) -> u32;
    pub(crate) fn mqtt5_client_connect(
        h: *mut Handle,
        client_id: *const u8,
        client_id_len: usize,
        keep_alive: u16,
        clean_start: bool,
        session_expiry: u32,
    ) -> u32;
    pub(crate) fn mqtt5_client_receive(h: *mut Handle, bytes: *const u8, len: usize, at: u64) -> u32;
    pub(crate) fn mqtt5_client_output(h: *mut Handle, buffer: *mut u8, len: usize, count: *mut usize) -> u32;
    pub(crate) fn mqtt5_client_sent(h: *mut Handle, count: usize) -> u32;
    pub(crate) fn mqtt5_client_publish(
        h: *mut Handle,
        topic: *const u8,
        topic_len: usize,
        payload: *const u8,
        payload_len: usize,
        qos: u8,
        retain: bool,
        at: u64,
    ) -> u32;
    pub(crate) fn mqtt5_client_subscribe_all(h: *mut Handle, at: u64) -> u32;
    pub(crate) fn mqtt5_client_unsubscribe(h: *mut Handle, filter: *const u8, filter_len: usize, at: u64) -> u32;
    pub(crate) fn mqtt5_client_may_publish(h: *mut Handle, may: *mut bool) -> u32;
    pub(crate) fn mqtt5_client_puback(h: *mut Handle, pkid: u16, at: u64) -> u32;
    pub(crate) fn mqtt5_client_pubrec(h: *mut Handle, pkid: u16, at: u64) -> u32;
    pub(crate) fn mqtt5_client_ping(h: *mut Handle, at: u64) -> u32;
    pub(crate) fn mqtt5_client_disconnect(h: *mut Handle, at: u64) -> u32;
    pub(crate) fn mqtt5_client_disconnect_with(h: *mut Handle, reason: u8, at: u64) -> u32;
    pub(crate) fn mqtt5_client_auth(h: *mut Handle, reason: u8, at: u64) -> u32;
    pub(crate) fn mqtt5_client_next_event(
        h: *mut Handle,
        event: *mut EventInfo,
        topic: *mut u8,
        topic_len: usize,
        payload: *mut u8,
        payload_len: usize,
    ) -> u32;
    pub(crate) fn mqtt5_client_event_number(h: *mut Handle, property: u32, number: *mut u32) -> u32;
    pub(crate) fn mqtt5_client_event_bytes(
        h: *mut Handle,
        property: u32,
        buffer: *mut u8,
        len: usize,
        count: *mut usize,
    ) -> u32;
    pub(crate) fn mqtt5_client_event_pair(
        h: *mut Handle,
        index: usize,
        name: *mut u8,
        name_len: usize,
        name_count: *mut usize,
        value: *mut u8,
        value_len: usize,
        value_count: *mut usize,
    ) -> u32;
    pub(crate) fn mqtt5_client_event_subscription(h: *mut Handle, index: usize, identifier: *mut usize) -> u32;
    pub(crate) fn mqtt5_client_event_reason(h: *mut Handle, index: usize, reason: *mut u8) -> u32;
    pub(crate) fn mqtt5_client_take_up(h: *mut Handle, session_present: bool, at: u64, count: *mut usize) -> u32;
    pub(crate) fn mqtt5_client_clean(h: *mut Handle, count: *mut usize) -> u32;
    pub(crate) fn mqtt5_client_next_dropped(
        h: *mut Handle,
        dropped: *mut EventInfo,
        topic: *mut u8,
        topic_len: usize,
        payload: *mut u8,
        payload_len: usize,
    ) -> u32;
    pub(crate) fn mqtt5_client_dropped_number(h: *mut Handle, property: u32, number: *mut u32) -> u32;
    pub(crate) fn mqtt5_client_dropped_bytes(
        h: *mut Handle,
        property: u32,
        buffer: *mut u8,
        len: usize,
        count: *mut usize,
    ) -> u32;
    pub(crate) fn mqtt5_client_dropped_pair(
        h: *mut Handle,
        index: usize,
        name: *mut u8,
        name_len: usize,
        name_count: *mut usize,
        value: *mut u8,
        value_len: usize,
        value_count: *mut usize,
    ) -> u32;
}
