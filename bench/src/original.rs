//! The same workloads over the original.
use bytes::{Bytes, BytesMut};
use oracle::v5::mqttbytes::v5::*;
use oracle::v5::mqttbytes::{matches, Error, QoS};
use oracle::v5::{Event, MqttState, Request, StateError};
use tokio_util::codec::Decoder;

fn no_limits() -> Codec {
    Codec { max_incoming_size: None, max_outgoing_size: None }
}

fn weigh(packet: &Packet) -> u64 {
    match packet {
        Packet::Publish(p) => (p.topic.len() as u64)
            .wrapping_add(p.payload.len() as u64)
            .wrapping_add(u64::from(p.pkid))
            .wrapping_add(if p.properties.is_some() { 1 } else { 0 }),
        Packet::PubAck(ack) => u64::from(ack.pkid),
        Packet::Subscribe(s) => u64::from(s.pkid).wrapping_add(s.filters.len() as u64),
        Packet::Connect(c, will, login) => u64::from(c.keep_alive)
            .wrapping_add(if will.is_some() { 3 } else { 0 })
            .wrapping_add(if login.is_some() { 5 } else { 0 }),
        _ => 1,
    }
}

fn decode_all(codec: &mut Codec, stream: &[u8], count: usize) -> Result<u64, Error> {
    let mut input = BytesMut::new();
    input.extend_from_slice(stream);
    let mut sum: u64 = 0;
    for _ in 0..count {
        match codec.decode(&mut input)? {
            Some(packet) => sum = sum.wrapping_add(weigh(&packet)),
            None => return Ok(sum),
        }
    }
    Ok(sum)
}

#[inline(never)]
pub fn decode(stream: &[u8], count: usize, rounds: usize) -> u64 {
    let mut codec = no_limits();
    let mut sum: u64 = 0;
    for _ in 0..rounds {
        match decode_all(&mut codec, stream, count) {
            Ok(n) => sum = sum.wrapping_add(n),
            Err(_) => return 0,
        }
    }
    sum
}

fn packets_of(stream: &[u8]) -> Result<Vec<Packet>, Error> {
    let mut codec = no_limits();
    let mut input = BytesMut::new();
    input.extend_from_slice(stream);
    let mut packets = Vec::new();
    for _ in 0..stream.len() {
        match codec.decode(&mut input)? {
            Some(packet) => packets.push(packet),
            None => return Ok(packets),
        }
    }
    Ok(packets)
}

fn write_all(packets: &[Packet], output: &mut BytesMut) -> Result<u64, Error> {
    let mut sum: u64 = 0;
    for packet in packets {
        sum = sum.wrapping_add(packet.write(output, None)? as u64);
    }
    Ok(sum.wrapping_add(output.len() as u64))
}

fn encode_all(stream: &[u8], rounds: usize, fresh: usize) -> Result<u64, Error> {
    let packets = packets_of(stream)?;
    let mut output = BytesMut::new();
    let mut sum: u64 = 1;
    for _ in 0..rounds {
        if fresh == 1 {
            output = BytesMut::new();
        } else {
            output.clear();
        }
        sum = sum.wrapping_add(write_all(&packets, &mut output)?);
    }
    Ok(sum)
}

#[inline(never)]
pub fn encode(stream: &[u8], rounds: usize, fresh: usize) -> u64 {
    encode_all(stream, rounds, fresh).unwrap_or(0)
}

#[inline(never)]
pub fn matched(text: &[u8], rounds: usize) -> u64 {
    let text = std::str::from_utf8(text).unwrap();
    let mut pairs = Vec::new();
    for line in text.split('\n') {
        if let Some(pair) = line.split_once(' ') {
            pairs.push(pair);
        }
    }
    let mut sum: u64 = 1;
    for _ in 0..rounds {
        for pair in &pairs {
            if matches(pair.0, pair.1) {
                sum = sum.wrapping_add(1);
            }
        }
    }
    sum
}

const TOPIC: &str = "sensors/kitchen/temperature";

fn weigh_event(event: &Event) -> u64 {
    match event {
        Event::Incoming(packet) => weigh(packet),
        Event::Outgoing(_) => 7,
    }
}

fn take_events(state: &mut MqttState) -> u64 {
    let mut sum: u64 = 0;
    let waiting = state.events.len();
    for _ in 0..waiting {
        if let Some(event) = state.events.pop_front() {
            sum = sum.wrapping_add(weigh_event(&event));
        }
    }
    sum
}

fn message(qos: QoS, payload: &Bytes) -> Publish {
    Publish::new(TOPIC, qos, payload.clone(), None)
}

fn send_window(state: &mut MqttState, ids: &mut Vec<u16>, payload: &Bytes, window: usize) -> Result<u64, StateError> {
    let mut sum: u64 = 0;
    for _ in 0..window {
        let publish = message(QoS::AtLeastOnce, payload);
        if let Some(packet) = state.handle_outgoing_packet(Request::Publish(publish))? {
            sum = sum.wrapping_add(weigh(&packet));
            if let Packet::Publish(sent) = &packet {
                ids.push(sent.pkid);
            }
        }
    }
    Ok(sum)
}

fn send_windows(limit: u16, window: usize, windows: usize, payload: &[u8]) -> Result<u64, StateError> {
    let payload = Bytes::copy_from_slice(payload);
    let mut state = MqttState::new(limit, false);
    let mut ids = Vec::new();
    let mut sum: u64 = 1;
    for _ in 0..windows {
        sum = sum.wrapping_add(send_window(&mut state, &mut ids, &payload, window)?);
        for id in &ids {
            state.handle_incoming_packet(Packet::PubAck(PubAck::new(*id, None)))?;
        }
        sum = sum.wrapping_add(take_events(&mut state));
        ids.clear();
    }
    Ok(sum)
}

#[inline(never)]
pub fn send(limit: u16, window: usize, windows: usize, payload: &[u8]) -> u64 {
    send_windows(limit, window, windows, payload).unwrap_or(0)
}

fn hear_publishes(qos: QoS, rounds: usize, payload: &[u8]) -> Result<u64, StateError> {
    let payload = Bytes::copy_from_slice(payload);
    let mut state = MqttState::new(10, false);
    let mut sum: u64 = 1;
    for _ in 0..rounds {
        let mut publish = message(qos, &payload);
        publish.pkid = 7;
        state.handle_incoming_packet(Packet::Publish(publish))?;
        sum = sum.wrapping_add(take_events(&mut state));
    }
    Ok(sum)
}

#[inline(never)]
pub fn hear(acked: usize, rounds: usize, payload: &[u8]) -> u64 {
    let qos = if acked == 1 { QoS::AtLeastOnce } else { QoS::AtMostOnce };
    hear_publishes(qos, rounds, payload).unwrap_or(0)
}

fn ping_rounds(rounds: usize) -> Result<u64, StateError> {
    let mut state = MqttState::new(10, false);
    let mut sum: u64 = 1;
    for _ in 0..rounds {
        state.handle_outgoing_packet(Request::PingReq)?;
        state.handle_incoming_packet(Packet::PingResp(PingResp))?;
        sum = sum.wrapping_add(take_events(&mut state));
    }
    Ok(sum)
}

#[inline(never)]
pub fn pings(rounds: usize) -> u64 {
    ping_rounds(rounds).unwrap_or(0)
}

#[inline(never)]
pub fn fresh(limit: u16, rounds: usize) -> u64 {
    let mut sum: u64 = 1;
    for _ in 0..rounds {
        let state = std::hint::black_box(MqttState::new(limit, false));
        sum = sum.wrapping_add(u64::from(state.inflight()));
    }
    sum
}

enum Input {
    Bytes(Bytes),
    Request(Request),
}

fn pieces(stream: &[u8], piece: usize) -> Vec<Input> {
    let mut rest = Bytes::copy_from_slice(stream);
    let mut steps = Vec::new();
    while !rest.is_empty() {
        steps.push(Input::Bytes(rest.split_to(rest.len().min(piece))));
    }
    steps
}

fn write(codec: &Codec, output: &mut BytesMut, reply: Option<Packet>) -> Result<(), StateError> {
    if let Some(packet) = reply {
        packet.write(output, codec.max_outgoing_size).map_err(StateError::Deserialization)?;
    }
    Ok(())
}

/// The loop: ours borrows its steps and so clones a request, and so does this.
fn run_steps(
    state: &mut MqttState,
    codec: &mut Codec,
    input: &mut BytesMut,
    output: &mut BytesMut,
    steps: &[Input],
) -> Result<(), StateError> {
    for step in steps {
        match step {
            Input::Request(request) => {
                let reply = state.handle_outgoing_packet(request.clone())?;
                write(codec, output, reply)?;
            }
            Input::Bytes(piece) => {
                input.extend_from_slice(piece);
                while let Some(packet) = codec.decode(input).map_err(StateError::Deserialization)? {
                    let reply = state.handle_incoming_packet(packet)?;
                    write(codec, output, reply)?;
                }
            }
        }
    }
    Ok(())
}

fn run(limit: u16, steps: &[Input]) -> Result<u64, StateError> {
    let mut state = MqttState::new(limit, false);
    let mut codec = no_limits();
    let (mut input, mut output) = (BytesMut::new(), BytesMut::new());
    run_steps(&mut state, &mut codec, &mut input, &mut output, steps)?;
    Ok((output.len() as u64)
        .wrapping_add(state.events.len() as u64)
        .wrapping_add(u64::from(state.inflight())))
}

fn run_often(limit: u16, steps: &[Input], rounds: usize) -> Result<u64, StateError> {
    let mut sum: u64 = steps.len() as u64;
    for _ in 0..rounds {
        sum = sum.wrapping_add(run(limit, steps)?);
    }
    Ok(sum)
}

#[inline(never)]
pub fn drive(stream: &[u8], piece: usize, rounds: usize) -> u64 {
    run_often(10, &pieces(stream, piece), rounds).unwrap_or(0)
}

#[inline(never)]
pub fn requests(acks: &[u8], window: usize, rounds: usize, payload: &[u8]) -> u64 {
    let payload = Bytes::copy_from_slice(payload);
    let acks = Bytes::copy_from_slice(acks);
    let mut steps = Vec::new();
    for _ in 0..10 {
        for _ in 0..window {
            steps.push(Input::Request(Request::Publish(message(QoS::AtLeastOnce, &payload))));
        }
        steps.push(Input::Bytes(acks.clone()));
    }
    run_often(100, &steps, rounds).unwrap_or(0)
}
