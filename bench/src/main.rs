//! Reading, writing, matching, the session and the loop, timed: ours, and beside it the original where the feature `original` is on.
//! `bench REPEATS [WORDS ..]` prints the rows whose names have one of the words; `bench one SIDE ROW on|off` runs
//! one row once, for callgrind, and with `tenth-on` or `tenth-off` its tenth; `bench rows` lists them.

#[cfg(feature = "original")]
mod original;

/// Processor time of this thread, in seconds.
fn now() -> f64 {
    #[repr(C)]
    struct Time {
        seconds: i64,
        nanoseconds: i64,
    }
    extern "C" {
        fn clock_gettime(id: i32, time: *mut Time) -> i32;
    }
    let mut time = Time { seconds: 0, nanoseconds: 0 };
    unsafe { clock_gettime(3, &mut time) };
    time.seconds as f64 + time.nanoseconds as f64 * 1e-9
}

mod ours {
    #[link(name = "mqtt5_bench", kind = "static")]
    #[link(name = "rattle_heap", kind = "static")]
    extern "C" {
        fn ours_decode(s: *const u8, n: usize, count: usize, rounds: usize) -> u64;
        fn ours_encode(s: *const u8, n: usize, rounds: usize, fresh: usize) -> u64;
        fn ours_matches(s: *const u8, n: usize, rounds: usize) -> u64;
        fn ours_send(limit: u16, window: usize, windows: usize, s: *const u8, n: usize) -> u64;
        fn ours_hear(acked: usize, rounds: usize, s: *const u8, n: usize) -> u64;
        fn ours_pings(rounds: usize) -> u64;
        fn ours_fresh(limit: u16, rounds: usize) -> u64;
        fn ours_drive(s: *const u8, n: usize, piece: usize, rounds: usize) -> u64;
        fn ours_receive(s: *const u8, n: usize, piece: usize, rounds: usize) -> u64;
        fn ours_requests(a: *const u8, m: usize, window: usize, rounds: usize, s: *const u8, n: usize) -> u64;
    }
    pub fn decode(s: &[u8], count: usize, rounds: usize) -> u64 {
        unsafe { ours_decode(s.as_ptr(), s.len(), count, rounds) }
    }
    pub fn encode(s: &[u8], rounds: usize, fresh: usize) -> u64 {
        unsafe { ours_encode(s.as_ptr(), s.len(), rounds, fresh) }
    }
    pub fn matched(s: &[u8], rounds: usize) -> u64 {
        unsafe { ours_matches(s.as_ptr(), s.len(), rounds) }
    }
    pub fn send(limit: u16, window: usize, windows: usize, payload: &[u8]) -> u64 {
        unsafe { ours_send(limit, window, windows, payload.as_ptr(), payload.len()) }
    }
    pub fn hear(acked: usize, rounds: usize, payload: &[u8]) -> u64 {
        unsafe { ours_hear(acked, rounds, payload.as_ptr(), payload.len()) }
    }
    pub fn pings(rounds: usize) -> u64 {
        unsafe { ours_pings(rounds) }
    }
    pub fn fresh(limit: u16, rounds: usize) -> u64 {
        unsafe { ours_fresh(limit, rounds) }
    }
    pub fn drive(s: &[u8], piece: usize, rounds: usize) -> u64 {
        unsafe { ours_drive(s.as_ptr(), s.len(), piece, rounds) }
    }
    pub fn receive(s: &[u8], piece: usize, rounds: usize) -> u64 {
        unsafe { ours_receive(s.as_ptr(), s.len(), piece, rounds) }
    }
    pub fn requests(acks: &[u8], window: usize, rounds: usize, payload: &[u8]) -> u64 {
        unsafe { ours_requests(acks.as_ptr(), acks.len(), window, rounds, payload.as_ptr(), payload.len()) }
    }
}

/// The original's side, which answers as ours where it isn't there, and is then not shown.
#[cfg(not(feature = "original"))]
use ours as original;

fn varint(mut n: usize, out: &mut Vec<u8>) {
    loop {
        let b = (n % 128) as u8;
        n /= 128;
        if n > 0 { out.push(b | 128) } else { out.push(b); break }
    }
}
fn frame(first: u8, body: &[u8], out: &mut Vec<u8>) {
    out.push(first);
    varint(body.len(), out);
    out.extend_from_slice(body);
}
fn text(t: &str, out: &mut Vec<u8>) {
    out.extend_from_slice(&(t.len() as u16).to_be_bytes());
    out.extend_from_slice(t.as_bytes());
}
fn block(items: &[u8], out: &mut Vec<u8>) {
    varint(items.len(), out);
    out.extend_from_slice(items);
}
/// Five properties: expiry, response topic, correlation data, user property, content type.
fn five() -> Vec<u8> {
    let mut b = vec![2, 0, 0, 1, 44];
    b.push(8); text("answers/kitchen", &mut b);
    b.push(9); text("0123456789abcdef", &mut b);
    b.push(38); text("origin", &mut b); text("probe-17", &mut b);
    b.push(3); text("application/json", &mut b);
    b
}
fn publishes(count: usize, payload: usize, props: bool, qos: u8) -> Vec<u8> {
    let mut out = Vec::new();
    for i in 0..count {
        let mut body = Vec::new();
        text("sensors/kitchen/temperature", &mut body);
        if qos > 0 { body.extend_from_slice(&((i % 65535 + 1) as u16).to_be_bytes()); }
        block(if props { five() } else { vec![] }.as_slice(), &mut body);
        body.resize(body.len() + payload, b'x');
        frame(0x30 | qos << 1, &body, &mut out);
    }
    out
}
fn pubacks(count: usize) -> Vec<u8> {
    let mut out = Vec::new();
    for i in 0..count { frame(0x40, &((i % 65535 + 1) as u16).to_be_bytes(), &mut out); }
    out
}
fn connects(count: usize) -> Vec<u8> {
    let mut out = Vec::new();
    for _ in 0..count {
        let mut body = Vec::new();
        text("MQTT", &mut body);
        body.push(5);
        body.push(0xEE);
        body.extend_from_slice(&[0, 60]);
        let mut p = vec![17, 0, 0, 14, 16, 33, 0, 20, 39, 0, 1, 0, 0, 34, 0, 10, 25, 1, 23, 1];
        p.push(38); text("origin", &mut p); text("probe-17", &mut p);
        p.push(21); text("SCRAM-SHA-1", &mut p);
        p.push(22); text("0123456789abcdef", &mut p);
        block(&p, &mut body);
        text("client-0123456789", &mut body);
        let mut w = vec![24, 0, 0, 0, 5, 1, 1, 2, 0, 0, 1, 44];
        w.push(3); text("application/json", &mut w);
        w.push(8); text("answers/kitchen", &mut w);
        w.push(9); text("0123456789abcdef", &mut w);
        w.push(38); text("origin", &mut w); text("probe-17", &mut w);
        block(&w, &mut body);
        text("wills/client", &mut body);
        text("gone, and not by choice", &mut body);
        text("user-name", &mut body);
        text("pass-word", &mut body);
        frame(0x10, &body, &mut out);
    }
    out
}
fn subscribes(count: usize) -> Vec<u8> {
    let mut out = Vec::new();
    for i in 0..count {
        let mut body = Vec::new();
        body.extend_from_slice(&((i % 65535 + 1) as u16).to_be_bytes());
        block(&[], &mut body);
        for k in 0..10 {
            text(&format!("sensors/+/room-{k}/#"), &mut body);
            body.push(1);
        }
        frame(0x82, &body, &mut out);
    }
    out
}
fn pairs(kind: usize) -> Vec<u8> {
    let mut t = String::new();
    for i in 0..1000 {
        let (topic, filter) = match kind {
            0 => (format!("sensors/kitchen/t{i}"), format!("sensors/kitchen/t{i}")),
            1 => (format!("sensors/kitchen/t{i}"), "sensors/+/+".to_string()),
            2 => (format!("a/b/c/d/e/f/g/h/i/j{i}"), "a/b/#".to_string()),
            3 => (format!("a/b/c/d/e/f/g/h/i/j{i}"), "a/+/c/+/e/+/g/+/i/+".to_string()),
            4 => (format!("sensors/kitchen/t{i}"), "actors/kitchen/+".to_string()),
            5 => (format!("$SYS/broker/t{i}"), "+/broker/#".to_string()),
            6 => (format!("{}/{}/{i}", "x".repeat(100), "y".repeat(100)), format!("{}/{}/{i}", "x".repeat(100), "y".repeat(100))),
            _ => match i % 6 {
                0 => (format!("sensors/kitchen/t{i}"), format!("sensors/kitchen/t{i}")),
                1 => (format!("sensors/kitchen/t{i}"), "sensors/+/+".to_string()),
                2 => (format!("a/b/c/d/e/f/g/h/i/j{i}"), "a/b/#".to_string()),
                3 => (format!("a/b/c/d/e/f/g/h/i/j{i}"), "a/+/c/+/e/+/g/+/i/+".to_string()),
                4 => (format!("sensors/kitchen/t{i}"), "actors/kitchen/+".to_string()),
                _ => (format!("$SYS/broker/t{i}"), "+/broker/#".to_string()),
            },
        };
        t += &format!("{topic} {filter}\n");
    }
    t.into_bytes()
}

/// What a workload does: the sum of what it read or wrote. Without work it only makes the set-up.
type Side = Box<dyn Fn(bool) -> u64>;

struct Row {
    name: String,
    /// How many frames, calls or pairs a run has.
    units: f64,
    ours: Side,
    original: Side,
    /// The same over a tenth of the bytes, as often: such a row shows how many times the time of that it takes.
    tenth: Option<(Side, Side)>,
}

fn leak(bytes: Vec<u8>) -> &'static [u8] {
    Box::leak(bytes.into_boxed_slice())
}

/// Rows of one kind of frame: `per` frames to a buffer, `total` in all.
fn frames(rows: &mut Vec<Row>, name: &str, stream: Vec<u8>, per: usize, total: usize) {
    let s = leak(stream);
    let rounds = total / per;
    rows.push(Row {
        name: format!("decode {name}"),
        units: (per * rounds) as f64,
        ours: Box::new(move |on| ours::decode(s, if on { per + 1 } else { 0 }, rounds)),
        original: Box::new(move |on| original::decode(s, if on { per + 1 } else { 0 }, rounds)),
        tenth: None,
    });
    for (kind, fresh) in [("encode", 0), ("encode-fresh", 1)] {
        rows.push(Row {
            name: format!("{kind} {name}"),
            units: (per * rounds) as f64,
            ours: Box::new(move |on| ours::encode(s, if on { rounds } else { 0 }, fresh)),
            original: Box::new(move |on| original::encode(s, if on { rounds } else { 0 }, fresh)),
            tenth: None,
        });
    }
}

fn rows() -> Vec<Row> {
    let mut rows = Vec::new();
    frames(&mut rows, "publish 16B", publishes(1000, 16, false, 1), 1000, 100_000);
    frames(&mut rows, "publish 16B 5props", publishes(1000, 16, true, 1), 1000, 100_000);
    frames(&mut rows, "publish 16KiB", publishes(100, 16384, false, 1), 100, 100_000);
    frames(&mut rows, "publish 16B qos0", publishes(1000, 16, false, 0), 1000, 100_000);
    frames(&mut rows, "puback", pubacks(1000), 1000, 400_000);
    frames(&mut rows, "connect full", connects(100), 100, 20_000);
    frames(&mut rows, "subscribe 10", subscribes(100), 100, 50_000);
    frames(&mut rows, "publish 16B, 100k in one buffer", publishes(100_000, 16, false, 1), 100_000, 100_000);
    for (kind, name) in KINDS.iter().enumerate() {
        let s = leak(pairs(kind));
        rows.push(Row {
            name: format!("matches {name}"),
            units: 1_000_000.0,
            ours: Box::new(move |on| ours::matched(s, if on { 1000 } else { 0 })),
            original: Box::new(move |on| original::matched(s, if on { 1000 } else { 0 })),
            tenth: None,
        });
    }
    calls(&mut rows);
    loops(&mut rows);
    growth(&mut rows);
    rows
}

fn row(name: String, units: usize, ours: Side, original: Side) -> Row {
    Row { name, units: units as f64, ours, original, tenth: None }
}

/// The session's calls, with their events taken; no bytes.
fn calls(rows: &mut Vec<Row>) {
    let payload = leak(vec![b'x'; 16]);
    for (limit, window) in [(100, 100), (100, 1)] {
        let windows = 100_000 / window;
        rows.push(row(
            format!("session publish QoS 1 and its ack, {window} at a time"),
            100_000,
            Box::new(move |on| ours::send(limit, window, if on { windows } else { 0 }, payload)),
            Box::new(move |on| original::send(limit, window, if on { windows } else { 0 }, payload)),
        ));
    }
    for acked in [0, 1] {
        rows.push(row(
            format!("session incoming publish QoS {acked}"),
            200_000,
            Box::new(move |on| ours::hear(acked, if on { 200_000 } else { 0 }, payload)),
            Box::new(move |on| original::hear(acked, if on { 200_000 } else { 0 }, payload)),
        ));
    }
    rows.push(row(
        "session ping and its answer".to_string(),
        400_000,
        Box::new(move |on| ours::pings(if on { 400_000 } else { 0 })),
        Box::new(move |on| original::pings(if on { 400_000 } else { 0 })),
    ));
    rows.push(row(
        "session new, limit 100".to_string(),
        20_000,
        Box::new(move |on| ours::fresh(100, if on { 20_000 } else { 0 })),
        Box::new(move |on| original::fresh(100, if on { 20_000 } else { 0 })),
    ));
}

/// A stream in pieces of so many bytes, on a new session in each round.
fn driven(stream: &'static [u8], piece: usize, rounds: usize) -> (Side, Side) {
    (
        Box::new(move |on| ours::drive(stream, piece, if on { rounds } else { 0 })),
        Box::new(move |on| original::drive(stream, piece, if on { rounds } else { 0 })),
    )
}

const CUTS: [(usize, &str, usize); 4] = [(usize::MAX, "whole", 100), (1460, "of 1,460", 100), (7, "of 7", 30), (1, "of 1", 10)];

/// The loop.
fn loops(rows: &mut Vec<Row>) {
    let stream = leak(publishes(1000, 16, false, 1));
    for (piece, cut, rounds) in CUTS {
        let (ours, original) = driven(stream, piece, rounds);
        rows.push(row(format!("drive 1,000 publishes QoS 1, pieces {cut}"), 1000 * rounds, ours, original));
    }
    // (beside the loop over the same stream, whose pieces are made before)
    for (bytes, size) in [(16, "16 bytes"), (16384, "16 KiB")] {
        let stream = leak(publishes(1000, bytes, false, 1));
        rows.push(row(
            format!("receive 1,000 publishes QoS 1 of {size}, read by 1,460"),
            1000 * 20,
            Box::new(move |on| ours::receive(stream, 1460, if on { 20 } else { 0 })),
            Box::new(move |on| original::drive(stream, 1460, if on { 20 } else { 0 })),
        ));
    }
    let (acks, payload) = (leak(pubacks(100)), leak(vec![b'x'; 16]));
    rows.push(row(
        "drive 1,000 requests and their acks".to_string(),
        100_000,
        Box::new(move |on| ours::requests(acks, 100, if on { 100 } else { 0 }, payload)),
        Box::new(move |on| original::requests(acks, 100, if on { 100 } else { 0 }, payload)),
    ));
}

/// What ten times the bytes cost, as many frames and as one.
fn growth(rows: &mut Vec<Row>) {
    let streams = [
        ("100 to 1,000 publishes", publishes(100, 16, false, 1), publishes(1000, 16, false, 1), 1),
        ("64 to 640 KiB in a publish", publishes(1, 65_536, false, 1), publishes(1, 655_360, false, 1), 10),
    ];
    for (name, small, large, fewer) in streams {
        let (small, large) = (leak(small), leak(large));
        for (piece, cut, rounds) in CUTS {
            let rounds = if piece > 7 { rounds } else { (rounds / fewer).max(3) };
            let (ours, original) = driven(large, piece, rounds);
            let tenth = Some(driven(small, piece, rounds));
            rows.push(Row { name: format!("growth {name}, pieces {cut}"), units: 1.0, ours, original, tenth });
        }
    }
}

const KINDS: [&str; 8] = [
    "equal", "plus", "hash of 10", "10 levels plus", "first level differs", "$SYS", "long equal", "mixed",
];

/// Nanoseconds a unit, without the set-up, and the sum.
fn time(side: &Side, units: f64) -> (f64, u64) {
    let start = now();
    let base = side(false);
    let middle = now();
    let sum = side(true).wrapping_sub(base);
    ((now() - middle - (middle - start)) / units * 1e9, sum)
}

fn median(values: &mut [f64]) -> f64 {
    values.sort_by(f64::total_cmp);
    values[values.len() / 2]
}

/// The time of a side: a unit's in nanoseconds, or that beside a tenth of the bytes.
fn weigh(side: &Side, tenth: Option<&Side>, units: f64) -> (f64, u64) {
    let (mine, sum) = time(side, units);
    match tenth {
        Some(tenth) => (mine / time(tenth, units).0, sum),
        None => (mine, sum),
    }
}

/// Times a row, the sides in turn, after one round that isn't counted; whether the sums are equal.
fn show(row: &Row, repeats: usize) -> bool {
    let (mut mine, mut theirs, mut ratios) = (vec![], vec![], vec![]);
    let mut same = true;
    for repeat in 0..=repeats {
        let ours = || weigh(&row.ours, row.tenth.as_ref().map(|it| &it.0), row.units);
        let original = || weigh(&row.original, row.tenth.as_ref().map(|it| &it.1), row.units);
        let (a, b) = if repeat % 2 == 0 {
            let a = ours();
            (a, original())
        } else {
            let b = original();
            (ours(), b)
        };
        same &= a.1 == b.1;
        if repeat > 0 {
            mine.push(a.0);
            theirs.push(b.0);
            ratios.push(a.0 / b.0);
        }
    }
    if cfg!(feature = "original") {
        let sums = if same { "equal" } else { "DIFFER" };
        println!("{:48} {:10.2} {:10.2} {:6.2} {sums}", row.name, median(&mut mine), median(&mut theirs), median(&mut ratios));
    } else {
        println!("{:48} {:10.2}", row.name, median(&mut mine));
    }
    same
}

fn main() {
    let args: Vec<String> = std::env::args().skip(1).collect();
    let words: Vec<&str> = args.iter().map(String::as_str).collect();
    match words.as_slice() {
        ["rows"] => rows().iter().for_each(|row| println!("{}", row.name)),
        ["one", side, name, on] => {
            let rows = rows();
            let row = rows.iter().find(|row| row.name == *name).expect("no such row");
            let pick = |ours, original| if *side == "ours" { ours } else { original };
            let (side, work) = match on.strip_prefix("tenth-") {
                Some(work) => (row.tenth.as_ref().map(|(ours, original)| pick(ours, original)), work),
                None => (Some(pick(&row.ours, &row.original)), *on),
            };
            println!("units {} sum {}", row.units, side.expect("no tenth of this row")(work == "on"));
        }
        ["heap", side, count] => {
            let count: u16 = count.parse().expect("how many publishes is a number");
            let send = if *side == "ours" { ours::send } else { original::send };
            println!("sum {}", send(count, count.into(), 1, leak(vec![b'x'; 16])));
        }
        [repeats, words @ ..] => {
            let repeats = repeats.parse().expect("how often is a number");
            println!("{:48} {:>10} {:>10} {:>6}", "row (ns a frame, call or pair; growth: times)", "ours", "original", "ratio");
            let wanted = |row: &&Row| words.is_empty() || words.iter().any(|word| row.name.contains(word));
            if !rows().iter().filter(wanted).fold(true, |same, row| show(row, repeats) & same) {
                std::process::exit(1);
            }
        }
        [] => eprintln!("bench REPEATS [WORDS ..] | bench one SIDE ROW [tenth-]on|off | bench heap SIDE COUNT | bench rows"),
    }
}
