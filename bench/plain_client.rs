//! The yardstick of bench/client: takes the frames of a server that tells of topics and their values, in a plain loop
//! over a `HashMap` of Rust's own library, and prints what `client_bench` prints of it.
//!
//! A frame is read with the tests that `nt_frames` makes, by every width of the numbers and with values of every type
//! that is no list. As there, a frame's messages are read into a list before any is taken, and what is told has a name
//! and a value of its own.
use std::collections::HashMap;
use std::env::args;

/// How many values a frame has.
const VALUES: u64 = 4_000;

/// How far each value's topic is behind that of the value before it.
const STEP: u64 = 7_919;

/// The id of the messages by which the clock answers.
const CLOCK: i64 = -1;

#[allow(dead_code)]
#[derive(Clone)]
enum Value {
    Bool(bool),
    Double(u64),
    Int(i64),
    Float(u32),
    Text(String),
    Bytes(Vec<u8>),
}

struct Message {
    id: i64,
    time: u64,
    value: Value,
}

struct Topic {
    name: String,
    is_cached: bool,
    value: Option<(u64, Value)>,
}

struct Changed {
    id: i64,
    name: String,
    time: u64,
    value: Value,
}

struct Taken {
    changes: Vec<Changed>,
    clock: Vec<Message>,
    ignored: u32,
}

// ---- a frame's bytes

fn put_number(bytes: &mut Vec<u8>, number: u64) {
    let (first, width) = match number {
        0..0x80 => return bytes.push(number as u8),
        0x80..0x100 => (0xcc, 1),
        0x100..0x1_0000 => (0xcd, 2),
        0x1_0000..0x1_0000_0000 => (0xce, 4),
        _ => (0xcf, 8),
    };
    bytes.push(first);
    bytes.extend_from_slice(&number.to_be_bytes()[8 - width..]);
}

fn frame_of(topics: u64) -> Vec<u8> {
    let mut bytes = Vec::new();
    for index in 0..VALUES {
        bytes.push(0x94);
        put_number(&mut bytes, index.wrapping_mul(STEP) % topics.max(1));
        put_number(&mut bytes, 1_000_000 + 20 * index);
        put_number(&mut bytes, 1);
        bytes.push(0xcb);
        bytes.extend_from_slice(&index.wrapping_mul(0x9e37_79b9_7f4a_7c15).to_be_bytes());
    }
    bytes
}

// ---- reading

fn take_bytes<'a>(left: &mut &'a [u8], count: usize) -> Option<&'a [u8]> {
    let (taken, rest) = left.split_at_checked(count)?;
    *left = rest;
    Some(taken)
}

/// A whole number from -2^63 to 2^64 - 1.
fn take_whole(left: &mut &[u8]) -> Option<i128> {
    let first = take_bytes(left, 1)?[0];
    if !(0x80..0xe0).contains(&first) {
        return Some(i128::from(first as i8));
    }
    if !(0xcc..=0xd3).contains(&first) {
        return None;
    }
    let width = 1usize << (first & 3);
    let number = take_bytes(left, width)?.iter().fold(0u64, |n, byte| n << 8 | u64::from(*byte));
    if first < 0xd0 {
        return Some(i128::from(number));
    }
    let unused = 64 - 8 * width;
    Some(i128::from((number << unused) as i64 >> unused))
}

/// So many bytes, the number of which stands before them in as many bytes as `first` says of `narrowest`.
fn take_counted<'a>(left: &mut &'a [u8], first: u8, narrowest: u8) -> Option<&'a [u8]> {
    let width = 1usize << first.checked_sub(narrowest).filter(|step| *step < 3)?;
    let count = take_bytes(left, width)?.iter().fold(0usize, |n, byte| n << 8 | usize::from(*byte));
    take_bytes(left, count)
}

fn take_text(left: &mut &[u8]) -> Option<String> {
    let first = take_bytes(left, 1)?[0];
    let text = match first {
        0xa0..0xc0 => take_bytes(left, usize::from(first & 0x1f))?,
        _ => take_counted(left, first, 0xd9)?,
    };
    String::from_utf8(text.to_vec()).ok()
}

fn take_bits(left: &mut &[u8]) -> Option<Result<u64, u32>> {
    match take_bytes(left, 1)?[0] {
        0xca => Some(Err(u32::from_be_bytes(take_bytes(left, 4)?.try_into().ok()?))),
        0xcb => Some(Ok(u64::from_be_bytes(take_bytes(left, 8)?.try_into().ok()?))),
        _ => None,
    }
}

fn take_value(left: &mut &[u8], number: u8) -> Option<Value> {
    match number {
        0 => match take_bytes(left, 1)?[0] {
            0xc2 => Some(Value::Bool(false)),
            0xc3 => Some(Value::Bool(true)),
            _ => None,
        },
        1 => Some(Value::Double(take_bits(left)?.unwrap_or_else(|bits| f64::from(f32::from_bits(bits)).to_bits()))),
        2 => Some(Value::Int(i64::try_from(take_whole(left)?).ok()?)),
        3 => Some(Value::Float(take_bits(left)?.err()?)),
        4 => Some(Value::Text(take_text(left)?)),
        5 => {
            let first = take_bytes(left, 1)?[0];
            Some(Value::Bytes(take_counted(left, first, 0xc4)?.to_vec()))
        }
        _ => None,
    }
}

fn take_message(left: &mut &[u8]) -> Option<Message> {
    if take_bytes(left, 1)?[0] != 0x94 {
        return None;
    }
    let id = i64::try_from(take_whole(left)?).ok()?;
    let time = i64::try_from(take_whole(left)?).ok().filter(|time| *time >= 0)? as u64;
    let number = u8::try_from(take_whole(left)?).ok()?;
    Some(Message { id, time, value: take_value(left, number)? })
}

/// The messages of a frame up to the first that isn't there, and whether there is one.
fn read_frame(mut left: &[u8]) -> (Vec<Message>, bool) {
    let mut messages = Vec::new();
    while !left.is_empty() {
        let Some(message) = take_message(&mut left) else {
            return (messages, true);
        };
        messages.push(message);
    }
    (messages, false)
}

// ---- taking

#[inline(never)]
fn take(held: &mut HashMap<i64, Topic>, frame: &[u8]) -> Taken {
    let (messages, is_faulty) = read_frame(frame);
    let mut taken = Taken { changes: Vec::new(), clock: Vec::new(), ignored: u32::from(is_faulty) };
    for message in messages {
        let Message { id, time, value } = message;
        if id == CLOCK {
            taken.clock.push(Message { id, time, value: value.clone() });
        }
        let Some(topic) = held.get_mut(&id) else {
            taken.ignored += u32::from(id != CLOCK);
            continue;
        };
        if topic.is_cached {
            topic.value = Some((time, value.clone()));
        }
        taken.changes.push(Changed { id, name: topic.name.clone(), time, value });
    }
    taken
}

fn main() {
    let words: Vec<u64> = args().skip(1).map(|word| word.parse().expect("a number")).collect();
    let (topics, frames) = (words[0], words[1]);
    let mut held = HashMap::new();
    for id in 0..topics {
        let name = format!("/SmartDashboard/drive/value {id}");
        held.insert(id as i64, Topic { name, is_cached: true, value: None });
    }
    let frame = frame_of(topics);
    let (mut count, mut checksum) = (0u64, 0u64);
    for _ in 0..frames {
        let taken = take(&mut held, &frame);
        assert!(taken.ignored == 0 && taken.clock.is_empty());
        for change in taken.changes {
            assert!(!change.name.is_empty());
            if let Value::Double(bits) = change.value {
                count += 1;
                let sum = (change.id as u64).wrapping_add(change.time).wrapping_add(bits);
                checksum = checksum.wrapping_add(sum);
            }
        }
    }
    println!("topics {topics} taken {count} checksum {checksum}");
}
