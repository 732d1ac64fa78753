//! The yardstick of bench/table: publishes topics and puts values to them with the tests that `nt_table` makes, over
//! std's `HashMap`, and prints what `table_bench` prints of it.
//!
//! As there, a topic is found by its publisher, a put owns its value, and what is told has a name and a value of its
//! own.
use std::collections::HashMap;
use std::env::args;

/// No put here has a text, but each is asked.
#[allow(dead_code)]
#[derive(Clone)]
enum Value {
    Double(u64),
    Text(String),
}

struct Publisher {
    conn: u32,
    uid: i64,
    typ: String,
}

struct Topic {
    name: String,
    typ: String,
    value: Option<(u64, Value)>,
    publishers: Vec<Publisher>,
}

struct Changed {
    id: u32,
    name: String,
    time: u64,
    value: Value,
}

#[derive(Default)]
struct Table {
    topics: HashMap<u32, Topic>,
    ids: HashMap<(u32, i64), u32>,
}

impl Value {
    fn fits(&self, typ: &str) -> bool {
        match self {
            Value::Double(_) => typ == "double",
            Value::Text(_) => typ == "string" || typ == "json",
        }
    }
}

impl Table {
    fn publish(&mut self, conn: u32, uid: i64, name: String, typ: String) {
        let id = self.topics.len() as u32 + 1;
        let publishers = vec![Publisher { conn, uid, typ: typ.clone() }];
        self.topics.insert(id, Topic { name, typ, value: None, publishers });
        self.ids.insert((conn, uid), id);
    }

    /// What is told, where the put isn't refused.
    fn put(&mut self, conn: u32, uid: i64, time: u64, value: Value) -> Option<Vec<Changed>> {
        let id = *self.ids.get(&(conn, uid))?;
        let topic = self.topics.get_mut(&id)?;
        let is_typed =
            topic.publishers.iter().any(|p| p.conn == conn && p.uid == uid && p.typ == topic.typ);
        let is_older = topic.value.as_ref().is_some_and(|held| time < held.0);
        if !is_typed || !value.fits(&topic.typ) || is_older {
            return None;
        }
        let told = vec![Changed { id, name: topic.name.clone(), time, value: value.clone() }];
        topic.value = Some((time, value));
        Some(told)
    }
}

fn main() {
    let words: Vec<u64> = args().skip(1).map(|word| word.parse().expect("a number")).collect();
    let (topics, puts, step) = (words[0], words[1], words[2]);
    let mut table = Table::default();
    for uid in 0..topics {
        let name = format!("/SmartDashboard/drive/value {uid}");
        table.publish(1, uid as i64, name, "double".to_owned());
    }
    let (mut taken, mut checksum) = (0u64, 0u64);
    for index in 0..puts {
        let uid = index.wrapping_mul(step) % topics.max(1);
        let value = Value::Double(index.wrapping_mul(0x9e37_79b9_7f4a_7c15));
        for change in table.put(1, uid as i64, index, value).unwrap_or_default() {
            assert!(!change.name.is_empty());
            if let Value::Double(bits) = change.value {
                taken += 1;
                let sum = u64::from(change.id).wrapping_add(change.time).wrapping_add(bits);
                checksum = checksum.wrapping_add(sum);
            }
        }
    }
    println!("topics {topics} taken {taken} checksum {checksum}");
}
