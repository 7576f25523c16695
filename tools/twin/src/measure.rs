//! Measured work: many turns of one call.

use std::hint::black_box;

use crate::cluster::{Cluster, Delivery, Line, MOST_LINES, MOST_MESSAGES, ReadRecord, Reader, Refusal, Tables};
use crate::protocol::{Client, Message, Phase, Reaction, Version};
use crate::quorums::{MOST_REPLICAS, QuorumSystem, Threshold};
use crate::replica_set::ReplicaSet;
use crate::settings::{Setting, ShelfMark};
use crate::signatures::{InlineSigner, Ledger, SLOTS, Signatures};

const READERS: u32 = 8;
const BOOK: usize = 64;
const LEAST_PLACES: usize = 8;
const MOST_TURNS: usize = 2 * 4_000;

/// The number that a result gives.
fn number<A>(result: Result<A, Refusal>, answer: impl FnOnce(A) -> u32) -> u64 {
    u64::from(match result {
        Ok(given) => answer(given),
        Err(refusal) => 1_000 + refusal.number(),
    })
}

fn delivery(result: Result<Delivery, Refusal>) -> u64 {
    number(result, |delivery| delivery as u32)
}

fn heard(result: Result<Reaction, Refusal>) -> u64 {
    number(result, |reaction| reaction as u32)
}

fn dropped(result: Result<(), Refusal>) -> u64 {
    number(result, |()| 0)
}

/// Sums what the turns give.
fn turns(count: u64, mut turn: impl FnMut(u64) -> u64) -> u64 {
    (0..count).fold(0, |sum, i| sum.wrapping_add(turn(i)))
}

/// The sum of what `count` turns of a workload give; `None` where there is no such workload or size.
pub fn run(workload: &str, replicas: u32, places: usize, count: u64) -> Option<u64> {
    if places < LEAST_PLACES {
        return None;
    }
    match workload {
        "sign" => Some(sign(places, count)),
        "verify" => Some(verify(places, count)),
        "inline" => Some(inline(count)),
        _ if !(1..=MOST_REPLICAS).contains(&replicas) || places > MOST_MESSAGES => None,
        _ => call(workload, replicas, places, count),
    }
}

fn mark() -> ShelfMark {
    ShelfMark::from_text("A7").unwrap_or_else(ShelfMark::initial)
}

/// A ledger with this many entries and slots for all turns.
fn ledger_with(entries: usize) -> Ledger {
    let mut ledger = Ledger::new(Vec::with_capacity(entries + MOST_TURNS));
    for timestamp in 1..=entries as u32 {
        ledger.sign(timestamp, &mark().encode());
    }
    ledger
}

fn sign(entries: usize, count: u64) -> u64 {
    let mut ledger = ledger_with(entries);
    let encoding = mark().encode();
    turns(count, |i| {
        let timestamp = (entries as u64 + 1 + i) as u32;
        let tag = black_box(&mut ledger).sign(timestamp, &encoding);
        number(tag.ok_or(Refusal::NotSigned), |tag| tag)
    })
}

fn verify(entries: usize, count: u64) -> u64 {
    let ledger = ledger_with(entries);
    let encoding = mark().encode();
    turns(count, |i| {
        let tag = (i % entries as u64) as u32;
        u64::from(black_box(&ledger).verify(tag + 1, &encoding, tag))
    })
}

fn inline(count: u64) -> u64 {
    let encoding = mark().encode();
    let mut signer = InlineSigner::new(0);
    for timestamp in 1..=SLOTS as u32 {
        signer.sign(timestamp, &encoding);
    }
    turns(count, |i| {
        let timestamp = 1 + (i % SLOTS as u64) as u32;
        u64::from(black_box(&signer).verify(timestamp, &encoding, timestamp))
    })
}

/// The replicas 1 to one less than the size of the least quorum.
fn all_but_one(quorums: &Threshold) -> ReplicaSet {
    let least = (0..=quorums.replicas()).find(|&size| quorums.is_quorum(ReplicaSet::first(size))).unwrap_or_default();
    ReplicaSet::first(least).difference(ReplicaSet::first(1))
}

type Marks = Cluster<ShelfMark, Threshold, Ledger>;

/// A cluster and its tables as they are before the turns.
struct Bench<'a> {
    cluster: Marks,
    tables: Tables<'a>,
    count: u64,
}

impl<'a> Bench<'a> {
    /// A write and a read have begun, and all places but one hold messages.
    fn new(quorums: Threshold, faulty: ReplicaSet, mut tables: Tables<'a>, count: u64) -> Self {
        let ledger = Ledger::new(Vec::with_capacity(BOOK));
        let mut cluster = Marks::new(quorums, ledger, faulty, READERS, &mut tables);
        let _ = cluster.write(&mut tables, &mark());
        let _ = cluster.read(&mut tables, 1);
        for _ in cluster.messages_in_flight()..tables.messages.len() - 1 {
            let _ = cluster.deliver_request(&mut tables, 1, 0);
        }
        Self { cluster, tables, count }
    }

    /// Sums what the turns give. Nothing of a turn is known from the one before.
    #[inline]
    fn turns(&mut self, mut turn: impl FnMut(&mut Marks, &mut Tables<'a>) -> u64) -> u64 {
        turns(self.count, |_| turn(black_box(&mut self.cluster), black_box(&mut self.tables)))
    }

    /// Sums what making a cluster and then `call` give.
    #[inline]
    fn makings(
        &mut self,
        call: impl Fn(&mut Cluster<ShelfMark, Threshold, InlineSigner>, &mut Tables<'a>) -> u64,
    ) -> u64 {
        let (quorums, faulty) = (*self.cluster.quorums(), self.cluster.faulty());
        turns(self.count, |_| {
            let tables = black_box(&mut self.tables);
            let mut cluster = Cluster::new(quorums, InlineSigner::new(0), faulty, READERS, tables);
            let cluster = black_box(&mut cluster);
            u64::from(cluster.is_shut()) + call(cluster, tables)
        })
    }
}

fn call(workload: &str, replicas: u32, places: usize, count: u64) -> Option<u64> {
    let quorums = Threshold::new(replicas, (replicas - 1) / 3);
    let initial = Version::<ShelfMark>::initial().encoded();
    let (a7, last, end) = (mark(), replicas - 1, places - 1);
    let faulty = if replicas < 4 { ReplicaSet::empty() } else { ReplicaSet::empty().with(last) };
    let tables = Tables {
        replicas: &mut vec![initial; replicas as usize],
        readers: &mut vec![Reader::fresh::<ShelfMark>(); READERS as usize],
        messages: &mut vec![Message::Query { client: 0, op: 0 }; places],
        lines: &mut vec![Line::default(); MOST_LINES],
    };
    let mut bench = Bench::new(quorums, faulty, tables, count);
    let almost = |phase| {
        let client = Client { phase, op: 1, heard: all_but_one(&quorums), best: initial };
        Reader { client, completed: None }
    };

    Some(match workload {
        "new" => bench.makings(|_, _| 0),
        "write" => bench.makings(|cluster, tables| number(cluster.write(tables, &a7), |timestamp| timestamp)),
        "read" => bench.makings(|cluster, tables| number(cluster.read(tables, 1), |op| op)),
        "query" => bench.turns(|cluster, tables| {
            delivery(cluster.deliver_request(tables, 1, 0)) + dropped(cluster.drop_message(tables, end))
        }),
        "store" => bench.turns(|cluster, tables| {
            delivery(cluster.deliver_request(tables, 0, 1)) + dropped(cluster.drop_message(tables, end))
        }),
        "silent" => bench.turns(|cluster, tables| delivery(cluster.deliver_request(tables, 0, last))),
        "heard" => {
            let before = bench.tables.readers[0];
            bench.turns(|cluster, tables| {
                tables.readers[0] = before;
                heard(cluster.deliver_reply(tables, 2))
            })
        }
        "ignored" => {
            let _ = bench.cluster.deliver_reply(&mut bench.tables, 2);
            bench.turns(|cluster, tables| heard(cluster.deliver_reply(tables, 2)))
        }
        "turned" => {
            let querying = almost(Phase::Querying);
            bench.turns(|cluster, tables| {
                tables.readers[0] = querying;
                heard(cluster.deliver_reply(tables, 2)) + dropped(cluster.drop_message(tables, end))
            })
        }
        "finished" => {
            let storing = almost(Phase::Storing);
            let ack = Message::Ack { replica: last, client: 1, op: 1 };
            bench.turns(|cluster, tables| {
                tables.readers[0] = storing;
                heard(cluster.forge_reply(tables, &ack))
            })
        }
        "forged" => {
            let version = Version { timestamp: 9, setting: a7, tag: 9 };
            let value = Message::Value { replica: last, client: 1, op: 1, version };
            bench.turns(|cluster, tables| heard(cluster.forge_reply(tables, &value)))
        }
        "drop" => bench.turns(|cluster, tables| {
            dropped(cluster.drop_message(tables, 2)) + delivery(cluster.deliver_request(tables, 1, 0))
        }),
        "collect" => {
            let read = ReadRecord { op: 1, timestamp: 1, encoding: a7.encode() };
            bench.turns(|cluster, tables| {
                tables.readers[0].completed = Some(read);
                number(cluster.collect(tables, 1), |read| black_box(read).timestamp())
            })
        }
        _ => return None,
    })
}

#[cfg(test)]
mod tests {
    use super::*;

    #[test]
    fn sums() {
        let expected = [
            ("new", 0),
            ("write", 100),
            ("read", 100),
            ("query", 100),
            ("store", 100),
            ("silent", 200),
            ("heard", 100),
            ("ignored", 200),
            ("turned", 300),
            ("finished", 400),
            ("forged", 200),
            ("drop", 100),
            ("collect", 100),
            ("sign", (16..116).sum()),
            ("verify", 100),
            ("inline", 100),
        ];
        for (workload, sum) in expected {
            for replicas in [4, 7, 32] {
                assert_eq!(run(workload, replicas, 16, 100), Some(sum), "{workload} with {replicas} replicas");
            }
        }
        assert_eq!(run("finished", 4, 4_096, 8_000), Some(32_000));
        assert_eq!(run("silence", 4, 16, 100), None);
        assert_eq!(run("new", 33, 16, 100), None);
        assert_eq!(run("new", 4, 7, 100), None);
    }
}
