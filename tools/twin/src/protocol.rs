//! What each party does with a message.

use crate::quorums::QuorumSystem;
use crate::replica_set::ReplicaSet;
use crate::settings::{Encoding, Setting};
use crate::signatures::Signatures;

/// The client number of the writer; the readers follow from 1.
pub const WRITER: u32 = 0;

/// A timestamp, a setting (or in a table its encoding) and a tag.
#[derive(Clone, Copy, Debug, PartialEq, Eq)]
pub struct Version<V> {
    /// The number of the write, 0 for the initial version.
    pub timestamp: u32,
    /// The setting or its encoding.
    pub setting: V,
    /// The signature's tag.
    pub tag: u32,
}

impl<S: Setting> Version<S> {
    /// The version that holds before any was written.
    #[inline]
    pub fn initial() -> Self {
        Self { timestamp: 0, setting: S::initial(), tag: 0 }
    }

    /// The version as tables hold it.
    #[inline]
    pub fn encoded(&self) -> Version<Encoding> {
        Version { timestamp: self.timestamp, setting: self.setting.encode(), tag: self.tag }
    }
}

impl Version<Encoding> {
    /// The version with its setting, the initial one where the bytes are no encoding.
    #[inline]
    pub fn decoded<S: Setting>(&self) -> Version<S> {
        Version { timestamp: self.timestamp, setting: S::decode(&self.setting), tag: self.tag }
    }

    /// The version as it arrives elsewhere: bytes that are no encoding have become the initial setting's.
    #[inline]
    pub fn handed_on<S: Setting>(&self) -> Self {
        Self { setting: S::canonical(&self.setting), ..*self }
    }

    /// Whether a handed on version is the initial one or was signed.
    #[inline]
    fn is_genuine<S: Setting, K: Signatures>(&self, scheme: &K) -> bool {
        *self == Version::<S>::initial().encoded() || scheme.verify(self.timestamp, &self.setting, self.tag)
    }
}

/// A message between a client and a replica.
#[derive(Clone, Copy, Debug, PartialEq, Eq)]
pub enum Message<V> {
    /// A client asks a replica for its version.
    Query { client: u32, op: u32 },
    /// A client hands a replica a version to keep.
    Store { client: u32, op: u32, version: Version<V> },
    /// A replica tells the version it keeps.
    Value { replica: u32, client: u32, op: u32, version: Version<V> },
    /// A replica acknowledges a store.
    Ack { replica: u32, client: u32, op: u32 },
}

/// From which replica to which operation of which client a reply goes.
#[derive(Clone, Copy, Debug, PartialEq, Eq)]
pub struct Address {
    pub replica: u32,
    pub client: u32,
    pub op: u32,
}

impl<V> Message<V> {
    /// The address of a message that goes to a client.
    #[inline]
    pub fn reply_address(&self) -> Option<Address> {
        match *self {
            Self::Value { replica, client, op, .. } | Self::Ack { replica, client, op } => {
                Some(Address { replica, client, op })
            }
            Self::Query { .. } | Self::Store { .. } => None,
        }
    }
}

/// A step was not taken, since there is no room for what it would bring.
#[derive(Clone, Copy, Debug, PartialEq, Eq)]
pub enum NoRoom {
    /// It would send a message.
    Message,
    /// It would finish an operation.
    Line,
}

/// Whether a correct replica that keeps `kept` answers a message. The answer is written to the free place.
///
/// Where it would answer and no place is free, it keeps what it keeps.
#[inline]
pub fn replica_step<S: Setting, K: Signatures>(
    kept: &mut Version<Encoding>,
    replica: u32,
    message: &Message<Encoding>,
    scheme: &K,
    free: Option<&mut Message<Encoding>>,
) -> Result<bool, NoRoom> {
    match *message {
        Message::Query { client, op } => {
            let place = free.ok_or(NoRoom::Message)?;
            *place = Message::Value { replica, client, op, version: kept.handed_on::<S>() };
            Ok(true)
        }
        Message::Store { client, op, ref version } => {
            let version = version.handed_on::<S>();
            if !version.is_genuine::<S, K>(scheme) {
                return Ok(false);
            }
            let place = free.ok_or(NoRoom::Message)?;
            *place = Message::Ack { replica, client, op };
            if version.timestamp > kept.timestamp {
                *kept = version;
            }
            Ok(true)
        }
        Message::Value { .. } | Message::Ack { .. } => Ok(false),
    }
}

/// What a client is at.
#[derive(Clone, Copy, Debug, PartialEq, Eq)]
pub enum Phase {
    Idle = 0,
    Querying = 1,
    Storing = 2,
}

/// What a client made of a reply.
#[derive(Clone, Copy, Debug, PartialEq, Eq)]
pub enum Reaction {
    /// The reply counts, and more are needed.
    Heard = 1,
    /// The reply doesn't count.
    Ignored = 2,
    /// A quorum gave its values: a store of the best is sent.
    Turned = 3,
    /// A quorum acknowledged: the operation is over, and its best version is to be taken.
    Finished = 4,
}

/// The writer, or the client that a reader is.
#[derive(Clone, Copy, Debug, PartialEq, Eq)]
pub struct Client {
    /// What it is at.
    pub phase: Phase,
    /// The number of its latest operation, 0 before the first.
    pub op: u32,
    /// The replicas heard in this phase.
    pub heard: ReplicaSet,
    /// The best version of its read so far.
    pub best: Version<Encoding>,
}

impl Client {
    /// A client before its first operation.
    #[inline]
    pub fn fresh<S: Setting>() -> Self {
        Self { phase: Phase::Idle, op: 0, heard: ReplicaSet::empty(), best: Version::<S>::initial().encoded() }
    }

    /// Whether no operation is open.
    #[inline]
    pub fn is_idle(&self) -> bool {
        self.phase == Phase::Idle
    }

    /// Begins operation `op` in this phase.
    #[inline]
    pub fn begin<S: Setting>(&mut self, phase: Phase, op: u32) {
        *self = Self { phase, op, ..Self::fresh::<S>() };
    }

    /// Whether the client is in this phase of this operation and has yet to hear this replica.
    #[inline]
    fn awaits(&self, phase: Phase, address: Address) -> bool {
        self.phase == phase && self.op == address.op && !self.heard.contains(address.replica)
    }

    /// Hears a value, of a version as it is handed on. Where the client turns, its store is written to the free
    /// place; where there is none, nothing changes.
    #[inline]
    pub fn hear_value<S: Setting, P: QuorumSystem, K: Signatures>(
        &mut self,
        address: Address,
        version: impl FnOnce() -> Version<Encoding>,
        quorums: &P,
        scheme: &K,
        free: Option<&mut Message<Encoding>>,
    ) -> Result<Reaction, NoRoom> {
        if !self.awaits(Phase::Querying, address) {
            return Ok(Reaction::Ignored);
        }
        let version = version();
        if !version.is_genuine::<S, K>(scheme) {
            return Ok(Reaction::Ignored);
        }
        let heard = self.heard.with(address.replica);
        let turns = quorums.is_quorum(heard);
        if turns && free.is_none() {
            return Err(NoRoom::Message);
        }
        if version.timestamp > self.best.timestamp {
            self.best = version;
        }
        match free {
            Some(place) if turns => {
                self.phase = Phase::Storing;
                self.heard = ReplicaSet::empty();
                let Address { client, op, .. } = address;
                *place = Message::Store { client, op, version: self.best };
                Ok(Reaction::Turned)
            }
            _ => {
                self.heard = heard;
                Ok(Reaction::Heard)
            }
        }
    }

    /// Hears an acknowledgement. Where the client would finish and has no line for that, nothing changes.
    #[inline]
    pub fn hear_ack<P: QuorumSystem>(
        &mut self,
        address: Address,
        quorums: &P,
        has_line: bool,
    ) -> Result<Reaction, NoRoom> {
        if !self.awaits(Phase::Storing, address) {
            return Ok(Reaction::Ignored);
        }
        let heard = self.heard.with(address.replica);
        if !quorums.is_quorum(heard) {
            self.heard = heard;
            return Ok(Reaction::Heard);
        }
        if !has_line {
            return Err(NoRoom::Line);
        }
        self.phase = Phase::Idle;
        self.heard = ReplicaSet::empty();
        Ok(Reaction::Finished)
    }

    /// Takes the best version of a read that is over, with its bytes as they are. The initial version takes its place.
    #[inline]
    pub fn take_best<S: Setting>(&mut self) -> Version<Encoding> {
        let best = self.best;
        self.best = Version::<S>::initial().encoded();
        best
    }
}

#[cfg(test)]
mod tests {
    use super::*;
    use crate::quorums::Threshold;
    use crate::settings::ShelfMark;
    use crate::signatures::InlineSigner;

    type Mark = ShelfMark;

    fn mark(text: &str) -> Encoding {
        ShelfMark::from_text(text).unwrap().encode()
    }

    fn version(timestamp: u32, setting: Encoding, tag: u32) -> Version<Encoding> {
        Version { timestamp, setting, tag }
    }

    #[test]
    fn replica_answers() {
        let mut scheme = InlineSigner::new(10);
        assert_eq!(scheme.sign(1, &mark("a")), Some(11));
        assert_eq!(scheme.sign(2, &mark("-")), Some(12));
        let initial = Version::<Mark>::initial().encoded();
        let mut kept = initial;
        let mut step = |message, room: bool| {
            let mut place = message;
            let answered = replica_step::<Mark, _>(&mut kept, 3, &message, &scheme, room.then_some(&mut place));
            (answered.map(|answered| answered.then_some(place)), kept)
        };
        let query = Message::Query { client: 1, op: 5 };
        let store = |version| Message::Store { client: 1, op: 5, version };
        let ack = Ok(Some(Message::Ack { replica: 3, client: 1, op: 5 }));
        let value = |version| Ok(Some(Message::Value { replica: 3, client: 1, op: 5, version }));

        assert_eq!(step(query, true), (value(initial), initial));
        assert_eq!(step(query, false), (Err(NoRoom::Message), initial));
        let (first, forged) = (version(1, mark("a"), 11), version(1, mark("b"), 11));
        assert_eq!(step(store(forged), false), (Ok(None), initial));
        assert_eq!(step(store(first), false), (Err(NoRoom::Message), initial));
        assert_eq!(step(store(first), true), (ack, first));
        assert_eq!(step(query, true), (value(first), first));
        // Bytes that are no encoding arrive as the initial setting.
        assert_eq!(step(store(version(0, [7; 32], 0)), true), (ack, first));
        let second = version(2, mark("-"), 12);
        assert_eq!(step(store(version(2, [0; 32], 12)), true), (ack, second));
        assert_eq!(step(store(first), true), (ack, second));
        let reply = Message::Ack { replica: 0, client: 1, op: 5 };
        assert_eq!(step(reply, true), (Ok(None), second));
    }

    #[test]
    fn kept_bytes_stay() {
        let scheme = InlineSigner::new(0);
        let mut kept = version(3, [9; 32], 4);
        let query = Message::Query { client: 2, op: 1 };
        let mut place = query;
        assert_eq!(replica_step::<Mark, _>(&mut kept, 0, &query, &scheme, Some(&mut place)), Ok(true));
        let told = version(3, mark("-"), 4);
        assert_eq!(place, Message::Value { replica: 0, client: 2, op: 1, version: told });
        assert_eq!(kept, version(3, [9; 32], 4));
    }

    #[test]
    fn client_reads() {
        let mut scheme = InlineSigner::new(0);
        let quorums = Threshold::new(4, 1);
        scheme.sign(1, &mark("a"));
        let initial = Version::<Mark>::initial().encoded();
        let first = version(1, mark("a"), 1);
        let mut client = Client::fresh::<Mark>();
        client.begin::<Mark>(Phase::Querying, 7);
        let mut place = Message::Query { client: 0, op: 0 };
        let mut value = |client: &mut Client, replica, op, version, room: bool| {
            let address = Address { replica, client: 1, op };
            client.hear_value::<Mark, _, _>(address, || version, &quorums, &scheme, room.then_some(&mut place))
        };
        let ack = |client: &mut Client, replica, op, room| {
            client.hear_ack(Address { replica, client: 1, op }, &quorums, room)
        };
        assert_eq!(value(&mut client, 0, 7, initial, true), Ok(Reaction::Heard));
        assert_eq!(value(&mut client, 0, 7, initial, true), Ok(Reaction::Ignored));
        assert_eq!(value(&mut client, 1, 6, initial, true), Ok(Reaction::Ignored));
        assert_eq!(value(&mut client, 1, 7, version(1, mark("b"), 1), true), Ok(Reaction::Ignored));
        assert_eq!(ack(&mut client, 1, 7, true), Ok(Reaction::Ignored));
        assert_eq!(value(&mut client, 1, 7, first, false), Ok(Reaction::Heard));
        let before = client;
        assert_eq!(value(&mut client, 2, 7, initial, false), Err(NoRoom::Message));
        assert_eq!(client, before);
        assert_eq!(value(&mut client, 2, 7, initial, true), Ok(Reaction::Turned));
        assert_eq!((client.phase, client.heard), (Phase::Storing, ReplicaSet::empty()));
        assert_eq!(value(&mut client, 3, 7, initial, true), Ok(Reaction::Ignored));
        assert_eq!(place, Message::Store { client: 1, op: 7, version: first });
        assert_eq!(ack(&mut client, 0, 7, true), Ok(Reaction::Heard));
        assert_eq!(ack(&mut client, 0, 7, true), Ok(Reaction::Ignored));
        assert_eq!(ack(&mut client, 3, 7, false), Ok(Reaction::Heard));
        let before = client;
        assert_eq!(ack(&mut client, 2, 7, false), Err(NoRoom::Line));
        assert_eq!(client, before);
        assert_eq!(ack(&mut client, 2, 7, true), Ok(Reaction::Finished));
        assert_eq!(client.take_best::<Mark>(), first);
        assert_eq!(client, Client { op: 7, ..Client::fresh::<Mark>() });
        assert_eq!(ack(&mut client, 1, 7, true), Ok(Reaction::Ignored));
    }
}
