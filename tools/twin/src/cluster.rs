//! All parties and the messages between them.

use std::marker::PhantomData;

use crate::protocol::{Address, Client, Message, NoRoom, Phase, Reaction, Version, WRITER, replica_step};
use crate::quorums::QuorumSystem;
use crate::replica_set::ReplicaSet;
use crate::settings::{Encoding, Setting};
use crate::signatures::Signatures;

/// The most readers of a cluster.
pub const MOST_READERS: u32 = 8;

/// The most messages in flight.
pub const MOST_MESSAGES: usize = 4_096;

/// The least number of journal lines.
pub const LEAST_LINES: usize = 2;

/// The most journal lines.
pub const MOST_LINES: usize = 8_192;

/// The last operation number of a client.
pub const LAST_OP: u32 = 65_535;

/// A completed read as the reader table holds it.
#[derive(Clone, Copy, Debug, PartialEq, Eq)]
pub struct ReadRecord {
    pub op: u32,
    pub timestamp: u32,
    pub encoding: Encoding,
}

/// A row of the reader table.
#[derive(Clone, Copy, Debug, PartialEq, Eq)]
pub struct Reader {
    /// The reader as a client.
    pub client: Client,
    /// Its completed read, until it is collected.
    pub completed: Option<ReadRecord>,
}

impl Reader {
    /// A reader before its first read.
    #[inline]
    pub fn fresh<S: Setting>() -> Self {
        Self { client: Client::fresh::<S>(), completed: None }
    }
}

/// The kinds of journal lines.
pub mod kinds {
    pub const WRITE_BEGUN: u32 = 1;
    pub const WRITE_FINISHED: u32 = 2;
    pub const READ_BEGUN: u32 = 3;
    pub const READ_FINISHED: u32 = 4;
}

/// A line of the journal.
#[derive(Clone, Copy, Debug, Default, PartialEq, Eq)]
pub struct Line {
    pub kind: u32,
    pub client: u32,
    pub op: u32,
    pub timestamp: u32,
}

/// The tables that come along with each call.
#[derive(Debug)]
pub struct Tables<'a> {
    /// The version that each replica keeps.
    pub replicas: &'a mut [Version<Encoding>],
    /// The readers, from number 1 on.
    pub readers: &'a mut [Reader],
    /// The messages in flight, and free places after them.
    pub messages: &'a mut [Message<Encoding>],
    /// The journal, and free lines after it.
    pub lines: &'a mut [Line],
}

/// How many rows each table has.
#[derive(Clone, Copy, Debug, PartialEq, Eq)]
struct Sizes {
    replicas: usize,
    readers: usize,
    messages: usize,
    lines: usize,
}

impl Tables<'_> {
    #[inline]
    fn sizes(&self) -> Sizes {
        Sizes {
            replicas: self.replicas.len(),
            readers: self.readers.len(),
            messages: self.messages.len(),
            lines: self.lines.len(),
        }
    }
}

/// Why a cluster is made shut, or a call changes nothing.
#[derive(Clone, Copy, Debug, PartialEq, Eq)]
pub enum Refusal {
    /// The number of readers is not from 1 to 8.
    ReaderCount = 4,
    /// A table has a size that it can't have, or another than at making.
    TableSize = 5,
    /// The faulty replicas are no fault set.
    NoFaultSet = 6,
    /// The scheme has signed already.
    BookInUse = 7,
    /// The cluster is shut.
    Shut = 8,
    /// There is no such client.
    NoSuchClient = 9,
    /// The client's operation is open.
    OperationOpen = 10,
    /// The client has used its last operation number.
    OperationsUsed = 11,
    /// There is no place for a message.
    NoPlace = 12,
    /// There are too few free lines.
    NoLine = 13,
    /// The scheme refuses to sign.
    NotSigned = 14,
    /// There is no such message in flight.
    NoSuchMessage = 15,
    /// The message goes the other way.
    WrongWay = 16,
    /// There is no such replica.
    NoSuchReplica = 17,
    /// The replica is correct.
    CorrectReplica = 18,
    /// There is no completed read.
    NothingCompleted = 19,
}

impl Refusal {
    /// The refusal's number.
    pub fn number(self) -> u32 {
        self as u32
    }
}

impl From<NoRoom> for Refusal {
    #[inline]
    fn from(no_room: NoRoom) -> Self {
        match no_room {
            NoRoom::Message => Self::NoPlace,
            NoRoom::Line => Self::NoLine,
        }
    }
}

/// What came of a message that went to a replica.
#[derive(Clone, Copy, Debug, PartialEq, Eq)]
pub enum Delivery {
    /// The replica's answer is in flight.
    Answered = 1,
    /// The replica stayed silent.
    Unanswered = 2,
}

/// A read that a reader completed and that was collected. Only [`Cluster::collect`] gives one.
#[derive(Debug)]
pub struct CompletedRead<S> {
    reader: u32,
    op: u32,
    timestamp: u32,
    setting: S,
}

impl<S> CompletedRead<S> {
    /// The reader's number.
    #[inline]
    pub fn reader(&self) -> u32 {
        self.reader
    }

    /// The number of the operation.
    #[inline]
    pub fn op(&self) -> u32 {
        self.op
    }

    /// The timestamp of the setting, 0 where none was written.
    #[inline]
    pub fn timestamp(&self) -> u32 {
        self.timestamp
    }

    /// The setting.
    #[inline]
    pub fn setting(&self) -> &S {
        &self.setting
    }
}

/// One writer, its signature scheme, and what is known of the tables.
#[derive(Debug)]
pub struct Cluster<S, P, K> {
    quorums: P,
    scheme: K,
    writer: Client,
    faulty: ReplicaSet,
    sizes: Sizes,
    in_flight: usize,
    noted: usize,
    shut: bool,
    kind: PhantomData<S>,
}

impl<S: Setting, P: QuorumSystem, K: Signatures> Cluster<S, P, K> {
    /// Why a cluster of these would be shut.
    pub fn check(
        quorums: &P,
        scheme: &K,
        faulty: ReplicaSet,
        readers: u32,
        tables: &Tables<'_>,
    ) -> Result<(), Refusal> {
        if !(1..=MOST_READERS).contains(&readers) {
            return Err(Refusal::ReaderCount);
        }
        let sizes = tables.sizes();
        if sizes.replicas != quorums.replicas() as usize
            || sizes.readers != readers as usize
            || !(1..=MOST_MESSAGES).contains(&sizes.messages)
            || !(LEAST_LINES..=MOST_LINES).contains(&sizes.lines)
        {
            return Err(Refusal::TableSize);
        }
        if !quorums.is_fault_set(faulty) {
            return Err(Refusal::NoFaultSet);
        }
        if scheme.entries() != 0 {
            return Err(Refusal::BookInUse);
        }
        Ok(())
    }

    /// A cluster with fresh parties and no messages; where it is refused, a shut one that writes no table.
    pub fn new(quorums: P, scheme: K, faulty: ReplicaSet, readers: u32, tables: &mut Tables<'_>) -> Self {
        let shut = Self::check(&quorums, &scheme, faulty, readers, tables).is_err();
        if !shut {
            tables.replicas.fill(Version::<S>::initial().encoded());
            tables.readers.fill(Reader::fresh::<S>());
        }
        Self {
            quorums,
            scheme,
            writer: Client::fresh::<S>(),
            faulty,
            sizes: tables.sizes(),
            in_flight: 0,
            noted: 0,
            shut,
            kind: PhantomData,
        }
    }

    /// The quorum system.
    #[inline]
    pub fn quorums(&self) -> &P {
        &self.quorums
    }

    /// The signature scheme.
    #[inline]
    pub fn scheme(&self) -> &K {
        &self.scheme
    }

    /// The writer.
    #[inline]
    pub fn writer(&self) -> &Client {
        &self.writer
    }

    /// The faulty replicas.
    #[inline]
    pub fn faulty(&self) -> ReplicaSet {
        self.faulty
    }

    /// Whether every call is refused.
    #[inline]
    pub fn is_shut(&self) -> bool {
        self.shut
    }

    /// The number of messages in flight.
    #[inline]
    pub fn messages_in_flight(&self) -> usize {
        self.in_flight
    }

    /// The number of journal lines in use.
    #[inline]
    pub fn journal_lines(&self) -> usize {
        self.noted
    }

    /// The writer begins a write. Gives its timestamp.
    pub fn write(&mut self, tables: &mut Tables<'_>, setting: &S) -> Result<u32, Refusal> {
        self.check_tables(tables)?;
        let op = self.check_beginning(&self.writer, tables)?;
        let setting = setting.encode();
        let tag = self.scheme.sign(op, &setting).ok_or(Refusal::NotSigned)?;
        self.writer.begin::<S>(Phase::Storing, op);
        let version = Version { timestamp: op, setting, tag };
        self.send(tables, Message::Store { client: WRITER, op, version });
        self.note(tables, Line { kind: kinds::WRITE_BEGUN, client: WRITER, op, timestamp: op });
        Ok(op)
    }

    /// A reader begins a read. Gives the number of the operation.
    pub fn read(&mut self, tables: &mut Tables<'_>, reader: u32) -> Result<u32, Refusal> {
        self.check_tables(tables)?;
        let place = reader_place(tables, reader)?;
        let op = self.check_beginning(&tables.readers[place].client, tables)?;
        tables.readers[place].client.begin::<S>(Phase::Querying, op);
        self.send(tables, Message::Query { client: reader, op });
        self.note(tables, Line { kind: kinds::READ_BEGUN, client: reader, op, timestamp: 0 });
        Ok(op)
    }

    /// Hands a query or store in flight to a replica. It stays in flight.
    pub fn deliver_request(
        &mut self,
        tables: &mut Tables<'_>,
        message: usize,
        replica: u32,
    ) -> Result<Delivery, Refusal> {
        self.check_tables(tables)?;
        let (in_flight, free) = tables.messages.split_at_mut(self.in_flight);
        let message = in_flight.get(message).ok_or(Refusal::NoSuchMessage)?;
        if message.reply_address().is_some() {
            return Err(Refusal::WrongWay);
        }
        self.check_replica(replica)?;
        if self.faulty.contains(replica) {
            return Ok(Delivery::Unanswered);
        }
        let kept = &mut tables.replicas[replica as usize];
        if !replica_step::<S, K>(kept, replica, message, &self.scheme, free.first_mut())? {
            return Ok(Delivery::Unanswered);
        }
        self.in_flight += 1;
        Ok(Delivery::Answered)
    }

    /// Hands a value or acknowledgement in flight to its client. It stays in flight.
    pub fn deliver_reply(&mut self, tables: &mut Tables<'_>, message: usize) -> Result<Reaction, Refusal> {
        self.check_tables(tables)?;
        let has_line = self.has_line(tables);
        let (in_flight, free) = tables.messages.split_at_mut(self.in_flight);
        let message = in_flight.get(message).ok_or(Refusal::NoSuchMessage)?;
        let address = message.reply_address().ok_or(Refusal::WrongWay)?;
        self.check_replica(address.replica)?;
        let client = client_at(&mut self.writer, tables.readers, address.client)?;
        let reaction = match message {
            Message::Value { version, .. } => {
                let version = || version.handed_on::<S>();
                client.hear_value::<S, P, K>(address, version, &self.quorums, &self.scheme, free.first_mut())?
            }
            _ => client.hear_ack(address, &self.quorums, has_line)?,
        };
        self.settle(tables, address, reaction);
        Ok(reaction)
    }

    /// Hands a value or acknowledgement to its client as from a faulty replica, past the messages in flight.
    pub fn forge_reply(&mut self, tables: &mut Tables<'_>, message: &Message<S>) -> Result<Reaction, Refusal> {
        self.check_tables(tables)?;
        let has_line = self.has_line(tables);
        let free = tables.messages.get_mut(self.in_flight);
        let address = message.reply_address().ok_or(Refusal::WrongWay)?;
        self.check_replica(address.replica)?;
        if !self.faulty.contains(address.replica) {
            return Err(Refusal::CorrectReplica);
        }
        let client = client_at(&mut self.writer, tables.readers, address.client)?;
        let reaction = match message {
            Message::Value { version, .. } => {
                let version = || version.encoded();
                client.hear_value::<S, P, K>(address, version, &self.quorums, &self.scheme, free)?
            }
            _ => client.hear_ack(address, &self.quorums, has_line)?,
        };
        self.settle(tables, address, reaction);
        Ok(reaction)
    }

    /// Takes a message out of flight. Later ones move up by one.
    pub fn drop_message(&mut self, tables: &mut Tables<'_>, message: usize) -> Result<(), Refusal> {
        self.check_tables(tables)?;
        if message >= self.in_flight {
            return Err(Refusal::NoSuchMessage);
        }
        tables.messages.copy_within(message + 1..self.in_flight, message);
        self.in_flight -= 1;
        Ok(())
    }

    /// Moves a reader's completed read out.
    pub fn collect(&mut self, tables: &mut Tables<'_>, reader: u32) -> Result<CompletedRead<S>, Refusal> {
        self.check_tables(tables)?;
        let place = reader_place(tables, reader)?;
        let completed = &mut tables.readers[place].completed;
        let read = completed.as_ref().ok_or(Refusal::NothingCompleted)?;
        let setting = S::decode(&read.encoding);
        let read = CompletedRead { reader, op: read.op, timestamp: read.timestamp, setting };
        *completed = None;
        Ok(read)
    }

    #[inline]
    fn check_tables(&self, tables: &Tables<'_>) -> Result<(), Refusal> {
        if self.shut {
            Err(Refusal::Shut)
        } else if tables.sizes() != self.sizes {
            Err(Refusal::TableSize)
        } else {
            Ok(())
        }
    }

    /// The number of the client's next operation, where it can begin.
    #[inline]
    fn check_beginning(&self, client: &Client, tables: &Tables<'_>) -> Result<u32, Refusal> {
        if !client.is_idle() {
            return Err(Refusal::OperationOpen);
        }
        if client.op >= LAST_OP {
            return Err(Refusal::OperationsUsed);
        }
        if !self.has_place(tables) {
            return Err(Refusal::NoPlace);
        }
        let reading = tables.readers.iter().filter(|reader| !reader.client.is_idle()).count();
        let open = reading + usize::from(!self.writer.is_idle());
        if tables.lines.len() - self.noted < open + 2 {
            return Err(Refusal::NoLine);
        }
        Ok(client.op + 1)
    }

    #[inline]
    fn check_replica(&self, replica: u32) -> Result<(), Refusal> {
        if replica < self.quorums.replicas() { Ok(()) } else { Err(Refusal::NoSuchReplica) }
    }

    #[inline]
    fn has_place(&self, tables: &Tables<'_>) -> bool {
        self.in_flight < tables.messages.len()
    }

    #[inline]
    fn has_line(&self, tables: &Tables<'_>) -> bool {
        self.noted < tables.lines.len()
    }

    #[inline]
    fn send(&mut self, tables: &mut Tables<'_>, message: Message<Encoding>) {
        tables.messages[self.in_flight] = message;
        self.in_flight += 1;
    }

    #[inline]
    fn note(&mut self, tables: &mut Tables<'_>, line: Line) {
        tables.lines[self.noted] = line;
        self.noted += 1;
    }

    /// Counts the store of a read that turned, and notes the end of an operation.
    #[inline]
    fn settle(&mut self, tables: &mut Tables<'_>, address: Address, reaction: Reaction) {
        let Address { client, op, .. } = address;
        match reaction {
            Reaction::Heard | Reaction::Ignored => {}
            Reaction::Turned => self.in_flight += 1,
            Reaction::Finished if client == WRITER => {
                self.note(tables, Line { kind: kinds::WRITE_FINISHED, client, op, timestamp: op });
            }
            Reaction::Finished => {
                let reader = &mut tables.readers[client as usize - 1];
                let Version { timestamp, setting: encoding, .. } = reader.client.take_best::<S>();
                reader.completed = Some(ReadRecord { op, timestamp, encoding });
                self.note(tables, Line { kind: kinds::READ_FINISHED, client, op, timestamp });
            }
        }
    }
}

/// The row of a reader, where there is such a reader.
#[inline]
fn reader_place(tables: &Tables<'_>, reader: u32) -> Result<usize, Refusal> {
    match (reader as usize).checked_sub(1) {
        Some(place) if place < tables.readers.len() => Ok(place),
        _ => Err(Refusal::NoSuchClient),
    }
}

/// The client with this number, where there is one.
#[inline]
fn client_at<'a>(writer: &'a mut Client, readers: &'a mut [Reader], number: u32) -> Result<&'a mut Client, Refusal> {
    match (number as usize).checked_sub(1) {
        None => Ok(writer),
        Some(place) => readers.get_mut(place).map(|reader| &mut reader.client).ok_or(Refusal::NoSuchClient),
    }
}

#[cfg(test)]
mod tests {
    use super::*;
    use crate::quorums::Threshold;
    use crate::settings::ShelfMark;
    use crate::signatures::{InlineSigner, Ledger};

    type Four = Cluster<ShelfMark, Threshold, Ledger>;

    /// The memory of four tables.
    #[derive(Clone, Debug, PartialEq)]
    struct Rows {
        replicas: Vec<Version<Encoding>>,
        readers: Vec<Reader>,
        messages: Vec<Message<Encoding>>,
        lines: Vec<Line>,
    }

    impl Rows {
        fn new(replicas: usize, readers: usize, messages: usize, lines: usize) -> Self {
            let version = Version { timestamp: 7, setting: [0; 32], tag: 7 };
            let client = Client { phase: Phase::Storing, op: 3, heard: ReplicaSet::empty(), best: version };
            Self {
                replicas: vec![version; replicas],
                readers: vec![Reader { client, completed: None }; readers],
                messages: vec![Message::Query { client: 9, op: 9 }; messages],
                lines: vec![Line { kind: 9, client: 9, op: 9, timestamp: 9 }; lines],
            }
        }

        fn tables(&mut self) -> Tables<'_> {
            Tables {
                replicas: &mut self.replicas,
                readers: &mut self.readers,
                messages: &mut self.messages,
                lines: &mut self.lines,
            }
        }
    }

    fn mark(text: &str) -> ShelfMark {
        ShelfMark::from_text(text).unwrap()
    }

    fn ledger(slots: usize) -> Ledger {
        Ledger::new(Vec::with_capacity(slots))
    }

    fn set(mask: u32) -> ReplicaSet {
        ReplicaSet::of_bits(mask)
    }

    /// Four replicas, the last of them faulty, and two readers.
    fn four(places: usize, lines: usize, slots: usize) -> (Four, Rows) {
        let mut rows = Rows::new(4, 2, places, lines);
        let cluster = Cluster::new(Threshold::new(4, 1), ledger(slots), set(0b1000), 2, &mut rows.tables());
        assert!(!cluster.is_shut());
        (cluster, rows)
    }

    /// Makes a call that is refused, and looks whether anything changed.
    fn refused<A>(
        cluster: &mut Four,
        rows: &mut Rows,
        call: impl FnOnce(&mut Four, &mut Tables<'_>) -> Result<A, Refusal>,
    ) -> u32 {
        let (rows_before, before) = (rows.clone(), format!("{cluster:?}"));
        let refusal = call(cluster, &mut rows.tables()).err().expect("a refusal");
        assert_eq!(*rows, rows_before);
        assert_eq!(format!("{cluster:?}"), before);
        refusal.number()
    }

    #[test]
    fn write_and_read_go_through() {
        let (mut cluster, mut rows) = four(32, 16, 4);
        let initial = Version::<ShelfMark>::initial().encoded();
        assert_eq!(rows.replicas, [initial; 4]);
        assert_eq!(rows.readers, [Reader::fresh::<ShelfMark>(); 2]);
        let tables = &mut rows.tables();
        assert_eq!(cluster.write(tables, &mark("A7")), Ok(1));
        for replica in 0..4 {
            let delivery = if replica < 3 { Delivery::Answered } else { Delivery::Unanswered };
            assert_eq!(cluster.deliver_request(tables, 0, replica), Ok(delivery));
        }
        assert_eq!(cluster.messages_in_flight(), 4);
        assert_eq!(cluster.deliver_reply(tables, 1), Ok(Reaction::Heard));
        assert_eq!(cluster.deliver_reply(tables, 1), Ok(Reaction::Ignored));
        assert_eq!(cluster.deliver_reply(tables, 2), Ok(Reaction::Heard));
        assert_eq!(cluster.deliver_reply(tables, 3), Ok(Reaction::Finished));
        assert!(cluster.writer().is_idle());
        while cluster.messages_in_flight() > 0 {
            assert_eq!(cluster.drop_message(tables, 0), Ok(()));
        }
        assert_eq!(cluster.read(tables, 2), Ok(1));
        for replica in 0..2 {
            assert_eq!(cluster.deliver_request(tables, 0, replica), Ok(Delivery::Answered));
            assert_eq!(cluster.deliver_reply(tables, 1 + replica as usize), Ok(Reaction::Heard));
        }
        let version = Version { timestamp: 2, setting: mark("B8"), tag: 1 };
        let forged = Message::Value { replica: 3, client: 2, op: 1, version };
        assert_eq!(cluster.forge_reply(tables, &forged), Ok(Reaction::Ignored));
        let old = Message::Value { replica: 3, client: 2, op: 1, version: Version::initial() };
        assert_eq!(cluster.forge_reply(tables, &old), Ok(Reaction::Turned));
        let written = Version { timestamp: 1, setting: mark("A7").encode(), tag: 0 };
        assert_eq!(tables.messages[3], Message::Store { client: 2, op: 1, version: written });
        for replica in 0..3 {
            assert_eq!(cluster.deliver_request(tables, 3, replica), Ok(Delivery::Answered));
            let hearing = if replica < 2 { Reaction::Heard } else { Reaction::Finished };
            assert_eq!(cluster.deliver_reply(tables, 4 + replica as usize), Ok(hearing));
        }
        let read = cluster.collect(tables, 2).unwrap();
        assert_eq!((read.reader(), read.op(), read.timestamp(), read.setting().text()), (2, 1, 1, "A7"));
        assert_eq!(tables.readers[1].client, Client { op: 1, ..Client::fresh::<ShelfMark>() });
        let lines = [(1, 0, 1, 1), (2, 0, 1, 1), (3, 2, 1, 0), (4, 2, 1, 1)];
        let lines = lines.map(|(kind, client, op, timestamp)| Line { kind, client, op, timestamp });
        assert_eq!(tables.lines[..cluster.journal_lines()], lines);
    }

    #[test]
    fn making_refusals() {
        let check = |readers: u32, sizes: [usize; 4], faulty, signed: bool| {
            let mut rows = Rows::new(sizes[0], sizes[1], sizes[2], sizes[3]);
            let mut scheme = InlineSigner::new(0);
            if signed {
                scheme.sign(1, &[0; 32]);
            }
            let (quorums, faulty) = (Threshold::new(4, 1), set(faulty));
            let check = Cluster::<ShelfMark, _, _>::check(&quorums, &scheme, faulty, readers, &rows.tables());
            let before = rows.clone();
            let cluster = Cluster::<ShelfMark, _, _>::new(quorums, scheme, faulty, readers, &mut rows.tables());
            assert_eq!(cluster.is_shut(), check.is_err());
            assert_eq!(rows == before, check.is_err());
            check.err().map(Refusal::number)
        };
        let good = [4, 2, 8, 8];
        assert_eq!(check(2, good, 0b1, false), None);
        assert_eq!(check(0, [4, 0, 8, 8], 0, false), Some(4));
        assert_eq!(check(8, [4, 8, 8, 8], 0, false), None);
        assert_eq!(check(9, [5, 9, 0, 0], 0b11, true), Some(4));
        for sizes in [[3, 2, 8, 8], [5, 2, 8, 8], [4, 1, 8, 8], [4, 3, 8, 8], [4, 2, 0, 8], [4, 2, 4_097, 8]] {
            assert_eq!(check(2, sizes, 0b11, true), Some(5));
        }
        assert_eq!(check(2, [4, 2, 8, 1], 0b11, true), Some(5));
        assert_eq!(check(2, [4, 2, 8, 8_193], 0b11, true), Some(5));
        assert_eq!(check(2, [4, 2, 4_096, 8_192], 0, false), None);
        assert_eq!(check(2, [4, 2, 1, 2], 0, false), None);
        assert_eq!(check(2, good, 0b11, true), Some(6));
        assert_eq!(check(2, good, 0b1_0000, true), Some(6));
        assert_eq!(check(2, good, 0b1, true), Some(7));
    }

    #[test]
    fn shut_and_changed_sizes() {
        let mut rows = Rows::new(4, 2, 8, 8);
        let mut shut = Cluster::new(Threshold::new(4, 1), ledger(4), set(0b11), 2, &mut rows.tables());
        assert_eq!(refused(&mut shut, &mut rows, |c, t| c.write(t, &mark("a"))), 8);
        rows.lines.pop();
        assert_eq!(refused(&mut shut, &mut rows, |c, t| c.collect(t, 9)), 8);

        let (mut cluster, rows) = four(8, 8, 4);
        for table in 0..4 {
            let mut rows = rows.clone();
            match table {
                0 => drop(rows.replicas.pop()),
                1 => drop(rows.readers.pop()),
                2 => drop(rows.messages.pop()),
                _ => drop(rows.lines.pop()),
            }
            let query = Message::Query { client: 9, op: 9 };
            assert_eq!(refused(&mut cluster, &mut rows, |c, t| c.write(t, &mark("a"))), 5);
            assert_eq!(refused(&mut cluster, &mut rows, |c, t| c.read(t, 9)), 5);
            assert_eq!(refused(&mut cluster, &mut rows, |c, t| c.deliver_request(t, 9, 9)), 5);
            assert_eq!(refused(&mut cluster, &mut rows, |c, t| c.deliver_reply(t, 9)), 5);
            assert_eq!(refused(&mut cluster, &mut rows, |c, t| c.forge_reply(t, &query)), 5);
            assert_eq!(refused(&mut cluster, &mut rows, |c, t| c.drop_message(t, 9)), 5);
            assert_eq!(refused(&mut cluster, &mut rows, |c, t| c.collect(t, 9)), 5);
        }
    }

    #[test]
    fn beginning_refusals() {
        let (mut cluster, mut rows) = four(2, 4, 1);
        let read = |reader| move |c: &mut Four, t: &mut Tables<'_>| c.read(t, reader);
        let write = |c: &mut Four, t: &mut Tables<'_>| c.write(t, &mark("a"));
        for reader in [0, 3, u32::MAX] {
            assert_eq!(refused(&mut cluster, &mut rows, read(reader)), 9);
        }
        rows.readers[0].client.op = 65_535;
        assert_eq!(refused(&mut cluster, &mut rows, read(1)), 11);
        rows.readers[0].client.phase = Phase::Storing;
        assert_eq!(refused(&mut cluster, &mut rows, read(1)), 10);
        rows.readers[0].client = Client { op: 65_534, ..Client::fresh::<ShelfMark>() };
        assert_eq!(cluster.read(&mut rows.tables(), 1), Ok(65_535));
        // Three lines are left: one for the end of the open read, and two for a write.
        assert_eq!(cluster.write(&mut rows.tables(), &mark("a")), Ok(1));
        assert_eq!(refused(&mut cluster, &mut rows, write), 10);
        assert_eq!(refused(&mut cluster, &mut rows, read(1)), 10);
        assert_eq!(refused(&mut cluster, &mut rows, read(2)), 12);
        assert_eq!(cluster.drop_message(&mut rows.tables(), 0), Ok(()));
        assert_eq!(refused(&mut cluster, &mut rows, read(2)), 13);
        // The scheme has no slot for a second write.
        let (mut cluster, mut rows) = four(8, 4, 0);
        assert_eq!(refused(&mut cluster, &mut rows, write), 14);
        rows.readers[0].client.phase = Phase::Querying;
        rows.readers[1].client.phase = Phase::Storing;
        assert_eq!(refused(&mut cluster, &mut rows, write), 14);
        let (mut cluster, mut rows) = four(8, 3, 0);
        rows.readers[0].client.phase = Phase::Querying;
        rows.readers[1].client.phase = Phase::Storing;
        assert_eq!(refused(&mut cluster, &mut rows, write), 13);
    }

    #[test]
    fn delivery_refusals() {
        let (mut cluster, mut rows) = four(2, 8, 4);
        let deliver = |message, replica| move |c: &mut Four, t: &mut Tables<'_>| c.deliver_request(t, message, replica);
        assert_eq!(refused(&mut cluster, &mut rows, deliver(0, 9)), 15);
        cluster.read(&mut rows.tables(), 1).unwrap();
        cluster.deliver_request(&mut rows.tables(), 0, 0).unwrap();
        assert_eq!(refused(&mut cluster, &mut rows, deliver(2, 0)), 15);
        assert_eq!(refused(&mut cluster, &mut rows, deliver(1, 9)), 16);
        assert_eq!(refused(&mut cluster, &mut rows, deliver(0, 4)), 17);
        assert_eq!(refused(&mut cluster, &mut rows, deliver(0, 1)), 12);
        assert_eq!(cluster.deliver_request(&mut rows.tables(), 0, 3), Ok(Delivery::Unanswered));
        let version = Version { timestamp: 1, setting: mark("a").encode(), tag: 0 };
        rows.messages[0] = Message::Store { client: 1, op: 1, version };
        assert_eq!(cluster.deliver_request(&mut rows.tables(), 0, 1), Ok(Delivery::Unanswered));
        let version = Version { timestamp: 0, setting: [0; 32], tag: 0 };
        rows.messages[0] = Message::Store { client: 1, op: 1, version };
        assert_eq!(refused(&mut cluster, &mut rows, deliver(0, 1)), 12);
    }

    #[test]
    fn reply_refusals() {
        let (mut cluster, mut rows) = four(2, 2, 4);
        let deliver = |c: &mut Four, t: &mut Tables<'_>| c.deliver_reply(t, 1);
        cluster.read(&mut rows.tables(), 1).unwrap();
        assert_eq!(refused(&mut cluster, &mut rows, deliver), 15);
        assert_eq!(refused(&mut cluster, &mut rows, |c, t| c.deliver_reply(t, 0)), 16);
        cluster.deliver_request(&mut rows.tables(), 0, 0).unwrap();
        rows.messages[1] = Message::Ack { replica: 4, client: 3, op: 1 };
        assert_eq!(refused(&mut cluster, &mut rows, deliver), 17);
        rows.messages[1] = Message::Ack { replica: 0, client: 3, op: 1 };
        assert_eq!(refused(&mut cluster, &mut rows, deliver), 9);
        rows.readers[0].client.heard = set(0b110);
        let version = Version::<ShelfMark>::initial().encoded();
        rows.messages[1] = Message::Value { replica: 0, client: 1, op: 1, version };
        assert_eq!(refused(&mut cluster, &mut rows, deliver), 12);
        rows.readers[0].client.phase = Phase::Storing;
        rows.messages[1] = Message::Ack { replica: 0, client: 1, op: 1 };
        rows.readers[1] = rows.readers[0];
        assert_eq!(cluster.deliver_reply(&mut rows.tables(), 1), Ok(Reaction::Finished));
        rows.messages[1] = Message::Ack { replica: 0, client: 2, op: 1 };
        assert_eq!(refused(&mut cluster, &mut rows, deliver), 13);
        // Replicas that there are not, marked as heard, are never part of a quorum.
        rows.readers[1].client.heard = set(0b1_0110);
        assert_eq!(cluster.deliver_reply(&mut rows.tables(), 1), Ok(Reaction::Heard));
    }

    #[test]
    fn forging_refusals() {
        let (mut cluster, mut rows) = four(1, 2, 4);
        let forge = |message| move |c: &mut Four, t: &mut Tables<'_>| c.forge_reply(t, &message);
        let ack = |replica, client| Message::Ack { replica, client, op: 1 };
        let value = |replica, client| Message::Value { replica, client, op: 1, version: Version::initial() };
        let store = Message::Store { client: 9, op: 1, version: Version::initial() };
        assert_eq!(refused(&mut cluster, &mut rows, forge(store)), 16);
        assert_eq!(refused(&mut cluster, &mut rows, forge(ack(4, 9))), 17);
        assert_eq!(refused(&mut cluster, &mut rows, forge(ack(2, 9))), 18);
        assert_eq!(refused(&mut cluster, &mut rows, forge(value(3, 3))), 9);
        cluster.read(&mut rows.tables(), 1).unwrap();
        rows.readers[0].client.heard = set(0b110);
        assert_eq!(refused(&mut cluster, &mut rows, forge(value(3, 1))), 12);
        rows.readers[0].client.phase = Phase::Storing;
        rows.readers[1] = rows.readers[0];
        assert_eq!(cluster.forge_reply(&mut rows.tables(), &ack(3, 1)), Ok(Reaction::Finished));
        assert_eq!(refused(&mut cluster, &mut rows, forge(ack(3, 2))), 13);
        assert_eq!(cluster.forge_reply(&mut rows.tables(), &ack(3, 0)), Ok(Reaction::Ignored));
    }

    #[test]
    fn dropping_and_collecting() {
        let (mut cluster, mut rows) = four(4, 8, 4);
        for reader in [0, 3] {
            assert_eq!(refused(&mut cluster, &mut rows, |c, t| c.collect(t, reader)), 9);
        }
        assert_eq!(refused(&mut cluster, &mut rows, |c, t| c.collect(t, 1)), 19);
        rows.readers[1].completed = Some(ReadRecord { op: 5, timestamp: 6, encoding: [0; 32] });
        let read = cluster.collect(&mut rows.tables(), 2).unwrap();
        assert_eq!((read.reader(), read.op(), read.timestamp(), *read.setting()), (2, 5, 6, ShelfMark::initial()));
        assert_eq!(refused(&mut cluster, &mut rows, |c, t| c.collect(t, 2)), 19);

        assert_eq!(refused(&mut cluster, &mut rows, |c, t| c.drop_message(t, 0)), 15);
        cluster.read(&mut rows.tables(), 1).unwrap();
        for replica in 0..3 {
            cluster.deliver_request(&mut rows.tables(), 0, replica).unwrap();
        }
        let before = rows.messages.clone();
        cluster.drop_message(&mut rows.tables(), 1).unwrap();
        assert_eq!(rows.messages[..3], [before[0], before[2], before[3]]);
        assert_eq!(refused(&mut cluster, &mut rows, |c, t| c.drop_message(t, 3)), 15);
    }
}
