//! Stress runs: clusters under random calls and an adversary, told by digests.

use std::io::{self, Write};

use crate::alignment::AlignmentRun;
use crate::cluster::{
    Cluster, CompletedRead, Delivery, Line, MOST_LINES, MOST_MESSAGES, ReadRecord, Reader, Refusal, Tables,
};
use crate::generator::{Digest, Generator};
use crate::protocol::{Client, Message, Phase, Reaction, Version, WRITER};
use crate::quorums::{FailProne, MOST_SETS, Nested, QuorumRefusal, QuorumSystem, Threshold};
use crate::replica_set::ReplicaSet;
use crate::settings::{Encoding, LensCorrection, Setting, ShelfMark, bytes_of, words_of};
use crate::signatures::{InlineSigner, Ledger, Signatures};

/// The calls of a round.
const CALLS: u32 = 256;

/// A snapshot is mixed after each call whose number this divides.
const SNAPSHOT_INTERVAL: u32 = 32;

/// The answers that are counted, in the order in which they are printed.
#[derive(Clone, Copy, Debug)]
enum Answer {
    Written,
    Reading,
    Answered,
    Unanswered,
    Heard,
    Ignored,
    Turned,
    Finished,
    Dropped,
    Collected,
    Noted,
    Closed,
}

const ANSWERS: [&str; 12] = [
    "written",
    "reading",
    "answered",
    "unanswered",
    "heard",
    "ignored",
    "turned",
    "finished",
    "dropped",
    "collected",
    "noted",
    "closed",
];

/// How often each answer and each refusal came.
#[derive(Debug)]
struct Counts {
    answers: [u64; ANSWERS.len()],
    refusals: [u64; 31],
}

impl Counts {
    fn print(&self, out: &mut dyn Write) -> io::Result<()> {
        for (name, count) in ANSWERS.iter().zip(self.answers) {
            writeln!(out, "answer {name} {count}")?;
        }
        for number in (1..=19).chain(29..=30) {
            writeln!(out, "refusal {number} {}", self.refusals[number])?;
        }
        Ok(())
    }
}

/// Does a whole stress run and prints its lines.
pub fn run(seed: u64, rounds: u64, interval: u64, out: &mut dyn Write) -> io::Result<()> {
    let mut run = Run {
        generator: Generator::new(seed),
        digest: Digest::new(),
        counts: Counts { answers: [0; ANSWERS.len()], refusals: [0; 31] },
        calls_of: None,
        out,
    };
    for round in 1..=rounds {
        run.calls_of = (interval == 0).then_some(round);
        run.round()?;
        if interval == 0 || round % interval == 0 || round == rounds {
            writeln!(run.out, "round {round} digest {:016x}", run.digest.value())?;
        }
    }
    run.counts.print(run.out)?;
    run.out.flush()
}

/// What lasts through all rounds.
struct Run<'o> {
    generator: Generator,
    digest: Digest,
    counts: Counts,
    /// The round's number, where a line is printed for each call.
    calls_of: Option<u64>,
    out: &'o mut dyn Write,
}

/// Random values.
impl Generator {
    fn bytes(&mut self) -> Encoding {
        match self.below(4) {
            0 => bytes_of([(); 8].map(|()| self.word())),
            1 => {
                let mut bytes = [0; 32];
                let len = 1 + self.place(32);
                bytes[..len].fill_with(|| 33 + self.below(94) as u8);
                bytes
            }
            2 => {
                let mut words = [0; 8];
                words[0] = self.below(66);
                words[1..6].fill_with(|| self.below(2_000_000_003).wrapping_sub(1_000_000_001));
                words[6..].fill_with(|| self.below(200_000_003).wrapping_sub(100_000_001));
                bytes_of(words)
            }
            _ => bytes_of([(); 8].map(|()| self.below(3))),
        }
    }

    fn setting<S: Setting>(&mut self) -> S {
        S::decode(&self.bytes())
    }

    fn row(&mut self) -> Version<Encoding> {
        let timestamp = self.below(5);
        let setting = self.bytes();
        let tag = self.below(5);
        Version { timestamp, setting, tag }
    }

    fn reader_number(&mut self, rows: usize) -> u32 {
        if self.chance(16) { self.below(11) } else { 1 + self.below((rows as u32).max(1)) }
    }

    fn message_row(&mut self) -> Message<Encoding> {
        let kind = self.below(4);
        let replica = self.below(34);
        let client = self.below(11);
        let op = self.below(4);
        match kind {
            0 => Message::Query { client, op },
            1 => Message::Store { client, op, version: self.row() },
            2 => Message::Value { replica, client, op, version: self.row() },
            _ => Message::Ack { replica, client, op },
        }
    }

    fn reader_row(&mut self, replicas: u32) -> Reader {
        let phase = match self.below(3) {
            0 => Phase::Idle,
            1 => Phase::Querying,
            _ => Phase::Storing,
        };
        let op = match self.below(4) {
            0 => 0,
            1 => 65_534,
            2 => 65_535,
            _ => self.below(65_536),
        };
        let mask = ReplicaSet::of_bits(self.mask());
        let heard = if self.chance(4) { mask } else { mask.intersection(ReplicaSet::first(replicas)) };
        let best = self.row();
        let completed = if self.chance(2) {
            None
        } else {
            let op = self.below(65_536);
            let timestamp = self.below(5);
            let encoding = self.bytes();
            Some(ReadRecord { op, timestamp, encoding })
        };
        Reader { client: Client { phase, op, heard, best }, completed }
    }

    fn line(&mut self) -> Line {
        let kind = self.word();
        let client = self.word();
        let op = self.word();
        let timestamp = self.word();
        Line { kind, client, op, timestamp }
    }

    fn version<S: Setting>(&mut self, replicas: &[Version<Encoding>]) -> Version<S> {
        match self.below(4) {
            0 => Version::initial(),
            1 => {
                let timestamp = self.below(5);
                let setting = self.setting();
                let tag = self.below(5);
                Version { timestamp, setting, tag }
            }
            2 => replicas[self.place(replicas.len())].decoded(),
            _ => {
                let version = replicas[self.place(replicas.len())].decoded();
                Version { timestamp: version.timestamp.wrapping_add(1), ..version }
            }
        }
    }
}

/// What is mixed for the parts of a snapshot.
impl Digest {
    fn mix_all<const N: usize>(&mut self, numbers: [u32; N]) {
        for number in numbers {
            self.mix(number);
        }
    }

    fn mix_encoding(&mut self, encoding: &Encoding) {
        self.mix_all(words_of(encoding));
    }

    fn mix_version(&mut self, version: &Version<Encoding>) {
        self.mix(version.timestamp);
        self.mix_encoding(&version.setting);
        self.mix(version.tag);
    }

    fn mix_client(&mut self, client: &Client) {
        self.mix_all([client.phase as u32, client.op, client.heard.bits()]);
        self.mix_version(&client.best);
    }

    fn mix_reader(&mut self, reader: &Reader) {
        self.mix_client(&reader.client);
        match &reader.completed {
            None => self.mix(0),
            Some(read) => {
                self.mix_all([1, read.op, read.timestamp]);
                self.mix_encoding(&read.encoding);
            }
        }
    }

    fn mix_message(&mut self, message: &Message<Encoding>) {
        match *message {
            Message::Query { client, op } => self.mix_all([1, client, op]),
            Message::Store { client, op, ref version } => {
                self.mix_all([2, client, op]);
                self.mix_version(version);
            }
            Message::Value { replica, client, op, ref version } => {
                self.mix_all([3, replica, client, op]);
                self.mix_version(version);
            }
            Message::Ack { replica, client, op } => self.mix_all([4, replica, client, op]),
        }
    }

    fn mix_line(&mut self, line: &Line) {
        self.mix_all([line.kind, line.client, line.op, line.timestamp]);
    }
}

impl Run<'_> {
    fn count(&mut self, answer: Answer) {
        self.counts.answers[answer as usize] += 1;
    }

    /// Mixes a refusal's number and counts it.
    fn refuse(&mut self, number: u32) {
        self.digest.mix(number);
        self.counts.refusals[number as usize] += 1;
    }

    /// Mixes 0, or a refusal's number, which is counted.
    fn checked(&mut self, refusal: Option<u32>) {
        match refusal {
            None => self.digest.mix(0),
            Some(number) => self.refuse(number),
        }
    }

    fn check_quorums(&mut self, check: Result<(), QuorumRefusal>) {
        self.checked(check.err().map(QuorumRefusal::number));
    }

    fn round(&mut self) -> io::Result<()> {
        match self.generator.below(2) {
            0 => self.round_of_kind::<ShelfMark>(),
            _ => self.round_of_kind::<LensCorrection>(),
        }
    }

    fn round_of_kind<S: Setting>(&mut self) -> io::Result<()> {
        match self.generator.below(4) {
            0 => {
                let n = self.generator.below(34);
                let f = self.generator.below(n / 3 + 1);
                let quorums = self.threshold(n, f);
                self.round_of_quorums::<S, _>(quorums)
            }
            1 => {
                let n = 1 + self.generator.below(5);
                let f = self.generator.below(n / 3 + 1);
                let quorums = self.threshold(n, f);
                self.round_of_quorums::<S, _>(quorums)
            }
            2 => {
                let quorums = self.listed();
                self.round_of_quorums::<S, _>(quorums)
            }
            _ => {
                let quorums = self.groups();
                self.round_of_quorums::<S, _>(quorums)
            }
        }
    }

    fn threshold(&mut self, n: u32, f: u32) -> Threshold {
        self.check_quorums(Threshold::check(n, f));
        Threshold::new(n, f)
    }

    fn listed(&mut self) -> FailProne {
        let generator = &mut self.generator;
        let n = generator.below(34);
        let count = if generator.chance(16) { MOST_SETS + 1 } else { generator.place(5) };
        let mut sets = [ReplicaSet::empty(); MOST_SETS + 1];
        let sets = &mut sets[..count];
        sets.fill_with(|| {
            let mask = generator.mask();
            let set = ReplicaSet::of_bits(mask & generator.word());
            if generator.chance(8) { set } else { set.intersection(ReplicaSet::first(n)) }
        });
        self.check_quorums(FailProne::check(n, sets));
        FailProne::new(n, sets)
    }

    fn groups(&mut self) -> Nested<Threshold, Threshold> {
        let outer = (1 + self.generator.below(5), self.generator.below(2));
        let inner = (1 + self.generator.below(8), self.generator.below(3));
        let outer = self.threshold(outer.0, outer.1);
        let inner = self.threshold(inner.0, inner.1);
        self.check_quorums(Nested::check(&outer, &inner));
        Nested::new(outer, inner)
    }

    fn round_of_quorums<S: Setting, P: QuorumSystem>(&mut self, quorums: P) -> io::Result<()> {
        match self.generator.below(2) {
            0 => {
                let slots = self.generator.place(65);
                self.round_of_scheme::<S, P, _>(quorums, Ledger::new(Vec::with_capacity(slots)))
            }
            _ => {
                let start = self.generator.word();
                self.round_of_scheme::<S, P, _>(quorums, InlineSigner::new(start))
            }
        }
    }

    fn round_of_scheme<S: Setting, P: QuorumSystem, K: Signatures>(
        &mut self,
        quorums: P,
        mut scheme: K,
    ) -> io::Result<()> {
        let generator = &mut self.generator;
        let readers = if generator.chance(8) { generator.below(11) } else { 1 + generator.below(8) };
        let mut rows = Rows::draw(generator, quorums.replicas(), readers);
        let faulty = draw_faulty(generator, &quorums);
        if generator.chance(32) {
            let timestamp = 1 + generator.below(3);
            let encoding = generator.bytes();
            match scheme.sign(timestamp, &encoding) {
                None => self.digest.mix(0),
                Some(tag) => self.digest.mix_all([1, tag]),
            }
        }
        let mut tables = rows.tables(None);
        let check = Cluster::<S, P, K>::check(&quorums, &scheme, faulty, readers, &tables);
        let cluster = Cluster::new(quorums, scheme, faulty, readers, &mut tables);
        self.checked(check.err().map(|refusal| refusal.number()));
        Round::<S, P, K> { run: self, cluster, rows }.calls()
    }
}

/// The faulty replicas of a round.
fn draw_faulty(generator: &mut Generator, quorums: &impl QuorumSystem) -> ReplicaSet {
    let drawn = ReplicaSet::of_bits(generator.mask());
    let mut faulty = drawn.intersection(ReplicaSet::first(quorums.replicas()));
    for _ in 0..3 {
        if !quorums.is_fault_set(faulty) {
            faulty = faulty.intersection(ReplicaSet::of_bits(generator.word()));
        }
    }
    if !quorums.is_fault_set(faulty) && !generator.chance(2) {
        faulty = ReplicaSet::empty();
    }
    faulty
}

/// A table, as the adversary picks one.
#[derive(Clone, Copy, Debug, PartialEq, Eq)]
enum Table {
    Replicas,
    Readers,
    Messages,
    Lines,
}

impl Table {
    fn draw(generator: &mut Generator) -> Self {
        match generator.below(4) {
            0 => Self::Replicas,
            1 => Self::Readers,
            2 => Self::Messages,
            _ => Self::Lines,
        }
    }
}

/// The memory of the tables.
#[derive(Debug)]
struct Rows {
    replicas: Vec<Version<Encoding>>,
    readers: Vec<Reader>,
    messages: Vec<Message<Encoding>>,
    lines: Vec<Line>,
}

impl Rows {
    fn draw(generator: &mut Generator, replicas: u32, readers: u32) -> Self {
        let mut replicas = replicas as usize;
        let mut readers = readers as usize;
        let mut messages = 1 + if generator.chance(8) { generator.place(4_096) } else { generator.place(64) };
        let mut lines = 2 + generator.place(126);
        if generator.chance(16) {
            match Table::draw(generator) {
                Table::Replicas => replicas += 1,
                Table::Readers => readers += 1,
                Table::Messages => messages = if generator.chance(2) { 0 } else { MOST_MESSAGES + 1 },
                Table::Lines => lines = if generator.chance(2) { 1 } else { MOST_LINES + 1 },
            }
        }
        let version = |number| Version { timestamp: number, setting: [0; 32], tag: number };
        let client = Client { phase: Phase::Idle, op: 3, heard: ReplicaSet::empty(), best: version(0) };
        Self {
            replicas: vec![version(7); replicas],
            readers: vec![Reader { client, completed: None }; readers],
            messages: vec![Message::Query { client: 0, op: 0 }; messages],
            lines: vec![Line::default(); lines],
        }
    }

    /// The tables, of which one may lack its last row.
    fn tables(&mut self, short: Option<Table>) -> Tables<'_> {
        let rows = |table, len: usize| if short == Some(table) { len.saturating_sub(1) } else { len };
        let replicas = rows(Table::Replicas, self.replicas.len());
        let readers = rows(Table::Readers, self.readers.len());
        let messages = rows(Table::Messages, self.messages.len());
        let lines = rows(Table::Lines, self.lines.len());
        Tables {
            replicas: &mut self.replicas[..replicas],
            readers: &mut self.readers[..readers],
            messages: &mut self.messages[..messages],
            lines: &mut self.lines[..lines],
        }
    }
}

/// A round after its making.
struct Round<'r, 'o, S, P, K> {
    run: &'r mut Run<'o>,
    cluster: Cluster<S, P, K>,
    rows: Rows,
}

impl<S: Setting, P: QuorumSystem, K: Signatures> Round<'_, '_, S, P, K> {
    fn calls(mut self) -> io::Result<()> {
        for number in 1..=CALLS {
            self.call();
            if number % SNAPSHOT_INTERVAL == 0 {
                self.snapshot();
            }
            if let Some(round) = self.run.calls_of {
                writeln!(self.run.out, "round {round} call {number} digest {:016x}", self.run.digest.value())?;
            }
        }
        Ok(())
    }

    fn snapshot(&mut self) {
        let Self { run, cluster, rows } = self;
        let digest = &mut run.digest;
        let (in_flight, noted) = (cluster.messages_in_flight(), cluster.journal_lines());
        digest.mix_all([u32::from(cluster.is_shut()), cluster.faulty().bits()]);
        digest.mix_client(cluster.writer());
        digest.mix_all([in_flight as u32, noted as u32]);
        let scheme = cluster.scheme();
        digest.mix_all([scheme.entries() as u32, scheme.latest(), scheme.free() as u32]);
        rows.replicas.iter().for_each(|version| digest.mix_version(version));
        rows.readers.iter().for_each(|reader| digest.mix_reader(reader));
        rows.messages[..in_flight].iter().for_each(|message| digest.mix_message(message));
        rows.lines[..noted].iter().for_each(|line| digest.mix_line(line));
    }

    fn call(&mut self) {
        if self.run.generator.chance(16) {
            self.scribble();
        }
        let generator = &mut self.run.generator;
        let short = if generator.chance(64) { Some(Table::draw(generator)) } else { None };
        match generator.below(32) {
            0..=1 => self.write(short),
            2..=5 => self.read(short),
            6..=14 => self.deliver_request(short),
            15..=23 => self.deliver_reply(short),
            24..=26 => self.forge_reply(short),
            27..=29 => self.drop_message(short),
            _ => self.collect(short),
        }
    }

    /// Overwrites a row of a table.
    fn scribble(&mut self) {
        let Self { run, cluster, rows } = self;
        let generator = &mut run.generator;
        match Table::draw(generator) {
            Table::Replicas => scribble_on(generator, &mut rows.replicas, Generator::row),
            Table::Readers => {
                let replicas = cluster.quorums().replicas();
                scribble_on(generator, &mut rows.readers, |generator| generator.reader_row(replicas));
            }
            Table::Messages => {
                let in_flight = &mut rows.messages[..cluster.messages_in_flight()];
                scribble_on(generator, in_flight, Generator::message_row);
            }
            Table::Lines => scribble_on(generator, &mut rows.lines[..cluster.journal_lines()], Generator::line),
        }
    }

    /// Mixes a call's code and whether it is refused, and counts a refusal. Gives the answer of an accepted call.
    fn answer<A>(&mut self, code: u32, result: Result<A, Refusal>) -> Option<A> {
        let run = &mut self.run;
        run.digest.mix(code);
        match result {
            Ok(answer) => {
                run.digest.mix(1);
                Some(answer)
            }
            Err(refusal) => {
                run.digest.mix(0);
                run.refuse(refusal.number());
                None
            }
        }
    }

    fn message_number(&mut self) -> usize {
        self.run.generator.place(self.cluster.messages_in_flight() + 1)
    }

    fn reader_number(&mut self) -> u32 {
        self.run.generator.reader_number(self.rows.readers.len())
    }

    fn write(&mut self, short: Option<Table>) {
        let setting = self.run.generator.setting();
        let result = self.cluster.write(&mut self.rows.tables(short), &setting);
        if let Some(timestamp) = self.answer(1, result) {
            self.run.count(Answer::Written);
            self.run.digest.mix(timestamp);
        }
    }

    fn read(&mut self, short: Option<Table>) {
        let reader = self.reader_number();
        let result = self.cluster.read(&mut self.rows.tables(short), reader);
        if let Some(op) = self.answer(2, result) {
            self.run.count(Answer::Reading);
            self.run.digest.mix(op);
        }
    }

    fn deliver_request(&mut self, short: Option<Table>) {
        let message = self.message_number();
        let generator = &mut self.run.generator;
        let replica =
            if generator.chance(16) { generator.below(34) } else { generator.below(self.cluster.quorums().replicas()) };
        let result = self.cluster.deliver_request(&mut self.rows.tables(short), message, replica);
        if let Some(delivery) = self.answer(3, result) {
            self.run.count(match delivery {
                Delivery::Answered => Answer::Answered,
                Delivery::Unanswered => Answer::Unanswered,
            });
            self.run.digest.mix(delivery as u32);
        }
    }

    fn heard(&mut self, reaction: Reaction) {
        self.run.count(match reaction {
            Reaction::Heard => Answer::Heard,
            Reaction::Ignored => Answer::Ignored,
            Reaction::Turned => Answer::Turned,
            Reaction::Finished => Answer::Finished,
        });
        self.run.digest.mix(reaction as u32);
    }

    fn deliver_reply(&mut self, short: Option<Table>) {
        let message = self.message_number();
        let result = self.cluster.deliver_reply(&mut self.rows.tables(short), message);
        if let Some(reaction) = self.answer(4, result) {
            self.heard(reaction);
        }
    }

    fn forge_reply(&mut self, short: Option<Table>) {
        let message = self.forged_message();
        let result = self.cluster.forge_reply(&mut self.rows.tables(short), &message);
        if let Some(reaction) = self.answer(5, result) {
            self.heard(reaction);
        }
    }

    fn forged_message(&mut self) -> Message<S> {
        let Self { run, cluster, rows } = self;
        let generator = &mut run.generator;
        let replica = if generator.chance(4) {
            generator.below(34)
        } else {
            let start = generator.below(32);
            let faulty = cluster.faulty();
            (start..32).chain(0..start).find(|&replica| faulty.contains(replica)).unwrap_or(start)
        };
        let client = generator.below(rows.readers.len() as u32 + 2);
        let op = if generator.chance(4) {
            generator.below(4)
        } else if client == WRITER {
            cluster.writer().op
        } else {
            rows.readers.get(client as usize - 1).map_or(1, |reader| reader.client.op)
        };
        match generator.below(8) {
            0 => Message::Query { client, op },
            1 => Message::Store { client, op, version: generator.version(&rows.replicas) },
            2..=4 => Message::Ack { replica, client, op },
            _ => Message::Value { replica, client, op, version: generator.version(&rows.replicas) },
        }
    }

    fn drop_message(&mut self, short: Option<Table>) {
        let message = self.message_number();
        let result = self.cluster.drop_message(&mut self.rows.tables(short), message);
        if self.answer(6, result).is_some() {
            self.run.count(Answer::Dropped);
        }
    }

    fn collect(&mut self, short: Option<Table>) {
        let reader = self.reader_number();
        let result = self.cluster.collect(&mut self.rows.tables(short), reader);
        if let Some(read) = self.answer(7, result) {
            self.run.count(Answer::Collected);
            self.run.digest.mix_all([read.reader(), read.op(), read.timestamp()]);
            self.run.digest.mix_encoding(&read.setting().encode());
            self.run.align(read);
        }
    }
}

impl Run<'_> {
    /// An alignment run from a collected read.
    fn align<S>(&mut self, read: CompletedRead<S>) {
        let mut alignment = AlignmentRun::start(read);
        self.digest.mix_all([alignment.reader(), alignment.timestamp()]);
        for _ in 0..4 {
            let band = self.generator.below(66);
            match alignment.note(band) {
                Ok(()) => {
                    self.count(Answer::Noted);
                    self.digest.mix(0);
                }
                Err(refusal) => self.refuse(refusal.number()),
            }
        }
        let band = self.generator.below(66);
        self.digest.mix(u32::from(alignment.is_noted(band)));
        let closed = alignment.close();
        self.count(Answer::Closed);
        self.digest.mix_all([closed.timestamp, closed.bands]);
    }
}

/// Overwrites one of the rows, if there are any.
fn scribble_on<T>(generator: &mut Generator, rows: &mut [T], draw: impl FnOnce(&mut Generator) -> T) {
    if !rows.is_empty() {
        let place = generator.place(rows.len());
        rows[place] = draw(generator);
    }
}
