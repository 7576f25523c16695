//! Alignment runs: the bands of a fragment, aligned by one completed read.

use crate::cluster::CompletedRead;

/// The number of bands.
pub const BANDS: u32 = u64::BITS;

/// Why a band is not noted.
#[derive(Clone, Copy, Debug, PartialEq, Eq)]
pub enum AlignmentRefusal {
    /// The band is above 63.
    NoSuchBand = 29,
    /// The band is noted already.
    BandTaken = 30,
}

impl AlignmentRefusal {
    /// The refusal's number.
    pub fn number(self) -> u32 {
        self as u32
    }
}

/// What is left of a closed run.
#[derive(Clone, Copy, Debug, PartialEq, Eq)]
pub struct Closed {
    /// The timestamp of the read.
    pub timestamp: u32,
    /// The number of bands noted.
    pub bands: u32,
}

/// A run, which keeps its read.
#[derive(Debug)]
pub struct AlignmentRun<S> {
    read: CompletedRead<S>,
    noted: u64,
}

impl<S> AlignmentRun<S> {
    /// Starts a run without a band from a completed read, which is used up.
    pub fn start(read: CompletedRead<S>) -> Self {
        Self { read, noted: 0 }
    }

    /// Notes a band.
    pub fn note(&mut self, band: u32) -> Result<(), AlignmentRefusal> {
        if band >= BANDS {
            return Err(AlignmentRefusal::NoSuchBand);
        }
        if self.is_noted(band) {
            return Err(AlignmentRefusal::BandTaken);
        }
        self.noted |= 1 << band;
        Ok(())
    }

    /// Whether the band is noted.
    pub fn is_noted(&self, band: u32) -> bool {
        band < BANDS && self.noted >> band & 1 == 1
    }

    /// The setting of the read.
    pub fn setting(&self) -> &S {
        self.read.setting()
    }

    /// The timestamp of the read.
    pub fn timestamp(&self) -> u32 {
        self.read.timestamp()
    }

    /// The reader of the read.
    pub fn reader(&self) -> u32 {
        self.read.reader()
    }

    /// Ends the run, which is used up.
    pub fn close(self) -> Closed {
        Closed { timestamp: self.timestamp(), bands: self.noted.count_ones() }
    }
}

#[cfg(test)]
mod tests {
    use super::*;
    use crate::cluster::{Cluster, Line, Reader, Tables};
    use crate::protocol::{Message, Version};
    use crate::quorums::Threshold;
    use crate::replica_set::ReplicaSet;
    use crate::settings::{Setting, ShelfMark};
    use crate::signatures::InlineSigner;

    /// A read by reader 1 after this many writes, on a single replica.
    fn read_after(writes: u32) -> CompletedRead<ShelfMark> {
        let mut tables = Tables {
            replicas: &mut [Version::<ShelfMark>::initial().encoded()],
            readers: &mut [Reader::fresh::<ShelfMark>()],
            messages: &mut [Message::Query { client: 0, op: 0 }; 8],
            lines: &mut [Line::default(); 16],
        };
        let (quorums, signer) = (Threshold::new(1, 0), InlineSigner::new(0));
        let mut cluster = Cluster::new(quorums, signer, ReplicaSet::empty(), 1, &mut tables);
        let empty = |cluster: &mut Cluster<_, _, _>, tables: &mut Tables<'_>| {
            while cluster.messages_in_flight() > 0 {
                cluster.drop_message(tables, 0).unwrap();
            }
        };
        for write in 1..=writes {
            let mark = ShelfMark::from_text(&write.to_string()).unwrap();
            cluster.write(&mut tables, &mark).unwrap();
            cluster.deliver_request(&mut tables, 0, 0).unwrap();
            cluster.deliver_reply(&mut tables, 1).unwrap();
            empty(&mut cluster, &mut tables);
        }
        cluster.read(&mut tables, 1).unwrap();
        for message in [0, 2] {
            cluster.deliver_request(&mut tables, message, 0).unwrap();
            cluster.deliver_reply(&mut tables, message + 1).unwrap();
        }
        cluster.collect(&mut tables, 1).unwrap()
    }

    #[test]
    fn example() {
        let mut run = AlignmentRun::start(read_after(4));
        assert_eq!((run.reader(), run.timestamp(), run.setting().text()), (1, 4, "4"));
        assert!((0..200).all(|band| !run.is_noted(band)));
        assert_eq!(run.note(63), Ok(()));
        assert_eq!(run.note(64).map_err(AlignmentRefusal::number), Err(29));
        assert_eq!(run.note(u32::MAX), Err(AlignmentRefusal::NoSuchBand));
        assert_eq!(run.note(63).map_err(AlignmentRefusal::number), Err(30));
        assert_eq!(run.note(0), Ok(()));
        assert!((0..200).all(|band| run.is_noted(band) == (band == 0 || band == 63)));
        assert_eq!(run.timestamp(), 4);
        assert_eq!(run.close(), Closed { timestamp: 4, bands: 2 });
    }

    #[test]
    fn nothing_written() {
        let run = AlignmentRun::start(read_after(0));
        assert_eq!((run.timestamp(), *run.setting()), (0, ShelfMark::initial()));
        assert_eq!(run.close(), Closed { timestamp: 0, bands: 0 });
    }
}
