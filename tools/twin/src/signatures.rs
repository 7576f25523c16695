//! Signature schemes: trusted books of what was signed under rising timestamps.

use crate::settings::Encoding;

/// One signature in a book.
#[derive(Clone, Copy, Debug, Default, PartialEq, Eq)]
pub struct Entry {
    /// Under which timestamp it was signed, never 0.
    pub timestamp: u32,
    /// What was signed.
    pub encoding: Encoding,
    /// What the scheme gave for it.
    pub tag: u32,
}

/// A scheme that signs encodings and knows again exactly what it signed.
pub trait Signatures {
    /// Signs and gives the tag; `None` where the timestamp is 0 or not above all others, or no slot is free.
    fn sign(&mut self, timestamp: u32, encoding: &Encoding) -> Option<u32>;

    /// Whether exactly this was signed.
    fn verify(&self, timestamp: u32, encoding: &Encoding, tag: u32) -> bool;

    /// The number of entries in the book.
    fn entries(&self) -> u64;

    /// The greatest timestamp in the book, or 0.
    fn latest(&self) -> u32;

    /// The number of free slots.
    fn free(&self) -> u64;
}

/// The most slots of a ledger, since a tag has 32 bits.
pub const MOST_SLOTS: u64 = 1 << 32;

/// A scheme in memory that its owner provides. A tag is the entry's place in the book.
#[derive(Debug)]
pub struct Ledger {
    book: Vec<Entry>,
    slots: usize,
}

impl Ledger {
    /// An empty ledger with as many slots as the memory's capacity.
    pub fn new(mut memory: Vec<Entry>) -> Self {
        memory.clear();
        let slots = memory.capacity().min(usize::try_from(MOST_SLOTS).unwrap_or(usize::MAX));
        Self { book: memory, slots }
    }

    /// The memory, with the book's entries in it.
    pub fn into_memory(self) -> Vec<Entry> {
        self.book
    }
}

impl Signatures for Ledger {
    #[inline]
    fn sign(&mut self, timestamp: u32, encoding: &Encoding) -> Option<u32> {
        let place = self.book.len();
        if timestamp <= self.latest() || place >= self.slots {
            return None;
        }
        let tag = u32::try_from(place).ok()?;
        self.book.push(Entry { timestamp, encoding: *encoding, tag });
        Some(tag)
    }

    #[inline]
    fn verify(&self, timestamp: u32, encoding: &Encoding, tag: u32) -> bool {
        usize::try_from(tag)
            .ok()
            .and_then(|place| self.book.get(place))
            .is_some_and(|entry| entry.timestamp == timestamp && entry.encoding == *encoding)
    }

    #[inline]
    fn entries(&self) -> u64 {
        self.book.len() as u64
    }

    #[inline]
    fn latest(&self) -> u32 {
        self.book.last().map_or(0, |entry| entry.timestamp)
    }

    #[inline]
    fn free(&self) -> u64 {
        (self.slots - self.book.len()) as u64
    }
}

/// The slots of an inline signer.
pub const SLOTS: usize = 64;

/// A scheme with 64 slots of its own. A tag is the timestamp plus a start, modulo 2^32.
#[derive(Clone, Debug)]
pub struct InlineSigner {
    start: u32,
    count: usize,
    slots: [Entry; SLOTS],
}

impl InlineSigner {
    /// An empty signer with this start.
    #[inline]
    pub fn new(start: u32) -> Self {
        Self { start, count: 0, slots: [Entry::default(); SLOTS] }
    }

    #[inline]
    fn book(&self) -> &[Entry] {
        &self.slots[..self.count]
    }
}

impl Signatures for InlineSigner {
    #[inline]
    fn sign(&mut self, timestamp: u32, encoding: &Encoding) -> Option<u32> {
        if timestamp <= self.latest() {
            return None;
        }
        let slot = self.slots.get_mut(self.count)?;
        let tag = timestamp.wrapping_add(self.start);
        *slot = Entry { timestamp, encoding: *encoding, tag };
        self.count += 1;
        Some(tag)
    }

    #[inline]
    fn verify(&self, timestamp: u32, encoding: &Encoding, tag: u32) -> bool {
        let book = self.book();
        tag == timestamp.wrapping_add(self.start)
            && book
                .binary_search_by_key(&timestamp, |entry| entry.timestamp)
                .is_ok_and(|place| book[place].encoding == *encoding)
    }

    #[inline]
    fn entries(&self) -> u64 {
        self.count as u64
    }

    #[inline]
    fn latest(&self) -> u32 {
        self.book().last().map_or(0, |entry| entry.timestamp)
    }

    #[inline]
    fn free(&self) -> u64 {
        (SLOTS - self.count) as u64
    }
}

#[cfg(test)]
mod tests {
    use super::*;

    const A: Encoding = [1; 32];
    const B: Encoding = [2; 32];

    #[test]
    fn inline_example() {
        let mut signer = InlineSigner::new(4_294_967_290);
        assert_eq!(signer.sign(0, &A), None);
        assert_eq!(signer.sign(5, &A), Some(4_294_967_295));
        assert_eq!(signer.sign(5, &B), None);
        assert_eq!(signer.sign(6, &B), Some(0));
        assert_eq!(signer.free(), 62);
        assert_eq!(signer.sign(9, &A), Some(3));
        assert_eq!((signer.entries(), signer.latest()), (3, 9));
        assert!(signer.verify(5, &A, 4_294_967_295));
        assert!(!signer.verify(5, &A, 0));
        assert!(!signer.verify(5, &B, 0));
        assert!(!signer.verify(6, &A, 0));
        assert!(signer.verify(6, &B, 0) && signer.verify(9, &A, 3));
        assert!(!signer.verify(7, &A, 1) && !signer.verify(0, &[0; 32], 4_294_967_290));
    }

    #[test]
    fn inline_full() {
        let mut signer = InlineSigner::new(0);
        for timestamp in 1..=64 {
            assert_eq!(signer.sign(2 * timestamp, &A), Some(2 * timestamp));
        }
        assert_eq!((signer.free(), signer.sign(999, &A)), (0, None));
        assert!((0..200).all(|t| signer.verify(t, &A, t) == (t % 2 == 0 && (2..=128).contains(&t))));
    }

    #[test]
    fn ledger_example() {
        let mut memory = Vec::with_capacity(2);
        memory.push(Entry { timestamp: 5, encoding: A, tag: 0 });
        let mut ledger = Ledger::new(memory);
        assert_eq!((ledger.entries(), ledger.latest()), (0, 0));
        assert!(!ledger.verify(5, &A, 0));
        assert_eq!(ledger.sign(0, &A), None);
        assert_eq!(ledger.sign(5, &A), Some(0));
        assert_eq!(ledger.sign(5, &B), None);
        assert_eq!(ledger.sign(6, &B), Some(1));
        assert_eq!(ledger.free(), 0);
        assert_eq!(ledger.sign(9, &A), None);
        assert_eq!((ledger.entries(), ledger.latest()), (2, 6));
        assert!(!ledger.verify(5, &A, 4_294_967_295));
        assert!(ledger.verify(5, &A, 0));
        assert!(!ledger.verify(5, &B, 0));
        assert!(!ledger.verify(6, &A, 0));
        let memory = ledger.into_memory();
        assert_eq!(memory.capacity(), 2);
        let book = [Entry { timestamp: 5, encoding: A, tag: 0 }, Entry { timestamp: 6, encoding: B, tag: 1 }];
        assert_eq!(memory, book);
    }

    #[test]
    fn ledger_without_memory() {
        let mut ledger = Ledger::new(Vec::new());
        assert_eq!((ledger.free(), ledger.sign(1, &A)), (0, None));
        for slots in 0..=64 {
            assert_eq!(Ledger::new(Vec::with_capacity(slots)).free(), slots as u64);
        }
    }
}
