//! Sets of replicas.

/// A set of replicas: replica `i` is a member where bit `i` is set.
#[derive(Clone, Copy, Debug, Default, PartialEq, Eq)]
pub struct ReplicaSet(u32);

impl ReplicaSet {
    /// The set without a member.
    #[inline]
    pub const fn empty() -> Self {
        Self(0)
    }

    /// The set with the members of a mask.
    #[inline]
    pub const fn of_bits(mask: u32) -> Self {
        Self(mask)
    }

    /// The replicas below `n`, all 32 where `n` is larger.
    #[inline]
    pub const fn first(n: u32) -> Self {
        if n < 32 { Self((1 << n) - 1) } else { Self(u32::MAX) }
    }

    /// The mask.
    #[inline]
    pub const fn bits(self) -> u32 {
        self.0
    }

    /// The number of members.
    #[inline]
    pub const fn len(self) -> u32 {
        self.0.count_ones()
    }

    /// Whether there is no member.
    #[inline]
    pub const fn is_empty(self) -> bool {
        self.0 == 0
    }

    /// Whether replica `i` is a member.
    #[inline]
    pub const fn contains(self, i: u32) -> bool {
        i < 32 && self.0 >> i & 1 == 1
    }

    /// The set with replica `i` too; a number past 31 changes nothing.
    #[inline]
    pub const fn with(self, i: u32) -> Self {
        if i < 32 { Self(self.0 | 1 << i) } else { self }
    }

    /// The replicas in either set.
    #[inline]
    pub const fn union(self, other: Self) -> Self {
        Self(self.0 | other.0)
    }

    /// The replicas in both sets.
    #[inline]
    pub const fn intersection(self, other: Self) -> Self {
        Self(self.0 & other.0)
    }

    /// The replicas in this set and not in the other.
    #[inline]
    pub const fn difference(self, other: Self) -> Self {
        Self(self.0 & !other.0)
    }

    /// The replicas below `n` that are no members.
    #[inline]
    pub const fn outside(self, n: u32) -> Self {
        Self::first(n).difference(self)
    }

    /// The members from `start` on, `len` places, counted from 0.
    #[inline]
    pub const fn part(self, start: u32, len: u32) -> Self {
        if start < 32 { Self(self.0 >> start).intersection(Self::first(len)) } else { Self::empty() }
    }

    /// Whether each member is in the other set.
    #[inline]
    pub const fn is_subset(self, other: Self) -> bool {
        self.difference(other).is_empty()
    }

    /// Whether each member is below `n`.
    #[inline]
    pub const fn is_below(self, n: u32) -> bool {
        self.is_subset(Self::first(n))
    }
}

#[cfg(test)]
mod tests {
    use super::*;

    #[test]
    fn members() {
        let set = ReplicaSet::of_bits(0b1011);
        assert_eq!((set.len(), set.is_empty(), set.bits()), (3, false, 0b1011));
        assert_eq!((0..40).filter(|&i| set.contains(i)).collect::<Vec<_>>(), [0, 1, 3]);
        assert_eq!(ReplicaSet::empty().with(0).with(1).with(3).with(32).with(u32::MAX), set);
        assert!(!ReplicaSet::first(33).contains(32));
        assert_eq!(ReplicaSet::first(0), ReplicaSet::empty());
        assert_eq!(ReplicaSet::first(31).bits(), u32::MAX >> 1);
        assert_eq!(ReplicaSet::first(32), ReplicaSet::first(u32::MAX));
        assert_eq!(set.outside(4).bits(), 0b0100);
        assert_eq!(set.part(1, 3).bits(), 0b101);
        assert_eq!(set.part(1, 2).bits(), 0b01);
        assert_eq!(set.part(32, 4), ReplicaSet::empty());
        assert_eq!(set.part(0, u32::MAX), set);
        assert!(set.is_below(4) && !set.is_below(3));
    }

    #[test]
    fn two_sets() {
        let (a, b) = (ReplicaSet::of_bits(0b0110), ReplicaSet::of_bits(0b1100));
        assert_eq!(a.union(b).bits(), 0b1110);
        assert_eq!(a.intersection(b).bits(), 0b0100);
        assert_eq!(a.difference(b).bits(), 0b0010);
        assert!(!a.is_subset(b) && a.intersection(b).is_subset(b));
    }
}
