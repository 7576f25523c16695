//! Quorum systems: which sets of replicas can decide, and which may be faulty together.

use crate::replica_set::ReplicaSet;

/// The most replicas that a system can have.
pub const MOST_REPLICAS: u32 = 32;

/// The most fault sets that can be listed.
pub const MOST_SETS: usize = 16;

/// Two quorums share a replica outside any fault set, and the replicas outside a fault set are a quorum.
pub trait QuorumSystem {
    /// The number of replicas, 1 to 32.
    fn replicas(&self) -> u32;

    /// Whether the set is enough to decide.
    fn is_quorum(&self, set: ReplicaSet) -> bool;

    /// Whether the set may be faulty together.
    fn is_fault_set(&self, set: ReplicaSet) -> bool;
}

/// Why a quorum system is not made as asked for.
#[derive(Clone, Copy, Debug, PartialEq, Eq)]
pub enum QuorumRefusal {
    /// The number of replicas is not from 1 to 32.
    ReplicaCount = 1,
    /// Too many sets are listed, or one has a replica that there is not.
    ListedSets = 2,
    /// Too many replicas may be faulty together.
    FaultBound = 3,
}

impl QuorumRefusal {
    /// The refusal's number.
    pub fn number(self) -> u32 {
        self as u32
    }
}

fn check_replicas(n: u32) -> Result<(), QuorumRefusal> {
    if (1..=MOST_REPLICAS).contains(&n) { Ok(()) } else { Err(QuorumRefusal::ReplicaCount) }
}

/// Any `f` of `n` replicas may be faulty together.
#[derive(Clone, Copy, Debug, PartialEq, Eq)]
pub struct Threshold {
    n: u32,
    f: u32,
}

impl Threshold {
    /// One replica, which is never faulty.
    const SINGLE: Self = Self { n: 1, f: 0 };

    /// Why the system would not be made as asked for.
    pub fn check(n: u32, f: u32) -> Result<(), QuorumRefusal> {
        check_replicas(n)?;
        if u64::from(n) <= 3 * u64::from(f) { Err(QuorumRefusal::FaultBound) } else { Ok(()) }
    }

    /// The system; of one replica that is never faulty where it is refused.
    pub fn new(n: u32, f: u32) -> Self {
        Self::check(n, f).map_or(Self::SINGLE, |()| Self { n, f })
    }
}

impl QuorumSystem for Threshold {
    #[inline]
    fn replicas(&self) -> u32 {
        self.n
    }

    #[inline]
    fn is_quorum(&self, set: ReplicaSet) -> bool {
        set.is_below(self.n) && 2 * set.len() > self.n + self.f
    }

    #[inline]
    fn is_fault_set(&self, set: ReplicaSet) -> bool {
        set.is_below(self.n) && set.len() <= self.f
    }
}

/// The replicas of any one listed set may be faulty together.
#[derive(Clone, Copy, Debug, PartialEq, Eq)]
pub struct FailProne {
    n: u32,
    count: usize,
    sets: [ReplicaSet; MOST_SETS],
}

impl FailProne {
    /// Why the system would not be made as asked for.
    pub fn check(n: u32, sets: &[ReplicaSet]) -> Result<(), QuorumRefusal> {
        check_replicas(n)?;
        if sets.len() > MOST_SETS || !sets.iter().all(|set| set.is_below(n)) {
            Err(QuorumRefusal::ListedSets)
        } else if three_hold_all(n, sets) {
            Err(QuorumRefusal::FaultBound)
        } else {
            Ok(())
        }
    }

    /// The system; of one replica that is never faulty where it is refused.
    pub fn new(n: u32, sets: &[ReplicaSet]) -> Self {
        let (n, listed) = Self::check(n, sets).map_or((1, &[][..]), |()| (n, sets));
        let mut sets = [ReplicaSet::empty(); MOST_SETS];
        sets[..listed.len()].copy_from_slice(listed);
        Self { n, count: listed.len(), sets }
    }

    #[inline]
    fn listed(&self) -> &[ReplicaSet] {
        &self.sets[..self.count]
    }
}

/// Whether three of the sets, repeats allowed, hold all replicas below `n` together.
fn three_hold_all(n: u32, sets: &[ReplicaSet]) -> bool {
    let all = ReplicaSet::first(n);
    sets.iter().enumerate().any(|(i, a)| {
        sets[i..].iter().enumerate().any(|(j, b)| {
            let two = a.union(*b);
            sets[i + j..].iter().any(|c| all.is_subset(two.union(*c)))
        })
    })
}

impl QuorumSystem for FailProne {
    #[inline]
    fn replicas(&self) -> u32 {
        self.n
    }

    #[inline]
    fn is_quorum(&self, set: ReplicaSet) -> bool {
        let missing = set.outside(self.n);
        set.is_below(self.n) && (missing.is_empty() || self.listed().iter().any(|listed| missing.is_subset(*listed)))
    }

    #[inline]
    fn is_fault_set(&self, set: ReplicaSet) -> bool {
        set.is_empty() || self.listed().iter().any(|listed| set.is_subset(*listed))
    }
}

/// Groups of replicas, all of the same system, which are themselves the replicas of a system.
#[derive(Clone, Copy, Debug, PartialEq, Eq)]
pub struct Nested<O, I> {
    /// The system of the groups and that of each group; without, one replica that is never faulty.
    systems: Option<(O, I)>,
}

impl<O: QuorumSystem, I: QuorumSystem> Nested<O, I> {
    /// Why the system would not be made as asked for.
    pub fn check(outer: &O, inner: &I) -> Result<(), QuorumRefusal> {
        check_replicas(outer.replicas() * inner.replicas())
    }

    /// The system; of one replica that is never faulty where it is refused.
    pub fn new(outer: O, inner: I) -> Self {
        Self { systems: Self::check(&outer, &inner).is_ok().then_some((outer, inner)) }
    }
}

/// The groups of `size` replicas whose part of the set passes the test.
#[inline]
fn groups_with(set: ReplicaSet, groups: u32, size: u32, test: impl Fn(ReplicaSet) -> bool) -> ReplicaSet {
    (0..groups).filter(|group| test(set.part(group * size, size))).fold(ReplicaSet::empty(), ReplicaSet::with)
}

impl<O: QuorumSystem, I: QuorumSystem> QuorumSystem for Nested<O, I> {
    #[inline]
    fn replicas(&self) -> u32 {
        match &self.systems {
            Some((outer, inner)) => outer.replicas() * inner.replicas(),
            None => Threshold::SINGLE.replicas(),
        }
    }

    #[inline]
    fn is_quorum(&self, set: ReplicaSet) -> bool {
        match &self.systems {
            Some((outer, inner)) => {
                let (groups, size) = (outer.replicas(), inner.replicas());
                set.is_below(groups * size)
                    && outer.is_quorum(groups_with(set, groups, size, |part| inner.is_quorum(part)))
            }
            None => Threshold::SINGLE.is_quorum(set),
        }
    }

    #[inline]
    fn is_fault_set(&self, set: ReplicaSet) -> bool {
        match &self.systems {
            Some((outer, inner)) => {
                let (groups, size) = (outer.replicas(), inner.replicas());
                set.is_below(groups * size)
                    && outer.is_fault_set(groups_with(set, groups, size, |part| !inner.is_fault_set(part)))
            }
            None => Threshold::SINGLE.is_fault_set(set),
        }
    }
}

#[cfg(test)]
mod tests {
    use super::*;

    fn set(mask: u32) -> ReplicaSet {
        ReplicaSet::of_bits(mask)
    }

    /// The laws, by trial of all sets of up to ten replicas and some beyond.
    fn keeps_laws(system: &impl QuorumSystem) {
        let n = system.replicas();
        assert!((1..=10).contains(&n));
        assert!(system.is_fault_set(ReplicaSet::empty()));
        for i in n..32 {
            let beyond = ReplicaSet::first(n).with(i);
            assert!(!system.is_quorum(beyond) && !system.is_fault_set(ReplicaSet::empty().with(i)));
        }
        let all: Vec<_> = (0..1 << n).map(ReplicaSet::of_bits).collect();
        let quorums: Vec<_> = all.iter().filter(|s| system.is_quorum(**s)).collect();
        for a in &quorums {
            assert!((0..n).all(|i| system.is_quorum(a.with(i))));
            assert!(quorums.iter().all(|b| !system.is_fault_set(a.intersection(**b))));
        }
        for a in all.iter().filter(|s| system.is_fault_set(**s)) {
            assert!(system.is_quorum(a.outside(n)));
            assert!((0..n).all(|i| system.is_fault_set(a.difference(ReplicaSet::empty().with(i)))));
        }
    }

    #[test]
    fn threshold_example() {
        let system = Threshold::new(4, 1);
        let (a, b) = (set(0b0111), set(0b1110));
        assert!(system.is_quorum(a) && system.is_quorum(b));
        assert!(!system.is_fault_set(a.intersection(b)));
        assert!(!system.is_quorum(set(0b0011)));
        assert!(!system.is_quorum(set(0b1_0111)) && !system.is_fault_set(set(0b1_0000)));
        assert!(system.is_fault_set(set(0b0100)));
        keeps_laws(&system);
        keeps_laws(&Threshold::new(7, 2));
    }

    #[test]
    fn threshold_refusals() {
        let number = |n, f| Threshold::check(n, f).err().map(QuorumRefusal::number);
        assert_eq!(number(0, 0), Some(1));
        assert_eq!(number(33, 99), Some(1));
        assert_eq!(number(3, 1), Some(3));
        assert_eq!(number(32, u32::MAX), Some(3));
        assert_eq!(number(4, 1), None);
        assert_eq!(number(32, 10), None);
        let single = Threshold::new(3, 1);
        assert_eq!(single, Threshold::new(1, 0));
        assert!(single.is_quorum(set(1)) && !single.is_quorum(set(0)) && !single.is_fault_set(set(1)));
    }

    #[test]
    fn listed_example() {
        let sets = [set(0b0011), set(0b0100)];
        let system = FailProne::new(4, &sets);
        let (a, b) = (set(0b1100), set(0b1011));
        assert!(system.is_quorum(a) && system.is_quorum(b));
        assert_eq!(a.intersection(b), set(0b1000));
        assert!(!system.is_fault_set(set(0b1000)) && system.is_fault_set(set(0b0010)));
        assert!(!system.is_quorum(set(0b0111)) && !system.is_fault_set(set(0b0101)));
        keeps_laws(&system);
        assert_eq!(FailProne::check(4, &[sets[0], sets[1], set(0b1000)]), Err(QuorumRefusal::FaultBound));
        keeps_laws(&FailProne::new(5, &[]));
        keeps_laws(&FailProne::new(6, &[set(0b11), set(0b1100), set(0)]));
    }

    #[test]
    fn listed_refusals() {
        let number = |n, sets: &[ReplicaSet]| FailProne::check(n, sets).err().map(QuorumRefusal::number);
        assert_eq!(number(0, &[set(1)]), Some(1));
        assert_eq!(number(4, &[set(0); 16]), None);
        assert_eq!(number(4, &[set(0); 17]), Some(2));
        assert_eq!(number(4, &[set(0b1_1111)]), Some(2));
        assert_eq!(number(4, &[set(0b1111)]), Some(3));
        assert_eq!(number(4, &[set(0b0011), set(0b1100)]), Some(3));
        assert_eq!(number(32, &[set(u32::MAX >> 1)]), None);
        let single = FailProne::new(4, &[set(0b1111)]);
        assert_eq!(single, FailProne::new(1, &[]));
        assert!(single.is_quorum(set(1)) && !single.is_quorum(set(0)) && !single.is_quorum(set(3)));
        assert!(single.is_fault_set(set(0)) && !single.is_fault_set(set(1)));
    }

    #[test]
    fn groups_example() {
        let four = Threshold::new(4, 1);
        let system = Nested::new(four, four);
        let faulty = set(0x111F);
        assert_eq!((system.replicas(), faulty.len()), (16, 7));
        assert!(system.is_fault_set(faulty));
        assert!(system.is_quorum(faulty.outside(16)));
        assert!(!system.is_fault_set(set(0x113F)));
        assert!(!system.is_quorum(set(0x1_FFFF)) && !system.is_fault_set(set(0x1_0000)));
        keeps_laws(&Nested::new(Threshold::new(2, 0), four));
        keeps_laws(&Nested::new(four, Threshold::new(2, 0)));
    }

    #[test]
    fn groups_refusal() {
        let six = Threshold::new(6, 1);
        assert_eq!(Nested::check(&six, &six), Err(QuorumRefusal::ReplicaCount));
        let single = Nested::new(six, six);
        assert_eq!(single.replicas(), 1);
        assert!(single.is_quorum(set(1)) && !single.is_quorum(set(0)) && !single.is_quorum(set(3)));
        assert!(single.is_fault_set(set(0)) && !single.is_fault_set(set(1)));
        assert_eq!(Nested::check(&Threshold::new(4, 1), &Threshold::new(8, 2)), Ok(()));
    }
}
