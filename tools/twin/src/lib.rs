//! A settings store: one writer, up to eight readers and up to 32 replicas, some of which may be faulty.
//!
//! Nothing here allocates but the stress runs and the measurements: the tables belong to the caller.

#![forbid(unsafe_code)]

pub mod alignment;
pub mod cluster;
pub mod generator;
pub mod measure;
pub mod protocol;
pub mod quorums;
pub mod replica_set;
pub mod settings;
pub mod signatures;
pub mod stress;
