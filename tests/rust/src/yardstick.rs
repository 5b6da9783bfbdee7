//! The yardstick that the benchmarks time the proved calls and the proved bench beside: the rule book's
//! codec, station, fault-free ring and recorded day as one writes them in Rust by hand, to be fast.

pub mod codec;
pub mod day;
pub mod out;
pub mod ring;
pub mod station;
