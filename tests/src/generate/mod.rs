//! Random cases: circuits, damage to them, texts, and buffers right and wrong.
pub mod case;
pub mod circuit;
pub mod clocking;
pub mod counting;
pub mod damage;
pub mod limits;
pub mod mixing;
pub mod near;
pub mod probes;
pub mod random;
pub mod sharing;
pub mod shuffled;
pub mod slips;
pub mod text;
pub mod whole;
