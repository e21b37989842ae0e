//! Masks plain Boolean circuits: each net becomes d wires, stages aligned by registers.
pub mod masking;
pub mod netlist;
pub mod sbox;
