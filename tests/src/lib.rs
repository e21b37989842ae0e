//! The second program for document 01, and what compares it with the proved code.
pub mod buffers;
pub mod builder;
pub mod calls;
pub mod clocks;
pub mod generate;
pub mod laws;
pub mod mask;
pub mod options;
#[cfg(feature = "proved")]
#[allow(clippy::too_many_arguments)]
pub mod proved;
pub mod reference;
pub mod sets;
pub mod sharings;
pub mod spans;
pub mod subject;
pub mod tuned;
pub mod verdict;
