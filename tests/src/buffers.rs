//! Buffers of two programs beside each other, with guards around what is lent.

/// Bytes, words or numbers of junk before and after each lent buffer.
pub const GUARD: usize = 16;

/// Names the first place where two buffers differ; it counts from the lent part's begin.
pub fn difference<T: PartialEq + std::fmt::Debug>(name: &str, x: &[T], y: &[T]) -> Option<String> {
    let at = (0..x.len()).find(|&at| x[at] != y[at])?;
    let (place, x, y) = (at as i64 - GUARD as i64, &x[at], &y[at]);
    Some(format!("{name}[{place}]: reference {x:?}, other {y:?}"))
}
