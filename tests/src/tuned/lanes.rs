//! What a wire carries where many pairs of sharing and tape are gone through at a time: a bit of each.
use std::array::from_fn;
use std::ops::{BitAnd, BitXor};

pub trait Lanes: Copy + BitAnd<Output = Self> + BitXor<Output = Self> {
    const ZEROS: Self;
    const ONES: Self;
}

/// Eight pairs in the bits of each byte.
#[derive(Clone, Copy)]
pub struct Planes<const P: usize>(pub [u8; P]);

/// 64 pairs in the bits of each word.
#[derive(Clone, Copy)]
pub struct Words<const W: usize>(pub [u64; W]);

impl<const P: usize> Lanes for Planes<P> {
    const ZEROS: Self = Planes([0; P]);
    const ONES: Self = Planes([!0; P]);
}

impl<const W: usize> Lanes for Words<W> {
    const ZEROS: Self = Words([0; W]);
    const ONES: Self = Words([!0; W]);
}

impl<const P: usize> BitAnd for Planes<P> {
    type Output = Self;
    #[inline(always)]
    fn bitand(self, other: Self) -> Self {
        Planes(from_fn(|at| self.0[at] & other.0[at]))
    }
}

impl<const P: usize> BitXor for Planes<P> {
    type Output = Self;
    #[inline(always)]
    fn bitxor(self, other: Self) -> Self {
        Planes(from_fn(|at| self.0[at] ^ other.0[at]))
    }
}

impl<const W: usize> BitAnd for Words<W> {
    type Output = Self;
    #[inline(always)]
    fn bitand(self, other: Self) -> Self {
        Words(from_fn(|at| self.0[at] & other.0[at]))
    }
}

impl<const W: usize> BitXor for Words<W> {
    type Output = Self;
    #[inline(always)]
    fn bitxor(self, other: Self) -> Self {
        Words(from_fn(|at| self.0[at] ^ other.0[at]))
    }
}
