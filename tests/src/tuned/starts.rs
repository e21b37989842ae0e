//! Where the frames of a table begin, kept by a pass over it.

/// What a pass keeps of where its frames begin: nothing, or a list.
pub trait Keep {
    /// Keeps how many words are left before the next frame, and how many wires are made.
    fn keep(&mut self, left: usize, wires: usize);
}

impl Keep for () {
    #[inline(always)]
    fn keep(&mut self, _: usize, _: usize) {}
}

/// For each frame how many words are left before it, and how many wires are made.
pub struct Starts<const N: usize> {
    frames: [[u16; 2]; N],
    count: usize,
}

impl<const N: usize> Starts<N> {
    pub fn new() -> Starts<N> {
        Starts { frames: [[0; 2]; N], count: 0 }
    }

    /// The frames that begin at or before a wire.
    pub fn up_to(&self, last: u16) -> &[[u16; 2]] {
        let frames = &self.frames[..self.count];
        &frames[..frames.partition_point(|&[_, wire]| wire <= last)]
    }
}

impl<const N: usize> Keep for Starts<N> {
    #[inline(always)]
    fn keep(&mut self, left: usize, wires: usize) {
        self.frames[self.count & (N - 1)] = [left as u16, wires as u16];
        self.count += 1;
    }
}
