//! The S-boxes of PRESENT and AES: their tables, and plain circuits held against them.
use super::netlist::Netlist;

pub struct Sbox {
    pub name: &'static str,
    pub bits: usize,
    pub table: Vec<u8>,
    /// Inputs and outputs with the highest bit first.
    pub netlist: Netlist,
}

impl Sbox {
    /// The plain circuit gives the table's value for every input.
    pub fn plain_is_right(&self) -> bool {
        (0..self.table.len()).all(|x| {
            let bits = self.netlist.evaluate(&high_first(x, self.bits));
            number(&bits) == usize::from(self.table[x])
        })
    }
}

/// A number's bits, the highest first.
pub fn high_first(number: usize, bits: usize) -> Vec<u8> {
    (0..bits).rev().map(|bit| (number >> bit & 1) as u8).collect()
}

/// The number whose bits these are, the highest first.
pub fn number(bits: &[u8]) -> usize {
    bits.iter().fold(0, |number, &bit| number << 1 | usize::from(bit))
}

/// Four nonlinear gates (Courtois, Hulme, Mourouzis); x0 and y0 are the highest bits.
const PRESENT: &str = "
t1 = x2 ^ x1
t2 = x1 & t1
t3 = x0 ^ t2
y3 = x3 ^ t3
t4 = t1 & t3
t5 = t1 ^ y3
t6 = t4 ^ x1
t7 = x3 | t6
y2 = t5 ^ t7
t8 = t6 ^ ~x3
y0 = y2 ^ t8
t9 = t8 | t5
y1 = t3 ^ t9
";

pub fn present() -> Sbox {
    let table = vec![12, 5, 6, 11, 9, 0, 10, 13, 3, 14, 15, 8, 4, 7, 1, 2];
    let netlist = Netlist::parse(&["x0", "x1", "x2", "x3"], PRESENT, &["y0", "y1", "y2", "y3"]);
    Sbox { name: "present", bits: 4, table, netlist }
}

/// Boyar and Peralta's circuit with 32 AND gates; x0 and s0 are the highest bits.
const AES: &str = include_str!("aes.txt");

pub fn aes() -> Sbox {
    let inputs = ["x0", "x1", "x2", "x3", "x4", "x5", "x6", "x7"];
    let outputs = ["s0", "s1", "s2", "s3", "s4", "s5", "s6", "s7"];
    let table = (0..=255).map(aes_byte).collect();
    Sbox { name: "aes", bits: 8, table, netlist: Netlist::parse(&inputs, AES, &outputs) }
}

/// A byte's inverse in AES's field, then the affine map.
fn aes_byte(x: u8) -> u8 {
    let inverse = (0..=255).find(|&y| times(x, y) == 1).unwrap_or(0);
    (0..5).fold(0x63, |sum, turn| sum ^ inverse.rotate_left(turn))
}

/// The product in AES's field.
fn times(x: u8, y: u8) -> u8 {
    let (mut x, mut product) = (x, 0);
    for bit in 0..8 {
        if y >> bit & 1 == 1 {
            product ^= x;
        }
        x = x << 1 ^ if x & 0x80 != 0 { 0x1B } else { 0 };
    }
    product
}

#[cfg(test)]
mod tests {
    use super::*;

    #[test]
    fn plain_circuits() {
        assert!(present().plain_is_right());
        assert!(aes().plain_is_right());
        assert_eq!(present().netlist.sizes()[0], 4);
        assert_eq!(aes().netlist.sizes()[0], 32);
    }

    #[test]
    fn aes_table() {
        let table = aes().table;
        assert_eq!(table[..4], [0x63, 0x7C, 0x77, 0x7B]);
        assert_eq!((table[0x53], table[255]), (0xED, 0x16));
    }
}
