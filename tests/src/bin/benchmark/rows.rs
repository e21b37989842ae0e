//! Circuits of one kind, or of a few in rows: their order is soon foreseen.
use masked_tests::builder::Builder;

/// XOR, NOT and REG on the shares of one IN, up to a number of words.
pub fn gates(d: usize, words: usize) -> Builder {
    let mut builder = Builder::new(d);
    let mut row = builder.input(0);
    let mut stage = 0;
    while builder.table.len() + 7 * d <= words {
        let summed: Vec<u16> = row.iter().map(|&wire| builder.xor(wire, wire)).collect();
        row = summed.iter().map(|&wire| builder.not(wire)).collect();
        if stage < 200 && builder.table.len().is_multiple_of(5) {
            row = builder.registers(&row);
            stage += 1;
        }
    }
    builder
}

/// A chain of AND, each output the next one's a, up to a number of wires.
pub fn products(d: usize, wires: usize) -> Builder {
    let mut builder = Builder::new(d);
    let (mut b, mut a) = (builder.input(0), builder.input(1));
    while builder.wires() + builder.and_wires() <= wires {
        let output = builder.and(&a, &b);
        if builder.place(a[0]).stage < 250 {
            b = a;
            a = output;
        }
    }
    builder
}

/// A chain of REF, each on the outputs of the last, up to a number of wires.
pub fn refreshes(d: usize, wires: usize) -> Builder {
    let mut builder = Builder::new(d);
    let mut row = builder.input(0);
    while builder.wires() + builder.refresh_wires() <= wires {
        let output = builder.refresh(&row);
        if builder.place(row[0]).stage < 250 {
            row = output;
        }
    }
    builder
}

/// INs at stages up and down, then OUT of the last, up to a number of words and of wires.
pub fn inputs(d: usize, words: usize) -> Builder {
    let mut builder = Builder::new(d);
    let mut row = builder.input(255);
    while builder.table.len() + 3 + d < words && builder.wires() + d <= 8192 {
        row = builder.input((builder.inputs * 97) % 256);
    }
    builder.output(&row);
    builder
}

/// OUTs of one row that goes through registers in between, up to a number of words.
pub fn outputs(d: usize, words: usize) -> Builder {
    let mut builder = Builder::new(d);
    let mut row = builder.input(0);
    while builder.table.len() + 3 * d < words {
        if builder.place(row[0]).stage < 200 {
            row = builder.registers(&row);
        }
        builder.output(&row);
    }
    builder
}

/// The gates with a run at the end that stops before its last frame.
pub fn cut(d: usize) -> Builder {
    let mut builder = gates(d, 8192 - 2 * d);
    let row: Vec<u16> = (0..d as u16 - 1).collect();
    builder.nots(&row);
    builder
}
