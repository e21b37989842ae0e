//! Circuits at the limits: 8,192 words, 8,192 wires, stage 255.
use super::random::Random;
use crate::builder::Builder;

/// A circuit at one of the limits, on either side of it.
pub fn limit(random: &mut Random) -> Builder {
    match random.below(4) {
        0 => many_words(random),
        1 => many_gadgets(random),
        2 => many_inputs(random),
        _ => many_stages(random),
    }
}

/// A table of about 8,192 words, of gates only.
fn many_words(random: &mut Random) -> Builder {
    let mut builder = Builder::new(random.within(2, 8));
    let row = builder.input(random.below(3));
    let words = random.within(8188, 8196);
    let mut last = row[0];
    while builder.table.len() + 3 < words {
        last = match random.below(3) {
            0 => builder.not(last),
            1 => builder.xor(last, row[0]),
            _ => builder.xor(last, last),
        };
    }
    match words - builder.table.len() {
        2 => drop(builder.not(last)),
        3 => drop(builder.xor(row[0], last)),
        _ => (),
    }
    builder
}

/// AND and REF until the wires are nearly gone, then single wires up to the limit.
fn many_gadgets(random: &mut Random) -> Builder {
    let mut builder = Builder::new(random.within(2, 8));
    let mut b = builder.input(0);
    let mut a = builder.input(1);
    let only_and = random.once_in(2);
    let target = random.within(8189, 8194);
    while builder.wires() + builder.and_wires() <= target && builder.place(a[0]).stage < 255 {
        if only_and || random.once_in(2) {
            let output = builder.and(&a, &b);
            if random.once_in(8) {
                b = a;
                a = output;
            }
        } else {
            builder.refresh(&b);
        }
    }
    fill(random, &mut builder, target);
    builder
}

/// INs and CONs only, up to the limit of wires; then at times a frame that passes stage 255 too, or an OUT.
fn many_inputs(random: &mut Random) -> Builder {
    let mut builder = Builder::new(random.within(2, 8));
    let target = random.within(8189, 8194);
    let d = builder.d;
    let before = builder.input(254);
    let row = builder.input(255);
    while builder.wires() + d <= target && builder.table.len() + 2 <= 8192 {
        builder.input(random.below(256));
    }
    fill(random, &mut builder, target);
    match random.below(5) {
        0 => drop(builder.register(row[0])),
        1 => drop(builder.refresh(&row)),
        2 => drop(builder.and(&row, &before)),
        3 => builder.output(&row),
        _ => (),
    }
    builder
}

/// Single wires until `target` wires or about 8,192 words stand.
fn fill(random: &mut Random, builder: &mut Builder, target: usize) {
    while builder.wires() < target && builder.table.len() + 2 <= 8194 {
        if random.once_in(3) {
            let (label, stage) = (random.below(builder.d), random.below(256));
            builder.constant(label, 1, stage);
        } else {
            builder.not(0);
        }
    }
}

/// Rows of registers, AND and REF up to stage 255 and at times past it; then at times an OUT of the last, also of an AND.
fn many_stages(random: &mut Random) -> Builder {
    let mut builder = Builder::new(random.within(2, 8));
    let mut stage = random.within(200, 254);
    let mut before = builder.input(stage - 1);
    let mut row = builder.input(stage);
    let last = random.within(253, 256);
    while stage < last {
        let next: Vec<u16> = match random.below(6) {
            0 => builder.refresh(&row),
            1 if builder.wires() < 4000 => builder.and(&row, &before),
            _ => builder.registers(&row),
        };
        before = row;
        row = next;
        stage += 1;
    }
    if random.once_in(2) {
        builder.output(&row);
    }
    builder
}
