//! The masked S-boxes of PRESENT and AES: every input, on random sharings, held against the table.
//! `--write FOLDER` writes the texts for the examples instead.
use masked_tests::calls::Calls;
use masked_tests::generate::random::Random;
use masked_tests::mask::masking::{mask, Masked};
use masked_tests::mask::sbox::{aes, high_first, number, present, Sbox};
use masked_tests::options;
use masked_tests::subject::subject;
use std::path::Path;
use std::process::exit;

/// Evaluates one input; true where the added outputs are the S-box's value.
fn right(calls: &dyn Calls, random: &mut Random, sbox: &Sbox, masked: &Masked, x: usize) -> bool {
    let builder = &masked.builder;
    let shares = random.sharing(&high_first(x, sbox.bits), builder.d);
    let tape = random.bits(builder.randoms);
    let (mut notes, mut values) = (vec![0; 16384], vec![9; 8192]);
    let answer = calls.evaluate(&builder.table, &mut notes, &shares, &tape, &mut values);
    let add = |row: &Vec<u16>| row.iter().fold(0, |sum, &wire| sum ^ values[usize::from(wire)]);
    let bits: Vec<u8> = masked.outputs.iter().map(add).collect();
    answer.result == 0 && number(&bits) == usize::from(sbox.table[x])
}

/// Checks and evaluates one masked S-box; gives how many of its tests failed.
fn try_sbox(calls: &dyn Calls, random: &mut Random, sbox: &Sbox, d: usize, rounds: usize) -> usize {
    let masked = mask(&sbox.netlist, d);
    let builder = &masked.builder;
    let (words, wires) = (builder.table.len(), builder.wires());
    let answer = calls.check(&builder.table, &mut vec![0; 16384]);
    if words > 8192 || wires > 8192 {
        let rule = answer.result;
        println!("{} d {d}: {words} words, {wires} wires: does not fit, refused {rule}", sbox.name);
        return usize::from(rule != 14);
    }
    let [_, randoms, latency] = answer.numbers;
    let fine = answer.result == 0 && answer.numbers[0] == wires as u64;
    let inputs = (0..rounds).flat_map(|_| 0..sbox.table.len());
    let wrong = inputs.filter(|&x| !right(calls, random, sbox, &masked, x)).count();
    println!(
        "{} d {d}: {words} words, {wires} wires, {randoms} random bits, latency {latency}, \
         {} of {} inputs right",
        sbox.name,
        rounds * sbox.table.len() - wrong,
        rounds * sbox.table.len()
    );
    wrong + usize::from(!fine)
}

fn write(folder: &Path) {
    let wanted = (2..=8).map(|d| (present(), d)).chain((2..=3).map(|d| (aes(), d)));
    for (sbox, d) in wanted {
        let path = folder.join(format!("{}-d{d}.hex", sbox.name));
        let text = mask(&sbox.netlist, d).builder.text();
        std::fs::write(&path, text).unwrap_or_else(|error| {
            eprintln!("sboxes: {}: {error}", path.display());
            exit(2)
        });
        println!("sboxes: wrote {}", path.display());
    }
}

fn main() {
    options::only(&["seed", "rounds", "write"]);
    if let Some(folder) = options::text("write") {
        return write(Path::new(&folder));
    }
    let random = &mut Random::new(options::number("seed", 1));
    let rounds = options::number("rounds", 8) as usize;
    let (calls, name) = subject();
    println!("sboxes: through {name}");
    let (mut passed, mut failed) = (0, 0);
    for sbox in [present(), aes()] {
        let [ands, xors, nots] = sbox.netlist.sizes();
        let right = sbox.plain_is_right();
        println!("{} plain: {ands} AND, {xors} XOR, {nots} NOT, right {right}", sbox.name);
        failed += usize::from(!right);
        for d in 2..=8 {
            match try_sbox(calls.as_ref(), random, &sbox, d, rounds) {
                0 => passed += 1,
                _ => failed += 1,
            }
        }
    }
    println!("sboxes: {passed} passed, {failed} failed");
    if failed > 0 {
        exit(1);
    }
}
