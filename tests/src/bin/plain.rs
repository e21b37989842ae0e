//! The plain circuit: where check_sharings says yes, the added shares of every sharing, and of every OUT, are its bits on the
//! added inputs; and the plain circuits of the masked S-boxes have the S-boxes' tables.
use masked_tests::calls::{Answer, Calls};
use masked_tests::generate::random::Random;
use masked_tests::generate::sharing::{sharing, Form};
use masked_tests::mask::masking::mask;
use masked_tests::mask::sbox::{aes, number, present, Sbox};
use masked_tests::options;
use masked_tests::reference::check::{walk, Rules};
use masked_tests::reference::circuit::Circuit;
use masked_tests::reference::plain::{Gate, Plain};
use masked_tests::reference::sharings::plain_circuit;
use masked_tests::subject::subject;
use std::process::exit;

/// Evaluations of each circuit.
const ROUNDS: usize = 4;
/// Sharings of one set of secret bits that are tried where an OUT is of two sharings.
const TRIES: usize = 16;

fn check_sharings(calls: &dyn Calls, table: &[u16]) -> Answer {
    calls.check_sharings(table, &mut vec![0; 16384])
}

/// The values of an evaluation.
fn evaluated(
    calls: &dyn Calls,
    table: &[u16],
    shares: &[u8],
    tape: &[u8],
) -> Result<Vec<u8>, String> {
    let (mut notes, mut values) = (vec![0; 16384], vec![9; 8192]);
    match calls.evaluate(table, &mut notes, shares, tape, &mut values).result {
        0 => Ok(values),
        rule => Err(format!("an evaluation is refused {rule}")),
    }
}

/// Adds bits modulo 2.
fn sum(bits: impl Iterator<Item = u8>) -> u8 {
    bits.fold(0, |sum, bit| sum ^ bit)
}

/// The added shares of each OUT, in the order of the table.
fn outs(circuit: &Circuit, values: &[u8]) -> Vec<u8> {
    let rows = circuit.frames.iter().filter(|words| words[0] == 8);
    rows.map(|words| sum(words[1..].iter().map(|&wire| values[usize::from(wire)]))).collect()
}

/// The first sharing or OUT whose added shares are not the plain circuit's bit.
fn misfit(circuit: &Circuit, plain: &Plain, secrets: &[u8], values: &[u8]) -> Option<String> {
    let bits = plain.values(secrets);
    for (number, wires) in plain.sharings.iter().enumerate() {
        if sum(wires.iter().map(|&wire| values[wire])) != bits[number] {
            return Some(format!("sharing {number}, wires {wires:?}"));
        }
    }
    let (added, wanted) = (outs(circuit, values), plain.outputs(secrets));
    (added != wanted).then(|| format!("OUTs {added:?}, plain {wanted:?}"))
}

/// What was evaluated and compared.
#[derive(Default)]
struct Tally {
    by_shares: [u64; 9],
    /// IN, CON, XOR, NOT, REG and REF, AND.
    sharings: [u64; 6],
    outs: u64,
    evaluations: u64,
    /// Circuits that do not fit where NOTs flip for even d, and where they do not for odd d.
    other_flips: [u64; 2],
    /// OUTs of two sharings, and those of them whose sum is not fixed by the secret bits.
    mixed: [u64; 2],
}

impl Tally {
    /// A random circuit: held to its plain circuit where the answer is yes.
    fn take(&mut self, calls: &dyn Calls, random: &mut Random) -> Result<(), String> {
        let case = sharing(random);
        let (circuit, _) = walk(&case.table, Rules::All);
        match (check_sharings(calls, &case.table).result, case.form) {
            (0, _) => self.fits(calls, random, &case.table, &circuit),
            (26, Form::Broken { kind: 8, .. }) => self.mixed(calls, random, &case.table, &circuit),
            _ => Ok(()),
        }
    }

    /// Evaluates on random shares and tapes, and compares every sharing and OUT.
    fn fits(
        &mut self,
        calls: &dyn Calls,
        random: &mut Random,
        table: &[u16],
        circuit: &Circuit,
    ) -> Result<(), String> {
        let plain = plain_circuit(circuit)
            .map_err(|refusal| format!("yes, but the second program says {refusal:?}"))?;
        // flips for the other d
        let other = Plain { d: plain.d + 1, ..plain.clone() };
        let mut other_fits = true;
        for _ in 0..ROUNDS {
            let shares = random.bits(circuit.d * circuit.inputs);
            let tape = random.bits(circuit.randoms);
            let values = evaluated(calls, table, &shares, &tape)?;
            let secrets: Vec<u8> =
                shares.chunks(circuit.d).map(|row| sum(row.iter().copied())).collect();
            if let Some(what) = misfit(circuit, &plain, &secrets, &values) {
                return Err(format!("secrets {secrets:?}: {what}"));
            }
            other_fits &= misfit(circuit, &other, &secrets, &values).is_none();
        }
        self.other_flips[circuit.d % 2] += u64::from(!other_fits);
        self.note(&plain);
        Ok(())
    }

    /// Counts an OUT of two sharings whose sum differs between sharings of one set of secret bits: it means nothing.
    fn mixed(
        &mut self,
        calls: &dyn Calls,
        random: &mut Random,
        table: &[u16],
        circuit: &Circuit,
    ) -> Result<(), String> {
        let secrets = random.bits(circuit.inputs);
        let mut seen = Vec::new();
        for _ in 0..TRIES {
            let shares = random.sharing(&secrets, circuit.d);
            let tape = random.bits(circuit.randoms);
            seen.push(outs(circuit, &evaluated(calls, table, &shares, &tape)?));
        }
        self.mixed[0] += 1;
        self.mixed[1] += u64::from(seen.iter().any(|outs| *outs != seen[0]));
        Ok(())
    }

    fn note(&mut self, plain: &Plain) {
        self.by_shares[plain.d] += 1;
        self.outs += plain.outputs.len() as u64;
        self.evaluations += ROUNDS as u64;
        for gate in &plain.gates {
            self.sharings[match gate {
                Gate::Secret(_) => 0,
                Gate::Constant(_) => 1,
                Gate::Sum(..) => 2,
                Gate::Nots(_) => 3,
                Gate::Same(_) => 4,
                Gate::Product(..) => 5,
            }] += 1;
        }
    }

    /// Prints what was met; gives how much of it never was.
    fn print(&self) -> usize {
        let Tally { by_shares, sharings, outs, evaluations, other_flips, mixed } = self;
        let shares: Vec<String> = (2..9).map(|d| format!("d {d}: {}", by_shares[d])).collect();
        println!("circuits with the answer yes: {}; {evaluations} evaluations", shares.join(", "));
        let names = ["IN", "CON", "XOR", "NOT", "REG and REF", "AND"];
        let made: Vec<String> =
            names.iter().zip(sharings).map(|(name, times)| format!("{name} {times}")).collect();
        println!("their sharings: {}; OUTs {outs}: as the plain circuit has them", made.join(", "));
        let [even, odd] = other_flips;
        println!(
            "circuits that do not fit where NOTs flip for even d: {even}, do not for odd d: {odd}"
        );
        let [all, free] = mixed;
        println!("OUTs of two sharings: {all}, not fixed by the secret bits: {free}");
        let any = by_shares[2..].iter().chain(sharings).chain([outs]).chain(other_flips);
        any.chain(mixed).filter(|&&times| times == 0).count()
    }
}

/// A masked S-box within the limits: the answer is yes, all fits, and its plain circuit has the S-box's table.
fn sbox(calls: &dyn Calls, random: &mut Random, sbox: &Sbox, d: usize) -> Result<String, String> {
    let table = mask(&sbox.netlist, d).builder.table;
    let (circuit, refusal) = walk(&table, Rules::All);
    let answer = check_sharings(calls, &table);
    if answer.result != 0 || refusal.is_some() {
        return Err(format!("{answer:?}, the second program says {refusal:?}, to be a yes"));
    }
    Tally::default().fits(calls, random, &table, &circuit)?;
    let plain = plain_circuit(&circuit).map_err(|refusal| format!("{refusal:?}"))?;
    let rows = plain.truth_table().into_iter().map(|bits| number(&bits));
    if !rows.eq(sbox.table.iter().map(|&value| usize::from(value))) {
        return Err("the plain circuit's table is another".to_string());
    }
    let [wires, ..] = answer.numbers;
    let (gates, rows) = (plain.gates.len(), sbox.table.len());
    Ok(format!("{wires} wires, {gates} sharings: yes, its table right in {rows} rows"))
}

/// A masked S-box with too many wires: both programs refuse it by 14.
fn too_large(calls: &dyn Calls, sbox: &Sbox, d: usize) -> Result<String, String> {
    let table = mask(&sbox.netlist, d).builder.table;
    let (_, refusal) = walk(&table, Rules::All);
    let answer = check_sharings(calls, &table);
    match (answer.result, refusal.as_ref().map(|refusal| refusal.rule)) {
        (14, Some(14)) => Ok("does not fit, refused 14".to_string()),
        _ => Err(format!("{answer:?}, the second program says {refusal:?}, to be refused 14")),
    }
}

/// The S-boxes with 2 to 8 shares; gives how many passed and how many failed.
fn sboxes(calls: &dyn Calls, random: &mut Random) -> [u64; 2] {
    let [mut passed, mut failed] = [0; 2];
    // each with the most shares that fit
    for (masked, most) in [(present(), 8), (aes(), 5)] {
        for d in 2..=8 {
            let result = match d <= most {
                true => sbox(calls, random, &masked, d),
                false => too_large(calls, &masked, d),
            };
            passed += u64::from(result.is_ok());
            failed += u64::from(result.is_err());
            let line = result.unwrap_or_else(|what| format!("FAILED: {what}"));
            println!("{} d {d}: {line}", masked.name);
        }
    }
    [passed, failed]
}

fn main() {
    options::only(&["seed", "count", "first"]);
    let seed = options::number("seed", 1);
    let count = options::number("count", 2000);
    let first = options::number("first", 0);
    let (calls, name) = subject();
    println!("plain: through {name}, {count} circuits, seed {seed}");
    let (mut tally, mut passed, mut failed) = (Tally::default(), 0, 0);
    for number in first..first + count {
        match tally.take(calls.as_ref(), &mut Random::of_case(seed, number)) {
            Ok(()) => passed += 1,
            Err(what) => {
                failed += 1;
                println!("plain: seed {seed} circuit {number} failed: {what}");
            }
        }
    }
    let missing = tally.print();
    let [right, wrong] = sboxes(calls.as_ref(), &mut Random::new(seed));
    (passed, failed) = (passed + right, failed + wrong);
    println!("plain: {passed} passed, {failed} failed");
    if missing > 0 && count >= 1000 {
        println!("plain: {missing} of the numbers above are 0");
    }
    if failed > 0 || (missing > 0 && count >= 1000) {
        exit(1);
    }
}
