//! Counts: circuit A's, the parts per thousand, the order of the refusals, and what each of them leaves.
use super::cases::{table, CIRCUIT_A};
use super::check::{walk, Rules};
use super::count::pairs;
use super::Reference;
use crate::builder::Builder;
use crate::calls::{Answer, Calls};

const JUNK: u32 = 9;

/// The answer for a counts buffer of so many numbers, and the buffers afterwards.
fn count(
    table: &[u16],
    secrets: &[u8],
    probes: &[u16],
    room: usize,
) -> (Answer, Vec<u16>, Vec<u32>) {
    let (mut notes, mut counts) = (vec![7; 16384], vec![JUNK; room]);
    let answer = Reference.count(table, &mut notes, secrets, probes, &mut counts);
    (answer, notes, counts)
}

/// The rows of an accepted count; the rest of the buffer is as it was, and so are the notes behind the last wire.
fn rows(table: &[u16], secrets: &[u8], probes: &[u16], numbers: [usize; 3]) -> Vec<[u32; 4]> {
    let (answer, notes, counts) = count(table, secrets, probes, 1030);
    assert_eq!(answer, Answer::new(0, numbers));
    let mut checked = vec![7; 16384];
    Reference.check(table, &mut checked);
    assert!(notes == checked);
    let (rows, rest) = counts.split_at(4 * numbers[1]);
    assert!(rest.iter().all(|&number| number == JUNK));
    rows.chunks(4).map(|row| [row[0], row[1], row[2], row[3]]).collect()
}

#[test]
fn circuit_a_by_one_and_two_probes() {
    let a = table(CIRCUIT_A);
    let both = rows(&a, &[0, 0, 1, 1], &[26, 27], [2, 4, 8]);
    assert_eq!(both, [[4, 0, 500, 0], [0, 4, 0, 500], [0, 4, 0, 500], [4, 0, 500, 0]]);
    let again = rows(&a, &[1, 1, 0, 1], &[27, 26, 27], [2, 4, 8]);
    assert_eq!(again, [[0, 4, 0, 500], [4, 0, 500, 0], [4, 0, 500, 0], [0, 4, 0, 500]]);
    let one = rows(&a, &[0, 0, 1, 1], &[24], [3, 8, 8]);
    assert!(one.iter().all(|row| row[0] == row[1] && row[2] == row[3]));
    // M(0), U(0,1), W(0,1): a(0) = 0 gives 0 R 0; a(0) = 1 gives b(0) 0 b(1)+r
    assert_eq!(one.iter().map(|row| row[0]).collect::<Vec<_>>(), [3, 1, 2, 0, 1, 1, 0, 0]);
    assert_eq!(rows(&a, &[0, 0, 1, 1], &[], [0, 1, 8]), [[8, 8, 1000, 1000]]);
}

/// Circuit A and a refresh, whose random bit is read too: 1 and 3 of 16 pairs end on halves.
#[test]
fn halves_go_up() {
    let table = [table(CIRCUIT_A), vec![7, 1, 26, 27]].concat();
    let rows = rows(&table, &[0, 1, 1, 1], &[24, 28], [4, 16, 16]);
    let wanted = [[3, 3, 188, 188], [1, 1, 63, 63], [2, 2, 125, 125], [0, 0, 0, 0]];
    let order = [0, 1, 2, 3, 1, 1, 3, 3].map(|at| wanted[at]);
    assert_eq!(rows, order.map(|row| [row, row]).concat());
}

/// The sharings of a set are the lists whose secret bits are those, each once with each tape.
#[test]
fn all_pairs_of_a_set() {
    for (d, secrets) in [(2, vec![1, 0]), (3, vec![1]), (4, vec![0, 1])] {
        let mut builder = Builder::new(d);
        let row = secrets.iter().map(|_| builder.input(0)).last().expect("an IN");
        builder.refresh(&row);
        let (circuit, _) = walk(&builder.table, Rules::All);
        let bits = d * secrets.len() + circuit.randoms;
        let all = (0..1usize << bits)
            .map(|number| -> Vec<u8> { (0..bits).map(|bit| (number >> bit & 1) as u8).collect() });
        let shared = |list: &Vec<u8>| {
            let rows = list[..d * secrets.len()].chunks(d);
            rows.map(|row| row.iter().sum::<u8>() % 2).eq(secrets.iter().copied())
        };
        let wanted: Vec<Vec<u8>> = all.filter(shared).collect();
        let mut got: Vec<Vec<u8>> =
            pairs(&circuit, &secrets).map(|(shares, tape)| [shares, tape].concat()).collect();
        got.sort_by_key(|list| list.iter().rev().copied().collect::<Vec<u8>>());
        assert_eq!(got, wanted);
    }
}

/// So many INs of two shares, and REFs of the first.
fn inputs_and_refreshes(inputs: usize, refreshes: usize) -> Builder {
    let mut builder = Builder::new(2);
    let rows: Vec<Vec<u16>> = (0..inputs).map(|_| builder.input(0)).collect();
    for _ in 0..refreshes {
        builder.refresh(&rows[0]);
    }
    builder
}

/// Each rule with all later ones broken too; any refusal leaves the counts as they were, and the notes as the check's.
#[test]
fn refusals_in_their_order() {
    let large = inputs_and_refreshes(9, 8);
    let many: Vec<u16> = (0..9).collect();
    let refused = |table: &[u16], secrets: &[u8], probes: &[u16], room, wanted: Answer| {
        let (answer, notes, counts) = count(table, secrets, probes, room);
        assert_eq!(answer, wanted);
        let mut checked = vec![7; 16384];
        Reference.check(table, &mut checked);
        assert!(notes == checked && counts.iter().all(|&number| number == JUNK));
    };
    let mut wrong = vec![1; 18];
    wrong[17] = 2;
    let none = [many.clone(), vec![large.wires() as u16]].concat();
    let broken = [large.table.clone(), vec![9]].concat();
    refused(&broken, &wrong[..17], &none, 1023, Answer::new(5, [18, 0, 0]));
    refused(&large.table, &wrong[..17], &none, 1023, Answer::new(15, [0, 0, 0]));
    refused(&large.table, &[0; 19], &none, 1023, Answer::new(15, [0, 0, 0]));
    refused(&large.table, &wrong, &none, 1023, Answer::new(17, [0, 0, 0]));
    refused(&large.table, &wrong, &none, 1024, Answer::new(18, [0, 17, 0]));
    refused(&large.table, &[1; 18], &none, 1024, Answer::new(19, [0, 9, 0]));
    refused(&large.table, &[1; 18], &many, 1024, Answer::new(24, [0, 0, 0]));
    let small = inputs_and_refreshes(9, 7);
    refused(&small.table, &[1; 18], &many, 1024, Answer::new(25, [0, 0, 0]));
    assert_eq!(count(&small.table, &[1; 18], &many[..8], 1024).0, Answer::new(0, [8, 256, 65536]));
}
