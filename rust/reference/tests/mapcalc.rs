//! The lines of the small program: each form of a line, and bad input.

use reference::mapcalc::{Operation, input, line};
use reference::notation::graph;
use reference::random::{self, TableBytes};
use reference::record;

const COMMON: u8 = 1;
const COMBINE: u8 = 2;
const DIFFERENCE: u8 = 3;
const ORDER: u8 = 4;

const LONE_A: &str = "ok 10 01010000000000000000";

fn over(table: &TableBytes, text: &str) -> Vec<u8> {
    record::write(&graph((table.n - 1) as u8, text))
}

fn ask(operation: u8, first: &str, second: &str) -> Vec<u8> {
    let table = random::diamond();
    let (first, second) = (over(&table, first), over(&table, second));
    input(operation, 4, &table.bytes, &first, &second)
}

#[test]
fn an_input_as_it_stands_in_bytes() {
    let asked = ask(DIFFERENCE, "a", "a[9: b]");
    let mut expected = vec![3, 4];
    expected.extend([1, 0, 0, 0, 0, 0, 0, 0, 3, 0, 0, 0, 0, 0, 0, 0]);
    expected.extend([5, 0, 0, 0, 0, 0, 0, 0, 15, 0, 0, 0, 0, 0, 0, 0]);
    expected.extend([10, 0, 1, 1, 0, 0, 0, 0, 0, 0, 0, 0]);
    expected.extend([20, 0, 2, 1, 0, 2, 0, 0, 0, 0, 0, 0, 1]);
    expected.extend([2, 0, 0, 0, 0, 0, 0, 0, 0]);
    assert_eq!(asked, expected);
}

#[test]
fn results_are_printed_with_length_and_digits() {
    assert_eq!(line(&ask(COMMON, "a[0: b]", "a")), LONE_A);
    assert_eq!(line(&ask(COMBINE, "a", "top")), LONE_A);
    assert_eq!(line(&ask(DIFFERENCE, "top", "a")), LONE_A);
    assert_eq!(
        line(&ask(COMBINE, "top[63: a]", "top")),
        "ok 20 0203000000000000008001010000000000000000"
    );
}

#[test]
fn ranges_are_printed_behind_the_type() {
    assert_eq!(
        line(&ask(COMBINE, "a{10..100}", "top{50..200}")),
        "ok 12 018132640000000000000000"
    );
    assert_eq!(
        line(&ask(COMMON, "a{10..20}", "b{90..255}")),
        "ok 12 01830aff0000000000000000"
    );
    assert_eq!(line(&ask(COMMON, "a{0..20}", "a{90..255}")), LONE_A);
    assert_eq!(
        line(&ask(DIFFERENCE, "a{10..200}", "a{10..100}")),
        "ok 12 018300640000000000000000"
    );
    assert_eq!(line(&ask(COMBINE, "a{0..9}", "a{10..255}")), "refused 10");
    assert_eq!(line(&ask(ORDER, "a{0..9}", "a")), "under");
    assert_eq!(line(&ask(ORDER, "a", "a{9..9}")), "above");
    assert_eq!(line(&ask(DIFFERENCE, "a{0..9}", "a")), "refused 12");
}

#[test]
fn the_longest_line_has_the_longest_record() {
    let mut longest = random::ladder(255, &[0, 9, 18, 27, 36, 45, 54, 63], 3);
    for number in 0..16 {
        longest.nodes[number].links.insert(1, number + 1);
    }
    for node in &mut longest.nodes {
        node.label.range.highest = 254;
    }
    let longest = record::write(&longest);
    assert_eq!(longest.len(), 4854);
    let table = random::diamond();
    let printed = line(&input(COMBINE, 4, &table.bytes, &longest, &longest));
    assert!(printed.starts_with("ok 4854 ff8300fe"));
    assert_eq!(printed.len(), "ok 4854 ".len() + 2 * 4854);
}

#[test]
fn the_order_tells_which_is_the_broader() {
    assert_eq!(line(&ask(ORDER, "a", "a")), "same");
    assert_eq!(line(&ask(ORDER, "a", "top")), "under");
    assert_eq!(line(&ask(ORDER, "top", "a")), "above");
    assert_eq!(line(&ask(ORDER, "a", "b")), "neither");
    assert_eq!(line(&ask(ORDER, "top[0: a]", "top")), "under");
    assert_eq!(line(&ask(ORDER, "top", "top[0: top]")), "above");
    let shared = "top[0: X top, 1: X]";
    assert_eq!(line(&ask(ORDER, shared, "top[0: top, 1: top]")), "under");
    assert_eq!(line(&ask(ORDER, "top[0: top, 1: top]", shared)), "above");
    assert_eq!(line(&ask(ORDER, shared, "top[0: a, 1: top]")), "neither");
}

#[test]
fn refusals_are_printed_with_their_number() {
    assert_eq!(line(&ask(COMBINE, "a", "b")), "refused 10");
    let looping = ask(COMBINE, "top[0: X top, 1: X]", "top[0: Z a, 1: b[0: Z]]");
    assert_eq!(line(&looping), "refused 9");
    assert_eq!(line(&ask(DIFFERENCE, "a", "b")), "refused 12");
    let rivals = random::three_over_one();
    let (two, one) = (over(&rivals, "2"), over(&rivals, "1"));
    assert_eq!(line(&input(3, 6, &rivals.bytes, &two, &one)), "refused 13");
    let table = random::diamond();
    let low = record::write(&random::chain_graph(129, 0, 3));
    let high = record::write(&random::chain_graph(128, 1, 3));
    let large = input(COMBINE, 4, &table.bytes, &low, &high);
    assert_eq!(line(&large), "refused 11");
}

#[test]
fn refusals_of_graphs_tell_which() {
    let table = random::diamond();
    let good = over(&table, "a");
    let shapes: [(&[u8], u8); 4] = [
        (&[], 4),
        (&[1, 0, 0, 0, 0, 0, 0, 0, 0, 0], 5),
        (&[1, 3, 1, 0, 0, 0, 0, 0, 0, 0, 0], 6),
        (
            &[2, 3, 0, 0, 0, 0, 0, 0, 0, 0, 3, 0, 0, 0, 0, 0, 0, 0, 0],
            7,
        ),
    ];
    for operation in Operation::ALL {
        for (bad, number) in shapes {
            let operation = operation.byte();
            let first = input(operation, 4, &table.bytes, bad, &good);
            assert_eq!(line(&first), format!("refused {number} first"));
            let second = input(operation, 4, &table.bytes, &good, bad);
            assert_eq!(line(&second), format!("refused {number} second"));
            let both = input(operation, 4, &table.bytes, bad, bad);
            assert_eq!(line(&both), format!("refused {number} first"));
        }
    }
}

#[test]
fn a_table_of_8_n_bytes_is_read_for_every_n() {
    let record = over(&random::diamond(), "a");
    for n in (0..=1).chain(65..=255) {
        let table = vec![0xFF; 8 * usize::from(n)];
        let asked = input(ORDER, n, &table, &record, &record);
        assert_eq!(line(&asked), "refused 1", "{n}");
    }
    for n in 2..=64 {
        let table = vec![0; 8 * usize::from(n)];
        let asked = input(ORDER, n, &table, &[], &[]);
        assert_eq!(line(&asked), "refused 2", "{n}");
        let table = random::chain(usize::from(n)).bytes;
        let asked = input(ORDER, n, &table, &[], &[]);
        assert_eq!(line(&asked), "refused 4 first", "{n}");
    }
    let no_lattice = TableBytes::of_relation(6, |j, i| {
        j == i || j == 0 || i == 5 || ((1..3).contains(&j) && (3..5).contains(&i))
    });
    let asked = input(ORDER, 6, &no_lattice.bytes, &record, &record);
    assert_eq!(line(&asked), "refused 3");
}

#[test]
fn bad_input_of_every_short_length() {
    let whole = ask(COMBINE, "a[0: top]", "a");
    for length in 0..whole.len() {
        assert_eq!(line(&whole[..length]), "bad input", "{length}");
    }
    assert!(line(&whole).starts_with("ok "));
}

#[test]
fn bad_input_with_bytes_left() {
    for operation in Operation::ALL {
        let mut longer = ask(operation.byte(), "a", "a");
        longer.push(0);
        assert_eq!(line(&longer), "bad input");
    }
}

#[test]
fn bad_input_for_another_operation() {
    for operation in (0..=255).filter(|byte| !(1..=4).contains(byte)) {
        assert_eq!(line(&ask(operation, "a", "a")), "bad input");
        assert_eq!(Operation::of_byte(operation), None);
    }
}

#[test]
fn bad_input_for_a_record_length_above_8192() {
    let table = random::diamond();
    let good = over(&table, "a");
    let asked = |first: &[u8], second: &[u8]| line(&input(ORDER, 4, &table.bytes, first, second));
    // 8,192 bytes are read; no record is so long, so 4 is due.
    assert_eq!(asked(&vec![1; 8192], &good), "refused 4 first");
    assert_eq!(asked(&good, &vec![1; 8192]), "refused 4 second");
    assert_eq!(asked(&vec![1; 8193], &good), "bad input");
    assert_eq!(asked(&good, &vec![1; 8193]), "bad input");
    assert_eq!(asked(&vec![1; 65535], &[]), "bad input");
}

#[test]
fn bad_input_is_found_before_any_other_check() {
    // n is out of range, and the second record ends early.
    let mut asked = input(ORDER, 1, &[0; 8], &[], &[1, 2, 3]);
    assert_eq!(line(&asked), "refused 1");
    asked.pop();
    assert_eq!(line(&asked), "bad input");
}
