//! The check against its cases, each row asked by itself.

use judge::block::{breaks, check, Formula, ROWS};
use judge::cases;

fn rows_broken(block: &[i32]) -> Vec<u8> {
    ROWS.into_iter().filter(|&row| breaks(block, row)).collect()
}

#[test]
fn every_case_gets_its_number() {
    for case in cases::check_cases() {
        assert_eq!(check(&case.block), case.number, "{}", case.name);
    }
}

#[test]
fn each_row_has_blocks_that_it_alone_refuses() {
    let cases = cases::alone();
    for (row, block) in &cases {
        assert_eq!(rows_broken(block), [*row], "{block:?}");
    }
    assert!(ROWS.iter().all(|row| cases.iter().any(|(of, _)| of == row)));
}

#[test]
fn of_two_neighbouring_rows_the_lower_one_answers() {
    let cases = cases::neighbours();
    for (row, block) in &cases {
        let broken = rows_broken(block);
        assert!(
            broken.contains(row) && broken.contains(&cases::after(*row)),
            "{block:?}"
        );
        assert_eq!(check(block), *row, "{block:?}");
    }
    assert!((1..=10).all(|row| cases.iter().any(|(of, _)| *of == row)));
}

#[test]
fn limits_alone_break_row_2_alone() {
    for counts in [
        (1025, 1, 1),
        (1, 4097, 1),
        (1024, 9, 8193),
        (1025, 4097, 8193),
    ] {
        let block = cases::of_counts(counts.0, counts.1, counts.2);
        assert_eq!(rows_broken(&block), [2]);
    }
}

#[test]
fn groups_and_levels() {
    let block = judge::block::lay_out(&[-4, -2, 3, 1, -5, 6], &[vec![3, -4]]);
    let formula = Formula::read(&block).unwrap();
    let levels: Vec<usize> = formula.order().map(|v| formula.level(v)).collect();
    assert_eq!(levels, [0, 0, 1, 1, 2, 3]);
    assert_eq!(formula.first_group(), 2);
    assert!(formula.first_group_universal());
    assert_eq!(formula.clauses[0].len(), 2);
    let empty = Formula::read(&cases::E).unwrap();
    assert_eq!(empty.first_group(), 0);
    assert!(!empty.first_group_universal());
}
