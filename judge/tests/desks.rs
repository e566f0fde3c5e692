//! The generated lines try everything that there is to try.

use judge::block::{breaks, LIMITS, ROWS};
use judge::desks;
use judge::hits::NAMES;
use judge::tally::Tally;

fn lines(seed: u64, count: usize) -> Vec<u8> {
    let mut bytes = Vec::new();
    desks::write(seed, count, &mut bytes).unwrap();
    bytes
}

/// The share of a command in a line of the tally.
fn share(counts: &str, command: &str) -> u64 {
    let mut words = counts.split(' ').skip_while(|&word| word != command);
    words.nth(1).map_or(0, |count| count.parse().unwrap())
}

#[test]
fn the_same_seed_gives_the_same_lines() {
    let once = lines(7, 2000);
    assert_eq!(once.iter().filter(|&&byte| byte == b'\n').count(), 2000);
    assert_eq!(once, lines(7, 2000));
    assert_ne!(once, lines(8, 2000));
}

/// Each count is at its limit in blocks that are accepted, and one over it in
/// blocks that are right in all else.
#[test]
fn every_limit_is_met_and_passed() {
    let mut met = [0; 3];
    let mut passed = [0; 3];
    for line in String::from_utf8(lines(1, 100_000)).unwrap().lines() {
        let words = line.strip_prefix("block ").unwrap_or("").split(' ');
        let block: Vec<i32> = words.filter_map(|word| word.parse().ok()).collect();
        if block.len() < 1000 {
            continue;
        }
        let broken: Vec<u8> = ROWS
            .into_iter()
            .filter(|&row| breaks(&block, row))
            .collect();
        for count in 0..3 {
            let over = i64::from(block[count]) - LIMITS[count];
            met[count] += usize::from(over == 0 && broken.is_empty());
            passed[count] += usize::from(over == 1 && broken == [2]);
        }
    }
    assert!(met.iter().all(|&count| count > 3), "{met:?}");
    assert!(passed.iter().all(|&count| count > 1), "{passed:?}");
}

/// Refusals that one buffer alone is to blame for: the reasons, the numbers by
/// clause, the index.
#[test]
fn every_buffer_is_to_blame() {
    let mut tally = Tally::default();
    for line in lines(3, 40_000).split(|&byte| byte == b'\n') {
        tally.note(line);
    }
    let told = tally.to_string();
    let blames = told.lines().filter_map(|line| line.strip_prefix("blame "));
    let count = |line: &str| line.split(' ').nth(1).unwrap().parse::<u64>().unwrap();
    let counts: Vec<u64> = blames.map(count).collect();
    assert_eq!(counts.len(), 6);
    assert!(counts.iter().all(|&count| count >= 30), "{told}");
}

/// Every refusal number, 1 to 23, 32, and 27 to 31 with its six rows, and every
/// rule is hit often.
#[test]
fn every_number_and_rule_is_hit() {
    for seed in [1, 2] {
        let mut tally = Tally::default();
        for line in lines(seed, 45_000).split(|&byte| byte == b'\n') {
            tally.note(line);
        }
        let told = tally.to_string();
        let counted = told
            .lines()
            .filter(|line| line.starts_with("refusal ") || line.starts_with("rule "));
        let counts: Vec<u64> = counted
            .map(|line| line.split(' ').nth(2).unwrap().parse().unwrap())
            .collect();
        assert_eq!(counts.len(), 43);
        assert!(counts.iter().all(|&count| count >= 30), "{told}");
    }
}

/// Writings are refused with every number that they can be, and not refused, and
/// what is written is read.
#[test]
fn every_answer_of_a_writing_is_hit() {
    let mut tally = Tally::default();
    for line in lines(4, 35_000).split(|&byte| byte == b'\n') {
        tally.note(line);
    }
    let told = tally.to_string();
    for name in ROWS
        .iter()
        .chain(&[30])
        .map(|row| format!("refusal {row} "))
    {
        let counts = told.lines().find(|line| line.starts_with(&name)).unwrap();
        assert!(share(counts, "write") >= 10, "{counts}");
    }
    let accepted = told.lines().find(|line| line.starts_with("accepted "));
    assert!(share(accepted.unwrap(), "write") >= 200, "{told}");
}

/// Counted runs are refused with every number that they can be, and apply every rule.
#[test]
fn every_answer_of_a_counted_run_is_hit() {
    let mut tally = Tally::default();
    for line in lines(6, 40_000).split(|&byte| byte == b'\n') {
        tally.note(line);
    }
    let told = tally.to_string();
    let rows = ROWS.into_iter().chain(11..=15);
    let names = rows.map(|row| format!("refusal {row} "));
    let rules = NAMES.map(|name| format!("rule {name} "));
    for name in names.chain(rules).chain(["accepted ".to_string()]) {
        let counts = told.lines().find(|line| line.starts_with(&name)).unwrap();
        assert!(share(counts, "counted") >= 10, "{counts}");
    }
}

/// What is shown is refused with every number that the console can give, and often not
/// refused, also after calls alone, where it is checked.
#[test]
fn every_answer_of_what_is_shown_is_hit() {
    let mut tally = Tally::default();
    for line in lines(5, 40_000).split(|&byte| byte == b'\n') {
        tally.note(line);
    }
    let told = tally.to_string();
    let rows = ROWS.into_iter().chain([11, 12, 32]);
    let names = rows.map(|row| format!("refusal {row} "));
    for name in names.chain(["accepted ".to_string()]) {
        let counts = told.lines().find(|line| line.starts_with(&name)).unwrap();
        assert!(share(counts, "shown") >= 10, "{counts}");
    }
    let checked = told
        .lines()
        .find_map(|line| line.strip_prefix("witnesses checked "));
    assert!(checked.unwrap().parse::<u64>().unwrap() >= 150, "{told}");
    assert!(told.contains("witnesses wrong 0\n"), "{told}");
}
