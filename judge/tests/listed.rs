//! The listing of a text.

use judge::listed::lines;

/// Case G.
#[test]
fn three_of_four_win() {
    let text = b"p cnf 4 3\ne 1 2 0\na 3 0\ne 4 0\n1 2 0\n-3 4 0\n3 -4 0\n";
    let three = ["-1 2 0", "1 -2 0", "1 2 0"].map(str::to_string);
    assert_eq!(lines(text), Ok(three.to_vec()));
}

/// Two that no line binds are outermost, in their order, whatever the order of the lines.
#[test]
fn free_variables_come_first() {
    let text = b"p cnf 4 2\ne 3 0\na 1 0\ne 2 0\n4 0\n-3 2 0\n";
    let two = ["4 -3 0", "4 3 0"].map(str::to_string);
    assert_eq!(lines(text), Ok(two.to_vec()));
}

#[test]
fn refusals() {
    assert_eq!(lines(b"p cnf 0 0\n"), Ok(vec!["0".to_string()]));
    assert_eq!(lines(b"p cnf 2 0\na 1 0\n"), Err("18".to_string()));
    assert_eq!(lines(b"p cnf 21 0\n"), Err("19".to_string()));
    assert_eq!(lines(b"p cnf 1 0"), Err("27 9".to_string()));
}
