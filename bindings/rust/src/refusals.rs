//! What the numbers of refusals mean, in the words of the table of docs/SPEC.md.
//! `tools/refusals --write` puts them here, and the gate compares them.

pub(crate) fn words(number: u32) -> &'static str {
    match number {
        1 => "block too short for a header",
        2 => "count out of range",
        3 => "wrong offset",
        4 => "block of the wrong length",
        5 => "prefix word that names no variable",
        6 => "variable bound more than once",
        7 => "innermost variable is universal",
        8 => "wrong clause end",
        9 => "literal that names no variable",
        10 => "clause with a literal and its opposite",
        11 => "record buffer too short",
        12 => "broken record",
        13 => "session is over",
        14 => "seen at another revision",
        15 => "no revisions left",
        16 => "no decision is due",
        17 => "literal is not open",
        18 => "first group is universal",
        19 => "first group too large",
        20 => "start past the end",
        21 => "no room for an entry",
        22 => "too many values to try",
        23 => "clause that repeats a literal",
        27 => "not a text",
        28 => "numbers that can't be right",
        29 => "text over the limits",
        30 => "output too short",
        31 => "formula that no block may have",
        32 => "nothing to show",
        _ => "no number of the table",
    }
}
