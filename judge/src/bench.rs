//! Formulas from fixed seeds, of several shapes, to measure runs on: twenty of
//! 1,000 clauses, four with every count at its limit, and five tiny ones.

use crate::block::{lay_out, LIMITS};
use crate::cases;
use crate::dice::Dice;

pub const CLAUSES: usize = 1000;

/// A formula, and how many steps a run of it may take.
pub struct Trial {
    pub name: String,
    pub budget: u32,
    pub block: Vec<i32>,
}

pub fn trials() -> Vec<Trial> {
    let shapes: [(&str, usize, u32, Make); 7] = [
        ("hard-ratio", 5, 4000, |dice| three_clauses(dice, 235)),
        ("over-ratio", 2, 8000, |dice| three_clauses(dice, 95)),
        ("small-groups", 5, 4000, |dice| groups(dice, 4)),
        ("few-groups", 2, 8000, |dice| groups(dice, 22)),
        ("failover", 6, 4000, failover),
        ("limit-pinned", 2, 4000, pinned),
        ("limit-copies", 2, 4000, copies),
    ];
    let mut trials = Vec::new();
    for (name, count, budget, make) in shapes {
        for seed in 1..=count {
            let (prefix, clauses) = make(&mut Dice::new(seed as u64));
            trials.push(Trial {
                name: format!("{name}-{seed}"),
                budget,
                block: lay_out(&prefix, &clauses),
            });
        }
    }
    trials.extend(tiny());
    trials
}

/// Where a run is over after a few steps, and its start counts: the cases A, B and G
/// of docs/SPEC.md, and the plans of one rack with one guest and with three.
fn tiny() -> Vec<Trial> {
    let rack = |guests: usize| {
        let (prefix, clauses) = failover_of(&[guests]);
        lay_out(&prefix, &clauses)
    };
    let blocks = [
        ("tiny-a", cases::A.to_vec()),
        ("tiny-b", cases::b()),
        ("tiny-g", cases::G.to_vec()),
        ("tiny-plan-1", rack(1)),
        ("tiny-plan-3", rack(3)),
    ];
    let trial = |(name, block): (&str, Vec<i32>)| Trial {
        name: name.to_string(),
        budget: 4000,
        block,
    };
    blocks.map(trial).into()
}

type Make = fn(&mut Dice) -> Parts;

/// A prefix and clauses.
type Parts = (Vec<i32>, Vec<Vec<i32>>);

/// Three different variables of a list, each with a random sign.
fn three(dice: &mut Dice, variables: &[i32]) -> Vec<i32> {
    let mut clause: Vec<i32> = Vec::new();
    while clause.len() < 3 {
        let variable = dice.pick(variables);
        if clause.iter().all(|literal| literal.abs() != variable) {
            clause.push(variable * dice.pick(&[1, -1]));
        }
    }
    clause
}

/// Random clauses of three existential literals. About 4.26 for each variable
/// are the hardest; with many more the search soon fails everywhere.
fn three_clauses(dice: &mut Dice, variables: i32) -> Parts {
    let mut prefix: Vec<i32> = (1..=variables).collect();
    let clauses = (0..CLAUSES).map(|_| three(dice, &prefix)).collect();
    dice.shuffle(&mut prefix);
    (prefix, clauses)
}

/// That many existential variables, a universal one, and so on; in each clause
/// three existential literals and one of any other variable.
fn groups(dice: &mut Dice, existential: usize) -> Parts {
    let mut prefix: Vec<i32> = (1..=254).collect();
    dice.shuffle(&mut prefix);
    for word in prefix.iter_mut().skip(existential).step_by(existential + 1) {
        *word = -*word;
    }
    let positive: Vec<i32> = prefix.iter().copied().filter(|&word| word > 0).collect();
    let clauses = (0..CLAUSES).map(|_| {
        let mut clause = three(dice, &positive);
        let other = dice.pick(&prefix).abs();
        if clause.iter().all(|literal| literal.abs() != other) {
            clause.push(other * dice.pick(&[1, -1]));
        }
        clause
    });
    let clauses = clauses.collect();
    (prefix, clauses)
}

/// Failover plans of racks of four hosts, one guest to a host, side by side:
/// exists the placements, for all failures, exists the recoveries. A rack's
/// clauses are 20, 48 or 84 for 1, 2 or 3 guests.
fn failover(dice: &mut Dice) -> Parts {
    let racks = racks(dice);
    let (prefix, mut clauses) = failover_of(&racks);
    dice.shuffle(&mut clauses);
    (prefix, clauses)
}

/// The same of racks with that many guests, rack by rack.
fn failover_of(racks: &[usize]) -> Parts {
    let mut next = 0;
    let mut take = |count: usize| -> Vec<i32> {
        next += count as i32;
        (next - count as i32 + 1..=next).collect()
    };
    let placed: Vec<Vec<i32>> = racks.iter().map(|guests| take(2 * guests)).collect();
    let failed: Vec<Vec<i32>> = racks.iter().map(|_| take(2)).collect();
    let recovered: Vec<Vec<i32>> = racks.iter().map(|guests| take(2 * guests)).collect();
    let universal = failed.concat().into_iter().map(|variable| -variable);
    let prefix = [placed.concat(), universal.collect(), recovered.concat()].concat();
    let mut clauses = Vec::new();
    for rack in 0..racks.len() {
        plan(&placed[rack], &failed[rack], &recovered[rack], &mut clauses);
    }
    (prefix, clauses)
}

/// How many guests each rack has, so that the clauses are 1,000 in all.
fn racks(dice: &mut Dice) -> Vec<usize> {
    loop {
        let (ones, twos, threes) = (dice.below(8), dice.below(16), dice.below(12));
        if 20 * ones + 48 * twos + 84 * threes == CLAUSES {
            let mut racks = [vec![1; ones], vec![2; twos], vec![3; threes]].concat();
            dice.shuffle(&mut racks);
            return racks;
        }
    }
}

/// The plan of one rack. The host of a guest is two variables.
fn plan(placed: &[i32], failed: &[i32], recovered: &[i32], clauses: &mut Vec<Vec<i32>>) {
    let other_than = |pair: &[i32], host: usize| -> Vec<i32> {
        let differs = |(variable, bit): (&i32, usize)| if bit == 1 { -variable } else { *variable };
        pair.iter().zip([host / 2, host % 2]).map(differs).collect()
    };
    for host in 0..4 {
        for places in [placed, recovered] {
            let guests: Vec<&[i32]> = places.chunks(2).collect();
            for (place, one) in guests.iter().enumerate() {
                for two in &guests[place + 1..] {
                    clauses.push([other_than(one, host), other_than(two, host)].concat());
                }
            }
        }
        for (before, after) in placed.chunks(2).zip(recovered.chunks(2)) {
            for dead in other_than(failed, host) {
                for moved in other_than(after, host) {
                    let mut stays = other_than(before, host);
                    stays.extend([-dead, -moved]);
                    clauses.push(stays);
                }
            }
            clauses.push([other_than(failed, host), other_than(after, host)].concat());
        }
    }
}

/// V, C and T of the formulas at the limits. T is twice C, so as many clauses have
/// three literals as have one, and all others two.
fn at_the_limits() -> (i32, usize) {
    let [v, c, t] = LIMITS;
    assert_eq!(t, 2 * c);
    (v as i32, c as usize)
}

/// A hard search among much that is settled: most variables are pinned by a clause
/// of one literal each, and as many clauses of three literals are over the others,
/// at the hardest ratio. Each clause of two has a literal that is pinned true.
fn pinned(dice: &mut Dice) -> Parts {
    let (v, count) = at_the_limits();
    let core = v * 100 / (100 + HARDEST);
    let mut prefix: Vec<i32> = (1..=v).collect();
    let pins: Vec<i32> = (core + 1..=v)
        .map(|pin| pin * dice.pick(&[1, -1]))
        .collect();
    let mut clauses: Vec<Vec<i32>> = pins.iter().map(|&pin| vec![pin]).collect();
    let hard = |_| three(dice, &prefix[..core as usize]);
    let hard: Vec<Vec<i32>> = (0..pins.len()).map(hard).collect();
    clauses.extend(hard);
    while clauses.len() < count {
        let pin = dice.pick(&pins);
        let other = dice.pick(&prefix);
        if other != pin.abs() {
            clauses.push(vec![pin, other * dice.pick(&[1, -1])]);
        }
    }
    dice.shuffle(&mut clauses);
    dice.shuffle(&mut prefix);
    (prefix, clauses)
}

/// Clauses of three literals for a hundred variables, where they are hardest.
const HARDEST: i32 = 426;

/// A true formula of many groups, four existential variables and a universal one
/// by turns, whose search goes on and on: each existential variable after the
/// first group has to be what some universal one before it is, or the opposite.
/// A clause has two literals of one such family, of which always one is true.
fn copies(dice: &mut Dice) -> Parts {
    let (v, count) = at_the_limits();
    let mut prefix: Vec<i32> = (1..=v).collect();
    dice.shuffle(&mut prefix);
    let mut families: Vec<Vec<i32>> = Vec::new();
    for (place, word) in prefix.iter_mut().enumerate() {
        if place % 5 == 4 {
            families.push(vec![*word]);
            *word = -*word;
        } else if let Some(last) = families.len().checked_sub(1) {
            let family = dice.between(0, last as i64) as usize;
            families[family].push(*word * dice.pick(&[1, -1]));
        }
    }
    families.retain(|family| family.len() > 1);
    let mut clauses = Vec::new();
    while clauses.len() < count {
        let family = &families[dice.below(families.len())];
        let (one, other) = (dice.pick(family), dice.pick(family));
        if one != other {
            clauses.push(vec![one, -other]);
        }
    }
    (prefix, clauses)
}
