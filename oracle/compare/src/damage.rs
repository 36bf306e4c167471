//! Ways to spoil what a call is given. Some leave it good.

use crate::given::Given;
use crate::table::{MOST_COUNT, MOST_EDGES};
use oracle::splitmix::SplitMix64;
use proved::Size;

/// Up or down by one, where that is possible.
fn nudge(random: &mut SplitMix64, number: usize) -> usize {
    if random.once_in(2) {
        number + 1
    } else {
        number.saturating_sub(1)
    }
}

pub fn nudge_length<T: Clone>(random: &mut SplitMix64, list: &mut Vec<T>, other: T) {
    let length = nudge(random, list.len());
    list.resize(length, other);
}

/// Puts a number into a list, where it is long enough.
fn set(list: &mut [f64], place: usize, number: f64) {
    if let Some(at) = list.get_mut(place) {
        *at = number;
    }
}

fn one_size<'a>(random: &mut SplitMix64, size: &'a mut Size) -> &'a mut usize {
    match random.below(3) {
        0 => &mut size.checks,
        1 => &mut size.mechanisms,
        _ => &mut size.edges,
    }
}

/// Damage that sparse models, dense ones and lent lists all can have.
pub fn damage_common(random: &mut SplitMix64, given: &mut Given) {
    match random.below(6) {
        0 => {
            let beyond = [MOST_COUNT + 1, MOST_EDGES + 1, 1 << 32, usize::MAX];
            *one_size(random, &mut given.size) = random.pick(&beyond);
        }
        1 => {
            let size = one_size(random, &mut given.size);
            *size = nudge(random, *size);
        }
        2 => {
            nudge_length(random, &mut given.priors, 0.0);
            given.probabilities.resize(given.priors.len(), 0.5);
        }
        3 => {
            let all = given.lists.each();
            let which = random.below(all.len());
            nudge_length(random, all[which], 0);
        }
        4 if !given.priors.is_empty() => {
            let mechanism = random.below(given.priors.len());
            let least_above = f64::from_bits(30.0_f64.to_bits() + 1);
            let bad = [
                f64::NAN,
                -f64::NAN,
                f64::INFINITY,
                f64::NEG_INFINITY,
                least_above,
                -least_above,
                f64::MAX,
            ];
            given.priors[mechanism] = random.pick(&bad);
            let none = random.pick(&[f64::NAN, -0.25, 1.25, f64::INFINITY]);
            set(&mut given.probabilities, mechanism, none);
        }
        5 if !given.priors.is_empty() => {
            // No damage: priors at the limits, and zeros.
            let mechanism = random.below(given.priors.len());
            given.priors[mechanism] = random.pick(&[30.0, -30.0, 0.0, -0.0, 5e-324]);
            set(&mut given.probabilities, mechanism, 0.5);
        }
        _ => {}
    }
}

pub fn damage_sparse(random: &mut SplitMix64, given: &mut Given) {
    match random.below(10) {
        0 => nudge_length(random, &mut given.offsets, 0),
        1 => nudge_length(random, &mut given.detectors, 0),
        2 | 3 => {
            let at = random.below(given.offsets.len().max(1));
            let end = given.detectors.len();
            if let Some(offset) = given.offsets.get_mut(at) {
                *offset = match random.below(3) {
                    0 => random.between(0, end + 1) as u32,
                    1 => u32::MAX,
                    _ => nudge(random, *offset as usize) as u32,
                };
            }
        }
        4..=7 if !given.detectors.is_empty() => {
            let at = random.below(given.detectors.len());
            given.detectors[at] = if random.once_in(2) {
                (given.size.checks as u32).wrapping_add(random.pick(&[
                    0,
                    0,
                    1,
                    7,
                    1 << 16,
                    1 << 31,
                ]))
            } else {
                // Often of the same mechanism, so a repeat.
                given.detectors[at.saturating_sub(random.between(1, 2))]
            };
        }
        _ => damage_common(random, given),
    }
}

pub fn damage_lists(random: &mut SplitMix64, given: &mut Given) {
    let numbers = given.size.edges.min(MOST_EDGES) + 2;
    match random.below(8) {
        0..=2 => {
            let mut all = given.lists.each();
            let which = random.below(all.len());
            let list = &mut all[which];
            if !list.is_empty() {
                let at = random.below(list.len());
                list[at] = match random.below(4) {
                    0 => random.below(numbers) as u32,
                    1 => u32::MAX,
                    _ => nudge(random, list[at] as usize) as u32,
                };
            }
        }
        3 | 4 => {
            // Two entries exchanged: of the checks, or of the mechanisms in one list of the pair or in both.
            let [check_var, _, var_check, var_message, _] = given.lists.each();
            let mut lists = match random.below(4) {
                0 => vec![check_var],
                1 => vec![var_check],
                2 => vec![var_message],
                _ => vec![var_check, var_message],
            };
            let length = lists.iter().map(|list| list.len()).min().unwrap_or(0);
            if length > 0 {
                let (one, other) = (random.below(length), random.below(length));
                for list in &mut lists {
                    list.swap(one, other);
                }
            }
        }
        5 => {
            // A check or a mechanism without entries more: a graph still.
            if random.once_in(2) {
                given.size.checks += 1;
                let last = given.lists.check_offset.last().copied().unwrap_or(0);
                given.lists.check_offset.push(last);
            } else {
                given.size.mechanisms += 1;
                given.priors.push(1.0);
                given.probabilities.push(0.25);
                let last = given.lists.var_offset.last().copied().unwrap_or(0);
                given.lists.var_offset.push(last);
            }
        }
        6 => {
            // All at random: for tiny graphs that is a graph now and then.
            for list in given.lists.each() {
                list.fill_with(|| random.below(numbers.min(4)) as u32);
            }
        }
        _ => damage_common(random, given),
    }
}
