//! What the archive says of probabilities, for `oracle/priors`. It reads a float's bits, in hexadecimal, from each line of standard input, and writes
//! for each a line: the number and the place of `prior_of`'s answer, whose mechanism is the line's own, from 0, and what it left in its two
//! results, which were 7 and 7.5 before; and then what `priors_of` made of it among all those of the lines that `prior_of` took. Whole numbers
//! are decimal, and floats their bits in hexadecimal.

use proved::{prior_of, priors_of};
use std::io::{self, BufRead, BufWriter, Write};

struct One {
    answer: (u64, u64),
    scaled: i64,
    prior: f64,
}

fn one(mechanism: usize, probability: f64) -> One {
    let (mut prior, mut scaled) = ([7.5], [7]);
    let answer = prior_of(probability, mechanism, &mut prior, &mut scaled);
    One {
        answer: answer.err().unwrap_or((0, 0)),
        scaled: scaled[0],
        prior: prior[0],
    }
}

fn main() -> io::Result<()> {
    let mut probabilities = Vec::new();
    for line in io::stdin().lock().lines() {
        let bits = u64::from_str_radix(line?.trim(), 16).map_err(io::Error::other)?;
        probabilities.push(f64::from_bits(bits));
    }
    let each = probabilities.iter().enumerate();
    let each: Vec<One> = each.map(|(place, &p)| one(place, p)).collect();
    let taken = probabilities.iter().zip(&each);
    let taken: Vec<f64> = taken
        .filter(|(_, one)| one.answer.0 == 0)
        .map(|(p, _)| *p)
        .collect();
    let (mut priors, mut scaled) = (vec![7.5; taken.len()], vec![7; taken.len()]);
    if priors_of(&taken, &mut priors, &mut scaled) != Ok(()) {
        return Err(io::Error::other("priors_of refuses what prior_of takes"));
    }
    let mut listed = scaled.into_iter().zip(priors);
    let mut out = BufWriter::new(io::stdout().lock());
    for one in each {
        let (number, place) = one.answer;
        let (scaled, prior) = match number {
            0 => listed.next().unwrap_or_default(),
            _ => (0, 0.0),
        };
        writeln!(
            out,
            "{number} {place} {} {:x} {scaled} {:x}",
            one.scaled,
            one.prior.to_bits(),
            prior.to_bits()
        )?;
    }
    out.flush()
}
