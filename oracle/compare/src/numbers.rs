//! The calls over single numbers against Rust's own operations.

use crate::counts::Counts;
use crate::rounds::{Part, Rate};
use crate::table::{test, wanted_clip};
use oracle::bits::same;
use oracle::splitmix::SplitMix64;
use proved::Clip;

pub const PARTS: &[Part] = &[
    Part {
        rate: Rate::Each(16),
        case,
    },
    Part {
        rate: Rate::Each(4),
        case: stores_fit,
    },
    Part {
        rate: Rate::Each(4),
        case: clip_good,
    },
];

/// Floats at which a sign or a test turns.
const EDGES: [f64; 14] = [
    0.0,
    -0.0,
    1.0,
    -1.0,
    30.0,
    -30.0,
    f64::MIN_POSITIVE,
    -f64::MIN_POSITIVE,
    5e-324,
    -5e-324,
    f64::MAX,
    f64::MIN,
    f64::INFINITY,
    f64::NEG_INFINITY,
];

/// An edge, a NaN, a small number, or any bits.
fn any_float(g: &mut SplitMix64) -> f64 {
    match g.below(4) {
        0 => g.pick(&EDGES),
        1 if g.once_in(8) => f64::NAN,
        2 => (g.draw() as i64 >> 40) as f64 / 1024.0,
        _ => f64::from_bits(g.draw()),
    }
}

/// A NaN's sign is positive in the port, so `copysign`'s is compared off a NaN.
fn case(_: u64, g: &mut SplitMix64, counts: &mut Counts) {
    let x = any_float(g);
    let (low, high) = (any_float(g), any_float(g));
    let (a, b) = (g.draw(), g.draw() >> (g.draw() % 64));
    let negative = !x.is_nan() && x.is_sign_negative();
    let message_sign = if x < 0.0 { -1.0 } else { 1.0 };
    let mut other = SplitMix64::new(a);
    let draw = other.draw();
    let unit = SplitMix64::new(a).unit();
    let good = same(proved::magnitude(x), x.abs())
        && proved::is_finite(x) == x.is_finite()
        && proved::is_negative(x) == negative
        && same(proved::message_sign(x), message_sign)
        && proved::wrapping_mul(a, b) == a.wrapping_mul(b)
        && proved::draw(a) == draw
        && proved::next_state(a) == other.state()
        && same(proved::unit(draw), unit)
        && same(proved::gamma(low, high, draw), low + (high - low) * unit)
        && same(proved::infinity(), f64::INFINITY)
        && proved::alpha_good(x) == (x.is_finite() && x > 0.0)
        && (proved::number_of(a), proved::place_of(a)) == (a & 0xFFFF, a >> 16)
        && proved::is_of_shot(b % 64) == [20, 21, 27, 30].contains(&(b % 64));
    counts.check("numbers", Ok(()), good, || {
        format!("x {x:e}, interval {low:e} to {high:e}, numbers {a:x} and {b:x}")
    });
}

/// Test 29 of a product, against one of 128 bits: about the limit, of nothing, or of any two numbers.
fn stores_fit(_: u64, g: &mut SplitMix64, counts: &mut Counts) {
    let any = |g: &mut SplitMix64| g.draw() >> g.below(64);
    let other = any(g);
    let (iterations, each) = match g.below(8) {
        0 => (0, other),
        1 => (other, 0),
        2 => (any(g), other),
        _ => {
            let each = other.max(1);
            let most = u64::MAX / each;
            let near = [most - 1, most, most, most.saturating_add(1)];
            (g.pick(&near), each)
        }
    };
    let (iterations, each) = g.pick(&[(iterations, each), (each, iterations)]);
    let product = u128::from(iterations) * u128::from(each);
    let wanted = test(product <= u128::from(u64::MAX), 29);
    let fits = proved::stores_fit(iterations, each);
    counts.check("numbers, of 29", wanted, fits == wanted.is_ok(), || {
        format!("{fits} for {iterations} iterations of {each} messages")
    });
}

/// Test 9 of a clip: of any float, and of all bytes.
fn clip_good(_: u64, g: &mut SplitMix64, counts: &mut Counts) {
    let magnitude = any_float(g);
    let on = match g.below(4) {
        0 => 0,
        1 => 1,
        _ => g.below(256) as u8,
    };
    let clip = Clip { on, magnitude };
    // By the bits alone: a number above 0 that is finite has bits from 1 up to those of the greatest.
    let bits = magnitude.to_bits();
    let is_good = on == 0 || (1..=f64::MAX.to_bits()).contains(&bits);
    let wanted = wanted_clip(clip);
    let good = proved::clip_good(clip);
    counts.check(
        "numbers, of 9",
        wanted,
        good == is_good && wanted.is_ok() == is_good,
        || format!("{good} for {clip:?}, bits {bits:016x}"),
    );
}
