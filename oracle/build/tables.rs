//! Document 01's two tables, made from its series by exact whole-number arithmetic.

use crate::big::Big;

/// A fraction of whole numbers, not negative.
struct Fraction {
    over: Big,
    under: Big,
}

/// The whole number nearest to 2^52 times the fraction (a half upwards; none occurs).
fn nearest(f: &Fraction) -> u64 {
    let doubled = f.over.times(&Big::of(1 << 53)).plus(&f.under);
    doubled.over(&f.under.times(&Big::of(2)))
}

/// Entry i: the sine series through degree 27 at i × P/(2048 × 10^30).
pub fn sines() -> Vec<u64> {
    (0..=1024).map(sine).collect()
}

fn sine(i: u128) -> u64 {
    const P: u128 = 3141592653589793238462643383279;
    let x = Fraction { over: Big::of(i).times(&Big::of(P)), under: Big::of(2048).times(&Big::of(10u128.pow(30))) };
    let (a, b) = (x.over.times(&x.over), x.under.times(&x.under));
    // x(1 - x²/(2·3) (1 - x²/(4·5) (.. (1 - x²/(26·27))))), from the inside out.
    let mut t = Fraction { over: Big::of(1), under: Big::of(1) };
    for k in (1..=13u128).rev() {
        let under = t.under.times(&b).times(&Big::of(2 * k * (2 * k + 1)));
        t = Fraction { over: under.minus(&a.times(&t.over)), under };
    }
    nearest(&Fraction { over: x.over.times(&t.over), under: x.under.times(&t.under) })
}

/// Entry j: 80 terms of Euler's series of the arctangent at c = j/64.
pub fn arctangents() -> Vec<u64> {
    (0..=64).map(arctangent).collect()
}

fn arctangent(j: u128) -> u64 {
    // Term 0 is c/(1 + c²) = 64j/(4096 + j²). Term m + 1 is term m times 2(m + 1)/(2m + 3) × j²/(4096 + j²).
    let (square, whole) = (j * j, 4096 + j * j);
    let mut t = Fraction { over: Big::of(1), under: Big::of(1) };
    for m in (0..79u128).rev() {
        let under = t.under.times(&Big::of((2 * m + 3) * whole));
        let over = under.plus(&t.over.times(&Big::of(2 * (m + 1) * square)));
        t = Fraction { over, under };
    }
    nearest(&Fraction { over: t.over.times(&Big::of(64 * j)), under: t.under.times(&Big::of(whole)) })
}

/// The table as a Rust array.
pub fn rust(table: &[u64]) -> String {
    format!("{table:?}")
}
