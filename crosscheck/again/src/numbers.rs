//! RULES 4: how a number is worked.
//!
//! A working that failed is a NaN. Sums, differences and products of what is not finite are not finite, so a formula of these may be
//! tested at its end; a quotient loses an infinite divisor, so divisors that could be one are tested where they stand.

pub const FAILED: f64 = f64::NAN;

/// RULES 4.3: n − 1 products from the left; x⁰ is 1.
pub fn whole_power(x: f64, n: u32) -> f64 {
    if n == 0 {
        return 1.0;
    }
    let mut p = x;
    for _ in 1..n {
        p *= x;
    }
    p
}

/// x⁰ to x to the N−1, worked once and handed on together.
pub fn powers<const N: usize>(x: f64) -> [f64; N] {
    let mut p = [1.0; N];
    for n in 1..N {
        p[n] = if n == 1 { x } else { p[n - 1] * x };
    }
    p
}

/// RULES 4.4, step 4, N numbers side by side: each goes through its own operations in the one order.
fn falling<const N: usize>(x: [f64; N]) -> [f64; N] {
    let y = x.map(|x| (-x) / 1024.0);
    let mut s = [1.0; N];
    for k in (1..=14).rev() {
        for i in 0..N {
            s[i] = 1.0 - (y[i] / f64::from(k)) * s[i];
        }
    }
    for _ in 0..10 {
        for s in &mut s {
            *s *= *s;
        }
    }
    s
}

/// RULES 4.4, steps 1 to 5 in their order; refused: failed. Beside the answers stands what is said of each argument: whether it was below −36
/// (docs/ARRANGEMENT.md, section 12). Of one that is refused nothing is said, which is a no here.
pub fn exponentials<const N: usize>(x: [f64; N]) -> ([f64; N], [bool; N]) {
    let mut e = falling(x);
    for i in 0..N {
        if !(-700.0..=0.0).contains(&x[i]) {
            e[i] = if !x[i].is_finite() || x[i] > 700.0 {
                FAILED
            } else if x[i] < -700.0 {
                0.0
            } else {
                1.0 / falling([-x[i]])[0]
            };
        }
    }
    (e, x.map(|x| x.is_finite() && x < -36.0))
}

pub fn exponential(x: f64) -> (f64, bool) {
    let ([answer], [said]) = exponentials([x]);
    (answer, said)
}

#[derive(Debug, PartialEq)]
pub enum Halved {
    At(u64),
    NoCrossing,
    NotFinite,
}

/// RULES 4.5: its five steps, a figure worked at exactly those places.
pub fn halve(mut lo: u64, mut hi: u64, target: f64, figure: impl Fn(f64) -> f64) -> Halved {
    if lo >= hi {
        return Halved::NoCrossing;
    }
    let first = figure(f64::from_bits(lo));
    if !first.is_finite() {
        return Halved::NotFinite;
    }
    let last = figure(f64::from_bits(hi));
    if !last.is_finite() {
        return Halved::NotFinite;
    }
    if first > target || last <= target {
        return Halved::NoCrossing;
    }
    while hi != lo + 1 {
        let mid = lo + (hi - lo) / 2;
        let here = figure(f64::from_bits(mid));
        if !here.is_finite() {
            return Halved::NotFinite;
        }
        if here > target {
            hi = mid;
        } else {
            lo = mid;
        }
    }
    Halved::At(lo)
}

const TOP: f64 = 1048576.0;

/// RULES 4.6, steps 1 to 5. The crossing is looked for beside a guess, then by the plain halving.
pub fn root(x: f64, m: u32, k: u32) -> f64 {
    if m >= 2 * k || !x.is_finite() || x < 0.0 {
        return FAILED;
    }
    if x == 0.0 {
        return 0.0;
    }
    let target = whole_power(x, m);
    if !target.is_finite() {
        return FAILED;
    }
    let guess = if (m, k) == (1, 2) { x.sqrt() } else { x.powf(f64::from(m) / f64::from(k)) };
    beside(guess, target, k).unwrap_or_else(|| plain_root(target, k))
}

fn plain_root(target: f64, k: u32) -> f64 {
    match halve(0.0f64.to_bits(), TOP.to_bits(), target, |y| whole_power(y, k)) {
        Halved::At(bits) => f64::from_bits(bits),
        _ => FAILED,
    }
}

/// The one place where the k-th power passes the target, if it is one of three about the guess. The power never falls as the bits rise, so
/// where y is not above the target and the next float is, the halving from 0 to 2²⁰ ends at y too; up to k = 51 the power of 2²⁰ is finite.
fn beside(guess: f64, target: f64, k: u32) -> Option<f64> {
    let bits = guess.to_bits();
    if !(1..=51).contains(&k) || bits < 1 || bits > TOP.to_bits() - 2 {
        return None;
    }
    let y = [bits - 1, bits, bits + 1, bits + 2].map(f64::from_bits);
    let mut p = y;
    for _ in 1..k {
        for i in 0..4 {
            p[i] *= y[i];
        }
    }
    (0..3).find(|&i| p[i] <= target && p[i + 1] > target).map(|i| y[i])
}

#[cfg(test)]
mod tests {
    use super::*;

    #[test]
    fn readings_of_document_01() {
        assert_eq!(exponential(0.0), (1.0, false));
        assert_eq!(exponential(-0.0), (1.0, false));
        assert_eq!(exponential(-701.0), (0.0, true));
        for refused in [700.0000000000001, f64::INFINITY, f64::NEG_INFINITY, f64::NAN] {
            let (answer, said) = exponential(refused);
            assert!(answer.is_nan() && !said);
        }
        assert_eq!(whole_power(2.0, 10), 1024.0);
        assert_eq!(root(0.0, 1, 2).to_bits(), 0);
        assert_eq!(root(-0.0, 1, 2).to_bits(), 0);
        assert_eq!(root(1.0, 1, 2), 1.0);
        assert_eq!(root(4.0, 1, 2), 2.0);
        assert!(root(-1.0, 1, 2).is_nan() && root(f64::NAN, 1, 2).is_nan() && root(2.0, 2, 1).is_nan() && root(2.0, 1, 52).is_nan());
    }

    #[test]
    fn below_36() {
        let said = |x: f64| exponential(x).1;
        let at = (-36.0f64).to_bits();
        assert_eq!([at - 1, at, at + 1].map(|bits| said(f64::from_bits(bits))), [false, false, true]);
        assert_eq!([-37.0, -700.0, -1e300].map(said), [true; 3]);
        assert_eq!([-1.0, 1.0, 36.0, 36.5, 700.0].map(said), [false; 5]);
    }

    #[test]
    fn a_guess_answers_what_the_halving_does() {
        let mut bits = 1u64;
        for (m, k) in [(1, 2), (1, 3), (2, 3), (3, 2), (5, 3), (11, 6), (7, 8), (37, 40), (17, 50)] {
            for i in 0..6000u64 {
                bits = bits.wrapping_mul(6364136223846793005).wrapping_add(1442695040888963407);
                let low: f64 = if i % 3 == 0 { 1e-320 } else { 1e-12 };
                let x = f64::from_bits(low.to_bits() + (bits >> 1) % (1e7f64.to_bits() - low.to_bits()));
                let target = whole_power(x, m);
                assert_eq!(root(x, m, k).to_bits(), plain_root(target, k).to_bits(), "{x} to {m}/{k}");
            }
        }
    }
}
