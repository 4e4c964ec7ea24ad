//! docs/ARRANGEMENT.md, section 13: 002's eqs. (1), (3), (4) and (10). None is refusal 7.

use crate::equation::{CRITICAL_DENSITY, CRITICAL_TEMPERATURE};
use crate::numbers::{exponential, powers, root, FAILED};

/// Table 3.
pub const L: [f64; 4] = [1.51874307e-2, 2.80674040e-2, 2.28564190e-2, -7.41624210e-3];
/// Table 4: B₁ᵢ and B₂ᵢ.
#[rustfmt::skip]
const B: [(f64, f64); 6] = [
    (1.00128e-2, 4.30829e-3),
    (5.60488e-2, -3.58563e-2),
    (-8.11620e-2, 6.71480e-2),
    (6.24337e-2, -5.22855e-2),
    (-2.06336e-2, 1.74571e-2),
    (2.53248e-3, -1.96414e-3),
];

/// Over a divisor that is not finite it fails, where a quotient would be 0.
fn over(x: f64, divisor: f64) -> f64 {
    if divisor.is_finite() {
        x / divisor
    } else {
        FAILED
    }
}

/// Eq. (3), in mW/(m K).
pub fn dilute_gas(r: f64) -> f64 {
    let [_, _, r2, r3] = powers(r);
    over(root(r, 1, 2), ((L[0] + over(L[1], r)) + over(L[2], r2)) + over(L[3], r3))
}

/// Eq. (4), in W/(m K).
pub fn residual(r: f64, delta: f64) -> f64 {
    let whole: [f64; 7] = powers(delta);
    let term = |i: usize| (B[i - 1].0 + B[i - 1].1 * r) * whole[i];
    (2..=6).fold(term(1), |sum, i| sum + term(i))
}

/// Eq. (10), in mW/(m K). What the exponential says is dropped.
pub fn critical_enhancement(r: f64, delta: f64) -> f64 {
    let (t, d) = (r - 1.0, delta - 1.0);
    let [_, _, d2, d3] = powers(d);
    let (e, _said) = exponential(((8.865 * t + 4.16 * d2) + (2.302 * t) * d) - d3);
    let n = -17.47 - 44.88 * t;
    let m = ((0.8563 - e) - 0.4503 * d) - 7.197 * t;
    over(n, m)
}

/// Eq. (1), in W/(m K).
pub fn conductivity(t: f64, rho: f64) -> Option<f64> {
    let (r, delta) = (t / CRITICAL_TEMPERATURE, rho / CRITICAL_DENSITY);
    let sum = (dilute_gas(r) / 1000.0 + residual(r, delta)) + critical_enhancement(r, delta) / 1000.0;
    Some(sum).filter(|sum| sum.is_finite())
}

#[cfg(test)]
mod tests {
    use super::*;
    use crate::doors::{asked, from_density, from_pressure};

    fn reduced(t: f64) -> f64 {
        t / CRITICAL_TEMPERATURE
    }

    /// Eq. (1) without its last term, in mW/(m K).
    fn background(t: f64, rho: f64) -> f64 {
        dilute_gas(reduced(t)) + 1000.0 * residual(reduced(t), rho / CRITICAL_DENSITY)
    }

    fn close(x: f64, printed: f64, within: f64) {
        assert!((x - printed).abs() <= within, "{x} for {printed}");
    }

    #[test]
    fn samples_of_table_7() {
        let (_, state) = asked(from_density(310.0, 400.0)).unwrap();
        close(1000.0 * state.conductivity.unwrap(), 76.05, 0.01);
        close(background(310.0, 400.0), 39.92, 0.01);
    }

    #[test]
    fn recommended_values_of_table_8() {
        for (t, printed) in [(240.0, 12.28), (300.0, 16.72), (400.0, 24.67), (500.0, 32.84)] {
            close(dilute_gas(reduced(t)), printed, 0.005);
        }
        // at 500 K the enhancement of the full model is small
        for (p, printed) in [(1e5, 32.88), (2e7, 43.17)] {
            let (_, state) = from_pressure(500.0, p).unwrap();
            close(background(500.0, state.eight[2]), printed, 0.005);
        }
    }

    #[test]
    fn where_it_fails() {
        let fails = |(t, rho): (f64, f64)| conductivity(t, rho).is_none();
        // M is 0, then the sum of eq. (3); x is above 700; the root is refused; a power of r is 0, and one of δ not finite
        let failing =
            [(272.4, 757.12363082418), (73.80111870258996, 400.0), (24318.763281782296, 467.6), (-300.0, 400.0), (1e-110, 400.0), (300.0, 2e54)];
        assert_eq!(failing.map(fails), [true; 6]);
        let beside =
            [(272.4, 757.1236308241799), (73.80111870258995, 400.0), (24318.763281782292, 467.6), (1e-100, 400.0), (300.0, 1e54), (300.0, 5611.2)];
        assert_eq!(beside.map(fails), [false; 6]);
        for odd in [0.0, -0.0, 1e300, f64::INFINITY, f64::NEG_INFINITY, f64::NAN] {
            assert!(fails((odd, 400.0)) && (odd == 0.0 || fails((300.0, odd))), "{odd}");
        }
    }

    #[test]
    fn asked_of_a_door() {
        let (phase, state) = from_pressure(250.0, 5e6).unwrap();
        let (asked_phase, asked_state) = asked(from_pressure(250.0, 5e6)).unwrap();
        assert_eq!((asked_phase, asked_state.eight, asked_state.fallen), (phase, state.eight, state.fallen));
        assert_eq!((state.conductivity, asked_state.conductivity), (None, conductivity(250.0, state.eight[2])));
        assert_eq!(asked(from_density(250.0, state.eight[2])), asked(from_pressure(250.0, 5e6)));
        assert_eq!([(250.0, 500.0), (217.0, 1186.152), (304.1282, 467.6)].map(|(t, rho)| asked(from_density(t, rho))), [8, 19, 6].map(Err));
    }
}
