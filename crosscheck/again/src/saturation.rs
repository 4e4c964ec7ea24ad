//! docs/ARRANGEMENT.md, section 10: 004's eqs. (3.13), (3.14) and (3.15). None is refusal 7.

use crate::equation::{CRITICAL_DENSITY, CRITICAL_TEMPERATURE};
use crate::numbers::{exponential, root, whole_power};

/// RULES 2.1: 7.3773 MPa, in Pa.
const CRITICAL_PRESSURE: f64 = 7377300.0;

fn theta(t: f64) -> f64 {
    1.0 - t / CRITICAL_TEMPERATURE
}

fn finite(x: f64) -> Option<f64> {
    x.is_finite().then_some(x)
}

/// eˣ; what is said of x is dropped (section 12).
fn e_to(x: f64) -> f64 {
    let (answer, _said) = exponential(x);
    answer
}

pub fn vapour_pressure(t: f64) -> Option<f64> {
    let h = theta(t);
    let tau = CRITICAL_TEMPERATURE / t;
    let sum = ((-7.0602087 * h + 1.9391218 * root(h, 3, 2)) + -1.6463597 * whole_power(h, 2)) + -3.2995634 * whole_power(h, 4);
    finite(CRITICAL_PRESSURE * e_to(tau * sum))
}

/// RULES 5: 7 where it is 0 or below.
fn above_zero(rho: f64) -> Option<f64> {
    finite(rho).filter(|&rho| rho > 0.0)
}

pub fn liquid_density(t: f64) -> Option<f64> {
    let h = theta(t);
    let sum = ((1.9245108 * root(h, 17, 50) + -0.62385555 * root(h, 1, 2)) + -0.32731127 * root(h, 5, 3)) + 0.39245142 * root(h, 11, 6);
    above_zero(CRITICAL_DENSITY * e_to(sum))
}

pub fn vapour_density(t: f64) -> Option<f64> {
    let h = theta(t);
    let sum = (((-1.7074879 * root(h, 17, 50) + -0.82274670 * root(h, 1, 2)) + -4.6008549 * h) + -10.111178 * (whole_power(h, 2) * root(h, 1, 3)))
        + -29.742252 * (whole_power(h, 4) * root(h, 2, 3));
    above_zero(CRITICAL_DENSITY * e_to(sum))
}
