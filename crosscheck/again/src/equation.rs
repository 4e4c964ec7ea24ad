//! The equation of 004 in the order of docs/ARRANGEMENT.md, sections 2 to 9, and the terms of it that fell away, section 12.

use crate::numbers::{exponentials, powers, root};
use crate::tables::{A2, A3, GAUSSIANS, IDEAL, ROWS, SHAPES, SHARPS};

/// RULES 2.1.
pub const CRITICAL_TEMPERATURE: f64 = 304.1282;
pub const CRITICAL_DENSITY: f64 = 467.6;
pub const GAS: f64 = 188.9241;

/// What of section 2 hangs on the temperature alone: τ, τᵗ of rows 1 to 39, β·(y·y) of rows 35 to 39, D·Y of rows 40 to 42.
pub struct Isotherm {
    t: f64,
    tau: f64,
    lift: [f64; 39],
    cold: [f64; 5],
    still: [f64; 2],
}

/// Section 2.
pub fn isotherm(t: f64) -> Isotherm {
    let tau = CRITICAL_TEMPERATURE / t;
    let whole: [f64; 29] = powers(tau);
    let quarter: [f64; 4] = powers(root(root(tau, 1, 2), 1, 2));
    let mut lift = [0.0; 39];
    let exponents = ROWS.iter().map(|row| row.j).chain(GAUSSIANS.iter().map(|row| row.j));
    for (lift, j) in lift.iter_mut().zip(exponents) {
        *lift = whole[j / 4] * quarter[j % 4];
    }
    let mut cold = [0.0; 5];
    for (cold, row) in cold.iter_mut().zip(&GAUSSIANS) {
        let y = tau - row.gamma;
        *cold = row.beta * (y * y);
    }
    let f = tau - 1.0;
    Isotherm { t, tau, lift, cold, still: [SHAPES[0].kd * (f * f), SHAPES[1].kd * (f * f)] }
}

/// Section 7: S₁ to S₅ where ALL, else S₁ alone. And section 12: for how many of the rows the exponential says that its argument was below −36.
fn sums<const ALL: bool>(on: &Isotherm, rho: f64) -> ([f64; 5], u32) {
    let delta = rho / CRITICAL_DENSITY;
    let d: [f64; 11] = powers(delta);
    let tau = on.tau;
    // section 6, what the three rows share
    let e = delta - 1.0;
    let x = e * e;

    // every exponential of the density side by side: E_c of section 2, those of section 5, Ψ of section 6
    let mut bells = [0.0; 5];
    for (i, row) in GAUSSIANS.iter().enumerate() {
        let x = delta - row.epsilon;
        bells[i] = -(row.alpha * (x * x) + on.cold[i]);
    }
    let [g1, g2, g3, g4, g5] = bells;
    let s1 = -(SHAPES[0].kc * x + on.still[0]);
    let s2 = -(SHAPES[1].kc * x + on.still[1]);
    let (exps, said) = exponentials([-d[1], -d[2], -d[3], -d[4], -d[5], -d[6], g1, g2, g3, g4, g5, s1, s2]);

    // −0 + x is x for every x, so each sum starts with row 1's product
    let mut sums = [-0.0; 5];
    let mut fallen = 0;
    let mut add = |term: f64, brackets: [f64; 5]| {
        for k in 0..if ALL { 5 } else { 1 } {
            sums[k] += term * brackets[k];
        }
    };

    // section 3
    for (row, lift) in ROWS[..7].iter().zip(&on.lift) {
        let (dn, t) = (row.d as f64, row.j as f64 / 4.0);
        let term = (row.n * d[row.d]) * lift;
        add(term, [dn, dn * (dn - 1.0), t, t * (t - 1.0), t * dn]);
    }
    // section 4
    for (row, lift) in ROWS[7..].iter().zip(&on.lift[7..]) {
        let (dn, t, c) = (row.d as f64, row.j as f64 / 4.0, row.c as f64);
        let term = ((row.n * d[row.d]) * lift) * exps[row.c - 1];
        fallen += u32::from(said[row.c - 1]);
        let g = c * d[row.c];
        let b = dn - g;
        add(term, [b, b * ((dn - 1.0) - g) - c * g, t, t * (t - 1.0), t * b]);
    }
    // section 5
    for (i, row) in GAUSSIANS.iter().enumerate() {
        let (dn, t) = (row.d as f64, row.j as f64 / 4.0);
        let (x, y) = (delta - row.epsilon, tau - row.gamma);
        let term = ((row.n * d[row.d]) * on.lift[34 + i]) * exps[6 + i];
        fallen += u32::from(said[6 + i]);
        let b = dn - ((2.0 * row.alpha) * delta) * x;
        let s = t - ((2.0 * row.beta) * tau) * y;
        let dd = ((b * b) - dn) - (2.0 * row.alpha) * (delta * delta);
        let tt = ((s * s) - t) - (2.0 * row.beta) * (tau * tau);
        add(term, [b, dd, s, tt, b * s]);
    }
    // section 6
    let f = tau - 1.0;
    let y = f * f;
    let x2 = x * x;
    let x3 = x2 * x;
    let size = if e < 0.0 { -e } else { e };
    let r = root(x, 5, 3);
    let v = root(x, 2, 3);
    for row in &SHARPS {
        let shape = &SHAPES[row.shape];
        let (a, b) = (shape.a, row.b);
        let (ka, kb, kc, kd) = (shape.ka, shape.kb, shape.kc, shape.kd);
        let (xa, xa1) = if a == 3.5 { (x3 * size, x2 * size) } else { (x3, x2) };
        let theta = (1.0 - tau) + ka * r;
        let cap = theta * theta + kb * xa;
        // a Δ that is not finite has no root, so both quotients fail with it; over a Δ of 0 they are not finite
        let p0 = root(cap, row.m, row.k);
        let p1 = p0 / cap;
        let term = (row.n * delta) * exps[11 + row.shape];
        fallen += u32::from(said[11 + row.shape]);
        let m = ((ka * theta) * (20.0 / 3.0)) * v + ((2.0 * kb) * a) * xa1;
        let cap_d = e * m;
        let p_d = (b * p1) * cap_d;
        let psi_d = -((2.0 * kc) * e);
        let k = delta * psi_d;
        let g = 1.0 + k;
        let l = delta * p_d;
        let mut brackets = [p0 * g + l, 0.0, 0.0, 0.0, 0.0];
        if ALL {
            let p2 = p1 / cap;
            let cap_dd = ((m + (((4.0 * kb) * a) * (a - 1.0)) * xa1) + (((2.0 * (ka * ka)) * (100.0 / 9.0)) * x) * (v * v))
                + (((ka * theta) * (40.0 / 3.0)) * (2.0 / 3.0)) * v;
            let p_dd = b * (p1 * cap_dd + ((b - 1.0) * p2) * (cap_d * cap_d));
            let p_t = -(((2.0 * theta) * b) * p1);
            let p_tt = (2.0 * b) * p1 + ((4.0 * (theta * theta)) * (b * (b - 1.0))) * p2;
            let p_dt = -(((((ka * b) * (20.0 / 3.0)) * p1) * e) * v) - (((2.0 * theta) * (b * (b - 1.0))) * p2) * cap_d;
            let psi_dd = ((2.0 * kc) * x - 1.0) * (2.0 * kc);
            let psi_t = -((2.0 * kd) * f);
            let psi_tt = ((2.0 * kd) * y - 1.0) * (2.0 * kd);
            let (delta2, tau2) = (delta * delta, tau * tau);
            brackets[1] = (p0 * (2.0 * k + delta2 * psi_dd) + (2.0 * l) * g) + delta2 * p_dd;
            brackets[2] = tau * (p_t + p0 * psi_t);
            brackets[3] = tau2 * ((p_tt + (2.0 * p_t) * psi_t) + p0 * psi_tt);
            brackets[4] = tau * ((((p0 * psi_t) * g + l * psi_t) + p_t * g) + delta * p_dt);
        }
        add(term, brackets);
    }
    (sums, fallen)
}

/// Section 9, the first row; by section 7 a pressure needs S₁ alone. Failed where it is not finite. Its count is dropped (section 12).
pub fn pressure(on: &Isotherm, rho: f64) -> f64 {
    let ([s1, ..], _fallen) = sums::<false>(on, rho);
    ((rho * GAS) * on.t) * (1.0 + s1)
}

/// Section 8: I₁ and I₂. What its exponentials say is dropped (section 12).
fn ideal(tau: f64) -> [f64; 2] {
    let (e, _said) = exponentials(IDEAL.map(|(_, theta)| -(theta * tau)));
    let mut first = A2 + A3 / tau;
    let mut second = -(A3 / (tau * tau));
    for ((a, theta), e) in IDEAL.into_iter().zip(e) {
        let o = 1.0 - e;
        first += (a * theta) * (1.0 / o - 1.0);
        second -= ((a * (theta * theta)) * e) / (o * o);
    }
    [tau * first, (tau * tau) * second]
}

/// Section 9: T, p, ρ, u, h, cᵥ, cₚ, w. Section 12: the count of the rows that fell away. Section 13: the conductivity, where it was asked for.
#[derive(Clone, Copy, Debug, PartialEq)]
pub struct State {
    pub eight: [f64; 8],
    pub fallen: u32,
    pub conductivity: Option<f64>,
}

/// The state before it is asked for the conductivity; None where a number on the way is not finite.
pub fn state(on: &Isotherm, rho: f64) -> Option<State> {
    let finite = |xs: &[f64]| xs.iter().all(|x| x.is_finite());
    let t = on.t;
    let ([s1, s2, s3, s4, s5], fallen) = sums::<true>(on, rho);
    let [i1, i2] = ideal(on.tau);
    let s = i1 + s3;
    let z = i2 + s4;
    let g = (1.0 + s1) - s5;
    let k = (1.0 + 2.0 * s1) + s2;
    if !finite(&[s1, s2, s3, s4, s5, i1, i2, s, z, g, k]) {
        return None;
    }
    let p = ((rho * GAS) * t) * (1.0 + s1);
    let u = (GAS * t) * s;
    let h = (GAS * t) * ((1.0 + s) + s1);
    let cv = GAS * (-z);
    let cp = GAS * ((-z) + (g * g) / k);
    let w = root((GAS * t) * (k - (g * g) / z), 1, 2);
    let eight = [t, p, rho, u, h, cv, cp, w];
    finite(&eight).then_some(State { eight, fallen, conductivity: None })
}
