//! Table 31 of 004 as docs/READING.md reads it: n, d, t as j/4 and c of rows 1 to 34 (c = 0: no exponential), then the two kinds of rows
//! whose last columns the scan has lost.

pub struct Row {
    pub n: f64,
    pub d: usize,
    pub j: usize,
    pub c: usize,
}

#[rustfmt::skip]
pub const ROWS: [Row; 34] = [
    Row { n: 0.38856823203161e0, d: 1, j: 0, c: 0 },
    Row { n: 0.29385475942740e1, d: 1, j: 3, c: 0 },
    Row { n: -0.55867188534934e1, d: 1, j: 4, c: 0 },
    Row { n: -0.76753199592477e0, d: 1, j: 8, c: 0 },
    Row { n: 0.31729005580416e0, d: 2, j: 3, c: 0 },
    Row { n: 0.54803315897767e0, d: 2, j: 8, c: 0 },
    Row { n: 0.12279411220335e0, d: 3, j: 3, c: 0 },
    Row { n: 0.21658961543220e1, d: 1, j: 6, c: 1 },
    Row { n: 0.15841735109724e1, d: 2, j: 6, c: 1 },
    Row { n: -0.23132705405503e0, d: 4, j: 10, c: 1 },
    Row { n: 0.58116916431436e-1, d: 5, j: 0, c: 1 },
    Row { n: -0.55369137205382e0, d: 5, j: 6, c: 1 },
    Row { n: 0.48946615909422e0, d: 5, j: 8, c: 1 },
    Row { n: -0.24275739843501e-1, d: 6, j: 0, c: 1 },
    Row { n: 0.62494790501678e-1, d: 6, j: 4, c: 1 },
    Row { n: -0.12175860225246e0, d: 6, j: 8, c: 1 },
    Row { n: -0.37055685270086e0, d: 1, j: 12, c: 2 },
    Row { n: -0.16775879700426e-1, d: 1, j: 24, c: 2 },
    Row { n: -0.11960736637987e0, d: 4, j: 12, c: 2 },
    Row { n: -0.45619362508778e-1, d: 4, j: 24, c: 2 },
    Row { n: 0.35612789270346e-1, d: 4, j: 32, c: 2 },
    Row { n: -0.74427727132052e-2, d: 7, j: 24, c: 2 },
    Row { n: -0.17395704902432e-2, d: 8, j: 0, c: 2 },
    Row { n: -0.21810121289527e-1, d: 2, j: 28, c: 3 },
    Row { n: 0.24332166559236e-1, d: 3, j: 48, c: 3 },
    Row { n: -0.37440133423463e-1, d: 3, j: 64, c: 3 },
    Row { n: 0.14338715756878e0, d: 5, j: 88, c: 4 },
    Row { n: -0.13491969083286e0, d: 5, j: 96, c: 4 },
    Row { n: -0.23151225053480e-1, d: 6, j: 64, c: 4 },
    Row { n: 0.12363125492901e-1, d: 7, j: 96, c: 4 },
    Row { n: 0.21058321972940e-2, d: 8, j: 32, c: 4 },
    Row { n: -0.33958519026368e-3, d: 10, j: 8, c: 4 },
    Row { n: 0.55993651771592e-2, d: 4, j: 112, c: 5 },
    Row { n: -0.30335118055646e-3, d: 8, j: 56, c: 6 },
];

pub struct Gaussian {
    pub n: f64,
    pub d: usize,
    pub j: usize,
    pub alpha: f64,
    pub beta: f64,
    pub gamma: f64,
    pub epsilon: f64,
}

#[rustfmt::skip]
pub const GAUSSIANS: [Gaussian; 5] = [
    Gaussian { n: -0.21365488688320e3, d: 2, j: 4, alpha: 25.0, beta: 325.0, gamma: 1.16, epsilon: 1.0 },
    Gaussian { n: 0.26641569149272e5, d: 2, j: 0, alpha: 25.0, beta: 300.0, gamma: 1.19, epsilon: 1.0 },
    Gaussian { n: -0.24027212204557e5, d: 2, j: 4, alpha: 25.0, beta: 300.0, gamma: 1.19, epsilon: 1.0 },
    Gaussian { n: -0.28341603423999e3, d: 3, j: 12, alpha: 15.0, beta: 275.0, gamma: 1.25, epsilon: 1.0 },
    Gaussian { n: 0.21247284400179e3, d: 3, j: 12, alpha: 20.0, beta: 275.0, gamma: 1.22, epsilon: 1.0 },
];

/// Rows 40 to 42 without n and b. Rows 40 and 41 have the same, the first; row 42 has the second.
pub struct Shape {
    pub a: f64,
    pub ka: f64,
    pub kb: f64,
    pub kc: f64,
    pub kd: f64,
}

#[rustfmt::skip]
pub const SHAPES: [Shape; 2] = [
    Shape { a: 3.5, ka: 0.7, kb: 0.3, kc: 10.0, kd: 275.0 },
    Shape { a: 3.0, ka: 0.7, kb: 1.0, kc: 12.5, kd: 275.0 },
];

/// b, and as the root m/k that RULES 4.7 names for it.
pub struct Sharp {
    pub n: f64,
    pub b: f64,
    pub m: u32,
    pub k: u32,
    pub shape: usize,
}

#[rustfmt::skip]
pub const SHARPS: [Sharp; 3] = [
    Sharp { n: -0.66642276540751e0, b: 0.875, m: 7, k: 8, shape: 0 },
    Sharp { n: 0.72608632349897e0, b: 0.925, m: 37, k: 40, shape: 0 },
    Sharp { n: 0.55068668612842e-1, b: 0.875, m: 7, k: 8, shape: 1 },
];

/// Table 27: a₂, a₃, and aᵢ with θᵢ for i = 4 to 8.
pub const A2: f64 = -3.70454304;
pub const A3: f64 = 2.5;
#[rustfmt::skip]
pub const IDEAL: [(f64, f64); 5] =
    [(1.99427042, 3.15163), (0.62105248, 6.11190), (0.41195293, 6.77708), (1.04028922, 11.32384), (0.08327678, 27.08792)];
