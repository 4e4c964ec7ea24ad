//! docs/ARRANGEMENT.md, section 11: 004's eq. (3.10). None is refusal 7.

use crate::numbers::whole_power;

pub fn melting_pressure(t: f64) -> Option<f64> {
    let y = t / 216.592 - 1.0;
    Some(517950.0 * ((1.0 + 1955.5390 * y) + 2055.4593 * whole_power(y, 2))).filter(|p| p.is_finite())
}
