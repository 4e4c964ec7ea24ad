//! RULES 3.3 and 5: the doors.

use crate::conductivity::conductivity;
use crate::equation::{isotherm, pressure, state, Isotherm, State, CRITICAL_TEMPERATURE};
use crate::melting::melting_pressure;
use crate::numbers::{halve, Halved};
use crate::saturation::{liquid_density, vapour_density, vapour_pressure};

#[derive(Clone, Copy, Debug, PartialEq)]
pub enum Phase {
    Vapour,
    Liquid,
    Supercritical,
}

/// A state with its phase, or a refusal number.
pub type Answer = Result<(Phase, State), u32>;

/// RULES 2.2 and 2.3: every end is inside its range.
pub const TEMPERATURES: [f64; 2] = [216.592, 523.0];
pub const PRESSURES: [f64; 2] = [10000.0, 30000000.0];
pub const DENSITIES: [f64; 2] = [0.1, 1300.0];
pub const BOX_TEMPERATURES: [f64; 2] = [303.1282, 305.1282];
pub const BOX_PRESSURES: [f64; 2] = [7000000.0, 8000000.0];
pub const BOX_DENSITIES: [f64; 2] = [350.7, 584.5];

fn within(x: f64, [low, high]: [f64; 2]) -> bool {
    low <= x && x <= high
}

/// RULES 3.3: 3, 4 and 5, on what was asked.
fn in_range(t: f64, x: f64, range: [f64; 2]) -> Result<(), u32> {
    if !t.is_finite() || !x.is_finite() {
        Err(3)
    } else if !within(t, TEMPERATURES) {
        Err(4)
    } else if !within(x, range) {
        Err(5)
    } else {
        Ok(())
    }
}

/// And 6.
fn out_of_box(t: f64, x: f64, of_box: [f64; 2]) -> Result<(), u32> {
    if within(t, BOX_TEMPERATURES) && within(x, of_box) {
        Err(6)
    } else {
        Ok(())
    }
}

/// RULES 5.4: 19, on the pressure asked or worked.
fn not_solid(t: f64, p: f64) -> Result<(), u32> {
    if p > melting_pressure(t).ok_or(7u32)? {
        Err(19)
    } else {
        Ok(())
    }
}

fn settle(phase: Phase, on: &Isotherm, rho: f64) -> Answer {
    Ok((phase, state(on, rho).ok_or(7u32)?))
}

pub fn from_pressure(t: f64, p: f64) -> Answer {
    in_range(t, p, PRESSURES)?;
    not_solid(t, p)?;
    out_of_box(t, p, BOX_PRESSURES)?;
    let (phase, low, high) = if t >= CRITICAL_TEMPERATURE {
        (Phase::Supercritical, 0.05, 1400.0)
    } else {
        let saturated = vapour_pressure(t).ok_or(7u32)?;
        if p == saturated {
            return Err(8);
        }
        if p < saturated {
            (Phase::Vapour, 0.05, 1.01 * vapour_density(t).ok_or(7u32)?)
        } else {
            (Phase::Liquid, 0.99 * liquid_density(t).ok_or(7u32)?, 1400.0)
        }
    };
    if !low.is_finite() || !high.is_finite() {
        return Err(7);
    }
    let on = isotherm(t);
    match halve(low.to_bits(), high.to_bits(), p, |rho| pressure(&on, rho)) {
        Halved::At(bits) => settle(phase, &on, f64::from_bits(bits)),
        Halved::NoCrossing => Err(9),
        Halved::NotFinite => Err(7),
    }
}

pub fn from_density(t: f64, rho: f64) -> Answer {
    in_range(t, rho, DENSITIES)?;
    out_of_box(t, rho, BOX_DENSITIES)?;
    let phase = if t >= CRITICAL_TEMPERATURE {
        Phase::Supercritical
    } else {
        let vapour = vapour_density(t).ok_or(7u32)?;
        let liquid = liquid_density(t).ok_or(7u32)?;
        if vapour < rho && rho < liquid {
            return Err(8);
        }
        if rho <= vapour {
            Phase::Vapour
        } else {
            Phase::Liquid
        }
    };
    let on = isotherm(t);
    let p = pressure(&on, rho);
    if !p.is_finite() {
        return Err(7);
    }
    if !within(p, PRESSURES) {
        return Err(5);
    }
    not_solid(t, p)?;
    settle(phase, &on, rho)
}

/// RULES 5.6: the vapour pressure and the two saturated densities, of vapour and of liquid.
pub fn saturation(t: f64) -> Result<[f64; 3], u32> {
    if !t.is_finite() {
        return Err(3);
    }
    if !within(t, TEMPERATURES) || t >= CRITICAL_TEMPERATURE {
        return Err(4);
    }
    match (vapour_pressure(t), vapour_density(t), liquid_density(t)) {
        (Some(p), Some(vapour), Some(liquid)) => Ok([p, vapour, liquid]),
        _ => Err(7),
    }
}

/// RULES 5.5: the answer of a door that is asked for the conductivity too, from its answer without that.
pub fn asked(answer: Answer) -> Answer {
    let (phase, state) = answer?;
    let [t, _, rho, ..] = state.eight;
    let conductivity = conductivity(t, rho).ok_or(7u32)?;
    Ok((phase, State { conductivity: Some(conductivity), ..state }))
}

#[cfg(test)]
mod tests {
    use super::*;

    #[test]
    fn readings_of_document_01() {
        let from = |t: u32, p: u32| from_pressure(f64::from(t) / 10000.0, f64::from(p)).map(|_| ());
        assert_eq!([2165919, 5230001].map(|t| from(t, 5000000)), [Err(4), Err(4)]);
        assert_eq!([2165920, 5230000].map(|t| from(t, 5000000)), [Err(19), Ok(())]);
        assert_eq!([9999, 10000, 30000000, 30000001].map(|p| from(3000000, p)), [Err(5), Ok(()), Ok(()), Err(5)]);
        assert_eq!([3031282, 3031281].map(|t| from(t, 7000000)), [Err(6), Ok(())]);
    }

    #[test]
    fn readings_of_the_melting_line() {
        let by_pressure = |t: u32, p: u32| from_pressure(f64::from(t) / 10000.0, f64::from(p)).map(|_| ());
        let by_density = |t: u32, rho: u32| from_density(f64::from(t) / 10000.0, f64::from(rho) / 1000.0).map(|_| ());
        assert_eq!([5000000, 2429700, 2429701].map(|p| by_pressure(2170000, p)), [Err(19), Ok(()), Err(19)]);
        assert_eq!([1186152, 1180969, 1180970].map(|rho| by_density(2170000, rho)), [Err(19), Ok(()), Err(19)]);
        assert_eq!([2175460, 2175461].map(|t| by_pressure(t, 5000000)), [Err(19), Ok(())]);
        assert_eq!([2227145, 2227146].map(|t| by_pressure(t, 30000000)), [Err(19), Ok(())]);
        assert_eq!([517950, 517951, 30000001].map(|p| by_pressure(2165920, p)), [Ok(()), Err(19), Err(5)]);
        assert_eq!([13760, 13761].map(|rho| by_density(2165920, rho)), [Ok(()), Err(19)]);
    }

    #[test]
    fn rows_of_the_5_mpa_isobar() {
        for (t, rho, h, w) in [(250.0, 1058.86, -359.31, 762.21), (300.0, 128.40, -60.830, 223.25), (400.0, 72.804, 64.593, 294.63)] {
            let (_, state) = from_pressure(t, 5e6).unwrap();
            let [at, p, density, u, enthalpy, _, _, sound] = state.eight;
            assert_eq!(at, t);
            assert!((p - 5e6).abs() < 1e-3);
            assert!((density - rho).abs() < if rho > 1000.0 || rho > 100.0 { 0.01 } else { 0.001 });
            assert!((enthalpy / 1000.0 - h).abs() < if h < -100.0 { 0.01 } else { 0.001 });
            assert!((sound - w).abs() < 0.01);
            assert!((enthalpy - u - p / density).abs() < 1e-6);
            assert_eq!(from_density(t, density), from_pressure(t, 5e6));
        }
    }

    #[test]
    fn saturation_by_itself() {
        let refused = |t: f64| saturation(t).err();
        assert_eq!([f64::NAN, f64::INFINITY, f64::NEG_INFINITY].map(refused), [Some(3); 3]);
        let beside = |t: f64| [t.to_bits() - 1, t.to_bits(), t.to_bits() + 1].map(f64::from_bits);
        assert_eq!(beside(216.592).map(refused), [Some(4), None, None]);
        assert_eq!(beside(CRITICAL_TEMPERATURE).map(refused), [None, Some(4), Some(4)]);
        assert_eq!([0.0, -250.0, 1e300, 523.0, 523.1].map(refused), [Some(4); 5]);
        // on the line the pressure door gives 8, and the density door, between the two densities
        let [p, vapour, liquid] = saturation(293.15).unwrap();
        assert_eq!(from_pressure(293.15, p), Err(8));
        let density = |rho: f64| from_density(293.15, rho).map(|(phase, _)| phase);
        assert_eq!([vapour, liquid].map(density), [Ok(Phase::Vapour), Ok(Phase::Liquid)]);
        assert_eq!([beside(vapour)[2], beside(liquid)[0]].map(density), [Err(8); 2]);
    }

    #[test]
    fn fallen_terms() {
        let by_pressure = |(t, p)| from_pressure(t, p).map(|(_, state)| state.fallen);
        let at_5_mpa = [250.0, 300.0, 400.0, 217.6].map(|t| (t, 5e6));
        assert_eq!(at_5_mpa.map(by_pressure), [5, 0, 5, 16].map(Ok));
        let elsewhere = [(217.0, 5e5), (230.0, 2e7), (300.0, 3e7), (304.1282, 3e7), (350.0, 2e7), (523.0, 1e4)];
        assert_eq!(elsewhere.map(by_pressure), [6, 15, 4, 3, 1, 8].map(Ok));
        // neighbouring floats, at −36 and below it: row 34, then rows 40 and 41
        let by_density = |(t, rho)| from_density(t, rho).map(|(_, state)| state.fallen);
        assert_eq!([(300.0, 849.6855892083086), (300.0, 849.6855892083087)].map(by_density), [0, 1].map(Ok));
        assert_eq!([(243.0, 1105.2842056135098), (243.0, 1105.28420561351)].map(by_density), [7, 9].map(Ok));
    }
}
