//! The library that is compared with: makhroeng.h. A function's number is that of record.rs.

use crate::record;

extern "C" {
    fn makhroeng_from_pressure(temperature: f64, pressure: f64, figures: *mut f64, len: usize) -> u32;
    fn makhroeng_from_density(temperature: f64, density: f64, figures: *mut f64, len: usize) -> u32;
    #[cfg(feature = "counts")]
    fn makhroeng_state_from_pressure(temperature: f64, pressure: f64, figures: *mut f64, len: usize) -> u32;
    #[cfg(feature = "counts")]
    fn makhroeng_state_from_density(temperature: f64, density: f64, figures: *mut f64, len: usize) -> u32;
    fn makhroeng_report(text: *const u8, text_len: usize, out: *mut u8, out_len: usize) -> u64;
    #[cfg(feature = "saturation")]
    fn makhroeng_saturation(temperature: f64, figures: *mut f64, len: usize) -> u32;
    #[cfg(feature = "saturation")]
    fn makhroeng_words(number: u32, out: *mut u8, len: usize) -> u64;
    #[cfg(feature = "saturation")]
    fn makhroeng_version() -> u32;
    #[cfg(feature = "many")]
    fn makhroeng_states_from_pressure(
        temperatures: *const f64,
        temperatures_len: usize,
        pressures: *const f64,
        pressures_len: usize,
        answers: *mut u32,
        answers_len: usize,
        figures: *mut f64,
        figures_len: usize,
    ) -> u32;
}

/// A function that asks a door, and how many figures it gives where as many are lent: the eight numbers, the count of the rows that fell away,
/// and the conductivity, which it works where it is asked for so many.
pub struct Function {
    pub name: &'static str,
    pub call: fn(f64, f64, &mut [u64]) -> u32,
    pub gives: usize,
}

#[cfg(feature = "counts")]
const ALL: usize = if cfg!(feature = "conductivity") { 10 } else { 9 };

pub const BY_PRESSURE: &[Function] = &[
    Function { name: "makhroeng_from_pressure", call: from_pressure, gives: 8 },
    #[cfg(feature = "counts")]
    Function { name: "makhroeng_state_from_pressure", call: state_from_pressure, gives: ALL },
];
pub const BY_DENSITY: &[Function] = &[
    Function { name: "makhroeng_from_density", call: from_density, gives: 8 },
    #[cfg(feature = "counts")]
    Function { name: "makhroeng_state_from_density", call: state_from_density, gives: ALL },
];

/// `figures` are lent as bits, so that no pattern in them is taken for a number on the way.
fn from_pressure(t: f64, p: f64, figures: &mut [u64]) -> u32 {
    record::call(1, &[t.to_bits(), p.to_bits(), figures.len() as u64], &[], figures, |figures| {
        // SAFETY: the slice is lent for the call; a double has the size and the alignment of its bits
        unsafe { makhroeng_from_pressure(t, p, figures.as_mut_ptr().cast(), figures.len()) }
    })
}

fn from_density(t: f64, rho: f64, figures: &mut [u64]) -> u32 {
    record::call(2, &[t.to_bits(), rho.to_bits(), figures.len() as u64], &[], figures, |figures| {
        // SAFETY: as above
        unsafe { makhroeng_from_density(t, rho, figures.as_mut_ptr().cast(), figures.len()) }
    })
}

#[cfg(feature = "counts")]
fn state_from_pressure(t: f64, p: f64, figures: &mut [u64]) -> u32 {
    record::call(3, &[t.to_bits(), p.to_bits(), figures.len() as u64], &[], figures, |figures| {
        // SAFETY: as above
        unsafe { makhroeng_state_from_pressure(t, p, figures.as_mut_ptr().cast(), figures.len()) }
    })
}

#[cfg(feature = "counts")]
fn state_from_density(t: f64, rho: f64, figures: &mut [u64]) -> u32 {
    record::call(4, &[t.to_bits(), rho.to_bits(), figures.len() as u64], &[], figures, |figures| {
        // SAFETY: as above
        unsafe { makhroeng_state_from_density(t, rho, figures.as_mut_ptr().cast(), figures.len()) }
    })
}

#[cfg(feature = "saturation")]
pub fn saturation(t: f64, figures: &mut [u64]) -> u32 {
    record::call(5, &[t.to_bits(), figures.len() as u64], &[], figures, |figures| {
        // SAFETY: as above
        unsafe { makhroeng_saturation(t, figures.as_mut_ptr().cast(), figures.len()) }
    })
}

pub fn report(text: &[u8], out: &mut [u8]) -> u64 {
    record::call(6, &[text.len() as u64, out.len() as u64], text, out, |out| {
        // SAFETY: both slices are lent for the call
        unsafe { makhroeng_report(text.as_ptr(), text.len(), out.as_mut_ptr(), out.len()) }
    })
}

#[cfg(feature = "saturation")]
pub fn words(number: u32, out: &mut [u8]) -> u64 {
    record::call(7, &[u64::from(number), out.len() as u64], &[], out, |out| {
        // SAFETY: the slice is lent for the call
        unsafe { makhroeng_words(number, out.as_mut_ptr(), out.len()) }
    })
}

#[cfg(feature = "saturation")]
pub fn version() -> u32 {
    // SAFETY: it takes nothing
    record::call(8, &[], &[], &mut [0u8; 0], |_| unsafe { makhroeng_version() })
}

/// All are lent as bits but the answers.
#[cfg(feature = "many")]
pub fn states_from_pressure(temperatures: &[u64], pressures: &[u64], answers: &mut [u32], figures: &mut [u64]) -> u32 {
    record::call_of_many(temperatures, pressures, answers, figures, |answers, figures| {
        // SAFETY: the slices are lent for the call; a double has the size and the alignment of its bits
        unsafe {
            makhroeng_states_from_pressure(
                temperatures.as_ptr().cast(),
                temperatures.len(),
                pressures.as_ptr().cast(),
                pressures.len(),
                answers.as_mut_ptr(),
                answers.len(),
                figures.as_mut_ptr().cast(),
                figures.len(),
            )
        }
    })
}
