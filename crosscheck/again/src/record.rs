//! Calls of the library, kept in a file as they were made (`--record FILE`), so that another build of it can be asked the same and compared bit for
//! bit; and such a file asked again of the library that is linked (`--replay FILE`).
//!
//! The file holds what the library did. That it was right, the comparison that made the file says. The order of the calls is that in which threads
//! came to write them. Everything is little-endian, and a word is 8 bytes:
//!
//!     16 bytes            `makhroeng call 1`, of which the 1 is this format's number
//!     records             one after the other, each as below; each begins at a multiple of 8 bytes from the file's front
//!     the last record     of function 0, with no field and no part: its `returned` is how many records stand before it. Without it the file was cut
//!
//! A record:
//!
//!     byte 0      u32     the function's number, of the table
//!     byte 4      u32     the whole record's length in bytes, these 16 too: a multiple of 8
//!     byte 8      u64     `returned`; a function that returns 32 bits has zeros above them
//!     byte 16     words   the function's fields, of the table
//!     behind      parts   the function's parts, of the table, each filled up with zeros to whole words: a part begins at a multiple of 8 bytes
//!
//!     number  function (makhroeng_..)   fields                                      parts
//!     1       from_pressure             temperature (f64), pressure (f64), len      figures before, figures after
//!     2       from_density              temperature (f64), density (f64), len       figures before, figures after
//!     3       state_from_pressure       temperature (f64), pressure (f64), len      figures before, figures after
//!     4       state_from_density        temperature (f64), density (f64), len       figures before, figures after
//!     5       saturation                temperature (f64), len                      figures before, figures after
//!     6       report                    text_len, out_len                           text, out before, out after
//!     7       words                     number, len                                 out before, out after
//!     8       version                   none                                        none
//!     9       states_from_pressure      temperatures_len, pressures_len,            temperatures, pressures, answers before, answers after,
//!                                       answers_len, figures_len                    figures before, figures after
//!
//! A field is a u64 where it is not an f64. Temperatures, pressures and figures have 8 bytes each (f64), answers 4 (u32), text and out 1. A length is
//! of elements, not of bytes, and that of a part is the argument's: `len` figures before, `len` after. `before` is what was lent, and `after` what
//! was left of it, whole: where a call refuses they are the same. Lengths that are too small or don't fit are among the calls.
//!
//! What is lent is any bits, NaNs of every kind among them: it is to be copied and compared as bytes, since a NaN that goes through a number may come
//! out with other bits. A temperature, pressure or density may go through a number: a NaN is refused, whatever its bits are.

use crate::library;
use std::fs::{self, File};
use std::io::{self, BufWriter, Write};
use std::sync::{Mutex, OnceLock};

const FRONT: &[u8; 16] = b"makhroeng call 1";
/// A function's number is its place here; the one of 0 is the file's end.
const NAMES: [&str; 10] = [
    "the end",
    "makhroeng_from_pressure",
    "makhroeng_from_density",
    "makhroeng_state_from_pressure",
    "makhroeng_state_from_density",
    "makhroeng_saturation",
    "makhroeng_report",
    "makhroeng_words",
    "makhroeng_version",
    "makhroeng_states_from_pressure",
];
const END: usize = 0;
/// A record's function, length and what was returned.
const HEAD: usize = 16;

/// What is lent consists of these: figures as their bits, answers, bytes.
pub trait Unit: Copy + PartialEq {
    /// What stands before and after what is lent, where a call is made again.
    const GUARD: Self;
    const SIZE: usize;
    fn put(self, to: &mut Vec<u8>);
    fn get(from: &[u8]) -> Self;
}

macro_rules! unit {
    ($unit:ty, $guard:literal) => {
        impl Unit for $unit {
            const GUARD: $unit = $guard;
            const SIZE: usize = size_of::<$unit>();

            fn put(self, to: &mut Vec<u8>) {
                to.extend(self.to_le_bytes());
            }

            fn get(from: &[u8]) -> $unit {
                <$unit>::from_le_bytes(from.try_into().expect("a unit's bytes"))
            }
        }
    };
}
unit!(u8, 0xa5);
unit!(u32, 0xa5b6c7d8);
unit!(u64, 0x7ff4a5b6c7d8e9f1);

/// The bytes of a record.
struct Record(Vec<u8>);

impl Record {
    fn new(function: usize, returned: u64, fields: &[u64]) -> Record {
        let mut record = Record(Vec::new());
        (function as u32).put(&mut record.0);
        0u32.put(&mut record.0);
        returned.put(&mut record.0);
        fields.iter().for_each(|field| field.put(&mut record.0));
        record
    }

    fn part<T: Unit>(mut self, units: &[T]) -> Record {
        units.iter().for_each(|unit| unit.put(&mut self.0));
        self.0.resize(self.0.len().next_multiple_of(8), 0);
        self
    }

    fn whole(mut self) -> Vec<u8> {
        let len = u32::try_from(self.0.len()).expect("a record of less than 4 GB");
        self.0[4..8].copy_from_slice(&len.to_le_bytes());
        self.0
    }
}

/// The file, and how many records it has.
struct Writer {
    file: BufWriter<File>,
    records: u64,
}

static WRITER: OnceLock<Mutex<Writer>> = OnceLock::new();

/// From here on every call is written to the file.
pub fn begin(path: &str) -> io::Result<()> {
    let mut file = BufWriter::with_capacity(1 << 20, File::create(path)?);
    file.write_all(FRONT)?;
    assert!(WRITER.set(Mutex::new(Writer { file, records: 0 })).is_ok(), "one record at a time");
    Ok(())
}

/// How many records the file has, and its bytes; none where nothing is recorded.
pub fn end() -> io::Result<Option<(u64, u64)>> {
    let Some(writer) = WRITER.get() else { return Ok(None) };
    let mut writer = writer.lock().expect("no thread failed");
    let records = writer.records;
    writer.file.write_all(&Record::new(END, records, &[]).whole())?;
    writer.file.flush()?;
    Ok(Some((records, writer.file.get_ref().metadata()?.len())))
}

/// What is lent, where calls are recorded.
fn before<T: Unit>(lent: &[T]) -> Option<Vec<T>> {
    WRITER.get().map(|_| lent.to_vec())
}

fn write(record: Record) {
    let whole = record.whole();
    let mut writer = WRITER.get().expect("a file").lock().expect("no thread failed");
    writer.records += 1;
    if let Err(error) = writer.file.write_all(&whole) {
        eprintln!("again: the record can't be written: {error}");
        std::process::exit(2);
    }
}

/// A call that lends `read` to be read and `lent` to be written, kept where calls are.
pub fn call<T: Unit, R: Copy + Into<u64>>(function: usize, fields: &[u64], read: &[u8], lent: &mut [T], call: impl FnOnce(&mut [T]) -> R) -> R {
    let before = before(lent);
    let returned = call(lent);
    if let Some(before) = before {
        write(Record::new(function, returned.into(), fields).part(read).part(&before).part(lent));
    }
    returned
}

/// A call of makhroeng_states_from_pressure, likewise.
#[cfg(feature = "many")]
pub fn call_of_many(
    temperatures: &[u64],
    pressures: &[u64],
    answers: &mut [u32],
    figures: &mut [u64],
    call: impl FnOnce(&mut [u32], &mut [u64]) -> u32,
) -> u32 {
    let before = before(answers).zip(before(figures));
    let returned = call(answers, figures);
    if let Some((answers_before, figures_before)) = before {
        let lengths = [temperatures.len(), pressures.len(), answers.len(), figures.len()].map(|len| len as u64);
        let record = Record::new(9, returned.into(), &lengths).part(temperatures).part(pressures);
        write(record.part(&answers_before).part(answers).part(&figures_before).part(figures));
    }
    returned
}

/// What of a record has not been read yet.
struct Rest<'a>(&'a [u8]);

impl<'a> Rest<'a> {
    fn bytes(&mut self, len: usize) -> Option<&'a [u8]> {
        let (read, rest) = self.0.split_at_checked(len)?;
        self.0 = rest;
        Some(read)
    }

    fn field(&mut self) -> Option<u64> {
        self.bytes(8).map(u64::get)
    }

    fn float(&mut self) -> Option<f64> {
        self.field().map(f64::from_bits)
    }

    fn part<T: Unit>(&mut self, len: u64) -> Option<Vec<T>> {
        let bytes = usize::try_from(len).ok()?.checked_mul(T::SIZE)?;
        let units = self.bytes(bytes)?.chunks_exact(T::SIZE).map(T::get).collect();
        let filled = self.bytes(bytes.next_multiple_of(8) - bytes)?.iter().all(|&byte| byte == 0);
        Some(units).filter(|_| filled)
    }

    /// A record without its length: its function, what was returned, and the rest.
    fn record(&mut self) -> Option<(usize, u64, Rest<'a>)> {
        let (function, len, returned) = (u32::get(self.bytes(4)?), u32::get(self.bytes(4)?), self.field()?);
        let rest = self.bytes((len as usize).checked_sub(HEAD)?)?;
        Some((function as usize, returned, Rest(rest)))
    }
}

/// How many guards stand before what is lent, and how many after.
const GUARDS: usize = 4;

/// What is lent, and what is right after the call, both with guards about them.
struct Lent<T> {
    room: Vec<T>,
    after: Vec<T>,
}

impl<T: Unit> Lent<T> {
    fn of(rest: &mut Rest, len: u64) -> Option<Lent<T>> {
        let guards = [T::GUARD; GUARDS];
        let guarded = |part: Vec<T>| [&guards[..], &part, &guards].concat();
        Some(Lent { room: guarded(rest.part(len)?), after: guarded(rest.part(len)?) })
    }

    fn lend(&mut self) -> &mut [T] {
        let len = self.room.len();
        &mut self.room[GUARDS..len - GUARDS]
    }

    fn is_right(&self) -> bool {
        self.room == self.after
    }
}

/// Whether the library does it again; none where the record is not in the format.
fn again(function: usize, returned: u64, rest: &mut Rest) -> Option<bool> {
    let of_two: fn(f64, f64, &mut [u64]) -> u32 = match function {
        1 => library::BY_PRESSURE[0].call,
        2 => library::BY_DENSITY[0].call,
        #[cfg(feature = "counts")]
        3 => library::BY_PRESSURE[1].call,
        #[cfg(feature = "counts")]
        4 => library::BY_DENSITY[1].call,
        #[cfg(feature = "saturation")]
        5 => |t, _, figures| library::saturation(t, figures),
        6 => {
            let (text_len, out_len) = (rest.field()?, rest.field()?);
            let text: Vec<u8> = rest.part(text_len)?;
            let mut out = Lent::of(rest, out_len)?;
            return Some(library::report(&text, out.lend()) == returned && out.is_right());
        }
        #[cfg(feature = "saturation")]
        7 => {
            let (number, len) = (rest.field()?, rest.field()?);
            let mut out = Lent::of(rest, len)?;
            return Some(library::words(u32::try_from(number).ok()?, out.lend()) == returned && out.is_right());
        }
        #[cfg(feature = "saturation")]
        8 => return Some(u64::from(library::version()) == returned),
        #[cfg(feature = "many")]
        9 => {
            let (temperatures_len, pressures_len, answers_len, figures_len) = (rest.field()?, rest.field()?, rest.field()?, rest.field()?);
            let (temperatures, pressures): (Vec<u64>, Vec<u64>) = (rest.part(temperatures_len)?, rest.part(pressures_len)?);
            let mut answers = Lent::of(rest, answers_len)?;
            let mut figures = Lent::of(rest, figures_len)?;
            let number = library::states_from_pressure(&temperatures, &pressures, answers.lend(), figures.lend());
            return Some(u64::from(number) == returned && answers.is_right() && figures.is_right());
        }
        _ => return None,
    };
    let t = rest.float()?;
    let x = if function == 5 { 0.0 } else { rest.float()? };
    let len = rest.field()?;
    let mut figures = Lent::of(rest, len)?;
    Some(u64::from(of_two(t, x, figures.lend())) == returned && figures.is_right())
}

/// Asks the library all that the file has again, and says how many calls of each function there were, and how many differ.
pub fn replay(path: &str) -> io::Result<u64> {
    let file = fs::read(path)?;
    let mut rest = Rest(file.strip_prefix(FRONT).ok_or(io::Error::other("not a record of calls"))?);
    let mut calls = [[0u64; 2]; NAMES.len()];
    let replayed = |calls: &[[u64; 2]]| calls.iter().map(|[of, _]| of).sum::<u64>();
    loop {
        let at = file.len() - rest.0.len();
        let wrong = |what: &str| io::Error::other(format!("byte {at}: {what}"));
        let (function, returned, mut record) = rest.record().ok_or(wrong("the record was cut off"))?;
        if function == END {
            if !record.0.is_empty() || !rest.0.is_empty() || returned != replayed(&calls) {
                return Err(wrong("an end that is none"));
            }
            break;
        }
        let same = again(function, returned, &mut record).filter(|_| record.0.is_empty()).ok_or(wrong("a record that is not in the format"))?;
        calls[function][0] += 1;
        calls[function][1] += u64::from(!same);
        if !same && calls[function][1] == 1 {
            println!("byte {at}: the first call of {} that differs", NAMES[function]);
        }
    }
    for ([of, differ], name) in calls.iter().zip(NAMES).filter(|([of, _], _)| *of > 0) {
        println!("{of:>9} calls of {name}, {differ} differ");
    }
    let differ = calls.iter().map(|[_, differ]| differ).sum();
    println!("{} replayed, {differ} differ", replayed(&calls));
    Ok(differ)
}
