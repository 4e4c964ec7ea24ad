//! RULES 2.4, 3.2, 3.4, 6 and 7: a sheet and its report.

use crate::doors::{from_density, from_pressure};

/// A field: a whole number, or None for a blank.
type Field = Option<u64>;

#[derive(Clone, Copy, Debug, PartialEq)]
pub enum Kind {
    Pressure,
    Density,
    Weighed,
}

#[derive(Debug)]
pub struct Line {
    pub number: Field,
    pub temperature: Field,
    pub kind: Kind,
    pub value: Field,
    pub volume: Field,
}

#[derive(Debug)]
pub struct Sheet {
    pub need: Field,
    pub lines: Vec<Line>,
}

/// RULES 6.2: a whole number or a blank. None: neither.
fn field(part: &[u8]) -> Option<Field> {
    match part {
        b"-" => Some(None),
        b"0" => Some(Some(0)),
        [b'1'..=b'9', rest @ ..] if rest.len() <= 9 && rest.iter().all(u8::is_ascii_digit) => {
            Some(Some(part.iter().fold(0, |n, digit| 10 * n + u64::from(digit - b'0'))))
        }
        _ => None,
    }
}

/// RULES 6.1 and 6.3. None: not in the form.
pub fn read(text: &[u8]) -> Option<Sheet> {
    if text.len() > 65536 {
        return None;
    }
    let (&last, text) = text.split_last()?;
    if last != b'\n' {
        return None;
    }
    let mut lines = text.split(|&byte| byte == b'\n').map(|line| line.split(|&byte| byte == b' ').collect::<Vec<_>>());
    let need = match lines.next()?[..] {
        [b"N", need] => field(need)?,
        _ => return None,
    };
    let mut sheet = Sheet { need, lines: Vec::new() };
    for line in lines {
        let [b"C", number, temperature, kind, value, volume] = line[..] else { return None };
        sheet.lines.push(Line {
            number: field(number)?,
            temperature: field(temperature)?,
            kind: match kind {
                b"P" => Kind::Pressure,
                b"D" => Kind::Density,
                b"W" => Kind::Weighed,
                _ => return None,
            },
            value: field(value)?,
            volume: field(volume)?,
        });
    }
    Some(sheet)
}

/// What a line without the blanks of refusal 1 is worked from (RULES 6.4 and 6.7), in the units of the doors or in grams.
enum Read {
    Pressure { t: f64, p: f64 },
    Density { t: f64, rho: f64 },
    Weighed { grams: u64 },
}

/// A line's milligrams or its refusal, behind the lines that come before it (RULES 3.2, 6.4, 6.5, 6.6 and 6.7).
pub fn weigh(line: &Line, before: &[Line]) -> Result<u64, u32> {
    let (Some(_), Some(value), Some(volume)) = (line.number, line.value, line.volume) else {
        return Err(1);
    };
    // whole numbers of 10 digits are exact
    let read = match (line.kind, line.temperature.map(|temperature| temperature as f64 / 10000.0)) {
        (Kind::Weighed, _) => Read::Weighed { grams: value },
        (_, None) => return Err(1),
        (Kind::Pressure, Some(t)) => Read::Pressure { t, p: value as f64 },
        (Kind::Density, Some(t)) => Read::Density { t, rho: value as f64 / 1000.0 },
    };
    if before.iter().any(|earlier| earlier.number == line.number) {
        return Err(30);
    }
    if !(1..=1_000_000).contains(&volume) {
        return Err(2);
    }
    let (_, state) = match read {
        Read::Weighed { grams: grams @ 1..=9_999_999_999 } => return Ok(1000 * grams),
        Read::Weighed { .. } => return Err(23),
        Read::Pressure { t, p } => from_pressure(t, p)?,
        Read::Density { t, rho } => from_density(t, rho)?,
    };
    let [_, _, rho, ..] = state.eight;
    let mass = rho * volume as f64;
    if !(0.0..9007199254740992.0).contains(&mass) {
        return Err(7);
    }
    Ok(mass as u64) // drops what is after the point
}

/// What a text comes to, in the order of RULES 3.4.
pub enum Outcome {
    Alone(u32),
    Weighed { lines: Vec<Result<u64, u32>>, need: u64 },
}

pub fn score(text: &[u8]) -> Outcome {
    let Some(sheet) = read(text) else { return Outcome::Alone(14) };
    if sheet.lines.is_empty() {
        return Outcome::Alone(10);
    }
    if sheet.lines.len() > 32 {
        return Outcome::Alone(11);
    }
    let Some(need @ 1..=9_999_999_999) = sheet.need else { return Outcome::Alone(12) };
    let lines = sheet.lines.iter().enumerate().map(|(i, line)| weigh(line, &sheet.lines[..i]));
    Outcome::Weighed { lines: lines.collect(), need }
}

/// How a report ends (RULES 7.2).
#[derive(Clone, Copy, Debug, PartialEq)]
pub enum Ending {
    Covered,
    Short,
    SentBack(u32),
}

impl Outcome {
    /// The sum of the lines, where none was refused.
    pub fn total(&self) -> Option<u64> {
        match self {
            Outcome::Alone(_) => None,
            Outcome::Weighed { lines, .. } => lines.iter().map(|line| line.ok()).sum(),
        }
    }

    pub fn ending(&self) -> Ending {
        match (self, self.total()) {
            (Outcome::Alone(number), _) => Ending::SentBack(*number),
            (Outcome::Weighed { .. }, None) => Ending::SentBack(13),
            (Outcome::Weighed { need, .. }, Some(total)) if total >= *need => Ending::Covered,
            _ => Ending::Short,
        }
    }

    /// RULES 7.1 and 7.2.
    pub fn report(&self) -> Vec<u8> {
        let mut report = String::new();
        if let Outcome::Weighed { lines, .. } = self {
            for (i, line) in lines.iter().enumerate() {
                report += &match line {
                    Ok(mass) => format!("L {} M {mass}\n", i + 1),
                    Err(number) => format!("L {} R {number}\n", i + 1),
                };
            }
        }
        let total = self.total().unwrap_or(0);
        report += &match self.ending() {
            Ending::Covered => format!("TOTAL {total} COVERED\n"),
            Ending::Short => format!("TOTAL {total} SHORT\n"),
            Ending::SentBack(number) => format!("SENT BACK {number}\n"),
        };
        report.into_bytes()
    }
}

#[cfg(test)]
mod tests {
    use super::*;

    fn reported(text: &str) -> String {
        String::from_utf8(score(text.as_bytes()).report()).unwrap()
    }

    #[test]
    fn example_of_document_01() {
        let text = "N 45000000\nC 7 - P 5000000 40000\nC 8 2000000 P 5000000 40000\n";
        assert_eq!(reported(text), "L 1 R 1\nL 2 R 4\nSENT BACK 13\n");
    }

    #[test]
    fn readings_of_document_01() {
        assert_eq!(reported(""), "SENT BACK 14\n");
        assert_eq!(reported("N -\n"), "SENT BACK 10\n");
        let good = "C 1 3000000 P 5000000 40000\n";
        assert_eq!(reported(&format!("N -\n{}", good.repeat(33))), "SENT BACK 11\n");
        assert_eq!(reported(&format!("N -\n{}", good.repeat(32))), "SENT BACK 12\n");
        assert_eq!(reported("N 1\nC 1 2000000 P 5000000 0\n"), "L 1 R 2\nSENT BACK 13\n");
        assert_eq!(reported("N 1\nC 1 3000000 P 5000000 1000001\n"), "L 1 R 2\nSENT BACK 13\n");
    }

    #[test]
    fn examples_of_the_rules() {
        let text = "N 28\nC 1 3000000 D 290 100\n";
        assert_eq!(reported(text), "L 1 M 28\nTOTAL 28 COVERED\n");
        assert_eq!(reported(&format!("{text}C 2 3000000 D - 100\n")), "L 1 M 28\nL 2 R 1\nSENT BACK 13\n");
        assert_eq!(reported(&format!("{text}C 1 3000000 D 290 100\n")), "L 1 M 28\nL 2 R 30\nSENT BACK 13\n");
    }

    /// What the lines of a sheet come to, each given by what stands behind its `C`; `good` is 700 g/m³ in 10 mL, which are 7 mg (RULES 6.5).
    fn come_to(lines: &[&str]) -> Vec<Result<u64, u32>> {
        let lines: String = lines.iter().map(|line| format!("C {}\n", line.replace("good", "3000000 D 700 10"))).collect();
        match score(format!("N 1\n{lines}").as_bytes()) {
            Outcome::Weighed { lines, .. } => lines,
            Outcome::Alone(number) => panic!("sent back with {number}"),
        }
    }

    #[test]
    fn the_same_cylinder_twice() {
        assert_eq!(come_to(&["7 good", "7 good", "8 good", "7 3000000 P 5000000 40000"]), [Ok(7), Err(30), Ok(7), Err(30)]);
        // blanks are not the same number, and 0 is a number
        assert_eq!(come_to(&["- good", "- good", "0 good", "0 good"]), [Err(1), Err(1), Ok(7), Err(30)]);
        let blanks = [("7 - D 700 0", 1), ("7 3000000 P - 10", 1), ("7 3000000 D 700 -", 1)];
        let out_of_range = [("7 2000000 D 700 0", 2), ("7 2000000 D 700 10", 4)];
        // whatever came of the first
        for (first, number) in blanks.into_iter().chain(out_of_range) {
            assert_eq!(come_to(&[first, "7 good"]), [Err(number), Err(30)], "{first}");
        }
        // 1 comes before it, 2 and the door behind it
        for (later, number) in blanks.into_iter().chain(out_of_range.map(|(later, _)| (later, 30))) {
            assert_eq!(come_to(&["7 good", later]), [Ok(7), Err(number)], "{later}");
        }
        assert_eq!(reported("N -\nC 7 3000000 D 700 10\nC 7 3000000 D 700 10\n"), "SENT BACK 12\n");
    }

    #[test]
    fn cylinders_that_are_not_the_same() {
        let numbers = ["7", "70", "77", "263", "65543", "4294967303", "0", "10", "4294967296", "9999999999", "9999999998", "8999999999"];
        let lines = numbers.map(|number| format!("{number} good"));
        assert_eq!(come_to(&lines.each_ref().map(String::as_str)), [Ok(7); 12]);
        let all: Vec<_> = (1..=31).map(|number| format!("{number} good")).chain(["1 good".to_string()]).collect();
        let came = come_to(&all.iter().map(String::as_str).collect::<Vec<_>>());
        assert_eq!(came.iter().position(|line| *line != Ok(7)), Some(31));
        assert_eq!(came[31], Err(30));
    }

    #[test]
    fn weighed_cylinders_of_the_rules() {
        let text = "N 13000\nC 1 - W 12 50000\nC 2 9999999999 W 1 40\n";
        assert_eq!(reported(text), "L 1 M 12000\nL 2 M 1000\nTOTAL 13000 COVERED\n");
        assert_eq!(reported(&format!("{text}C 3 - W 0 40\n")), "L 1 M 12000\nL 2 M 1000\nL 3 R 23\nSENT BACK 13\n");
        assert_eq!(reported(&text.replace("13000", "13001")), "L 1 M 12000\nL 2 M 1000\nTOTAL 13000 SHORT\n");
        // README's
        assert_eq!(come_to(&["1 - W 38500 67500", "4 - W 45000 67500"]), [Ok(38500000), Ok(45000000)]);
    }

    #[test]
    fn masses() {
        for grams in [1, 2, 65536, 4294968, 16777217, 4294967295, 4294967296, 9007199255, 9999999998, 9999999999] {
            assert_eq!(come_to(&[&format!("1 - W {grams} 40000")]), [Ok(1000 * grams)], "{grams}");
        }
        // a temperature that is given is not used
        for temperature in ["-", "0", "2165919", "2931500", "5230001", "9999999999"] {
            assert_eq!(come_to(&[&format!("1 {temperature} W 38500 67500")]), [Ok(38500000)], "{temperature}");
            assert_eq!(come_to(&[&format!("1 {temperature} W 0 67500")]), [Err(23)], "{temperature}");
        }
        let volumes = ["1", "1000000", "0", "1000001", "9999999999", "-"].map(|volume| format!("{volume} - W 38500 {volume}"));
        assert_eq!(come_to(&volumes.each_ref().map(String::as_str)), [Ok(38500000), Ok(38500000), Err(2), Err(2), Err(2), Err(1)]);
        let all: String = (1..=32).map(|number| format!("C {number} - W 9999999999 1\n")).collect();
        let report = reported(&format!("N 9999999999\n{all}"));
        assert!(report.ends_with("\nL 32 M 9999999999000\nTOTAL 319999999968000 COVERED\n"), "{report}");
        assert_eq!(report.len(), 693);
    }

    #[test]
    fn order_in_a_weighed_line() {
        // 1, for its value whatever the temperature is, and for its number and its volume
        for blank in ["7 - W - 40000", "7 2931500 W - 40000", "- - W 38500 40000", "7 - W 0 -", "- - W 0 0", "7 - W - 0"] {
            assert_eq!(come_to(&[blank]), [Err(1)], "{blank}");
            assert_eq!(come_to(&["7 - W 1 1", blank]), [Ok(1000), Err(1)], "{blank}");
        }
        // 2 before 23, and 30 before both; an earlier line counts whatever came of it
        for (line, came) in [("7 - W 0 0", 2), ("7 - W 0 1000001", 2), ("7 - W 0 1", 23), ("7 - W 0 1000000", 23)] {
            assert_eq!(come_to(&[line, "7 - W 1 1"]), [Err(came), Err(30)], "{line}");
            assert_eq!(come_to(&["7 - W 1 1", line]), [Ok(1000), Err(30)], "{line}");
        }
        assert_eq!(come_to(&["7 - W - 1", "7 - W 1 1"]), [Err(1), Err(30)]);
        // weighed and read
        assert_eq!(come_to(&["8 good", "8 - W 1 1", "9 - W 1 1", "9 good"]), [Ok(7), Err(30), Ok(1000), Err(30)]);
        // by a door a blank temperature is still 1
        assert_eq!(come_to(&["1 - W 1 1", "2 - P 5000000 40000", "3 - D 128400 40000", "4 - W 1 1"]), [Ok(1000), Err(1), Err(1), Ok(1000)]);
    }

    #[test]
    fn weighed_and_not_in_the_form() {
        for bad in [
            "- w 1 1",
            "- WW 1 1",
            "- W 1",
            "- W1 1",
            "- W  1",
            "W 1 1",
            "- V 1 1",
            "- - 1 1",
            "- W 1.5 1",
            "- W 01 1",
            "- W 10000000000 1",
            "1 P W 1 1",
        ] {
            assert_eq!(reported(&format!("N 1\nC 7 {bad}\n")), "SENT BACK 14\n", "{bad}");
        }
        assert_eq!(reported("W 1\nC 7 - W 1 1\n"), "SENT BACK 14\n");
    }

    #[test]
    fn not_in_the_form() {
        let good = "N 1\nC 1 3111111 D 111111 41111\n";
        assert_eq!(reported(good), "L 1 M 4567884\nTOTAL 4567884 COVERED\n");
        for bad in [
            "N 1",
            "N 1\n\n",
            "N  1\n",
            "N 01\n",
            "N 00\n",
            "N 12345678901\n",
            "N --\n",
            "N +1\n",
            "N 1 \n",
            " N 1\n",
            "N 1\r\n",
            "n 1\n",
            "N 1\nN 1\n",
            "N\n",
        ] {
            assert_eq!(reported(bad), "SENT BACK 14\n", "{bad:?}");
        }
        for i in 0..good.len() {
            let mut cut = good.to_string();
            cut.remove(i);
            // a digit may go where another is left
            assert_eq!(reported(&cut) == "SENT BACK 14\n", !good.as_bytes()[i].is_ascii_digit() || i == 2 || i == 6, "{cut:?}");
        }
    }
}
