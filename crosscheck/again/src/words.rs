//! RULES 14.1: the words of a refusal, as README's table has them. RULES 12: the version, as makhroeng.h has it.

const README: &str = include_str!("../../../README.md");
const HEADER: &str = include_str!("../../../include/makhroeng.h");

/// What the table of refusals says in a number's second cell, and what to do in the third.
pub fn words(number: u32) -> Option<String> {
    let front = format!("| {number} | ");
    let table = README.lines().skip_while(|&line| line != "| No | It says | Do |").take_while(|line| line.starts_with('|'));
    let (says, instruction) = table.into_iter().find_map(|line| line.strip_prefix(&front)?.strip_suffix(" |")?.split_once(" | "))?;
    Some(format!("{says}. {instruction}"))
}

pub fn version() -> u32 {
    let version = HEADER.lines().find_map(|line| line.strip_prefix("#define MAKHROENG_VERSION ")?.parse().ok());
    version.expect("makhroeng.h has a version")
}

#[cfg(test)]
mod tests {
    use super::*;

    #[test]
    fn a_line_for_each_refusal() {
        let numbers: Vec<u32> = (0..=1000).filter(|&number| words(number).is_some()).collect();
        assert_eq!(numbers, [1, 2, 3, 4, 5, 6, 7, 8, 9, 10, 11, 12, 13, 14, 15, 19, 23, 30]);
        for words in numbers.into_iter().filter_map(words) {
            assert!(words.bytes().all(|byte| (32..127).contains(&byte)), "{words}");
            assert!(words.len() <= 512 && words.contains(". ") && words.ends_with('.'), "{words}");
        }
        assert_eq!(words(10).as_deref(), Some("The sheet has no cylinder lines. Add one for each cylinder of the bank."));
    }

    #[test]
    fn version_of_three_numbers() {
        let [first, second, third] = [version() / 10000, version() / 100 % 100, version() % 100];
        assert!(HEADER.contains(&format!("This header's version, {first}.{second}.{third}:")));
    }
}
