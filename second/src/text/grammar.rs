//! The page on scripts, which `script --help` prints.

/// Every form of a line, each followed by examples that are indented by four blanks.
pub const GRAMMAR: &str = include_str!("grammar.txt");

#[cfg(test)]
mod tests {
    use super::*;
    use crate::cell::Head;
    use crate::layout::Layout;
    use crate::place::SIB_KINDS;
    use crate::record::Record;
    use crate::table::Table;
    use crate::text::requests::MOST_SECONDS;
    use crate::text::{script, LONGEST_LINE};

    fn examples() -> String {
        let indented = GRAMMAR.lines().filter_map(|line| line.strip_prefix("    "));
        indented.filter(|line| !line.starts_with(' ')).map(|line| format!("{line}\n")).collect()
    }

    #[test]
    fn its_examples_are_a_script() {
        let mut input = Vec::new();
        script(examples().as_bytes(), &mut input).unwrap();
        let records = 2 + 3 + 1 + 2 + 1 + 3;
        let items = 1 + 1 + 2 + 1 + 2;
        let cells = 2 + 2 * Head::LENGTH;
        assert_eq!(input.len(), cells + records * Record::HEADER + items * Record::ITEM);
    }

    #[test]
    fn its_examples_have_every_word() {
        let examples = examples();
        let kinds = ["cell", "start", "cancel", "wire", "restart", "failure", "second", "seconds"];
        let others = ["concurrent", "all", "in", "cells", "tracking", "areas"];
        for word in kinds.into_iter().chain(others) {
            assert!(examples.split_whitespace().any(|next| next == word), "{word}");
        }
    }

    #[test]
    fn its_limits_are_those_of_the_numbers() {
        let has = |sentence: &str| assert!(GRAMMAR.contains(sentence), "{sentence}");
        let row =
            |names: &str, least: u64, most: u64| has(&format!("\n{names:28}{least} to {most}\n"));
        row("CODE, AREA", 0, Head::LARGEST_CODE.into());
        row("CODE, AREA", 0, Head::LARGEST_AREA.into());
        row("IDENTIFIER, SERIAL, COUNT", 0, u16::MAX.into());
        row("CONTENT", 0, u32::MAX.into());
        row("PERIOD", 0, Layout::CURRENT.largest_period.0.into());
        row("SIB", (*SIB_KINDS.start()).into(), (*SIB_KINDS.end()).into());
        row("NUMBER", 1, MOST_SECONDS as u64);
        has(&format!("at most {} emergency areas", Head::MOST_AREAS));
        has(&format!("are {} to {} and ascend", Table::CELLS.start(), Table::CELLS.end()));
        has(&format!("at most {} items", Record::MOST_ITEMS));
        has(&format!("at most {LONGEST_LINE} bytes"));
    }
}
