//! The constant tables as text, each worked out from its field's polynomials: what the program `tables` must print.

use crate::{aes, kcipher2, snow2};

/// The byte substitution in two digits an entry, then the two tables of SNOW 2.0 and the four of KCipher-2 in eight;
/// sixteen entries to a line.
pub fn text() -> String {
    let bytes = aes::SUB.iter().map(|byte| format!("{byte:02x}"));
    let tables = [&snow2::UP, &snow2::DOWN].into_iter().chain(&kcipher2::ALPHA);
    let words = tables.flatten().map(|word| format!("{word:08x}"));
    let entries: Vec<String> = bytes.chain(words).collect();
    entries.chunks(16).map(|line| line.join(" ") + "\n").collect()
}

#[cfg(test)]
mod tests {
    use super::*;

    #[test]
    fn stored_output_of_the_program_is_what_the_polynomials_give() {
        assert_eq!(text(), include_str!("../../../crates/tables/stdout"));
    }

    #[test]
    fn seven_tables_of_sixteen_lines() {
        let text = text();
        let lines: Vec<&str> = text.lines().collect();
        assert_eq!((lines.len(), text.len()), (7 * 16, 14_592));
        assert!(lines[..16].iter().all(|line| line.len() == 16 * 3 - 1));
        assert!(lines[16..].iter().all(|line| line.len() == 16 * 9 - 1));
    }
}
