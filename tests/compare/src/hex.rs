//! Bytes written as hexadecimal digits, two for each.

/// The bytes of a string of digits; nothing if a digit is none or one is left over.
pub fn read(digits: &str) -> Option<Vec<u8>> {
    let values: Option<Vec<u8>> = digits.chars().map(|c| c.to_digit(16).map(|d| d as u8)).collect();
    let values = values?;
    let pairs = values.chunks_exact(2);
    if !pairs.remainder().is_empty() {
        return None;
    }
    Some(pairs.map(|pair| 16 * pair[0] + pair[1]).collect())
}

/// The digits of a string of bytes, in lower case.
pub fn write(bytes: &[u8]) -> String {
    bytes.iter().map(|byte| format!("{byte:02x}")).collect()
}

#[cfg(test)]
mod tests {
    use super::*;

    #[test]
    fn digits_are_read_and_written() {
        assert_eq!(read("00fF7a"), Some(vec![0, 255, 122]));
        assert_eq!(read("0"), None);
        assert_eq!(read("0g"), None);
        assert_eq!(write(&[0, 255, 122]), "00ff7a");
    }
}
