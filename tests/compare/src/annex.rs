//! The second implementation's own check: every keystream of annex C for its ciphers, and sample states. The
//! vectors are in the package's text files.

use crate::cipher::by_number;
use crate::hex;

const KEYSTREAMS: &str = include_str!("../annex-c.txt");
const STATES: &str = include_str!("../annex-c-states.txt");

/// Checks all vectors; tells how many there are, or the first that fails.
pub fn check() -> Result<usize, String> {
    let checks = rows(KEYSTREAMS).map(keystream).chain(rows(STATES).map(state));
    let mut count = 0;
    for outcome in checks {
        outcome?;
        count += 1;
    }
    Ok(count)
}

/// The lines of a file but for the one that says where it is from.
fn rows(text: &'static str) -> impl Iterator<Item = &'static str> {
    text.lines().filter(|line| !line.starts_with('#'))
}

/// A row's fields; the first is the clause, the second the cipher's number, the others are bytes.
pub struct Row {
    pub clause: &'static str,
    pub cipher: u8,
    pub bytes: Vec<Vec<u8>>,
}

/// The rows of keystreams: key, IV, keystream. A line that can't be read is left out, and `check` tells of it.
pub fn keystreams() -> Vec<Row> {
    rows(KEYSTREAMS).filter_map(|row| read(row).ok()).collect()
}

/// The rows of sample states: key, IV, i, state bytes of S(i).
pub fn states() -> Vec<Row> {
    rows(STATES).filter_map(|row| read(row).ok()).collect()
}

fn read(row: &'static str) -> Result<Row, String> {
    let bad = || format!("annex C: a line can't be read: {row}");
    let fields: Vec<&str> = row.split(' ').collect();
    let [clause, cipher, rest @ ..] = fields.as_slice() else {
        return Err(bad());
    };
    let cipher = cipher.parse().map_err(|_| bad())?;
    let bytes: Option<Vec<Vec<u8>>> = rest.iter().map(|field| hex::read(field)).collect();
    Ok(Row { clause, cipher, bytes: bytes.ok_or_else(bad)? })
}

/// Whether `got` is `wanted`, with words for it if not.
fn agree(row: &Row, what: &str, wanted: &[u8], got: &[u8]) -> Result<(), String> {
    if wanted == got {
        return Ok(());
    }
    let place = format!("{}, cipher {}, key {}", row.clause, row.cipher, hex::write(&row.bytes[0]));
    Err(format!("annex C fails: {place}, {what}: {} is printed, {} computed", hex::write(wanted), hex::write(got)))
}

/// Checks a row of clause, cipher, key, IV, keystream.
fn keystream(row: &'static str) -> Result<(), String> {
    let row = read(row)?;
    let [key, iv, wanted] = row.bytes.as_slice() else {
        return Err(format!("annex C: {} has a line without three strings", row.clause));
    };
    let cipher = by_number(row.cipher).ok_or("annex C: no such cipher")?;
    let mut state = cipher.init(key, iv);
    let mut got = Vec::new();
    while got.len() < wanted.len() {
        got.extend(cipher.strm(&state));
        cipher.next(&mut state);
    }
    agree(&row, "keystream", wanted, &got[..wanted.len()])
}

/// Checks a row of clause, cipher, key, IV, i, state bytes of S(i).
fn state(row: &'static str) -> Result<(), String> {
    let row = read(row)?;
    let [key, iv, index, wanted] = row.bytes.as_slice() else {
        return Err(format!("annex C: {} has a line without four strings", row.clause));
    };
    let cipher = by_number(row.cipher).ok_or("annex C: no such cipher")?;
    let mut state = cipher.init(key, iv);
    for _ in 0..index[0] {
        cipher.next(&mut state);
    }
    agree(&row, &format!("S({})", index[0]), wanted, &cipher.state_bytes(&state))
}

#[cfg(test)]
mod tests {
    use super::*;

    #[test]
    fn annex_c_agrees() {
        assert_eq!(check(), Ok(40));
    }

    #[test]
    fn a_wrong_keystream_is_told() {
        let row = "C.2.1 3 80000000000000000000000000000000 00000000000000000000000000000000 8d590ae8";
        let told = keystream(row).unwrap_err();
        assert!(told.contains("8d590ae8 is printed, 8d590ae9 computed"), "{told}");
    }
}
