//! A call record is sealed at one end and opened at the other; then one byte of it is changed on the way, and it is
//! refused. Exits with 0 if the record came back and the changed one was refused. `examples/c/record.c` is the same in C.

use pipeshear::{command, seal, unseal, Cipher, Refusal, SEAL};
use std::process::ExitCode;

/// A key and an IV for this record alone.
const KEY: [u8; 16] = [0x3D, 0x4C, 0x4B, 0xE9, 0x6A, 0x82, 0xFD, 0xAE, 0xB5, 0x8F, 0x64, 0x1D, 0xB1, 0x7B, 0x45, 0x5B];
const IV: [u8; 16] = [0x0F, 0x1E, 0x2D, 0x3C, 0x4B, 0x5A, 0x69, 0x78, 0x87, 0x96, 0xA5, 0xB4, 0xC3, 0xD2, 0xE1, 0xF0];
const REDUNDANCY: [u8; 8] = [0; 8];
const RECORD: &[u8; 32] = b"room 107, 12 minutes, 4.80 marks";

fn main() -> ExitCode {
    match record() {
        Ok(true) => ExitCode::SUCCESS,
        Ok(false) => {
            eprintln!("the record did not come back");
            ExitCode::FAILURE
        }
        Err(refusal) => {
            eprintln!("refused: {refusal}");
            ExitCode::FAILURE
        }
    }
}

/// Seals and opens the record, and opens it with a byte changed; returns whether it came back and was then refused.
fn record() -> Result<bool, Refusal> {
    let mut key = [0; command::KEY];
    key[..KEY.len()].copy_from_slice(&KEY);
    let (mut sealed, mut opened) = ([0; RECORD.len() + SEAL], [0; RECORD.len()]);

    let written = seal(Cipher::Zuc, &key, &IV, &REDUNDANCY, RECORD, &mut sealed)?;
    let digits: String = sealed[..written].iter().map(|byte| format!("{byte:02x}")).collect();
    println!("sealed, {written} bytes: {digits}");

    let written = unseal(Cipher::Zuc, &key, &IV, &REDUNDANCY, &sealed, &mut opened)?;
    println!("opened, {written} bytes: {}", String::from_utf8_lossy(&opened[..written]));

    sealed[5] ^= 1;
    let refused = unseal(Cipher::Zuc, &key, &IV, &REDUNDANCY, &sealed, &mut [0; RECORD.len()]);
    if let Err(refusal) = refused {
        println!("changed on the way: refused with code {}, 0 bytes written", refusal.code());
    }
    Ok(&opened == RECORD && refused.is_err())
}
