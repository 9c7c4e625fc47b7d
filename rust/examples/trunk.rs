//! A call between the two ends of a trunk. The near end enciphers two frames, parks the call and resumes it on another
//! line; a second resume is refused. The far end, another card with the same key, deciphers all of it in frames of
//! other lengths. Exits with 0 if the text came back. `examples/c/trunk.c` is the same in C.

use pipeshear::{command, Card, Cipher, Refusal, IMAGE};
use std::process::ExitCode;

const KEY: [u8; 16] = [0x3D, 0x4C, 0x4B, 0xE9, 0x6A, 0x82, 0xFD, 0xAE, 0xB5, 0x8F, 0x64, 0x1D, 0xB1, 0x7B, 0x45, 0x5B];
const IV: [u8; 16] = [0x84, 0x31, 0x9A, 0xA8, 0xDE, 0x69, 0x15, 0xCA, 0x1F, 0x6B, 0xDA, 0x6B, 0xFB, 0xD8, 0xC7, 0x66];
const TEXT: &[u8] = b"hello, ward 7: the doctor is on line 12.";

fn main() -> ExitCode {
    match trunk() {
        Ok(heard) if heard == TEXT => {
            println!("the text came back");
            ExitCode::SUCCESS
        }
        Ok(_) => {
            eprintln!("the text did not come back");
            ExitCode::FAILURE
        }
        Err(refusal) => {
            eprintln!("refused: {refusal}");
            ExitCode::FAILURE
        }
    }
}

/// Sends the text from end to end; returns what the far end hears.
fn trunk() -> Result<Vec<u8>, Refusal> {
    let (mut near_end, mut wire) = (opened(0)?, Vec::new());
    encipher(&mut near_end, 0, &mut wire, 7)?;
    encipher(&mut near_end, 0, &mut wire, 6)?;
    let mut image = [0; IMAGE];
    near_end.call(&command::park(0), &[], &[], &mut image)?;
    if let Err(refusal) = near_end.call(&command::crypt(0, 0), &[], &[], &mut []) {
        println!("parked: a crypt on line 0 is refused with code {}", refusal.code());
    }
    near_end.call(&command::resume(3, &image), &[], &[], &mut [])?;
    if let Err(refusal) = near_end.call(&command::resume(4, &image), &[], &[], &mut []) {
        println!("taken up: a second resume, on line 4, is refused with code {}", refusal.code());
    }
    encipher(&mut near_end, 3, &mut wire, 27)?;

    let (mut far_end, mut heard) = (opened(5)?, Vec::new());
    decipher(&mut far_end, 5, &wire, &mut heard, 16)?;
    decipher(&mut far_end, 5, &wire, &mut heard, 24)?;
    Ok(heard)
}

/// A card with one line open.
fn opened(line: u8) -> Result<Card, Refusal> {
    let mut key = [0; command::KEY];
    key[..KEY.len()].copy_from_slice(&KEY);
    let mut card = Card::new();
    card.call(&command::open_own(line, Cipher::Zuc, &key, &IV), &[], &[], &mut [])?;
    Ok(card)
}

/// Enciphers the next `count` bytes of the text and puts them on the wire.
fn encipher(near_end: &mut Card, line: u8, wire: &mut Vec<u8>, count: u16) -> Result<(), Refusal> {
    let frame = crypt(near_end, line, &TEXT[wire.len()..], count)?;
    let digits: String = frame.iter().map(|byte| format!("{byte:02x}")).collect();
    println!("near end, line {line}, {} bytes: {digits}", frame.len());
    wire.extend(frame);
    Ok(())
}

/// Deciphers the next `count` bytes of the wire.
fn decipher(far_end: &mut Card, line: u8, wire: &[u8], heard: &mut Vec<u8>, count: u16) -> Result<(), Refusal> {
    let frame = crypt(far_end, line, &wire[heard.len()..], count)?;
    println!("far end, line {line}, {} bytes: {}", frame.len(), String::from_utf8_lossy(&frame));
    heard.extend(frame);
    Ok(())
}

/// Enciphers or deciphers the first `count` bytes of data; returns them as a frame.
fn crypt(card: &mut Card, line: u8, data: &[u8], count: u16) -> Result<Vec<u8>, Refusal> {
    let mut frame = vec![0; usize::from(count)];
    card.call(&command::crypt(line, count), &[], data, &mut frame)?;
    Ok(frame)
}
