//! The cipher card for an exchange: eight lines, enciphered with the stream ciphers of ISO/IEC 18033-4.
//!
//! A [`Card`] runs one command at a time. The functions of [`command`] make commands; a refused one returns a
//! [`Refusal`] and leaves card and buffers as they were. [`seal()`] and [`unseal()`] need no card: they seal a record as a
//! whole, so that a changed one is refused. The card itself and this pair are the proved library `libpipeshear.a`.
//!
//! A line is opened with SNOW 2.0 and enciphers sixteen bytes:
//!
//! ```
//! use pipeshear::{command, Card, Cipher};
//!
//! let mut card = Card::new();
//! let mut key = [0; 32];
//! key[0] = 0x80;
//! card.call(&command::open_own(0, Cipher::Snow2Key16, &key, &[0; 16]), &[], &[], &mut [])?;
//!
//! let mut out = [0; 16];
//! let counts = card.call(&command::crypt(0, 16), &[], &[0; 16], &mut out)?;
//! assert_eq!(counts.written, 16);
//! assert_eq!(out[..4], [0x8D, 0x59, 0x0A, 0xE9]);
//! # Ok::<(), pipeshear::Refusal>(())
//! ```
//!
//! A call is parked and continues, on another line, from the byte where it stopped. Its image can be resumed on the
//! card that parked it, once. Each line numbers its own parks, so that a busy line uses up no other's numbers:
//!
//! ```
//! use pipeshear::{command, Card, Cipher, IMAGE};
//!
//! let mut card = Card::new();
//! card.call(&command::open_own(2, Cipher::Snow2Key32, &[7; 32], &[0; 16]), &[], &[], &mut [])?;
//! let mut whole = card.clone();
//!
//! let mut first = [0; 7];
//! card.call(&command::crypt(2, 7), &[], b"hello, ", &mut first)?;
//! let mut image = [0; IMAGE];
//! card.call(&command::park(2), &[], &[], &mut image)?;
//!
//! card.call(&command::resume(5, &image), &[], &[], &mut [])?;
//! let mut second = [0; 6];
//! card.call(&command::crypt(5, 6), &[], b"ward 7", &mut second)?;
//!
//! let mut all = [0; 13];
//! whole.call(&command::crypt(2, 13), &[], b"hello, ward 7", &mut all)?;
//! assert_eq!([&first[..], &second].concat(), all);
//!
//! let again = card.call(&command::resume(6, &image), &[], &[], &mut []).unwrap_err();
//! assert_eq!(again.to_string(), "park number not held for the line in the image (code 14)");
//! # Ok::<(), pipeshear::Refusal>(())
//! ```
//!
//! A line cannot be opened with a blank key, such as an empty record of the tray:
//!
//! ```
//! use pipeshear::{command, Card, Cipher};
//!
//! let open = command::open_tray(0, Cipher::Zuc, 0, &[5; 16]);
//! let refusal = Card::new().call(&open, &[0; 32], &[], &mut []).unwrap_err();
//! assert_eq!(refusal.to_string(), "key all zero (code 16)");
//! ```
//!
//! A line can be loaded with its key before the call, and started with the IV when the call is picked up:
//!
//! ```
//! use pipeshear::{command, Card, Cipher};
//!
//! let mut tray = [0; 32];
//! tray[..16].fill(7);
//! let mut iv = [0; 16];
//! iv[..8].fill(9);
//! let (mut card, mut other) = (Card::new(), Card::new());
//! card.call(&command::load(0, Cipher::Rabbit, 0), &tray, &[], &mut [])?;
//! card.call(&command::start(0, &iv), &[], &[], &mut [])?;
//!
//! other.call(&command::open_tray(0, Cipher::Rabbit, 0, &iv), &tray, &[], &mut [])?;
//! assert_eq!(card, other);
//!
//! let again = card.call(&command::start(0, &iv), &[], &[], &mut []).unwrap_err();
//! assert_eq!(again.to_string(), "start on a line that is not loaded (code 19)");
//! # Ok::<(), pipeshear::Refusal>(())
//! ```
//!
//! The key of a line can be changed while its call runs. Both ends send the same change, with the position from which on
//! the new key is used; their frames need not be the same:
//!
//! ```
//! use pipeshear::{command, Card, Cipher};
//!
//! let mut tray = [7; 64];
//! tray[32..].fill(8);
//! let mut near_end = Card::new();
//! near_end.call(&command::open_tray(0, Cipher::Snow2Key32, 0, &[0; 16]), &tray, &[], &mut [])?;
//! let mut far_end = near_end.clone();
//!
//! let change = command::change_key(0, 1, &[9; 16], 5);
//! near_end.call(&change, &tray, &[], &mut [])?;
//! far_end.call(&change, &tray, &[], &mut [])?;
//!
//! let (mut wire, mut heard) = ([0; 13], [0; 13]);
//! near_end.call(&command::crypt(0, 13), &[], b"hello, ward 7", &mut wire)?;
//! far_end.call(&command::crypt(0, 3), &[], &wire, &mut heard)?;
//! far_end.call(&command::crypt(0, 10), &[], &wire[3..], &mut heard[3..])?;
//! assert_eq!(&heard, b"hello, ward 7");
//! # Ok::<(), pipeshear::Refusal>(())
//! ```

#![deny(missing_docs)]
#![deny(unsafe_code)]
#![deny(unsafe_op_in_unsafe_fn)]

mod card;
mod cipher;
pub mod command;
#[allow(unsafe_code)]
mod raw;
mod record;
mod refusal;

pub use card::{Card, Counts};
pub use cipher::Cipher;
pub use raw::{raw_call, raw_seal, raw_unseal};
pub use record::{seal, unseal, MESSAGE, REDUNDANCY, SEAL};
pub use refusal::Refusal;

/// The bytes of a parked line's image: the cipher's number, the position in eight bytes, the line that was parked, the
/// park's number in four bytes, and the state, with zeros after a shorter one.
pub const IMAGE: usize = 166;
