//! The C interface: the functions of `include/pipeshear.h`, and calls of them on slices. All unsafe code is here.

extern "C" {
    fn pipeshear_call(
        card: *mut u32,
        card_words: usize,
        command: *const u8,
        command_bytes: usize,
        tray: *const u8,
        tray_bytes: usize,
        data: *const u8,
        data_bytes: usize,
        out: *mut u8,
        out_bytes: usize,
        counts: *mut usize,
        places: usize,
    ) -> u8;

    fn pipeshear_seal(
        cipher: u8,
        key: *const u8,
        key_bytes: usize,
        iv: *const u8,
        iv_bytes: usize,
        redundancy: *const u8,
        redundancy_bytes: usize,
        message: *const u8,
        message_bytes: usize,
        out: *mut u8,
        out_bytes: usize,
        written: *mut usize,
        places: usize,
    ) -> u8;

    fn pipeshear_unseal(
        cipher: u8,
        key: *const u8,
        key_bytes: usize,
        iv: *const u8,
        iv_bytes: usize,
        redundancy: *const u8,
        redundancy_bytes: usize,
        sealed: *const u8,
        sealed_bytes: usize,
        out: *mut u8,
        out_bytes: usize,
        written: *mut usize,
        places: usize,
    ) -> u8;
}

/// A call on a card whose words the caller stores; [`Card::call`](crate::Card::call) is the same on a
/// [`Card`](crate::Card).
///
/// Returns the code, 0 for an accepted command. `counts` are the bytes used of `command`, the bytes used of `data` and
/// the bytes written to `out`, all 0 if the command is refused. Slices of any length may be passed: the code is 255 if
/// `card` does not have [`Card::WORDS`](crate::Card::WORDS) words, and also if `counts` does not have three places;
/// `counts` is then not changed.
///
/// ```
/// let (mut words, mut counts) = ([0; pipeshear::Card::WORDS], [0; 3]);
/// let code = pipeshear::raw_call(&mut words, &pipeshear::command::close(3), &[], &[], &mut [], &mut counts);
/// assert_eq!(code, 6);
/// ```
pub fn raw_call(
    card: &mut [u32],
    command: &[u8],
    tray: &[u8],
    data: &[u8],
    out: &mut [u8],
    counts: &mut [usize],
) -> u8 {
    // SAFETY: each pointer is a slice's, so it is not null, also where the slice is empty, and leads to as many places
    // as the length after it says. What the call changes (card, out and counts) is borrowed by `&mut`, so nothing else
    // overlaps it. The call keeps no pointer and has no state of its own.
    unsafe {
        pipeshear_call(
            card.as_mut_ptr(),
            card.len(),
            command.as_ptr(),
            command.len(),
            tray.as_ptr(),
            tray.len(),
            data.as_ptr(),
            data.len(),
            out.as_mut_ptr(),
            out.len(),
            counts.as_mut_ptr(),
            counts.len(),
        )
    }
}

/// A message sealed with slices of any length; [`seal`](crate::seal()) is the same with arrays.
///
/// Returns the code, 0 for a message that was sealed. `written` is the bytes written to `out`, 0 if it is refused. The
/// code is 255 and nothing is changed, `written` neither, if `key` does not have 32 bytes, `iv` 16 and `redundancy` 8, or
/// if `written` does not have one place.
///
/// ```
/// let (mut sealed, mut written) = ([0; 24], [0; 1]);
/// let code = pipeshear::raw_seal(1, &[0; 32], &[0; 16], &[0; 8], b"room 107", &mut sealed, &mut written);
/// assert_eq!((code, written), (16, [0]));
/// ```
pub fn raw_seal(
    cipher: u8,
    key: &[u8],
    iv: &[u8],
    redundancy: &[u8],
    message: &[u8],
    out: &mut [u8],
    written: &mut [usize],
) -> u8 {
    // SAFETY: each pointer is a slice's, so it is not null, also where the slice is empty, and leads to as many places
    // as the length after it says. What the call changes (out and written) is borrowed by `&mut`, so nothing else
    // overlaps it. The call keeps no pointer and has no state of its own.
    unsafe {
        pipeshear_seal(
            cipher,
            key.as_ptr(),
            key.len(),
            iv.as_ptr(),
            iv.len(),
            redundancy.as_ptr(),
            redundancy.len(),
            message.as_ptr(),
            message.len(),
            out.as_mut_ptr(),
            out.len(),
            written.as_mut_ptr(),
            written.len(),
        )
    }
}

/// A sealed message opened with slices of any length; [`unseal`](crate::unseal()) is the same with arrays.
///
/// Returns the code, 0 for a message that was opened; all else is as in [`raw_seal`].
pub fn raw_unseal(
    cipher: u8,
    key: &[u8],
    iv: &[u8],
    redundancy: &[u8],
    sealed: &[u8],
    out: &mut [u8],
    written: &mut [usize],
) -> u8 {
    // SAFETY: as in `raw_seal`.
    unsafe {
        pipeshear_unseal(
            cipher,
            key.as_ptr(),
            key.len(),
            iv.as_ptr(),
            iv.len(),
            redundancy.as_ptr(),
            redundancy.len(),
            sealed.as_ptr(),
            sealed.len(),
            out.as_mut_ptr(),
            out.len(),
            written.as_mut_ptr(),
            written.len(),
        )
    }
}

#[cfg(test)]
mod tests {
    use super::*;
    use crate::Card;

    #[test]
    fn other_lengths_are_255_and_nothing_is_changed() {
        let whole = Card::WORDS;
        for (words, places) in [(0, 3), (whole - 1, 3), (whole + 1, 3), (whole, 0), (whole, 2), (whole, 4)] {
            let (mut card, mut out, mut counts) = (vec![0; words], [7; 9], vec![5; places]);
            let code = raw_call(&mut card, &[3, 0, 0, 9], &[], &[1; 9], &mut out, &mut counts);
            assert_eq!((code, out), (255, [7; 9]));
            assert!(card.iter().all(|&word| word == 0));
            let left = if places == 3 { 0 } else { 5 };
            assert!(counts.iter().all(|&count| count == left));
        }
    }

    #[test]
    fn other_lengths_of_a_records_arrays_are_255_and_nothing_is_changed() {
        let lengths = [(31, 16, 8, 1), (33, 16, 8, 1), (32, 15, 8, 1), (32, 16, 7, 1), (32, 16, 8, 0), (32, 16, 8, 2)];
        for (key, iv, redundancy, places) in lengths {
            for pair in [raw_seal, raw_unseal] {
                let (mut out, mut written) = ([7; 40], vec![5; places]);
                let (key, iv, redundancy) = (vec![9; key], vec![9; iv], vec![9; redundancy]);
                let code = pair(4, &key, &iv, &redundancy, &[1; 24], &mut out, &mut written);
                assert_eq!((code, out, written), (255, [7; 40], vec![5; places]));
            }
        }
    }
}
