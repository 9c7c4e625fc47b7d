//! The record that `cardrun` appends to `use.bin` for an accepted crypt, ten bytes: the line, the cipher's number and, in
//! eight bytes, the highest first, how many bytes were enciphered.

/// The length of a record.
pub const LENGTH: usize = 10;

#[derive(Clone, Copy, Debug, PartialEq, Eq)]
pub struct Record {
    pub line: u8,
    pub cipher: u8,
    pub bytes: u64,
}

impl Record {
    /// The record as it is written.
    pub fn written(&self) -> [u8; LENGTH] {
        let shifts = (0..8).rev().map(|place| 8 * place);
        let mut whole = [self.line, self.cipher, 0, 0, 0, 0, 0, 0, 0, 0];
        whole[2..].iter_mut().zip(shifts).for_each(|(byte, shift)| *byte = (self.bytes >> shift) as u8);
        whole
    }

    /// The record that stands in ten bytes.
    pub fn read(bytes: &[u8]) -> Record {
        let number = bytes[2..LENGTH].iter().fold(0, |number, &byte| (number << 8) | u64::from(byte));
        Record { line: bytes[0], cipher: bytes[1], bytes: number }
    }
}

/// Records, one behind the other.
pub fn joined(records: &[Record]) -> Vec<u8> {
    records.iter().flat_map(Record::written).collect()
}

#[cfg(test)]
mod tests {
    use super::*;

    #[test]
    fn a_record_has_its_bytes_in_their_places() {
        let record = Record { line: 7, cipher: 6, bytes: 0x0102_0304_0506_0708 };
        assert_eq!(record.written(), [7, 6, 1, 2, 3, 4, 5, 6, 7, 8]);
        assert_eq!(Record::read(&[7, 6, 1, 2, 3, 4, 5, 6, 7, 8, 9]), record);
        let most = Record { line: 255, cipher: 0, bytes: u64::MAX };
        assert_eq!(
            (most.written(), Record::read(&most.written())),
            ([255, 0, 255, 255, 255, 255, 255, 255, 255, 255], most)
        );
        assert_eq!(joined(&[record, most]).len(), 2 * LENGTH);
    }
}
