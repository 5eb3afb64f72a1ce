//! FNV-1a with 64 bits, over whole tables.

use crate::spelling::Spelled;
use crate::tally::{Head, Row};

const BASIS: u64 = 14_695_981_039_346_656_037;
const PRIME: u64 = 1_099_511_628_211;

fn add(sum: u64, bytes: &[u8]) -> u64 {
    bytes.iter().fold(sum, |sum, byte| {
        (sum ^ u64::from(*byte)).wrapping_mul(PRIME)
    })
}

/// The digest of a row table and a head table, numbers least byte first.
pub fn of_tables<K: Spelled>(rows: &[Row<K>], heads: &[Head]) -> u64 {
    let rows = rows.iter().fold(BASIS, |sum, row| {
        add(add(sum, &row.key.bytes()), &row.count.to_le_bytes())
    });
    heads.iter().fold(rows, |sum, head| {
        add(add(sum, &head.used.to_le_bytes()), &head.lost.to_le_bytes())
    })
}

#[cfg(test)]
mod tests {
    use super::*;
    use crate::keys::AddressKey;

    #[test]
    fn known_digests() {
        assert_eq!(of_tables::<AddressKey>(&[], &[]), BASIS);
        // The published digest of the one byte "a".
        assert_eq!(add(BASIS, b"a"), 0xaf63_dc4c_8601_ec8c);
        let row = Row {
            key: AddressKey(*b"SDDPT"),
            count: 0x0403_0201,
        };
        let head = Head { used: 5, lost: 6 };
        let bytes = b"SDDPT\x01\x02\x03\x04\x05\0\0\0\x06\0\0\0";
        assert_eq!(of_tables(&[row], &[head]), add(BASIS, bytes));
    }
}
