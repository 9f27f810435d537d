//! Where bytes that are no call record go wrong (rule R5), found by search and not field by field: the longest of their fronts that some valid record begins with.

use calls::record;

/// What every record begins with.
const START: &[u8] = b"TRP\x01\x00";

/// As many bytes as a record may lack at most: the rest of an argument, arguments and commands.
const MOST: usize = (1 << 16) + 1024 * 5 + 1024 * 19;

/// Whether the bytes are exactly one valid record's: they are read as one that is written so.
fn is_record(bytes: &[u8]) -> bool {
    record::parse(bytes).is_ok_and(|record| record::encode(&record) == bytes)
}

/// Whether some valid record begins with the first `front` of these bytes, which go on as `START` does and then with zeros. Zeros are tried alone: they end any
/// number at the least that it can be, and are arguments and commands as good as others. Where the record may end is asked of the reader, and tried.
fn begins(longer: &[u8], front: usize) -> bool {
    let end = record::parse(longer).expect_err("zeros that trail");
    end >= front && is_record(&longer[..end])
}

/// Where the bytes go wrong; nowhere if they are a valid record's.
pub fn searched(bytes: &[u8]) -> Option<usize> {
    if is_record(bytes) {
        return None;
    }
    let mut longer = START.to_vec();
    longer.resize(bytes.len() + START.len() + MOST, 0);
    let mut front = 0;
    for &byte in bytes {
        longer[front] = byte;
        if !begins(&longer, front + 1) {
            break;
        }
        front += 1;
    }
    Some(front)
}

#[cfg(test)]
mod tests {
    use super::searched;

    #[test]
    fn small_records() {
        let empty = b"TRP\x01\x00\x00\x00\x00";
        assert_eq!(searched(empty), None);
        for end in 0..empty.len() {
            assert_eq!(searched(&empty[..end]), Some(end));
        }
        assert_eq!(searched(&[&empty[..], b"T"].concat()), Some(empty.len()));
        assert_eq!(searched(b"TRP\x01\x01"), Some(4));
        assert_eq!(searched(b"TRP\x01\x00\x00\x01\x04"), Some(7));
        assert_eq!(searched(b"trp"), Some(0));
    }
}
