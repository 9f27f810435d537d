//! The bytes of arena and plan (docs/LAYOUT.md), written and read here by code of its own, so that what the library leaves
//! can be read and damaged bytes judged: causes 9 and 10. Fields are little-endian.

pub mod arena;
pub mod plan;

/// Takes fields and parts off the front of bytes.
struct Reader<'a> {
    rest: &'a [u8],
}

impl<'a> Reader<'a> {
    fn part(&mut self, length: usize) -> Option<&'a [u8]> {
        let (part, rest) = self.rest.split_at_checked(length)?;
        self.rest = rest;
        Some(part)
    }

    fn u32(&mut self) -> Option<u32> {
        Some(u32::from_le_bytes(
            self.part(4)?.try_into().expect("4 bytes"),
        ))
    }

    fn length(&mut self) -> Option<usize> {
        usize::try_from(self.u32()?).ok()
    }

    fn u64(&mut self) -> Option<u64> {
        Some(u64::from_le_bytes(
            self.part(8)?.try_into().expect("8 bytes"),
        ))
    }

    /// That many zero bytes.
    fn zeros(&mut self, count: usize) -> Option<()> {
        self.part(count)?
            .iter()
            .all(|&byte| byte == 0)
            .then_some(())
    }
}

/// A length as a field of 32 bits.
fn field(length: usize) -> [u8; 4] {
    u32::try_from(length)
        .expect("a length fits its field")
        .to_le_bytes()
}
