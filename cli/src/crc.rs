//! CRC-64/XZ, the checksum of an index file: the polynomial of ECMA-182, reflected, beginning and ending with all bits turned.

/// The polynomial, its highest power in the lowest bit.
const POLYNOMIAL: u64 = 0xC96C_5795_D787_0F42;
/// How many bytes are taken at a time.
const LANES: usize = 16;
/// What a byte contributes that has so many bytes behind it among those taken at a time.
static TABLES: [[u64; 256]; LANES] = tables();

/// The tables of all lanes.
const fn tables() -> [[u64; 256]; LANES] {
    let mut tables = [[0; 256]; LANES];
    let mut byte = 0;
    while byte < 256 {
        let mut rest = byte as u64;
        let mut bit = 0;
        while bit < 8 {
            rest = if rest & 1 == 1 { rest >> 1 ^ POLYNOMIAL } else { rest >> 1 };
            bit += 1;
        }
        tables[0][byte] = rest;
        byte += 1;
    }
    let mut lane = 1;
    while lane < LANES {
        let mut byte = 0;
        while byte < 256 {
            let before = tables[lane - 1][byte];
            tables[lane][byte] = before >> 8 ^ tables[0][(before & 0xFF) as usize];
            byte += 1;
        }
        lane += 1;
    }
    tables
}

/// A checksum under way.
pub struct Crc(u64);

impl Crc {
    /// The checksum of nothing, under way.
    pub fn new() -> Crc {
        Crc(!0)
    }

    /// The checksum with these bytes behind.
    pub fn with(self, bytes: &[u8]) -> Crc {
        let mut crc = self.0;
        let mut parts = bytes.chunks_exact(LANES);
        for part in &mut parts {
            let mut next = 0;
            for (at, &byte) in part.iter().enumerate() {
                let turned = if at < 8 { byte ^ (crc >> (8 * at)) as u8 } else { byte };
                next ^= TABLES[LANES - 1 - at][usize::from(turned)];
            }
            crc = next;
        }
        for &byte in parts.remainder() {
            crc = crc >> 8 ^ TABLES[0][usize::from(byte ^ crc as u8)];
        }
        Crc(crc)
    }

    /// The checksum.
    pub fn value(self) -> u64 {
        !self.0
    }
}

#[cfg(test)]
mod tests {
    use super::*;

    /// The checksum by its definition, a bit at a time.
    fn by_bits(bytes: &[u8]) -> u64 {
        let mut crc = !0;
        for &byte in bytes {
            crc ^= u64::from(byte);
            for _ in 0..8 {
                crc = if crc & 1 == 1 { crc >> 1 ^ POLYNOMIAL } else { crc >> 1 };
            }
        }
        !crc
    }

    #[test]
    fn has_the_published_check_values() {
        assert_eq!(Crc::new().with(b"123456789").value(), 0x995D_C9BB_DF19_39FA);
        assert_eq!(Crc::new().with(b"").value(), 0);
    }

    #[test]
    fn equals_the_checksum_by_bits_at_every_length_and_split() {
        let bytes: Vec<u8> = (0..100u32).map(|i| (i * i * 7 + 3) as u8).collect();
        for length in 0..bytes.len() {
            let (front, back) = bytes[..length].split_at(length / 3);
            assert_eq!(Crc::new().with(front).with(back).value(), by_bits(&bytes[..length]));
        }
    }
}
