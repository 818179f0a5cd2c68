//! CRC-64 (the reflected polynomial of ECMA-182, as xz has it): every flipped bit and every burst of up to 64 bits is seen. It guards against damage,
//! not against forgery.

const POLYNOMIAL: u64 = 0xc96c_5795_d787_0f42;

/// By byte; the table at place k is for a byte with k zero bytes behind it.
static TABLES: [[u64; 256]; 8] = tables();

const fn tables() -> [[u64; 256]; 8] {
    let mut tables = [[0; 256]; 8];
    let mut byte = 0;
    while byte < 256 {
        let (mut crc, mut bit) = (byte as u64, 0);
        while bit < 8 {
            crc = if crc & 1 == 1 { (crc >> 1) ^ POLYNOMIAL } else { crc >> 1 };
            bit += 1;
        }
        tables[0][byte] = crc;
        byte += 1;
    }
    let mut at = 256;
    while at < 8 * 256 {
        let before = tables[at / 256 - 1][at % 256];
        tables[at / 256][at % 256] = (before >> 8) ^ tables[0][(before & 255) as usize];
        at += 1;
    }
    tables
}

/// The checksum of what `checksum` is of, followed by these bytes; 0 is that of nothing.
pub fn extend(checksum: u64, bytes: &[u8]) -> u64 {
    let mut crc = !checksum;
    let mut words = bytes.chunks_exact(8);
    for word in &mut words {
        let mixed = crc ^ u64::from_le_bytes(word.try_into().expect("eight bytes"));
        crc = (0..8).fold(0, |sum, k| sum ^ TABLES[7 - k][(mixed >> (8 * k) & 255) as usize]);
    }
    for byte in words.remainder() {
        crc = (crc >> 8) ^ TABLES[0][((crc ^ u64::from(*byte)) & 255) as usize];
    }
    !crc
}

#[cfg(test)]
mod tests {
    use super::extend;

    #[test]
    fn the_known_value() {
        assert_eq!(extend(0, b"123456789"), 0x995d_c9bb_df19_39fa);
        assert_eq!(extend(extend(0, b"12345"), b"6789"), 0x995d_c9bb_df19_39fa);
        assert_eq!(extend(0, b""), 0);
    }
}
