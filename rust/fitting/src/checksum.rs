//! CRC-32, the checksum of ZIP and of Ethernet (ISO-HDLC). Any change of up to 32 adjacent bits
//! changes the checksum.

/// The checksum of bytes.
pub fn crc32(bytes: &[u8]) -> u32 {
    let mut rest = u32::MAX;
    for &byte in bytes {
        rest ^= u32::from(byte);
        for _ in 0..8 {
            let carried = rest & 1;
            rest = (rest >> 1) ^ (0xEDB8_8320 * carried);
        }
    }
    !rest
}

#[cfg(test)]
mod tests {
    use super::crc32;

    #[test]
    fn the_published_values() {
        assert_eq!(crc32(b""), 0);
        assert_eq!(crc32(b"123456789"), 0xCBF4_3926);
        assert_eq!(
            crc32(b"The quick brown fox jumps over the lazy dog"),
            0x414F_A339
        );
    }
}
