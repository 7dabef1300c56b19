//! The 16-bit check of ISO/IEC 13239, one bit after the other: x^16 + x^12 + x^5 + 1, low bit first.

/// The polynomial with its bits turned round, since bytes go in low bit first.
const TURNED_POLYNOMIAL: u16 = 0x8408;

/// The check of these bytes.
pub fn check(bytes: &[u8]) -> u16 {
    let bits = bytes.iter().flat_map(|byte| (0..8).map(move |place| u16::from(byte >> place & 1)));
    let register = bits.fold(0xFFFF, |register: u16, bit| {
        let feedback = (register ^ bit) & 1;
        (register >> 1) ^ (feedback * TURNED_POLYNOMIAL)
    });
    !register
}

/// The check as it is sent: low byte first.
pub fn sent_check(bytes: &[u8]) -> [u8; 2] {
    check(bytes).to_le_bytes()
}
