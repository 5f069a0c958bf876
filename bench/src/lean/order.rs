//! The 16-bit numbers of a message, by its byte order.

#[inline(always)]
pub fn number16<const BIG: bool>(octets: [u8; 2]) -> u16 {
    if BIG {
        u16::from_be_bytes(octets)
    } else {
        u16::from_le_bytes(octets)
    }
}

#[inline(always)]
pub fn octets16<const BIG: bool>(number: u16) -> [u8; 2] {
    if BIG {
        number.to_be_bytes()
    } else {
        number.to_le_bytes()
    }
}
