//! The tag's CRC-16.

/// What eight steps make of a register that holds this byte above and 0 below.
const fn crc_steps(byte: u8) -> u16 {
    let mut crc = (byte as u16) << 8;
    let mut step = 0;
    while step < 8 {
        let carry = crc & 0x8000 != 0;
        crc <<= 1;
        if carry {
            crc ^= 0x1021;
        }
        step += 1;
    }
    crc
}

static CRC_STEPS: [u16; 256] = {
    let mut table = [0; 256];
    let mut byte = 0;
    while byte < 256 {
        table[byte] = crc_steps(byte as u8);
        byte += 1;
    }
    table
};

/// "Gen2: polynomial 1021 hex, preset FFFF, complemented, high byte first", a byte at a time.
pub fn crc16(bytes: &[u8]) -> u16 {
    let mut crc: u16 = 0xFFFF;
    for b in bytes {
        crc = (crc << 8) ^ CRC_STEPS[usize::from((crc >> 8) as u8 ^ b)];
    }
    !crc
}
