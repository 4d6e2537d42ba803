//! The tile bit that the Rust's entries have in ws as in wsc, where document 02 has it unused: "the bank belongs to the
//! colour model".

/// The bit at place 5 of an entry's second byte: 512 of the Rust's tile index.
pub const WS_BANK: u8 = 1 << 5;

/// The number of ws, in document 01's order.
const WS: u32 = 13;

/// The bytes of an entry, or of a map, without that bit where the mode of this number is ws: so the Rust reads them as
/// document 02 has it.
pub fn without_bank(mode: u32, bytes: &[u8]) -> Vec<u8> {
    let mut bytes = bytes.to_vec();
    if mode == WS {
        bytes.iter_mut().skip(1).step_by(2).for_each(|byte| *byte &= !WS_BANK);
    }
    bytes
}
