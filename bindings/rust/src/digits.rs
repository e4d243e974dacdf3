//! Octets from hexadecimal digits, as the standards print them.

/// The N octets of 2 N hexadecimal digits.
///
/// ```
/// assert_eq!(meshnode::digits::hex("0fa5"), [0x0f, 0xa5]);
/// ```
///
/// # Panics
///
/// Where these aren't 2 N digits.
pub fn hex<const N: usize>(digits: &str) -> [u8; N] {
    assert_eq!(digits.len(), 2 * N, "{digits} isn't {N} octets");
    std::array::from_fn(|i| u8::from_str_radix(&digits[2 * i..2 * i + 2], 16).expect("hexadecimal digits"))
}
