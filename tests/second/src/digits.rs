//! Numbers in base ten.

/// How many digits the number has; 0 has one.
pub fn count(number: u32) -> u32 {
    number.checked_ilog10().map_or(1, |power| power + 1)
}

/// "Width at least 1 and number below ten to the width", without the power: it would
/// outgrow every integer long before the widest width.
pub fn fits(number: u32, width: u32) -> bool {
    width >= 1 && count(number) <= width
}

/// No leading zeros, 0 as "0".
pub fn print(number: u32) -> Vec<u8> {
    number.to_string().into_bytes()
}

/// Padded with zeros up to the width.
pub fn pad(number: u32, width: u32) -> Vec<u8> {
    let zeros = width.saturating_sub(count(number)) as usize;
    [vec![b'0'; zeros], print(number)].concat()
}

/// Nothing if the number doesn't fit.
pub fn print_padded(number: u32, width: u32) -> Option<Vec<u8>> {
    fits(number, width).then(|| pad(number, width))
}
