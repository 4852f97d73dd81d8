// The screen sheet and the nine-byte comparison. Document 01, "Screen sheet",
// "Refusal numbers" and the end of "Rows and pixels".

use crate::machine::{Refusal, FIRST_PARAMETER, LAST_PARAMETER, PARAMETERS};

/// Fourteen fields of five bytes: a tag, a two-byte length, a two-byte value.
pub const SHEET_LENGTH: usize = 70;

/// Reads a sheet, left to right. At each field: 30 if fewer than three bytes are
/// left, 31, 32, then 30 if fewer than two are left; 33 after the last field.
pub fn read_sheet(sheet: &[u8]) -> Result<[u32; PARAMETERS], Refusal> {
    let mut values = [0; PARAMETERS];
    let mut left = sheet;
    for (number, value) in values.iter_mut().enumerate() {
        // 30: sheet ends early.
        let [tag, high, low, rest @ ..] = left else {
            return Err(30);
        };
        // 31: tag not the one due.
        if u32::from(*tag) != FIRST_PARAMETER + number as u32 {
            return Err(31);
        }
        // 32: length not 2.
        if two_bytes(*high, *low) != 2 {
            return Err(32);
        }
        // 30: sheet ends early.
        let [high, low, rest @ ..] = rest else {
            return Err(30);
        };
        *value = two_bytes(*high, *low);
        left = rest;
    }
    // 33: bytes left over.
    if !left.is_empty() {
        return Err(33);
    }
    Ok(values)
}

/// A two-byte number, high byte first.
fn two_bytes(high: u8, low: u8) -> u32 {
    u32::from(high) * 256 + u32::from(low)
}

/// One field of a whole good sheet by its tag, as the C call gives it. A tag
/// outside #21 to #2E gets 31 first.
pub fn sheet_field(tag: u32, sheet: &[u8]) -> Result<u32, Refusal> {
    if !(FIRST_PARAMETER..=LAST_PARAMETER).contains(&tag) {
        return Err(31);
    }
    let values = read_sheet(sheet)?;
    Ok(values[(tag - FIRST_PARAMETER) as usize])
}

/// Writes a sheet. Order: 34, 35. Bytes past 70 are left alone; a refusal leaves
/// all of them alone.
pub fn write_sheet(values: &[u32; PARAMETERS], room: &mut [u8]) -> Result<(), Refusal> {
    // 34: sheet value over 65,535.
    if values.iter().any(|&value| value > 65_535) {
        return Err(34);
    }
    // 35: room for fewer than 70 bytes.
    if room.len() < SHEET_LENGTH {
        return Err(35);
    }
    let mut sheet = Vec::with_capacity(SHEET_LENGTH);
    for (number, &value) in values.iter().enumerate() {
        sheet.push((FIRST_PARAMETER + number as u32) as u8);
        sheet.extend_from_slice(&[0, 2]);
        sheet.extend_from_slice(&[(value / 256) as u8, (value % 256) as u8]);
    }
    for (to, from) in room.iter_mut().zip(sheet) {
        *to = from;
    }
    Ok(())
}

/// The nine-byte comparison: the two match exactly when all nine bytes are
/// equal. 24: a checksum to compare is not nine bytes long.
pub fn compare(left: &[u8], right: &[u8]) -> Result<bool, Refusal> {
    if left.len() != 9 || right.len() != 9 {
        return Err(24);
    }
    Ok(left == right)
}
