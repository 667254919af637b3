//! Stream names: packed into fewer UTF-16 units, and back. The crate's three names take and answer `str`; those that end in
//! `_units` take any UTF-16 units, surrogates that stand alone too.

use crate::calls;
use crate::refusal::Result;

/// The longest name, and the longest stored form.
const MAX_NAME: usize = 65_535;
const MAX_STORED: usize = 65_536;

/// The units of a name. Of one that is over its size no more are made than show that it is.
fn units(name: &str) -> Vec<u16> {
    name.encode_utf16().take(MAX_STORED + 1).collect()
}

/// The stored form of a name. Refused with 22 where the name has more than 65,535 units.
///
/// ```
/// assert_eq!(strandroost::streamname::encode("Ab", true)?, "\u{4840}\u{414a}");
/// # Ok::<(), strandroost::Refusal>(())
/// ```
pub fn encode(name: &str, is_table: bool) -> Result<String> {
    // What was no surrogate standing alone does not become one.
    Ok(String::from_utf16_lossy(&encode_units(&units(name), is_table)?))
}

/// The name that a stored form stands for, and whether it is a table's. Refused with 22 where either is over its size.
///
/// ```
/// assert_eq!(strandroost::streamname::decode("\u{4824}-\u{4825}")?, ("a-b".to_string(), false));
/// # Ok::<(), strandroost::Refusal>(())
/// ```
pub fn decode(stored: &str) -> Result<(String, bool)> {
    let (name, is_table) = decode_units(&units(stored))?;
    Ok((String::from_utf16_lossy(&name), is_table))
}

/// Whether a name works as a stream's once it is encoded: it is not empty, has at most 31 units when it is stored, none of `/`, `\`,
/// `:` and `!`, which a container does not take, and no unit from 0x3800 to 0x483F, which would be shown as other letters; a plain name
/// does not begin with 0x4840. Such a name is decoded from its stored form as itself, with its flag. Refused with 22 where the name has
/// more than 65,535 units.
///
/// ```
/// use strandroost::streamname::{encode, is_valid};
///
/// assert_eq!(is_valid(&"a".repeat(60), true), Ok(true));
/// assert_eq!(is_valid(&"a".repeat(61), true), Ok(false));
/// assert_eq!(is_valid("fonts/latin", false), Ok(false));
/// // It is a check, and no call makes it: a stream that is named so already is still found by its stored form.
/// assert!(encode("fonts/latin", false).is_ok());
/// ```
pub fn is_valid(name: &str, is_table: bool) -> Result<bool> {
    is_valid_units(&units(name), is_table)
}

/// [`encode`] of units.
///
/// ```
/// assert_eq!(strandroost::streamname::encode_units(&[0xd800], false)?, [0xd800]);
/// # Ok::<(), strandroost::Refusal>(())
/// ```
pub fn encode_units(name: &[u16], is_table: bool) -> Result<Vec<u16>> {
    let mut out = vec![0; name.len().saturating_add(1).min(MAX_STORED)];
    let units = calls::encode(name, is_table, &mut out)?;
    out.truncate(units);
    Ok(out)
}

/// [`decode`] of units.
pub fn decode_units(stored: &[u16]) -> Result<(Vec<u16>, bool)> {
    let mut out = vec![0; stored.len().saturating_mul(2).min(MAX_NAME)];
    let (units, is_table) = calls::decode(stored, &mut out)?;
    out.truncate(units);
    Ok((out, is_table))
}

/// [`is_valid`] of units.
pub fn is_valid_units(name: &[u16], is_table: bool) -> Result<bool> {
    calls::is_valid(name, is_table)
}
