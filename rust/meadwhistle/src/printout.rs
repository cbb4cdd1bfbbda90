//! The printer's text.

use crate::ffi;

/// The printer's text for an input: two bytes of length, lowest first, a rule file of that length, then the events. It is a line
/// for the rule and one for each event; or `refused ` and the number of a [`Refusal`](crate::Refusal).
///
/// ```
/// let input = std::fs::read("../../crates/printer/stdin")?;
/// let text = meadwhistle::print(&input);
/// assert!(text.starts_with("rule 9\n6f 0000 waiting\n61 0000 waiting\n63 0003 waiting\n"));
///
/// assert_eq!(meadwhistle::print(b""), "refused 2\n");
/// # Ok::<(), std::io::Error>(())
/// ```
pub fn print(input: &[u8]) -> String {
    // Where the text doesn't fit, the call only says how long it is.
    let mut text = vec![0; ffi::print(input, &mut [])];
    ffi::print(input, &mut text);
    String::from_utf8_lossy(&text).into_owned()
}
