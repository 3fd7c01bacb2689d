//! Where a text is wrong.
use crate::calls::icu_locale_fault;
use crate::Refusal;
use std::ops::Range;

/// The bytes of the first piece of a text that no locale identifier of UTS #35 can have there, whatever follows; where each
/// piece can be, the end of the text. A text that is a locale identifier has none.
///
/// ```
/// assert_eq!(icu_locale_calls::fault("en-US-Latn"), Ok(Some(6..10)));
/// assert_eq!(icu_locale_calls::fault("en-US-u"), Ok(Some(7..7)));
/// assert_eq!(icu_locale_calls::fault("en-US"), Ok(None));
/// ```
///
/// # Errors
///
/// `Memory` where memory was asked for and refused.
pub fn fault(text: impl AsRef<[u8]>) -> Result<Option<Range<usize>>, Refusal> {
    let text = text.as_ref();
    let (mut from, mut to) = (0, 0);
    // SAFETY: as many bytes are read as the text has, and both numbers are written.
    match unsafe { icu_locale_fault(text.as_ptr(), text.len(), &mut from, &mut to) } {
        0 => Ok(None),
        1 => Ok(Some(from..to)),
        number => Err(Refusal::of_number(number)),
    }
}
