//! Names (JVMS 4.2), class names and the method identifier.
use crate::raw;
use crate::refusal::{accepted, written, Refusal};

/// Whether the text is a class name alone: segments joined by `/`, all but the last non-empty, without `. ; [ < >`.
///
/// Class names inside a descriptor are stricter: their last segment is not empty either.
///
/// ```
/// use nikorepum::{class_name, Reason};
///
/// assert!(class_name(b"cycle/Log").is_ok());
/// let refusal = class_name(b"a;").unwrap_err();
/// assert_eq!((refusal.reason, refusal.place), (Reason::LoneSemicolon, 1));
/// ```
pub fn class_name(text: &[u8]) -> Result<(), Refusal> {
    accepted(raw::class_name(text)).map(|_| ())
}

/// Writes the method identifier, the bytes of the name and then those of the descriptor, and returns its length.
///
/// The name may be `<init>` or `<clinit>`. The place of a refused descriptor is the one in the descriptor. The output
/// is untouched past the identifier, and untouched altogether by a refusal.
///
/// ```
/// let mut out = [0; 32];
/// let length = nikorepum::method_identifier(b"<init>", b"(I)V", &mut out)?;
/// assert_eq!(&out[..length], b"<init>(I)V");
/// # Ok::<(), nikorepum::Refusal>(())
/// ```
pub fn method_identifier(name: &[u8], descriptor: &[u8], out: &mut [u8]) -> Result<usize, Refusal> {
    written(raw::identifier(name, descriptor, out))
}

/// Whether the text is unqualified names with a `/` between each two (JVMS 4.2.1).
///
/// ```
/// assert!(nikorepum::is_binary_name(b"cycle/Log"));
/// assert!(!nikorepum::is_binary_name(b"cycle//Log"));
/// ```
pub fn is_binary_name(text: &[u8]) -> bool {
    raw::is_binary_name(text)
}

/// Whether the text has a byte at least and none of `. ; [ /` (JVMS 4.2.2).
///
/// ```
/// assert!(nikorepum::is_unqualified_name(b"serial"));
/// assert!(!nikorepum::is_unqualified_name(b"a.b"));
/// ```
pub fn is_unqualified_name(text: &[u8]) -> bool {
    raw::is_unqualified_name(text)
}

/// Whether the text is an unqualified name without `<` and `>`, or a special name that is allowed (JVMS 4.2.2).
///
/// ```
/// use nikorepum::is_method_name;
///
/// assert!(is_method_name(b"log", false, false));
/// assert!(!is_method_name(b"<init>", false, true));
/// assert!(is_method_name(b"<init>", true, false));
/// ```
pub fn is_method_name(text: &[u8], allow_init: bool, allow_clinit: bool) -> bool {
    raw::is_method_name(text, allow_init, allow_clinit)
}

/// Whether the text has no byte of 0 to 31, and `\`, `:` and `@` only in the pairs `\\`, `\:` and `\@` (JVMS 4.2.3).
/// The empty text is one.
///
/// ```
/// assert!(nikorepum::is_module_name(br"cycle\:log"));
/// assert!(!nikorepum::is_module_name(b"cycle:log"));
/// ```
pub fn is_module_name(text: &[u8]) -> bool {
    raw::is_module_name(text)
}
