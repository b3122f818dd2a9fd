//! The version of the interface: the package's and the library's.
use crate::raw;

/// The version that this package is made for, raised when a layout or an answer of the library changes.
///
/// ```
/// assert_eq!(mogtriz::VERSION, 6);
/// ```
pub const VERSION: usize = raw::VERSION;

/// The version of the library that is linked. Where it is not [`VERSION`], what the library takes and gives may be other than
/// what this package says.
///
/// ```
/// assert_eq!(mogtriz::version(), mogtriz::VERSION);
/// ```
#[must_use]
pub fn version() -> usize {
    raw::mogtriz_version()
}
